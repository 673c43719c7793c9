#!/usr/bin/env python3
"""Times handles that are made in 1,000 groups, and released by their numbers and by their groups.

    python3 bench/handles.py [HANDLES ..]        (default 100000 200000 500000 1000000)

Builds a small program over `object_groups` in a folder of its own. A session holds at most 100,000 handles, so they are
made and released by turns: 50,000 are made and released one by one, then 50,000 and released by their groups. Prints one
line a size: the handles, how many of them were refused or are still held, and the milliseconds of making, of releasing by
number and of releasing by group. All should grow with the handles. It is no part of the gate.
"""

import sys
import tempfile

from programs import Program

PROGRAM = r"""// Times handles.
#![tactic(auto)]

use js_heap::value::Addr;
use object_groups::{Handles, Target};
use std::time::Instant;

const TURN: u32 = 50_000;

/// Makes handles in 1,000 groups; how many were refused.
fn make(handles: &mut Handles) -> u64 {
    let mut refused: u64 = 0;
    for k in 0..TURN {
        let group = [(k % 1_000) as u16];
        if handles.make(Target::Object(Addr::Base(k)), Some(&group)).is_err() {
            refused = refused.saturating_add(1);
        }
    }
    refused
}

/// Releases as many handles from a number on; how many there weren't.
fn release(handles: &mut Handles, first: u64) -> u64 {
    let mut missing: u64 = 0;
    for k in 0..TURN {
        if !handles.release(first.saturating_add(u64::from(k))) {
            missing = missing.saturating_add(1);
        }
    }
    missing
}

/// Releases all groups; how many handles weren't in one.
fn release_groups(handles: &mut Handles) -> u64 {
    let mut left = u64::from(TURN);
    for group in 0..1_000u16 {
        left = left.saturating_sub(handles.release_group(&[group]) as u64);
    }
    left
}

fn main(rt: HostRuntime) -> anyhow::Result<()> {
    let text = std::fs::read_to_string(&rt, "source.js")?;
    let Ok(turns) = text.trim().parse::<u32>() else {
        anyhow::bail!("no number");
    };
    let mut handles = Handles::new(rt.alloc());
    let mut wrong: u64 = 0;
    let mut first: u64 = 1;
    let (mut making, mut by_number, mut by_group) = (0u128, 0u128, 0u128);
    for turn in 0..turns {
        let start = Instant::now(&rt)?;
        wrong = wrong.saturating_add(make(&mut handles));
        making = making.saturating_add(start.elapsed(&rt)?.as_micros());
        let start = Instant::now(&rt)?;
        if turn % 2 == 0 {
            wrong = wrong.saturating_add(release(&mut handles, first));
            by_number = by_number.saturating_add(start.elapsed(&rt)?.as_micros());
        } else {
            wrong = wrong.saturating_add(release_groups(&mut handles));
            by_group = by_group.saturating_add(start.elapsed(&rt)?.as_micros());
        }
        first = first.saturating_add(u64::from(TURN));
    }
    let (making, by_number, by_group) = (making / 1_000, by_number / 1_000, by_group / 1_000);
    println!(rt; "{wrong} {making} {by_number} {by_group}")?;
    Ok(())
}
"""


def main():
    sizes = [int(word) for word in sys.argv[1:]] or [100000, 200000, 500000, 1000000]
    with tempfile.TemporaryDirectory() as folder:
        program = Program(folder, PROGRAM, ["js_heap", "object_groups", "anyhow"])
        print("handles refused making by_number by_group")
        for size in sizes:
            print(size, *program.run(str(size // 50000)), flush=True)


if __name__ == "__main__":
    main()
