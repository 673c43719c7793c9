#!/usr/bin/env python3
"""Counts the turns a second that threads take of one history lock, beside a mutex of plain Rust.

    python3 bench/turns.py [TURNS]        (default 400000)

1, 2, 4 and 16 threads take so many turns in all, each of which puts a row into a log: by the program `crates/history_lock_trial`, which
`rt run` proves and builds first, and by the same with `std::sync::Mutex`, which rustc builds. Either then looks at all rows.
Prints for each how many turns a second it made, the ratio, and the processor seconds of a million turns; and at last what
waiting costs: four and sixteen threads hold each of 160 turns for 20 milliseconds, while all others wait. It is no part of
the gate.
"""

import os
import subprocess
import sys
import tempfile

from measured import run

TOP = os.path.dirname(os.path.dirname(os.path.abspath(__file__)))

MUTEX = r"""use std::sync::Mutex;

fn main() {
    let words: Vec<u64> = std::env::args().skip(1).map(|word| word.parse().unwrap()).collect();
    let (threads, turns) = (words[0], words[1]);
    let log = Mutex::new(Vec::<(u64, u64)>::new());
    std::thread::scope(|scope| {
        for thread in 0..threads {
            let log = &log;
            scope.spawn(move || {
                for count in 0..turns {
                    log.lock().unwrap().push((thread, count));
                }
            });
        }
    });
    let rows = log.into_inner().unwrap();
    let mut counts = vec![0_u64; threads as usize];
    for (thread, count) in &rows {
        assert_eq!(counts[*thread as usize], *count);
        counts[*thread as usize] += 1;
    }
    println!("{threads} threads: {} rows, each thread's in order", rows.len());
}
"""


def mutex_program(folder):
    """Builds the program over a mutex; gives its path."""
    source = os.path.join(folder, "mutex.rs")
    with open(source, "w") as f:
        f.write(MUTEX)
    path = os.path.join(folder, "mutex")
    subprocess.run(["rustc", "-O", "-o", path, source], check=True)
    return path


def lock_program():
    """Proves and builds the program over the lock; gives its path."""
    crate = os.path.join(TOP, "crates", "history_lock_trial")
    subprocess.run(["rt", "run"], cwd=crate, check=True, stdout=subprocess.DEVNULL)
    return os.path.join(crate, "out", "history_lock_trial")


def least(path, folder, threads, turns):
    """The least seconds by the clock and of the processor, of five runs."""
    runs = [run(path, [str(threads), str(turns)], folder) for _ in range(5)]
    assert all(one.status == 0 for one in runs), runs
    return min(one.seconds for one in runs), min(one.processor for one in runs)


def main():
    total = int(sys.argv[1]) if len(sys.argv) > 1 else 400000
    lock = lock_program()
    with tempfile.TemporaryDirectory() as folder:
        mutex = mutex_program(folder)
        for threads in [1, 2, 4, 16]:
            ours, plain = (least(path, folder, threads, total // threads) for path in [lock, mutex])
            print(
                f"{threads} threads: {total / ours[0]:.0f} turns a second, a mutex {total / plain[0]:.0f}, "
                f"ratio {ours[0] / plain[0]:.2f}; processor seconds a million {ours[1] * 1e6 / total:.2f} and {plain[1] * 1e6 / total:.2f}"
            )
        for threads in [4, 16]:
            waits = run(lock, [str(threads), str(160 // threads), "20"], folder)
            print(f"{threads} threads, one at a time for 20 ms: {waits.seconds:.2f} seconds, {waits.processor:.3f} of a processor")


main()
