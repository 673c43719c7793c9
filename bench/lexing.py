#!/usr/bin/env python3
"""Times the lexer and the table of line starts over sources of growing size.

    python3 bench/lexing.py [UNITS ..]        (default 131072 262144 524288 1048576)

Builds a small program over `cdp_text` and `js_lexer` in a folder of its own, gives it sources that hold every kind of
token, and prints one line a size: the units, the tokens, the milliseconds of lexing, and those of making the table and
finding the position of every token by it. All should grow with the units. It is no part of the gate.
"""

import sys
import tempfile

from programs import Program

PROGRAM = r"""// Times the lexer.
#![tactic(auto)]

use cdp_text::line_table::LineTable;
use cdp_text::units::units_of;
use js_lexer::tokens::Tokens;
use std::time::Instant;

fn main(rt: HostRuntime) -> anyhow::Result<()> {
    let alloc = rt.alloc();
    let text = std::fs::read_to_string(&rt, "source.js")?;
    let source = units_of(alloc, text.as_str())?;
    let units = source.as_slice();
    anyhow::ensure!(units.len() < 1 << 32, "too long");
    let start = Instant::now(&rt)?;
    let mut starts = Vec::new(alloc);
    let mut bad = 0u64;
    for token in Tokens::new(units) {
        match token {
            Ok(token) => starts.push(token.start)?,
            Err(_) => bad = 1,
        }
    }
    let lexing = start.elapsed(&rt)?;
    let start = Instant::now(&rt)?;
    let table = LineTable::new(alloc, units)?;
    let mut sum = 0u64;
    for at in &starts {
        if *at <= units.len() {
            sum = sum.wrapping_add(u64::from(table.pos_at(units, *at).line));
        }
    }
    let finding = start.elapsed(&rt)?;
    let (count, tokens) = (units.len(), starts.len());
    let (lexing, finding) = (lexing.as_millis(), finding.as_millis());
    println!(rt; "{count} {tokens} {lexing} {finding} {bad} {sum}")?;
    Ok(())
}
"""

LINE = "function f1(a, b) { /* a comment */ let x = 'text\\n' + a >>> 0x1F; return x === b; } // to the end\n"


def source(units):
    return (LINE * (units // len(LINE) + 1))[: units // len(LINE) * len(LINE)]


def main():
    sizes = [int(word) for word in sys.argv[1:]] or [131_072, 262_144, 524_288, 1_048_576]
    with tempfile.TemporaryDirectory() as folder:
        program = Program(folder, PROGRAM, ["cdp_text", "js_lexer", "anyhow"])
        print("  units   tokens  lexing ms  positions ms")
        for units in sizes:
            length, tokens, lexing, finding, bad, _ = program.run(source(units))
            assert bad == "0", "a bad token"
            print(f"{length:>7} {tokens:>8} {lexing:>10} {finding:>13}")


if __name__ == "__main__":
    main()
