#!/usr/bin/env python3
"""Times the parser over sources of growing size, and shows that the greatest depth fits the stack.

    python3 bench/parsing.py [TOKENS ..]        (default 25000 50000 100000 200000)

Builds a small program over `js_parser` in a folder of its own, and gives it sources of many shapes: a script of every
form, which at the last size is nearly as long as a source may be; long lists of each kind; and as many as fit of the
deepest trees, among them those for which it must be looked ahead, as `((((` and `(a, (a, (a`. It prints one line a
shape: the units and the milliseconds of parsing for each number of tokens. They should grow with the tokens; a search
or a look-ahead that is done again at each place would show as times that grow fourfold.

Then it gives it sources that are nested as deep as can be, in each way that nests, and prints how many levels are
parsed, what 50,000 levels are answered, and whether 1 MiB of stack is enough. It is no part of the gate.
"""

import sys
import tempfile

from programs import Program

PROGRAM = r"""// Times the parser.
#![tactic(auto)]

use cdp_text::units::units_of;
use js_parser::parse::parse_script;
use std::time::Instant;

fn main(rt: HostRuntime) -> anyhow::Result<()> {
    let alloc = rt.alloc();
    let text = std::fs::read_to_string(&rt, "source.js")?;
    let source = units_of(alloc, text.as_str())?;
    let units = source.as_slice();
    let start = Instant::now(&rt)?;
    let parsed = parse_script(alloc, units, "source.js", 1, &[]);
    let took = start.elapsed(&rt)?;
    let (count, took) = (units.len(), took.as_millis());
    match parsed {
        Ok(_) => println!(rt; "{count} {took} parsed")?,
        Err(fault) => println!(rt; "{count} {took} {fault}")?,
    }
    Ok(())
}
"""

# 37 tokens, and with its comment some 190 units
LINE = "function f%d(a, b) { /* %s */ let x = 'text\\n' + a >>> 0x1F; return x === b ? [a, {b}] : (c) => c; }\n"

# a tree may be 200 high; a statement and what ends a chain count too
LEVELS = 198


def many(text, tokens, count):
    """A text of so many tokens as often as fits into so many."""
    return text * (count // tokens)


def names(count):
    return ", ".join("v%d" % number for number in range(count))


SHAPES = {
    "a script of every form": lambda n: "".join(LINE % (i, "a comment " * 9) for i in range(n // 37)),
    "empty statements": lambda n: ";" * n,
    "expressions with commas": lambda n: "0" + ", 0" * (n // 2 - 1),
    "elements of an array": lambda n: "[" + "0, " * (n // 2 - 1) + "]",
    "arguments of a call": lambda n: "f(" + "0, " * (n // 2 - 2) + ")",
    "members of an object": lambda n: "({" + "a: 0, " * (n // 4 - 1) + "})",
    "names of one let": lambda n: "let " + names(n // 2 - 1),
    "names of many lets": lambda n: "".join("let v%d; " % i for i in range(n // 3)),
    "parameters of a function": lambda n: "function f(" + names(n // 2 - 4) + ") {}",
    "parameters of an arrow function": lambda n: "(" + names(n // 2 - 4) + ") => 0",
    "names in parentheses": lambda n: "(" + "a, " * (n // 2 - 2) + "a)",
    "names in the deepest parentheses": lambda n: "(" * 197 + "a, " * (n // 2 - 200) + "a" + ")" * 197,
    "parentheses": lambda n: many("(" * LEVELS + "0" + ")" * LEVELS + ";", 2 * LEVELS + 2, n),
    "parentheses behind a name each": lambda n: many("(a, " * 99 + "0" + ")" * 99 + ";", 4 * 99 + 2, n),
    "parentheses behind many names each": lambda n: ("(" + "a, " * (n // 200 - 2)) * 99 + "0" + ")" * 99,
    "arrow functions": lambda n: many("(a, b) => " * LEVELS + "0;", 6 * LEVELS + 2, n),
    "calls of calls": lambda n: many("f" + "()" * LEVELS + ";", 2 * LEVELS + 2, n),
    "members of members": lambda n: many("a" + ".b" * LEVELS + ";", 2 * LEVELS + 2, n),
    "sums": lambda n: many("0" + " + 0" * LEVELS + ";", 2 * LEVELS + 2, n),
    "assignments": lambda n: many("a = " * LEVELS + "0;", 2 * LEVELS + 2, n),
    "else ifs": lambda n: many("if (a) ; else " * LEVELS + ";", 6 * LEVELS + 1, n),
    "blocks": lambda n: many("{" * LEVELS + "}" * LEVELS, 2 * LEVELS, n),
}

NESTED = {
    "parentheses": lambda n: "(" * n + "0" + ")" * n,
    "minus signs": lambda n: "- " * n + "0",
    "calls": lambda n: "f(" * n + "0" + ")" * n,
    "a chain of calls": lambda n: "f" + "()" * n,
    "a sum": lambda n: "0" + " + 0" * n,
    "assignments": lambda n: "a = " * n + "0",
    "arrow functions": lambda n: "a => " * n + "0",
    "functions": lambda n: "(function () { return " * n + "0" + "})" * n,
    "object literals": lambda n: "({a: " * n + "0" + "})" * n,
    "blocks": lambda n: "{" * n + "}" * n,
    "ifs": lambda n: "if (a) " * n + ";",
    "tries": lambda n: "try {" * n + "} finally {}" * n,
}


def is_parsed(program, source, stack=None):
    return program.run(source, stack)[2:] == ["parsed"]


def deepest(program, nested):
    """The greatest number of levels that is parsed, found by halving."""
    low, high = 0, 400
    while low + 1 < high:
        middle = (low + high) // 2
        if is_parsed(program, nested(middle)):
            low = middle
        else:
            high = middle
    return low


def main():
    sizes = [int(word) for word in sys.argv[1:]] or [25_000, 50_000, 100_000, 200_000]
    with tempfile.TemporaryDirectory() as folder:
        program = Program(folder, PROGRAM, ["cdp_text", "js_parser", "anyhow"])
        print("units and milliseconds of", ", ".join(str(tokens) for tokens in sizes), "tokens")
        for name, shape in SHAPES.items():
            line = ""
            for tokens in sizes:
                units, took, *answer = program.run(shape(tokens))
                assert answer == ["parsed"], f"{name}: {' '.join(answer)}"
                line += f"{units:>8} {took:>5}"
            print(f"{line}  {name}")
        print("levels  in 1 MiB  50,000 levels")
        for name, nested in NESTED.items():
            levels = deepest(program, nested)
            small = "yes" if is_parsed(program, nested(levels), 1 << 20) else "no"
            deeper = " ".join(program.run(nested(50_000))[2:])
            print(f"{levels:>6}  {small:<8}  {deeper}: {name}")


if __name__ == "__main__":
    main()
