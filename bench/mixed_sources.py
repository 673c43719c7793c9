#!/usr/bin/env python3
"""Compares the parser with node over mixed sources.

    python3 bench/mixed_sources.py [COUNT]        (default 600)

Needs `node`. Builds a small program over `js_parser` in a folder of its own, and makes sources of all forms of the
language, put together at random from a fixed seed. A third of them stay as they are made and must be parsed; in a
third some semicolons become ends of lines, which must be parsed exactly where node compiles them as strict code; and
in a third a place is changed, which mustn't be parsed where node doesn't compile it. Each source that is answered
otherwise is printed, and the status is then 1. A changed source that node alone takes is printed too: it may use what
the language leaves out (docs/LANGUAGE.md). It is no part of the gate.
"""

import json
import random
import subprocess
import sys
import tempfile

from programs import Program

PROGRAM = r"""// Says of a source whether it is a script.
#![tactic(auto)]

use cdp_text::units::units_of;
use js_parser::parse::parse_script;

fn main(rt: HostRuntime) -> anyhow::Result<()> {
    let alloc = rt.alloc();
    let text = std::fs::read_to_string(&rt, "source.js")?;
    let source = units_of(alloc, text.as_str())?;
    match parse_script(alloc, source.as_slice(), "source.js", 1, &[]) {
        Ok(_) => println!(rt; "parsed")?,
        Err(fault) => println!(rt; "{fault}")?,
    }
    Ok(())
}
"""

COMPILE = """
const {Script} = require('vm');
for (const source of JSON.parse(require('fs').readFileSync(0, 'utf8'))) {
    let answer = 'parsed';
    try { new Script("'use strict';" + source); } catch (fault) { answer = fault.message; }
    console.log(JSON.stringify(answer));
}
"""

NAMES = ["a", "b", "c", "of", "get", "set", "x1", "$y", "_z", "async"]
BINARY = "|| && | ^ & == != === !== < > <= >= << >> >>> + - * / %".split()
ASSIGNMENT = "= += -= *= /= %= <<= >>= >>>= &= ^= |=".split()
GAPS = ["", " ", " ", "\n", "/* c */", "/* \n */", "// l\n"]
CHANGES = ["", " ", "\n", ";", "(", ")", "{", "}", "=", "=>", ",", ".", "++", "let "]


class Maker:
    """Makes sources of the language. Each form is at most so deep, and counts the names that it declares."""

    def __init__(self, seed):
        self.random = random.Random(seed)
        self.count = 0

    def one(self, *choices):
        return self.random.choice(choices)

    def below(self, number):
        return self.random.randrange(number)

    def some(self, make, separator, most):
        return separator.join(make() for _ in range(self.below(most)))

    def name(self):
        return self.one(*NAMES)

    def fresh(self):
        self.count += 1
        return f"v{self.count}"

    def parameters(self):
        return ", ".join(f"p{number}" for number in range(self.below(3)))

    def body(self, depth):
        return "{" + self.items(depth, True, False) + "}"

    def primary(self, depth):
        if depth <= 0:
            return self.one("this", self.name(), self.one("0", "7", "0x1F", "0b10"), self.one("'s'", '"t"', "true", "false", "null"))
        kind = self.below(8)
        if kind == 0:
            return "[" + self.some(lambda: self.assignment(depth - 1), ", ", 3) + "]"
        if kind == 1:
            return "({" + self.some(lambda: self.member(depth - 1), ", ", 3) + "})"
        if kind == 2:
            return f"(function {self.one('', 'f')}({self.parameters()}) {self.body(depth - 1)})"
        if kind in (3, 4):
            return "(" + self.expression(depth - 1) + ")"
        return self.primary(0)

    def member(self, depth):
        key = self.one(self.name(), "if", "'k'", "3", f"[{self.assignment(depth)}]")
        method = f"{key}({self.parameters()}) {self.body(depth)}"
        return self.one(self.name(), method, f"{key}: {self.assignment(depth)}")

    def call(self, depth):
        text = self.primary(depth)
        if text[0].isdigit():
            text = f"({text})"
        for _ in range(self.below(3)):
            arguments = self.some(lambda: self.assignment(depth - 1), ", ", 3)
            key = self.one(".", ".\n") + self.one(self.name(), "if", "delete")
            text += self.one(key, f"[{self.expression(depth - 1)}]", f"({arguments})")
        return text

    def target(self):
        return self.one(self.name(), f"{self.name()}.{self.name()}", f"{self.name()}[0]", f"({self.name()})")

    def unary(self, depth):
        kind = self.below(8)
        if kind == 0 and depth > 0:
            return self.one("- ", "+ ", "!", "~", "typeof ", "void ") + self.unary(depth - 1)
        if kind == 1:
            return self.one("++", "--") + self.target()
        if kind == 2:
            return self.target() + self.one("++", "--", " ++")
        if kind == 3:
            return f"delete {self.name()}.{self.name()}"
        return self.call(depth)

    def binary(self, depth):
        text = self.unary(depth)
        for _ in range(self.one(0, 0, 1, 2, 3)):
            text += f"{self.one(*GAPS)} {self.one(*BINARY)} {self.one(*GAPS)}{self.unary(depth - 1)}"
        return text

    def assignment(self, depth):
        if depth <= 0:
            return self.primary(0)
        kind = self.below(9)
        if kind == 0:
            return f"{self.target()} {self.one(*ASSIGNMENT)} {self.assignment(depth - 1)}"
        if kind == 1:
            body = self.assignment(depth - 1) if self.below(2) else self.body(depth - 1)
            return f"{self.one('q', '(q)', '(q, r)', '()', '(q, r,)')} => {body}"
        if kind == 2:
            return f"{self.binary(depth - 1)} ? {self.assignment(depth - 1)} : {self.assignment(depth - 1)}"
        return self.binary(depth)

    def expression(self, depth):
        text = self.assignment(depth)
        for _ in range(self.one(0, 0, 0, 1)):
            text += ", " + self.assignment(depth - 1)
        return text

    def end(self):
        return self.one(";", ";", ";\n", "\n;")

    def loop(self, depth, in_function):
        body = self.statement(depth - 1, in_function, True)
        kind = self.below(4)
        if kind == 0:
            return f"do {body} while ({self.expression(depth - 1)})" + self.one("", ";", "\n")
        if kind == 1:
            return f"while ({self.expression(depth - 1)}) {body}"
        if kind == 2:
            return f"for ({self.one('let', 'const')} {self.one('of', self.fresh())} of {self.assignment(depth - 1)}) {body}"
        first = self.one("", self.expression(depth - 1), f"let {self.fresh()} = {self.assignment(depth - 1)}, {self.fresh()}")
        return f"for ({first};{self.one('', self.expression(depth - 1))};{self.one('', self.expression(depth - 1))}) {body}"

    def trial(self, depth, in_function, in_loop):
        block, handled = ("{" + self.items(depth - 1, in_function, in_loop) + "}" for _ in range(2))
        return f"try {block}" + self.one(f" catch {handled}", f" catch (e) {handled}", f" finally {handled}")

    def statement(self, depth, in_function, in_loop):
        kind = self.below(12) if depth > 0 else 0
        if kind == 1:
            return ";"
        if kind == 2:
            return "{" + self.items(depth - 1, in_function, in_loop) + "}"
        if kind == 3:
            other = self.one("", " else " + self.statement(depth - 1, in_function, in_loop))
            return f"if ({self.expression(depth - 1)}) {{{self.items(depth - 1, in_function, in_loop)}}}{other}"
        if kind in (4, 5):
            return self.loop(depth, in_function)
        if kind == 6 and in_loop:
            return self.one("break", "continue") + self.end()
        if kind == 7 and in_function:
            return self.one("return", "return " + self.expression(depth - 1)) + self.end()
        if kind == 8:
            return "throw " + self.expression(depth - 1) + self.end()
        if kind == 9:
            return self.trial(depth, in_function, in_loop)
        if kind == 10:
            return "debugger" + self.end()
        return self.expression(depth) + self.end()

    def item(self, depth, in_function, in_loop):
        kind = self.below(5)
        if kind == 0:
            value = self.assignment(depth - 1)
            return self.one(f"let {self.fresh()}", f"let {self.fresh()} = {value}", f"const {self.fresh()} = {value}") + self.end()
        if kind == 1:
            return f"function {self.fresh()}({self.parameters()}) {self.body(depth - 1)}"
        return self.statement(depth, in_function, in_loop)

    def items(self, depth, in_function, in_loop):
        return "".join(self.item(depth, in_function, in_loop) + self.one("", " ", "\n") for _ in range(self.below(3)))

    def on_lines(self, text):
        return "".join("\n" if unit == ";" and self.below(2) else unit for unit in text)

    def changed(self, text):
        at = self.below(len(text))
        return text[:at] + self.one(*CHANGES) + text[at + self.below(2) :]


def sources(count):
    """Sources, with what was done to each."""
    made = []
    for number in range(count):
        maker, text = Maker(number), ""
        while not text.strip():
            text = maker.items(3, False, False) + maker.items(3, False, False)
        change = ["none", "lines", "place"][number % 3]
        if change == "lines":
            text = maker.on_lines(text)
        if change == "place":
            text = maker.changed(text)
        made.append((text, change))
    return made


def is_right(change, parsed, is_compiled):
    if change == "none":
        return parsed
    if change == "lines":
        return parsed == is_compiled
    return is_compiled or not parsed


def compiled(texts):
    """What node answers for each of these sources."""
    done = subprocess.run(["node", "-e", COMPILE], input=json.dumps(texts), capture_output=True, text=True, check=True)
    return [json.loads(line) for line in done.stdout.splitlines()]


def main():
    count = int(sys.argv[1]) if len(sys.argv) > 1 else 600
    made = sources(count)
    answers = compiled([text for text, _ in made])
    both = neither = wrong = 0
    with tempfile.TemporaryDirectory() as folder:
        program = Program(folder, PROGRAM, ["cdp_text", "js_parser", "anyhow"])
        for (text, change), other in zip(made, answers):
            own = " ".join(program.run(text))
            parsed, is_compiled = own == "parsed", other == "parsed"
            both += parsed and is_compiled
            neither += not parsed and not is_compiled
            wrong += not is_right(change, parsed, is_compiled)
            if parsed != is_compiled:
                print(f"{change} changed, {text!r}: {own}; node: {other}")
    print(f"{both} sources are parsed by both, {neither} by neither, {count - both - neither} by one; {wrong} are wrong")
    sys.exit(1 if wrong else 0)


if __name__ == "__main__":
    main()
