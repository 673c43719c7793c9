#!/usr/bin/env python3
"""Compares the machine with a counter of steps that was written from the rules alone, over random programs.

    python3 bench/random_programs.py [COUNT] [SEED]        (default 300 1)

Makes COUNT programs of one script each from SEED, runs each for at most 300 steps, with the lines `l1` and `l2` as
its input, by `bench/counted_steps.js` and by `js_machine`, and compares the steps, the end and the printed lines. It prints
each program on which they differ, with both answers, and at the end how many were equal, how many differ, and how the
programs ended by the counter. The status is 1 where some differ.

`FORMS` shows which forms are made, and how often each. Names have a kind (`NAMES`), and forms ask for parts of a kind,
so that programs get some way; by chance a part is of another kind, or a name isn't known where it is used, so that the
errors come up too. `js_machine` is built into a small program in a folder of its own, which is run with no proof, compiled
with checks (`rt try`). 300 programs take some 70 seconds on a machine with four processors. It is no part of the gate,
and needs node.
"""

import collections
import json
import os
import random
import re
import subprocess
import sys
import tempfile

from programs import TOP, write_crate

INPUT = ["l1", "l2"]
MOST = 300

# the least and the most characters of a program
SHORTEST, LONGEST = 150, 1400

# the most characters of answers that are asked for at once: `rt try` gives none past 1 MiB
PORTION = 500_000

# ---- the programs

NAMES = {
    "number": ["a", "b", "c", "i", "j"],
    "string": ["s", "u", "x"],
    "array": ["t", "w", "v"],
    "object": ["o", "p", "q"],
    "function": ["f", "g", "h", "k"],
}
KINDS = [*NAMES, "boolean"]
KIND_OF = {name: kind for kind, names in NAMES.items() for name in names}

# Weights and forms. `<KIND>` is an expression of that kind, `<same>` one of the kind that is asked for, `<KIND name>` a
# known name, and `<new KIND>` a name that is known from there to the end of the form, as are `<parameters>` and
# `<caught name>`; `<it>` is that name again. `<statements>` are up to three, among them declarations. Any other word is
# a line of this table; `atom` lines end the nesting of expressions, `last statement` that of statements. A form that
# asks for a known name where there is none isn't taken, nor `break`, `continue` and `return` where they may not stand.
FORMS = {
    "any": [
        (3, "<number>"), (1, "<string>"), (1, "<array>"), (1, "<object>"), (1, "<function>"), (1, "<boolean>"),
    ],
    # forms of every kind
    "common": [
        (20, "(<boolean> ? <same> : <same>)"),
        (10, "(<any>, <same>)"),
        (2, "(<place> = <same>)"),
        (1, "(void <any>)"),
        (1, "null"),
        (15, "(<same name> = <same>)"),
        (15, "(<same> <logical> <same>)"),
        (15, "<array>[<number>]"),
        (10, "<object>.<property>"),
        (5, "(<function>)(<arguments>)"),
        (10, "<function name>(<arguments>)"),
    ],
    "boolean": [
        (48, "(<number> <comparing> <number>)"),
        (10, "(<string> <comparing> <string>)"),
        (10, "(!<any>)"),
        (10, "(<any> <equating> <any>)"),
        (10, "Array.isArray(<any>)"),
        (2, "(delete <place>)"),
        (10, "<common>"),
    ],
    "number": [
        (15, "<atom number>"),
        (25, "(<number> <computing> <number>)"),
        (8, "(<signing>(<number>))"),
        (10, "<update>"),
        (8, "(<target> <assigning> <number>)"),
        (2, "<array>.length"), (2, "<string>.length"), (2, "<function>.length"),
        (4, "<array>.push(<arguments>)"),
        (4, "<array>.indexOf(<any>)"),
        (3, "<array>.pop()"),
        (2, "<string>.indexOf(<string>)"),
        (2, "<string>.charCodeAt(<atom number>)"),
        (13, "<common>"),
    ],
    "string": [
        (20, "<atom string>"),
        (7, "(<string> + <number>)"), (7, "(<string> + <string>)"), (6, "(<string> + <boolean>)"),
        (7, "(typeof (<any>))"),
        (3, "(typeof <loose name>)"),
        (8, "<string>.slice(<bounds>)"),
        (8, "<array>.join(<separator>)"),
        (6, "String(<any>)"), (2, "String(<string>)"),
        (4, "<string>[<atom number>]"),
        (4, "<function>.name"),
        (2, "<error>.message"), (2, "<error>.name"),
        (2, "readline()"),
        (2, "(<string name> += <string>)"),
        (10, "<common>"),
    ],
    "array": [
        (35, "<atom array>"),
        (30, "[<elements>]"),
        (10, "<array>.slice(<bounds>)"),
        (6, "Object.keys(<object>)"), (4, "Object.keys(<array>)"), (3, "Object.keys(<function>)"),
        (12, "<common>"),
    ],
    "object": [
        (30, "<atom object>"),
        (45, "({<members>})"),
        (10, "<error>"),
        (15, "<common>"),
    ],
    "function": [
        (30, "<function name>"),
        (70, "(<unnamed function>)"),
    ],
    "unnamed function": [
        (40, "(<parameters>) => (<any>)"),
        (20, "(<parameters>) => { <statements><returning> }"),
        (25, "function (<parameters>) { <statements><returning this> }"),
        (15, "function <new function>(<parameters>) { <statements><returning> }"),
    ],
    "returning": [(40, ""), (60, " return <any>;")],
    "returning this": [(40, ""), (30, " return <any>;"), (20, " return this;"), (10, " return this.a;")],
    # short expressions
    "atom boolean": [(1, "true"), (1, "false")],
    "atom number": [(60, "<number name>"), (40, "<literal>")],
    "literal": [
        (90, "<small>"),
        (2, "4294967295"), (2, "9007199254740991"), (2, "2147483648"),
        (1, "31"), (1, "33"), (1, "0x10"), (1, "1000000007"),
    ],
    "small": [(1, "0"), (1, "1"), (1, "2"), (1, "3"), (1, "4"), (1, "5")],
    "atom string": [
        (60, "<string name>"),
        (7, "'a'"), (7, "'ab'"), (7, "''"), (7, "'b'"), (6, "'1'"), (6, '"abc"'),
    ],
    "atom array": [
        (80, "<array name>"),
        (5, "[]"), (5, "[<literal>]"), (5, "[<literal>, <literal>]"), (5, "[<literal>, <literal>, <literal>]"),
    ],
    "atom object": [(80, "<object name>"), (20, "({a: 1, b: 2})")],
    "atom function": [(80, "<function name>"), (10, "(() => <literal>)"), (10, "(function () { return this; })")],
    # parts of expressions
    "logical": [(1, "&&"), (1, "||")],
    "equating": [(1, "==="), (1, "!=="), (1, "=="), (1, "!=")],
    "comparing": [(1, "<"), (1, ">"), (1, "<="), (1, ">="), (1, "<equating>"), (1, "<equating>"), (2, "<equating>")],
    "computing": [
        (2, "+"), (2, "-"), (2, "*"), (2, "%"), (1, "/"),
        (1, "&"), (1, "|"), (1, "^"), (1, "<<"), (1, ">>"), (1, ">>>"),
    ],
    "signing": [(1, "-"), (1, "+"), (1, "~")],
    "assigning": [
        (1, "="), (1, "+="), (1, "-="), (1, "*="), (1, "/="), (1, "%="),
        (1, "&="), (1, "|="), (1, "^="), (1, "<<="), (1, ">>="), (1, ">>>="),
    ],
    "update": [(1, "(++<target>)"), (1, "(--<target>)"), (1, "(<target>++)"), (1, "(<target>--)")],
    "target": [
        (60, "<number name>"),
        (10, "<object name>.a"), (10, "<object name>.b"),
        (20, "<array name>[<atom number>]"),
    ],
    "place": [
        (6, "<object>.<property>"), (2, "<array>[<atom number>]"), (1, "<array>.length"), (1, "<any>.<property>"),
    ],
    "property": [(1, "a"), (1, "b"), (1, "m")],
    "loose name": [(1, "zz"), (1, "a"), (1, "f"), (1, "s")],
    "arguments": [(1, ""), (2, "<any>"), (1, "<any>, <any>")],
    "bounds": [(1, ""), (1, "<atom number>"), (1, "<atom number>, <atom number>")],
    "separator": [(1, ""), (1, "'-'"), (1, "''"), (1, "<atom string>")],
    "error": [
        (1, "Error(<string>)"), (1, "TypeError(<string>)"),
        (1, "RangeError(<string>)"), (1, "ReferenceError(<string>)"),
    ],
    "element": [(2, "<number>"), (1, "<any>")],
    "elements": [(1, ""), (1, "<element>"), (1, "<element>, <element>"), (1, "<element>, <element>, <element>")],
    "members": [(1, ""), (1, "<member>"), (1, "<member>, <member>"), (1, "<member>, <member>, <member>")],
    "member": [
        (60, "<key>: <element>"),
        (5, "<number name>"), (5, "<function name>"),
        (30, "<key>(<parameters>) { <statements><returning this> }"),
    ],
    "key": [
        (2, "a"), (2, "b"), (2, "m"), (2, "1"), (2, "0"), (2, "'x'"),
        (1, "[<atom string>]"), (1, "[<atom number>]"),
    ],
    # statements
    "statement": [
        (15, "console.log(<logged>);"),
        (12, "(<any>);"),
        (5, "if (<boolean>) <block>"),
        (5, "if (<boolean>) <block> else <statement>"),
        (5, "while (<boolean>) <body>"),
        (4, "do <body> while (<boolean>);"),
        (8, "for (let <new number> = <small>; <it> < <small>; <it>++) <body>"),
        (1, "for (let <new number> = <number>; <boolean>; <number>) <body>"),
        (1, "for (const <new number> = <number>; <boolean>; <number>) <body>"),
        (1, "for (let <new number> = <small>, <new function> = <unnamed function>; <boolean>; <update>) <body>"),
        (1, "for (<start>; <test>; <test>) <body>"),
        (4, "for (let <new name> of <list>) <body>"),
        (4, "for (const <new name> of <list>) <body>"),
        (10, "try <block> <catch>"),
        (5, "try <block> <catch> finally <block>"),
        (5, "try <block> finally <block>"),
        (2, "throw <any>;"),
        (4, "return <any>;"), (1, "return;"),
        (2, "break;"), (2, "continue;"),
        (1, "debugger;"), (1, ";"),
        (2, "<block>"),
    ],
    # a statement that ends the nesting
    "last statement": [
        (30, "console.log(<logged>);"),
        (35, "(<any>);"),
        (10, "break;"), (10, "continue;"),
        (10, "return <any>;"),
        (5, "throw <any>;"),
    ],
    "block": [(1, "{ <statements> }")],
    "body": [(80, "<block>"), (20, "<statement>")],
    "logged": [(1, "<any>"), (1, "<any>, <any>")],
    "start": [(1, ""), (1, "(<number>)")],
    "test": [(1, ""), (1, "<boolean>")],
    "list": [(1, "[1, 2]"), (1, "[1, 2, 3]"), (1, "<array>")],
    "catch": [(70, "catch (<caught name>) <block>"), (30, "catch <block>")],
    # declarations, which `<statements>` make; `<it>` is the name
    "declaration": [(8, "let <it>;"), (12, "const <it> = <same>;"), (80, "let <it> = <same>;")],
    "declaration of a function": [(60, "let <it> = <unnamed function>;"), (40, "<declaration>")],
    "declared function": [(1, "function <it>(<parameters>) { <statements><returning this> }")],
}

# of the places in a list of statements, so many in a hundred are declarations of a name and of a function
DECLARED, FUNCTIONS = 28, 10


class NoName(Exception):
    """A form asks for a name where none of its kind is known."""


class Writer:
    """Writes one program."""

    def __init__(self, chance):
        self.chance = chance
        # how often a part is of another kind than asked for
        self.wild = chance.choice([0.02, 0.05, 0.15])
        # what is known where the program is being written
        self.known, self.taken, self.in_function, self.in_loop = [], [], False, False

    def program(self):
        return self.statements(self.chance.choice([2, 3, 3, 4]), self.chance.randint(2, 6))

    def form(self, name, depth, same=None, it=None):
        """A text of a form of this line of `FORMS`; what it makes known is forgotten behind it."""
        forms = [form for form in FORMS[name] if self.may_stand(form[1])]
        state = self.known, self.taken, self.in_function, self.in_loop
        while forms:
            chosen = self.chance.choices(forms, [weight for weight, _ in forms])[0]
            try:
                return self.filled(chosen[1], depth, same, it)
            except NoName:
                forms.remove(chosen)
            finally:
                self.known, self.taken, self.in_function, self.in_loop = state
        raise NoName

    def may_stand(self, form):
        if form in ("break;", "continue;"):
            return self.in_loop
        return self.in_function or not form.startswith("return")

    def filled(self, form, depth, same, it):
        """The form with its parts, from left to right."""
        text = ""
        for piece in re.split(r"(<[a-z][a-z ]*>)", form):
            if not re.fullmatch(r"<[a-z][a-z ]*>", piece):
                # a point behind a number would be its own
                text = f"({text})" if piece.startswith(".") and text[-1:].isdigit() else text
                text += piece
                continue
            word = piece[1:-1].replace("same", same) if same else piece[1:-1]
            if word in ("new name", "new number", "new function", "caught name"):
                it = self.new_name(word)
            text += it if word == "it" or word.startswith(("new ", "caught ")) else self.part(word, depth, same, it)
        return text

    def part(self, word, depth, same, it):
        if word in NAMES or word in ("boolean", "any"):
            return self.expression(word, depth - 1)
        if word.endswith(" name") and word[:-5] in KINDS:
            return self.known_name(word[:-5])
        if word == "parameters":
            return self.parameters()
        if word == "statement":
            return self.statement(depth - 1)
        if word == "statements":
            return self.statements(depth - 1, self.chance.choice([0, 1, 2, 2, 3]))
        if word == "body":
            self.in_loop = True
        return self.form(word, depth, same, it)

    # ---- expressions

    def expression(self, kind, depth):
        if self.chance.random() < self.wild:
            kind = self.chance.choice(list(NAMES))
        if kind == "any":
            weights, forms = zip(*FORMS["any"])
            kind = self.chance.choices(forms, weights)[0][1:-1]
        return self.form(kind if depth > 0 else "atom " + kind, depth, kind)

    def known_name(self, kind):
        chance = self.chance.random()
        if chance < self.wild * 0.3:
            return self.chance.choice(["zz", "undefined", "console", "Error"])
        if chance < self.wild * 0.7:
            return self.chance.choice(list(KIND_OF))
        names = [name for name in self.known if KIND_OF[name] == kind]
        if not names:
            raise NoName
        return self.chance.choice(names)

    def new_name(self, word):
        """A name that is known from now on; the block behind that of a catch can't declare it."""
        kind = word.split(" ")[1]
        name = self.chance.choice(NAMES[kind] if kind in NAMES else list(KIND_OF))
        self.known = self.known + [name]
        if word == "caught name":
            self.taken = [name]
        return name

    def parameters(self):
        names = self.chance.sample(list(KIND_OF), self.chance.choice([0, 1, 1, 2]))
        self.known, self.taken, self.in_function, self.in_loop = self.known + names, names, True, False
        return ", ".join(names)

    # ---- statements

    def statement(self, depth):
        return self.form("statement", depth) if depth > 0 else self.form("last statement", 2)

    def statements(self, depth, length):
        """So many statements and declarations of names that aren't taken; functions are known from the start."""
        known, taken, plan = self.known, set(self.taken), []
        for _ in range(length):
            plan.append(self.planned(depth, taken))
            taken.add(plan[-1][1])
        early = ("declared function", "declaration") if self.chance.random() < self.wild else ("declared function",)
        self.known, self.taken = known + [name for form, name in plan if form in early], []
        return " ".join(self.written(form, name, depth) for form, name in plan)

    def planned(self, depth, taken):
        """The form of a place in a list of statements, and the name that it declares."""
        place = self.chance.random() * 100
        free = [name for name in KIND_OF if name not in taken]
        functions = [name for name in free if KIND_OF[name] == "function"]
        if free and place < DECLARED:
            return "declaration", self.chance.choice(free)
        if functions and depth > 0 and place < DECLARED + FUNCTIONS:
            return "declared function", self.chance.choice(functions)
        return "statement", None

    def written(self, form, name, depth):
        if form == "statement":
            return self.statement(depth)
        if form == "declared function":
            return self.form(form, depth, it=name)
        kind = KIND_OF[name]
        text = self.form("declaration of a function" if kind == "function" else form, depth + 1, kind, name)
        self.known = self.known + [name]
        return text


def programs(count, seed):
    """So many programs, each on a line."""
    chance = random.Random(seed)
    made = []
    while len(made) < count:
        program = Writer(chance).program()
        if SHORTEST <= len(program) <= LONGEST:
            made.append(program)
    return made


# ---- both answers

PROGRAM = r"""// Runs programs by the machine.
#![tactic(auto)]

use cdp_text::units::{Units, units_of};
use js_machine::end::End;
use js_machine::plain::{PlainRun, run_scripts};
use js_machine_actions::shown::shown;
use js_parser::parse::parse_script;
use js_machine_engine::stepped::Finish;
use std::alloc::{AllocError, Global};
use std::collections::VecDeque;

const INPUT: &str = "INPUT_LINES";
const MOST: u64 = MOST_STEPS;

fn main(rt: HostRuntime) -> anyhow::Result<()> {
    let alloc = rt.alloc();
    let programs = std::fs::read_to_string(&rt, "programs")?;
    for source in programs.split('\n') {
        let line = answer(alloc, source)?;
        println!(rt; "{line}")?;
    }
    Ok(())
}

/// What came of a script, as JSON: its steps, how it ended, and the lines that it printed.
fn answer(alloc: Global, source: &str) -> Result<String, AllocError> {
    let units = units_of(alloc, source)?;
    let Ok(script) = parse_script(alloc, units.as_slice(), "", 1, &[]) else {
        return format!(in alloc; "{{\"error\":\"no script\"}}");
    };
    let mut scripts = Vec::new(alloc);
    scripts.push(script)?;
    let mut input = VecDeque::new(alloc);
    for line in INPUT.split(' ') {
        input.push_back(units_of(alloc, line)?)?;
    }
    let outcome = match run_scripts(alloc, scripts.as_slice(), input, MOST) {
        Ok(outcome) => outcome,
        Err(_) => return format!(in alloc; "{{\"error\":\"no memory\"}}"),
    };
    let steps = outcome.steps;
    let mut line = format!(in alloc; "{{\"steps\":{steps},\"end\":\"")?;
    push_end(alloc, &mut line, &outcome)?;
    line.push_str("\",\"printed\":[")?;
    let mut before = "\"";
    for text in outcome.machine.printed() {
        line.push_str(before)?;
        push_escaped(alloc, &mut line, text.as_slice())?;
        line.push_str("\"")?;
        before = ",\"";
    }
    line.push_str("]}")?;
    Ok(line)
}

/// Appends how a run ended.
fn push_end(alloc: Global, line: &mut String, outcome: &PlainRun) -> Result<(), AllocError> {
    match outcome.machine.finished() {
        None => line.push_str("running"),
        Some(Finish::Ended(_)) => line.push_str("ended"),
        Some(Finish::Threw(value, _)) => {
            let text = shown(alloc, &outcome.heap, outcome.machine.names(), value)?;
            line.push_str("Uncaught ")?;
            push_escaped(alloc, line, text.as_slice())
        }
    }
}

/// Appends code units as they may stand between the quotes of a JSON string.
fn push_escaped(alloc: Global, line: &mut String, units: &[u16]) -> Result<(), AllocError> {
    for unit in units {
        let escaped = format!(in alloc; "\\u{unit:04x}")?;
        line.push_str(&escaped)?;
    }
    Ok(())
}
"""

USES = ["cdp_text", "js_machine", "js_machine_actions", "js_parser", "js_machine_engine", "js_heap_memory", "anyhow"]


def counted(sources):
    """The answers of the counter."""
    lines = [json.dumps({"sources": [source], "input": INPUT, "most": MOST}) + "\n" for source in sources]
    command = ["node", "--expose-internals", os.path.join(TOP, "bench", "counted_steps.js")]
    done = subprocess.run(command, input="".join(lines), capture_output=True, text=True)
    if done.returncode != 0:
        sys.exit(done.stderr)
    return [json.loads(line) for line in done.stdout.splitlines()]


def interpreted(sources):
    """The answers of the machine."""
    text = PROGRAM.replace("INPUT_LINES", " ".join(INPUT)).replace("MOST_STEPS", str(MOST))
    with tempfile.TemporaryDirectory() as folder:
        crate = write_crate(folder, text, USES)
        path = os.path.join(folder, "programs")
        with open(path, "w") as f:
            f.write("\n".join(sources))
        command = ["rt", "try", "--seconds", str(60 + 10 * len(sources)), "--data", f"programs={path}"]
        done = subprocess.run(command, cwd=crate, capture_output=True, text=True)
    if done.returncode != 0:
        sys.exit(done.stdout[-3000:] + done.stderr[-3000:])
    return [json.loads(line) for line in done.stdout.splitlines()]


def portions(sources, answers):
    """The programs with the counter's answers, in lists whose answers are short enough to be asked for at once."""
    portion, length = [], 0
    for source, answer in zip(sources, answers):
        # an escaped unit has six characters
        more = 6 * len(json.dumps(answer))
        if portion and length + more > PORTION:
            yield portion
            portion, length = [], 0
        portion.append((source, answer))
        length += more
    if portion:
        yield portion


def kind_of_end(answer):
    """How a program ended, without the message of an error."""
    if "error" in answer:
        return "no script"
    end = answer["end"].split(":")[0]
    return end if end in ("ended", "running") or end.endswith("Error") else "Uncaught other value"


def main():
    words = [int(word) for word in sys.argv[1:]]
    count, seed = words + [300, 1][len(words) :]
    sources = programs(count, seed)
    answers = counted(sources)
    differ = 0
    for portion in portions(sources, answers):
        others = interpreted([source for source, _ in portion])
        assert len(others) == len(portion), "an answer is missing"
        for (source, answer), other in zip(portion, others):
            if answer != other and not ("error" in answer and "error" in other):
                differ += 1
                print(f"{source}\n  counted:     {json.dumps(answer)}\n  interpreted: {json.dumps(other)}")
    print(f"{count - differ} equal, {differ} differ")
    for kind, number in collections.Counter(map(kind_of_end, answers)).most_common():
        print(f"{number:>6} {kind}")
    sys.exit(1 if differ else 0)


if __name__ == "__main__":
    main()
