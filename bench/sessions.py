#!/usr/bin/env python3
"""What many sessions cost a program that none of them stops, measured on a built program.

    python3 bench/sessions.py [--bin PROGRAM] [--times N]

A loop of some 2,000,000 steps, over functions and branches, is replayed without a session, with one session that has the
debugger enabled and 100 breakpoints, and with 16 such sessions. The breakpoints stand at lines that are never run, once without
conditions and once with them. Each figure is the least processor time of N runs (user and system, in seconds), less the same
replay without the run. Wanted: 16 sessions take at most twice what one takes.

*Attached* are sessions that do nothing, to a script of some 213,000 units: their seconds and their memory in MiB, less those
of the script without a session. *Evaluating* are sessions of that script which each evaluate once, beside the same without
a session.
"""

import argparse
import json
import os
import re
import tempfile

from debugging import PROGRAM, large_script
from measured import least, run, write

TURNS = 60000
MANY = 16
BREAKPOINTS = 100

# A function that is never called stands before the loop and one behind it, with half the breakpoints' lines each.
HEAD = """let sum = 0;
let rest = 0;
function before() {
UNUSED}
function add(n) {
  const part = n % 7;
  if (part > 3) {
    sum = sum + part;
  } else {
    rest = rest + 1;
  }
  return sum;
}
function clear() {
  sum = 0;
  return rest;
}
let i = 0;
while (i < TURNS) {
  add(i);
  if (sum > 1000) clear();
  i++;
}
console.log(sum, rest);
"""
TAIL = """function behind() {
UNUSED}
"""


def script():
    """The script, and the lines of the breakpoints."""
    unused = "".join("  sum = %d;\n" % n for n in range(BREAKPOINTS // 2))
    text = (HEAD + TAIL).replace("UNUSED", unused).replace("TURNS", str(TURNS))
    lines = [number for number, line in enumerate(text.split("\n")) if re.match(r"  sum = \d+;$", line)]
    # the first line of that form in `clear` is run
    return text, [number for number in lines if not text.split("\n")[number - 1].startswith("function clear")]


def breakpoints(lines, condition):
    """The commands that set the breakpoints of a session."""
    told = []
    for number, line in enumerate(lines):
        params = {"lineNumber": line, "url": "a.js"}
        if condition:
            params["condition"] = condition
        told.append({"id": number + 2, "method": "Debugger.setBreakpointByUrl", "params": params})
    return told


def start(sessions, lines, condition):
    """A journal that attaches so many sessions and sets the breakpoints of each."""
    text = "attach\n" * sessions
    for session in range(1, sessions + 1):
        for command in [{"id": 1, "method": "Debugger.enable"}] + breakpoints(lines, condition):
            text += "tell %d %s\n" % (session, json.dumps(command).replace("%", "%25"))
        text += "take %d\n" % session
    return text


def checked(program, folder, sessions):
    """The steps of the loop, where all breakpoints are resolved and nothing stops."""
    output = os.path.join(folder, "output")
    assert run(program, ["replay", "journal", "a.js"], folder, output).status == 0
    with open(output) as f:
        printed = f.read()
    assert printed.count('"locations":[{') == sessions * BREAKPOINTS, "a breakpoint isn't resolved"
    assert "paused" not in printed, "the program stopped"
    return int(re.search(r"^ran (\d+) ended$", printed, re.MULTILINE).group(1))


def loop(program, folder, sessions, lines, condition, times):
    """The seconds that the loop takes, those of what comes before it, and its steps."""
    begun = start(sessions, lines, condition)
    write(folder, "journal", begun)
    before = least(program, ["replay", "journal", "a.js"], folder, times).processor
    write(folder, "journal", begun + "run 4000000000 0\n")
    steps = checked(program, folder, sessions)
    whole = least(program, ["replay", "journal", "a.js"], folder, times).processor
    return whole - before, before, steps


def evaluation(session):
    """The line that tells a session to evaluate, and that takes the answer."""
    command = {"id": 1, "method": "Runtime.evaluate", "params": {"expression": "0"}}
    return "tell %d %s\ntake %d\n" % (session, json.dumps(command), session)


def sessions_of_many_units(program, folder, journal, times):
    """The units of a script, and the seconds and the memory that a journal takes beside none."""
    text = large_script(213000)
    write(folder, "a.js", text)
    words = ["replay", "journal", "a.js"]
    write(folder, "journal", "")
    none = least(program, words, folder, times)
    write(folder, "journal", journal)
    some = least(program, words, folder, times)
    return len(text), some.processor - none.processor, some.memory - none.memory


def main():
    parser = argparse.ArgumentParser()
    parser.add_argument("--bin", default=PROGRAM)
    parser.add_argument("--times", type=int, default=5)
    asked = parser.parse_args()
    program = os.path.abspath(asked.bin)
    text, lines = script()
    assert len(lines) == BREAKPOINTS, len(lines)
    with tempfile.TemporaryDirectory() as folder:
        write(folder, "a.js", text)
        none, _, steps = loop(program, folder, 0, lines, None, asked.times)
        print("loop of %d steps: %.3f s without a session" % (steps, none))
        for condition, words in (None, "100 breakpoints each"), ("n % 2 == 0", "with conditions"):
            one, _, _ = loop(program, folder, 1, lines, condition, asked.times)
            many, before, _ = loop(program, folder, MANY, lines, condition, asked.times)
            print(
                "%s: %.3f s with one session, %.3f s with %d, %.2f times that (set in %.3f s)"
                % (words, one, many, MANY, many / one, before)
            )
        for sessions in 1, 64:
            attached = "attach\n" * sessions
            evaluating = attached + "".join(evaluation(session) for session in range(1, sessions + 1))
            for word, journal in ("attached", attached), ("evaluating", evaluating):
                figures = sessions_of_many_units(program, folder, journal, asked.times)
                print("%s: %d sessions, %d units, %.3f s, %.1f MiB" % (word, sessions, *figures))


if __name__ == "__main__":
    main()
