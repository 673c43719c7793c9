#!/usr/bin/env python3
"""What breakpoints that are never hit cost, by counts of instructions, measured on a built program.

    python3 bench/breakpoints.py [--bin PROGRAM] [CHANGES ..]        (default 1000 10000 100000)

The counts are those that valgrind's callgrind gives for `debug_host replay`, less those of the same replay without what is
measured, so other work on the machine changes nothing of them:

- *run*: a loop that nothing stops, debugged by one session with 10 breakpoints, and by more of both, at lines that are
  never run. Wanted: with 16 sessions of 1,000 it takes at most 1.1 times what it takes with one of 10.
- *changes*: so many breakpoints that one session sets and removes one after another. Wanted: one of them takes the same however
  many there are.

Callgrind is slow: all of it takes some ten minutes.
"""

import argparse
import os
import re
import tempfile

from counted import replayed, told
from debugging import PROGRAM
from measured import write

LINES = 1000
TURNS = 20000
TAKEN = 100

# The breakpoints stand at the lines of a function that is never called.
SCRIPT = """let sum = 0;
let rest = 0;
function unused() {
UNUSED}
function add(n) {
  const part = n % 7;
  if (part > 3) {
    sum = sum + part;
  } else {
    rest = rest + 1;
  }
  return sum;
}
let i = 0;
while (i < TURNS) {
  add(i);
  i++;
}
console.log(sum, rest);
"""
# The first of these lines, counted from 0.
FIRST = 3


def script():
    unused = "".join("  sum = %d;\n" % n for n in range(LINES))
    return SCRIPT.replace("UNUSED", unused).replace("TURNS", str(TURNS))


def sets(session, number, line):
    return told(session, number, "Debugger.setBreakpointByUrl", {"lineNumber": line, "url": "a.js"})


def removes(session, number, line):
    return told(session, number, "Debugger.removeBreakpoint", {"breakpointId": "1:%d:0:a.js" % line})


def start(sessions, breakpoints):
    """A journal that attaches so many sessions, with so many breakpoints each."""
    lines = ["attach\n"] * sessions
    for session in range(1, sessions + 1):
        lines.append(told(session, 1, "Debugger.enable"))
        lines += [sets(session, number + 2, FIRST + number) for number in range(breakpoints)]
        lines.append("take %d\n" % session)
    return "".join(lines)


def changes(count):
    """A journal of a session that sets and removes so many breakpoints one after another."""
    lines = ["attach\n", told(1, 1, "Debugger.enable")]
    for number in range(count):
        line = FIRST + number % LINES
        lines.append(sets(1, 2 * number + 2, line))
        lines.append(removes(1, 2 * number + 3, line))
        if number % TAKEN == TAKEN - 1:
            lines.append("take 1\n")
    return "".join(lines + ["take 1\n"])


def counted(program, folder, journal):
    """The instructions of the replay of a journal, in millions, and what it printed."""
    count, printed = replayed(program, folder, journal)
    return count / 1e6, printed


def run_of(program, folder, sessions, breakpoints):
    """The instructions of the run alone, with so many sessions and breakpoints of each."""
    before, printed = counted(program, folder, start(sessions, breakpoints))
    assert printed.count('"locations":[{') == sessions * breakpoints, "a breakpoint isn't resolved"
    whole, printed = counted(program, folder, start(sessions, breakpoints) + "run 4000000000 0\n")
    assert "paused" not in printed and re.search(r"^ran \d+ ended$", printed, re.MULTILINE), "it isn't run to its end"
    return whole - before


def main():
    parser = argparse.ArgumentParser()
    parser.add_argument("--bin", default=PROGRAM)
    parser.add_argument("changes", nargs="*", type=int, default=[1000, 10000, 100000])
    asked = parser.parse_args()
    program = os.path.abspath(asked.bin)
    with tempfile.TemporaryDirectory() as folder:
        write(folder, "a.js", script())
        few = run_of(program, folder, 1, 10)
        print("run: %.1f million instructions with one session of 10 breakpoints" % few, flush=True)
        for sessions, breakpoints in (1, LINES), (16, 10), (16, LINES):
            many = run_of(program, folder, sessions, breakpoints)
            print("run: %.1f with %d of %d, %.3f times that" % (many, sessions, breakpoints, many / few), flush=True)
        none, _ = counted(program, folder, changes(0))
        for count in asked.changes:
            done, printed = counted(program, folder, changes(count))
            assert "error" not in printed, "a command is refused"
            each = (done - none) / count * 1e6
            print("changes: %d in %.1f million instructions, %.0f each" % (count, done - none, each), flush=True)


if __name__ == "__main__":
    main()
