#!/usr/bin/env python3
"""What grows with a program's names, frames, sessions and properties, by counts of instructions.

    python3 bench/growth.py [--bin PROGRAM] [ROWS ..]        (default all of `ROWS`)

Each row is a line: the instructions of one of what it names, for each of its sizes. They are those that valgrind's
callgrind counts for `debug_host replay`, less those of the same replay without what is measured, so other work on the
machine changes nothing of them. What takes the same for each size is as it should be; so is a text that grows with what
it tells, and what is done for each session. All rows take some ten minutes.
"""

import argparse
import os
import tempfile

from counted import replayed, told
from debugging import PROGRAM, large_script
from measured import write

RUN = "run 4000000000 0\n"
ENABLE = "Debugger.enable"


class Bench:
    """A program, and the folder that it is run in."""

    def __init__(self, program, folder):
        self.program = program
        self.folder = folder

    def count(self, script, journal):
        """The instructions of the replay of a journal over a script."""
        write(self.folder, "a.js", script)
        return replayed(self.program, self.folder, journal)[0]

    def each(self, script, begun, more, times):
        """The instructions of one of what a journal goes on with, so many times over."""
        return (self.count(script, begun + more * times) - self.count(script, begun)) / times


def enabled(sessions):
    """A journal that attaches so many sessions, each with the debugger enabled."""
    return "attach\n" * sessions + "".join(told(session, 1, ENABLE) for session in range(1, sessions + 1))


def evaluated(sessions):
    """An evaluation of each session, so that what evaluations begin with is made."""
    each = [told(session, 9, "Runtime.evaluate", {"expression": "0"}) for session in range(1, sessions + 1)]
    return "".join(each) + taken(sessions)


def taken(sessions):
    return "".join("take %d\n" % session for session in range(1, sessions + 1))


def conditions(sessions, line):
    """The lines that set a breakpoint of each session, whose condition never holds."""
    params = {"lineNumber": line, "url": "a.js", "condition": "i % 2 === 2"}
    each = [told(session, 2, "Debugger.setBreakpointByUrl", params) for session in range(1, sessions + 1)]
    return "".join(each)


EVALUATE = told(1, 3, "Debugger.evaluateOnCallFrame", {"callFrameId": "1.1.0", "expression": "i % 2 === 0"})
RESUME = told(1, 4, "Debugger.resume")


# ---- scripts


def names(count):
    """A line that declares so many names."""
    return "".join("let n%d = 0; " % number for number in range(count)) + "\n"


def loop(turns):
    """A loop, and its line that is arrived at in each turn."""
    return "let s = 0;\nfor (let i = 0; i < %d; i++) {\n  s = s + i;\n}\n" % turns, 2


def under_frames(depth, statement):
    """A script that does this under so many calls, from its line 3 on."""
    script = "let s = 0;\nfunction down(n) {\n  if (n > 1) { down(n - 1); } else {\nSTATEMENT\n  }\n}\ndown(DEPTH);\n"
    return script.replace("STATEMENT", statement).replace("DEPTH", str(depth))


def properties(count, deleted):
    """A script that makes an object with so many properties, and deletes the first of them so often."""
    made = "let o = {};\nlet i = 0;\nwhile (i < %d) { o[\"k\" + i] = i; i++; }\n" % count
    return made + "let d = 0;\nwhile (d < %d) { delete o[\"k\" + d]; d++; }\n" % deleted


# ---- rows


def turn_behind_globals(bench, count):
    def spent(turns):
        return bench.count(names(count) + "let i = 0;\nwhile (i < %d) { i = i + 1; }\n" % turns, RUN)

    return (spent(4000) - spent(2000)) / 2000


def evaluation_by_names(bench, count):
    script = names(count) + "let i = 7;\ndebugger;\n"
    return bench.each(script, enabled(1) + RUN + taken(1) + EVALUATE + taken(1), EVALUATE + taken(1), 50)


def arrivals(bench, script, line, sessions, times):
    """The instructions of one of so many arrivals at conditions that don't hold, one of each session."""
    begun = enabled(sessions) + evaluated(sessions)
    watched = bench.count(script, begun + conditions(sessions, line) + RUN)
    return (watched - bench.count(script, begun + RUN)) / times


def arrival_by_names(bench, count):
    script, line = loop(1000)
    return arrivals(bench, names(count) + script, line + 1, 1, 1000)


def arrival_by_frames(bench, depth):
    # The head of the loop stands in the line 3, what is arrived at in each turn in the next one.
    script = under_frames(depth, "for (let i = 0; i < 100; i++)\n  s = s + i;")
    return arrivals(bench, script, 4, 1, 100)


def evaluation_by_frames(bench, depth):
    script = under_frames(depth, "let i = 7; debugger;")
    return bench.each(script, enabled(1) + RUN + taken(1) + EVALUATE + taken(1), EVALUATE + taken(1), 20)


def stop_by_frames(bench, depth):
    script = under_frames(depth, "for (let i = 0; i < 100; i++) debugger;")
    return bench.each(script, enabled(1) + RUN + taken(1), RESUME + RUN + taken(1), 10)


def attached(bench, sessions):
    return bench.each(large_script(213000), "", "attach\n" * sessions, 1)


def turn_unwatched(bench, sessions):
    script, _ = loop(10000)
    return bench.each(script, "attach\n" * sessions, RUN, 1) / 10000


def stop_by_sessions(bench, sessions):
    begun = enabled(sessions) + RUN + taken(sessions)
    return bench.each("for (let i = 0; i < 100; i++) debugger;\n", begun, RESUME + RUN + taken(sessions), 10)


def arrival_by_sessions(bench, sessions):
    script, line = loop(200)
    return arrivals(bench, script, line, sessions, 200)


def listed(bench, element, count):
    script = "let a = [];\nfor (let i = 0; i < %d; i++) a.push(%s);\ndebugger;\n" % (count, element)

    def lists(number):
        return told(1, 5, "Runtime.getProperties", {"objectId": "1.%d" % number}) + taken(1)

    # The scripts' scope is the session's object 1 and the outermost one 2; the array becomes 3 when 1 is listed.
    return bench.each(script, enabled(1) + RUN + taken(1) + lists(1), lists(3), 5) / count


def number_listed(bench, count):
    return listed(bench, "i", count)


def object_listed(bench, count):
    return listed(bench, "{}", count)


def deletion(bench, count):
    return (bench.count(properties(count, 10), RUN) - bench.count(properties(count, 0), RUN)) / 10


ROWS = {
    "globals": ("a turn of a loop over a name behind so many others", (10, 100, 1000, 4000), turn_behind_globals),
    "evaluations": ("an evaluation in a script of so many names", (10, 1000, 10000), evaluation_by_names),
    "arrivals": ("an arrival at a condition in a script of so many names", (10, 1000, 10000), arrival_by_names),
    "arrivals-frames": ("an arrival at a condition under so many frames", (1, 10, 100, 900), arrival_by_frames),
    "evaluations-frames": ("an evaluation under so many frames", (1, 10, 100, 900), evaluation_by_frames),
    "stops-frames": ("a stop under so many frames", (1, 10, 100, 900), stop_by_frames),
    "attached": ("so many sessions attached to 213,000 units", (1, 4, 16, 64), attached),
    "unwatched": ("a turn of a loop with so many sessions that aren't enabled", (1, 4, 16, 64), turn_unwatched),
    "stops-sessions": ("a stop that is told to so many sessions", (1, 4, 16, 64), stop_by_sessions),
    "arrivals-sessions": ("an arrival at a condition of so many sessions", (1, 4, 16, 64), arrival_by_sessions),
    "numbers": ("each of so many numbers that are listed", (100, 1000, 10000), number_listed),
    "objects": ("each of so many objects that are listed", (100, 1000, 10000), object_listed),
    "deletions": ("a deletion of the first of so many properties", (1000, 10000, 100000), deletion),
}


def main():
    parser = argparse.ArgumentParser()
    parser.add_argument("--bin", default=PROGRAM)
    parser.add_argument("rows", nargs="*", metavar="ROWS", default=list(ROWS))
    asked = parser.parse_args()
    with tempfile.TemporaryDirectory() as folder:
        bench = Bench(os.path.abspath(asked.bin), folder)
        for name in asked.rows:
            what, sizes, row = ROWS[name]
            counts = ["%s: %s" % (f"{size:,}", f"{row(bench, size):,.0f}") for size in sizes]
            print("%s, %s; %s" % (name, what, "; ".join(counts)), flush=True)


if __name__ == "__main__":
    main()
