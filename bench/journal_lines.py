#!/usr/bin/env python3
"""What many lines of a journal and many scripts cost, measured on a built program.

    python3 bench/journal_lines.py [--bin PROGRAM] [--times N]

- *lines*: 100,000 and 1,000,000 lines, by turns a run of one step, a command and a take, over one script and over 100.
- *scripts*: 100 scripts of a function of 100 statements each, read, started and run to their end by a journal of two lines.

For each it prints the seconds by the clock and those of the processor, the least of N runs, and the most memory, with the size
of the journal, which is held whole.
"""

import argparse
import os
import tempfile

from debugging import PROGRAM
from measured import least, write

SCRIPTS = 100
LINES = ["run 1 0", 'tell 1 {"id":1,"method":"Runtime.enable"}', "take 1"]


def journal(lines):
    """A journal of so many lines, the first of which attaches a session."""
    return "\n".join(["attach"] + [LINES[number % len(LINES)] for number in range(lines - 1)]) + "\n"


def script(number, turns):
    """A script with a function of 100 statements, which is called once, and a loop of so many turns."""
    body = "".join("  sum_%d = sum_%d + %d;\n" % (number, number, n) for n in range(100))
    return (
        "let sum_%d = 0;\nfunction add_%d() {\n%s}\nadd_%d();\nlet turn_%d = 0;\nwhile (turn_%d < %d) turn_%d++;\n"
        % (number, number, body, number, number, number, turns, number)
    )


def shown(words, program, names, size, folder, times):
    done = least(program, ["replay", "journal"] + names, folder, times)
    print(
        "%s: %.2f s (%.2f s of the processor), %.1f MiB, %.1f of them the journal"
        % (words, done.seconds, done.processor, done.memory, size)
    )


def main():
    parser = argparse.ArgumentParser()
    parser.add_argument("--bin", default=PROGRAM)
    parser.add_argument("--times", type=int, default=2)
    asked = parser.parse_args()
    names = ["%d.js" % number for number in range(SCRIPTS)]
    with tempfile.TemporaryDirectory() as folder:
        # so many steps that each run of the journal makes one
        write(folder, "a.js", script(0, 400000))
        for number, name in enumerate(names):
            write(folder, name, script(number, 4000))
        for lines in 100000, 1000000:
            size = write(folder, "journal", journal(lines))
            shown("%7d lines over one script" % lines, asked.bin, ["a.js"], size, folder, asked.times)
            shown("%7d lines over %d scripts" % (lines, SCRIPTS), asked.bin, names, size, folder, asked.times)
        size = write(folder, "journal", "attach\nrun 4000000000 0\n")
        shown("%d scripts to their end" % SCRIPTS, asked.bin, names, size, folder, asked.times)


if __name__ == "__main__":
    main()
