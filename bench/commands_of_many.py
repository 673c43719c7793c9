#!/usr/bin/env python3
"""What short commands cost, of one session and of 16, measured on a built program.

    python3 bench/commands_of_many.py [--bin PROGRAM] [--times N]

Journals of 100,000 and of 1,000,000 commands are replayed, the texts of a session taken behind each 100 of its commands. With
one session each command is `Runtime.enable`; mixed ones are by turns that and an evaluation of `1`, of one session, and of 16
that are told one command each in turn. For each it prints the seconds by the clock and those of the processor, the least of N
runs, and the most memory, with the size of the journal, which is held whole. Wanted: 1,000,000 commands of one session in less
than 10 seconds, and a memory that doesn't grow with the commands but by the journal.
"""

import argparse
import os
import tempfile

from debugging import PROGRAM
from measured import least, write

TAKEN = 100
ENABLE = '{"id":%d,"method":"Runtime.enable"}'
EVALUATE = '{"id":%d,"method":"Runtime.evaluate","params":{"expression":"1"}}'


def journal(sessions, commands, texts):
    """A journal of so many commands, of these texts by turns; each session is told one at a time, in turn."""
    lines = ["attach"] * sessions
    for number in range(commands):
        session = number % sessions + 1
        own = number // sessions
        lines.append("tell %d %s" % (session, texts[own % len(texts)] % own))
        if own % TAKEN == TAKEN - 1:
            lines.append("take %d" % session)
    return "\n".join(lines) + "\n"


def main():
    parser = argparse.ArgumentParser()
    parser.add_argument("--bin", default=PROGRAM)
    parser.add_argument("--times", type=int, default=2)
    asked = parser.parse_args()
    cases = [(1, [ENABLE], "Runtime.enable"), (1, [EVALUATE, ENABLE], "mixed"), (16, [EVALUATE, ENABLE], "mixed")]
    with tempfile.TemporaryDirectory() as folder:
        write(folder, "a.js", "let a = 1;\n")
        for sessions, texts, words in cases:
            for commands in 100000, 1000000:
                size = write(folder, "journal", journal(sessions, commands, texts))
                done = least(asked.bin, ["replay", "journal", "a.js"], folder, asked.times)
                print(
                    "%7d commands, %s, of %2d sessions: %6.2f s (%.2f s of the processor), %.1f MiB, %.1f of them the journal"
                    % (commands, words, sessions, done.seconds, done.processor, done.memory, size)
                )


if __name__ == "__main__":
    main()
