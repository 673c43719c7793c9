#!/usr/bin/env python3
"""Runs the commands of docs/GUIDE.md and compares what they print with what the page says.

    python3 bench/guide.py [--bin PROGRAM]

Each command is run by bash in one folder of its own, with the program as ./debug_host and the files of examples/. One that ends
with `&` goes on in the background once it has printed what the page says, and `wait` prints the rest of it, once it has ended.
The clients of a server need Python's package websocket-client, and the port 9229. Prints each command that printed something
else, and the counts; the status is 1 where there is one.
"""

import argparse
import os
import subprocess
import sys
import tempfile
import time

HERE = os.path.dirname(os.path.abspath(__file__))
EXAMPLES = os.path.join(HERE, "..", "examples")
PROGRAM = os.path.join(HERE, "..", "crates", "debug_host", "out", "debug_host")


def commands(page):
    """Each command of the page, with the lines that it is to print."""
    found, end = [], None
    for line in page.split("\n"):
        if not line.startswith("    "):
            continue
        line = line[4:]
        if end is not None:
            found[-1][0].append(line)
            end = None if line == end else end
        elif line.startswith("$ "):
            found.append(([line[2:]], []))
            end = "END" if "<<'END'" in line else None
        elif found:
            found[-1][1].append(line)
    return [("\n".join(command), "".join(line + "\n" for line in printed)) for command, printed in found]


class Shell:
    """Runs commands in a folder, some of them in the background."""

    def __init__(self, folder):
        self.folder = folder
        self.background = None

    def run(self, command, wanted):
        """What a command prints."""
        if command == "wait":
            return self.rest()
        if command.endswith(" &"):
            return self.begin(command[:-2], wanted)
        done = subprocess.run(["bash", "-c", command], cwd=self.folder, stdout=subprocess.PIPE, stderr=subprocess.STDOUT)
        return done.stdout.decode("utf-8", "replace")

    def begin(self, command, wanted):
        """What a command prints that goes on, up to where it has printed what is wanted, or for a minute."""
        output = tempfile.TemporaryFile()
        process = subprocess.Popen(["bash", "-c", "exec " + command], cwd=self.folder, stdout=output, stderr=output)
        self.background = process, output, len(wanted.encode())
        end = time.monotonic() + 60
        while self.printed() != wanted and process.poll() is None and time.monotonic() < end:
            time.sleep(0.01)
        return self.printed()

    def printed(self):
        _, output, _ = self.background
        return os.pread(output.fileno(), 1 << 20, 0).decode("utf-8", "replace")

    def rest(self):
        """What the command in the background has printed since it was begun, once it has ended."""
        process, output, seen = self.background
        try:
            process.wait(60)
        except subprocess.TimeoutExpired:
            process.kill()
        return os.pread(output.fileno(), 1 << 20, seen).decode("utf-8", "replace")


def main():
    parser = argparse.ArgumentParser()
    parser.add_argument("--bin", default=PROGRAM)
    asked = parser.parse_args()
    with open(os.path.join(HERE, "..", "docs", "GUIDE.md"), encoding="utf-8") as f:
        listed = commands(f.read())
    wrong = 0
    with tempfile.TemporaryDirectory() as folder:
        os.symlink(os.path.abspath(asked.bin), os.path.join(folder, "debug_host"))
        os.symlink(os.path.abspath(EXAMPLES), os.path.join(folder, "examples"))
        shell = Shell(folder)
        for command, wanted in listed:
            printed = shell.run(command, wanted)
            if printed != wanted:
                wrong += 1
                print("%s\nprinted\n%swanted\n%s" % (command, printed, wanted))
    print("%d commands, %d print something else" % (len(listed), wrong))
    sys.exit(1 if wrong else 0)


if __name__ == "__main__":
    main()
