#!/usr/bin/env python3
"""Refuses the program's allocations one after another, over two examples and the stored run.

    python3 bench/refused_memory.py [FIRST LAST]        (default 1 40)

For each N from FIRST to LAST the Nth allocation fails (`rt try --fail-alloc N`). Wanted: the status is 1 with the line
`debug_host: out of memory` on the error stream, or what it is with ample memory where the program makes fewer
allocations; and the output is a prefix of the whole output. Prints a line for each run of another kind, and the counts.
It is no part of the gate, and takes some seconds a run.
"""

import os
import subprocess
import sys

TOP = os.path.dirname(os.path.dirname(os.path.abspath(__file__)))
CRATE = os.path.join(TOP, "crates", "debug_host")
RUNS = [
    ("examples/pause.journal", "examples/counters.js", "examples/pause.output"),
    ("examples/two.journal", "examples/sum.js", "examples/two.output"),
    ("crates/debug_host/data/first.journal", "crates/debug_host/data/empty.js", "crates/debug_host/stdout"),
]


def run(journal, script, number):
    command = ["rt", "try", "--fail-alloc", str(number)]
    # under their own names, since a script's name is its url
    command += ["--data", f"{journal}={os.path.join(TOP, journal)}", "--data", f"{script}={os.path.join(TOP, script)}"]
    command += ["--", "replay", journal, script]
    ended = subprocess.run(command, cwd=CRATE, capture_output=True, text=True)
    return ended.returncode, ended.stdout, ended.stderr


def main():
    first, last = [int(word) for word in sys.argv[1:3]] or (1, 40)
    refused = whole = other = 0
    for journal, script, output in RUNS:
        with open(os.path.join(TOP, output)) as f:
            wanted = f.read()
        for number in range(first, last + 1):
            status, out, err = run(journal, script, number)
            if status == 1 and wanted.startswith(out) and "debug_host: out of memory" in err:
                refused += 1
            elif status == 0 and out == wanted:
                whole += 1
            else:
                other += 1
                print(f"{journal}, allocation {number}: status {status}, output {out!r}, errors {err[-300:]!r}")
    print(f"{refused} runs ended with status 1 and a prefix of the output, {whole} ended as with ample memory, {other} otherwise")


if __name__ == "__main__":
    main()
