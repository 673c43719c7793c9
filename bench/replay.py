#!/usr/bin/env python3
"""Times `debug_host replay` over a loop that prints, each run to its end by one `run`.

    python3 bench/replay.py [TURNS ..]        (default 25000 50000 100000 200000)

Prints one line a size: the turns of the loop, the seconds, and the most memory in MiB. Time and memory should grow
with the turns, since a replay keeps what one `run` prints until its steps are made. Checks that the output is right. It is no part of the gate; build the program first (`./debug_host`).
"""

import os
import subprocess
import sys
import tempfile
import time

TOP = os.path.dirname(os.path.dirname(os.path.abspath(__file__)))
PROGRAM = os.path.join(TOP, "crates", "debug_host", "out", "debug_host")


def replay(turns):
    """(seconds, MiB) of a replay of a loop of so many turns."""
    with tempfile.TemporaryDirectory() as folder:
        script = os.path.join(folder, "script.js")
        journal = os.path.join(folder, "journal")
        with open(script, "w") as f:
            f.write(f"for (let i = 0; i < {turns}; i++) console.log(i);\n")
        with open(journal, "w") as f:
            f.write("attach\nrun 4294967295 0\n")
        output = os.path.join(folder, "output")
        start = time.monotonic()
        with open(output, "wb") as out:
            child = subprocess.Popen([PROGRAM, "replay", journal, script], stdout=out)
            _, status, usage = os.wait4(child.pid, 0)
        seconds = time.monotonic() - start
        assert status == 0, status
        with open(output) as f:
            text = f.read()
        want = "attached 1\n" + "".join(f"out {i}\n" for i in range(turns)) + f"ran {10 * turns + 7} ended\n"
        assert text == want, "the output is wrong"
        return seconds, usage.ru_maxrss / 1024


def main():
    sizes = [int(word) for word in sys.argv[1:]] or [25_000, 50_000, 100_000, 200_000]
    print("  turns  seconds     MiB")
    for turns in sizes:
        seconds, memory = min(replay(turns) for _ in range(3))
        print(f"{turns:7} {seconds:8.3f} {memory:7.1f}")


if __name__ == "__main__":
    main()
