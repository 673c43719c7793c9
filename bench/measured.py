"""A run of a program with the seconds and the most memory that it took; other files here use it.

A process counts as its memory also what the process held that started it, so a small one starts the program: what takes less
than some 8 MiB is shown as that.
"""

import os
import subprocess
import sys
from collections import namedtuple

# The status, the seconds by the clock and those of the processor, and the most memory in MiB.
Run = namedtuple("Run", "status seconds processor memory")

STARTS = """
import os, sys, time
output = os.open(sys.argv[1], os.O_WRONLY | os.O_CREAT | os.O_TRUNC, 0o644)
begun = time.monotonic()
child = os.posix_spawn(sys.argv[2], sys.argv[2:], os.environ, file_actions=[(os.POSIX_SPAWN_DUP2, output, 1)])
_, status, used = os.wait4(child, 0)
print(os.waitstatus_to_exitcode(status), time.monotonic() - begun, used.ru_utime + used.ru_stime, used.ru_maxrss / 1024)
"""


def run(program, words, folder, output=os.devnull):
    """Runs a program with these words in a folder; what it prints goes to this file."""
    command = [sys.executable, "-I", "-S", "-c", STARTS, output, os.path.abspath(program)] + words
    done = subprocess.run(command, cwd=folder, stdout=subprocess.PIPE, check=True)
    status, seconds, processor, memory = done.stdout.split()
    return Run(int(status), float(seconds), float(processor), float(memory))


def least(program, words, folder, times):
    """The least figures of so many runs that end with status 0; what they print is thrown away."""
    runs = [run(program, words, folder) for _ in range(times)]
    assert all(one.status == 0 for one in runs), runs
    return Run(0, *(min(column) for column in list(zip(*runs))[1:]))


def write(folder, name, text):
    """Writes a file, and gives its size in MiB."""
    with open(os.path.join(folder, name), "w", encoding="utf-8") as f:
        f.write(text)
    return len(text.encode("utf-8")) / 2**20
