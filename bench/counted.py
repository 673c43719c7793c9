"""The instructions that a program makes, as valgrind's callgrind counts them; other files here use it.

Other work on the machine changes nothing of them. Callgrind runs a program some fifty times slower.
"""

import json
import os
import re
import subprocess

from measured import write


def told(session, number, method, params=None):
    """The line of a journal that tells a session a command."""
    command = {"id": number, "method": method}
    if params is not None:
        command["params"] = params
    return "tell %d %s\n" % (session, json.dumps(command).replace("%", "%25"))


def instructions(program, words, folder):
    """The instructions of a run that ends with status 0, and what it printed."""
    command = ["valgrind", "--tool=callgrind", "--callgrind-out-file=" + os.devnull, program] + words
    done = subprocess.run(command, cwd=folder, capture_output=True, text=True)
    assert done.returncode == 0, done.stderr
    return int(re.search(r"Collected : (\d+)", done.stderr).group(1)), done.stdout


def replayed(program, folder, journal):
    """The instructions of the replay of a journal over the script `a.js`, and what it printed."""
    write(folder, "journal", journal)
    return instructions(program, ["replay", "journal", "a.js"], folder)
