#!/usr/bin/env python3
"""Tries wrong bodies of crates whose edits are too dear for the gate: the prover must refuse each.

    python3 bench/edits.py [CRATE ..]        (default: each with a folder here)

`bench/edits/CRATE/` has the edits, of the form that `rt must-fail` reads. They are tried in a copy of the repository, in which
the crate is checked first: some minutes for a crate that the machine hasn't checked. Prints what `rt must-fail` says of each
crate; the status is 1 where one isn't refused. It is no part of the gate.
"""

import os
import shutil
import subprocess
import sys
import tempfile

TOP = os.path.dirname(os.path.dirname(os.path.abspath(__file__)))
EDITS = os.path.join(TOP, "bench", "edits")


def tried(crate, folder):
    """What `rt must-fail` says of a crate's edits, and its status."""
    shutil.copytree(os.path.join(EDITS, crate), os.path.join(folder, "crates", crate, "must-fail"), dirs_exist_ok=True)
    done = subprocess.run(["rt", "must-fail"], cwd=os.path.join(folder, "crates", crate), capture_output=True, text=True)
    return done.stdout + done.stderr, done.returncode


def main():
    crates = sys.argv[1:] or sorted(os.listdir(EDITS))
    failed = 0
    with tempfile.TemporaryDirectory() as top:
        folder = os.path.join(top, "repository")
        ignore = shutil.ignore_patterns(".git", "out")
        shutil.copytree(TOP, folder, ignore=ignore)
        for crate in crates:
            said, status = tried(crate, folder)
            print(said.rstrip(), flush=True)
            failed |= status
    sys.exit(1 if failed else 0)


main()
