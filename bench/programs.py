"""Builds a small program over crates of the repository, in a folder of its own, and runs it on sources.

Used by the other files here; it is no part of the gate.
"""

import os
import resource
import shutil
import subprocess
import sys

TOP = os.path.dirname(os.path.dirname(os.path.abspath(__file__)))


def dependencies():
    """The lines of crates.txt: each crate with the crates that it stands on."""
    with open(os.path.join(TOP, "crates.txt")) as f:
        lines = [line.split("#")[0].split(":") for line in f]
    return {line[0].strip(): line[1].split() for line in lines if len(line) == 2}


def below(names, lines):
    """These crates of the repository, and those that they stand on."""
    found = []
    for name in names:
        if name in lines:
            found += below(lines[name], lines) + [name]
    return sorted(set(found))


def write_crate(folder, text, uses):
    """Writes a program of one file over some crates, with copies of all that it stands on; gives its crate's folder."""
    crates = os.path.join(folder, "crates")
    lines = dependencies()
    for name in below(uses, lines):
        source = os.path.join(TOP, "crates", name)
        shutil.copytree(source, os.path.join(crates, name), ignore=shutil.ignore_patterns("must-fail"))
    for part in ("src", "specs", "proofs"):
        os.makedirs(os.path.join(crates, "bench", part))
    for part in ("specs", "proofs"):
        open(os.path.join(crates, "bench", part, "Lib.antt"), "w").close()
    with open(os.path.join(crates, "bench", "src", "main.rt"), "w") as f:
        f.write(text)
    with open(os.path.join(folder, "crates.txt"), "w") as f:
        f.writelines(f"{name}: {' '.join(lines[name])}\n" for name in below(uses, lines))
        f.write(f"bench: {' '.join(uses)}\n")
    return os.path.join(crates, "bench")


class Program:
    """A program of one file over some crates; it reads `source.js` in the folder that it is run in."""

    def __init__(self, folder, text, uses):
        """Proves and builds it, which takes some minutes where the crates aren't proved yet."""
        self.folder = folder
        crate = write_crate(folder, text, uses)
        self.path = os.path.join(crate, "out", "bench")
        self.give("")
        built = subprocess.run(["rt", "run"], cwd=crate, capture_output=True, text=True)
        if not os.path.exists(self.path):
            sys.exit(built.stdout + built.stderr)

    def give(self, source):
        with open(os.path.join(self.folder, "source.js"), "w") as f:
            f.write(source)

    def run(self, source, stack=None):
        """The words that it prints for this source; none where it dies. It has so many bytes of stack."""
        self.give(source)
        limit = (lambda: resource.setrlimit(resource.RLIMIT_STACK, (stack, stack))) if stack else None
        done = subprocess.run([self.path], cwd=self.folder, capture_output=True, text=True, preexec_fn=limit)
        return done.stdout.split()
