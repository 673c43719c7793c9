#!/usr/bin/env python3
"""Compares `debug_host run` with node over scripts of the kind that learners write.

    python3 bench/learner_scripts.py [WORD ..]        (default: all; else those whose names hold one of the words)

Runs each script of `bench/learner_scripts/` by `debug_host run` and by node, where it is strict code and `readline()` gives
the lines of its input, `NAME.in` beside `NAME.js`, and null behind the last one. Compares what they print, byte for byte,
and whether both fail, by a throw that nothing catches. Prints a line for each script that differs, and at the end how many
agree, how many of them fail, and how many differ. The status is 1 where some differ. It is no part of the gate, and needs
node; build the program first (`./debug_host`).
"""

import os
import subprocess
import sys

TOP = os.path.dirname(os.path.dirname(os.path.abspath(__file__)))
PROGRAM = os.path.join(TOP, "crates", "debug_host", "out", "debug_host")
SCRIPTS = os.path.join(TOP, "bench", "learner_scripts")

# what node runs: in a block, so that a script may have these names too; one that can't be compiled has a status of its own
PRELUDE = r"""{
  const { readFileSync } = require("fs"), { Script } = require("vm");
  const lines = process.argv[2] ? readFileSync(process.argv[2], "utf8").split("\n") : [""];
  if (lines[lines.length - 1] === "") lines.pop();
  globalThis.readline = () => (lines.length > 0 ? lines.shift() : null);
  let script;
  try { script = new Script('"use strict";' + readFileSync(process.argv[1], "utf8")); } catch { process.exit(3); }
  script.runInThisContext();
}"""

ENDS = {"program": {0: "ends", 8: "throws"}, "node": {0: "ends", 1: "throws"}}
SECONDS = 60


def ran(engine, command):
    """How a run ended, and the lines that it printed."""
    try:
        done = subprocess.run(command, capture_output=True, stdin=subprocess.DEVNULL, timeout=SECONDS)
    except subprocess.TimeoutExpired as late:
        return f"runs for {SECONDS} seconds", (late.stdout or b"").split(b"\n")
    return ENDS[engine].get(done.returncode, f"has status {done.returncode}"), done.stdout.split(b"\n")


def difference(own, theirs):
    """What differs in two runs, or None."""
    if own[0] != theirs[0] or own[0] not in ("ends", "throws"):
        return f"the program {own[0]}, node {theirs[0]}"
    for at in range(max(len(own[1]), len(theirs[1]))):
        if own[1][at:at + 1] != theirs[1][at:at + 1]:
            return f"line {at + 1} is {own[1][at:at + 1]}, by node {theirs[1][at:at + 1]}"
    return None


def main():
    words = sys.argv[1:] or [""]
    scripts = [name for name in sorted(os.listdir(SCRIPTS)) if name.endswith(".js") and any(w in name for w in words)]
    failed = differ = 0
    for name in scripts:
        script = os.path.join(SCRIPTS, name)
        lines = script[:-3] + ".in"
        is_read = os.path.exists(lines)
        own = ran("program", [PROGRAM, "run", *(["--input", lines] if is_read else []), script])
        theirs = ran("node", ["node", "-e", PRELUDE, script, *([lines] if is_read else [])])
        found = difference(own, theirs)
        if found:
            print(f"{name}: {found}", flush=True)
        differ += found is not None
        failed += found is None and own[0] == "throws"
    print(f"{len(scripts) - differ} scripts agree, {failed} of them by a throw that nothing catches, {differ} differ")
    sys.exit(1 if differ else 0)


if __name__ == "__main__":
    main()
