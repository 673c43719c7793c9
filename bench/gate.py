#!/usr/bin/env python3
"""Processor minutes of the gate by crate: runs `rt ci` and looks twice a second at what the processes below it have used.

    bench/gate.py             what the gate does here; crates that it keeps from earlier runs show as nothing
    bench/gate.py --anew      every proof and every must-fail edit
    bench/gate.py js_lexer    these crates and those below them

Words go to `rt ci` as they are. The table (Markdown) goes to standard output, the gate's own lines to standard error.
What a process uses between the last look at it and its end is missing in its row; the last row has it, by the sum of
all processes that the system tells at the end."""
import os
import re
import resource
import subprocess
import sys
import time
from collections import defaultdict
from pathlib import Path

TOP = Path(__file__).resolve().parent.parent
KINDS = ("proof", "tests", "edits")
TICKS = os.sysconf("SC_CLK_TCK")


def crates():
    """The names of the crates, in the order of crates.txt."""
    lines = (TOP / "crates.txt").read_text().splitlines()
    return [m[1] for m in (re.match(r"(\w+)[^:#]*:", line) for line in lines) if m]


def processes():
    """The process number of each process, with its parent's and the ticks that it has used."""
    found = {}
    for entry in os.scandir("/proc"):
        if entry.name.isdigit():
            try:
                fields = Path(entry.path, "stat").read_text().rpartition(")")[2].split()
            except OSError:
                continue
            found[int(entry.name)] = (int(fields[1]), int(fields[11]) + int(fields[12]))
    return found


def below(root, found):
    """The processes that the root started, and those that they started."""
    children = defaultdict(list)
    for number, (parent, _) in found.items():
        children[parent].append(number)
    reached, rest = [], [root]
    while rest:
        number = rest.pop()
        reached.append(number)
        rest += children[number]
    return reached


def row_of(number, names):
    """The crate and the kind of work of a process, or None where it belongs to no crate."""
    try:
        words = Path(f"/proc/{number}/cmdline").read_bytes().decode(errors="replace").split("\0")
        folder = os.readlink(f"/proc/{number}/cwd")
    except OSError:
        return None
    if "--crate-name" in words:
        crate = words[words.index("--crate-name") + 1]
    else:
        crate = next((m[1] for m in (re.search(r"/out/(\w+?)(?:_tests)?(?:\.\w+)?$", word) for word in words) if m), None)
    if crate not in names:
        return None
    if "/rt-edit-" in folder:
        return crate, "edits"
    is_test = any(re.search(rf"\b{crate}_tests\b", word) for word in words)
    return crate, "tests" if is_test else "proof"


def measured(command):
    """Runs the command. Returns its status, its seconds, and the ticks of each crate and kind."""
    names, used, rows = set(crates()), {}, {}
    begin = time.monotonic()
    run = subprocess.Popen(command, cwd=TOP, stdout=sys.stderr)
    while run.poll() is None:
        found = processes()
        for number in below(run.pid, found):
            if number not in found:
                continue
            row = row_of(number, names)
            if row:
                rows[number] = row
            used[number] = max(found[number][1], used.get(number, 0))
        time.sleep(0.5)
    ticks = defaultdict(int)
    for number, row in rows.items():
        ticks[row] += used[number]
    return run.returncode, time.monotonic() - begin, ticks


def minutes(ticks):
    return f"{ticks / TICKS / 60:.1f}" if ticks else ""


def main():
    status, seconds, ticks = measured(["rt", "ci", *sys.argv[1:]])
    usage = resource.getrusage(resource.RUSAGE_CHILDREN)
    print("| Crate | Proof | Tests | Edits | Sum |")
    print("|---|---|---|---|---|")
    for crate in crates():
        of = [ticks[crate, kind] for kind in KINDS]
        print(f"| `{crate}` | {' | '.join(map(minutes, of))} | {minutes(sum(of))} |")
    sums = [sum(ticks[crate, kind] for crate in crates()) for kind in KINDS]
    print(f"| all | {' | '.join(map(minutes, sums))} | {minutes(sum(sums))} |")
    whole = (usage.ru_utime + usage.ru_stime) * TICKS
    print(f"| with what no look saw | | | | {minutes(whole)} |")
    print(f"\n{os.cpu_count()} processors, {seconds / 60:.0f} minutes by the clock, status {status}.")
    return status


if __name__ == "__main__":
    sys.exit(main())
