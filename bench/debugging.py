#!/usr/bin/env python3
"""What breakpoints and break locations cost, measured on a built program.

    python3 bench/debugging.py [--bin PROGRAM] [--times N]

Each figure is the least processor time of N runs (user and system, in seconds) of `debug_host replay`:

- *possible*: the break locations of a script of about 1,000,000 units, all of them in one command; less the same replay
  without the command.
- *possible, a line*: those of one line of it, in milliseconds a command; from 2,000 commands less none.
- *breakpoints*: a loop of some 2,000,000 steps, debugged by a session without breakpoints, with 1,000 that are never hit,
  and with the debugger not enabled at all.
"""

import argparse
import json
import os
import resource
import subprocess
import tempfile

HERE = os.path.dirname(os.path.abspath(__file__))
PROGRAM = os.path.join(HERE, "..", "crates", "debug_host", "out", "debug_host")


def seconds(program, folder, journal, script, times):
    """The least processor time of the replay of a journal over a script."""
    with open(os.path.join(folder, "journal"), "w") as f:
        f.write(journal)
    with open(os.path.join(folder, "a.js"), "w") as f:
        f.write(script)
    least = None
    for _ in range(times):
        before = resource.getrusage(resource.RUSAGE_CHILDREN)
        done = subprocess.run([program, "replay", "journal", "a.js"], cwd=folder, stdout=subprocess.DEVNULL)
        after = resource.getrusage(resource.RUSAGE_CHILDREN)
        assert done.returncode == 0, done.returncode
        spent = after.ru_utime + after.ru_stime - before.ru_utime - before.ru_stime
        least = spent if least is None else min(least, spent)
    return least


def told(commands):
    """A journal that attaches a session, enables the debugger and tells these commands, then takes the texts."""
    lines = ["attach", 'tell 1 {"id":0,"method":"Debugger.enable"}']
    for number, (method, params) in enumerate(commands):
        lines.append("tell 1 " + json.dumps({"id": number + 1, "method": method, "params": params}))
    return "\n".join(lines + ["take 1"]) + "\n"


def possible(start, end=None):
    params = {"start": {"scriptId": "1", "lineNumber": start}}
    if end is not None:
        params["end"] = {"scriptId": "1", "lineNumber": end}
    return "Debugger.getPossibleBreakpoints", params


def large_script(least=1000000):
    """Functions of six lines with long names, so many units and a few more; 1,000,000 have at most 200,000 tokens."""
    parts = []
    units = 0
    number = 0
    while units < least:
        part = (f"function calculated_total_{number}(first_operand, second_operand) {{\n"
                f"  let intermediate = first_operand + second_operand + {number};\n"
                f"  if (intermediate > 1000) return intermediate - 1000;\n"
                f"  let all_operands = [intermediate, first_operand, second_operand];\n"
                f"  return all_operands.indexOf(intermediate) + all_operands.length;\n}}\n")
        parts.append(part)
        units += len(part)
        number += 1
    return "".join(parts)


LOOP = """let sum = 0;
function add(n) {
  sum = sum + n % 7;
  return sum;
}
for (let i = 0; i < 100000; i++) {
  add(i);
  if (sum > 1000) sum = 0;
}
function never() {
BODY}
"""


def main():
    p = argparse.ArgumentParser()
    p.add_argument("--bin", default=PROGRAM)
    p.add_argument("--times", type=int, default=3)
    a = p.parse_args()
    program = os.path.abspath(a.bin)
    with tempfile.TemporaryDirectory() as folder:
        script = large_script()
        nothing = seconds(program, folder, told([]), script, a.times)
        whole = seconds(program, folder, told([possible(0)]), script, a.times)
        lines = seconds(program, folder, told([possible(n, n + 1) for n in range(2000)]), script, a.times)
        print(f"script of {len(script)} units: {nothing:.3f} s")
        print(f"possible: {whole - nothing:.3f} s")
        print(f"possible, a line: {(lines - nothing) / 2000 * 1000:.3f} ms")
        loop = LOOP.replace("BODY", "".join(f"  sum = {n};\n" for n in range(1000)))
        breakpoints = [("Debugger.setBreakpointByUrl", {"lineNumber": 10 + n, "url": "a.js"}) for n in range(1000)]
        run = "run 4000000000 0\ntake 1\n"
        off = seconds(program, folder, "attach\n" + run, loop, a.times)
        none = seconds(program, folder, told([]) + run, loop, a.times)
        set_only = seconds(program, folder, told(breakpoints), loop, a.times)
        many = seconds(program, folder, told(breakpoints) + run, loop, a.times)
        start = seconds(program, folder, told([]), loop, a.times)
        print(f"loop: not enabled {off - start:.3f} s, no breakpoints {none - start:.3f} s, 1,000 {many - set_only:.3f} s")
        print(f"1,000 breakpoints set: {set_only - start:.3f} s")


if __name__ == "__main__":
    main()
