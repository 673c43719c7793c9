#!/usr/bin/env python3
"""What evaluations and conditions cost, measured on a built program.

    python3 bench/evaluating.py [--bin PROGRAM] [--times N]

Each figure is the least processor time of N runs (user and system) of `debug_host replay`, less the same replay without
what is measured:

- *evaluations*: `Debugger.evaluateOnCallFrame` of `i % 2 === 0` at one stop, read and answered, so many a second; with the
  most memory that the program held over 10,000 of them and over 100,000.
- *arrivals*: arrivals of a loop at a breakpoint whose condition never holds, so many a second.
- *stops*: arrivals of a loop at a breakpoint whose condition holds at each second one, each stop resumed and its texts taken,
  so many stops a second.
"""

import argparse
import os
import subprocess
import tempfile

from debugging import PROGRAM, seconds

ENABLE = 'attach\ntell 1 {"id":1,"method":"Debugger.enable"}\n'
EVALUATE = (
    'tell 1 {"id":2,"method":"Debugger.evaluateOnCallFrame","params":{"callFrameId":"1.1.0","expression":"i %25 2 === 0"}}\ntake 1\n'
)
RESUME = 'tell 1 {"id":3,"method":"Debugger.resume"}\nrun 1000000 0\ntake 1\n'

STOPPED = "let i = 7;\ndebugger;\n"
LOOP = "let s = 0;\nfor (let i = 0; i < TIMES; i++) {\n  s = s + i;\n}\n"


def breakpoint_if(condition):
    return (
        'tell 1 {"id":4,"method":"Debugger.setBreakpointByUrl","params":{"lineNumber":2,"url":"a.js","condition":"%s"}}\n'
        % condition.replace("%", "%25")
    )


def most_memory(program, folder, journal, script):
    """The most memory that a replay held, in MiB."""
    with open(os.path.join(folder, "journal"), "w") as f:
        f.write(journal)
    with open(os.path.join(folder, "a.js"), "w") as f:
        f.write(script)
    code = (
        "import resource, subprocess, sys; subprocess.run(sys.argv[1:], stdout=subprocess.DEVNULL, check=True); "
        "print(resource.getrusage(resource.RUSAGE_CHILDREN).ru_maxrss)"
    )
    done = subprocess.run(
        ["python3", "-c", code, program, "replay", "journal", "a.js"], cwd=folder, stdout=subprocess.PIPE, check=True
    )
    return int(done.stdout) / 1024


def evaluations(program, folder, times):
    count = 20000
    start = ENABLE + "run 1000 0\ntake 1\n"
    spent = seconds(program, folder, start + EVALUATE * count, STOPPED, times)
    none = seconds(program, folder, start, STOPPED, times)
    few = most_memory(program, folder, start + EVALUATE * 10000, STOPPED)
    many = most_memory(program, folder, start + EVALUATE * 100000, STOPPED)
    return count / (spent - none), few, many


def arrivals(program, folder, times):
    count = 20000
    script = LOOP.replace("TIMES", str(count))
    run = "run 100000000 0\ntake 1\n"
    spent = seconds(program, folder, ENABLE + breakpoint_if("i % 2 === 2") + run, script, times)
    none = seconds(program, folder, ENABLE + run, script, times)
    return count / (spent - none)


def stops(program, folder, times):
    count = 5000
    script = LOOP.replace("TIMES", str(2 * count))
    run = "run 100000000 0\ntake 1\n"
    spent = seconds(program, folder, ENABLE + breakpoint_if("i % 2 === 0") + run + RESUME * count, script, times)
    none = seconds(program, folder, ENABLE + run, script, times)
    return count / (spent - none)


def main():
    p = argparse.ArgumentParser()
    p.add_argument("--bin", default=PROGRAM)
    p.add_argument("--times", type=int, default=3)
    a = p.parse_args()
    program = os.path.abspath(a.bin)
    with tempfile.TemporaryDirectory() as folder:
        rate, few, many = evaluations(program, folder, a.times)
        print(f"evaluations: {rate:9.0f} a second; {few:.1f} MiB over 10,000 of them, {many:.1f} over 100,000")
        print(f"arrivals:    {arrivals(program, folder, a.times):9.0f} a second")
        print(f"stops:       {stops(program, folder, a.times):9.0f} a second")


if __name__ == "__main__":
    main()
