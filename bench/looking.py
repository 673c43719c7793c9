#!/usr/bin/env python3
"""What looking at a paused program costs, measured on a built program.

    python3 bench/looking.py [--bin PROGRAM] [--times N]

Each figure is the least processor time of N runs (user and system) of `debug_host replay`, less the same replay without
what is measured, in milliseconds:

- *stop*: one `Debugger.paused` and the resume behind it, at a `debugger` statement under so many frames, each with the
  scopes of two blocks, of a function and of the script; with the bytes of the event.
- *evaluation*: one `Debugger.evaluateOnCallFrame` of `n % 2 === 0` on the top one of so many frames, read and answered.
- *properties*: one `Runtime.getProperties` of an array of 10,000 numbers, and of 10,000 objects.
"""

import argparse
import os
import subprocess
import tempfile

from counted import told
from debugging import PROGRAM, seconds

ENABLE = 'tell 1 {"id":1,"method":"Debugger.enable"}\n'
RESUME = 'run 1000000 0\ntell 1 {"id":2,"method":"Debugger.resume"}\ntake 1\n'

EVALUATE = (
    told(1, 4, "Debugger.evaluateOnCallFrame", {"callFrameId": "1.1.0", "expression": "n % 2 === 0"}) + "take 1\n"
)

STOPS = """function down(n) {
  { let a = n; { let b = n; if (n > 1) { down(n - 1); } else { for (let i = 0; i < TIMES; i++) { debugger; } } } }
}
down(DEPTH);
"""

ARRAY = """let a = [];
for (let i = 0; i < 10000; i++) a.push(ELEMENT);
debugger;
"""


def properties(object_id):
    return ('tell 1 {"id":3,"method":"Runtime.getProperties","params":{"objectId":"%s"}}\ntake 1\n' % object_id)


def longest_line(program, folder, journal, script):
    """The bytes of the longest line that a replay prints."""
    with open(os.path.join(folder, "journal"), "w") as f:
        f.write(journal)
    with open(os.path.join(folder, "a.js"), "w") as f:
        f.write(script)
    done = subprocess.run([program, "replay", "journal", "a.js"], cwd=folder, stdout=subprocess.PIPE, check=True)
    return max(map(len, done.stdout.split(b"\n")))


def stop(program, folder, depth, stops, times):
    """The milliseconds of one stop under so many frames, and the bytes of its event."""
    script = STOPS.replace("TIMES", str(stops)).replace("DEPTH", str(depth))
    few = "attach\n" + ENABLE + RESUME
    spent = seconds(program, folder, few + RESUME * (stops - 1), script, times)
    once = seconds(program, folder, few, script, times)
    return (spent - once) / (stops - 1) * 1000, longest_line(program, folder, few, script)


def evaluation(program, folder, depth, evaluations, times):
    """The milliseconds of one evaluation on the top one of so many frames."""
    script = STOPS.replace("TIMES", "1").replace("DEPTH", str(depth))
    start = "attach\n" + ENABLE + "run 1000000 0\ntake 1\n"
    spent = seconds(program, folder, start + EVALUATE * evaluations, script, times)
    none = seconds(program, folder, start, script, times)
    return (spent - none) / evaluations * 1000


def listed(program, folder, element, commands, times):
    """The milliseconds of one command that lists an array of 10,000 elements, and the bytes of its answer."""
    script = ARRAY.replace("ELEMENT", element)
    start = "attach\n" + ENABLE + "run 1000000 0\n" + properties("1.1")
    # The script's scope is the session's object 1, the global scope 2, and the array becomes 3 when 1 is listed.
    array = properties("1.3")
    spent = seconds(program, folder, start + array * commands, script, times)
    none = seconds(program, folder, start, script, times)
    return (spent - none) / commands * 1000, longest_line(program, folder, start + array, script)


def main():
    p = argparse.ArgumentParser()
    p.add_argument("--bin", default=PROGRAM)
    p.add_argument("--times", type=int, default=3)
    a = p.parse_args()
    program = os.path.abspath(a.bin)
    with tempfile.TemporaryDirectory() as folder:
        for depth, stops in (1, 2000), (10, 1000), (100, 300), (900, 20), (990, 20):
            spent, size = stop(program, folder, depth, stops, a.times)
            print(f"stop under {depth:4} frames: {spent:8.3f} ms, {size} bytes")
        for depth, evaluations in (1, 20000), (100, 5000), (900, 200):
            spent = evaluation(program, folder, depth, evaluations, a.times)
            print(f"evaluation under {depth:4} frames: {spent:8.4f} ms")
        for element in "i", "{}":
            spent, size = listed(program, folder, element, 20, a.times)
            print(f"properties, 10,000 of `{element}`: {spent:6.1f} ms, {size} bytes")


if __name__ == "__main__":
    main()
