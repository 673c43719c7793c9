#!/usr/bin/env python3
"""What stops cost that a session resumes one after another, beside node's in-process inspector in the same run.

    python3 bench/drill.py [--bin PROGRAM] [--times N] [--node NODE]

The drill calls a function 10,000 times in a loop. A session has a breakpoint in it whose condition holds at each second call,
and resumes each of the 5,000 stops; another one listens to prints. It is `debug_host drill 10000`, where the program has that
command, and else the replay of the same journal; node does the same work (`bench/drill_node.js`), with its sessions in a thread
of their own, and once more with them in the program's thread.

- *stops*: so many a second by the clock, of the whole of our process and of node's drill alone, behind a shorter one; each the
  best of N runs. Wanted: 50 times node's.
- *counted*: the instructions of one stop, as valgrind's callgrind counts them for `drill`, whatever else runs.
- *growth*: seconds by the clock, those of the processor, and the most memory, for more and more calls: as one drill, whose
  texts wait until the end, and replayed with a take behind each stop. Wanted: a time that grows with the calls, and with takes
  a memory that grows by the journal alone, which is held whole.
"""

import argparse
import json
import os
import subprocess
import tempfile

from counted import instructions
from debugging import PROGRAM
from measured import least, run, write

HERE = os.path.dirname(os.path.abspath(__file__))
SCRIPT = """let t = 0;
function f(i) {
  t = t + i;
  return t;
}
for (let i = 0; i < CALLS; i++) {
  f(i);
}
console.log(t);
"""
START = """attach
attach
tell 1 {"id":1,"method":"Debugger.enable"}
tell 1 {"id":2,"method":"Debugger.setBreakpointByUrl","params":{"condition":"i %25 2 == 0","lineNumber":3,"url":"drill.js"}}
tell 2 {"id":1,"method":"Runtime.enable"}
"""
REPLAY = ["replay", "journal", "drill.js"]


def journal(calls, taken):
    """The journal of a drill of so many calls; with `taken` the first session's texts are taken behind each stop. The last
    resume is refused, since the program has ended."""
    parts = [START]
    for moment in range(1, (calls + 1) // 2 + 2):
        parts.append('run 1000000 %d\ntell 1 {"id":%d,"method":"Debugger.resume"}\n' % (moment, moment + 2))
        if taken:
            parts.append("take 1\n")
    return "".join(parts) + "take 1\ntake 2\n"


def written(folder, calls, taken):
    """Writes the script and the journal of a drill, and gives the journal's size in MiB."""
    write(folder, "drill.js", SCRIPT.replace("CALLS", str(calls)))
    return write(folder, "journal", journal(calls, taken))


def printed(program, words, folder):
    """The lines that a run prints that ends with status 0."""
    output = os.path.join(folder, "output")
    done = run(program, words, folder, output)
    assert done.status == 0, done.status
    with open(output) as f:
        return f.read().split("\n")[:-1]


def checked(program, folder, calls):
    """Replays the journal once: the script stops at each second call, and prints what it prints without a debugger. Gives the
    summary of that which the drill prints."""
    lines = printed(program, REPLAY, folder)
    ran = [line.split() for line in lines if line.startswith("ran ")]
    stops = sum(state == "paused" for _, _, state in ran)
    told = sum(line.startswith("to 1 ") and '"Debugger.paused"' in line for line in lines)
    assert stops == told == (calls + 1) // 2, (stops, told)
    out = ["out %d" % (calls * (calls - 1) // 2)]
    assert out == [line for line in lines if line.startswith("out ")], "another output"
    texts = [sum(line.startswith("to %d " % session) for line in lines) for session in (1, 2)]
    return out + [
        "steps %d" % sum(int(steps) for _, steps, _ in ran),
        "stops %d" % stops,
        "texts 1 %d" % texts[0],
        "texts 2 %d" % texts[1],
    ]


def has_drill(program, folder):
    """Whether the program has the command `drill`."""
    return run(program, ["drill", "1"], folder).status == 0


def counted(program, folder):
    """The instructions of one stop of the drill: those of 1,000 less those of 500."""
    many, _ = instructions(program, ["drill", "2000"], folder)
    few, _ = instructions(program, ["drill", "1000"], folder)
    return (many - few) / 500


def of_node(node, calls, where):
    """The stops that node makes a second, by the clock and of the processor; None where there is no node."""
    command = [node, os.path.join(HERE, "drill_node.js"), str(calls)] + where
    try:
        done = subprocess.run(command, stdout=subprocess.PIPE, stderr=subprocess.DEVNULL, check=True)
    except (OSError, subprocess.CalledProcessError):
        return None
    drill = json.loads(done.stdout.decode().strip().split("\n")[-1])
    assert drill["stops"] == (calls + 1) // 2, drill
    return drill["stops"] / drill["seconds"], drill["stops"] / drill["processor"]


def beside_node(program, words, folder, calls, node, times):
    """Measures the drill here and in node, one run after the other."""
    summary = checked(program, folder, calls)
    assert words == REPLAY or printed(program, words, folder) == summary, "another summary"
    stops = (calls + 1) // 2
    ours, threaded, here = [], [], []
    for _ in range(times):
        done = least(program, words, folder, 1)
        ours.append((stops / done.seconds, stops / done.processor))
        threaded.append(of_node(node, calls, []))
        here.append(of_node(node, calls, ["here"]))
    best, busy = [max(column) for column in zip(*ours)]
    print("stops: %d a second by the clock, %d a second of the processor" % (best, busy))
    for measured, words in (threaded, "in a thread of its own"), (here, "in the program's thread"):
        if None not in measured:
            theirs, used = [max(column) for column in zip(*measured)]
            print(
                "beside node, %s: %d and %d, so %.1f and %.1f times node's"
                % (words, theirs, used, best / theirs, busy / used)
            )


def growth(program, words, folder, calls, size, name, times):
    done = least(program, words, folder, times)
    print(
        "%s of %6d calls: %6.3f s (%.3f s of the processor), %.1f MiB, %.1f of them the journal"
        % (name, calls, done.seconds, done.processor, done.memory, size)
    )


def main():
    parser = argparse.ArgumentParser()
    parser.add_argument("--bin", default=PROGRAM)
    parser.add_argument("--times", type=int, default=3)
    parser.add_argument("--node", default="node")
    asked = parser.parse_args()
    program = os.path.abspath(asked.bin)
    with tempfile.TemporaryDirectory() as folder:
        drills = has_drill(program, folder)
        print("the program has the command drill" if drills else "the program has no command drill: its journal is replayed")
        written(folder, 10000, False)
        words = ["drill", "10000"] if drills else REPLAY
        beside_node(program, words, folder, 10000, asked.node, asked.times)
        if drills:
            print("counted: %d instructions a stop" % counted(program, folder))
        for calls in 1000, 10000:
            size = written(folder, calls, False)
            words, size = (["drill", str(calls)], 0) if drills else (REPLAY, size)
            growth(program, words, folder, calls, size, "drill ", asked.times)
        for calls in 1000, 10000, 100000:
            size = written(folder, calls, True)
            checked(program, folder, calls)
            growth(program, REPLAY, folder, calls, size, "replay", asked.times)


if __name__ == "__main__":
    main()
