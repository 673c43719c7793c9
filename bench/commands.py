#!/usr/bin/env python3
"""What commands of mixed kinds and previews cost, beside node's in-process inspector in the same run.

    python3 bench/commands.py [--bin PROGRAM] [--times N] [--node NODE]

A round is eight commands: two evaluations, one of them by value, properties of an object, a call of a function, the names
of scripts, and three flags. Each figure is the least processor time of N runs (user and system) of `debug_host replay`,
less the same replay without what is measured; node's is measured by node itself (`bench/commands.js`), behind 100 rounds.

- *commands*: so many read and answered a second.
- *previews*: a preview of an array of 100 numbers, in microseconds, with the release of its id.
- *prints*: so many prints of two values told a second to a session that has the domain Runtime enabled; as many wait for it
  as may.
"""

import argparse
import json
import os
import subprocess
import tempfile

from debugging import PROGRAM, seconds

HERE = os.path.dirname(os.path.abspath(__file__))
SCRIPT = "const list = [];\nfor (let i = 0; i < 100; i++) list.push(i);\nconst point = {x: 1, y: [1, 2]};\n"
START = "\n".join(
    [
        "attach",
        'tell 1 {"id":1,"method":"Runtime.enable"}',
        'tell 1 {"id":2,"method":"Debugger.enable"}',
        "run 100000 0",
        'tell 1 {"id":3,"method":"Runtime.evaluate","params":{"expression":"point","objectGroup":"held"}}',
        "take 1",
        "",
    ]
)
ROUND = "\n".join(
    [
        'tell 1 {"id":4,"method":"Runtime.evaluate","params":{"expression":"point.x + 1"}}',
        'tell 1 {"id":5,"method":"Runtime.getProperties","params":{"objectId":"1.1","ownProperties":true}}',
        'tell 1 {"id":6,"method":"Runtime.callFunctionOn","params":{"functionDeclaration":"function() { return this.x; }","objectId":"1.1"}}',
        'tell 1 {"id":7,"method":"Runtime.evaluate","params":{"expression":"point","returnByValue":true}}',
        'tell 1 {"id":8,"method":"Runtime.globalLexicalScopeNames"}',
        'tell 1 {"id":9,"method":"Debugger.setSkipAllPauses","params":{"skip":false}}',
        'tell 1 {"id":10,"method":"Debugger.setBreakpointsActive","params":{"active":true}}',
        'tell 1 {"id":11,"method":"Debugger.setPauseOnExceptions","params":{"state":"none"}}',
        "take 1",
        "",
    ]
)
PREVIEW = "\n".join(
    [
        'tell 1 {"id":12,"method":"Runtime.evaluate","params":{"expression":"list","objectGroup":"seen","generatePreview":true}}',
        'tell 1 {"id":13,"method":"Runtime.releaseObjectGroup","params":{"objectGroup":"seen"}}',
        "take 1",
        "",
    ]
)
PRINTED = 65000
PRINTS = "for (let i = 0; i < %d; i++) console.log(i, 'x');\n" % PRINTED
TOLD = 'attach\ntell 1 {"id":1,"method":"Runtime.enable"}\nrun 4000000 1000\ntake 1\n'
UNTOLD = 'attach\nrun 4000000 1000\ntake 1\n'


def each(program, folder, piece, count, times):
    """The seconds that a piece of a journal takes."""
    none = seconds(program, folder, START, SCRIPT, times)
    return (seconds(program, folder, START + piece * count, SCRIPT, times) - none) / count


def of_node(node, count):
    """The seconds that node takes for a round and for a preview, or None where there is no node."""
    try:
        done = subprocess.run([node, os.path.join(HERE, "commands.js"), str(count)], stdout=subprocess.PIPE, check=True)
    except (OSError, subprocess.CalledProcessError):
        return None
    spent = json.loads(done.stdout)
    return spent["rounds"] / 1000 / count, spent["previews"] / 1000 / count


def main():
    parser = argparse.ArgumentParser()
    parser.add_argument("--bin", default=PROGRAM)
    parser.add_argument("--times", type=int, default=5)
    parser.add_argument("--node", default="node")
    asked = parser.parse_args()
    count = 4000
    with tempfile.TemporaryDirectory() as folder:
        whole = each(os.path.abspath(asked.bin), folder, ROUND, count, asked.times)
        preview = each(os.path.abspath(asked.bin), folder, PREVIEW, count, asked.times)
        told = seconds(os.path.abspath(asked.bin), folder, TOLD, PRINTS, asked.times)
        untold = seconds(os.path.abspath(asked.bin), folder, UNTOLD, PRINTS, asked.times)
    print("commands: %d a second" % (8 / whole))
    print("preview of 100 elements: %.1f microseconds" % (preview * 1e6))
    print("prints: %d told a second" % (PRINTED / (told - untold)))
    theirs = of_node(asked.node, count)
    if theirs is not None:
        print("beside node's inspector: %.2f times its commands, %.2f times its previews" % (theirs[0] / whole, theirs[1] / preview))


if __name__ == "__main__":
    main()
