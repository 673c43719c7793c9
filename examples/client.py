#!/usr/bin/env python3
"""Stops examples/counters.js at its third line, and prints the functions that are active there.

    python3 examples/client.py [PORT]

The program is served by `./debug_host serve --wait examples/counters.js`. Needs the package websocket-client.
"""

import itertools
import json
import sys

import websocket

PORT = sys.argv[1] if len(sys.argv) > 1 else "9229"
numbers = itertools.count(1)
host = websocket.create_connection("ws://127.0.0.1:%s/session" % PORT, suppress_origin=True)


def tell(method, **params):
    host.send(json.dumps({"id": next(numbers), "method": method, "params": params}))


tell("Debugger.enable")
tell("Debugger.setBreakpointByUrl", url="examples/counters.js", lineNumber=2)
tell("Runtime.runIfWaitingForDebugger")
for text in iter(host.recv, ""):
    message = json.loads(text)
    if message.get("method") == "Debugger.paused":
        for frame in message["params"]["callFrames"]:
            print(frame["functionName"] or "(script)", "at line", frame["location"]["lineNumber"] + 1)
        print("goes on")
        tell("Debugger.resume")
print("the host has closed")
