#!/usr/bin/env python3
"""What libraries of WebSockets get from a program that is served: `websockets` of Python, and `ws` of node.

    NODE_PATH=/usr/share/nodejs /usr/bin/python3 bench/clients/libraries.py [--bin PROGRAM] [--ready SECONDS]

Each finds the program by `/json/list`, stops it in `add`, evaluates there and lets it go on, and what it heard is compared with
what `docs/PROTOCOL.md` says. The packages are those of Debian, `python3-websockets` and `node-ws`; one that isn't there is passed
over. It takes two seconds.
"""

import asyncio
import importlib.util
import json
import subprocess
import urllib.request

from served import SUM_PRINTS, Findings, served, words

COMMANDS = [
    ("Debugger.enable", {}),
    ("Debugger.setBreakpointByUrl", {"url": "sum.js", "lineNumber": 2}),
    ("Runtime.runIfWaitingForDebugger", {}),
    "Debugger.paused",
    ("Debugger.resume", {}),
    "Debugger.paused",
    ("Runtime.evaluate", {"expression": "add(20, 22)"}),
    ("Debugger.disable", {}),
]

NODE = """
const { WebSocket } = require("ws");
const steps = JSON.parse(process.argv[2]);
fetch(process.argv[1]).then((list) => list.json()).then(([target]) => {
  const host = new WebSocket(target.webSocketDebuggerUrl);
  let at = 0;
  const go = () => {
    while (at < steps.length && typeof steps[at] !== "string") {
      const [method, params] = steps[at++];
      host.send(JSON.stringify({ id: at, method, params }));
    }
  };
  host.on("open", go);
  host.on("message", (text) => {
    console.log(String(text));
    if (JSON.parse(text).method === steps[at]) { at++; go(); }
  });
  host.on("close", (code) => console.log("closed with " + code));
});
"""


def target_of(port):
    """Where the program's list says that its WebSocket is."""
    with urllib.request.urlopen("http://127.0.0.1:%d/json/list" % port, timeout=10) as answer:
        return json.load(answer)[0]["webSocketDebuggerUrl"]


async def talk(websockets, target):
    """Says the commands, waits for the events, and gives what was heard."""
    heard = []
    async with websockets.connect(target, max_size=None) as host:
        at = 0
        while True:
            while at < len(COMMANDS) and not isinstance(COMMANDS[at], str):
                method, params = COMMANDS[at]
                at += 1
                await host.send(json.dumps({"id": at, "method": method, "params": params}))
            try:
                text = await asyncio.wait_for(host.recv(), 20)
            except websockets.ConnectionClosed as closed:
                return heard + ["closed with %d" % closed.code]
            heard.append(text)
            at += at < len(COMMANDS) and json.loads(text).get("method") == COMMANDS[at]


# What is to be heard, but for what the events say of frames and scripts: the methods of events, and the results of commands.
HEARD = [
    "Debugger.scriptParsed",
    {"debuggerId": "1"},
    {"breakpointId": "1:2:0:sum.js", "locations": [{"columnNumber": 2, "lineNumber": 2, "scriptId": "1"}]},
    {},
    "Debugger.paused",
    {},
    "Debugger.resumed",
    "Debugger.paused",
    {"result": {"description": "42", "type": "number", "value": 42}},
    {},
    "closed with 1000",
]


def brief(line):
    """What is compared of a message."""
    if not line.startswith("{"):
        return line
    message = json.loads(line)
    return message.get("method") or message.get("result") or message.get("error") or {}


def has_websockets():
    return importlib.util.find_spec("websockets") is not None


def has_ws():
    return subprocess.run(["node", "-e", 'require("ws")'], stderr=subprocess.DEVNULL).returncode == 0


def by_python(port):
    import websockets

    return asyncio.run(talk(websockets, target_of(port)))


def by_node(port):
    command = ["node", "-e", NODE, "http://127.0.0.1:%d/json/list" % port, json.dumps(COMMANDS)]
    done = subprocess.run(command, stdout=subprocess.PIPE, stderr=subprocess.STDOUT, timeout=30)
    return done.stdout.decode().splitlines()


asked, findings = words(), Findings()
for name, is_there, client in [("websockets (Python)", has_websockets, by_python), ("ws (node)", has_ws, by_node)]:
    if not is_there():
        print("%s\n  the package isn't there" % name)
        continue
    with served(asked) as host:
        heard = client(host.port)
        print("\n".join([name] + ["  " + line for line in heard]))
        findings.see("what is heard by " + name, [brief(line) for line in heard], HEARD)
        findings.ended(host, SUM_PRINTS)
findings.end()
