#!/usr/bin/env python3
"""Sixteen clients over the library `websockets` that debug one program at once.

    /usr/bin/python3 bench/clients/sixteen.py [--bin PROGRAM] [--ready SECONDS]

One of them stops the program, all are told of it with ids of their own and ask fifty questions each at the same time, and
another one lets it go on. What they are told is compared with `docs/PROTOCOL.md` and the script. The package is Debian's
`python3-websockets`. It takes two seconds.
"""

import asyncio

import websockets

from every_command import Client, where
from served import SHOP, SHOP_PRINTS, Findings, served, words

CLIENTS, QUESTIONS = 16, 50


async def asks(me, stop, number):
    """Questions of one of many clients, whose answers nobody else gets; gives how many are as expected."""
    frame = stop["callFrames"][0]["callFrameId"]
    right = 0
    for turn in range(QUESTIONS):
        expression = "item.price * 1000 + %d + %d" % (number, turn)
        result = await me.ask("Debugger.evaluateOnCallFrame", callFrameId=frame, expression=expression)
        right += result["result"]["value"] == 4000 + number + turn
    return right


async def together(port, see):
    """The first client sets a breakpoint, all are told of the stop and look, the last one lets the program go on."""
    target = "ws://127.0.0.1:%d/session" % port
    clients = [Client(await websockets.connect(target, max_size=None)) for _ in range(CLIENTS)]
    for client in clients:
        await client.ask("Debugger.enable")
        await client.ask("Runtime.enable")
        await client.event("Debugger.scriptParsed")
        await client.event("Runtime.executionContextCreated")
    await clients[0].ask("Debugger.setBreakpointByUrl", url="shop.js", lineNumber=3)
    await clients[0].ask("Runtime.runIfWaitingForDebugger")
    for client in clients:
        await client.event("Debugger.paused")
    await clients[0].ask("Debugger.resume")
    for client in clients:
        await client.event("Debugger.resumed")
    stops = [await client.event("Debugger.paused") for client in clients]
    see("sixteen are told of one stop", [where(stop)[:2] for stop in stops], [(["add", ""], 3)] * CLIENTS)
    hits = [stop["hitBreakpoints"] for stop in stops]
    see("the first one's breakpoint is its own", hits, [["1:3:0:shop.js"]] + [[]] * (CLIENTS - 1))
    see("each has ids of its own", len({stop["callFrames"][0]["callFrameId"] for stop in stops}), CLIENTS)
    right = await asyncio.gather(*[asks(client, stop, number) for number, (client, stop) in enumerate(zip(clients, stops))])
    see("each is answered its own questions", right, [QUESTIONS] * CLIENTS)
    scope = stops[0]["callFrames"][0]["scopeChain"][0]["object"]["objectId"]
    others = [await client.ask("Runtime.getProperties", objectId=scope) for client in clients[1:]]
    see("an id of the first one is nothing to another", others, [(-32000, "Could not find object with given id")] * (CLIENTS - 1))
    removed = await clients[0].ask("Debugger.removeBreakpoint", breakpointId="1:3:0:shop.js")
    see("the first one takes its breakpoint away", removed, {})
    see("the last one lets it go on", await clients[-1].ask("Debugger.resume"), {})
    ends = await asyncio.gather(*[client.closed() for client in clients])
    end = ["Debugger.resumed", "Runtime.consoleAPICalled", "Runtime.consoleAPICalled", "Runtime.executionContextDestroyed"]
    see("all are told of the rest", ends, [(end, 1000)] * CLIENTS)


if __name__ == "__main__":
    findings = Findings()
    with served(words(), "--sessions", str(CLIENTS), name="shop.js", script=SHOP) as host:
        asyncio.run(together(host.port, findings.see))
        findings.ended(host, SHOP_PRINTS)
    findings.end()
