#!/usr/bin/env python3
"""A client of one's own over the library `websockets`: more than fifty commands.

    /usr/bin/python3 bench/clients/every_command.py [--bin PROGRAM] [--ready SECONDS]

Each method of `docs/PROTOCOL.md` is among them, and so are refusals; what the client is told is compared with that page and the
script. The package is Debian's `python3-websockets`. It takes a second.
"""

import asyncio
import collections
import hashlib
import json

import websockets

from served import SHOP, SHOP_PRINTS, Findings, served, words

PATIENCE = 20


class Client:
    """A client that asks, and keeps the events that come meanwhile."""

    def __init__(self, socket):
        self.socket, self.number, self.events = socket, 0, collections.deque()

    async def hear(self):
        return json.loads(await asyncio.wait_for(self.socket.recv(), PATIENCE))

    async def answer(self, text, number):
        """Sends a text, and gives the message of this number that answers it; None is one without a number."""
        await self.socket.send(text)
        while "method" in (message := await self.hear()):
            self.events.append(message)
        assert message.get("id") == number, message
        return message

    async def ask(self, method, **params):
        """The result of a command, or where it is refused its code and message."""
        self.number += 1
        command = {"id": self.number, "method": method, "params": params}
        message = await self.answer(json.dumps(command), self.number)
        return message["result"] if "result" in message else (message["error"]["code"], message["error"]["message"])

    async def event(self, method):
        """The parameters of the next event, which is to be of this method."""
        message = self.events.popleft() if self.events else await self.hear()
        assert message.get("method") == method, (method, message)
        return message["params"]

    async def stop(self, method, **params):
        """Lets the program go on by a command; gives the stop to which it comes, and what it printed before."""
        assert await self.ask(method, **params) == {}
        await self.event("Debugger.resumed")
        printed = []
        while (message := self.events.popleft() if self.events else await self.hear())["method"] != "Debugger.paused":
            printed.append([value["value"] for value in message["params"]["args"]])
        return message["params"], printed

    async def closed(self):
        """The code of the close; gives the methods of what comes before it too."""
        methods = [message["method"] for message in self.events]
        try:
            while True:
                methods.append((await self.hear())["method"])
        except websockets.ConnectionClosed as closed:
            return methods, closed.code


def at(line, column):
    return {"columnNumber": column, "lineNumber": line, "scriptId": "1"}


def number(value):
    return {"description": str(value), "type": "number", "value": value}


def text(value):
    return {"type": "string", "value": value}


def where(stop):
    """The functions of a stop, the line of the top one, and which breakpoints were hit."""
    frames = stop["callFrames"]
    return [frame["functionName"] for frame in frames], frames[0]["location"]["lineNumber"], stop["hitBreakpoints"]


def properties(result):
    """Names and values of properties; of an object what it is described as."""
    return {one["name"]: one["value"].get("value", one["value"].get("description")) for one in result["result"]}


def thrown(result):
    """What an evaluation threw, described, and the text of its details."""
    return result["result"].get("description"), result["exceptionDetails"]["text"]


async def before_it_begins(me, see):
    """Enabling, sources, breakpoints and refusals, while the program waits."""
    see("Runtime.enable", await me.ask("Runtime.enable"), {})
    context = {"id": 1, "name": "debug_host", "origin": ""}
    see("its event", await me.event("Runtime.executionContextCreated"), {"context": context})
    see("Runtime.disable", await me.ask("Runtime.disable"), {})
    see("a command of a domain that isn't enabled", await me.ask("Debugger.pause"), (-32000, "Debugger agent is not enabled"))
    see("Debugger.enable", await me.ask("Debugger.enable"), {"debuggerId": "1"})
    script = {"scriptId": "1", "url": "shop.js", "executionContextId": 1, "hash": hashlib.sha256(SHOP.encode()).hexdigest()}
    script.update({"startLine": 0, "startColumn": 0, "endLine": 19, "endColumn": 0})
    see("its event", await me.event("Debugger.scriptParsed"), script)
    see("Debugger.disable", await me.ask("Debugger.disable"), {})
    see("Debugger.enable once more", await me.ask("Debugger.enable"), {"debuggerId": "1"})
    see("its event", (await me.event("Debugger.scriptParsed"))["url"], "shop.js")
    see("Runtime.enable once more", await me.ask("Runtime.enable"), {})
    see("its event", (await me.event("Runtime.executionContextCreated"))["context"]["id"], 1)
    see("Debugger.getScriptSource", await me.ask("Debugger.getScriptSource", scriptId="1"), {"scriptSource": SHOP})
    see("of no script", await me.ask("Debugger.getScriptSource", scriptId="2"), (-32000, "No script for id: 2"))
    see("Debugger.setAsyncCallStackDepth", await me.ask("Debugger.setAsyncCallStackDepth", maxDepth=32), {})
    see("Debugger.setPauseOnExceptions", await me.ask("Debugger.setPauseOnExceptions", state="none"), {})
    places = await me.ask("Debugger.getPossibleBreakpoints", start=at(3, 0), end=at(5, 0))
    see("Debugger.getPossibleBreakpoints", places, {"locations": [at(3, 2), at(4, 2)]})
    refused = -32000, "Can only perform operation while paused."
    see("a step before the program begins", await me.ask("Debugger.stepOver"), refused)
    see("a method that isn't there", await me.ask("Debugger.restart"), (-32601, "'Debugger.restart' wasn't found"))
    see("a parameter that is missing", await me.ask("Debugger.setSkipAllPauses"), (-32602, "Invalid parameters"))
    told = await me.answer("7", None)
    see("a text that is no command", told, {"error": {"code": -32600, "message": "Message must be an object"}})


async def breakpoints(me, see):
    """Breakpoints, set and removed."""
    by_url = await me.ask("Debugger.setBreakpointByUrl", url="shop.js", lineNumber=3)
    see("Debugger.setBreakpointByUrl", by_url, {"breakpointId": "1:3:0:shop.js", "locations": [at(3, 2)]})
    again = await me.ask("Debugger.setBreakpointByUrl", url="shop.js", lineNumber=3)
    see("the same again", again, (-32000, "Breakpoint at specified location already exists."))
    nowhere = await me.ask("Debugger.setBreakpointByUrl", url="other.js", lineNumber=0)
    see("one of another URL", nowhere, {"breakpointId": "1:0:0:other.js", "locations": []})
    see("Debugger.removeBreakpoint", await me.ask("Debugger.removeBreakpoint", breakpointId="1:0:0:other.js"), {})
    by_place = await me.ask("Debugger.setBreakpoint", location={"scriptId": "1", "lineNumber": 10}, condition="limit < 25")
    see("Debugger.setBreakpoint", by_place, {"actualLocation": at(10, 2), "breakpointId": "4:10:0:1"})


async def objects(me, see, stop):
    """Scopes, properties, evaluations and calls at the first stop in `add`; ids that end."""
    frames = stop["callFrames"]
    scopes = [(scope["type"], scope.get("name")) for scope in frames[0]["scopeChain"]]
    see("its scopes", scopes, [("local", "add"), ("script", None), ("global", None)])
    local = await me.ask("Runtime.getProperties", objectId=frames[0]["scopeChain"][0]["object"]["objectId"])
    see("Runtime.getProperties of the scope", properties(local), {"item": "Object"})
    item = local["result"][0]["value"]["objectId"]
    see("of the object in it", properties(await me.ask("Runtime.getProperties", objectId=item)), {"name": "tea", "price": 4})

    async def evaluate(expression, frame=0, **params):
        frame = frames[frame]["callFrameId"]
        return await me.ask("Debugger.evaluateOnCallFrame", callFrameId=frame, expression=expression, **params)

    see("Debugger.evaluateOnCallFrame", await evaluate("item.price * 10 + total"), {"result": number(40)})
    see("in the outer frame", await evaluate("item.name", 1), {"result": text("tea")})
    value = {"a": 4, "b": [1, 2]}
    by_value = (await evaluate("({a: item.price, b: [1, 2]})", returnByValue=True))["result"]["value"]
    see("by value", by_value, value)
    listed = (await evaluate("items", generatePreview=True, objectGroup="mine"))["result"]
    entries = [(one["name"], one["type"], one["value"]) for one in listed["preview"]["properties"]]
    see("with a preview", entries, [("0", "object", "Object"), ("1", "object", "Object")])
    see("an effect", thrown(await evaluate("total = 5")), ("EvalError: Possible side-effect in debug-evaluate", "Uncaught"))
    see("and nothing was written", await evaluate("total"), {"result": number(0)})
    see("a name that isn't there", thrown(await evaluate("missing")), ("ReferenceError: missing is not defined", "Uncaught"))
    see("a text that is no expression", thrown(await evaluate("let x")), (None, "Uncaught SyntaxError: Unexpected token"))
    silent = await evaluate("total", throwOnSideEffect=False)
    see("one that may have effects", silent, (-32000, "Evaluation needs throwOnSideEffect"))
    gone = await me.ask("Debugger.evaluateOnCallFrame", callFrameId="1.1.0", expression="total")
    see("a frame of the last stop", gone, (-32000, "Could not find call frame with given id"))
    source = SHOP[SHOP.index("function add") : SHOP.index("\nfor (")]
    see("Runtime.evaluate", (await me.ask("Runtime.evaluate", expression="add"))["result"]["description"], source)
    adds = "function(n) { return this.price + n; }"
    of_this = await me.ask("Runtime.callFunctionOn", functionDeclaration=adds, objectId=item, arguments=[{"value": 3}])
    see("Runtime.callFunctionOn", of_this, {"result": number(7)})
    of_two = [{"objectId": listed["objectId"]}, {"value": 1}]
    called = await me.ask("Runtime.callFunctionOn", functionDeclaration="(a, b) => a.length + b", arguments=of_two)
    see("with two arguments", called, {"result": number(3)})
    unknown = -32000, "Could not find object with given id"
    see("Runtime.releaseObject", await me.ask("Runtime.releaseObject", objectId=item), {})
    see("its id has ended", await me.ask("Runtime.getProperties", objectId=item), unknown)
    see("Runtime.releaseObjectGroup", await me.ask("Runtime.releaseObjectGroup", objectGroup="mine"), {})
    see("the id of its object has ended", await me.ask("Runtime.getProperties", objectId=listed["objectId"]), unknown)


async def steps(me, see):
    """Steps through `add`, into its next call, and to a place."""
    see("Debugger.stepOver", where((await me.stop("Debugger.stepOver"))[0]), (["add", ""], 4, []))
    see("once more", where((await me.stop("Debugger.stepOver"))[0]), (["add", ""], 5, []))
    see("Debugger.stepOut", where((await me.stop("Debugger.stepOut"))[0]), ([""], 7, []))
    see("Debugger.stepInto", where((await me.stop("Debugger.stepInto"))[0]), (["add", ""], 3, ["1:3:0:shop.js"]))
    see("Debugger.removeBreakpoint", await me.ask("Debugger.removeBreakpoint", breakpointId="1:3:0:shop.js"), {})
    there = {"scriptId": "1", "lineNumber": 8}
    see("Debugger.continueToLocation", where((await me.stop("Debugger.continueToLocation", location=there))[0]), ([""], 8, []))


async def throws(me, see):
    """A condition that holds at the second call, a stop at its throw, and the end."""
    see("Debugger.setPauseOnExceptions", await me.ask("Debugger.setPauseOnExceptions", state="all"), {})
    stop, printed = await me.stop("Debugger.resume")
    see("where the condition holds", where(stop), (["check", ""], 10, ["4:10:0:1"]))
    see("Runtime.consoleAPICalled", printed, [["total", 26, "tea"]])
    see("Debugger.setBreakpointsActive", await me.ask("Debugger.setBreakpointsActive", active=False), {})
    stop, _ = await me.stop("Debugger.resume")
    see("the throw", (where(stop), stop["reason"]), ((["check", ""], 10, []), "exception"))
    see("its value", stop["data"]["description"], "RangeError: over 20")
    see("Debugger.setSkipAllPauses", await me.ask("Debugger.setSkipAllPauses", skip=True), {})
    see("Debugger.pause while it is paused", await me.ask("Debugger.pause"), {})
    see("Debugger.resume", await me.ask("Debugger.resume"), {})
    end = ["Debugger.resumed", "Runtime.consoleAPICalled", "Runtime.executionContextDestroyed"]
    see("the end", await me.closed(), (end, 1000))


async def alone(port, see):
    """One client, with some sixty commands."""
    async with websockets.connect("ws://127.0.0.1:%d/session" % port, max_size=None) as socket:
        me = Client(socket)
        await before_it_begins(me, see)
        await breakpoints(me, see)
        see("Runtime.runIfWaitingForDebugger", await me.ask("Runtime.runIfWaitingForDebugger"), {})
        stop = await me.event("Debugger.paused")
        see("the stop after the first step", (where(stop), stop["reason"]), (([""], 0, []), "other"))
        names = await me.ask("Runtime.globalLexicalScopeNames")
        see("Runtime.globalLexicalScopeNames", names, {"names": ["items", "total", "add", "check"]})
        stop, _ = await me.stop("Debugger.resume")
        see("the breakpoint", where(stop), (["add", ""], 3, ["1:3:0:shop.js"]))
        await objects(me, see, stop)
        await steps(me, see)
        await throws(me, see)
        print("%d commands were sent" % me.number)


if __name__ == "__main__":
    findings = Findings()
    with served(words(), name="shop.js", script=SHOP) as host:
        asyncio.run(alone(host.port, findings.see))
        findings.ended(host, SHOP_PRINTS)
    findings.end()
