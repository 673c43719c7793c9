#!/usr/bin/env python3
"""Whether `debug_host serve` does what is expected of it over the loopback, with clients that behave well and badly.

    python3 bench/peers.py [--bin PROGRAM] [--lines N]

The first rows are those of `bench/sockets.py`, all with one host; each further row is a program of its own, and one of them
prints N lines (1,000,000) while a client is told of them. A row says `as expected`, or what came in its place; the last line
says how many rows were as expected, and the status is 1 where one wasn't. It takes some two minutes, and is no part of the
gate.
"""

import argparse
import re
import socket
import struct
import sys
import tempfile
import time

from clients import BINARY, CLOSE, MOST, TEXT, Client, frame, head
from debugging import PROGRAM
from hosts import Host
from measured import write
from sockets import cases, words_of

SUM = """function add(a, b) {
  return a + b;
}
console.log(add(2, 3));
console.log("end");
"""
SUM_PRINTS = b"5\nend\n"
PRINTS = 'for (let i = 0; i < LINES; i++) console.log("line", i);\n'
LONG_PRINTS = 'let text = "";\nfor (let i = 0; i < 100; i++) text += "0123456789";\nfor (let i = 0; i < LINES; i++) console.log(text);\n'
SOME, MANY = 20_000, 100_000

# ---- what the cases of `sockets.py` are to come to

ENABLED = r"""1: b'\{"method":"Runtime\.executionContextCreated.*', then 1: 20 bytes, close 1000, end"""
VERSION = r'HTTP/1\.1 200 OK [^{]*\{"Browser":"debug_host","Protocol-Version":"1\.3"\}'
SEEN = {
    "head": r"HTTP/1\.1 101 .*",
    "text": ENABLED,
    "text with the head": ENABLED,
    "fragments round a ping": r"10: b'p', then 1: \d+ bytes, 1: 20 bytes, close 1000, end",
    "ping": r"10: b'abc', then close 1000, end",
    "1 MiB and a byte": "close 1009, end",
    "header of 50 MB": "close 1009, end",
    "binary": "close 1003, end",
    "unmasked": "close 1002, end",
    "reserved bit": "close 1002, end",
    "not UTF-8": "close 1007, end",
    "close 1001": "close 1001, end",
    "vanishes in a frame": "gone; " + ENABLED,
    "another host": r"HTTP/1\.1 403 .*",
    "localhost": r"HTTP/1\.1 101 .*",
    "a web page": r"HTTP/1\.1 403 .*",
    "a browser's debugger": r"HTTP/1\.1 101 .*",
    "half a head": r"b'' after [56]\.\d s",
    "the version, byte by byte": VERSION,
    "two requests at once": VERSION,
    "the list": r'HTTP/1\.1 200 .*"webSocketDebuggerUrl":"ws://127\.0\.0\.1:\d+/session"\}\]',
    "the list for another host": r"HTTP/1\.1 403 .*",
    "a head of 8192 bytes and more": r"HTTP/1\.1 431 .*",
    "16 clients at once": "16 answers to 16 clients",
    "never reads": r"\d+ texts of 60 kB in [\d.]+ s, then (BrokenPipe|ConnectionReset)Error.*",
    "text after all that": ENABLED,
}

# ---- programs with their clients; each answers what came and what is expected


def begin(client):
    """Lets a program begin that waits, which stops after its first step; gives the event of the stop."""
    client.call("Debugger.enable")
    client.tell("Runtime.runIfWaitingForDebugger")
    return client.event("Debugger.paused")


def stopped_in_add(host):
    """A client at which the program has stopped in `add`."""
    client = Client(host.port)
    begin(client)
    client.call("Debugger.setBreakpointByUrl", url="sum.js", lineNumber=1)
    client.tell("Debugger.resume")
    return client, client.event("Debugger.paused")


def reset(client):
    client.stream.setsockopt(socket.SOL_SOCKET, socket.SO_LINGER, struct.pack("ii", 1, 0))
    client.stream.close()
    return "gone"


def vanish(client):
    client.stream.close()
    return "gone"


def sends(*parts):
    """A client that sends this, and what it sees then."""

    def send(client):
        client.stream.sendall(frame(*parts[:2], masked=len(parts) < 3))
        return client.end()

    return send


LEAVES = [
    ("goes", Client.leave, "close 1000, end"),
    ("vanishes", vanish, "gone"),
    ("resets", reset, "gone"),
    ("sends binary", sends(BINARY, b"abc"), "close 1003, end"),
    ("sends too long a text", sends(TEXT, b"a" * (MOST + 1)), "close 1009, end"),
    ("sends an unmasked frame", sends(TEXT, b"7", "unmasked"), "close 1002, end"),
    ("sends no UTF-8", sends(TEXT, b"\xff\xfe"), "close 1007, end"),
]


def leaves_in_a_stop(start, leave, expected):
    """The only client leaves while the program is paused: it goes on."""
    with start("--wait", "sum.js") as host:
        client, _ = stopped_in_add(host)
        return (leave(client), host.end()), (expected, (0, SUM_PRINTS, b""))


def stays_for_another(start):
    """One of two clients that have the debugger enabled vanishes in a stop: the program stays paused."""
    with start("--wait", "sum.js") as host:
        client, _ = stopped_in_add(host)
        other = Client(host.port)
        other.call("Debugger.enable")
        vanish(client)
        time.sleep(0.5)
        before = host.written(0)
        resumed = other.call("Debugger.resume")["result"]
        return (before, resumed, other.closed(), host.end()), (b"", {}, 1000, (0, SUM_PRINTS, b""))


def looks_at_a_stop(start):
    """One client has stopped the program, the other looks: it evaluates, and the first one's ids are nothing to it."""
    with start("--wait", "sum.js") as host:
        first, stop = stopped_in_add(host)
        other = Client(host.port)
        scope = stop["callFrames"][0]["scopeChain"][0]["object"]["objectId"]
        sum_of = other.call("Runtime.evaluate", expression="add(20, 30)")["result"]["result"]["value"]
        unknown = other.call("Runtime.getProperties", objectId=scope)["error"]["message"]
        names = [each["name"] for each in first.call("Runtime.getProperties", objectId=scope)["result"]["result"]]
        other.call("Runtime.enable")
        paused = host.written(0)
        first.call("Debugger.resume")
        told = [other.event("Runtime.consoleAPICalled")["args"][0]["value"] for _ in range(2)]
        codes = [first.closed(), other.closed()]
        came = sum_of, unknown, names, paused, told, codes, host.end()
    return came, (50, "Could not find object with given id", ["a", "b"], b"", [5, "end"], [1000, 1000], (0, SUM_PRINTS, b""))


def is_prompt(start):
    """What one thread makes for another is told at once, and not when that looks again by itself, after a second: the stops
    after a resume, the end after the last one, and a stop to a client that only looks."""
    with start("--wait", "stops.js") as host:
        client, other = Client(host.port), Client(host.port)
        begin(client)
        other.call("Debugger.enable")
        other.event("Debugger.paused")
        begun = time.monotonic()
        for _ in range(10):
            client.tell("Debugger.resume")
            client.event("Debugger.paused")
            other.event("Debugger.paused")
        client.tell("Debugger.resume")
        codes = [client.closed(), other.closed()]
        seconds = time.monotonic() - begun
        return (seconds < 2 or "%.1f s" % seconds, codes, host.end()), (True, [1000, 1000], (0, b"", b""))


def port_is_taken(start):
    """A second host at the port of the first: status 7, and the first one goes on."""
    with start("--wait", "sum.js") as host, start("sum.js", port=host.port, ready=False) as second:
        ended = second.end()
        client = Client(host.port)
        client.call("Runtime.runIfWaitingForDebugger")
        return (ended, host.end()), ((7, b"", b"debug_host: network fault\n"), (0, SUM_PRINTS, b""))


def listener(host):
    """A client that is told of prints, of a program that it has let begin."""
    client = Client(host.port)
    client.stream.settimeout(60)
    client.call("Runtime.enable")
    client.tell("Runtime.runIfWaitingForDebugger")
    return client


def tells_prints(start, lines):
    """A client that reads is told of the prints in their order: of all of them, and closed with 1000; or of the first ones,
    and closed with 1008, where it is slower than the program. The program prints all."""
    with start("--wait", "prints.js") as host:
        client = listener(host)
        told = 0
        while (event := client.event("Runtime.consoleAPICalled")) is not None:
            if event["args"][1]["value"] != told:
                return "after print %d came %r" % (told, event), "the prints in order"
            told += 1
        status, output, said = host.end(600)
    expected = b"".join(b"line %d\n" % i for i in range(lines))
    fair = (client.code, told) == (1000, lines) or (client.code == 1008 and told < lines)
    return (told, client.code, fair, status, output == expected, said), (told, client.code, True, 0, True, b"")


def is_not_read(start):
    """A client that is told of prints and never reads, more than the system keeps: the program goes on, and prints all."""
    with start("--wait", "some.js") as host, listener(host).stream:
        status, output, said = host.end(600)
    return (status, len(output), said), (0, SOME * 1001, b"")


def reads_too_slowly(start):
    """A client that reads so slowly that more waits for it than may: it is closed with 1008, and the program goes on."""
    with start("--wait", "many.js") as host:
        client = listener(host)
        while host.size() < MANY * 1001:
            client.rest += client.stream.recv(1 << 18)
            time.sleep(0.5)
        code = client.closed()
        status, output, said = host.end(600)
    return (code, status, len(output), said), (1008, 0, MANY * 1001, b"")


def waits_for_a_late_client(start):
    """With `--wait` nothing runs until a client lets the program begin."""
    with start("--wait", "sum.js") as host:
        time.sleep(1.5)
        client = Client(host.port)
        before = host.written(0)
        begin(client)
        after = host.written(0)
        client.tell("Debugger.resume")
        return (before, after, client.closed(), host.end()), (b"", b"", 1000, (0, SUM_PRINTS, b""))


def runs_alone(start):
    """Without `--wait` and without a client the program runs, and the host ends with it."""
    with start("sum.js", ready=False) as host:
        return host.end(), (0, SUM_PRINTS, b"")


def serves_sixteen(start):
    """16 clients are served at once, each is told of the prints and closed with 1000; one more is let in once one has gone."""
    with start("--sessions", "16", "--wait", "sum.js") as host:
        clients = [Client(host.port) for _ in range(16)]
        late = socket.create_connection(("127.0.0.1", host.port))
        late.sendall(head(host.port))
        late.settimeout(1)
        try:
            waited = late.recv(4096)
        except socket.timeout:
            waited = b""
        clients.pop().leave()
        late.settimeout(10)
        let_in = late.recv(4096)[:12]
        for client in clients:
            client.call("Runtime.enable")
        clients[0].tell("Runtime.runIfWaitingForDebugger")
        told = [[client.event("Runtime.consoleAPICalled")["args"][0]["value"] for _ in range(2)] for client in clients]
        codes = [client.closed() for client in clients]
        late.close()
        ended = host.end()
    expected = b"", b"HTTP/1.1 101", [[5, "end"]] * 15, [1000] * 15, (0, SUM_PRINTS, b"")
    return (waited, let_in, told, codes, ended), expected


def throws(start):
    """A throw that nothing catches: status 8, and the client is told of it and closed with 1000."""
    with start("--wait", "throw.js") as host:
        client = Client(host.port)
        client.call("Runtime.enable")
        client.tell("Runtime.runIfWaitingForDebugger")
        thrown = client.event("Runtime.exceptionThrown")["exceptionDetails"]["exception"]["value"]
        return (thrown, client.closed(), host.end()), ("eight", 1000, (8, b"begun\n", b"Uncaught eight\n"))


def can_not_write(start):
    """An output that takes nothing: status 5, and the client is closed with 1000."""
    with open("/dev/full", "wb") as full, start("--wait", "sum.js", output=full) as host:
        client = Client(host.port)
        client.tell("Runtime.runIfWaitingForDebugger")
        return (client.closed(), host.end()), (1000, (5, b"", b"debug_host: cannot write\n"))


def is_interrupted(start):
    """Ctrl-C ends the host at once; its clients see no close."""
    with start("--wait", "sum.js") as host:
        client, _ = stopped_in_add(host)
        host.interrupt()
        status, output, said = host.end(5)
        return (status, output, said, client.end() in ("end", "reset")), (-2, b"", b"", True)


class Rows:
    """Rows of cases, counted."""

    def __init__(self):
        self.all = self.held = 0

    def row(self, name, held, words):
        self.all += 1
        self.held += held
        print("%-40s %s" % (name, "as expected" if held else words), flush=True)

    def seen(self, name, told, pattern):
        """A case of `sockets.py`."""
        words = words_of(told)
        self.row(name, re.fullmatch(pattern, words, re.S) is not None, words)

    def program(self, name, case, *words):
        try:
            came, expected = case(*words)
            self.row(name, came == expected, "%r, wanted %r" % (came, expected))
        except Exception as error:
            self.row(name, False, repr(error))


def main():
    parser = argparse.ArgumentParser()
    parser.add_argument("--bin", default=PROGRAM)
    parser.add_argument("--lines", type=int, default=1_000_000)
    asked = parser.parse_args()
    rows = Rows()
    with tempfile.TemporaryDirectory() as folder:
        write(folder, "sum.js", SUM)
        write(folder, "prints.js", PRINTS.replace("LINES", str(asked.lines)))
        write(folder, "some.js", LONG_PRINTS.replace("LINES", str(SOME)))
        write(folder, "many.js", LONG_PRINTS.replace("LINES", str(MANY)))
        write(folder, "stops.js", "for (let i = 0; i < 10; i++) {\n  debugger;\n}\n")
        write(folder, "throw.js", 'console.log("begun");\nthrow "eight";\n')

        def start(*words, port=None, output=None, ready=True):
            host = Host(asked.bin, folder, *words, port=port, output=output)
            return host.ready() if ready else host

        with start("--sessions", "16", "--wait", "sum.js") as host:
            for name, told in cases(host.port):
                rows.seen(name, told, SEEN[name])
        for name, leave, expected in LEAVES:
            rows.program("in a stop a client " + name, leaves_in_a_stop, start, leave, expected)
        rows.program("in a stop one of two vanishes", stays_for_another, start)
        rows.program("one is paused while the other looks", looks_at_a_stop, start)
        rows.program("stops and the end are told at once", is_prompt, start)
        rows.program("the port is taken", port_is_taken, start)
        rows.program("a client comes late", waits_for_a_late_client, start)
        rows.program("no client comes", runs_alone, start)
        rows.program("16 clients, and one more", serves_sixteen, start)
        rows.program("the program throws", throws, start)
        rows.program("the output can't be written", can_not_write, start)
        rows.program("an interrupt", is_interrupted, start)
        rows.program("%d lines are printed" % asked.lines, tells_prints, start, asked.lines)
        rows.program("a client doesn't read", is_not_read, start)
        rows.program("a client reads too slowly", reads_too_slowly, start)
    print("%d cases, %d as expected" % (rows.all, rows.held))
    sys.exit(rows.all != rows.held)


if __name__ == "__main__":
    main()
