#!/usr/bin/env python3
"""Whether a served program and its honest client notice peers that break every rule.

    python3 bench/hostile.py [--bin PROGRAM] [--batches N] [--peers N] [--rounds N] [--seed N]

`debug_host serve` is started twice, with a program that stops again and again. One client debugs it: it looks at each stop,
steps and goes on. The first time it is alone. The second time, beside each batch (20) of its rounds (40), so many peers (24)
come at once, of the kinds below, drawn by the seed. Wanted:

- the honest client is sent byte for byte what it was sent alone, and the program prints what it prints, with status 0;
- behind each batch as many clients are let in as there are doors, and answered;
- the host's memory is bounded: behind the last batch at most GROWTH more than half way, and never more than PEAK;
- each peer whose fault RFC 6455 or the door's table gives an answer for sees that answer.

Prints the figures; the status is 1 where something else came. It takes some two minutes, and is no part of the gate.
"""

import argparse
import hashlib
import random
import socket
import struct
import sys
import tempfile
import threading
import time
from collections import Counter

from clients import BINARY, CLOSE, MOST, PING, REST, TEXT, Client, frame, head
from debugging import PROGRAM
from hosts import Host
from measured import write

SESSIONS = 8
GROWTH, PEAK = 8, 64  # MiB
PATIENCE = 60  # seconds that a peer waits for a door and an answer; the host lets go of who is silent after 5

SCRIPT = """let total = 0;
function add(price, list) {
  total = total + price % 7;
  debugger;
  return list;
}
for (let i = 0; i < TURNS; i++) {
  add(i, [i, { at: i, text: "number " + i }]);
}
console.log(total);
"""


class Honest(Client):
    """A client that keeps each text that it is sent."""

    def __init__(self, port):
        super().__init__(port)
        self.stream.settimeout(600)
        self.texts = []

    def hear(self):
        opcode, data = super().hear()
        if opcode == TEXT:
            self.texts.append(data)
        return opcode, data

    def begin(self):
        """Lets the program go to its first stop."""
        self.call("Debugger.enable")
        self.call("Runtime.enable")
        self.tell("Runtime.runIfWaitingForDebugger")
        self.event("Debugger.paused")
        self.call("Runtime.disable")
        self.tell("Debugger.resume")
        return self.event("Debugger.paused")

    def round(self, stop):
        """Looks at a stop, steps, and goes on to the next one; gives that."""
        top = stop["callFrames"][0]
        self.call("Debugger.evaluateOnCallFrame", callFrameId=top["callFrameId"], expression="total + price")
        self.call("Debugger.evaluateOnCallFrame", callFrameId=top["callFrameId"], expression="list", returnByValue=True)
        self.call("Runtime.getProperties", objectId=top["scopeChain"][0]["object"]["objectId"])
        self.tell("Debugger.stepOver")
        self.event("Debugger.paused")
        self.tell("Debugger.resume")
        return self.event("Debugger.paused")


# ---- peers: each says what it saw


def closes(code):
    """What a peer sees that is closed with this code, or whose connection is reset behind it."""
    return {"close %d" % code, "close %d, reset" % code, "reset"}


class Peer:
    """A stranger with a stream to the port, and numbers to draw."""

    def __init__(self, port, draws):
        self.port, self.draws = port, draws
        self.stream = socket.create_connection(("127.0.0.1", port))
        self.stream.setsockopt(socket.IPPROTO_TCP, socket.TCP_NODELAY, 1)
        self.stream.settimeout(PATIENCE)

    def send(self, data):
        """Sends in pieces, or whole."""
        if self.draws.random() < 0.5 or len(data) > 100_000:
            self.stream.sendall(data)
            return
        while data:
            size = self.draws.randint(1, max(1, len(data) // 2))
            self.stream.sendall(data[:size])
            data = data[size:]

    def reset(self):
        self.stream.setsockopt(socket.SOL_SOCKET, socket.SO_LINGER, struct.pack("ii", 1, 0))
        self.stream.close()
        return "gone"

    def replied(self):
        """The first line of an answer of HTTP, if one comes."""
        heard = b""
        while b"\r\n" not in heard:
            part = self.stream.recv(4096)
            if not part:
                return "end" if not heard else "cut"
            heard += part
        return heard.split(b"\r\n")[0].decode("ascii", "replace")

    def upgrade(self):
        """Becomes a client of WebSockets; gives it."""
        self.stream.close()
        client = Client(self.port)
        client.stream.settimeout(PATIENCE)
        self.stream = client.stream
        return client

    def seen(self, client):
        """The close that a client sees, behind whatever else it is sent."""
        try:
            while True:
                opcode, data = client.hear()
                if opcode == CLOSE:
                    return "close %d" % struct.unpack(">H", data[:2]) if data else "close"
        except EOFError:
            return "end"


def bytes_of(peer, most):
    return peer.draws.randbytes(peer.draws.randint(1, most))


def random_bytes(peer):
    """Random bytes in place of a request; an answer, or the end."""
    peer.send(bytes_of(peer, 4000))
    peer.stream.shutdown(socket.SHUT_WR)
    return peer.replied()


def random_frames(peer):
    """Random bytes behind the upgrade."""
    client = peer.upgrade()
    peer.send(bytes_of(peer, 4000))
    peer.stream.shutdown(socket.SHUT_WR)
    return peer.seen(client)


def cut_frame(peer):
    """A frame that ends in its midst."""
    client = peer.upgrade()
    whole = frame(TEXT, b'{"id":1,"method":"Runtime.enable"}')
    peer.send(whole[: peer.draws.randint(1, len(whole) - 1)])
    peer.stream.shutdown(socket.SHUT_WR)
    return peer.seen(client)


def long_frame(peer):
    """A frame that says that it is longer than a message may be."""
    client = peer.upgrade()
    peer.send(frame(TEXT, length=peer.draws.choice([MOST + 1, 2**32 - 1, 2**32, 2**63 - 1])))
    return peer.seen(client)


def many_fragments(peer):
    """Fragments that are too long together."""
    client = peer.upgrade()
    size = peer.draws.choice([8192, 65_536, 524_289])
    opcode = TEXT
    try:
        for _ in range(MOST // size + 2):
            peer.stream.sendall(frame(opcode, b"a" * size, fin=False))
            opcode = REST
    except OSError:
        pass
    return peer.seen(client)


def unmasked(peer):
    client = peer.upgrade()
    peer.send(frame(TEXT, b'{"id":1,"method":"Runtime.enable"}', masked=False))
    return peer.seen(client)


def no_utf8(peer):
    """A text that isn't UTF-8, also where a fragment ends within a character."""
    client = peer.upgrade()
    bad = peer.draws.choice([b"\xff", b"\xc0\x80", b"\xed\xa0\x80", b"\xf4\x90\x80\x80", b"\xe2\x82"])
    if peer.draws.random() < 0.5:
        peer.send(frame(TEXT, b"a" * peer.draws.randint(0, 200) + bad))
    else:
        peer.send(frame(TEXT, b"{" + bad[:1], fin=False) + frame(REST, bad[1:] + b"a"))
    return peer.seen(client)


def rule_broken(peer):
    """A frame that the protocol forbids: reserved bits and opcodes, control frames that are long or cut, and the like."""
    client = peer.upgrade()
    peer.send(
        peer.draws.choice(
            [
                frame(TEXT, b"{}", reserved=peer.draws.randint(1, 7)),
                frame(peer.draws.choice([3, 4, 5, 6, 7, 11, 12, 13, 14, 15]), b"{}"),
                frame(PING, b"a" * 126),
                frame(PING, b"a", fin=False),
                frame(REST, b"a"),
                frame(TEXT, b"{", fin=False) + frame(TEXT, b"}"),
            ]
        )
    )
    return peer.seen(client)


def binary(peer):
    client = peer.upgrade()
    peer.send(frame(BINARY, bytes_of(peer, 70_000)))
    return peer.seen(client)


def half_head(peer):
    """A head that stops in its midst, from a peer that then waits for the end."""
    whole = head(peer.port)
    peer.send(whole[: peer.draws.randint(1, len(whole) - 1)])
    return peer.replied()


def half_head_and_gone(peer):
    whole = head(peer.port)
    peer.send(whole[: peer.draws.randint(1, len(whole) - 1)])
    return peer.reset()


def long_head(peer):
    """A head that is too long, in one field or in many."""
    if peer.draws.random() < 0.5:
        peer.send(b"GET /session HTTP/1.1\r\nA: " + b"a" * 9000)
    else:
        peer.send(b"GET /session HTTP/1.1\r\n" + b"Field: value\r\n" * 1000)
    return peer.replied()


def no_request(peer):
    """Requests that are none, or that ask for what isn't there."""
    peer.send(
        peer.draws.choice(
            [
                b"POST /session HTTP/1.1\r\nHost: localhost\r\n\r\n",
                b"GET /nothing HTTP/1.1\r\nHost: localhost\r\n\r\n",
                b"GET /session HTTP/1.1\r\nHost: localhost\r\n\r\n",
                b"GET /json HTTP/1.1\r\nHost: page.example\r\n\r\n",
                b"GET\x00/session HTTP/1.1\r\n\r\n",
                b"\x00\r\n\r\n",
                head(peer.port, "Origin: http://page.example\r\n"),
                head(peer.port).replace(b"13\r\n", b"12\r\n"),
            ]
        )
    )
    return peer.replied()


def left(peer):
    """A connection on which nothing is said."""
    return peer.replied()


def left_client(peer):
    """A client that says nothing, and vanishes."""
    peer.upgrade()
    time.sleep(peer.draws.random())
    return peer.reset()


def vanishes(peer):
    """A client that is gone while its texts are answered."""
    client = peer.upgrade()
    for number in range(peer.draws.randint(1, 50)):
        client.stream.sendall(frame(TEXT, b'{"id":%d,"method":"Runtime.enable"}' % number))
    return peer.reset()


def never_reads(peer):
    """A client that asks for long answers and reads none."""
    client = peer.upgrade()
    text = frame(TEXT, b'{"id":1,"method":"' + b"x" * 60_000 + b'"}')
    try:
        for _ in range(700):
            client.stream.sendall(text)
    except OSError:
        return "let go"
    return "taken"


TEXTS = [
    b"",
    b"{",
    b"[" * 100_000,
    b'{"id":' * 200 + b"1" + b"}" * 200,
    b'{"id":1e999,"method":"Runtime.enable"}',
    b'{"id":18446744073709551616,"method":"Runtime.enable"}',
    b'{"id":1,"method":"' + b"\xf0\x9f\x98\x80" * 1000 + b'"}',
    b'{"id":1,"method":"\\ud800"}',
    b'{"id":1,"id":2,"method":"Runtime.enable","method":"x"}',
    b'{"id":1,"method":"Runtime.evaluate"}',
    b'{"id":1,"method":"Runtime.evaluate","params":{"expression":"(() => { while (true) {} })()"}}',
    b'{"id":1,"method":"Runtime.evaluate","params":{"expression":"(() => { const f = () => f(); return f(); })()"}}',
    b'{"id":1,"method":"Runtime.evaluate","params":{"expression":"(() => { let s = \'x\'; while (true) { s = s + s; } })()"}}',
    b'{"id":1,"method":"Runtime.evaluate","params":{"expression":"total = 5"}}',
    b'{"id":1,"method":"Runtime.evaluate","params":{"expression":"' + b"(" * 5000 + b'1"}}',
    b'{"id":1,"method":"Runtime.evaluate","params":{"expression":"' + b"1 + " * 50_000 + b'1"}}',
    b'{"id":1,"method":"Runtime.getProperties","params":{"objectId":"1.1"}}',
    b'{"id":1,"method":"Debugger.evaluateOnCallFrame","params":{"callFrameId":"1.1.0","expression":"total"}}',
    b'{"id":1,"method":"Runtime.releaseObjectGroup","params":{"objectGroup":"backtrace"}}',
    b'{"id":1,"method":"Debugger.setBreakpointByUrl","params":{"lineNumber":4294967296,"url":"a.js"}}',
]


def odd_texts(peer):
    """Texts that are well framed and mean nothing, or too much: each is answered."""
    client = peer.upgrade()
    for _ in range(10):
        client.send(peer.draws.choice(TEXTS))
        opcode, _ = client.hear()
        if opcode != TEXT:
            return "no answer"
    return client.leave()


def busy(peer):
    """A client that asks a lot and reads all of it, and makes objects that it never releases."""
    client = peer.upgrade()
    for _ in range(100):
        client.send(b'{"id":1,"method":"Runtime.evaluate","params":{"expression":"({a: [1, 2, 3], b: {}})","generatePreview":true}}')
        client.hear()
    return client.leave()


# Of each kind what it may see; None where the host's answer depends on what was drawn.
REFUSED = {"HTTP/1.1 %s" % words for words in ("400 Bad Request", "403 Forbidden", "404 Not Found", "405 Method Not Allowed", "426 Upgrade Required")}
KINDS = {
    random_bytes: None,
    random_frames: None,
    cut_frame: {"end", "reset"},
    long_frame: closes(1009),
    many_fragments: closes(1009),
    unmasked: closes(1002),
    no_utf8: closes(1007),
    rule_broken: closes(1002),
    binary: closes(1003),
    half_head: {"end"},
    half_head_and_gone: {"gone"},
    long_head: {"HTTP/1.1 431 Request Header Fields Too Large", "reset"},
    no_request: REFUSED,
    left: {"end"},
    left_client: {"gone"},
    vanishes: {"gone"},
    never_reads: {"let go"},
    odd_texts: {"close 1000, end"},
    busy: {"close 1000, end"},
}


class Batch:
    """Peers that come at once."""

    def __init__(self, port, seed, number, count):
        self.port, self.seen, self.lock = port, Counter(), threading.Lock()
        draws = random.Random("%d %d" % (seed, number))
        # each kind comes in turn, and those behind them as they are drawn
        kinds = list(KINDS)[number % 2 :: 2]
        kinds += [draws.choice(list(KINDS)) for _ in range(count - len(kinds))]
        self.threads = [
            threading.Thread(target=self.come, args=(kind, random.Random("%d %d %d" % (seed, number, i))), daemon=True)
            for i, kind in enumerate(kinds[:count])
        ]

    def come(self, kind, draws):
        peer = None
        try:
            peer = Peer(self.port, draws)
            told = kind(peer)
        except (ConnectionResetError, BrokenPipeError):
            told = "reset"
        except EOFError:
            told = "end"
        except socket.timeout:
            told = "nothing in %d s" % PATIENCE
        except OSError as error:
            told = repr(error)
        finally:
            if peer is not None:
                peer.stream.close()
        with self.lock:
            self.seen[kind, told] += 1

    def begin(self):
        for thread in self.threads:
            thread.start()

    def end(self):
        """Waits for all of them; gives how many are still there."""
        for thread in self.threads:
            thread.join(3 * PATIENCE)
        return sum(thread.is_alive() for thread in self.threads)


def let_in(port, count):
    """How many of so many clients are let in at once and answered."""
    clients, answered = [], 0
    try:
        for number in range(count):
            client = Client(port)
            client.stream.settimeout(PATIENCE)
            clients.append(client)
        for client in clients:
            answered += client.call("Runtime.evaluate", expression="6 * 7")["result"]["result"]["value"] == 42
    except (OSError, EOFError):
        pass
    for client in clients:
        client.leave()
    return answered


class Run:
    """What the honest client was sent, and what became of the program."""

    def __init__(self, asked, folder):
        self.asked, self.folder = asked, folder
        self.seen, self.memory, self.doors, self.stuck = Counter(), [], [], 0

    def rounds(self, client, stop, beside):
        for _ in range(self.asked.rounds):
            stop = client.round(stop)
            if beside:
                time.sleep(0.005)
        return stop

    def batch(self, host, client, stop, number):
        """The rounds of the honest client beside a batch of peers, and then as many clients as there are doors."""
        batch = Batch(host.port, self.asked.seed, number, self.asked.peers)
        batch.begin()
        stop = self.rounds(client, stop, True)
        self.stuck += batch.end()
        self.seen += batch.seen
        self.doors.append(let_in(host.port, SESSIONS - 1))
        self.memory.append(host.memory("VmRSS"))
        return stop

    def play(self, beside):
        """The program from its begin to its end."""
        with Host(self.asked.bin, self.folder, "--sessions", str(SESSIONS), "--wait", "a.js").ready() as host:
            client = Honest(host.port)
            stop = client.begin()
            for number in range(self.asked.batches):
                if beside:
                    stop = self.batch(host, client, stop, number)
                else:
                    stop = self.rounds(client, stop, False)
            self.peak = host.memory()
            client.tell("Debugger.resume")
            self.code = client.closed()
            self.ended = host.end()
        self.texts = client.texts
        return self


class Report:
    """Rows that hold or don't."""

    def __init__(self):
        self.holds = True

    def row(self, name, holds, words):
        self.holds &= holds
        print("%-16s %s: %s" % (name, "holds" if holds else "DOESN'T HOLD", words), flush=True)


def difference(alone, beside):
    """Where two lists of texts differ first, in words."""
    for number, (one, other) in enumerate(zip(alone, beside)):
        if one != other:
            return "text %d is %r, alone %r" % (number, other[:200], one[:200])
    return "%d texts, alone %d" % (len(beside), len(alone))


def digest(texts):
    return hashlib.sha256(b"".join(struct.pack(">Q", len(text)) + text for text in texts)).hexdigest()[:16]


def report(asked, alone, beside, turns):
    rows = Report()
    same = alone.texts == beside.texts
    words = "%d texts of %d bytes, SHA-256 %s.." % (len(alone.texts), sum(map(len, alone.texts)), digest(alone.texts))
    rows.row("honest client", same, words if same else difference(alone.texts, beside.texts))
    expected = 0, b"%d\n" % sum(i % 7 for i in range(turns)), b""
    ends = [run.ended == expected and run.code == 1000 for run in (alone, beside)]
    rows.row("program", all(ends), "%r, closed with %r" % (beside.ended, beside.code))
    doors = min(beside.doors)
    rows.row("doors", doors == SESSIONS - 1, "%d of %d clients let in behind each of %d batches" % (doors, SESSIONS - 1, len(beside.doors)))
    middle, last = beside.memory[len(beside.memory) // 2], beside.memory[-1]
    each = ", ".join("%.1f" % memory for memory in beside.memory)
    words = "at most %.1f MiB at any time; behind each batch %s" % (beside.peak, each)
    rows.row("memory", last - middle <= GROWTH and beside.peak <= PEAK, words)
    rows.row("peers", beside.stuck == 0, "%d came, %d are stuck" % (sum(beside.seen.values()), beside.stuck))
    for kind, may_see in KINDS.items():
        told = {words: count for (one, words), count in beside.seen.items() if one is kind}
        listed = ", ".join("%s (%d)" % row for row in sorted(told.items(), key=lambda row: -row[1])[:6])
        holds = (may_see is None or set(told) <= may_see) and not any(words.startswith("nothing") for words in told)
        rows.row(kind.__name__, holds, listed or "none came")
    return rows.holds


def main():
    parser = argparse.ArgumentParser()
    parser.add_argument("--bin", default=PROGRAM)
    parser.add_argument("--batches", type=int, default=20)
    parser.add_argument("--peers", type=int, default=24)
    parser.add_argument("--rounds", type=int, default=40)
    parser.add_argument("--seed", type=int, default=54)
    asked = parser.parse_args()
    # the last stop is behind the last round
    turns = asked.batches * asked.rounds + 1
    with tempfile.TemporaryDirectory() as folder:
        write(folder, "a.js", SCRIPT.replace("TURNS", str(turns)))
        begun = time.monotonic()
        alone = Run(asked, folder).play(False)
        beside = Run(asked, folder).play(True)
        holds = report(asked, alone, beside, turns)
        print("%.0f seconds" % (time.monotonic() - begun))
    sys.exit(not holds)


if __name__ == "__main__":
    main()
