#!/usr/bin/env python3
"""A million commands of sixteen clients to a served program, and whether each text is the one that a replay gives.

    python3 bench/load.py [--bin PROGRAM] [--clients N] [--each N] [--ahead N] [--journal]

Each client (16) sends so many commands (62,500) of mixed kinds to `debug_host serve` while the program is stopped, with at
most so many (32) under way, and keeps the number of the texts that it is sent and their SHA-256. Wanted: each client was sent
just what its session is sent in a replay of the same commands, one session after another, and all are closed with 1000.

With `--journal` the host stores its journal, and the replay of that gives each client's texts again, in their order. Prints
the seconds, the memory and a row for each client that differs; the status is 1 where one does. It is no part of the gate.
"""

import argparse
import hashlib
import json
import os
import struct
import subprocess
import sys
import tempfile
import time

from clients import TEXT, Client, frame
from debugging import PROGRAM
from hosts import Host
from measured import run, write

SCRIPT = """let total = 0;
function visit(list, i) {
  total = total + i;
  debugger;
  return list;
}
visit([1, 2, 3], 7);
console.log(total);
"""
PRINTS = b"7\n"

# ---- what a session is told


def command(number, method, **params):
    text = {"id": number, "method": method}
    if params:
        text["params"] = params
    return json.dumps(text, separators=(",", ":"))


def mixed(session, number):
    """The command of this number of a session whose program has stopped the second time."""
    turn = number // 12
    frame_id = "%d.2.0" % session
    made = "1:%d:0:a.js" % (turn % 8)
    kinds = [
        lambda: command(number, "Runtime.evaluate", expression="%d %% 7 + total" % number),
        lambda: command(number, "Debugger.evaluateOnCallFrame", callFrameId=frame_id, expression="list[0] + %d" % number),
        lambda: command(number, "Runtime.getProperties", objectId="%d.1" % session),
        lambda: command(number, "Runtime.evaluate", expression="({a: %d, b: [1, %d]})" % (turn, session), returnByValue=True),
        lambda: command(
            number, "Runtime.evaluate", expression="[%d, {n: 1}]" % turn, objectGroup="made", generatePreview=True
        ),
        lambda: command(number, "Runtime.evaluate", expression="missing%d" % turn, objectGroup="made"),
        lambda: command(number, "Runtime.releaseObjectGroup", objectGroup="made"),
        lambda: command(number, "Debugger.setBreakpointByUrl", url="a.js", lineNumber=turn % 8, condition="i === -%d" % (turn + 1)),
        lambda: command(number, "Debugger.removeBreakpoint", breakpointId=made),
        lambda: command(number, "Runtime.globalLexicalScopeNames"),
        lambda: command(number, "Nothing.of%d" % turn),
        lambda: '{"id":%d,"method":' % number,
    ]
    return kinds[number % 12]()


def commands(session, each):
    """All commands of a session behind its first ones, in order."""
    return (mixed(session, number) for number in range(10, 10 + each))


def first(session):
    """What a session is told when it is attached."""
    return command(1, "Runtime.globalLexicalScopeNames")


ENABLE = command(2, "Debugger.enable")
BEGIN = command(3, "Runtime.runIfWaitingForDebugger")
GO_ON = command(4, "Debugger.resume")
LAST = command(5, "Debugger.resume")


class Texts:
    """Texts that are counted and digested, each with its length before it."""

    def __init__(self):
        self.count, self.digest = 0, hashlib.sha256()

    def add(self, text):
        self.count += 1
        self.digest.update(struct.pack(">Q", len(text)))
        self.digest.update(text)

    def told(self):
        return self.count, self.digest.hexdigest()


# ---- a client, in a process of its own: it does what it is told on its input, and says so


class Loader(Client):
    """A client that digests what it is sent."""

    def __init__(self, port):
        super().__init__(port)
        self.stream.settimeout(600)
        self.texts = Texts()

    def hear(self):
        opcode, data = super().hear()
        if opcode == TEXT:
            self.texts.add(data)
        return opcode, data

    def replies(self, count):
        """Waits for so many replies; events are passed over."""
        while count:
            opcode, data = self.hear()
            assert opcode == TEXT, (opcode, data)
            count -= not data.startswith(b'{"method"')

    def asks(self, text):
        self.send(text.encode())
        self.replies(1)

    def waits(self, method):
        start = b'{"method":"%s"' % method.encode()
        while not self.hear()[1].startswith(start):
            pass

    def load(self, texts, ahead):
        """Sends these, with at most so many under way."""
        under_way = 0
        part = []
        for text in texts:
            part.append(frame(TEXT, text.encode()))
            if len(part) == ahead // 2:
                self.stream.sendall(b"".join(part))
                under_way += len(part)
                part = []
                self.replies(under_way - ahead // 2)
                under_way = ahead // 2
        self.stream.sendall(b"".join(part))
        self.replies(under_way + len(part))


def be_client(port, session, each, ahead):
    client = Loader(port)
    client.asks(first(session))

    def begins():
        client.asks(ENABLE)
        client.asks(BEGIN)
        client.waits("Debugger.paused")
        client.asks(GO_ON)
        client.waits("Debugger.paused")

    def loads():
        if session != 1:
            client.asks(ENABLE)
        client.load(commands(session, each), ahead)

    def ends():
        client.asks(LAST)

    acts = {"begin": begins, "load": loads, "end": ends}
    print("attached", flush=True)
    for line in sys.stdin:
        acts[line.strip()]()
        print("done", flush=True)
    code = client.closed()
    print(code, *client.texts.told(), flush=True)


# ---- the served run


class Loaders:
    """The clients, by their sessions: one is attached after another."""

    def __init__(self, asked, port):
        self.all = []
        for session in range(1, asked.clients + 1):
            words = [sys.executable, os.path.abspath(__file__), "client", port, session, asked.each, asked.ahead]
            words = [str(word) for word in words]
            self.all.append(subprocess.Popen(words, stdin=subprocess.PIPE, stdout=subprocess.PIPE, text=True))
            self.hears([self.all[-1]], "attached")

    def hears(self, clients, line):
        for client in clients:
            said = client.stdout.readline().strip()
            assert said == line, "a client said %r in place of %r" % (said, line)

    def do(self, clients, act):
        for client in clients:
            client.stdin.write(act + "\n")
            client.stdin.flush()
        self.hears(clients, "done")

    def told(self):
        """Of each client the code that it was closed with, and its texts."""
        for client in self.all:
            client.stdin.close()
        lines = [client.stdout.read().split() for client in self.all]
        for client in self.all:
            client.wait()
        return [(int(code), int(count), digest) for code, count, digest in lines]


def serve(asked, folder):
    """What each client was told, the seconds of the load, and what became of the host."""
    words = ["--sessions", str(asked.clients), "--wait"] + (["--journal", "served.journal"] if asked.journal else [])
    with Host(asked.bin, folder, *words, "a.js").ready() as host:
        loaders = Loaders(asked, host.port)
        loaders.do(loaders.all[:1], "begin")
        begun = time.monotonic()
        loaders.do(loaders.all, "load")
        seconds = time.monotonic() - begun
        memory = host.memory()
        loaders.do(loaders.all[:1], "end")
        return loaders.told(), seconds, memory, host.end(600)


# ---- the replays


def escaped(text):
    return text.replace("%", "%25")


def expected_journal(asked, path):
    """Writes a journal that tells each session what its client says, one after another."""
    with open(path, "w", encoding="utf-8") as file:
        sessions = range(1, asked.clients + 1)
        for session in sessions:
            file.write("attach\ntell %d %s\n" % (session, escaped(first(session))))
        for text in ENABLE, BEGIN:
            file.write("tell 1 %s\n" % escaped(text))
        file.write("run 1000000 0\ntell 1 %s\nrun 1000000 0\n" % escaped(GO_ON))
        for session in sessions:
            if session != 1:
                file.write("tell %d %s\n" % (session, escaped(ENABLE)))
            for number, text in enumerate(commands(session, asked.each)):
                file.write("tell %d %s\n" % (session, escaped(text)))
                if number % 64 == 0:
                    file.write("take %d\n" % session)
        file.write("tell 1 %s\nrun 1000000 0\n" % escaped(LAST))
        for session in sessions:
            file.write("take %d\n" % session)


def unescaped(text):
    return text.replace(b"%0A", b"\n").replace(b"%0D", b"\r").replace(b"%25", b"%")


def replayed(asked, folder, journal):
    """What each session was told in the replay of a journal, and its seconds."""
    output = os.path.join(folder, "output")
    ended = run(asked.bin, ["replay", "--wait", journal, "a.js"], folder, output)
    assert ended.status == 0, "the replay of %s ended with status %d" % (journal, ended.status)
    told = [Texts() for _ in range(asked.clients)]
    with open(output, "rb") as file:
        for line in file:
            if line.startswith(b"to "):
                _, session, text = line[:-1].split(b" ", 2)
                told[int(session) - 1].add(unescaped(text))
    return [texts.told() for texts in told], ended.seconds


class Rows:
    """Rows that hold or don't."""

    def __init__(self):
        self.holds = True

    def row(self, name, holds, words):
        self.holds &= holds
        print("%-10s %s: %s" % (name, "holds" if holds else "DOESN'T HOLD", words), flush=True)

    def same(self, name, served, replay, seconds):
        """Whether each client was sent what its session is sent in a replay."""
        differ = [number + 1 for number, (one, other) in enumerate(zip(served, replay)) if one != other]
        words = "%d texts of %d clients, byte for byte; %.1f s" % (sum(one[0] for one in served), len(served), seconds)
        self.row(name, not differ, "clients %s differ" % differ if differ else words)


def main():
    if sys.argv[1:2] == ["client"]:
        return be_client(*map(int, sys.argv[2:]))
    parser = argparse.ArgumentParser()
    parser.add_argument("--bin", default=PROGRAM)
    parser.add_argument("--clients", type=int, default=16)
    parser.add_argument("--each", type=int, default=62_500)
    parser.add_argument("--ahead", type=int, default=32)
    parser.add_argument("--journal", action="store_true")
    asked = parser.parse_args()
    rows = Rows()
    with tempfile.TemporaryDirectory() as folder:
        write(folder, "a.js", SCRIPT)
        told, seconds, memory, ended = serve(asked, folder)
        count = asked.clients * asked.each
        words = "%d commands of %d clients in %.1f s, %.0f a second; %.1f MiB"
        rows.row("load", True, words % (count, asked.clients, seconds, count / seconds, memory))
        rows.row("end", ended == (0, PRINTS, b"") and all(one[0] == 1000 for one in told), "%r" % (ended,))
        served = [one[1:] for one in told]
        expected_journal(asked, os.path.join(folder, "expected.journal"))
        rows.same("replay", served, *replayed(asked, folder, "expected.journal"))
        if asked.journal:
            size = os.path.getsize(os.path.join(folder, "served.journal")) / 2**20
            rows.same("journal", served, *replayed(asked, folder, "served.journal"))
            print("           the journal has %.1f MiB" % size)
    sys.exit(not rows.holds)


if __name__ == "__main__":
    main()
