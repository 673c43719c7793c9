#!/usr/bin/env python3
"""Refuses memory to a served program that two clients debug, one allocation after another, and looks at what each was sent.

    python3 bench/refused_serving.py [--bin PROGRAM] [--first M] [--each N] [--cc CC]

The first client sets a breakpoint, looks and goes on; the second one asks, and lets the program begin. Where that one is lost
before it does, a third one does it. Each of the allocations of the host from the M-th (1) to the N-th (2,000) is refused by itself, which wants a
C compiler and a program that is linked dynamically. Moments are taken out of what is sent.

Wanted: the status is 0 and the output whole, or it is 1 with the line `debug_host: out of memory` and a first part of the
output; and each client was sent a first part of what it is sent with ample memory. Prints each run of another kind, and the
counts; the status is 1 where there is one. It is no part of the gate.
"""

import argparse
import os
import re
import subprocess
import sys
import tempfile
import threading
import time

from clients import TEXT, Client
from debugging import PROGRAM
from hosts import LISTENS, Host
from measured import write
from refused_sessions import refusing

SCRIPT = """let total = 0;
function add(price) {
  const list = [price, total];
  total = total + price;
  return list;
}
for (let i = 0; i < 3; i++) {
  add(i);
}
console.log("total", total);
"""
MOMENT = re.compile(rb'"timestamp":\d+')
BEGIN = "Runtime.runIfWaitingForDebugger"
SECONDS = 10  # that a run may take


class Quiet(Client):
    """A client that keeps what it is sent, and whose acts end where it is lost."""

    def __init__(self, port):
        self.texts = []
        super().__init__(port)
        self.stream.settimeout(SECONDS)

    def hear(self):
        opcode, data = super().hear()
        if opcode == TEXT:
            self.texts.append(MOMENT.sub(b'"timestamp":0', data))
        return opcode, data


def looks(client):
    """The first client: a breakpoint, a look at it, and on to the end."""
    client.call("Debugger.enable")
    client.call("Runtime.enable")
    client.call("Debugger.setBreakpointByUrl", url="a.js", lineNumber=4, condition="price === 1")
    yield
    client.event("Debugger.paused")
    client.tell("Debugger.resume")
    stop = client.event("Debugger.paused")
    top = stop["callFrames"][0]
    client.call("Debugger.evaluateOnCallFrame", callFrameId=top["callFrameId"], expression="({a: list, b: total})")
    client.call("Runtime.getProperties", objectId=top["scopeChain"][0]["object"]["objectId"])
    client.tell("Debugger.resume")
    client.closed()
    yield


def begins(client):
    """The second one: a question, and the program begins."""
    client.call("Runtime.evaluate", expression="6 * 7")
    yield
    client.call(BEGIN)
    client.closed()
    yield


class Actor:
    """A client and its acts; where it is lost, they are over."""

    def __init__(self, port, acts):
        self.client, self.acts = None, None
        try:
            self.client = Quiet(port)
            self.acts = acts(self.client)
        except (OSError, EOFError):
            pass

    def act(self):
        try:
            if self.acts is not None:
                next(self.acts)
        except (OSError, EOFError, KeyError, TypeError, ValueError, StopIteration):
            # lost, or an answer that is none: what came counts
            self.acts = None

    def texts(self):
        return self.client.texts if self.client is not None else []

    def leave(self):
        if self.client is not None:
            self.client.stream.close()


def let_it_end(host):
    """Lets the program begin again and again until its host ends."""
    end = time.monotonic() + SECONDS
    while host.process.poll() is None and time.monotonic() < end:
        late = Actor(host.port, lambda client: iter([client.tell(BEGIN)]))
        late.act()
        time.sleep(0.01)
        late.leave()


def ended(host):
    """The status, the output and the errors; no status where the host doesn't end."""
    try:
        return host.end(SECONDS)
    except subprocess.TimeoutExpired:
        return None, host.written(0), host.written(1)


def play(program, folder, extra):
    """What each client was sent, the status, the output and the errors."""
    with Host(program, folder, "--wait", "--sessions", "3", "a.js", extra=extra) as host:
        try:
            host.until(lambda: LISTENS.search(host.written(1)), SECONDS, "listens")
        except AssertionError:
            return [[], []], *ended(host)
        actors = [Actor(host.port, looks), Actor(host.port, begins)]
        for actor in actors:
            actor.act()
        threads = [threading.Thread(target=actor.act) for actor in actors]
        for thread in threads:
            thread.start()
        threads[1].join()
        if actors[1].acts is None:
            let_it_end(host)
        threads[0].join()
        for actor in actors:
            actor.leave()
        let_it_end(host)
        return [actor.texts() for actor in actors], *ended(host)


class Tally:
    """Runs beside the one with ample memory: how many were whole, refused, or neither."""

    def __init__(self, program, folder):
        self.sent, status, self.output, errors = play(program, folder, None)
        assert (status, errors) == (0, b"") and len(self.sent[0]) > 8, (status, errors, self.sent)
        self.whole = self.alone = self.refused = self.other = 0

    def add(self, number, sent, status, output, errors):
        parts = all(whole[: len(part)] == part for whole, part in zip(self.sent, sent))
        if status == 0 and output == self.output and parts:
            self.whole += sent == self.sent
            self.alone += sent != self.sent
        elif status == 1 and errors == b"debug_host: out of memory\n" and parts and self.output.startswith(output):
            self.refused += 1
        else:
            self.other += 1
            print("allocation %d: status %r, output %r, errors %r, first parts: %r" % (number, status, output, errors, parts))

    def told(self, count):
        print(
            "%d allocations: %d runs were as with ample memory, in %d a client was sent a first part alone, %d ended with "
            "status 1, %d otherwise" % (count, self.whole, self.alone, self.refused, self.other)
        )


def main():
    parser = argparse.ArgumentParser()
    parser.add_argument("--bin", default=PROGRAM)
    parser.add_argument("--first", type=int, default=1)
    parser.add_argument("--each", type=int, default=2000)
    parser.add_argument("--cc", default="cc")
    asked = parser.parse_args()
    with tempfile.TemporaryDirectory() as folder:
        write(folder, "a.js", SCRIPT)
        library = refusing(folder, asked.cc)
        if library is None:
            return
        tally = Tally(asked.bin, folder)
        for number in range(asked.first, asked.each + 1):
            tally.add(number, *play(asked.bin, folder, {"LD_PRELOAD": library, "REFUSED": str(number)}))
        tally.told(asked.each + 1 - asked.first)
    sys.exit(tally.other > 0)


if __name__ == "__main__":
    main()
