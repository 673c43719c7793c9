#!/usr/bin/env python3
"""What `debug_host serve` costs over the loopback, beside bare TCP and node's inspector in the same run.

    python3 bench/serving.py [--bin PROGRAM] [--share N] [--node NODE]

The client is `bench/round_trips.c`, which gcc builds, so that its own speed doesn't count. With `--share N` each measurement
makes the Nth part of its turns, for a try. What is measured, and what is wanted of it:

- *evaluate*: `Runtime.evaluate` of `7 % 2 === 0` by one client at a stop, one after another, beside a client and an echo over
  bare TCP that send each other as many bytes. Wanted: 20,000 a second, and at least half of bare TCP.
- *stops*: `Debugger.resume` to the next `Debugger.paused`, at a `debugger` statement in a loop. Wanted: 5,000 a second.
- *a late stop*: the same where the loop makes as many turns between two stops as take 2 ms; how many these are is found by
  stops that are a hundred times as far apart. Wanted: told after at most 2.6 ms, by the median.
- *idle*: the processor time of 5 s with 16 doors and no client. Wanted: at most 10 ms.
- *16 clients*: 62,500 commands each at once, with at most 32 under way, beside one client with 1,000,000. Every reply must
  come, in order. Wanted: at most twice the time, and a memory that is bounded.
- *speed*: a program with 4 clients attached that say nothing, from where it begins to its end, beside `run` less a run of
  nothing; and the same where they have the debugger enabled. Wanted: 0.95 of the speed of `run`.
"""

import argparse
import os
import re
import shutil
import subprocess
import tempfile
import time

from clients import Client
from debugging import PROGRAM
from hosts import Host, free_port
from measured import least, write

HERE = os.path.dirname(os.path.abspath(__file__))

STOPPED = "let i = 7;\ndebugger;\n"
STOPS = "for (;;) {\n  debugger;\n}\n"
FAR_STOPS = "let i = 0;\nfor (;;) {\n  debugger;\n  i = 0;\n  while (i < TURNS) i++;\n}\n"
LOOP = "let sum = 0;\nlet i = 0;\nwhile (i < TURNS) {\n  sum = sum + i % 7;\n  i++;\n}\nconsole.log(sum);\n"

BEGIN = ["Debugger.enable", "Runtime.enable", "Runtime.runIfWaitingForDebugger", "wait Debugger.paused"]
RESUME = "Debugger.resume"
EVALUATE = 'Runtime.evaluate {"expression":"7 % 2 === 0"}'
SHORT = "Runtime.enable"


class Trips:
    """How many trips were made, the seconds that they took, and in microseconds the median and the 99th percentile."""

    def __init__(self, line):
        count, seconds, median, most = line.split()
        self.count, self.seconds, self.median, self.most = int(count), float(seconds), float(median), float(most)
        self.rate = self.count / self.seconds


class Bench:
    """The program, the client and a folder of scripts."""

    def __init__(self, asked, folder):
        self.program, self.share, self.folder = os.path.abspath(asked.bin), asked.share, folder
        self.node = shutil.which(asked.node)
        self.trips = os.path.join(folder, "round_trips")
        subprocess.run(["gcc", "-O2", "-o", self.trips, os.path.join(HERE, "round_trips.c")], check=True)

    def count(self, whole):
        return max(whole // self.share, 2)

    def script(self, text, turns=0):
        write(self.folder, "a.js", text.replace("TURNS", str(turns)))

    def serve(self, *words):
        return Host(self.program, self.folder, *words, "--wait", "a.js").ready()

    def client(self, port, path, lines, count, ahead=1, awaited="reply"):
        """A client that sends the last of these commands so often."""
        words = [self.trips, "client", str(port), path, str(count), str(ahead), awaited]
        client = subprocess.Popen(words, stdin=subprocess.PIPE, stdout=subprocess.PIPE, text=True)
        client.stdin.write("\n".join(lines) + "\n")
        client.stdin.close()
        return client

    def told(self, client):
        """The trips of a client that has ended well."""
        line = client.stdout.read()
        assert client.wait() == 0, "the client has failed"
        return Trips(line)

    def here(self, lines, count, awaited="reply"):
        """The trips of one client of a program that `serve` runs."""
        with self.serve() as host:
            return self.told(self.client(host.port, "/session", lines, count, 1, awaited))

    def there(self, lines, count, awaited="reply"):
        """The same of node's inspector; None where there is no node."""
        if self.node is None:
            return None
        port = free_port()
        words = [self.node, "--inspect-brk=127.0.0.1:%d" % port, "a.js"]
        node = subprocess.Popen(words, cwd=self.folder, stdout=subprocess.DEVNULL, stderr=subprocess.PIPE)
        try:
            path = re.search(rb"ws://127\.0\.0\.1:\d+(/\S+)", node.stderr.readline()).group(1).decode()
            return self.told(self.client(port, path, lines, count, 1, awaited))
        finally:
            node.kill()
            node.wait()
            node.stderr.close()

    def bare(self, sent, answered, count):
        """The trips of a client and an echo over TCP."""
        echo = subprocess.Popen([self.trips, "echo", str(sent), str(answered)], stdout=subprocess.PIPE, text=True)
        words = [self.trips, "bare", echo.stdout.readline().strip(), str(sent), str(answered), str(count)]
        trips = Trips(subprocess.run(words, stdout=subprocess.PIPE, text=True, check=True).stdout)
        echo.wait()
        echo.stdout.close()
        return trips


def row(name, words):
    print("%-14s %s" % (name, words), flush=True)


def beside(trips):
    """What node showed."""
    return "; no node" if trips is None else "; node %.0f, median %.0f µs" % (trips.rate, trips.median)


def evaluate(bench):
    bench.script(STOPPED)
    lines = BEGIN + [RESUME, "wait Debugger.paused", EVALUATE]
    count = bench.count(200_000)
    # a frame has 6 bytes beside a short text of a client, and 2 beside one of the host
    sent = len('{"id":%d,"method":"Runtime.evaluate","params":{"expression":"7 %% 2 === 0"}}' % (count // 2)) + 6
    answered = len('{"id":%d,"result":{"result":{"type":"boolean","value":false}}}' % (count // 2)) + 2
    bare = bench.bare(sent, answered, count)
    ours = bench.here(lines, count)
    theirs = bench.there(lines, bench.count(200))
    words = "%.0f a second, median %.0f µs; bare TCP %.0f, so %.2f of it%s"
    row("evaluate", words % (ours.rate, ours.median, bare.rate, ours.rate / bare.rate, beside(theirs)))


def stops(bench):
    bench.script(STOPS)
    lines = BEGIN + [RESUME, "wait Debugger.paused", RESUME]
    ours = bench.here(lines, bench.count(50_000), "Debugger.paused")
    theirs = bench.there(lines, bench.count(200), "Debugger.paused")
    row("stops", "%.0f a second, median %.0f µs%s" % (ours.rate, ours.median, beside(theirs)))


def turns_of(bench, side, lines):
    """How many turns of the loop between two stops take 2 ms."""
    turns = 100_000
    while True:
        bench.script(FAR_STOPS, turns)
        took = side(lines, 3, "Debugger.paused").median / 1000
        if took >= 200:
            return round(turns * 2 / took)
        turns = round(turns * 220 / took)


def late_of(bench, side):
    lines = BEGIN + [RESUME, "wait Debugger.paused", RESUME]
    turns = turns_of(bench, side, lines)
    bench.script(FAR_STOPS, turns)
    trips = side(lines, bench.count(2000), "Debugger.paused")
    return "%.2f ms, 99 of 100 by %.2f, with %d turns between two stops" % (trips.median / 1000, trips.most / 1000, turns)


def late_stop(bench):
    theirs = late_of(bench, bench.there) if bench.node else "none"
    row("a late stop", "told after %s; node: %s" % (late_of(bench, bench.here), theirs))


def idle(bench):
    bench.script(STOPPED)
    with bench.serve("--sessions", "16") as host:
        time.sleep(0.5)
        before = host.processor_ms()
        time.sleep(5)
        row("idle", "%.2f ms of the processor in 5 s, with 16 doors" % (host.processor_ms() - before))


def many(bench):
    bench.script(STOPPED)
    told = []
    for clients in 1, 16:
        with bench.serve("--sessions", "16") as host:
            each = bench.count(1_000_000) // clients
            begun = time.monotonic()
            running = [bench.client(host.port, "/session", [SHORT], each, 32) for _ in range(clients)]
            for client in running:
                assert bench.told(client).count == each
            told.append((time.monotonic() - begun, host.memory(), clients * each))
    (one, one_memory, all_of_one), (all_, memory, all_of_all) = told
    words = "%d commands in %.2f s, of one client %d in %.2f, so %.2f times that; %.1f and %.1f MiB"
    row("16 clients", words % (all_of_all, all_, all_of_one, one, all_ / one * all_of_one / all_of_all, memory, one_memory))


def whole_run(bench, method):
    """The seconds of a program from where it goes on to its end, with 4 clients that have sent this command."""
    with bench.serve() as host:
        clients = [Client(host.port) for _ in range(4)]
        for client in clients:
            client.stream.settimeout(600)
            client.call(method)
        first, goes_on = clients[0], "Runtime.runIfWaitingForDebugger"
        if method == "Debugger.enable":
            first.tell(goes_on)
            first.event("Debugger.paused")
            goes_on = RESUME
        begun = time.monotonic()
        first.tell(goes_on)
        assert first.closed() == 1000
        took = time.monotonic() - begun
        assert host.end()[0] == 0
        return took


def speed(bench):
    write(bench.folder, "nothing.js", "")
    bench.script(LOOP, bench.count(2_000_000))
    plain = least(bench.program, ["run", "a.js"], bench.folder, 3).seconds
    plain -= least(bench.program, ["run", "nothing.js"], bench.folder, 3).seconds
    silent = min(whole_run(bench, "Debugger.disable") for _ in range(3))
    enabled = min(whole_run(bench, "Debugger.enable") for _ in range(3))
    words = "`run` %.2f s, with 4 clients attached %.2f, so %.2f of its speed; with their debuggers enabled %.2f"
    row("speed", words % (plain, silent, plain / silent, plain / enabled))


def main():
    parser = argparse.ArgumentParser()
    parser.add_argument("--bin", default=PROGRAM)
    parser.add_argument("--share", type=int, default=1)
    parser.add_argument("--node", default="node")
    asked = parser.parse_args()
    with tempfile.TemporaryDirectory() as folder:
        bench = Bench(asked, folder)
        for measured in evaluate, stops, late_stop, idle, many, speed:
            try:
                measured(bench)
            except Exception as error:
                row(measured.__name__, repr(error))


if __name__ == "__main__":
    main()
