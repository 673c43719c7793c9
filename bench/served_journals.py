#!/usr/bin/env python3
"""Plays journals over `debug_host serve`, and compares what each session is sent with what a replay hands out.

    python3 bench/served_journals.py [--bin PROGRAM]

The journals are those of `crates/debug_host_cases/data` over programs that wait for a client, as far as a server can play them: whenever
the program may go on, the next line runs it to where it pauses or ends. Each line is played once all sessions were sent what
the lines before hand out. Moments are left out of the comparison. Prints the journals that differ, and how many were played
and left out; the status is 1 where one differs. It takes some seconds, and is no part of the gate.
"""

import argparse
import os
import re
import socket
import subprocess
import sys
import tempfile
import time

from clients import TEXT, Client
from debugging import PROGRAM
from hosts import Host

DATA = os.path.join(os.path.dirname(os.path.dirname(os.path.abspath(__file__))), "crates", "debug_host_cases", "data")
MOMENT = re.compile(rb'"timestamp":[0-9]+')


def calls():
    """The folder and the words of each replay over a program that waits."""
    for folder, _, names in sorted(os.walk(DATA)):
        for name in sorted(names):
            if name.endswith(".calls"):
                with open(os.path.join(folder, name), encoding="utf-8", errors="replace") as file:
                    for line in file:
                        words = line.split()
                        if words[:3] == ["call", "replay", "--wait"] and len(words) > 4:
                            yield folder, words[2:]


def parted(words):
    """The options of a program, its journal and its scripts."""
    options = [word for word in words if word.startswith("--")]
    names = [word for word in words if not word.startswith("--")]
    if "--input" in options:
        return None
    return options, names[0], names[1:]


def written_out(text):
    """A text of a journal as it is sent."""
    return text.replace(b"%0A", b"\n").replace(b"%0D", b"\r").replace(b"%25", b"%")


def replayed(program, folder, lines, options, scripts):
    """For each line of a journal the state of the program after it and the texts that it hands out; None where one is refused."""
    sessions, journal, told = 0, [], []
    for line in lines:
        sessions += line == b"attach"
        journal += [line, b"run 0 0"] + [b"take %d" % (number + 1) for number in range(sessions)]
    with tempfile.NamedTemporaryFile(suffix=".journal") as file:
        file.write(b"\n".join(journal) + b"\n")
        file.flush()
        done = subprocess.run([program, "replay", *options, file.name, *scripts], cwd=folder, capture_output=True)
    if done.returncode != 0:
        return None
    said = done.stdout.split(b"\n")
    place = 0
    for line in lines:
        for _ in range(2 if line.startswith(b"run") else 1):
            while not said[place].startswith(b"ran "):
                place += 1
            state = said[place].split(b" ")[2]
            place += 1
        told.append((state, []))
        while said[place].startswith(b"to "):
            _, session, text = said[place].split(b" ", 2)
            told[-1][1].append((int(session), written_out(text)))
            place += 1
    return told


def can_be_served(lines, states):
    """Whether a server plays these lines as they stand."""
    before = b"waiting"
    for line, state in zip(lines, states):
        kind = line.split(b" ")[0]
        if kind == b"shut" or (before == b"ready") != (kind == b"run" and before == b"ready") or (kind == b"run" and state == b"ready"):
            return False
        before = state
    return before != b"ready"


def hear(client, heard, wanted):
    """Hears texts until there are so many, or none comes for two seconds."""
    client.stream.settimeout(2)
    try:
        while len(heard) < wanted:
            opcode, data = client.hear()
            if opcode != TEXT:
                return
            heard.append(data)
    except (socket.timeout, EOFError, ConnectionResetError):
        return


def served(program, folder, lines, told, options, scripts):
    """What each session was sent, and what it is to be sent."""
    clients, heard, wanted = {}, {}, {}
    with Host(program, folder, "--sessions", "16", *options, *scripts).ready() as host:
        for line, (_, texts) in zip(lines, told):
            kind, _, rest = line.partition(b" ")
            number, _, text = rest.partition(b" ")
            if kind == b"attach":
                clients[len(clients) + 1] = Client(host.port)
                heard[len(clients)], wanted[len(clients)] = [], []
                time.sleep(0.05)
            elif kind == b"tell":
                clients[int(number)].send(written_out(text))
            elif kind == b"detach":
                clients[int(number)].leave()
            for session, said in texts:
                wanted[session].append(said)
            for session, client in clients.items():
                hear(client, heard[session], len(wanted[session]))
    return heard, wanted


def main():
    parser = argparse.ArgumentParser()
    parser.add_argument("--bin", default=PROGRAM)
    program = os.path.abspath(parser.parse_args().bin)
    played = left_out = differ = 0
    for folder, words in calls():
        told = None
        if parted(words) and os.path.exists(os.path.join(folder, parted(words)[1])):
            options, journal, scripts = parted(words)
            with open(os.path.join(folder, journal), "rb") as file:
                lines = [line for line in file.read().split(b"\n") if line and not line.startswith(b"take")]
            told = replayed(program, folder, lines, options, scripts)
        if not told or len(told) < len(lines) or not can_be_served(lines, [state for state, _ in told]):
            left_out += 1
            continue
        heard, wanted = served(program, folder, lines, told, options, scripts)
        same = [[MOMENT.sub(b"", text) for text in texts] for texts in heard.values()] == [
            [MOMENT.sub(b"", text) for text in texts] for texts in wanted.values()
        ]
        played += 1
        if not same:
            differ += 1
            print("differs:", os.path.relpath(folder, DATA), " ".join(words))
    print("%d journals played, %d differ, %d left out" % (played, differ, left_out))
    sys.exit(1 if differ or not played else 0)


main()
