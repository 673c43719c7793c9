#!/usr/bin/env python3
"""What a server of WebSockets answers to peers that behave well and badly, and how fast.

    python3 bench/sockets.py PORT [PID]

The server listens on 127.0.0.1 for at least sixteen clients, and answers a command by a text: `debug_host serve`, or an
echo. Each row is a case and what the peer saw. With the server's process id it also tells the processor time that five
seconds with sixteen idle clients took. It is no part of the gate.
"""

import socket
import struct
import sys
import time

from clients import BINARY, CLOSE, MOST, PING, REST, TEXT, Client, frame, head
from hosts import processor_ms


def command(number):
    return b'{"id":%d,"method":"Runtime.enable"}' % number


def upgraded(port, extra="", host=None):
    """The head of the answer to a request, in one line."""
    client = Client(port, extra, host)
    client.stream.close()
    return client.head.decode().replace("\r\n", " | ")


def after(port, *frames):
    """What a peer sees that sends these."""
    client = Client(port)
    for each in frames:
        client.stream.sendall(each)
    told = client.end()
    client.stream.close()
    return told


def replied(port, pieces):
    """All that a peer gets that sends these pieces of bytes, until the end, in one line."""
    with socket.create_connection(("127.0.0.1", port)) as stream:
        stream.setsockopt(socket.IPPROTO_TCP, socket.TCP_NODELAY, 1)
        stream.settimeout(10)
        for piece in pieces:
            stream.sendall(piece)
        heard = b""
        while part := stream.recv(4096):
            heard += part
    return heard.decode().replace("\r\n", " | ")


def answered(port, *frames, after=b""):
    """The first frame that a peer hears that sends these, and goes by a close; `after` goes out with its request."""
    client = Client(port, after=after)
    for each in frames:
        client.stream.sendall(each)
    opcode, data = client.hear()
    client.stream.sendall(frame(CLOSE, struct.pack(">H", 1000)))
    return "%d: %r, then %s" % (opcode, data[:60], client.end())


def vanishes(port):
    """A client that is gone in the middle of a frame; the seat is free again."""
    client = Client(port)
    client.stream.sendall(frame(TEXT, command(1))[:9])
    client.stream.close()
    return "gone; " + answered(port, frame(TEXT, command(1)))


def half_head(port):
    """How long a head that stops half way is waited for."""
    stream = socket.create_connection(("127.0.0.1", port))
    stream.settimeout(20)
    start = time.time()
    stream.sendall(head(port)[:40])
    rest = stream.recv(4096)
    return "%r after %.1f s" % (rest, time.time() - start)


def unread(port):
    """A client that sends and never reads."""
    client = Client(port)
    client.stream.settimeout(12)
    start = time.time()
    count = 0
    text = b'{"id":1,"method":"' + b"x" * 60_000 + b'"}'
    try:
        while time.time() - start < 60:
            client.stream.sendall(frame(TEXT, text))
            count += 1
    except OSError as error:
        return "%d texts of 60 kB in %.1f s, then %r" % (count, time.time() - start, error)
    return "%d texts of 60 kB were taken" % count


def round_trips(port, count=3000):
    client = Client(port)
    start = time.time()
    for number in range(count):
        client.ask(command(number))
    took = time.time() - start
    client.stream.close()
    return "%.0f /s" % (count / took)


def many(port, count=16):
    """So many clients at once, each with a command of its own."""
    clients = [Client(port) for _ in range(count)]
    for number, client in enumerate(clients):
        client.stream.sendall(frame(TEXT, command(number)))
    heard = [client.hear() for client in clients]
    for client in clients:
        client.stream.close()
    return "%d answers to %d clients" % (len(heard), count)


def idle(port, process, count=16):
    """The processor time of five seconds with so many idle clients."""
    clients = [Client(port) for _ in range(count)]
    time.sleep(0.5)
    before = processor_ms(process)
    time.sleep(5)
    took = processor_ms(process) - before
    for client in clients:
        client.stream.close()
    return "%d ms with %d clients" % (took, count)


def cases(port):
    """What a peer sees in each case: its name, and what gives the words."""
    one = frame(TEXT, command(1))
    long_text = b"a" * (MOST + 1)
    parts = [frame(TEXT, command(1)[:9], fin=False), frame(PING, b"p"), frame(REST, command(1)[9:])]
    version = b"GET /json/version HTTP/1.1\r\n\r\n"
    listed = b"GET /json HTTP/1.1\r\nHost: %s\r\n\r\n"
    return [
        ("head", lambda: upgraded(port)),
        ("text", lambda: answered(port, one)),
        ("text with the head", lambda: answered(port, after=one)),
        ("fragments round a ping", lambda: answered(port, *parts)),
        ("ping", lambda: answered(port, frame(PING, b"abc"))),
        ("1 MiB and a byte", lambda: after(port, frame(TEXT, long_text))),
        ("header of 50 MB", lambda: after(port, frame(TEXT, length=50_000_000))),
        ("binary", lambda: after(port, frame(BINARY, b"abc"))),
        ("unmasked", lambda: after(port, frame(TEXT, command(1), masked=False))),
        ("reserved bit", lambda: after(port, frame(TEXT, command(1), reserved=4))),
        ("not UTF-8", lambda: after(port, frame(TEXT, b"\xff\xfe"))),
        ("close 1001", lambda: after(port, frame(CLOSE, struct.pack(">H", 1001)))),
        ("vanishes in a frame", lambda: vanishes(port)),
        ("another host", lambda: upgraded(port, host="evil.example:%d" % port)),
        ("localhost", lambda: upgraded(port, host="localhost:%d" % port)),
        ("a web page", lambda: upgraded(port, "Origin: http://evil.example\r\n")),
        ("a browser's debugger", lambda: upgraded(port, "Origin: devtools://devtools\r\n")),
        ("half a head", lambda: half_head(port)),
        ("the version, byte by byte", lambda: replied(port, [bytes([byte]) for byte in version])),
        ("two requests at once", lambda: replied(port, [version + version])),
        ("the list", lambda: replied(port, [listed % b"localhost"])),
        ("the list for another host", lambda: replied(port, [listed % b"evil.example"])),
        ("a head of 8192 bytes and more", lambda: replied(port, [b"GET / HTTP/1.1\r\nA: " + b"a" * 9000])),
        ("16 clients at once", lambda: many(port)),
        ("never reads", lambda: unread(port)),
        ("text after all that", lambda: answered(port, one)),
    ]


def words_of(told):
    """The words of a case, or its exception."""
    try:
        return told()
    except Exception as error:
        return repr(error)


def show(name, told):
    print("%-28s %s" % (name, words_of(told)), flush=True)


def main():
    port = int(sys.argv[1])
    for name, told in cases(port):
        show(name, told)
    show("round trips", lambda: round_trips(port))
    if len(sys.argv) > 2:
        show("idle", lambda: idle(port, int(sys.argv[2])))


if __name__ == "__main__":
    main()
