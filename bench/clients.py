"""A bare client of WebSockets (RFC 6455), to which nothing is forbidden; other files here use it."""

import base64
import json
import os
import socket
import struct

REST, TEXT, BINARY, CLOSE, PING = 0, 1, 2, 8, 9
MOST = 1_048_576


def frame(opcode, data=b"", fin=True, masked=True, reserved=0, length=None):
    """A frame; `length` is told in place of the data's."""
    size = len(data) if length is None else length
    head = bytes([fin << 7 | reserved << 4 | opcode])
    mask = 0x80 if masked else 0
    if size < 126:
        head += bytes([mask | size])
    elif size < 65_536:
        head += bytes([mask | 126]) + struct.pack(">H", size)
    else:
        head += bytes([mask | 127]) + struct.pack(">Q", size)
    if not masked:
        return head + data
    key = os.urandom(4)
    pad = int.from_bytes((key * (len(data) // 4 + 1))[: len(data)], "big")
    return head + key + (int.from_bytes(data, "big") ^ pad).to_bytes(len(data), "big")


def head(port, extra="", host=None, path="/session"):
    """A request for an upgrade."""
    key = base64.b64encode(os.urandom(16)).decode()
    host = host or "127.0.0.1:%d" % port
    lines = ["GET %s HTTP/1.1" % path, "Host: " + host, "Upgrade: websocket", "Connection: Upgrade"]
    lines += ["Sec-WebSocket-Key: " + key, "Sec-WebSocket-Version: 13"]
    return ("\r\n".join(lines) + "\r\n" + extra + "\r\n").encode()


class Client:
    """A bare client; `after` goes out with its request."""

    def __init__(self, port, extra="", host=None, path="/session", after=b""):
        self.stream = socket.create_connection(("127.0.0.1", port))
        self.stream.setsockopt(socket.IPPROTO_TCP, socket.TCP_NODELAY, 1)
        self.stream.settimeout(10)
        self.number, self.code = 0, None
        self.stream.sendall(head(port, extra, host, path) + after)
        self.rest, self.taken = b"", 0
        while b"\r\n\r\n" not in self.rest:
            part = self.stream.recv(4096)
            if not part:
                break
            self.rest += part
        self.head, _, self.rest = self.rest.partition(b"\r\n\r\n")

    def take(self, count):
        while len(self.rest) - self.taken < count:
            part = self.stream.recv(1 << 16)
            if not part:
                raise EOFError
            self.rest = self.rest[self.taken :] + part
            self.taken = 0
        begin, self.taken = self.taken, self.taken + count
        return self.rest[begin : self.taken]

    def hear(self):
        """The next frame: its opcode and its data."""
        first, second = self.take(2)
        size = second & 127
        if size == 126:
            (size,) = struct.unpack(">H", self.take(2))
        elif size == 127:
            (size,) = struct.unpack(">Q", self.take(8))
        return first & 15, self.take(size)

    def send(self, text):
        self.stream.sendall(frame(TEXT, text))

    def ask(self, text):
        self.send(text)
        return self.hear()

    def tell(self, method, **params):
        """Sends a command; gives its number."""
        self.number += 1
        self.send(json.dumps({"id": self.number, "method": method, "params": params}).encode())
        return self.number

    def message(self):
        """The next message, None where a close comes in its place, whose code is then kept."""
        opcode, data = self.hear()
        if opcode == CLOSE:
            self.code = struct.unpack(">H", data[:2])[0] if data else None
            self.stream.sendall(frame(CLOSE, data[:2]))
            return None
        return json.loads(data)

    def reply(self, number):
        """The reply to the command of this number; what comes before it is passed over."""
        while True:
            message = self.message()
            if message is None or message.get("id") == number:
                return message

    def event(self, method):
        """The parameters of the next event of this method; what comes before it is passed over."""
        while True:
            message = self.message()
            if message is None:
                return None
            if message.get("method") == method:
                return message.get("params", {})

    def call(self, method, **params):
        """Sends a command and gives its reply."""
        return self.reply(self.tell(method, **params))

    def closed(self):
        """The code of the close; what comes before it is passed over."""
        while self.message() is not None:
            pass
        return self.code

    def leave(self):
        """Goes by a close, and waits for the end."""
        self.stream.sendall(frame(CLOSE, struct.pack(">H", 1000)))
        told = self.end()
        self.stream.close()
        return told

    def end(self):
        """What comes until the connection ends, in words."""
        told = []
        try:
            while True:
                opcode, data = self.hear()
                if opcode == CLOSE:
                    told.append("close %d" % struct.unpack(">H", data[:2]) if data else "close")
                else:
                    told.append("%d: %d bytes" % (opcode, len(data)))
        except EOFError:
            told.append("end")
        except socket.timeout:
            told.append("still open")
        except ConnectionResetError:
            told.append("reset")
        return ", ".join(told)
