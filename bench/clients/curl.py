#!/usr/bin/env python3
"""What `curl` is told by the door of a program that is served: where it is, and what it refuses.

    python3 bench/clients/curl.py [--bin PROGRAM] [--ready SECONDS]

Prints each request with its answer, and whether that is as `docs/PROTOCOL.md` says. It wants `curl`, and takes a second.
"""

import json
import subprocess

from served import Findings, served, words

VERSION = {"Browser": "debug_host", "Protocol-Version": "1.3"}


def answer(port, path, *more):
    """The status, the head and the body that `curl` gets."""
    command = ["curl", "--silent", "--include", "--max-time", "10", *more]
    done = subprocess.run([*command, "http://127.0.0.1:%d%s" % (port, path)], stdout=subprocess.PIPE, timeout=20)
    head, _, body = done.stdout.decode().replace("\r\n", "\n").partition("\n\n")
    print("\n%s %s\n%s\n%s" % (path, " ".join(more), head, body))
    return int(head.split()[1]) if head else 0, body


def tells_where(answered, port):
    """Whether an answer lists the one program, and where to connect to it."""
    status, body = answered
    listed = json.loads(body) if status == 200 else []
    target = "ws://127.0.0.1:%d/session" % port
    return [(one["title"], one["url"], one["webSocketDebuggerUrl"]) for one in listed] == [("sum.js", "sum.js", target)]


findings = Findings()
with served(words()) as host:
    status, body = answer(host.port, "/json/version")
    findings.see("the version", (status, json.loads(body)), (200, VERSION))
    for path in ["/json/list", "/json", "/json/list?for=a-person"]:
        findings.see("the list", tells_where(answer(host.port, path), host.port))
    findings.see("a page that isn't there", answer(host.port, "/json/protocol")[0], 404)
    findings.see("no upgrade", answer(host.port, "/session")[0], 426)
    findings.see("another host", answer(host.port, "/json", "--header", "Host: page.example")[0], 403)
    findings.see("another method", answer(host.port, "/json", "--data", "x")[0], 405)
findings.end()
