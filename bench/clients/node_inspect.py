#!/usr/bin/env python3
"""`node inspect` on a program that is served: what it says to some thirty lines that a person would type.

    python3 bench/clients/node_inspect.py [--bin PROGRAM] [--ready SECONDS]

Types each line once `node inspect` asks for one and has been quiet for a moment, and looks for what must be seen then, which
comes from the script and from node's documentation of its debugger. Prints all that it says. It wants `node` (tried with 20),
and takes half a minute.
"""

import os
import re
import select
import subprocess

from served import SHOP, SHOP_PRINTS, Findings, served, words

QUIET, PATIENCE = 0.7, 20
PROMPTS = b"debug> ", b"> "

# Each line that is typed, and what must be seen after it, as regular expressions; no word where nothing is to be said.
LINES = [
    ("scripts", [r"\* 1: .*shop\.js"]),
    ("setBreakpoint('shop.js', 5)", [r"> ?5 +total = total \+ doubled;|5 +total = total \+ doubled;"]),
    ("breakpoints", [r"#0 .*shop\.js:5"]),
    ("cont", [r"break in .*shop\.js:5", r"> 5   total = total \+ doubled;"]),
    ("backtrace", [r"#0 add .*shop\.js:5:2", r"#1 \(anonymous\) .*shop\.js:8:\d+"]),
    ("list(1)", [r"4 +const doubled = item\.price \* 2;", r"> 5 +total = total \+ doubled;", r"6 +return total;"]),
    ("exec doubled", [r"^8$"]),
    ("exec item", [r"\{ name: 'tea', price: 4 \}"]),
    ("exec items", [r"\[ *(Object|\[Object\]|\{)"]),
    ("exec total = 5", [r"EvalError: Possible side-effect in debug-evaluate"]),
    ("exec total", [r"^0$"]),
    ("watch('total')", []),
    ("watch('item.name + doubled')", []),
    ("next", [r"break in .*shop\.js:6", r"0: total = 8", r"1: item\.name \+ doubled = 'tea8'", r"> 6   return total;"]),
    ("watchers", [r"0: total = 8"]),
    ("unwatch('total')", []),
    ("out", [r"break in .*shop\.js:8"]),
    ("clearBreakpoint('shop.js', 5)", []),
    ("setBreakpoint('shop.js', 11, 'limit < 25')", [r"11 +if \(total > limit\) throw"]),
    ("cont", [r"break in .*shop\.js:11", r"> ?11 +if \(total > limit\)"]),
    ("repl", [r"Press Ctrl\+C to leave debug repl"]),
    ("limit", [r"^20$"]),
    ("[total, limit].join()", [r"^'26,20'$"]),
    (".interrupt", [r"debug> $"]),
    ("breakOnException", []),
    ("cont", [r"exception in .*shop\.js:11"]),
    ("breakOnNone", []),
    ("step", [r"break in .*shop\.js:(17|18)"]),
    ("exec error.message", [r"'over 20'"]),
    ("cont", []),
]


class Inspector:
    """A `node inspect` that a line after another is typed to."""

    def __init__(self, port):
        command = ["node", "inspect", "127.0.0.1:%d" % port]
        self.node = subprocess.Popen(command, stdin=subprocess.PIPE, stdout=subprocess.PIPE, stderr=subprocess.STDOUT)

    def heard(self, first=PATIENCE):
        """What it says until it asks and is quiet; all that it says where it ends."""
        said, wait = b"", first
        while select.select([self.node.stdout], [], [], wait)[0]:
            part = os.read(self.node.stdout.fileno(), 4096)
            if not part:
                break
            said += part
            wait = QUIET if said.endswith(PROMPTS) else PATIENCE
        return said.decode().replace("\b", "")

    def type(self, line):
        """Types a line, and gives what is said to it."""
        self.node.stdin.write(line.encode() + b"\n")
        self.node.stdin.flush()
        return self.heard(3)


def debugged(port, findings):
    """Types the lines, and looks at what is said."""
    inspector = Inspector(port)
    said = inspector.heard()
    findings.see("it connects, and stops after the first step", bool(re.search(r"break in .*shop\.js:1\b", said)))
    for line, wanted in LINES:
        said = inspector.type(line)
        print("debug> %s\n%s" % (line, said.rstrip()))
        missing = [each for each in wanted if not re.search(each, said, re.MULTILINE)]
        findings.see(line, missing, [])
    inspector.node.kill()


if __name__ == "__main__":
    findings = Findings()
    with served(words(), "--devtools", name="shop.js", script=SHOP) as host:
        debugged(host.port, findings)
        findings.ended(host, SHOP_PRINTS)
    findings.end()
