#!/usr/bin/env python3
"""Refuses memory to a built program while two sessions debug one script, and looks at what each of them was sent.

    python3 bench/refused_sessions.py [--bin PROGRAM] [--limits N] [--each N] [--cc CC]

Two journals are replayed. In the first, short one both sessions ask, stop, look and go on, and the texts of both are taken again
and again. In the second the texts of session 2 pile up, and those of session 1 are taken behind each command.

- *limits*: the program's address space is limited to N sizes (100), from the least with which the program starts to one with
  which it comes to its end.
- *each*: where there is a C compiler and the program is linked dynamically, each of the first N allocations of the first journal
  (all of them, without N) is refused by itself, and then that one and all behind it.

Wanted: the status is 0 and the output as with ample memory, or the status is 1 with the line `debug_host: out of memory`, and
then what each session was sent is a first part of what it is sent with ample memory. Prints each run of another kind, and the
counts; the status is 1 where there is one.
"""

import argparse
import os
import resource
import subprocess
import sys
import tempfile

from debugging import PROGRAM

SCRIPT = """let total = 0;
function add(price) {
  const list = [price, total];
  total = total + price;
  return list;
}
for (let i = 0; i < 200; i++) {
  add(i);
}
console.log("total", total);
"""
BREAKPOINT = (
    '{"id":2,"method":"Debugger.setBreakpointByUrl","params":{"condition":"price %25 7 === 0","lineNumber":3,"url":"a.js"}}'
)
BEGIN = """attach
attach
tell 1 {"id":1,"method":"Debugger.enable"}
tell 1 BREAKPOINT
tell 2 {"id":1,"method":"Debugger.enable"}
tell 2 {"id":2,"method":"Runtime.enable"}
take 2
""".replace("BREAKPOINT", BREAKPOINT)
TURN = """run 100000 NUMBER
tell 1 {"id":3,"method":"Debugger.evaluateOnCallFrame","params":{"callFrameId":"1.NUMBER.0","expression":"({a: list, b: total})"}}
tell 2 {"id":3,"method":"Debugger.evaluateOnCallFrame","params":{"callFrameId":"2.NUMBER.0","expression":"list","returnByValue":true}}
take 1
tell 2 {"id":4,"method":"Runtime.globalLexicalScopeNames"}
take 2
tell RESUMER {"id":5,"method":"Debugger.resume"}
"""
PILE = """tell 2 {"id":6,"method":"Debugger.getScriptSource","params":{"scriptId":"1"}}
tell 1 {"id":6,"method":"Runtime.evaluate","params":{"expression":"total"}}
take 1
"""
END = """run 100000 9
take 1
take 2
"""

# Refuses the allocation of the number REFUSED, and with REFUSED_ON all behind it; counts them where COUNTED names a file.
REFUSES = r"""
#define _GNU_SOURCE
#include <dlfcn.h>
#include <errno.h>
#include <stdio.h>
#include <stdlib.h>
#include <stddef.h>

void *__libc_malloc(size_t);
void *__libc_calloc(size_t, size_t);
void *__libc_realloc(void *, size_t);
void *__libc_memalign(size_t, size_t);

static unsigned long count, refused;
static int on, begun;

static void begin(void) {
    begun = 1;
    const char *number = getenv("REFUSED");
    refused = number ? strtoul(number, 0, 10) : 0;
    on = getenv("REFUSED_ON") != 0;
}

static int refuses(void) {
    if (!begun) begin();
    count++;
    return refused && (count == refused || (on && count > refused));
}

void *malloc(size_t size) { return refuses() ? (errno = ENOMEM, (void *)0) : __libc_malloc(size); }
void *calloc(size_t n, size_t size) { return refuses() ? (errno = ENOMEM, (void *)0) : __libc_calloc(n, size); }
void *realloc(void *p, size_t size) { return refuses() ? (errno = ENOMEM, (void *)0) : __libc_realloc(p, size); }
void *memalign(size_t align, size_t size) { return refuses() ? (errno = ENOMEM, (void *)0) : __libc_memalign(align, size); }
void *aligned_alloc(size_t align, size_t size) { return memalign(align, size); }
int posix_memalign(void **p, size_t align, size_t size) {
    if (refuses()) return ENOMEM;
    *p = __libc_memalign(align, size);
    return *p ? 0 : ENOMEM;
}

__attribute__((destructor)) static void end(void) {
    const char *name = getenv("COUNTED");
    if (!name) return;
    unsigned long all = count;
    refused = 0;
    FILE *f = fopen(name, "w");
    if (f) {
        fprintf(f, "%lu", all);
        fclose(f);
    }
}
"""


def short_journal():
    """Both sessions are busy at each of some stops, and let the program go on by turns."""
    turns = [TURN.replace("NUMBER", str(n)).replace("RESUMER", str(n % 2 + 1)) for n in range(1, 9)]
    return BEGIN + "".join(turns) + END


def long_journal():
    """The texts of session 2 pile up."""
    return BEGIN + "run 100000 1\n" + PILE * 60000 + END


def sent(output):
    """The lines that each session was sent, by its number."""
    found = {b"1": [], b"2": []}
    for line in output.split(b"\n"):
        words = line.split(b" ", 2)
        if words[0] == b"to":
            found[words[1]].append(line)
    return found


def run(program, folder, limit=None, extra=None):
    """The status, output and errors of the replay, in so many bytes of address space, with this added to its environment."""
    limited = (lambda: resource.setrlimit(resource.RLIMIT_AS, (limit, limit))) if limit else None
    done = subprocess.run(
        [program, "replay", "journal", "a.js"],
        cwd=folder,
        stdout=subprocess.PIPE,
        stderr=subprocess.PIPE,
        preexec_fn=limited,
        env=dict(os.environ, **extra) if extra else None,
    )
    return done.returncode, done.stdout, done.stderr


class Tally:
    """Runs beside the one with ample memory: how many were whole, refused, or neither."""

    def __init__(self, program, folder):
        status, self.output, _ = run(program, folder)
        assert status == 0, status
        self.whole = self.refused = self.other = 0
        # the refused runs in which a session was sent something, and the most of it
        self.in_part = 0

    def add(self, words, status, output, errors):
        wanted, got = sent(self.output), sent(output)
        parts = all(wanted[s][: len(got[s])] == got[s] for s in wanted)
        if status == 0 and output == self.output:
            self.whole += 1
        elif status == 1 and b"debug_host: out of memory" in errors and parts and self.output.startswith(output):
            self.refused += 1
            self.in_part += any(got.values())
        else:
            self.other += 1
            print("%s: status %d, %d bytes of output, errors %r" % (words, status, len(output), errors[-200:]))

    def told(self, words):
        print(
            "%s: %d runs ended with status 1 and a first part of what each session is sent (%d of them with some of it), "
            "%d as with ample memory, %d otherwise" % (words, self.refused, self.in_part, self.whole, self.other)
        )
        return self.other


def first(holds, low, high, step):
    """The least multiple of a step between two sizes for which this holds."""
    low, high = low // step, high // step
    while low < high:
        middle = (low + high) // 2
        low, high = (low, middle) if holds(middle * step) else (middle + 1, high)
    return low * step


def starts(program, folder, limit):
    """Whether the program starts in so many bytes: without words it ends with status 2."""
    limited = lambda: resource.setrlimit(resource.RLIMIT_AS, (limit, limit))
    try:
        done = subprocess.run(
            [program], cwd=folder, stdout=subprocess.DEVNULL, stderr=subprocess.DEVNULL, preexec_fn=limited
        )
    except OSError:
        return False
    return done.returncode == 2


def by_limits(program, folder, words, count):
    """Replays in limited address spaces."""
    tally = Tally(program, folder)
    page = 4096
    least = first(lambda size: starts(program, folder, size), page, 1 << 30, page)
    most = first(lambda size: run(program, folder, size)[0] == 0, least, 4 << 30, page)
    for number in range(count + 1):
        size = least + (most - least) * number // count // page * page
        tally.add("%s, %d KiB" % (words, size // 1024), *run(program, folder, size))
    return tally.told("%s, from %.1f to %.1f MiB of address space" % (words, least / 2**20, most / 2**20))


def refusing(folder, cc):
    """The library that refuses allocations; None where there is no C compiler."""
    source, library = os.path.join(folder, "refuses.c"), os.path.join(folder, "refuses.so")
    with open(source, "w") as f:
        f.write(REFUSES)
    try:
        subprocess.run([cc, "-O2", "-shared", "-fPIC", "-o", library, source], check=True)
    except (OSError, subprocess.CalledProcessError):
        print("no C compiler, so no allocation is refused by itself")
        return None
    return library


def by_each(program, folder, words, count, cc):
    """Replays with one allocation refused, and with all behind it refused too."""
    library = refusing(folder, cc)
    if library is None:
        return 0
    counted = os.path.join(folder, "counted")
    run(program, folder, extra={"LD_PRELOAD": library, "COUNTED": counted})
    if not os.path.exists(counted):
        print("the program isn't linked dynamically, so no allocation is refused by itself")
        return 0
    with open(counted) as f:
        all_of_them = int(f.read())
    wrong = 0
    for kind, on in ("one allocation refused", {}), ("and all behind it", {"REFUSED_ON": "1"}):
        tally = Tally(program, folder)
        for number in range(1, min(count or all_of_them, all_of_them) + 1):
            extra = dict(on, LD_PRELOAD=library, REFUSED=str(number))
            tally.add("%s, %s, number %d" % (words, kind, number), *run(program, folder, extra=extra))
        wrong += tally.told("%s, %s, of %d" % (words, kind, all_of_them))
    return wrong


def main():
    parser = argparse.ArgumentParser()
    parser.add_argument("--bin", default=PROGRAM)
    parser.add_argument("--limits", type=int, default=100)
    parser.add_argument("--each", type=int, default=0)
    parser.add_argument("--cc", default="cc")
    asked = parser.parse_args()
    program = os.path.abspath(asked.bin)
    wrong = 0
    with tempfile.TemporaryDirectory() as folder:
        with open(os.path.join(folder, "a.js"), "w") as f:
            f.write(SCRIPT)
        for journal, words in (short_journal(), "both busy"), (long_journal(), "texts that pile up"):
            with open(os.path.join(folder, "journal"), "w") as f:
                f.write(journal)
            wrong += by_limits(program, folder, words, asked.limits)
        with open(os.path.join(folder, "journal"), "w") as f:
            f.write(short_journal())
        wrong += by_each(program, folder, "both busy", asked.each, asked.cc)
    sys.exit(1 if wrong else 0)


if __name__ == "__main__":
    main()
