#!/usr/bin/env python3
"""Times `debug_host run` beside other interpreters.

    python3 bench/interpreters.py [ROUNDS]        (default 5)

Runs `PROGRAMS` by `debug_host run`, and by `mujs`, `duk` and `node --jitless`, those of them that are installed (Debian's
packages `mujs`, `duktape` and `nodejs`), in turn, with their output into a file. For each program it prints the least
processor time of the rounds in milliseconds, its steps and how many millions of them are made in a second, and the time of
`run` as a ratio to each other interpreter's. Says so where the outputs differ. The first programs are loops outside
functions, where others look names up, too; the last five are in functions, where others have slots for them. It is no part
of the gate; build the program first (`./debug_host`).
"""

import os
import resource
import shutil
import subprocess
import sys
import tempfile

TOP = os.path.dirname(os.path.dirname(os.path.abspath(__file__)))
PROGRAM = os.path.join(TOP, "crates", "debug_host", "out", "debug_host")

PROGRAMS = {
    "calls": """
let t = 0; function f(i) { t = t + i; return t; } let i = 0; while (i < 1000000) { f(i); i++; }
console.log(t);
""",
    "properties": """
let o = { a: 1, b: 2, c: 3, d: 4 };
let i = 0;
while (i < 1000000) { o.a = o.b + i; o.c = o.a - o.d; i++; }
console.log(o.a, o.b, o.c, o.d);
""",
    "arrays": """
let a = [];
let i = 0;
while (i < 500000) { a.push(i); i++; }
let s = 0;
let j = 0;
while (j < 500000) { s = s + a[j]; a[j] = s; j++; }
console.log(s, a.length, a[499999]);
""",
    "strings": """
let s = "";
let n = 0;
let i = 0;
while (i < 500000) { s = s + "x"; if (s.length > 60) { n = n + s.length; s = ""; } i++; }
console.log(n, s.length);
""",
    "closures": """
function make(n) { return function(x) { return x + n; }; }
let t = 0;
let i = 0;
while (i < 300000) { t = make(i)(1) + t; i++; }
console.log(t);
""",
    "numbers": """
let i = 0;
let s = 0;
while (i < 2000000) { if (i % 3 === 0) { s = s + i * 2; } else { s = s - 1; } i++; }
console.log(s);
""",
    "lines": """
let i = 0;
while (i < 1000000) { console.log(i); i++; }
""",
    "nothing": """
""",
    # In functions, where names have slots.
    "heap sort": """
function sift(a, from, end) {
  let i = from;
  let j = 0;
  let t = 0;
  while (2 * i + 1 < end) {
    j = 2 * i + 1;
    if (j + 1 < end && a[j] < a[j + 1]) j++;
    if (a[i] >= a[j]) return;
    t = a[i];
    a[i] = a[j];
    a[j] = t;
    i = j;
  }
}
function sort(a) {
  let i = (a.length - a.length % 2) / 2;
  let t = 0;
  while (i > 0) { i--; sift(a, i, a.length); }
  let end = a.length;
  while (end > 1) { end--; t = a[0]; a[0] = a[end]; a[end] = t; sift(a, 0, end); }
}
function numbers(n) {
  let a = [];
  let x = 1;
  while (a.length < n) { x = x * 16807 % 2147483647; a.push(x); }
  return a;
}
let a = numbers(10000);
sort(a);
console.log(a[0], a[5000], a[9999]);
""",
    "texts": """
function line(i) { return "item " + i + ": " + i * 7 % 1000 + ";"; }
function build(n) {
  let t = "";
  let units = 0;
  let i = 0;
  while (i < n) {
    t = t + line(i);
    if (t.length > 500) { units = units + t.length; t = ""; }
    i++;
  }
  return units + t.length;
}
console.log(build(40000));
""",
    "counters": """
function counter() { let n = 0; return function(d) { n = n + d; return n; }; }
function count(times) {
  let a = counter();
  let b = counter();
  let i = 0;
  while (i < times) { a(1); b(2); i++; }
  return a(0) + b(0);
}
console.log(count(50000));
""",
    "recursion": """
function fib(n) { if (n < 2) return n; return fib(n - 1) + fib(n - 2); }
function ackermann(m, n) {
  if (m === 0) return n + 1;
  if (n === 0) return ackermann(m - 1, 1);
  return ackermann(m - 1, ackermann(m, n - 1));
}
console.log(fib(22), ackermann(2, 10));
""",
    "shown": """
function quoted(t) { return "<" + t + ">"; }
function list(a) {
  let t = "[";
  let i = 0;
  while (i < a.length) { if (i > 0) t = t + ","; t = t + shown(a[i]); i++; }
  return t + "]";
}
function object(o) {
  let t = "{";
  let keys = Object.keys(o);
  let i = 0;
  while (i < keys.length) { if (i > 0) t = t + ","; t = t + quoted(keys[i]) + ":" + shown(o[keys[i]]); i++; }
  return t + "}";
}
function shown(v) {
  if (v === null) return "null";
  if (Array.isArray(v)) return list(v);
  if (typeof v === "object") return object(v);
  if (typeof v === "string") return quoted(v);
  return String(v);
}
function rows(n) {
  let all = [];
  while (all.length < n) all.push({ id: all.length, name: "n" + all.length, tags: ["a", "b", 1], next: null });
  return all;
}
function repeat(times) {
  let units = 0;
  let i = 0;
  while (i < times) { units = units + shown(rows(20)).length; i++; }
  return units;
}
console.log(repeat(150));
""",
}

# how others are given a program, whose function `print` they have in place of `console.log`
OTHERS = {
    "mujs": ["mujs"],
    "duk": ["duk"],
    "node": ["node", "--jitless"],
}


def timed(command, output):
    """The milliseconds of processor time that a command uses, with its output in a file."""
    before = resource.getrusage(resource.RUSAGE_CHILDREN)
    with open(output, "wb") as out:
        subprocess.run(command, stdout=out, check=True)
    after = resource.getrusage(resource.RUSAGE_CHILDREN)
    return 1000 * (after.ru_utime - before.ru_utime + after.ru_stime - before.ru_stime)


def least(command, output, rounds):
    return min(timed(command, output) for _ in range(rounds))


def steps_of(script, folder):
    """How many steps a script takes."""
    journal = os.path.join(folder, "journal")
    with open(journal, "w") as f:
        f.write("run 4294967295 0\n")
    told = subprocess.run([PROGRAM, "replay", journal, script], capture_output=True, text=True, check=True)
    _, steps, state = told.stdout.splitlines()[-1].split()
    assert state == "ended", state
    return int(steps)


def words(path):
    with open(path) as f:
        return f.read().split()


def main():
    rounds = int(sys.argv[1]) if len(sys.argv) > 1 else 5
    installed = [name for name in OTHERS if shutil.which(name)]
    with tempfile.TemporaryDirectory() as folder:
        script, other, own, theirs = (os.path.join(folder, name) for name in ("a.js", "other.js", "own", "theirs"))
        print(f"{'':12}{'ms':>8}{'steps':>12}{'M/s':>8}" + "".join(f"{'/' + name:>8}" for name in installed))
        for name, source in PROGRAMS.items():
            with open(script, "w") as f:
                f.write(source)
            time = least([PROGRAM, "run", script], own, rounds)
            steps = steps_of(script, folder)
            line = f"{name:12}{time:8.1f}{steps:>12}{steps / max(time, 0.1) / 1000:8.1f}"
            for it in installed:
                with open(other, "w") as f:
                    prelude = "" if it == "node" else "var console = { log: print };\n"
                    f.write(prelude + source.replace("let ", "var ").replace("const ", "var "))
                line += f"{time / max(least(OTHERS[it] + [other], theirs, rounds), 0.1):8.2f}"
                if words(own) != words(theirs):
                    line += f"  {it} prints something else"
            print(line, flush=True)


main()
