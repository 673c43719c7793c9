"""A program that waits for a client and is served, and what was seen beside what was expected; the other files of this folder
use it."""

import argparse
import contextlib
import os
import sys
import tempfile

sys.path.insert(0, os.path.join(os.path.dirname(os.path.abspath(__file__)), ".."))

from debugging import PROGRAM
from hosts import Host
from measured import write

SUM = """function add(a, b) {
  const sum = a + b;
  return sum;
}
const first = add(2, 3);
console.log("the sums are", first, add(first, 4));
"""
SUM_PRINTS = "the sums are 5 9\n"

# What the longer sessions debug. The total is 8 after the first turn of the loop, and 26 after the second.
SHOP = """const items = [{name: "tea", price: 4}, {name: "cake", price: 9}];
let total = 0;
function add(item) {
  const doubled = item.price * 2;
  total = total + doubled;
  return total;
}
for (const item of items) add(item);
console.log("total", total, items[0].name);
function check(limit) {
  if (total > limit) throw RangeError("over " + limit);
  return limit;
}
try {
  check(30);
  check(20);
} catch (error) {
  console.log(error.message);
}
"""
SHOP_PRINTS = "total 26 tea\nover 20\n"


def words(parser=None):
    """The words that each program here has."""
    parser = parser or argparse.ArgumentParser()
    parser.add_argument("--bin", default=PROGRAM, help="the program, as it was built")
    parser.add_argument("--ready", type=int, default=30, help="how many seconds it may take until it listens")
    return parser.parse_args()


@contextlib.contextmanager
def served(asked, *more, name="sum.js", script=SUM):
    """A host that serves a script, which waits, with more words."""
    with tempfile.TemporaryDirectory() as folder:
        write(folder, name, script)
        with Host(asked.bin, folder, *more, "--wait", name) as host:
            yield host.ready(asked.ready)


class Findings:
    """What was seen, beside what was expected."""

    def __init__(self):
        self.seen, self.wrong = 0, 0

    def see(self, what, seen, wanted=True):
        """Counts one thing that was seen, and says it."""
        self.seen += 1
        self.wrong += seen != wanted
        print("%s: %s" % (what, "as expected" if seen == wanted else "%r in place of %r" % (seen, wanted)), flush=True)

    def ended(self, host, prints, seconds=30):
        """The program is to end by itself, with this output."""
        status, output, told = host.end(seconds)
        self.see("the program's end and its output", (status, output.decode(), told), (0, prints, b""))

    def end(self):
        """Ends with status 1 where something else was seen."""
        print("%d things were looked at, %d aren't as expected" % (self.seen, self.wrong))
        sys.exit(1 if self.wrong else 0)
