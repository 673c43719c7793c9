#!/usr/bin/env python3
"""Chromium's DevTools on a program that is served: what they show of it while a person would click and type.

    python3 bench/clients/devtools.py [--bin PROGRAM] [--ready SECONDS] [--pictures FOLDER]

A Chromium without a window opens the front end that it brings along as a page, and is driven by its own debugging port: the
source, a breakpoint by a click, scopes, a variable under the pointer, a watch, steps, the console, a condition, a stop at a
throw, and the end. What the page shows is read off its text, and compared with the script. The pictures are taken at a stop, and
at a question in the console. It wants `chromium` (tried with 156), and takes half a minute.
"""

import argparse
import json
import os
import time

from browser import ALT, CONTROL, PATIENCE, SHIFT, browser
from served import SHOP, SHOP_PRINTS, Findings, served, words

REFUSED = ["Debugger.setBlackboxPatterns", "Network.emulateNetworkConditionsByRule"]
FRONT_END = "devtools://devtools/bundled/js_app.html?ws=127.0.0.1:%d/session"
RESUME, OVER, INTO = ("F8", 119), ("F10", 121), ("F11", 122)
ENTER, ESCAPE = ("Enter", 13), ("Escape", 27)

# Where a word of a line of the source is.
WORD = """(() => {
  for (const line of all(".cm-line").filter((each) => each.textContent.includes(%s))) {
    const texts = document.createNodeIterator(line, NodeFilter.SHOW_TEXT);
    for (let text; (text = texts.nextNode()); ) {
      const at = text.data.indexOf(%s);
      if (at < 0) continue;
      const range = document.createRange();
      range.setStart(text, at);
      range.setEnd(text, at + 1);
      return middle(range);
    }
  }
})()"""
NUMBER = 'middle(all(".cm-lineNumbers .cm-gutterElement").find((each) => text_in(each) === "%d"))'
TITLE = 'all("*").filter((each) => text_of(each).trim() === %s).map(middle).find(Boolean)'
STANDS = 'all(".cm-executionLine").map(text_in).join()'
POPOVER = '[...document.querySelectorAll("body > .no-pointer-events")].map(text_in).join(" ")'
CONSOLE = 'all(".console-message-wrapper").map(text_in)'


class DevTools:
    """The page, and what is found on it."""

    def __init__(self, page, findings, folder=None):
        self.page, self.see, self.folder = page, findings.see, folder

    def shows(self, what, text):
        """The page is to show a text."""
        self.page.until("shown().includes(%s)" % json.dumps(text), what)
        self.see(what, True)

    def matches(self, what, expression, pattern):
        """An expression over the page is to match a pattern, soon."""
        seen = self.page.until("(%s).match(%s)?.[0]" % (expression, pattern), what)
        self.see("%s: %s" % (what, seen.strip()), True)

    def stands(self, what, line):
        """The program is to stand at a line of the source, soon."""
        self.page.until("%s === %s" % (STANDS, json.dumps(line)), what)
        self.see("%s, it stands at `%s`" % (what, line), True)

    def click(self, expression, what):
        self.page.click(self.page.until(expression, what))

    def press(self, key, modifiers=0):
        self.page.press(*key, modifiers)

    def enter(self, text):
        """Types a line, and ends it without what is suggested for it."""
        self.page.type(text)
        time.sleep(0.5)
        if self.page.look('all(".cm-tooltip-autocomplete").length'):
            self.press(ESCAPE)
        self.press(ENTER)

    def picture(self, name):
        """Writes a picture of the page, where pictures are asked for."""
        if self.folder:
            self.page.picture(os.path.join(self.folder, name))

    def answers(self, text, pattern):
        """What the console says to a line."""
        self.click('reached(all("#console-prompt")[0])', "the console's prompt")
        self.enter(text)
        self.matches("the console says to `%s`" % text, "%s.at(-1) || ''" % CONSOLE, pattern)


def opens(tools):
    """The program is stopped after its first step, and its source is there."""
    tools.shows("the program is paused", "Debugger paused")
    tools.stands("after its first step", SHOP.split("\n")[0])


def breakpoint_by_click(tools):
    """A click sets a breakpoint, and the program stops there, with its scopes and its calls."""
    tools.click(NUMBER % 5, "line 5")
    tools.page.until('all(".cm-breakpoint").length === 1', "a breakpoint")
    tools.press(RESUME)
    tools.shows("the program stops", "Paused on breakpoint")
    tools.stands("at the breakpoint", "total = total + doubled;")
    tools.matches("the local scope", "shown()", r"/Local\s*this: \w+\s*doubled: 8\s*item: \{name: 'tea', price: 4\}/")
    names = r"add: ƒ add\(item\)\s*check: ƒ check\(limit\)\s*items: \(2\) \[\{…\}, \{…\}\]\s*total: 0"
    tools.matches("the script's scope", "shown()", r"/Script\s*%s/" % names)
    calls = tools.page.look('all(".call-frame-item").map(text_in)')
    tools.see("the calls", calls, ["addshop.js:5", "(anonymous)shop.js:8"])


def hovers(tools):
    """A variable under the pointer is shown."""
    for line, word, pattern in [("total = total", "doubled", "/^8$/"), ("item.price", "item", "/name: .tea.\\s*price: 4/")]:
        tools.page.move(tools.page.until(WORD % (json.dumps(line), json.dumps(word)), word))
        tools.matches("the pointer over `%s`" % word, POPOVER, pattern)
        if word == "doubled":
            tools.picture("devtools.png")
        tools.page.move((300, 20))
        tools.page.until('%s === ""' % POPOVER, "no popover")


def watches(tools):
    """A watch is shown at once."""
    tools.click(TITLE % '"Watch"', "the watches")
    tools.click('labelled("Add watch expression")', "the button for a watch")
    time.sleep(0.5)
    tools.page.type("total * 2")
    time.sleep(0.5)
    tools.press(ENTER)
    tools.shows("a watch", "total * 2: 0")


def steps(tools):
    """Steps over a statement, out of the function and into its next call; the watch follows."""
    tools.press(OVER)
    tools.stands("a step over", "return total;")
    tools.shows("the watch has changed", "total * 2: 16")
    tools.press(INTO, SHIFT)
    tools.stands("a step out", "for (const item of items) add(item);")
    tools.press(INTO)
    tools.stands("a step into", "const doubled = item.price * 2;")


def console(tools):
    """The console evaluates, opens an object, and says what an effect is."""
    tools.press(ESCAPE)
    tools.answers("items", r"/\(2\) \[\{…\}, \{…\}\]/")
    tools.click('reached(all(".console-user-command-result .console-view-object-properties-section").at(-1))', "the answer")
    elements = r"0: ?\{name: 'tea', price: 4\}\s*1: ?\{name: 'cake', price: 9\}\s*length: 2"
    tools.matches("the list is opened", "%s.at(-1)" % CONSOLE, "/%s/" % elements)
    tools.click('reached(all(".name-and-value").filter((each) => text_in(each).startsWith("1: {")).at(-1))', "its element 1")
    tools.matches("the object in it is opened", "%s.at(-1)" % CONSOLE, r"/name: .cake.\s*price: 9/")
    tools.answers("item.name + total", "/'cake8'/")
    tools.answers("total = 5", "/EvalError: Possible side-effect in debug-evaluate/")
    tools.picture("devtools_console.png")
    tools.answers("total", "/^8$/")
    tools.answers("missing", "/ReferenceError: missing is not defined/")
    tools.press(ESCAPE)
    tools.page.until(NUMBER % 19, "the whole source")


def condition(tools):
    """A breakpoint with a condition, instead of the one that a click takes away."""
    tools.click(NUMBER % 5, "line 5")
    tools.page.until('all(".cm-breakpoint").length === 0', "no breakpoint")
    tools.click(WORD % ('"total > limit"', '"limit"'), "line 11")
    tools.press(("b", 66), CONTROL | ALT)
    tools.page.until('all(".cm-editor").length === 2', "the field for the condition")
    tools.enter("limit < 25")
    tools.page.until('all(".cm-breakpoint-conditional").length === 1', "a breakpoint with a condition")
    tools.press(RESUME)
    tools.stands("where the condition holds", 'if (total > limit) throw RangeError("over " + limit);')
    tools.matches("its scope", "shown()", r"/Local\s*this: \w+\s*limit: 20/")
    tools.press(ESCAPE)
    printed = "%s.find((each) => each.startsWith('total 26')) || ''" % CONSOLE
    tools.matches("the program's print in the console", printed, "/^total 26 tea$/")
    tools.press(ESCAPE)


def exceptions(tools):
    """The program stops at a throw, where both boxes are ticked, and goes on to its end."""
    boxes = [TITLE % '"Pause on uncaught exceptions"', TITLE % '"Pause on caught exceptions"']
    for box in boxes:
        tools.click(box, "a box for exceptions")
        time.sleep(0.3)
    tools.press(RESUME)
    tools.shows("the program stops", "Paused on exception")
    tools.matches("the value that was thrown", "shown()", r"/Local\s*Exception: RangeError: over 20/")
    tools.picture("devtools_exception.png")
    for box in reversed(boxes):
        tools.click(box, "a box for exceptions")
        time.sleep(0.3)
    tools.press(RESUME)


def main():
    parser = argparse.ArgumentParser()
    parser.add_argument("--pictures", help="the folder for the pictures")
    asked, findings = words(parser), Findings()
    with served(asked, "--devtools", name="shop.js", script=SHOP) as host, browser(FRONT_END % host.port) as page:
        tools = DevTools(page, findings, asked.pictures)
        for subject in [opens, breakpoint_by_click, watches, hovers, steps, console, condition, exceptions]:
            subject(tools)
        findings.ended(host, SHOP_PRINTS, PATIENCE)
        unknown = sorted({fault.split()[1] for fault in page.faults if "wasn't found" in fault})
        findings.see("the methods that are refused as unknown", unknown, REFUSED)
        faults = [fault for fault in page.faults if not fault.startswith("Request ")]
        findings.see("what the front end's own scripts throw", faults, [])
    findings.end()


if __name__ == "__main__":
    main()
