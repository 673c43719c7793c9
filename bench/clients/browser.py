"""A Chromium without a window, and a page of it that is driven by its own debugging port; `devtools.py` uses it."""

import base64
import contextlib
import json
import os
import subprocess
import tempfile
import time

import served  # which finds the folder above
from clients import Client

PATIENCE = 30
SIZE = 1000, 720
CONTROL, ALT, SHIFT = 2, 1, 8

# What the page's scripts are asked: all its elements, within shadow roots too; their texts; where they are.
LOOK = """
function* elements(root) {
  for (const element of root.querySelectorAll("*")) {
    yield element;
    if (element.shadowRoot) yield* elements(element.shadowRoot);
  }
}
const all = (selector) => [...elements(document)].filter((element) => element.matches(selector));
const text_of = (element) => [...element.childNodes].filter((node) => node.nodeType === 3).map((node) => node.data).join("");
const texts = (node) => node.nodeType === 3 ? node.data : node.nodeType !== 1 || node.matches("style, script") ? ""
  : [...(node.shadowRoot ? node.shadowRoot.childNodes : []), ...node.childNodes].map(texts).join("");
const text_in = (node) => texts(node).replace(/\\s+/g, " ").trim();
const shown = () => text_in(document.body);
const middle = (element) => {
  if (!element) return null;
  const box = element.getBoundingClientRect();
  return box.width && [box.x + box.width / 2, box.y + box.height / 2];
};
const reached = (element) => {
  element?.scrollIntoView();
  return middle(element);
};
const labelled = (label) => middle(all("[aria-label], [title]").find((element) =>
  (element.getAttribute("aria-label") || element.getAttribute("title")).startsWith(label) && middle(element)));
"""


class Browser:
    """A Chromium without a window, and one page of it."""

    def __init__(self, folder, url):
        command = ["chromium", "--headless=new", "--no-sandbox", "--no-first-run", "--disable-gpu", "--window-size=%d,%d" % SIZE]
        command += ["--remote-debugging-port=0", "--user-data-dir=" + folder, "about:blank"]
        self.process = subprocess.Popen(command, stdout=subprocess.DEVNULL, stderr=subprocess.DEVNULL)
        port, path = self.listens(os.path.join(folder, "DevToolsActivePort"))
        self.client = Client(port, path=path)
        self.faults = []
        self.page = None
        target = self.call("Target.createTarget", url="about:blank")["targetId"]
        self.page = self.call("Target.attachToTarget", targetId=target, flatten=True)["sessionId"]
        self.call("Runtime.enable")
        self.call("Page.navigate", url=url)

    def listens(self, file):
        """The port and the path of its own debugger, which it writes into a file."""
        end = time.monotonic() + PATIENCE
        while time.monotonic() < end and self.process.poll() is None:
            with contextlib.suppress(FileNotFoundError, ValueError), open(file) as told:
                port, path = told.read().split("\n")[:2]
                return int(port), path
            time.sleep(0.1)
        self.process.kill()
        raise SystemExit("chromium doesn't say where it listens")

    def call(self, method, **params):
        """The result of a command to the page, or to the browser where there is none yet."""
        self.client.number += 1
        command = {"id": self.client.number, "method": method, "params": params}
        if self.page:
            command["sessionId"] = self.page
        self.client.send(json.dumps(command).encode())
        while (message := self.client.message()).get("id") != self.client.number:
            self.note(message)
        if "error" in message:
            raise SystemExit("chromium refuses %s: %s" % (method, message["error"]))
        return message["result"]

    def note(self, message):
        """Keeps what the page's own scripts throw, and what they say to be wrong."""
        params = message.get("params", {})
        if message.get("method") == "Runtime.exceptionThrown":
            details = params["exceptionDetails"]
            self.faults.append(details.get("exception", {}).get("description", details["text"]))
        if message.get("method") == "Runtime.consoleAPICalled" and params["type"] == "error":
            self.faults.append(" ".join(str(value.get("value")) for value in params["args"]))

    def look(self, expression):
        """What an expression over the page's elements is."""
        code = "(() => { %s return %s; })()" % (LOOK, expression)
        return self.call("Runtime.evaluate", expression=code, returnByValue=True)["result"].get("value")

    def until(self, expression, what, patience=PATIENCE):
        """Waits until an expression is true of the page, and gives it."""
        end = time.monotonic() + patience
        while not (seen := self.look(expression)):
            if time.monotonic() > end:
                raise SystemExit("the page doesn't show %s; its text is: %s" % (what, self.look("shown()")[-1500:]))
            time.sleep(0.1)
        return seen

    def move(self, place):
        """Moves the pointer to a place of the page, so that it comes from beside it."""
        x, y = place
        for left in 4, 0:
            self.call("Input.dispatchMouseEvent", type="mouseMoved", x=x - left, y=y)

    def click(self, place):
        """Clicks at a place of the page."""
        self.move(place)
        x, y = place
        for kind in ["mousePressed", "mouseReleased"]:
            self.call("Input.dispatchMouseEvent", type=kind, x=x, y=y, button="left", clickCount=1)

    def press(self, key, code, modifiers=0):
        """Presses a key, with Control, Alt or Shift."""
        words = {"key": key, "code": key, "windowsVirtualKeyCode": code, "modifiers": modifiers}
        down = {"type": "keyDown", "text": "\r"} if key == "Enter" else {"type": "rawKeyDown"}
        self.call("Input.dispatchKeyEvent", **down, **words)
        self.call("Input.dispatchKeyEvent", type="keyUp", **words)

    def type(self, text):
        """Types a text, key by key."""
        for character in text:
            self.call("Input.dispatchKeyEvent", type="keyDown", key=character, text=character)
            self.call("Input.dispatchKeyEvent", type="keyUp", key=character)

    def picture(self, file):
        """Writes a picture of the page."""
        with open(file, "wb") as picture:
            picture.write(base64.b64decode(self.call("Page.captureScreenshot", format="png")["data"]))

    def end(self):
        """Ends it."""
        self.process.terminate()
        self.process.wait(10)


@contextlib.contextmanager
def browser(url):
    """A Chromium that opens this page."""
    with tempfile.TemporaryDirectory(ignore_cleanup_errors=True) as folder:
        opened = Browser(folder, url)
        try:
            yield opened
        finally:
            opened.end()
