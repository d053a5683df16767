#!/usr/bin/env python3
"""Drives a real browser, Chromium without a window, by its debugging protocol: for the tests of the lesson page, the
worksheets and the rulebook, and for pictures of them.

    page.py samples/paper-example.txt > lesson.html
    browser.py lesson.html lesson-page.png --at 6          the page at step 6 as a picture
"""

import argparse
import base64
import fcntl
import json
import os
import select
import shutil
import subprocess
import sys
import tempfile
import time
from pathlib import Path

PROGRAMS = ("chromium", "chromium-browser", "google-chrome")
SECONDS = 60


def find_browser():
    """The path of a browser that is installed, or None."""
    return next(filter(None, map(shutil.which, PROGRAMS)), None)


class Failed(Exception):
    """The browser does not answer, or its answer is an error."""


class Browser:
    """A browser with one page. Everything that the page asks for, and every error in it, is kept."""

    def __init__(self, width=1280, height=900):
        self.profile = tempfile.TemporaryDirectory(ignore_cleanup_errors=True)
        to_read, self.to_browser = os.pipe()
        self.from_browser, to_write = os.pipe()
        # The protocol's ends in the browser have the numbers 3 and 4. What they are copied from stands above both.
        ends = [fcntl.fcntl(end, fcntl.F_DUPFD, 10) for end in (to_read, to_write)]
        words = [
            find_browser(),
            "--headless=new",
            "--remote-debugging-pipe",
            f"--user-data-dir={self.profile.name}",
            f"--window-size={width},{height}",
            "--no-first-run",
            "--disable-gpu",
            "--disable-dev-shm-usage",
            "--hide-scrollbars",
            # A browser of the superuser has no sandbox.
            *(["--no-sandbox"] if os.geteuid() == 0 else []),
            "about:blank",
        ]
        self.process = subprocess.Popen(
            words,
            stdin=subprocess.DEVNULL,
            stdout=subprocess.DEVNULL,
            stderr=subprocess.DEVNULL,
            preexec_fn=lambda: [os.dup2(end, number) for number, end in zip((3, 4), ends)],
            pass_fds=(3, 4),
        )
        for end in (to_read, to_write, *ends):
            os.close(end)
        self.unread = b""
        self.calls = 0
        self.session = None
        self.requests = []
        self.errors = []
        self.attach(width, height)

    def attach(self, width, height):
        targets = self.call("Target.getTargets")["targetInfos"]
        page = next(target for target in targets if target["type"] == "page")
        self.session = self.call("Target.attachToTarget", targetId=page["targetId"], flatten=True)["sessionId"]
        for domain in ("Page", "Runtime", "Network", "Log"):
            self.call(f"{domain}.enable")
        self.call("Emulation.setDeviceMetricsOverride", width=width, height=height, deviceScaleFactor=1, mobile=False)

    def __enter__(self):
        return self

    def __exit__(self, *_):
        self.close()

    def close(self):
        for end in (self.to_browser, self.from_browser):
            os.close(end)
        self.process.terminate()
        try:
            self.process.wait(10)
        except subprocess.TimeoutExpired:
            self.process.kill()
            self.process.wait()
        self.profile.cleanup()

    # --- The protocol: messages in JSON, each ended by a zero byte ---

    def call(self, method, **parameters):
        """The result of one call."""
        self.calls += 1
        message = {"id": self.calls, "method": method, "params": parameters}
        if self.session:
            message["sessionId"] = self.session
        os.write(self.to_browser, json.dumps(message).encode() + b"\0")
        while True:
            answer = self.next_message()
            if answer.get("id") == self.calls:
                if "error" in answer:
                    raise Failed(f"{method}: {answer['error']['message']}")
                return answer["result"]

    def next_message(self):
        while b"\0" not in self.unread:
            if not select.select([self.from_browser], [], [], SECONDS)[0]:
                raise Failed(f"no answer from the browser within {SECONDS} seconds")
            received = os.read(self.from_browser, 1 << 20)
            if not received:
                raise Failed("the browser has ended")
            self.unread += received
        message, _, self.unread = self.unread.partition(b"\0")
        message = json.loads(message)
        self.keep(message)
        return message

    def keep(self, message):
        parameters = message.get("params", {})
        if message.get("method") == "Network.requestWillBeSent":
            self.requests.append(parameters["request"]["url"])
        elif message.get("method") == "Runtime.exceptionThrown":
            self.errors.append(parameters["exceptionDetails"]["exception"].get("description", "an error"))
        elif message.get("method") == "Log.entryAdded":
            self.errors.append(parameters["entry"]["text"])

    # --- What a person does ---

    def open(self, path, step=None):
        """Opens a page in a file and waits until it is loaded."""
        self.call("Page.navigate", url=Path(path).resolve().as_uri() + (f"#{step}" if step is not None else ""))
        self.wait_for("location.protocol === 'file:' && document.readyState === 'complete'")

    def wait_for(self, expression):
        """Until an expression on the page holds."""
        end = time.monotonic() + SECONDS
        while not self.value(expression):
            if time.monotonic() > end:
                raise Failed(f"not within {SECONDS} seconds: {expression}")
            time.sleep(0.02)

    def value(self, expression):
        """The value of an expression on the page."""
        result = self.call("Runtime.evaluate", expression=expression, returnByValue=True)
        if "exceptionDetails" in result:
            raise Failed(result["exceptionDetails"]["exception"].get("description", expression))
        return result["result"].get("value")

    def press(self, key):
        """A key of the keyboard, down and up."""
        for kind in ("keyDown", "keyUp"):
            self.call("Input.dispatchKeyEvent", type=kind, key=key, code=key)

    def click(self, selector):
        """The mouse on the middle of an element, of words in several lines on that of the first."""
        x, y = self.value(
            f"(([{{x, y, width, height}}]) => [x + width / 2, y + height / 2])"
            f"(document.querySelector({json.dumps(selector)}).getClientRects())"
        )
        for kind in ("mousePressed", "mouseReleased"):
            self.call("Input.dispatchMouseEvent", type=kind, x=x, y=y, button="left", clickCount=1)

    def picture(self):
        """The page as it is seen, a PNG."""
        return base64.b64decode(self.call("Page.captureScreenshot", format="png")["data"])

    def paper(self):
        """The page as it is printed, a PDF."""
        return base64.b64decode(self.call("Page.printToPDF", printBackground=True, preferCSSPageSize=True)["data"])


def main():
    parser = argparse.ArgumentParser(description=__doc__, formatter_class=argparse.RawDescriptionHelpFormatter)
    parser.add_argument("page", metavar="PAGE.html")
    parser.add_argument("picture", metavar="PICTURE.png", help="a name that ends in .pdf is the page as it is printed")
    parser.add_argument("--at", default="", metavar="ADDRESS", help="a step of a lesson, a sentence of the rulebook")
    parser.add_argument("--size", default="1280x900", metavar="WxH")
    arguments = parser.parse_args()
    if not find_browser():
        sys.exit(f"browser: none of {', '.join(PROGRAMS)} is installed")
    with Browser(*map(int, arguments.size.split("x"))) as browser:
        browser.open(arguments.page, arguments.at)
        wanted = browser.paper if arguments.picture.endswith(".pdf") else browser.picture
        Path(arguments.picture).write_bytes(wanted())


if __name__ == "__main__":
    main()
