"""A headless Chromium for a check, driven over two pipes: what is done in a page, and what the document says then."""

from __future__ import annotations

import itertools
import json
import os
import select
import shutil
import subprocess
import tempfile
import time
from collections.abc import Callable, Sequence
from pathlib import Path
from typing import Any

from common.blocks import escaped

NAMES = ("chromium", "chromium-browser", "google-chrome", "google-chrome-stable")
CODES = {"ArrowRight": 39, "ArrowLeft": 37, "ArrowDown": 40, "ArrowUp": 38, "Home": 36, "End": 35, "PageDown": 34,
         "PageUp": 33, "Tab": 9, "Enter": 13}
SECONDS, PAUSE = 60, 0.02        # for an answer, and between two looks
LEAST_CONTRAST = 4.5
ANSWERED = "document.body.dataset.answered && !pending.asked && true"
HELPERS = """const at = id => document.getElementById(id), $ = selector => document.querySelector(selector).textContent,
    row = line => [...document.querySelectorAll(".row")].find(row => row.textContent.startsWith(line + ": ")),
    red = () => document.querySelectorAll("#why p, .row.bad, #status.refused").length,
    CHOSEN = () => ["step", "partition", "page"].map(name => document.body.dataset[name]);"""


def found() -> str | None:
    """The path of a Chromium, or None."""
    return next((path for path in (shutil.which(name) for name in NAMES) if path), None)


class Failed(Exception):
    """The browser doesn't answer as it should."""


class Browser:
    """One page in a browser of its own; `with` ends it."""

    def __enter__(self) -> Browser:
        self.profile = tempfile.mkdtemp()
        to_browser, self.to = os.pipe()
        self.answers, from_browser = os.pipe()
        words = [found() or NAMES[0], "--headless=new", "--no-sandbox", "--disable-gpu", "--disable-dev-shm-usage",
                 "--no-first-run", "--remote-debugging-pipe", "--user-data-dir=" + self.profile, "about:blank"]
        told = f'exec "$@" 3<&{to_browser} 4>&{from_browser}'
        self.process = subprocess.Popen(["bash", "-c", told, "bash", *words], pass_fds=(to_browser, from_browser),
                                        stdin=subprocess.DEVNULL, stdout=subprocess.DEVNULL, stderr=subprocess.DEVNULL)
        os.close(to_browser)
        os.close(from_browser)
        self.number, self.held = 0, b""
        self.session: str | None = None
        self.errors: list[str] = []
        target = self.send("Target.createTarget", url="about:blank")["targetId"]
        self.session = self.send("Target.attachToTarget", targetId=target, flatten=True)["sessionId"]
        for domain in ("Page", "Runtime"):
            self.send(domain + ".enable")
        return self

    def __exit__(self, *_: object) -> None:
        self.process.kill()
        self.process.wait()
        os.close(self.to)
        os.close(self.answers)
        shutil.rmtree(self.profile, ignore_errors=True)

    def send(self, method: str, **parameters: object) -> Any:
        """The answer of a command."""
        self.number += 1
        told = {"id": self.number, "method": method, "params": parameters}
        if self.session:
            told["sessionId"] = self.session
        os.write(self.to, json.dumps(told).encode() + b"\0")
        while True:
            answer = self.message()
            if answer.get("id") == self.number:
                if "error" in answer:
                    raise Failed(f"{method}: {answer['error']}")
                return answer["result"]

    def message(self) -> Any:
        while b"\0" not in self.held:
            if not select.select([self.answers], [], [], SECONDS)[0]:
                raise Failed(f"no answer in {SECONDS} seconds")
            part = os.read(self.answers, 1 << 20)
            if not part:
                raise Failed("the browser ended")
            self.held += part
        text, self.held = self.held.split(b"\0", 1)
        answer = json.loads(text)
        if answer.get("method") == "Runtime.exceptionThrown":
            thrown = answer["params"]["exceptionDetails"].get("exception", {})
            self.errors.append(thrown.get("description", "an exception"))
        self.last = answer.get("method")
        return answer

    def open(self, address: str) -> None:
        self.send("Page.navigate", url=address)
        while self.last != "Page.loadEventFired":
            self.message()

    def key(self, key: str) -> None:
        code = CODES.get(key, ord(key.upper()) if len(key) == 1 else 0)
        text = {"text": key} if len(key) == 1 else {"text": "\r"} if key == "Enter" else {}
        self.send("Input.dispatchKeyEvent", type="keyDown", key=key, code=key, windowsVirtualKeyCode=code, **text)
        self.send("Input.dispatchKeyEvent", type="keyUp", key=key, code=key, windowsVirtualKeyCode=code)

    def value(self, expression: str) -> Any:
        """The value of an expression of the page."""
        answer = self.send("Runtime.evaluate", expression=expression, returnByValue=True)
        if "exceptionDetails" in answer:
            raise Failed(f"{expression}: {answer['exceptionDetails']}")
        return answer["result"].get("value")

    def got(self, expression: str) -> Any:
        """The same of an expression with the helpers; None where it throws."""
        try:
            return self.value(f"(() => {{ {HELPERS} return ({expression}); }})()")
        except Failed:
            return None

    def due(self, expression: str, wanted: Any = True) -> None:
        """Refuses an expression that doesn't get the value that is wanted."""
        end = time.monotonic() + SECONDS
        while (got := self.got(expression)) != wanted:
            if time.monotonic() > end:
                raise Failed(f"{expression} is {got!r}, where {wanted!r} is due")
            time.sleep(PAUSE)

    def play(self, text: str, names: dict[str, str]) -> None:
        """Does and tests what the lines of data/playing.txt say."""
        for line in text.splitlines():
            for name, told in names.items():
                line = line.replace(name, told)
            word, _, rest = line.partition(" ")
            expression, is_test, wanted = line.partition(" is ")
            if word in ACTS:
                ACTS[word](self, rest)
                self.due("typeof pending === 'undefined' || !pending.asked")
            elif is_test:
                self.due(expression, json.loads(wanted))
            else:
                raise Failed(f"no act and no test: {line}")

    def put(self, told: str) -> None:
        """A text as if it were typed, with the cursor at the end of a line."""
        line, text = told.split(" ", 1)
        text = escaped(text).decode("latin-1")
        at = len("\n".join(text.split("\n")[:int(line)]))
        self.value(f"""(() => {{ const text = document.getElementById("text");
            text.focus(); text.value = {json.dumps(text)}; text.setSelectionRange({at}, {at});
            delete document.body.dataset.answered; text.dispatchEvent(new Event("input")); }})()""")
        self.due(ANSWERED)

    def choose(self, name: str) -> None:
        self.value(f"""(() => {{ const choice = document.getElementById("choice");
            choice.value = {json.dumps(name.strip("-"))}; choice.dispatchEvent(new Event("change")); }})()""")

    def put_hash(self, address: str) -> None:
        self.value(f"delete document.body.dataset.answered, location.hash = {json.dumps(address)}")
        self.due(ANSWERED)

    def begin(self, address: str) -> None:
        """Opens the playground."""
        self.open("about:blank")
        self.open(address)
        self.due(ANSWERED)

    def fits(self, widths: Sequence[int], acts: Sequence[str], not_printed: str = ".controls button") -> None:
        """At each width, light and dark, after each act nothing passes the right edge, and texts can be read. Paper has
        no buttons."""
        pale = Path(__file__).with_name("pale_texts.js").read_text(encoding="utf-8")
        for width, dark, act in itertools.product(widths, (False, True), acts):
            self.size(width, 900)
            self.media(dark=dark)
            self.play(act, {})
            self.due("document.documentElement.scrollWidth <= innerWidth")
            self.due(f"({pale})({LEAST_CONTRAST})", "")
        self.media("print")
        self.due(f"[...document.querySelectorAll({json.dumps(not_printed)})].some(x => x.checkVisibility())", False)

    def size(self, width: int, height: int) -> None:
        self.send("Emulation.setDeviceMetricsOverride", width=width, height=height, deviceScaleFactor=1, mobile=False)

    def media(self, kind: str = "", dark: bool = False) -> None:
        """The page as on a screen or on paper, and in light or dark."""
        scheme = {"name": "prefers-color-scheme", "value": "dark" if dark else "light"}
        self.send("Emulation.setEmulatedMedia", media=kind, features=[scheme])


ACTS: dict[str, Callable[[Browser, str], object]] = {
    "key": Browser.key, "put": Browser.put, "choose": Browser.choose, "hash": Browser.put_hash,
    "do": lambda shown, told: shown.value(f"(() => {{ {HELPERS} return ({told}); }})()"),
    "size": lambda shown, width: shown.size(int(width), 900),
    "open": lambda shown, anchor: shown.begin(shown.value("location.href.split('#')[0]") + anchor),
    "follow": lambda shown, _: shown.begin(shown.value("location.href"))}
