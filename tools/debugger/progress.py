"""How far a tool is, on standard error."""

import sys
import time

WIDTH = 60


class Progress:
    """On a terminal a line that is written over each half second, else a line each ten."""

    def __init__(self) -> None:
        self.begun = self.last = time.monotonic()
        self.terminal = sys.stderr.isatty()
        self.every = 0.5 if self.terminal else 10.0
        self.is_shown = False

    def seconds(self) -> float:
        return time.monotonic() - self.begun

    def tell(self, text: str) -> None:
        """Shows a text, if it is time to."""
        now = time.monotonic()
        if now - self.last >= self.every:
            self.last = now
            self.show(f"\r{text:{WIDTH}}" if self.terminal else f"{text}\n")

    def end(self) -> None:
        """Leaves nothing on a terminal."""
        if self.is_shown and self.terminal:
            self.show(f"\r{'':{WIDTH}}\r")

    def show(self, text: str) -> None:
        print(text, end="", file=sys.stderr, flush=True)
        self.is_shown = True
