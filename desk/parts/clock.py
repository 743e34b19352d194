"""A clock for work that takes long: a line that counts on a terminal, a line now and then elsewhere."""
import sys
import time

OFTEN, SELDOM = 1, 10  # seconds between two ticks, on a terminal and elsewhere


class Clock:
    """Says on standard error what is done and for how many seconds already."""

    def __init__(self, what, script="desk/run"):
        self.what, self.begun, self.ticked = f"{script}: {what}", time.monotonic(), 0
        self.is_seen = sys.stderr is not None and sys.stderr.isatty()
        self.step = OFTEN if self.is_seen else SELDOM

    def tick(self, more=""):
        """Says how long it has taken so far, if it is time to say so again."""
        past = time.monotonic() - self.begun
        if past < self.ticked + self.step:
            return
        self.ticked = past
        text = f"{self.what}{more}: {past:.0f} s"
        if self.is_seen:
            print(f"\r{text} ", end="", file=sys.stderr, flush=True)
        else:
            print(text, file=sys.stderr, flush=True)

    def stop(self):
        """Ends the line that counts."""
        if self.ticked and self.is_seen:
            print(file=sys.stderr, flush=True)
