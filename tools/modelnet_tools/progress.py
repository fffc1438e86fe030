"""How far a tool is, on standard error: a line for each step, and one a second while a long one lasts."""
import sys
import time


class Progress:
    """Says what a tool is at. `total` of `count` may be a guess; 0 stands for none."""

    def __init__(self, name: str, quiet: bool = False) -> None:
        self.name, self.quiet = name, quiet
        self.begun = self.last = time.monotonic()

    def step(self, text: str) -> None:
        self.last = time.monotonic()
        if not self.quiet:
            print(f"{self.name}: {self.last - self.begun:5.1f} s  {text}", file=sys.stderr, flush=True)

    def count(self, what: str, done: int, total: int = 0) -> None:
        """Called as often as one likes; prints at most once a second."""
        if time.monotonic() - self.last >= 1:
            self.step(f"{what}: {done:,}" + (f" of about {max(total, done):,}" if total else ""))
