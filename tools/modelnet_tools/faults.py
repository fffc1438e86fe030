"""Refusals: every tool names the file and the line that it can't use, and writes nothing."""
import sys
from typing import Callable, Optional


class BadInput(Exception):
    """An input that can't be used: its file, the line (from 1) where there is one, and what is wrong."""

    def __init__(self, file: object, line: Optional[int], text: str) -> None:
        super().__init__(text)
        self.file, self.line, self.text = str(file), line, text

    def __str__(self) -> str:
        place = self.file if self.line is None else f"{self.file}:{self.line}"
        return f"{place}: {self.text}"


def run_tool(name: str, main: Callable[[], None]) -> int:
    """The exit status of a tool: 0, or 2 with one line on standard error where an input is refused."""
    try:
        main()
    except BadInput as fault:
        print(f"{name}: {fault}", file=sys.stderr)
        return 2
    except OSError as fault:
        print(f"{name}: {fault.filename}: {fault.strerror}", file=sys.stderr)
        return 2
    return 0
