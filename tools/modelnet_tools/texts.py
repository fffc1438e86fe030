"""The program's short texts, read line by line: the report, the pipes that `distill` prints, and directories with their
changes.
"""
import re
from dataclasses import dataclass
from typing import Iterator

import pandas

from .faults import BadInput

NUMBER = r"(\d{1,20})"
REPORT_HEAD = "modelnet report 1"
PIPES_HEAD = "modelnet pipes 1"
CAUSES = ("loss", "full")
SUM_LINE = re.compile(rf"packets {NUMBER} bound {NUMBER} unbound {NUMBER} left {NUMBER} dropped {NUMBER}")
PASSED_LINE = re.compile(rf"pipe {NUMBER} passed {NUMBER} lost {NUMBER} full {NUMBER}")
DROP_LINE = re.compile(rf"drop {NUMBER} pipe {NUMBER} tick {NUMBER} cause (loss|full)")
UNBOUND_LINE = re.compile(rf"unbound {NUMBER} cause (short|not-ipv4|no-source|no-destination|no-route|too-far)")
MODE_LINE = re.compile(rf"mode (\S+) tick-ns {NUMBER} pipes {NUMBER}")
PIPE_LINE = re.compile(
    rf"pipe {NUMBER} from {NUMBER} to {NUMBER} bps {NUMBER} us {NUMBER} ticks {NUMBER} queue {NUMBER} keep {NUMBER} links {NUMBER}"
)
DIRECTORY_HEAD = re.compile(
    rf"modelnet-directory (?:1 cores {NUMBER} pipes {NUMBER}|2 cores {NUMBER} pipes {NUMBER} changes {NUMBER})"
)
OWNER_LINE = re.compile(rf"pipe {NUMBER} core {NUMBER}")
CHANGE_LINE = re.compile(rf"change tick {NUMBER} pipe {NUMBER} bps {NUMBER} us {NUMBER} queue {NUMBER} ppm {NUMBER}")

PIPE_COLUMNS = ("pipe", "from", "to", "bps", "us", "ticks", "queue", "keep", "links")
CHANGE_COLUMNS = ("tick", "pipe", "bps", "us", "queue", "ppm")


def lines_of(file: str) -> list[str]:
    """The lines of a text; the last may lack its line end."""
    with open(file, "rb") as text:
        lines = text.read().split(b"\n")
    if lines[-1] == b"":
        lines.pop()
    for number, line in enumerate(lines, 1):
        if not line.isascii():
            raise BadInput(file, number, "a byte that isn't ASCII")
    return [line.decode("ascii") for line in lines]


def numbers(match: re.Match) -> tuple[int, ...]:
    return tuple(int(word) for word in match.groups() if word is not None)


@dataclass(frozen=True)
class Report:
    """A report: the sums of its second line, counts by pipe, and its drops and unbound packets, each with its line."""

    file: str
    packets: int
    bound: int
    unbound: int
    left: int
    dropped: int
    pipes: pandas.DataFrame
    drops: pandas.DataFrame
    unbounds: pandas.DataFrame


def expect(file: str, lines: list[str], number: int, form: re.Pattern, wanted: str) -> tuple[int, ...]:
    """The numbers of line `number`, which has to be of this form."""
    match = form.fullmatch(lines[number - 1]) if number <= len(lines) else None
    if match is None:
        raise BadInput(file, number, f"not `{wanted}`")
    return numbers(match)


def expect_head(file: str, lines: list[str], head: str, command: str) -> None:
    if not lines or lines[0] != head:
        raise BadInput(file, 1, f"not `{head}`, the first line of what `{command}` writes")


def report_rows(file: str, lines: list[str]) -> Iterator[tuple]:
    """(kind, line, values) of each line from the third on; kinds don't go back."""
    forms = (("pipe", PASSED_LINE), ("drop", DROP_LINE), ("unbound", UNBOUND_LINE))
    now = 0
    for number, line in enumerate(lines[2:], 3):
        match = None
        while now < len(forms) and (match := forms[now][1].fullmatch(line)) is None:
            now += 1
        if match is None:
            raise BadInput(file, number, "no line of a report, or out of its order")
        yield forms[now][0], number, match.groups()


def read_report(file: str) -> Report:
    lines = lines_of(file)
    expect_head(file, lines, REPORT_HEAD, "rehearse")
    packets, bound, unbound, left, dropped = expect(file, lines, 2, SUM_LINE, "packets N bound N unbound N left N dropped N")
    rows: dict[str, list[tuple]] = {"pipe": [], "drop": [], "unbound": []}
    for kind, number, words in report_rows(file, lines):
        rows[kind].append((number, *(int(word) if word.isdigit() else word for word in words)))
    if (len(rows["drop"]), len(rows["unbound"])) != (dropped, unbound) or bound + unbound != packets or left + dropped != bound:
        raise BadInput(
            file, 2, f"the sums don't fit: {len(rows['drop'])} drop lines and {len(rows['unbound'])} unbound lines follow"
        )
    return Report(
        file,
        packets,
        bound,
        unbound,
        left,
        dropped,
        pandas.DataFrame(rows["pipe"], columns=["line", "pipe", "passed", "lost", "full"]),
        pandas.DataFrame(rows["drop"], columns=["line", "packet", "pipe", "tick", "cause"]),
        pandas.DataFrame(rows["unbound"], columns=["line", "packet", "cause"]),
    )


@dataclass(frozen=True)
class Pipes:
    """What `distill` prints: mode, tick length and one row a pipe, whose place is its number."""

    file: str
    mode: str
    tick_ns: int
    table: pandas.DataFrame

    def name(self, pipe: int) -> str:
        row = self.table.iloc[pipe]
        return f"pipe {pipe} ({row['from']} to {row['to']})"


def check_pipe(file: str, number: int, row: tuple[int, ...], expected: int) -> None:
    _pipe, _from, _to, bps, _us, ticks, queue, keep, links = row
    if row[0] != expected:
        raise BadInput(file, number, f"pipe {row[0]} where pipe {expected} comes next")
    if bps < 1 or ticks < 1 or queue < 1 or keep > 2**32 or links < 1:
        raise BadInput(file, number, "a number is out of its range")


def read_pipes(file: str) -> Pipes:
    lines = lines_of(file)
    expect_head(file, lines, PIPES_HEAD, "distill")
    match = MODE_LINE.fullmatch(lines[1]) if len(lines) > 1 else None
    if match is None or int(match[2]) < 1:
        raise BadInput(file, 2, "not `mode M tick-ns N pipes N`")
    rows: list[tuple[int, ...]] = []
    for number in range(3, len(lines) + 1):
        row = expect(file, lines, number, PIPE_LINE, "pipe N from N to N bps N us N ticks N queue N keep N links N")
        check_pipe(file, number, row, len(rows))
        rows.append(row)
    if len(rows) != int(match[3]):
        raise BadInput(file, len(lines), f"ends after {len(rows)} of {match[3]} pipes")
    return Pipes(file, match[1], int(match[2]), pandas.DataFrame(rows, columns=list(PIPE_COLUMNS), dtype="int64"))


@dataclass(frozen=True)
class Directory:
    """A directory: the core of each pipe, and changes in the order of ticks."""

    file: str
    cores: int
    owners: list[int]
    changes: pandas.DataFrame


def read_owners(file: str, lines: list[str], cores: int, pipes: int) -> list[int]:
    owners: dict[int, int] = {}
    for number in range(2, pipes + 2):
        pipe, core = expect(file, lines, number, OWNER_LINE, "pipe N core N")
        if pipe >= pipes or core >= cores or pipe in owners:
            raise BadInput(file, number, "there is no such pipe or core, or the pipe has an owner already")
        owners[pipe] = core
    return [owners[pipe] for pipe in range(pipes)]


def read_directory(file: str, pipes: int) -> Directory:
    """A directory of either version, for so many pipes."""
    lines = lines_of(file)
    match = DIRECTORY_HEAD.fullmatch(lines[0]) if lines else None
    if match is None:
        raise BadInput(file, 1, "not the first line of a directory")
    cores, said, *count = numbers(match)
    if said != pipes:
        raise BadInput(file, 1, f"a directory of {said} pipes, where the topology has {pipes}")
    owners = read_owners(file, lines, cores, pipes)
    rows: list[tuple[int, ...]] = []
    for number in range(pipes + 2, len(lines) + 1):
        row = expect(file, lines, number, CHANGE_LINE, "change tick N pipe N bps N us N queue N ppm N")
        if row[1] >= pipes or row[2] < 1 or row[4] < 1 or row[5] > 1_000_000 or (rows and row[:2] <= rows[-1][:2]):
            raise BadInput(file, number, "no such pipe, a number out of its range, or not after the change before")
        rows.append(row)
    if len(rows) != (count[0] if count else 0):
        raise BadInput(file, 1, f"{len(rows)} changes follow")
    return Directory(file, cores, owners, pandas.DataFrame(rows, columns=list(CHANGE_COLUMNS), dtype="int64"))
