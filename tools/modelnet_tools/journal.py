"""The journal: one row a visit, in canonical order, read by pandas in large pieces and line by line where something is wrong."""
import os
import re
from dataclasses import dataclass

import numpy
import pandas

from .faults import BadInput
from .progress import Progress

HEAD = b"modelnet journal 1\n"
PASS, LOST, FULL = 0, 1, 2
OUTCOMES = ("pass", "lost", "full")
WORDS = {"w_tick": "tick", "w_packet": "packet", "w_hop": "hop", "w_pipe": "pipe"}
COLUMNS = ["w_tick", "tick", "w_packet", "packet", "w_hop", "hop", "w_pipe", "pipe", "outcome", "w_exit", "exit"]
TYPES = {name: "category" if name.startswith("w_") or name == "outcome" else "int64" for name in COLUMNS} | {"exit": "float64"}
PIECE = 400_000
LINE = re.compile(
    rb"tick (0|[1-9]\d{0,15}) packet (0|[1-9]\d{0,8}) hop (0|[1-9]\d{0,2}) pipe (0|[1-9]\d{0,6}) "
    rb"(?:pass exit (0|[1-9]\d{0,15})|lost|full)\n"
)
LINE_BYTES = 45  # of a usual line, for a guess at how many there are


@dataclass(frozen=True)
class Journal:
    """`visits` has tick, packet, hop, pipe, outcome (PASS, LOST or FULL) and exit (-1 where the visit isn't passed); row n is
    line n + 2.
    """

    file: str
    visits: pandas.DataFrame

    def fault(self, row: int | numpy.integer, text: str) -> BadInput:
        return BadInput(self.file, int(row) + 2, text)


def outcome_counts(visits: pandas.DataFrame) -> pandas.DataFrame:
    """passed, lost and full of each pipe that has a visit."""
    pipes, places = numpy.unique(visits["pipe"].to_numpy(), return_inverse=True)
    table = numpy.bincount(places * 3 + visits["outcome"].to_numpy(), minlength=3 * len(pipes)).reshape(-1, 3)
    return pandas.DataFrame(table, index=pandas.Index(pipes, name="pipe"), columns=["passed", "lost", "full"])


class NotPlain(Exception):
    """A piece of a journal isn't of its form, or pandas can't tell."""


def digits(values: numpy.ndarray) -> int:
    """How many digits all these numbers have together."""
    total = len(values)
    bound = 10
    while (longer := int((values >= bound).sum())) > 0:
        total += longer
        bound *= 10
    return total


def only(column: pandas.Series, word: str) -> bool:
    return list(column.cat.categories) == [word] and not column.isna().any()


def plain_piece(piece: pandas.DataFrame) -> tuple[pandas.DataFrame, int]:
    """The visits of a piece, and how many bytes their lines have if they are printed as the program does."""
    for column, word in WORDS.items():
        if not only(piece[column], word):
            raise NotPlain
    outcome = pandas.Categorical(piece["outcome"], categories=OUTCOMES).codes
    passed = outcome == PASS
    exits = piece["exit"].to_numpy()
    if (outcome < 0).any() or (piece["w_exit"].notna() != passed).any() or (numpy.isnan(exits) == passed).any():
        raise NotPlain
    if passed.any() and not only(piece["w_exit"][passed].cat.remove_unused_categories(), "exit"):
        raise NotPlain
    visits = piece[["tick", "packet", "hop", "pipe"]].assign(outcome=outcome, exit=numpy.where(passed, exits, -1).astype("int64"))
    if (visits[["tick", "packet", "hop", "pipe"]] < 0).any(axis=None) or (visits["exit"][passed] < 0).any():
        raise NotPlain
    size = sum(digits(visits[name].to_numpy()) for name in ("tick", "packet", "hop", "pipe")) + digits(
        visits["exit"].to_numpy()[passed]
    )
    size += (
        len(piece) * len("tick  packet  hop  pipe  \n")
        + len("pass exit ") * int(passed.sum())
        + len("lost") * int((~passed).sum())
    )
    return visits.astype({"packet": "int32", "hop": "int16", "pipe": "int32", "outcome": "int8"}), size


def first_bad_line(file: str) -> BadInput:
    """Found line by line, once it is known that something is wrong."""
    with open(file, "rb") as text:
        text.readline()
        for number, line in enumerate(text, 2):
            if LINE.fullmatch(line) is None:
                return BadInput(file, number, "not `tick N packet N hop N pipe N` and `pass exit N`, `lost` or `full`")
    return BadInput(file, 1, "no journal that can be read")


def read_pieces(file: str, progress: Progress) -> tuple[list[pandas.DataFrame], int]:
    pieces, size, guess = [], len(HEAD), os.path.getsize(file) // LINE_BYTES
    with pandas.read_csv(
        file,
        sep=" ",
        header=None,
        names=COLUMNS,
        dtype=TYPES,
        skiprows=1,
        quoting=3,
        skip_blank_lines=False,
        chunksize=PIECE,
        engine="c",
    ) as reader:
        for piece in reader:
            visits, bytes_read = plain_piece(piece)
            pieces.append(visits)
            size += bytes_read
            progress.count("visits of the journal", sum(map(len, pieces)), guess)
    return pieces, size


def check_order(journal: Journal) -> None:
    """Canonical order is by tick, then by packet."""
    tick, packet = journal.visits["tick"].to_numpy(), journal.visits["packet"].to_numpy()
    wrong = (tick[1:] < tick[:-1]) | ((tick[1:] == tick[:-1]) & (packet[1:] <= packet[:-1]))
    if wrong.any():
        raise journal.fault(numpy.argmax(wrong) + 1, "doesn't come after the line before, by tick and then by packet")


def read_journal(file: str, progress: Progress) -> Journal:
    progress.step(f"reading {file}")
    with open(file, "rb") as text:
        if text.readline() != HEAD:
            raise BadInput(file, 1, "not `modelnet journal 1`, the first line of what `journal` writes")
    if os.path.getsize(file) == len(HEAD):
        return Journal(
            file,
            pandas.DataFrame({name: numpy.zeros(0, "int64") for name in ("tick", "packet", "hop", "pipe", "outcome", "exit")}),
        )
    try:
        pieces, size = read_pieces(file, progress)
    except (NotPlain, ValueError, OverflowError, pandas.errors.ParserError):
        raise first_bad_line(file) from None
    if size != os.path.getsize(file):
        raise first_bad_line(file)
    journal = Journal(file, pandas.concat(pieces, ignore_index=True))
    check_order(journal)
    return journal
