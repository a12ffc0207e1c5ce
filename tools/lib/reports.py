"""Reads reports of `snow run`, as docs/formats.md has them. What a machine put out may be any bytes, also some that look like
lines of a report, so a report is read by the lengths that stand in its lines, and nothing is looked for in it."""

import dataclasses
from collections.abc import Iterator
from typing import BinaryIO

from lib.command import Problem

# A line has a name of at most 4,096 forks, and at most 64 bytes that were handed over. This is more than any has.
LONGEST_LINE = 1 << 20
PIECE = 1 << 16
MOST_HANDED = 64
ENDINGS = ("exit", "limit", "stuck")

# What a status tells of a machine: its exit value where that is below the first of these.
LARGE, STUCK, LIMIT, FAILED = 120, 122, 124, 125


@dataclasses.dataclass
class Machine:
    """A machine of a report: its name, how it ended or that it is stuck, the value that it exited with, its steps, the length of
    its output, and the bytes that it handed over. A tree has its log, too: the machines that it joined and the tickets that it
    killed. Behind the log of one that is stuck come the children that it has."""

    name: str
    ending: str
    value: int | None
    steps: int
    out: int
    handed: bytes
    log: list["Machine | Killed"] = dataclasses.field(default_factory=list)
    # how many lines it and all below it have, in a tree
    lines: int = 1

    def told(self) -> str:
        """Returns how it ended, in words."""
        return f"exit {self.value}" if self.ending == "exit" else self.ending

    def line(self) -> str:
        """Returns its line of the report."""
        over = f" handed {self.handed.hex()}" if self.handed else ""
        return f"machine {self.name} {self.told()} steps {self.steps} out {self.out}{over}"

    def status(self) -> int:
        """Returns the status by which a tool tells how it ended."""
        if self.ending == "limit":
            return LIMIT
        if self.ending == "stuck":
            return STUCK
        return min(self.value or 0, LARGE)


@dataclasses.dataclass
class Killed:
    """A ticket that was killed, and how many children it had."""

    name: str
    count: int
    log: tuple[()] = ()
    lines: int = 1

    def line(self) -> str:
        return f"ticket {self.name} killed {self.count}"


Item = Machine | Killed


def number(word: bytes) -> int:
    """Returns a number of a report."""
    if not word.isdigit() or word != b"0" and word.startswith(b"0"):
        raise ValueError
    return int(word)


def parent_of(name: str) -> str:
    """Returns the name of a machine's parent."""
    parent, ticket, child = name.rsplit(".", 2)
    if not number(ticket.encode()) or not number(child.encode()):
        raise ValueError
    return parent


def handed(words: list[bytes]) -> bytes:
    """Returns the bytes that a machine handed over, by the words that tell of them, if any do."""
    if not words:
        return b""
    text = words[1].decode("ascii")
    if not 0 < len(text) <= 2 * MOST_HANDED or text != bytes.fromhex(text).hex():
        raise ValueError
    return bytes.fromhex(text)


def item_of(line: bytes) -> Item:
    """Returns what a line of a report tells of."""
    words = line.split(b" ")
    if words[0] == b"ticket" and words[2] == b"killed" and len(words) == 4:
        return Killed(words[1].decode("ascii"), number(words[3]))
    if words[0] != b"machine":
        raise ValueError
    ending = words[2].decode("ascii")
    at = 4 if ending == "exit" else 3
    value = number(words[3]) if ending == "exit" else None
    tells = [b"steps", b"out", b"handed"][: 3 if len(words) == 10 else 2]
    if ending not in ENDINGS or words[at::2] != tells or len(words) != at + 2 * len(tells):
        raise ValueError
    return Machine(words[1].decode("ascii"), ending, value, number(words[at + 1]), number(words[at + 3]), handed(words[at + 4 :]))


class Reader:
    """Reads a report from a stream of any size, of which it keeps a piece and the names above the machine that it is at."""

    def __init__(self, stream: BinaryIO):
        self.stream = stream
        self.at = 0
        # how many bytes of the output of the machine that was told last are yet to come
        self.left = 0
        # the machines above the line that comes, each with whether it is stuck
        self.path: list[tuple[str, bool]] = []

    def problem(self) -> Problem:
        return Problem(f"this is no report: what stands at byte {self.at} is no line of one, or what follows it is cut off")

    def items(self) -> Iterator[Item]:
        """Yields what each line of the report tells of. The output of a machine is there until the next is asked for."""
        found = False
        while line := self.stream.readline(LONGEST_LINE):
            found = True
            try:
                if not line.endswith(b"\n"):
                    raise ValueError
                item = item_of(line[:-1])
                self.place(item)
            except (ValueError, IndexError) as fault:
                raise self.problem() from fault
            if isinstance(item, Machine):
                self.left = item.out
                yield item
                for _ in self.output():
                    pass
                if self.stream.read(1) != b"\n":
                    raise self.problem()
                self.at += item.out + 1
            else:
                yield item
            self.at += len(line)
        if not found:
            raise Problem("this is no report: it is empty")

    def place(self, item: Item) -> None:
        """Goes to the place of a line among the machines above it, which it must have: it is of one of them."""
        if not self.path:
            if not isinstance(item, Machine) or item.name != "0":
                raise ValueError
        else:
            parent = parent_of(item.name) if isinstance(item, Machine) else item.name.rsplit(".", 1)[0]
            while self.path[-1][0] != parent:
                self.path.pop()
            # who is stuck is the child of one that is
            if isinstance(item, Machine) and item.ending == "stuck" and not self.path[-1][1]:
                raise ValueError
        if isinstance(item, Machine):
            self.path.append((item.name, item.ending == "stuck"))

    def output(self) -> Iterator[bytes]:
        """Yields what is left of the output of the machine that was told last, in pieces."""
        while self.left:
            piece = self.stream.read(min(self.left, PIECE))
            if not piece:
                raise self.problem()
            self.left -= len(piece)
            yield piece


def tree(stream: BinaryIO, most_kept: int = 0) -> tuple[Machine, dict[str, bytes]]:
    """Returns the first machine of a report, with all others in its log and theirs; and of the output of each so many bytes."""
    reader, kept = Reader(stream), {}
    above: dict[str, Machine] = {}
    order: list[tuple[Item, Machine | None]] = []
    for item in reader.items():
        parent = above[reader.path[-2 if isinstance(item, Machine) else -1][0]] if order else None
        if parent:
            parent.log.append(item)
        if isinstance(item, Machine):
            above[item.name] = item
            if most_kept:
                kept[item.name] = first_of(reader.output(), most_kept)
        order.append((item, parent))
    for item, parent in reversed(order):
        if parent:
            parent.lines += item.lines
    root = order[0][0]
    assert isinstance(root, Machine)
    return root, kept


def first_of(pieces: Iterator[bytes], most: int) -> bytes:
    """Returns so many bytes of the first that pieces have."""
    kept = b""
    for piece in pieces:
        kept += piece[: most - len(kept)]
    return kept


def below(items: list[Item]) -> Iterator[Item]:
    """Yields these items and all that stand in their logs."""
    left = list(items)
    while left:
        item = left.pop()
        yield item
        left.extend(item.log)
