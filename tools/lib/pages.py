"""The page of a family for a browser: lib/page.html with the rows of the tree in it."""

import json
import os
import re

from lib import reports
from lib.command import Problem

MOST_ROWS, MOST_OUTPUT = 20000, 4000
PLACE = "/* rows */"
WAIT = re.compile(r"(0(?:\.\d+\.\d+)*) waits for (the children of ticket (\d+)|room for a word to (\S+)|a word of (\S+))")


def read_waits(name: str) -> dict[str, tuple[str, str]]:
    """Returns for what each machine waits, in words, and for whom: a machine, or a ticket with its children. They are as
    `tools/trace` tells them of a family that is stuck."""
    waits = {}
    with open(name, encoding="utf-8", errors="replace") as lines:
        for number, line in enumerate(lines, 1):
            found = WAIT.fullmatch(line.rstrip("\n"))
            if found:
                waits[found[1]] = found[2], f"{found[1]}.{found[3]}" if found[3] else found[4] or found[5]
            elif not line.startswith("the family is not stuck"):
                raise Problem(f"{name}: line {number} does not tell for what a machine waits, as tools/trace IMAGE .. --stuck does")
    return waits


def rows_of(root: reports.Machine, outputs: dict[str, bytes], waits: dict[str, tuple[str, str]]) -> list[list]:
    """Returns the rows of the tree from the top down: the depth, the ending, the value or the count of killed children, the
    fork of the name behind that of the row above it, the steps, the length of the output and its first bytes, the bytes that
    were handed over, and for what the machine waits and for whom."""
    rows: list[list] = []
    left: list[tuple[int, reports.Item]] = [(0, root)]
    while left:
        depth, item = left.pop()
        if len(rows) == MOST_ROWS:
            raise Problem(f"the report has more lines than a page takes, which are {MOST_ROWS}: leave --html out, and --lines folds them")
        parts = item.name.split(".")
        if isinstance(item, reports.Killed):
            rows.append([depth, "killed", item.count, parts[-1]])
            continue
        told, target = waits.get(item.name, ("", ""))
        output = outputs[item.name].decode("utf-8", "backslashreplace")
        rows.append([depth, item.ending, item.value, ".".join(parts[-2:]), item.steps, item.out, output, item.handed.hex(), told, target])
        left += [(depth + 1, below) for below in reversed(item.log)]
    return rows


def page_of(root: reports.Machine, outputs: dict[str, bytes], waits: dict[str, tuple[str, str]]) -> str:
    """Returns the page."""
    with open(os.path.join(os.path.dirname(os.path.realpath(__file__)), "page.html"), encoding="utf-8") as file:
        page = file.read()
    # no text of a guest ends the script that it stands in
    rows = json.dumps(rows_of(root, outputs, waits), ensure_ascii=True, separators=(",", ":")).replace("<", "\\u003c")
    return page.replace(PLACE, rows, 1)
