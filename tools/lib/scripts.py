"""The lines of scripts of `snow drive`, as docs/formats.md has them, and what is wrong with one in a sentence."""

import dataclasses
import difflib
import re

from lib.options import MOST_WORD, option_named

LONGEST = 1048576
MOST_STEPS, MOST_NUMBER = option_named("--limit").most, MOST_WORD

# The fields of each word: a name, a number up to its most, or an address.
FIELDS: dict[str, tuple[str | int, ...]] = {
    "step": ("name", MOST_STEPS),
    "ask": ("name",),
    "push": ("name", MOST_NUMBER),
    "give": ("name", MOST_NUMBER),
    "peek": ("name", "address"),
    "regs": ("name",),
}
FORMS = {"step": "step N K", "ask": "ask N", "push": "push N P", "give": "give N I", "peek": "peek N ADDR", "regs": "regs N"}

UNKNOWN_WORD, WRONG_FIELDS, BAD_NAME, BAD_NUMBER, BAD_ADDRESS, TOO_LONG = range(1, 7)


@dataclasses.dataclass
class Fault:
    """What is wrong with a script: the number of the line, 0 for all of it, the kind that `snow` tells, and a sentence."""

    line: int
    kind: int
    text: str


def is_number(text: str, least: int, most: int) -> bool:
    """Returns whether a text is a number without leading zeros within limits."""
    return bool(re.fullmatch(r"0|[1-9][0-9]*", text)) and len(text) <= 10 and least <= int(text) <= most


def is_name(text: str) -> bool:
    """Returns whether a text is the name of a machine."""
    root, *forks = text.split(".")
    return root == "0" and len(forks) % 2 == 0 and all(is_number(fork, 1, MOST_NUMBER) for fork in forks)


def near(word: str, words: list[str] | tuple[str, ...]) -> str:
    """Returns the word that another is most like, or nothing."""
    found = difflib.get_close_matches(word, words, 1, 0.6)
    return found[0] if found else ""


def word_fault(word: str) -> str:
    """Returns what is wrong with the first word of a line that is none."""
    if not word:
        return "begins with a space: a line is a word and its fields, with one space between them"
    if word == "run":
        return "says run, which a script has not: tools/script turns it into steps that fetch their pages"
    if word.rstrip("\r") in FIELDS:
        return "ends with a carriage return: lines end with a newline alone"
    like = near(word.lower(), list(FIELDS))
    hint = f", and the nearest is {like}" if like else ""
    return f"begins with {word!r}, which is no word of a script: these are step, ask, push, give, peek and regs{hint}"


def field_fault(field: str, wanted: str | int) -> tuple[int, str] | None:
    """Returns the kind of what is wrong with a field, and what it is, or None."""
    if field.endswith("\r") and field_fault(field[:-1], wanted) is None:
        kind = {"name": BAD_NAME, "address": BAD_ADDRESS}.get(str(wanted), BAD_NUMBER)
        return kind, "ends with a carriage return: lines end with a newline alone"
    if wanted == "name":
        if not is_name(field):
            return BAD_NAME, f"has {field!r} for the name of a machine: a name is 0, and .t.k for each fork, such as 0.1.2, without leading zeros"
    elif wanted == "address":
        if not re.fullmatch(r"[0-9A-Fa-f]{8}", field):
            return BAD_ADDRESS, f"has {field!r} for an address: that is eight hexadecimal digits without 0x, such as 80001000"
    elif not is_number(field, 0, int(wanted)):
        return BAD_NUMBER, f"has {field!r} for a number: that is from 0 to {wanted}, in decimal digits without leading zeros"
    return None


def line_fault(text: str) -> tuple[int, str] | None:
    """Returns the kind of what is wrong with a line, and what it is, or None where it is in form."""
    word, space, rest = text.partition(" ")
    if word not in FIELDS:
        return UNKNOWN_WORD, word_fault(word)
    fields = rest.split(" ") if space else []
    wanted = FIELDS[word]
    if len(fields) != len(wanted):
        twice = ", since two spaces stand together or one at its end" if "" in fields else ""
        return WRONG_FIELDS, f"has {len(fields)} fields behind {word}{twice}, and it takes {len(wanted)}: {FORMS[word]}"
    faults = (field_fault(field, kind) for field, kind in zip(fields, wanted))
    return next((fault for fault in faults if fault), None)


def fault_of(script: bytes) -> Fault | None:
    """Returns what `snow` refuses a script for, or None."""
    if len(script) > LONGEST:
        return Fault(0, TOO_LONG, f"it has {len(script)} bytes, and a script has {LONGEST} at most: split it, or step more at once")
    for number, line in enumerate(script.split(b"\n"), 1):
        found = line_fault(line.decode("utf-8", "backslashreplace")) if line else None
        if found:
            return Fault(number, found[0], f"line {number} {found[1]}")
    return None
