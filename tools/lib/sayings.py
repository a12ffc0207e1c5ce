"""What the lines mean that `snow` says, by their usual causes."""

import re

from lib import reports
from lib.scripts import MOST_STEPS

TRAPPED = 900000
CAUSES = {
    0: "instruction address misaligned",
    1: "instruction access fault",
    2: "illegal instruction",
    3: "breakpoint",
    4: "load address misaligned",
    5: "load access fault",
    6: "store/AMO address misaligned",
    7: "store/AMO access fault",
    8: "environment call from user mode",
    11: "environment call from machine mode",
}
# The C library of guests ends a machine by a signal that nobody handles with this and the signal's number.
SIGNALLED = 910000
SIGNALS = {
    1: "SIGHUP", 2: "SIGINT", 3: "SIGQUIT", 4: "SIGILL", 5: "SIGTRAP", 6: "SIGABRT, as by abort or an assert that fails", 8: "SIGFPE",
    9: "SIGKILL", 10: "SIGBUS", 11: "SIGSEGV", 13: "SIGPIPE", 14: "SIGALRM", 15: "SIGTERM",
}  # fmt: skip
# What the handler of guest/crt0.S makes of the timer's interrupt, whose cause is 0x80000007.
TIMER = 39

RULES = {
    1: "the file is empty or cut off",
    2: "the file is no ELF executable, but a text, a source or the bare bytes of a program",
    3: "it was compiled for 64 bits, or for another byte order",
    4: "it was not linked yet, or as a position-independent executable",
    5: "it was compiled for another processor, such as x86-64",
    6: "its program headers are of a size of their own, as after damage",
    7: "the file is cut off",
    8: "a segment has more bytes in the file than in RAM, as after damage",
    9: "the file is cut off",
    10: "a segment does not lie in RAM: it takes more pages (--ram), or was linked to another address than 0x80000000",
    11: "two segments lie over each other: the linker's script places both at one address",
    12: "the entry is not in RAM, or no multiple of 4: the linker was given no first function (-e)",
    13: "the image has more than 16 MiB: it has not been stripped",
}
LOADS = {1: "the image", 2: "the disk", 3: "the input", 4: "the script"}
DISKS = {
    1: "the disk has more than 4,194,304 bytes",
    2: "the disk is no whole number of sectors of 512 bytes: truncate -s %512 fills it up",
    3: "the input has more than 65,536 bytes: put it on the disk",
}
KINDS = {
    1: "its word is none of step, ask, push, give, peek and regs",
    2: "it has too few fields or too many, or two spaces stand together",
    3: "a name is not 0 with .t.k for each fork, or has a leading zero",
    4: "a number has a leading zero, or is too large",
    5: "an address has not eight hexadecimal digits, or begins with 0x",
    6: "the script has more than 1,048,576 bytes",
}


def picked(table: dict[int, str], text: str) -> str | None:
    return table.get(int(text)) if len(text) < 4 else None


def refusal(said: str) -> str | None:
    """Returns what a line means that `snow` says on standard error."""
    if said.startswith("snow: usage"):
        return "the words have no meaning: tools/why with the words of the call says which word, and the usual cure"
    if found := re.fullmatch(r"snow: read fault, load (\d+)", said):
        what = picked(LOADS, found[1])
        return what and f"{what} could not be read: its name is wrong, it is a folder, or it may not be read"
    if found := re.fullmatch(r"snow: image refused, rule (\d+)", said):
        what = picked(RULES, found[1])
        return what and f"the image is refused: {what}"
    if found := re.fullmatch(r"snow: disk or input refused, rule (\d+)", said):
        return picked(DISKS, found[1])
    if found := re.fullmatch(r"snow: script refused, line (\d+), kind (\d+)", said):
        what = picked(KINDS, found[2])
        return what and f"line {found[1]} of the script is refused: {what}; tools/script says which word" if found[1] != "0" else what
    plain = {
        "snow: write fault": "the output took no more, as on a full disk or in a pipe whose reader has ended; a part of the report is out",
        "snow: want of memory": "the system has no memory left: give fewer --clones, less --ram or fewer --workers, or allow more memory",
        "snow: the wire lost too much": "a wire gave no page for too long, which those of the program never do",
    }
    return plain.get(said)


def ending(said: str) -> str | None:
    """Returns what a line of a report means."""
    try:
        item = reports.item_of(said.encode())
    except (ValueError, IndexError):
        return None
    if isinstance(item, reports.Killed):
        parent, ticket = item.name.rsplit(".", 1)
        return f"machine {parent} killed the {item.count} children of its ticket {ticket}, or ended before it joined them"
    if item.ending == "limit":
        return (
            f"machine {item.name} came to its limit of {item.steps} steps: it takes more (--limit N, to {MOST_STEPS}), runs for ever, or traps"
            " for ever without a handler; tools/trace IMAGE --to-trap tells"
        )
    if item.ending == "stuck":
        return f"machine {item.name} waits for a machine that waits, too, so no step is left to make: tools/trace IMAGE --stuck tells who waits for whom"
    cause = (item.value or 0) - TRAPPED
    if cause in CAUSES or cause == TIMER:
        what = CAUSES.get(cause, "the timer's interrupt")
        more = "its output has the pc, and tools/trace IMAGE --to-trap the steps before it"
        return f"machine {item.name} trapped, if it is a guest of guest/cc: cause {cause}, {what}; {more}"
    if (signal := (item.value or 0) - SIGNALLED) in SIGNALS:
        return f"machine {item.name} was ended by a signal, if it is a guest of guest/cc --picolibc: {SIGNALS[signal]}; its output says where"
    return f"machine {item.name} ended itself with the value {item.value}"


def meaning_of(said: str) -> str | None:
    """Returns what a line means that `snow` says on standard error or in a report, or None."""
    return refusal(said) if said.startswith("snow: ") else ending(said)
