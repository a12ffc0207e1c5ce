"""How a tool reads its words, and how it ends: by a status, and by a sentence where something is wrong."""

import argparse
import contextlib
import os
import signal
import sys
from collections.abc import Callable, Iterator
from typing import BinaryIO, NoReturn

ROOT = os.path.dirname(os.path.dirname(os.path.dirname(os.path.realpath(__file__))))

# The statuses that all tools have in common. A tool that a signal ended has 128 and the signal's number. A reader that has had
# enough and closes its pipe is no fault.
WRONG, USAGE, CLOSED_PIPE = 1, 2, 0


class Problem(Exception):
    """What ends a tool: a sentence, and the status that it ends with."""

    def __init__(self, text: str, status: int = WRONG):
        super().__init__(text)
        self.status = status


class Parser(argparse.ArgumentParser):
    """A parser of words that tells its tool's documentation as help, and a problem of the words as a sentence."""

    def __init__(self, tool: str, help_text: str):
        super().__init__(prog=tool, allow_abbrev=False)
        self.help_text = help_text

    def format_help(self) -> str:
        return self.help_text.lstrip("\n")

    def error(self, message: str) -> NoReturn:
        raise Problem(f"{message}; tools/{self.prog} --help tells more", USAGE)


def number_from(least: int, most: int) -> Callable[[str], int]:
    """Returns a reader of numbers within limits."""

    def read(word: str) -> int:
        if not word.isascii() or not word.isdigit() or not least <= int(word) <= most:
            raise argparse.ArgumentTypeError(f"{word} is no number from {least} to {most}")
        return int(word)

    return read


@contextlib.contextmanager
def opened(name: str) -> Iterator[BinaryIO]:
    """Opens a file for reading; - is standard input."""
    if name == "-":
        yield sys.stdin.buffer
        return
    with open(name, "rb") as file:
        yield file


def say(tool: str, text: str) -> None:
    """Says something on standard error, if that can still be written."""
    with contextlib.suppress(OSError, ValueError):
        print(f"{tool}: {text}", file=sys.stderr, flush=True)


def text_of(fault: OSError) -> str:
    """Returns what is wrong with a file as a sentence that names it."""
    reason = fault.strerror or str(fault)
    return f"{fault.filename}: {reason}" if fault.filename else f"input or output: {reason}"


def ended_by(number: int, _frame: object) -> NoReturn:
    sys.exit(128 + number)


def main(tool: str, run: Callable[[list[str]], int | None], failed: int | None = None) -> NoReturn:
    """Runs a tool on the words of the command line, and ends with its status, which `run` returns. Where `failed` is given it is
    the status of each problem, for a tool whose other statuses mean something else."""
    if signal.getsignal(signal.SIGINT) is signal.SIG_DFL:
        signal.signal(signal.SIGINT, signal.default_int_handler)
    signal.signal(signal.SIGTERM, ended_by)
    signal.signal(signal.SIGHUP, ended_by)
    sys.stdout.reconfigure(encoding="utf-8", errors="surrogateescape")
    sys.stderr.reconfigure(encoding="utf-8", errors="surrogateescape")
    try:
        status = run(sys.argv[1:]) or 0
        sys.stdout.flush()
    except Problem as problem:
        say(tool, str(problem))
        status = problem.status if failed is None else failed
    except BrokenPipeError:
        status = CLOSED_PIPE
    except OSError as fault:
        say(tool, text_of(fault))
        status = WRONG if failed is None else failed
    except (MemoryError, RecursionError):
        say(tool, "this is more than there is memory for")
        status = WRONG if failed is None else failed
    except KeyboardInterrupt:
        end_by_interrupt()
    except SystemExit as end:  # of --help, which has written, or of a signal
        status = end.code
    finish(status)


def end_by_interrupt() -> NoReturn:
    """Ends as a program does that Ctrl-C ended, so that a shell's loop ends with it."""
    signal.signal(signal.SIGINT, signal.SIG_DFL)
    os.kill(os.getpid(), signal.SIGINT)
    sys.exit(128 + signal.SIGINT)


def finish(status: int | str | None) -> NoReturn:
    """Writes what is left to be written, and ends. Of a pipe that is closed nothing is said."""
    try:
        sys.stdout.flush()
    except (OSError, ValueError):
        with contextlib.suppress(OSError):
            os.dup2(os.open(os.devnull, os.O_WRONLY), sys.stdout.fileno())
    sys.exit(status)
