"""The program `snow`, which tools call: where it is, and what it writes."""

import contextlib
import functools
import os
import subprocess
import tempfile
from collections.abc import Iterator
from typing import BinaryIO

from lib import scripts
from lib.command import ROOT, Parser, Problem
from lib.options import options_of

NOT_RUN = 70
# The options that tell what a guest is made of, which `snow run` and `snow drive` have in common.
GUEST_OPTIONS = tuple(name.strip("-") for name in options_of("drive"))


@functools.cache
def path() -> str:
    """Returns the path of the program: that of the environment's SNOW, or the one that ./snow would run, which is proved and
    built where it is not there. So many calls cost no more than so many runs of the program."""
    if os.environ.get("SNOW"):
        return os.environ["SNOW"]
    ran = subprocess.run([f"{ROOT}/snow"], env={**os.environ, "SNOW_PRINT_PROGRAM": "1"}, stdout=subprocess.PIPE, check=False)
    if ran.returncode:
        raise Problem("there is no program to run, as ./snow says", NOT_RUN)
    return os.fsdecode(ran.stdout.rstrip(b"\n"))


def add_guest_options(parser: Parser) -> None:
    for name in GUEST_OPTIONS:
        parser.add_argument(f"--{name}")


def guest_words(options: object) -> list[str]:
    """Returns the options of a guest as `snow` takes them, of those that were given."""
    values = [(name, getattr(options, name)) for name in GUEST_OPTIONS]
    return [f"--{name}={value}" for name, value in values if value is not None]


def start(words: list[str], **how: object) -> subprocess.Popen:
    try:
        return subprocess.Popen([path(), *words], **how)
    except OSError as fault:
        raise Problem(f"{path()}: {fault.strerror}", NOT_RUN) from fault


def ended(words: list[str], status: int, what: str) -> Problem:
    """Returns the problem of a run that did not end well."""
    why = " ".join(words[:2])
    return Problem(f"{what}, since snow {why} ended with status {status}: tools/why with its words tells more", status if status > 0 else NOT_RUN)


def answers(image: str, lines: list[str], options: list[str], what: str) -> list[str]:
    """Returns the answers of `snow drive` to the lines of a script. What there is none of where it fails is said in words."""
    text = "".join(f"{line}\n" for line in lines).encode()
    if len(text) > scripts.LONGEST:
        raise Problem("the family is too large: what would drive it so far is no script, over 1 MiB")
    with tempfile.NamedTemporaryFile(suffix=".script") as file:
        file.write(text)
        file.flush()
        words = ["drive", image, file.name, *options]
        with start(words, stdout=subprocess.PIPE) as ran:
            wrote = ran.communicate()[0]
    if ran.returncode:
        raise ended(words, ran.returncode, what)
    return wrote.decode("ascii").splitlines()


@contextlib.contextmanager
def report(image: str, options: list[str], what: str) -> Iterator[BinaryIO]:
    """Opens the report of `snow run`, which is written as it is read."""
    words = ["run", image, *options]
    with start(words, stdout=subprocess.PIPE) as ran:
        yield ran.stdout
        ran.stdout.read()
    if ran.returncode:
        raise ended(words, ran.returncode, what)
