"""The subcommands of `snow` and their options, by the usage that the program tells, which stands in its source."""

import dataclasses
import functools
import re

from lib.command import ROOT

TABLE = f"{ROOT}/crates/command_line/src/options.rt"
MOST_WORD = 4294967295


@dataclasses.dataclass(frozen=True)
class Option:
    """An option: its name with the dashes, and what it sets. Of a number it has the least, the most and the default, and of a
    file the most units alone."""

    name: str
    sets: str
    most: int
    least: int | None = None
    default: int | None = None

    def is_file(self) -> bool:
        return self.least is None


@dataclasses.dataclass(frozen=True)
class Subcommand:
    """A subcommand: the words that it wants, and its options by their names."""

    words: tuple[str, ...]
    options: dict[str, Option]


@functools.cache
def usage() -> str:
    """Returns what the program says of words that have no meaning."""
    with open(TABLE, encoding="utf-8") as file:
        return file.read().partition('pub const USAGE: &str = "')[2].partition('";')[0]


def option_of(name: str, kind: str, told: str) -> Option:
    """Returns an option by its line of the usage."""
    numbers = re.fullmatch(r"(.*), (\d+) to (\d+); (\d+),? if not given.*", told)
    if kind == "N" and numbers:
        return Option(name, numbers[1], int(numbers[3]), int(numbers[2]), int(numbers[4]))
    size = re.fullmatch(r"(.*), at most (\d+) .*", told)
    if kind == "F" and size:
        return Option(name, size[1], int(size[2]))
    raise ValueError(f"the usage tells of {name}: {told}")


def subcommands_of(told: str) -> dict[str, Subcommand]:
    """Returns the subcommands by their names, as a usage tells them."""
    options = {line[0]: option_of(*line) for line in re.findall(r"(?m)^  (--\w+) (\w) +(.*)$", told)}
    found = {}
    for name, words, taken in re.findall(r"(?m)^  snow (\w+)((?: [A-Z]+)+)((?:\s+\[--\w+ \w\])*)$", told):
        found[name] = Subcommand(tuple(words.split()), {one: options[one] for one in re.findall(r"--\w+", taken)})
    return found


@functools.cache
def subcommands() -> dict[str, Subcommand]:
    """Returns the subcommands by their names."""
    return subcommands_of(usage())


def options_of(command: str) -> dict[str, Option]:
    """Returns the options of a subcommand by their names. `run` takes each that there is."""
    return subcommands()[command].options


def option_named(name: str) -> Option:
    return options_of("run")[name]


def files() -> dict[str, Option]:
    """Returns the options that name files."""
    return {name: option for name, option in options_of("run").items() if option.is_file()}


def numbers(command: str = "run") -> dict[str, Option]:
    """Returns the options of a subcommand that set numbers."""
    return {name: option for name, option in options_of(command).items() if not option.is_file()}
