"""What tools/trace does: it reads its words, and shows steps of a machine and tells what is asked for behind them."""

import argparse
import re

from lib import command, program, progress
from lib.command import Problem
from lib.families import MOST, Disk, Family, Machine
from lib.images import Image
from lib.instructions import ABI_NAMES
from lib.listing import Listing
from lib.options import option_named
from lib.ports import PAGE, RAM, SECTOR_SIZE
from lib.traces import Steps

FOLLOWED, FOLLOWED_TO_TRAP = 1000000, 100000


def options_of(words: list[str], help_text: str) -> argparse.Namespace:
    parser = command.Parser("trace", help_text)
    parser.add_argument("image", metavar="IMAGE")
    program.add_guest_options(parser)
    parser.add_argument("--machine", default="0")
    for name, dest in (("from", "first"), ("steps", "steps"), ("follow", "follow"), ("last", "last"), ("registers", "registers")):
        parser.add_argument(f"--{name}", dest=dest, type=command.number_from(0, 2 * MOST))
    parser.add_argument("--at")
    parser.add_argument("--dump", nargs=2, metavar=("FROM", "TO"))
    for name in ("word", "wrote"):
        parser.add_argument(f"--{name}", action="append", default=[])
    parser.add_argument("--sector", action="append", default=[], type=command.number_from(0, MOST))
    for name in ("to-trap", "go-on", "numeric", "stuck"):
        parser.add_argument(f"--{name}", action="store_true")
    options = parser.parse_args(words)
    if not re.fullmatch(r"0(\.[1-9]\d*\.[1-9]\d*)*", options.machine):
        parser.error("--machine is the name of a machine, such as 0 or 0.1.2")
    if options.first == 0:
        parser.error("--from is at least 1")
    if options.last is not None and (options.last < 1 or options.to_trap or options.at):
        parser.error("--last is at least 1, and goes with neither --to-trap nor --at")
    if options.ram is not None and not re.fullmatch(r"\+?\d{1,10}", options.ram):
        parser.error(f"--ram {options.ram} is no number")
    return options


def line_of_machines(family: Family, name: str) -> list[Machine]:
    """Returns a machine behind those that it comes from."""
    line = [Machine(family, "0", [], 0)]
    parts = name.split(".")
    for end in range(3, len(parts) + 1, 2):
        line.append(line[-1].child(".".join(parts[:end])))
    return line


def first_step(steps: Steps, options: argparse.Namespace) -> int | None:
    """Returns the first step to show, or says why there is none."""
    machine = steps.machine
    first = max(options.first or 1, machine.born + 1)
    if options.at:
        address = steps.image.address_of(options.at, "--at")
        found = steps.first_of(first, lambda state, trap: state.pc == address)
        if found is None:
            print(f"machine {machine.name} does not come there: {machine.told()}")
            return None
        first = found
    if options.last:
        machine.extend(2 * MOST)
        return max(machine.born, machine.reached() - options.last) + 1
    if options.to_trap:
        is_near_end = options.first is None and options.at is None
        trap = steps.trap_before_end() if is_near_end else steps.first_of(first, lambda _, trap: trap)
        if trap is None:
            print(f"machine {machine.name} makes no trap: {machine.told()}")
            return None
        first = max(first, trap - options.steps + 1)
        options.steps, options.go_on = trap - first + 1, True
    return first


def tell(options: argparse.Namespace) -> None:
    """Shows steps of a machine, and tells what is asked for behind them."""
    family = Family(options.image, program.guest_words(options))
    family.ask([], [])
    if options.stuck:
        say_stuck(family)
        return
    line = line_of_machines(family, options.machine)
    machine = line[-1]
    if len(line) > 1:
        print(f"machine {machine.name} is made by step {machine.born} of its parent")
    image = Image(options.image)
    most = options.follow if options.follow is not None else FOLLOWED_TO_TRAP if options.to_trap else FOLLOWED
    steps: list[Steps] = []
    for one in line:
        steps.append(Steps(one, image, RAM + PAGE * int(options.ram or option_named("--ram").default), most, steps[-1] if steps else None))
    listing = Listing(steps[-1], [f"x{i}" for i in range(32)] if options.numeric else ABI_NAMES)
    is_asked = options.registers is not None or options.wrote
    shows = not is_asked or any(it is not None for it in (options.first, options.at, options.last, options.steps)) or options.to_trap
    options.steps = 40 if options.steps is None else options.steps
    if shows:
        first = first_step(steps[-1], options)
        if first is None:
            return
        listing.show(first, options.last or options.steps, options.go_on or bool(options.last))
    if options.registers is not None:
        listing.say_registers(options.registers)
    elif not shows:
        machine.extend(2 * MOST)
        listing.shown = machine.reached()
    say_behind(listing, steps, options)


def say_behind(listing: Listing, steps: list[Steps], options: argparse.Namespace) -> None:
    """Tells what is asked for behind the last step."""
    for word in options.word:
        listing.say_word(word)
    if options.dump:
        first, last = (listing.image.address_of(place, "--dump") for place in options.dump)
        if last < first:
            raise Problem("--dump takes the first address and the last, and the last is before the first", command.USAGE)
        listing.say_dump(first, last)
    for place in options.wrote:
        listing.say_writer(place, listing.there())
    if options.sector:
        say_sectors(listing, steps, options)


def say_sectors(listing: Listing, line: list[Steps], options: argparse.Namespace) -> None:
    """Tells sectors of the disk of a machine."""
    data = b""
    if options.disk:
        with open(options.disk, "rb") as file:
            data = file.read()
    disk = Disk(data)
    for one, child in zip(line, line[1:]):
        one.store_to(disk, child.machine.born)
    line[-1].store_to(disk, listing.shown)
    for sector in options.sector:
        if sector >= len(disk.sectors):
            print(f"sector {sector}: the disk has none of this number")
            continue
        print(f"sector {sector} behind step {listing.shown}:")
        for at in range(0, SECTOR_SIZE, 32):
            print(f"  {at:3}  {disk.sectors[sector][at : at + 32].hex(' ', 4)}")


def say_stuck(family: Family) -> None:
    """Tells for what each machine of a family waits, where the family goes no further."""
    waits = family.waits()
    if not waits:
        print("the family is not stuck: its first machine ends")
    for machine, wait in waits.items():
        kind, number = wait.split()
        siblings = machine.rsplit(".", 1)[0]
        told = {"wait": f"the children of ticket {number}", "send": f"room for a word to {siblings}.{number}", "receive": f"a word of {siblings}.{number}"}
        print(f"{machine} waits for {told[kind]}")


def run(words: list[str], help_text: str = "") -> int:
    """Does what words of the command line ask for. They may ask for the help text."""
    options = options_of(words, help_text)
    progress.begin("trace")
    try:
        tell(options)
    finally:
        progress.clear()
    return 0
