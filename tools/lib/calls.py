"""What `snow` makes of the words of a call: which status it gives, and in a sentence why, with the usual cure."""

import dataclasses
import os

from lib import images, options, scripts
from lib.images import listed
from lib.options import MOST_WORD
from lib.ports import PAGE, SECTOR_SIZE

COMMANDS = {name: one.words for name, one in options.subcommands().items()}
OPTIONS = {name: tuple(one.options) for name, one in options.subcommands().items()}
FILES, NUMBERS, RAM = options.files(), options.numbers(), options.option_named("--ram")
LONGEST_DISK, LONGEST_INPUT = FILES["--disk"].most * SECTOR_SIZE, FILES["--input"].most

READ_FAULT, USAGE, IMAGE, DISK_OR_INPUT, WRITE_FAULT, MEMORY, WIRE, SCRIPT = 1, 2, 3, 4, 5, 6, 7, 8


class Refused(Exception):
    """A refusal: the status of `snow`, the numbers that it tells, and a sentence."""

    def __init__(self, status: int, text: str, first: int = 0, second: int = 0):
        super().__init__(text)
        self.status, self.first, self.second = status, first, second

    def told(self) -> str:
        """Returns the first line that `snow` says of it."""
        texts = {
            READ_FAULT: f"snow: read fault, load {self.first}",
            USAGE: "snow: usage",
            IMAGE: f"snow: image refused, rule {self.first}",
            DISK_OR_INPUT: f"snow: disk or input refused, rule {self.first}",
            SCRIPT: f"snow: script refused, line {self.first}, kind {self.second}",
        }
        return texts[self.status]


@dataclasses.dataclass
class Call:
    """The words of a call by their meaning."""

    command: str
    names: list[str] = dataclasses.field(default_factory=list)
    options: dict[str, str] = dataclasses.field(default_factory=dict)

    def pages(self) -> int:
        return int(self.options.get("--ram", RAM.default))


def usage(text: str) -> Refused:
    return Refused(USAGE, text)


def read_words(words: list[str]) -> Call:
    """Returns a call by its words, or refuses them."""
    for word in words:
        try:
            word.encode("utf-8")
        except UnicodeEncodeError:
            raise usage(f"the word {word!r} is not UTF-8: rename the file") from None
    if not words:
        raise usage("there is no word: the first is run, drive or self")
    command = words[0]
    if command in ("--help", "-h", "help"):
        raise usage("a request for help gets the usage, with status 2")
    if command not in COMMANDS:
        raise usage(command_fault(command))
    call = Call(command)
    left = list(words[1:])
    while left:
        word = left.pop(0)
        if word == "--":
            call.names += left
            break
        if word.startswith("-") and word != "-":
            read_option(call, word, left)
        else:
            call.names.append(word)
    check_names(call)
    check_numbers(call)
    return call


def command_fault(word: str) -> str:
    if word.startswith("-"):
        return f"{word} stands before the command: the first word is run, drive or self, and options come behind it"
    like = scripts.near(word, list(COMMANDS))
    if os.path.exists(word):
        return f"{word} is no command, but a file: run {word} runs it"
    return f"{word!r} is no command: the first word is run, drive or self{f', and the nearest is {like}' if like else ''}"


def read_option(call: Call, word: str, left: list[str]) -> None:
    option, equals, value = word.partition("=")
    if option in ("--help", "-h"):
        raise usage("a request for help gets the usage, with status 2")
    if option not in OPTIONS[call.command]:
        raise usage(option_fault(call.command, option))
    if option in call.options:
        raise usage(f"{option} is given twice: each option is given once at most")
    wanted = f"the name of {FILES[option].sets}" if option in FILES else f"a number from {NUMBERS[option].least} to {NUMBERS[option].most}"
    if equals:
        call.options[option] = value
    elif not left:
        raise usage(f"{option} lacks what it sets, which is {wanted}: {option} {'F' if option in FILES else 'N'}")
    elif left[0].startswith("-") and left[0] != "-":
        cure = f"a name that begins with - is written {option}={left[0]} or ./{left[0]}" if option in FILES else f"{option} N"
        raise usage(f"{option} lacks what it sets, which is {wanted}, since {left[0]} is read as an option: {cure}")
    else:
        call.options[option] = left.pop(0)


def option_fault(command: str, option: str) -> str:
    takers = [other for other in OPTIONS if option in OPTIONS[other]]
    if takers:
        return f"{command} has no option {option}, which is of {listed(takers)} alone: leave it out"
    known = OPTIONS[command]
    like = next((other for other in known if other.startswith(option) and len(option) > 3), "") or scripts.near(option, known)
    if os.path.exists(option):
        return f"{option} is read as an option: a file whose name begins with - is written ./{option}, or behind --"
    return f"{command} has no option {option}: {f'the nearest is {like}' if like else f'it has {listed(known)}'}"


def check_names(call: Call) -> None:
    wanted, given = COMMANDS[call.command], call.names
    meaning = {"IMAGE": "the image", "SCRIPT": "the script", "SEED": "the seed"}
    if len(given) < len(wanted):
        lacks = [meaning[name] for name in wanted[len(given) :]]
        raise usage(f"{call.command} lacks {listed(lacks)}: snow {call.command} {' '.join(wanted)}")
    if len(given) > len(wanted):
        named = listed([meaning[name] for name in wanted])
        hint = "" if call.command == "self" else "; an input is named by --input, and a disk by --disk"
        raise usage(f"{call.command} takes {named} alone, and {given[len(wanted)]!r} is one word more{hint}")


def check_numbers(call: Call) -> None:
    numbers = [(option, value, NUMBERS[option].least, NUMBERS[option].most) for option, value in call.options.items() if option in NUMBERS]
    if call.command == "self":
        numbers.insert(0, ("SEED", call.names[0], 0, MOST_WORD))
    for option, value, least, most in numbers:
        digits = value.removeprefix("+")
        if not digits.isascii() or not digits.isdigit():
            raise usage(f"{option} {value!r} is no number: it takes decimal digits, from {least} to {most}{size_hint(option, value)}")
        if not least <= int(digits) <= most:
            raise usage(f"{option} {value} is beyond its limits, {least} to {most}{size_hint(option, value)}")
        call.options[option] = str(int(digits))


def size_hint(option: str, value: str) -> str:
    """Returns how many pages somebody may have meant who gave --ram a size in bytes."""
    if option != "--ram":
        return ""
    units = {"": 1, "K": 1 << 10, "M": 1 << 20, "G": 1 << 30}
    digits, unit = value.upper().removesuffix("B").removesuffix("I"), ""
    if digits and digits[-1] in "KMG":
        digits, unit = digits[:-1], digits[-1]
    if not digits.isascii() or not digits.isdigit() or not unit and int(digits) < 65536:
        return "; it counts pages of 4,096 bytes"
    pages = int(digits) * units[unit] // PAGE
    return f"; it counts pages of 4,096 bytes, so {value} is --ram {pages}" if RAM.least <= pages <= RAM.most else f"; it counts pages of 4,096 bytes, and {RAM.most} are 64 MiB"


def load(number: int, what: str, name: str, longest: int) -> bytes:
    """Returns the bytes of a file, one more than the longest that is taken at most, or refuses it as one that cannot be read."""
    try:
        with open(name, "rb") as file:
            return file.read(longest + 1)
    except OSError as fault:
        where = "" if os.path.isabs(name) else f", in the folder {os.getcwd()}"
        shown = name or "'', which is no name,"
        raise Refused(READ_FAULT, f"{what} {shown} cannot be read: {fault.strerror}{where}", number) from fault


def check_files(call: Call) -> bytes:
    """Refuses what `snow` refuses of the files of a call, in its order. Returns the image."""
    image_name = call.names[0]
    image = load(1, "the image", image_name, images.LONGEST)
    if len(image) > images.LONGEST:
        rule, text = images.fault_of(image, call.pages())
        raise Refused(IMAGE, f"{image_name} {text}", rule)
    disk_name = call.options.get("--disk")
    disk = b"" if disk_name is None else load(2, "the disk", disk_name, LONGEST_DISK)
    if len(disk) > LONGEST_DISK:
        raise Refused(DISK_OR_INPUT, f"the disk {disk_name} has more than {LONGEST_DISK} bytes, 8,192 sectors: make it smaller", 1)
    input_name = call.options.get("--input")
    given = b"" if input_name is None else load(3, "the input", input_name, LONGEST_INPUT)
    if len(given) > LONGEST_INPUT:
        cure = "put it on the disk, which takes 4,194,304 (--disk), filled up to whole sectors by truncate -s %512"
        raise Refused(DISK_OR_INPUT, f"the input {input_name} has more than {LONGEST_INPUT} bytes: {cure}", 3)
    script = load(4, "the script", call.names[1], scripts.LONGEST) if call.command == "drive" else b""
    fault = scripts.fault_of(script)
    if fault and fault.kind == scripts.TOO_LONG:
        raise Refused(SCRIPT, f"the script {call.names[1]} has more than {scripts.LONGEST} bytes: split it, or step more at once", 0, fault.kind)
    refused = images.fault_of(image, call.pages())
    if refused:
        raise Refused(IMAGE, f"{image_name} {refused[1]}", refused[0])
    if len(disk) % SECTOR_SIZE:
        over = len(disk) % SECTOR_SIZE
        raise Refused(DISK_OR_INPUT, f"the disk {disk_name} is no whole number of sectors, {over} bytes over: truncate -s %512 {disk_name} fills it up", 2)
    if fault:
        raise Refused(SCRIPT, f"the script {call.names[1]}: {fault.text}", fault.line, fault.kind)
    return image


def remarks_on(call: Call, image: bytes) -> list[str]:
    """Returns what may go wrong with a guest that is not refused."""
    lacks = images.lacks_of(image)
    if not lacks:
        return []
    what = f"{call.names[0]} was compiled for {listed(lacks)}, which a machine has not"
    return [f"{what}: it traps at the first such instruction, and without a handler it comes to its limit; {images.COMPILE}"]
