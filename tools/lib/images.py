"""Reads images: which rule of docs/formats.md refuses one and what its cure is, what else its machine cannot run, its functions,
and the places in its sources."""

import bisect
import dataclasses
import difflib
import re
import shutil
import struct
import subprocess
from typing import NamedTuple

from lib.command import Problem
from lib.options import option_named
from lib.ports import PAGE, RAM

MOST_PAGES = option_named("--ram").most
LONGEST = 16777216

MACHINES = {3: "x86", 8: "MIPS", 20: "PowerPC", 21: "64-bit PowerPC", 22: "s390", 40: "ARM", 42: "SuperH", 62: "x86-64", 183: "AArch64", 243: "RISC-V", 258: "LoongArch"}
COMPILE = "compile it for RV32IMA, as guest/cc does: riscv64-unknown-elf-gcc -march=rv32ima_zicsr -mabi=ilp32"
LINK = "link it as guest/cc does, by guest/snow.ld, or with -N -Ttext=0x80000000"
CUT = "the file is cut off or was changed: compile it anew"


class Header(NamedTuple):
    kind: int
    machine: int
    version: int
    entry: int
    segments_at: int
    sections_at: int
    flags: int
    size: int
    segment_size: int
    segments: int
    section_size: int
    sections: int
    names: int


@dataclasses.dataclass
class Segment:
    """A segment that is loaded."""

    number: int
    offset: int
    address: int
    in_file: int
    in_ram: int

    def span(self) -> str:
        return f"{self.address:08x} to {self.address + self.in_ram - 1:08x}"


def header_of(image: bytes) -> Header:
    return Header(*struct.unpack_from("<HHIIIIIHHHHHH", image, 16))


def segments_of(image: bytes, header: Header) -> list[Segment]:
    found = []
    for number in range(header.segments):
        kind, offset, _, address, in_file, in_ram = struct.unpack_from("<6I", image, header.segments_at + 32 * number)
        if kind == 1:
            found.append(Segment(number, offset, address, in_file, in_ram))
    return found


def head_fault(image: bytes) -> tuple[int, str] | None:
    """Returns which of rules 1 to 7 refuses an image, and a sentence, or None."""
    if len(image) < 52:
        return 1, f"has {len(image)} bytes, and the header of an ELF file alone has 52: {'it is empty' if not image else CUT}"
    if image[:4] != b"\x7fELF":
        return 2, f"{what_it_is(image)}: an image is an executable in ELF, as guest/cc -o IMAGE FILE.c makes it"
    header = header_of(image)
    if image[4] != 1:
        return 3, f"is of 64 bits{processor_of(header)}, and a machine has 32: {COMPILE}" if image[4] == 2 else f"has the class {image[4]}, and not 1: {CUT}"
    if image[5] != 1:
        return 3, f"is big endian, and a machine is little endian: {COMPILE}" if image[5] == 2 else f"has the byte order {image[5]}, and not 1: {CUT}"
    if image[6] != 1 or header.version != 1:
        return 3, f"has another version of ELF than 1: {CUT}"
    if header.kind != 2:
        return 4, kind_fault(header.kind)
    if header.machine != 243:
        return 5, f"is an image{processor_of(header) or ' for another processor'}: e_machine is {header.machine}, and RISC-V has 243; {COMPILE}"
    if header.segment_size != 32 or header.segments == 65535:
        return 6, f"has program headers of {header.segment_size} bytes, {header.segments} of them, and they are of 32 bytes and fewer than 65535: {CUT}"
    end = header.segments_at + 32 * header.segments
    if end > len(image):
        return 7, f"has {len(image)} bytes, and its program headers end at byte {end}: {CUT}"
    return None


def processor_of(header: Header) -> str:
    return f" for {MACHINES[header.machine]}" if header.machine in MACHINES else ""


def what_it_is(image: bytes) -> str:
    """Returns what a file is that is no ELF file, where that can be seen."""
    kinds = {b"#!": "is a script", b"\x1f\x8b": "is compressed by gzip", b"!<arch>": "is an archive of objects", b"machine ": "is a report"}
    for start, kind in kinds.items():
        if image.startswith(start):
            return kind
    start = image[:256]
    if all(32 <= byte < 127 or byte in b"\t\r\n" for byte in start):
        return "is a text"
    return "does not begin with the magic number of ELF, and may be the bare bytes of a program"


def kind_fault(kind: int) -> str:
    if kind == 1:
        return "is an object that is not linked yet: guest/cc -o IMAGE OBJECT.o links it"
    if kind == 3:
        return "is a shared object or a position-independent executable, and not linked to fixed addresses: link it with -static -no-pie"
    return f"is no executable: e_type is {kind}, and not 2; {LINK}"


def body_fault(image: bytes, pages: int) -> tuple[int, str] | None:
    """Returns which of rules 8 to 12 refuses an image that the others do not, and a sentence, or None."""
    header = header_of(image)
    segments = segments_of(image, header)
    for segment in segments:
        if segment.in_file > segment.in_ram:
            return 8, f"has a segment, number {segment.number}, with more bytes in the file than in RAM: {CUT}"
    placed = [segment for segment in segments if segment.in_ram]
    for segment in placed:
        if segment.offset + segment.in_file > len(image):
            return 9, f"has {len(image)} bytes, and its segment {segment.number} ends at byte {segment.offset + segment.in_file}: {CUT}"
    ram_end = RAM + PAGE * pages
    for segment in placed:
        if segment.address < RAM or segment.address + segment.in_ram > ram_end:
            return 10, place_fault(segment, pages, ram_end, max(other.address + other.in_ram for other in placed))
    spans = sorted(placed, key=lambda segment: segment.address)
    for one, other in zip(spans, spans[1:]):
        if other.address < one.address + one.in_ram:
            return 11, f"has two segments that share bytes of RAM, {one.span()} and {other.span()}: {LINK}"
    if header.entry % 4 or not RAM <= header.entry < ram_end:
        where = "is no multiple of 4" if header.entry % 4 else f"is not in RAM, which is {RAM:08x} to {ram_end - 1:08x}"
        return 12, f"has the entry {header.entry:08x}, which {where}: {LINK}, and name the first function by -e"
    return None


def place_fault(segment: Segment, pages: int, ram_end: int, end: int) -> str:
    """Returns why a segment is not in RAM."""
    text = f"has the bytes {segment.span()}, which are not all in RAM: {pages} pages are {RAM:08x} to {ram_end - 1:08x}; "
    wanted = -(-(end - RAM) // PAGE)
    if segment.address < RAM:
        return f"{text}{LINK}"
    if wanted <= MOST_PAGES:
        return f"{text}give --ram {wanted} or more"
    return f"{text}and {MOST_PAGES} pages are the most: {LINK}, or make it smaller"


def fault_of(image: bytes, pages: int) -> tuple[int, str] | None:
    """Returns the rule by which `snow` refuses an image, and a sentence that goes on behind its name, or None."""
    if len(image) > LONGEST:
        return 13, f"has more than {LONGEST} bytes: link it with -s, or strip it"
    return head_fault(image) or body_fault(image, pages)


EXTENSIONS = {"c": "compressed instructions", "f": "floating point", "d": "floating point", "v": "vectors", "zba": "Zba", "zbb": "Zbb", "zbs": "Zbs"}


def lacks_of(image: bytes) -> list[str]:
    """Returns what an image that is not refused was compiled for and a machine has not, in words."""
    found = []
    header = header_of(image)
    if header.flags & 1:
        found.append("compressed instructions")
    if header.flags & 6:
        found.append("floating point")
    if header.flags & 8:
        found.append("the sixteen registers of RV32E")
    for name in re.findall(r"_(z\w+?|c|f|d|v)\d+p\d+", arch_of(image)):
        if name in EXTENSIONS and EXTENSIONS[name] not in found:
            found.append(EXTENSIONS[name])
    return found


def arch_of(image: bytes) -> str:
    """Returns the architecture that the compiler noted, such as rv32i2p1_m2p0, or nothing."""
    found = re.search(rb"\x05(rv(?:32|64)[0-9a-z_]+)\0", image)
    return found[1].decode() if found else ""


class Symbols:
    """The names of an image's functions and objects, where it has them."""

    def __init__(self, image: bytes):
        # the start, the name and the end of the section of each function, and the starts alone
        self.places: list[tuple[int, str, int]] = []
        self.objects: dict[str, int] = {}
        self.has_lines = False
        try:
            self.read(image)
        except (struct.error, IndexError, ValueError):
            pass
        self.places.sort()
        self.starts = [value for value, _, _ in self.places]

    def read(self, image: bytes) -> None:
        header = header_of(image)
        start, size, count = header.sections_at, header.section_size, header.sections
        sections = [struct.unpack_from("<10I", image, start + size * i) for i in range(count)] if start else []
        if sections:
            names = sections[header.names][4]
            self.has_lines = any(image[names + section[0] :].startswith(b".debug_line\0") for section in sections)
        for section in sections:
            if section[1] == 2:
                self.read_table(image, section, sections)

    def read_table(self, image: bytes, table: tuple[int, ...], sections: list[tuple[int, ...]]) -> None:
        names = sections[table[6]][4]
        for at in range(table[4], table[4] + table[5], 16):
            name, value, _, info, _, place = struct.unpack_from("<IIIBBH", image, at)
            if not 0 < place < len(sections):
                continue
            text = image[names + name : image.index(b"\0", names + name)].decode("latin-1")
            # the linker's own names, such as __code_end, are no functions
            if sections[place][2] & 4 and (info & 15 == 2 or info & 15 == 0 and info >> 4 and not text.startswith("__")):
                self.places.append((value, text, sections[place][3] + sections[place][5]))
            elif info & 15 == 1:
                self.objects[text] = value

    def find(self, address: int) -> tuple[str, int] | None:
        """Returns the name of the function that an address is in, and how far in, or None."""
        at = bisect.bisect_right(self.starts, address) - 1
        if at < 0 or address >= self.places[at][2]:
            return None
        return self.places[at][1], address - self.places[at][0]

    def place_of(self, address: int) -> str:
        found = self.find(address)
        if not found:
            return f"{address:08x}"
        return f"{address:08x} <{found[0]}+{found[1]:#x}>" if found[1] else f"{address:08x} <{found[0]}>"


ADDRESS_TOOLS = ("riscv64-unknown-elf-addr2line", "riscv32-unknown-elf-addr2line", "llvm-addr2line", "addr2line")


def lines_of(path: str, addresses: list[int]) -> dict[int, str]:
    """Returns the file and the line of addresses, of those that the image has lines for, by addr2line where there is one."""
    tool = next((tool for tool in ADDRESS_TOOLS if shutil.which(tool)), None)
    if not tool or not addresses:
        return {}
    asked = "".join(f"{address:#x}\n" for address in addresses).encode()
    ran = subprocess.run([tool, "-e", path], input=asked, stdout=subprocess.PIPE, stderr=subprocess.DEVNULL, check=False)
    lines = ran.stdout.decode("utf-8", "replace").splitlines()
    found = {}
    for address, line in zip(addresses, lines):
        name, _, number = line.partition(" (")[0].rpartition(":")
        if name and name != "??" and number not in ("?", "0"):
            found[address] = f"{name.rsplit('/', 1)[-1]}:{number}"
    return found


class Image:
    """An image by its file: its bytes, its names, and the places in its sources, which are asked for as they are needed."""

    def __init__(self, path: str):
        self.path = path
        with open(path, "rb") as file:
            self.data = file.read(LONGEST)
        self.symbols = Symbols(self.data)
        self.lines: dict[int, str] = {}

    def look_up(self, addresses: set[int]) -> None:
        """Finds out the file and the line of addresses, where the image has them."""
        new = sorted(addresses - self.lines.keys())
        if self.symbols.has_lines and new:
            self.lines |= dict.fromkeys(new, "") | lines_of(self.path, new)

    def line_of(self, address: int) -> str:
        """Returns the file and the line of an address, or nothing."""
        self.look_up({address})
        return self.lines.get(address, "")

    def address_of(self, place: str, option: str) -> int:
        """Returns the address of a function or an object, or the one that stands there in hexadecimal. Of a function that the
        compiler changed, such as gcd.constprop.0, the name before the point is enough, where there is but one. What is wrong with
        the place is said with the option that names it."""
        functions = {name: value for value, name, _ in self.symbols.places}
        known = functions | self.symbols.objects
        changed = [name for name in known if name.partition(".")[0] == place]
        if place in known or len(changed) == 1:
            return known.get(place, known[changed[0]] if changed else 0)
        if re.fullmatch(r"(0x)?[0-9a-fA-F]{1,8}", place) and (place.startswith("0x") or any(map(str.isdigit, place))):
            return int(place, 16)
        if not functions:
            raise Problem(f"the image names no functions: {option} takes an address of eight digits")
        plain = {name.partition(".")[0] for name in known}
        found = difflib.get_close_matches(place, plain, 3, 0.6)
        near = changed or [name for name in known if name.partition(".")[0] in found]
        raise Problem(f"the image names no function {place}{f': it has {listed(near)}' if near else ''}")


def listed(words: list[str]) -> str:
    """Returns words as a list in a sentence."""
    return " and ".join([", ".join(words[:-1]), words[-1]] if len(words) > 1 else words)
