"""Runs families of machines as docs/machine.md and docs/forest.md say what they are: each child is a whole copy of its
parent, and any machine that can make a step may be the next to make one.

    tests/whole_copies run IMAGE [--disk F] [--input F] [--ram N] [--limit N] [--clones N] [--draw SEED]
    tests/whole_copies drive IMAGE SCRIPT [--disk F] [--input F] [--ram N] [--limit N] [--clones N]
    tests/whole_copies --compare PROGRAM [WORD]..

The words are those of ./snow, whose other options are taken and change nothing, and so is what is written. So this may stand
in the place of the program for tools/trace and tools/family, by the environment's SNOW. It was written from the documents
alone, in the plainest way, and of crates/ it reads the table of options alone. It refuses nothing: an image and a script are
to be in form.

With --draw a seed decides which machine makes the next steps and how many. It comes to the same report. With --compare the
guests of examples/ are run by a program, too, those with one of the words in their names, and what both write is compared.
"""

import argparse
import copy
import functools
import os
import random
import struct
import subprocess
import sys

ROOT = os.path.dirname(os.path.dirname(os.path.dirname(os.path.abspath(__file__))))
sys.path.append(f"{ROOT}/tools")
from lib.options import options_of

RAM, PAGE, SECTOR = 0x80000000, 4096, 512
ONES = 0xFFFFFFFF
DISK_PAGE = 1 << 31
LONGEST_QUEUE = 8

# Commands of the fork port, and of the sibling port.
TICKET, CLONE, JOIN, KILL, EXIT, ZERO, EXIT_BYTES = 1, 2, 3, 4, 5, 6, 7
SEND, RECEIVE = 1, 2

# Refusals.
NO_TICKET, CLONED, NOT_CLONED, BAD_ARGUMENT, NO_ALLOT, NO_COMMAND, ENDED = range(0xFFFFFFFF, 0xFFFFFFF8, -1)

# The rows of instructions by mask: name, bits and format.
ROWS = {
    0x0000007F: "lui:37:U auipc:17:U jal:6F:J",
    0x0000707F: "jalr:67:I beq:63:B bne:1063:B blt:4063:B bge:5063:B bltu:6063:B bgeu:7063:B lb:3:load lh:1003:load"
    " lw:2003:load lbu:4003:load lhu:5003:load sb:23:S sh:1023:S sw:2023:S addi:13:I slti:2013:I sltiu:3013:I"
    " xori:4013:I ori:6013:I andi:7013:I fence:F:bare fence.i:100F:bare csrrw:1073:CSR csrrs:2073:CSR csrrc:3073:CSR"
    " csrrwi:5073:CSR csrrsi:6073:CSR csrrci:7073:CSR",
    0xFE00707F: "slli:1013:shift srli:5013:shift srai:40005013:shift add:33:R sub:40000033:R sll:1033:R slt:2033:R"
    " sltu:3033:R xor:4033:R srl:5033:R sra:40005033:R or:6033:R and:7033:R mul:2000033:R mulh:2001033:R"
    " mulhsu:2002033:R mulhu:2003033:R div:2004033:R divu:2005033:R rem:2006033:R remu:2007033:R",
    0xFFFFFFFF: "ecall:73:bare ebreak:100073:bare mret:30200073:bare wfi:10500073:bare",
    0xF9F0707F: "lr.w:1000202F:LR",
    0xF800707F: "sc.w:1800202F:A amoswap.w:800202F:A amoadd.w:202F:A amoxor.w:2000202F:A amoand.w:6000202F:A"
    " amoor.w:4000202F:A amomin.w:8000202F:A amomax.w:A000202F:A amominu.w:C000202F:A amomaxu.w:E000202F:A",
}


def signed(word):
    return word - (1 << 32) if word >> 31 else word


def quotient(a, b):
    """Returns a / b, rounded toward zero."""
    return abs(a) // abs(b) * (1 if (a < 0) == (b < 0) else -1)


# What an instruction computes of two words, up to a multiple of 2^32.
COMPUTE = {
    "add": lambda a, b: a + b,
    "sub": lambda a, b: a - b,
    "sll": lambda a, b: a << (b & 31),
    "slt": lambda a, b: signed(a) < signed(b),
    "sltu": lambda a, b: a < b,
    "xor": lambda a, b: a ^ b,
    "srl": lambda a, b: a >> (b & 31),
    "sra": lambda a, b: signed(a) >> (b & 31),
    "or": lambda a, b: a | b,
    "and": lambda a, b: a & b,
    "mul": lambda a, b: a * b,
    "mulh": lambda a, b: signed(a) * signed(b) >> 32,
    "mulhsu": lambda a, b: signed(a) * b >> 32,
    "mulhu": lambda a, b: a * b >> 32,
    "div": lambda a, b: quotient(signed(a), signed(b)) if b else ONES,
    "divu": lambda a, b: a // b if b else ONES,
    "rem": lambda a, b: signed(a) - signed(b) * quotient(signed(a), signed(b)) if b else a,
    "remu": lambda a, b: a % b if b else a,
    "beq": lambda a, b: a == b,
    "bne": lambda a, b: a != b,
    "blt": lambda a, b: signed(a) < signed(b),
    "bge": lambda a, b: signed(a) >= signed(b),
    "bltu": lambda a, b: a < b,
    "bgeu": lambda a, b: a >= b,
    "amoswap.w": lambda a, b: b,
    "amoadd.w": lambda a, b: a + b,
    "amoxor.w": lambda a, b: a ^ b,
    "amoand.w": lambda a, b: a & b,
    "amoor.w": lambda a, b: a | b,
    "amomin.w": lambda a, b: min(a, b, key=signed),
    "amomax.w": lambda a, b: max(a, b, key=signed),
    "amominu.w": min,
    "amomaxu.w": max,
}
for one in ("add", "slt", "sltu", "xor", "or", "and"):
    COMPUTE[one + "i"] = COMPUTE[one]
COMPUTE["sltiu"] = COMPUTE["sltu"]
for one in ("sll", "srl", "sra"):
    COMPUTE[one + "i"] = COMPUTE[one]

WIDTHS = {"b": 1, "h": 2, "w": 4}


def number_of(*pieces):
    """Returns the signed number of these pieces of a word from the top: the word, its highest and its lowest bit of each."""
    value, width = 0, 0
    for word, high, low in pieces:
        value = value << high - low + 1 | word >> low & (1 << high - low + 1) - 1
        width += high - low + 1
    return value - (1 << width) if value >> width - 1 else value


IMMEDIATES = {
    "U": lambda word: word & 0xFFFFF000,
    "J": lambda word: 2 * number_of((word, 31, 31), (word, 19, 12), (word, 20, 20), (word, 30, 21)),
    "B": lambda word: 2 * number_of((word, 31, 31), (word, 7, 7), (word, 30, 25), (word, 11, 8)),
    "I": lambda word: number_of((word, 31, 20)),
    "load": lambda word: number_of((word, 31, 20)),
    "S": lambda word: number_of((word, 31, 25), (word, 11, 7)),
    "shift": lambda word: word >> 20 & 31,
    "CSR": lambda word: word >> 20,
}


@functools.lru_cache(maxsize=None)
def decode(word):
    """Returns name, format, rd, rs1, rs2 and immediate of an instruction, or None where the word is none."""
    for mask, rows in ROWS.items():
        for name, bits, form in (row.split(":") for row in rows.split()):
            if word & mask == int(bits, 16):
                immediate = IMMEDIATES.get(form, lambda _: 0)(word)
                return name, form, word >> 7 & 31, word >> 15 & 31, word >> 20 & 31, immediate
    return None


class Trap(Exception):
    """An exception of the machine: its number and its value."""

    def __init__(self, cause, value):
        super().__init__(cause, value)
        self.cause, self.value = cause, value


class Stops(Exception):
    """Why a live machine can make no step, in the words of `snow drive`."""


class TooMany(Exception):
    """More steps than this is to make."""


class Ticket:
    """A ticket: for how many children it is, the share of each, and the brood once it is made."""

    def __init__(self, count, share):
        self.count, self.share, self.brood = count, share, None


class Brood:
    """The children of a ticket, and for each ordered pair of them the words that the one sent and the other has not received."""

    def __init__(self, children):
        self.children = children
        self.queues = {}

    def queue(self, sender, receiver):
        return self.queues.setdefault((sender, receiver), [])

    def live(self):
        return [child for child in self.children if child.ending is None]


class Machine:
    """A machine. Its tickets have its broods, and its log what it joined and killed."""

    # how many steps all machines together may still make
    left = float("inf")

    def __init__(self, image, disk=b"", given=b"", pages=64, limit=1000000, clones=0, is_driven=False):
        self.x, self.pc, self.user = [0] * 32, struct.unpack_from("<I", image, 24)[0], False
        self.csrs = {0x300: 0x1800, 0x304: 0, 0x305: 0, 0x340: 0, 0x341: 0, 0x342: 0, 0x343: 0}
        self.entries, self.addresses = [0] * 8, [0] * 8
        self.counters = {"mcycle": 0, "minstret": 0, "mtime": 0, "mtimecmp": (1 << 64) - 1}
        self.steps, self.limit, self.ending = 0, limit, None
        self.reserved = None
        self.ram, self.blank = bytearray(pages * PAGE), set(range(pages))
        # the pages that are not absent, where all are not; only `drive` asks
        self.is_driven, self.here = is_driven, None
        self.input, self.place, self.output, self.line_control = given, 0, b"", 0
        self.disk, self.sector, self.status, self.buffer = bytearray(disk), 0, 0, bytearray(SECTOR)
        self.args, self.result, self.clone_id, self.allot, self.selected, self.granted = [0, 0], 0, 0, clones, 0, 0
        self.tickets, self.next_ticket, self.joined, self.log = {}, 1, [], []
        self.brood, self.peer, self.word, self.talked, self.siblings = None, 0, 0, 0, 0
        self.load(image)

    def load(self, image):
        start, count = struct.unpack_from("<I12xH", image, 28)[0], struct.unpack_from("<H", image, 44)[0]
        for at in range(start, start + 32 * count, 32):
            kind, offset, _, place, filled, size = struct.unpack_from("<6I", image, at)
            if kind == 1 and size:
                self.ram[place - RAM : place - RAM + filled] = image[offset : offset + filled]
                self.blank -= set(range((place - RAM) // PAGE, (place - RAM + size - 1) // PAGE + 1))

    # ---- forks

    def child(self, number, ticket):
        """Returns a child of this machine, as it is behind the step that makes it."""
        made = copy.copy(self)
        for name in ("x", "csrs", "entries", "addresses", "counters", "ram", "blank", "disk", "buffer", "args"):
            setattr(made, name, copy.copy(getattr(self, name)))
        made.here = set(self.blank)
        made.clone_id = made.result = number
        made.allot, made.tickets, made.next_ticket = ticket.share, {}, 1
        made.output, made.joined, made.log = b"", [], []
        made.peer = made.word = made.talked = 0
        made.siblings = ticket.count
        return made

    def clone(self, ticket):
        ticket.brood = Brood([self.child(number, ticket) for number in range(1, ticket.count + 1)])
        for child in ticket.brood.children:
            child.brood = ticket.brood
            child.end_at_limit()

    def end(self, ending):
        self.ending = ending
        for number, ticket in sorted(self.tickets.items()):
            if ticket.brood:
                self.log.append((number, ticket.count))
        self.tickets, self.ram = {}, None
        for queue in [(sender, receiver) for sender, receiver in self.brood.queues if receiver == self.clone_id] if self.brood else []:
            del self.brood.queues[queue]

    def end_at_limit(self):
        if self.ending is None and self.steps == self.limit:
            self.end(("limit", 0, b""))

    def discard(self, number):
        ticket = self.tickets.pop(number)
        self.allot += ticket.count * (1 + ticket.share)

    def command(self, command):
        """Returns what a command of the fork port does."""
        first, second = self.args
        ticket = self.tickets.get(first)
        if command == TICKET:
            count = min(first, self.allot // (1 + second))
            return self.answers(BAD_ARGUMENT if first == 0 else NO_ALLOT) if count == 0 else lambda: self.grant(count, second)
        if command in (CLONE, JOIN, KILL) and ticket is None:
            return self.answers(NO_TICKET)
        if command == CLONE:
            return self.answers(CLONED) if ticket.brood else lambda: self.answers(0)() or (lambda: self.clone(ticket))
        if command == JOIN:
            if ticket.brood and ticket.brood.live():
                raise Stops(f"wait {first}")
            return (lambda: self.join(first)) if ticket.brood else self.answers(NOT_CLONED)
        if command == KILL:
            return lambda: self.kill(first)
        if command == EXIT:
            return lambda: self.end(("exit", first, b""))
        if command == ZERO:
            is_ram = second and first + second <= len(self.ram) // PAGE
            return (lambda: self.zero(first, second)) if is_ram else self.answers(BAD_ARGUMENT)
        if command & 0xFF == EXIT_BYTES:
            return self.hand_over(first, second, command >> 8)
        return self.answers(NO_COMMAND)

    def answers(self, result):
        return lambda: setattr(self, "result", result)

    def grant(self, count, share):
        self.allot -= count * (1 + share)
        self.tickets[self.next_ticket] = Ticket(count, share)
        self.result, self.granted, self.next_ticket = self.next_ticket, count, self.next_ticket + 1

    def join(self, number):
        children = self.tickets[number].brood.children
        self.joined, self.result = [child.ending for child in children], len(children)
        self.log.append((number, children))
        self.discard(number)

    def kill(self, number):
        ticket = self.tickets[number]
        self.result = ticket.count if ticket.brood else 0
        if ticket.brood:
            self.log.append((number, ticket.count))
        self.discard(number)

    def zero(self, first, count):
        self.ram[first * PAGE : (first + count) * PAGE] = bytes(count * PAGE)
        self.result = 0
        for pages in (self.blank, self.here):
            if pages is not None:
                pages.update(range(first, first + count))

    def hand_over(self, value, address, count):
        end = RAM + len(self.ram)
        if count > 64 or count and not (RAM <= address and address + count <= end):
            return self.answers(BAD_ARGUMENT)
        for page in range((address - RAM) // PAGE, (address + count - 1 - RAM) // PAGE + 1) if count else ():
            self.need(page)
        return lambda: self.end(("exit", value, bytes(self.ram[address - RAM : address - RAM + count] if count else b"")))

    # ---- talks

    def talk(self, command):
        """Returns what a command of the sibling port does."""
        if command not in (SEND, RECEIVE):
            return self.told(NO_COMMAND)
        peer = self.peer
        if peer in (0, self.clone_id) or peer > self.siblings:
            return self.told(BAD_ARGUMENT)
        has_ended = self.brood.children[peer - 1].ending is not None
        if command == SEND:
            queue = self.brood.queue(self.clone_id, peer)
            if has_ended:
                return self.told(0)
            if len(queue) == LONGEST_QUEUE:
                raise Stops(f"send {peer}")
            return lambda: queue.append(self.word) or self.told(0)()
        queue = self.brood.queue(peer, self.clone_id)
        if queue:
            return lambda: setattr(self, "word", queue.pop(0)) or self.told(0)()
        if has_ended:
            return self.told(ENDED)
        raise Stops(f"receive {peer}")

    def told(self, result):
        return lambda: setattr(self, "talked", result)

    # ---- ports

    def disk_command(self, command):
        if SECTOR * self.sector >= len(self.disk):
            return lambda: setattr(self, "status", 1)
        if command not in (1, 2):
            return lambda: setattr(self, "status", 2)
        self.need(DISK_PAGE + self.sector // 8)
        return lambda: self.move_sector(command)

    def move_sector(self, command):
        self.status, place = 0, slice(SECTOR * self.sector, SECTOR * (self.sector + 1))
        if command == 1:
            self.buffer[:] = self.disk[place]
        else:
            self.disk[place] = self.buffer

    def joined_child(self):
        """Returns how the child of the last join ended that is selected: kind, value and bytes."""
        if not 1 <= self.selected <= len(self.joined):
            return 0, 0, b""
        kind, value, handed = self.joined[self.selected - 1]
        return (1 if kind == "exit" else 2), value, handed

    def take_byte(self):
        self.place += 1

    def port_load(self, address, width):
        """Returns what a port gives, and what the load does, or None where no port gives it."""
        nothing = lambda: None  # noqa: E731
        if 0x10000000 <= address < 0x10000008 and width == 1:
            is_left = self.place < len(self.input)
            if address == 0x10000000 and is_left and self.line_control < 128:
                return self.input[self.place], self.take_byte
            return {3: self.line_control, 5: 0x60 + is_left}.get(address & 7, 0), nothing
        if width != 4:
            return None
        if 0x10001200 <= address < 0x10001400:
            return struct.unpack_from("<I", self.buffer, address - 0x10001200)[0], nothing
        if 0x10002040 <= address < 0x10002080:
            at = address - 0x10002040
            return int.from_bytes((self.joined_child()[2] + bytes(64))[at : at + 4], "little"), nothing
        kind, value, handed = self.joined_child()
        time, compare = self.counters["mtime"], self.counters["mtimecmp"]
        given = {
            0x02004000: compare & ONES, 0x02004004: compare >> 32, 0x0200BFF8: time & ONES, 0x0200BFFC: time >> 32,
            0x10001000: self.sector, 0x10001008: self.status, 0x1000100C: len(self.disk) // SECTOR,
            0x10002000: self.args[0], 0x10002004: self.args[1], 0x1000200C: self.result, 0x10002010: self.clone_id,
            0x10002014: self.allot, 0x10002018: self.selected, 0x1000201C: kind, 0x10002020: value, 0x10002024: self.granted,
            0x1000202C: len(handed),
            0x10003000: self.peer, 0x10003004: self.word, 0x1000300C: self.talked, 0x10003010: self.siblings,
        }  # fmt: skip
        return (given[address], nothing) if address in given else None

    def port_store(self, address, width, value):
        """Returns what a store to a port does, or None where no port takes it."""
        if 0x10000000 <= address < 0x10000008 and width == 1:
            return lambda: self.store_to_console(address & 7, value)
        if width != 4:
            return None
        if 0x10001200 <= address < 0x10001400:
            return lambda: struct.pack_into("<I", self.buffer, address - 0x10001200, value)
        if address in (0x02004000, 0x02004004, 0x0200BFF8, 0x0200BFFC):
            return lambda: self.put_half("mtimecmp" if address < 0x02008000 else "mtime", address & 4, value)
        if address in (0x10002000, 0x10002004):
            return lambda: self.args.__setitem__(address >> 2 & 1, value)
        kept = {0x10001000: "sector", 0x10002018: "selected", 0x10003000: "peer", 0x10003004: "word"}.get(address)
        if kept:
            return lambda: setattr(self, kept, value)
        does = {0x10001004: self.disk_command, 0x10002008: self.command, 0x10003008: self.talk}.get(address)
        return does and does(value)

    def store_to_console(self, offset, value):
        if offset == 0 and self.line_control < 128:
            self.output += bytes([value])
        elif offset == 3:
            self.line_control = value

    # ---- control and status registers, and memory protection

    def put_half(self, counter, is_high, value):
        old = self.counters[counter]
        self.counters[counter] = old & ONES | value << 32 if is_high else old >> 32 << 32 | value
        self.written.add(counter)

    def csr_value(self, number):
        """Returns what a register reads, or None where there is none of the number."""
        if number in self.csrs:
            return self.csrs[number]
        if number in (0xB00, 0xB02, 0xB80, 0xB82):
            return self.counters["minstret" if number & 2 else "mcycle"] >> (32 if number & 0x80 else 0) & ONES
        if number in (0x3A0, 0x3A1):
            return int.from_bytes(bytes(self.entries[4 * (number & 1) :][:4]), "little")
        if 0x3B0 <= number <= 0x3B7:
            return self.addresses[number & 7]
        if number == 0x301:
            return 0x40101101
        if number == 0x344:
            return 0x80 if self.is_due() else 0
        zeros = (0x306, 0x30A, 0x31A, 0x310, 0x320, *range(0x323, 0x340), 0x3A2, 0x3A3, *range(0x3B8, 0x3C0))
        return 0 if number in (*zeros, *range(0xB03, 0xB20), *range(0xB83, 0xBA0), *range(0xF11, 0xF16)) else None

    def put_csr(self, number, value):
        if number == 0x300:
            kept = 0x21888 if value >> 11 & 3 in (0, 3) else 0x20088
            self.csrs[number] = self.csrs[number] & ~kept | value & kept
        elif number in self.csrs:
            self.csrs[number] = value & {0x304: 0x80, 0x305: ~2 & ONES, 0x341: ~3 & ONES}.get(number, ONES)
        elif number in (0xB00, 0xB02, 0xB80, 0xB82):
            self.put_half("minstret" if number & 2 else "mcycle", number & 0x80, value)
        elif number in (0x3A0, 0x3A1):
            for place in range(4):
                byte, entry = value >> 8 * place & 0x9F, 4 * (number & 1) + place
                if self.entries[entry] < 0x80 and byte & 3 != 2:
                    self.entries[entry] = byte
        elif 0x3B0 <= number <= 0x3B7:
            entry = number & 7
            guards = entry < 7 and self.entries[entry + 1] >= 0x80 and self.entries[entry + 1] >> 3 & 3 == 1
            if self.entries[entry] < 0x80 and not guards:
                self.addresses[entry] = value

    def matches(self, entry, address):
        how, word = self.entries[entry] >> 3 & 3, self.addresses[entry]
        if how == 1:
            return 4 * (self.addresses[entry - 1] if entry else 0) <= address < 4 * word
        if how == 2:
            return 4 * word <= address < 4 * word + 4
        ones = (word ^ word + 1) >> 1
        start = 4 * (word & ~(2 * ones + 1))
        return how == 3 and start <= address < start + 8 * (ones + 1)

    def is_denied(self, needs, address, is_user):
        for entry in range(8):
            if self.entries[entry] & 0x18 and self.matches(entry, address):
                byte = self.entries[entry]
                return (is_user or byte >= 0x80) and byte & needs != needs
        return is_user

    def is_data_denied(self, needs, address):
        status = self.csrs[0x300]
        return self.is_denied(needs, address, self.user or status & 0x21800 == 0x20000)

    # ---- a step

    def is_due(self):
        return self.counters["mtime"] >= self.counters["mtimecmp"]

    def need(self, page):
        """Stops where a page is absent that the step touches."""
        if self.is_driven and self.here is not None and page not in self.here:
            raise Stops(f"stall {page}")

    def trap(self, cause, value):
        status = self.csrs[0x300]
        mode = 0 if self.user else 0x1800
        self.csrs.update({0x300: status & 0x20000 | (status & 8) << 4 | mode, 0x341: self.pc, 0x342: cause, 0x343: value})
        self.user, self.reserved = False, None
        handler = self.csrs[0x305]
        self.pc = (handler & ~3) + (28 if cause >> 31 and handler & 1 else 0) & ONES

    def returned(self):
        status = self.csrs[0x300]
        self.user, self.pc = not status & 0x1800, self.csrs[0x341]
        self.csrs[0x300] = status & (0 if self.user else 0x20000) | (status & 0x80) >> 4 | 0x80

    def put(self, register, value, pc):
        if register:
            self.x[register] = value & ONES
        self.pc = pc & ONES

    def next(self):
        """Returns what the next step does, and whether an instruction retires in it. Raises Stops where there is none yet."""
        if self.csrs[0x304] and self.is_due() and (self.user or self.csrs[0x300] & 8):
            return lambda: self.trap(0x80000007, 0), False
        try:
            return self.instruction(), True
        except Trap as trap:
            cause, value = trap.cause, trap.value
            return lambda: self.trap(cause, value), False

    def instruction(self):
        pc = self.pc
        if not RAM <= pc < RAM + len(self.ram) or self.is_denied(4, pc, self.user):
            raise Trap(1, pc)
        self.need((pc - RAM) // PAGE)
        word = int.from_bytes(self.ram[pc - RAM : pc - RAM + 4], "little")
        known = decode(word)
        if known is None:
            raise Trap(2, word)
        name, form, rd, rs1, rs2, immediate = known
        a, b = self.x[rs1], self.x[rs2]
        if name in ("jal", "jalr"):
            return self.jump(rd, pc + immediate if name == "jal" else a + immediate & ~1)
        if form in ("I", "shift", "R"):
            value = COMPUTE[name](a, b if form == "R" else immediate & ONES)
            return lambda: self.put(rd, value, pc + 4)
        if form == "B":
            return self.jump(0, pc + immediate if COMPUTE[name](a, b) else pc + 4)
        if form == "U":
            return lambda: self.put(rd, immediate + (pc if name == "auipc" else 0), pc + 4)
        if form == "load":
            return self.load_to(rd, a + immediate & ONES, WIDTHS[name[1]], name[2:] != "u")
        if form == "S":
            return self.store(a + immediate & ONES, WIDTHS[name[1]], b)
        if form in ("LR", "A"):
            return self.atomic(name, rd, a, b)
        if form == "CSR":
            return self.access(name, rd, rs1, immediate, word)
        return self.bare(name, word)

    def jump(self, register, target):
        target &= ONES
        if target % 4:
            raise Trap(0, target)
        behind = self.pc + 4
        return lambda: self.put(register, behind, target)

    def load_to(self, register, address, width, is_signed):
        if address % width:
            raise Trap(4, address)
        if self.is_data_denied(1, address):
            raise Trap(5, address)
        at, takes = address - RAM, lambda: None
        if 0 <= at < len(self.ram):
            self.need(at // PAGE)
            value = int.from_bytes(self.ram[at : at + width], "little")
        else:
            given = self.port_load(address, width)
            if given is None:
                raise Trap(5, address)
            value, takes = given
        if is_signed and value >> 8 * width - 1:
            value -= 1 << 8 * width
        behind = self.pc + 4
        return lambda: takes() or self.put(register, value, behind)

    def store(self, address, width, value):
        if address % width:
            raise Trap(6, address)
        if self.is_data_denied(2, address):
            raise Trap(7, address)
        at, value, behind = address - RAM, value & (1 << 8 * width) - 1, self.pc + 4
        if 0 <= at < len(self.ram):
            self.need(at // PAGE)
            return lambda: self.put_bytes(at, value.to_bytes(width, "little")) or self.put(0, 0, behind)
        does = self.port_store(address, width, value)
        if does is None:
            raise Trap(7, address)

        def retire():
            self.pc = behind & ONES
            return does()

        return retire

    def put_bytes(self, at, stored):
        self.ram[at : at + len(stored)] = stored
        self.blank.discard(at // PAGE)

    def atomic(self, name, register, address, operand):
        is_load, at, behind = name == "lr.w", address - RAM, self.pc + 4
        if address % 4:
            raise Trap(4 if is_load else 6, address)
        needs = 1 if is_load else 2 if name == "sc.w" else 3
        if not 0 <= at < len(self.ram) or self.is_data_denied(needs, address):
            raise Trap(5 if is_load else 7, address)
        if name == "sc.w" and self.reserved != address:
            return lambda: setattr(self, "reserved", None) or self.put(register, 1, behind)
        self.need(at // PAGE)
        old = int.from_bytes(self.ram[at : at + 4], "little")
        if is_load:
            return lambda: setattr(self, "reserved", address) or self.put(register, old, behind)
        if name == "sc.w":
            new, told, reserved = operand, 0, None
        else:
            new, told, reserved = COMPUTE[name](old, operand) & ONES, old, self.reserved
        stored = new.to_bytes(4, "little")
        return lambda: setattr(self, "reserved", reserved) or self.put_bytes(at, stored) or self.put(register, told, behind)

    def access(self, name, register, rs1, number, word):
        is_immediate, how = name.endswith("i"), name[4]
        operand = rs1 if is_immediate else self.x[rs1]
        writes = how == "w" or rs1 != 0
        old = self.csr_value(number)
        if self.user or old is None or writes and number >> 10 == 3:
            raise Trap(2, word)
        new, behind = {"w": operand, "s": old | operand, "c": old & ~operand}[how], self.pc + 4
        return lambda: (self.put_csr(number, new) if writes else None) or self.put(register, old, behind)

    def bare(self, name, word):
        if name == "ecall":
            raise Trap(8 if self.user else 11, 0)
        if name == "ebreak":
            raise Trap(3, 0)
        if name == "mret":
            if self.user:
                raise Trap(2, word)
            return self.returned
        behind = self.pc + 4
        return lambda: self.put(0, 0, behind)

    def step(self):
        """Makes a step. What it does to others, which are copies of it behind the step, comes when it is counted."""
        does, retires = self.next()
        Machine.left -= 1
        if Machine.left < 0:
            raise TooMany
        self.written = set()
        makes = does()
        for counter, is_counted in (("mcycle", True), ("minstret", retires), ("mtime", True)):
            if is_counted and counter not in self.written:
                self.counters[counter] = self.counters[counter] + 1 & (1 << 64) - 1
        self.steps += 1
        if makes:
            makes()
        self.end_at_limit()

    def run(self, count):
        """Makes so many steps, or fewer where it ends or stops before. Returns how many."""
        made = 0
        try:
            while made < count and self.ending is None:
                self.step()
                made += 1
        except Stops:
            pass
        return made

    def stands(self):
        """Returns in words how it ended or why it stops, or ok."""
        if self.ending:
            kind, value, _ = self.ending
            return f"exit {value}" if kind == "exit" else kind
        try:
            self.next()
        except Stops as stops:
            return str(stops)
        return "ok"

    # ---- families

    def below(self):
        """Yields the live machines of its family: itself, and then its children and all that comes of them."""
        left = [self]
        while left:
            machine = left.pop()
            if machine.ending is None:
                yield machine
                left += [child for _, ticket in sorted(machine.tickets.items(), reverse=True) if ticket.brood for child in reversed(ticket.brood.children)]

    def finish(self, draw=None):
        """Runs its family until it has ended or no machine can make a step. Who makes one may be drawn."""
        made = 1
        while made and self.ending is None:
            if draw:
                machines = list(self.below())
                draw.shuffle(machines)
                made = sum(machine.run(draw.choice((1, 2, 3, 10, 100, 10000))) for machine in machines)
            else:
                made = sum(machine.run(self.limit) for machine in self.below())

    def report(self, name="0"):
        """Returns the report of its family."""
        parts, left = [], [(name, self)]
        while left:
            name, item = left.pop()
            if isinstance(item, int):
                parts.append(b"ticket %s killed %d\n" % (name.encode(), item))
                continue
            kind, value, handed = item.ending or ("stuck", 0, b"")
            told = f"exit {value}" if kind == "exit" else kind
            over = f" handed {handed.hex()}" if handed else ""
            parts.append(f"machine {name} {told} steps {item.steps} out {len(item.output)}{over}\n".encode() + item.output + b"\n")
            lives = [(number, ticket.brood.children) for number, ticket in sorted(item.tickets.items()) if ticket.brood]
            items = []
            for number, children in item.log + lives:
                if isinstance(children, int):
                    items.append((f"{name}.{number}", children))
                else:
                    items += [(f"{name}.{number}.{place}", child) for place, child in enumerate(children, 1)]
            left += reversed(items)
        return b"".join(parts)


class Driver:
    """A family that a script drives, with the pages that were sent to the children of each ticket."""

    def __init__(self, root):
        self.root, self.sent = root, {}

    def find(self, name):
        """Returns the live machine of a name, or None."""
        machine, parts = self.root, [int(part) for part in name.split(".")[1:]]
        for number, place in zip(parts[::2], parts[1::2]):
            ticket = machine.tickets.get(number)
            if machine.ending or not ticket or not ticket.brood or place > ticket.count:
                return None
            machine = ticket.brood.children[place - 1]
        return None if machine.ending else machine

    def send(self, name, word, page):
        pages = self.sent.setdefault(name.rsplit(".", 1)[0], [])
        pages.append(page)
        return f"{word} {page} {len(pages) - 1}"

    def answer(self, line):
        """Does what a line of a script says, and returns its answer but for the name."""
        word, name, *rest = line.split(" ")
        machine = self.find(name)
        if machine is None:
            return "none" if word in ("step", "peek", "regs") else f"{word} none"
        if word == "step":
            return f"ran {machine.run(int(rest[0]))} {machine.stands()}"
        if word == "regs":
            return "regs " + " ".join(f"{register:08x}" for register in (machine.pc, *machine.x[1:]))
        if word == "peek":
            at = int(rest[0], 16) - RAM
            return f"word {int.from_bytes(machine.ram[at : at + 4], 'little'):08x}" if at % 4 == 0 and 0 <= at < len(machine.ram) else "word none"
        if machine is self.root:
            return f"{word} none"
        if word == "ask":
            stands = machine.stands()
            return self.send(name, word, int(stands[6:])) if stands.startswith("stall ") else "ask none"
        if word == "push":
            page, sectors = int(rest[0]), len(machine.disk) // SECTOR
            is_page = page < len(machine.ram) // PAGE or 0 <= page - DISK_PAGE < (sectors + 7) // 8
            return self.send(name, word, page) if is_page else "push none"
        pages, place = self.sent.get(name.rsplit(".", 1)[0], []), int(rest[0])
        if place >= len(pages):
            return "give none"
        had = pages[place] in machine.here
        machine.here.add(pages[place])
        return f"{'had' if had else 'got'} {pages[place]}"


def drive(root, script):
    """Returns what a script of lines writes."""
    driver = Driver(root)
    return "".join(f"{line.split(' ')[1]} {driver.answer(line)}\n" for line in script.split("\n") if line)


def asked_by(words):
    parser = argparse.ArgumentParser(prog="whole_copies", usage="tests/whole_copies run|drive IMAGE [SCRIPT] [OPTION]..; --help tells more")
    parser.format_help = lambda: __doc__
    parser.add_argument("command", choices=("run", "drive"))
    parser.add_argument("image")
    if words[:1] == ["drive"]:
        parser.add_argument("script")
    for name, option in options_of("run").items():
        parser.add_argument(name, type=str if option.is_file() else int, default=option.default)
    parser.add_argument("--draw", type=int)
    return parser.parse_args(words)


def read(name):
    if name is None:
        return b""
    with open(name, "rb") as file:
        return file.read()


def wrote(words):
    """Returns what a command of these words writes."""
    asked = asked_by(words)
    root = Machine(read(asked.image), read(asked.disk), read(asked.input), asked.ram, asked.limit, asked.clones, asked.command == "drive")
    if asked.command == "drive":
        return drive(root, read(asked.script).decode("ascii")).encode()
    root.finish(asked.draw and random.Random(asked.draw))
    return root.report()


# The options of the guests of examples/ that want some.
OPTIONS = {
    "two_children": "--clones 2", "join_bytes": "--clones 2", "kill_then_join": "--clones 2", "grandchild": "--clones 2",
    "timer_at_fork": "--clones 1", "thousand_children": "--clones 100 --ram 16", "long_chain": "--clones 100 --ram 16",
    "loop_compute": "--limit 20000", "loop_memory": "--limit 20000", "loop_multiply": "--limit 20000", "illegal_word": "--limit 2000",
    "map_reduce": "--clones 8", "sandboxes": "--clones 1", "sandbox": "--clones 1", "race": "--clones 2", "disk_log": "--clones 2",
    "search": "--clones 4",
}  # fmt: skip


def compare(program, wanted):
    """Compares what a program writes of the guests of examples/ with what this writes, by three orders of steps."""
    compared, differ = 0, []
    for file in sorted(os.listdir(f"{ROOT}/examples")):
        name, _, kind = file.rpartition(".")
        if kind != "elf" or wanted and not any(word in name for word in wanted):
            continue
        words = ["run", f"{ROOT}/examples/{file}", *OPTIONS.get(name, "").split()]
        found = subprocess.run([program, *words], stdout=subprocess.PIPE, check=False).stdout
        reports = {wrote(words), *(wrote([*words, "--draw", str(seed)]) for seed in (1, 2))}
        compared += 1
        if reports != {found}:
            differ.append(name)
    for name in differ:
        print(f"whole_copies: {program} writes another report of {name}", file=sys.stderr)
    if not differ:
        print(f"whole_copies: all well, {compared} guests")
    return 1 if differ else 0


def main(words):
    if words[:1] == ["--help"]:
        print(__doc__)
        return 0
    if words[:1] == ["--compare"] and len(words) > 1:
        return compare(os.path.abspath(words[1]), words[2:])
    sys.stdout.buffer.write(wrote(words))
    return 0

