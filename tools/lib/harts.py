"""What a machine does at a step: which trap it is, and what it stores. It is derived from what `snow drive` tells, and from the
mode, the control and status registers, memory protection and the timer, which are followed from the boot on."""

from lib import ports
from lib.instructions import CSRS, ENTRIES, Instruction, decode, signed
from lib.ports import CONSOLE, EXIT_BYTES, FORK, RAM, RECEIVE, SEND, SIBLING, TIMER, WORDS

# A trap: its cause, its value, and which entry of memory protection made it, in words, or None.
Trap = tuple[int, int, str | None]

MSTATUS, MIE, MTVEC, MSCRATCH, MEPC, MCAUSE, MTVAL = 0x300, 0x304, 0x305, 0x340, 0x341, 0x342, 0x343

MTIMECMP, MTIMECMPH = TIMER + ports.MTIMECMP, TIMER + ports.MTIMECMPH
MTIME, MTIMEH = TIMER + ports.MTIME, TIMER + ports.MTIMEH
ARG0, ARG1, COMMAND = FORK + ports.ARG0, FORK + ports.ARG1, FORK + ports.COMMAND
PEER, DATA, TALK = SIBLING + ports.PEER, SIBLING + ports.DATA, SIBLING + ports.TALK
COMMANDS = {getattr(ports, name): name for name in ("TICKET", "CLONE", "JOIN", "KILL", "EXIT", "ZERO")}
WIDTHS = {"lb": 1, "lbu": 1, "sb": 1, "lh": 2, "lhu": 2, "sh": 2}


def command_name(word: int) -> str | None:
    """Returns what a word is as a command of the fork port, or None."""
    if word & 0xFF == EXIT_BYTES:
        return f"EXIT with {word >> 8} bytes"
    return COMMANDS.get(word)


class State:
    """What `regs` tells of a machine: the pc, and x0 to x31. The numbers have nine places each in the answer."""

    def __init__(self, answer: str):
        self.numbers = answer[answer.index(" regs ") + 6 :]
        self.pc = int(self.numbers[:8], 16)

    def register(self, number: int) -> int:
        return int(self.numbers[9 * number : 9 * number + 8], 16) if number else 0

    def registers(self) -> list[int]:
        return [self.register(number) for number in range(32)]


def is_given(address: int, width: int, direction: str, ram_end: int) -> bool:
    """Returns whether RAM or a port gives an access."""
    if RAM <= address < ram_end:
        return True
    if CONSOLE <= address < CONSOLE + 8:
        return width == 1
    return width == 4 and direction in WORDS.get(address, ("", ""))[1]


class Control:
    """What traps depend on beside the registers: the mode, the control and status registers, the entries of memory
    protection and the timer. It is that of a machine at its boot, and follows its steps."""

    def __init__(self) -> None:
        self.user = False
        self.csrs = {MSTATUS: 0x1800, MIE: 0, MTVEC: 0, MSCRATCH: 0, MEPC: 0, MCAUSE: 0, MTVAL: 0}
        self.bytes, self.words = [0] * ENTRIES, [0] * ENTRIES
        self.regions = [(0, 0)] * ENTRIES
        self.time, self.compare = 0, 2**64 - 1

    def region(self, place: int) -> tuple[int, int]:
        """Returns the first byte that an entry matches, and the one behind its last."""
        how, word = self.bytes[place] >> 3 & 3, self.words[place]
        if how == 1:
            return 4 * self.words[place - 1] if place else 0, 4 * word
        if how == 2:
            return 4 * word, 4 * word + 4
        if how == 3:
            low = word ^ word + 1
            return 4 * (word & ~low), 4 * ((word | low) + 1)
        return 0, 0

    def denial(self, needs: int, address: int, is_user: bool) -> str | None:
        """Returns which entry denies an access, in words, or None where it is allowed."""
        if not is_user and max(self.bytes) < 0x80:
            return None
        for place, (first, behind) in enumerate(self.regions):
            if first <= address < behind:
                byte = self.bytes[place]
                if byte & needs == needs or not is_user and byte < 0x80:
                    return None
                rights = "".join(right if byte >> bit & 1 else "-" for bit, right in enumerate("rwx"))
                locked = ", locked" if byte >= 0x80 else ""
                return f"entry {place} decides, {rights} from {first:08x} to {min(behind - 1, 0xFFFFFFFF):08x}{locked}"
        return "no entry matches" if is_user else None

    def data_denial(self, needs: int, address: int) -> str | None:
        """Returns the same of a load or a store, which MPRV has made in the mode in MPP."""
        status = self.csrs[MSTATUS]
        return self.denial(needs, address, self.user or bool(status >> 17 & 1) and not status & 0x1800)

    def is_interrupted(self) -> bool:
        """Returns whether the coming step is the interrupt of the timer."""
        return bool(self.csrs[MIE]) and self.time >= self.compare and (self.user or bool(self.csrs[MSTATUS] & 8))

    def read(self, number: int) -> int | None:
        """Returns what a register reads, or None for those that it does not follow."""
        if number in (0x3A0, 0x3A1):
            return sum(byte << 8 * at for at, byte in enumerate(self.bytes[4 * (number - 0x3A0) :][:4]))
        if 0x3B0 <= number < 0x3B0 + ENTRIES:
            return self.words[number - 0x3B0]
        if number == 0x344:
            return 0x80 if self.time >= self.compare else 0
        return self.csrs.get(number)

    def write(self, number: int, value: int) -> None:
        if number == MSTATUS:
            kept = 0x21888 if value >> 11 & 3 in (0, 3) else 0x20088
            self.csrs[MSTATUS] = self.csrs[MSTATUS] & ~kept & 0x21888 | value & kept
        elif number in self.csrs:
            self.csrs[number] = value & {MIE: 0x80, MTVEC: ~2, MEPC: ~3}.get(number, -1)
        elif number in (0x3A0, 0x3A1):
            for place in range(4 * (number - 0x3A0), 4 * (number - 0x3A0) + 4):
                byte = value >> 8 * (place % 4) & 0x9F
                if self.bytes[place] < 0x80 and byte & 3 != 2:
                    self.bytes[place] = byte
        elif 0x3B0 <= number < 0x3B0 + ENTRIES:
            place = number - 0x3B0
            guarded = place + 1 < ENTRIES and self.bytes[place + 1] & 0x98 == 0x88
            if self.bytes[place] < 0x80 and not guarded:
                self.words[place] = value
        self.regions = [self.region(place) for place in range(ENTRIES)]

    def trap(self, cause: int, value: int, pc: int) -> int:
        """Goes to the handler, and returns its address."""
        status = self.csrs[MSTATUS]
        self.csrs[MSTATUS] = status & 0x20000 | (status & 8) << 4 | (0 if self.user else 0x1800)
        self.csrs.update({MEPC: pc, MCAUSE: cause, MTVAL: value})
        self.user = False
        base = self.csrs[MTVEC] & ~3
        return base + 28 & 0xFFFFFFFF if cause >> 31 and self.csrs[MTVEC] & 1 else base

    def returned(self) -> int:
        """Does what MRET does, and returns where it leads."""
        status = self.csrs[MSTATUS]
        self.user = not status & 0x1800
        self.csrs[MSTATUS] = status & (0 if self.user else 0x20000) | (status & 0x80) >> 4 | 0x80
        return self.csrs[MEPC]

    def step(self, state: State, word: int | None, ram_end: int) -> tuple[Trap | None, int]:
        """Makes a step, and returns the trap that it is, or None, and where the pc goes."""
        trap, target = foresee(state, word, ram_end, self)
        is_counted = True
        if trap:
            target = self.trap(*trap[:2], state.pc)
        else:
            known = decode(word)
            if known.name == "mret":
                target = self.returned()
            elif known.form == "CSR":
                self.access(known, state)
            elif known.name == "sw":
                is_counted = self.store(state.register(known.rs1) + known.immediate & 0xFFFFFFFF, state.register(known.rs2))
        self.time = self.time + is_counted & 2**64 - 1
        return trap, target

    def access(self, known: Instruction, state: State) -> None:
        old = self.read(known.csr)
        operand = known.rs1 if known.name.endswith("i") else state.register(known.rs1)
        if old is None or known.rs1 == 0 and known.name not in ("csrrw", "csrrwi"):
            return
        self.write(known.csr, {"w": operand, "s": old | operand, "c": old & ~operand}[known.name[4]])

    def store(self, address: int, value: int) -> bool:
        """Follows a store to the timer, and returns whether the time counts the step."""
        if address in (MTIMECMP, MTIMECMPH):
            self.compare = half_put(self.compare, address & 4, value)
        elif address in (MTIME, MTIMEH):
            self.time = half_put(self.time, address & 4, value)
            return False
        return True


def half_put(number: int, is_high: int, value: int) -> int:
    """Returns a number of 64 bits whose high or low half is a value."""
    return number & 0xFFFFFFFF | value << 32 if is_high else number >> 32 << 32 | value


def foresee(state: State, word: int | None, ram_end: int, control: Control) -> tuple[Trap | None, int | None]:
    """Returns the trap that comes at a state, as its cause, its value and which entry of memory protection made it, or
    None; and where the pc goes where none comes, None where it returns from a trap."""
    if control.is_interrupted():
        return (0x80000007, 0, None), None
    denied = control.denial(4, state.pc, control.user)
    if word is None or denied:
        return (1, state.pc, denied), None
    known = decode(word)
    if known is None:
        return (2, word, None), None
    target = target_of(state, known)
    if target % 4:
        return (0, target, None), None
    if known.is_load() or known.is_store():
        trap = trap_of_access(state, known, ram_end, control)
        return trap, None if trap else target
    is_write = known.name in ("csrrw", "csrrwi") or known.rs1 != 0
    if known.form == "CSR" and (control.user or known.csr not in CSRS or is_write and known.csr >> 10 == 3):
        return (2, word, None), None
    if known.name == "mret":
        return (2, word, None) if control.user else None, None
    if known.name in ("ebreak", "ecall"):
        return (3 if known.name == "ebreak" else 8 if control.user else 11, 0, None), None
    return None, target


def target_of(state: State, known: Instruction) -> int:
    """Returns where an instruction leads, if it is no trap and no return from one."""
    target = state.pc + 4
    if known.form == "J":
        target = state.pc + known.immediate
    elif known.name == "jalr":
        target = state.register(known.rs1) + known.immediate & ~1
    elif known.form == "B":
        one, other = state.register(known.rs1), state.register(known.rs2)
        near, far = signed(one, 32), signed(other, 32)
        taken = {"beq": one == other, "bne": one != other, "blt": near < far, "bge": near >= far,
                 "bltu": one < other, "bgeu": one >= other}[known.name]
        target = state.pc + (known.immediate if taken else 4)
    return target & 0xFFFFFFFF


def trap_of_access(state: State, known: Instruction, ram_end: int, control: Control) -> Trap | None:
    """Returns the trap that a load or a store is, or None."""
    address = state.register(known.rs1) + known.immediate & 0xFFFFFFFF
    width = WIDTHS.get(known.name, 4)
    if address % width:
        return (4 if known.is_load() else 6, address, None)
    needs = 1 if known.is_load() else 2 if known.form == "S" or known.name == "sc.w" else 3
    denied = control.data_denial(needs, address)
    given = is_given(address, width, "l" if known.is_load() else "s", ram_end)
    if denied or not given or known.form == "A" and not RAM <= address < ram_end:
        return (5 if known.is_load() else 7, address, denied)
    return None


def denials(state: State, word: int) -> list[Trap]:
    """Returns the causes and values of the exceptions that user mode or memory protection may make of a step."""
    known = decode(word)
    if known.is_load() or known.is_store():
        address = state.register(known.rs1) + known.immediate & 0xFFFFFFFF
        return [(5 if known.is_load() else 7, address, None), (1, state.pc, None)]
    if known.form == "CSR" or known.name == "mret":
        return [(2, word, None), (1, state.pc, None)]
    return [(1, state.pc, None)]


def store_of(state: State, word: int | None) -> tuple[int, int] | None:
    """Returns the address and the word that an instruction stores, where it is SW, or None."""
    known = decode(word) if word is not None else None
    if known and known.name == "sw":
        return state.register(known.rs1) + known.immediate & 0xFFFFFFFF, state.register(known.rs2)
    return None


def written_by(state: State, word: int | None) -> tuple[int, int] | None:
    """Returns the address and the width of what an instruction writes to memory or a port, or None. Whether it traps, or an SC
    fails, is another matter."""
    known = decode(word) if word is not None else None
    if not known or not known.is_store():
        return None
    return state.register(known.rs1) + known.immediate & 0xFFFFFFFF, WIDTHS.get(known.name, 4)


def note_of(state: State, known: Instruction, ram_end: int) -> str:
    """Returns what an instruction stores, or which port it loads from, in words, and nothing for others."""
    if not (known.is_load() or known.is_store()):
        return ""
    address = state.register(known.rs1) + known.immediate & 0xFFFFFFFF
    in_ram = RAM <= address < ram_end
    place = f"[{address:08x}]"
    if CONSOLE <= address < CONSOLE + 8:
        place = f"console {address & 7}"
    elif address in WORDS:
        place = WORDS[address][0]
    if known.is_load():
        return "" if in_ram else f"from {place}"
    if known.form == "A":
        return f"at {place}"
    value = state.register(known.rs2) & (1 << 8 * WIDTHS.get(known.name, 4)) - 1
    text = f"{place} = {value:0{2 * WIDTHS.get(known.name, 4)}x}"
    if address == COMMAND and (name := command_name(value)):
        text += f" {name}"
    elif address == TALK and value in (SEND, RECEIVE):
        text += " SEND" if value == SEND else " RECEIVE"
    elif address == CONSOLE and 32 <= value < 127:
        text += f" '{chr(value)}'"
    return text
