"""Words of instructions, from their operands as numbers."""

from lib.instructions import ROWS

# Each instruction by its name: its bits, and its format. A load and JALR have an offset and a register, as a store has.
PLACES = {"jalr", "lb", "lh", "lw", "lbu", "lhu"}
INSTRUCTIONS = {name: (bits, "load" if name in PLACES else "LR" if name == "lr.w" else form) for _, bits, name, form in ROWS}


def low(value, width):
    """Returns the low bits of a number that fits them, signed or unsigned. Raises ValueError where it does not."""
    if not -(1 << width - 1) <= value < 1 << width:
        raise ValueError(f"{value} does not fit {width} bits")
    return value & (1 << width) - 1


def branch_bits(offset):
    bits = low(offset, 13)
    return bits >> 12 << 31 | (bits >> 5 & 0x3F) << 25 | (bits >> 1 & 0xF) << 8 | (bits >> 11 & 1) << 7


def jump_bits(offset):
    bits = low(offset, 21)
    return bits >> 20 << 31 | (bits >> 1 & 0x3FF) << 21 | (bits >> 11 & 1) << 20 | (bits >> 12 & 0xFF) << 12


def store_bits(offset):
    bits = low(offset, 12)
    return bits >> 5 << 25 | (bits & 31) << 7


# What an instruction's operands make of its word, by its format. They stand in the order of assembly text.
FORMATS = {
    "bare": lambda: 0,
    "U": lambda rd, upper: rd << 7 | low(upper, 20) << 12,
    "J": lambda rd, offset: rd << 7 | jump_bits(offset),
    "B": lambda rs1, rs2, offset: rs1 << 15 | rs2 << 20 | branch_bits(offset),
    "I": lambda rd, rs1, value: rd << 7 | rs1 << 15 | low(value, 12) << 20,
    "load": lambda rd, offset, rs1: rd << 7 | rs1 << 15 | low(offset, 12) << 20,
    "S": lambda rs2, offset, rs1: rs2 << 20 | rs1 << 15 | store_bits(offset),
    "shift": lambda rd, rs1, amount: rd << 7 | rs1 << 15 | low(amount, 5) << 20,
    "R": lambda rd, rs1, rs2: rd << 7 | rs1 << 15 | rs2 << 20,
    "CSR": lambda rd, csr, rs1: rd << 7 | rs1 << 15 | csr << 20,
    "LR": lambda rd, rs1: rd << 7 | rs1 << 15,
    "A": lambda rd, rs2, rs1: rd << 7 | rs2 << 20 | rs1 << 15,
}


def encoded(name, *operands):
    """Returns the word of an instruction, each of whose operands is a number: a register's, an immediate value, a CSR's."""
    bits, form = INSTRUCTIONS[name]
    return bits | FORMATS[form](*operands)
