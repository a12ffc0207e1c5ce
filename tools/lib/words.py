"""Words of instructions by calls, for scripts that write guests: `addi(6, 0, 1)`. Operands stand as in assembly text."""

from functools import partial

from lib.assembly import assembled, halves
from lib.encoding import encoded

lui, addi, add, sub, slt, lw, sw, sb, bne, beq = (partial(encoded, name) for name in "lui addi add sub slt lw sw sb bne beq".split())
jal = partial(encoded, "jal", 0)


def number(rd, value):
    """Returns the two words that put a number into a register."""
    upper, rest = halves(value)
    return [lui(rd, upper), addi(rd, rd, rest)]


def li(rd, value):
    """Returns the word that puts a number into a register, or the two, where one does not."""
    return assembled(f"li x{rd}, {value}")


def placed(lines):
    """Returns the words of lines. A text names the place of the next word, and `to` makes a word that leads to one."""
    places, at = {}, 0
    for line in lines:
        if isinstance(line, str):
            places[line] = 4 * at
        else:
            at += 1
    words = []
    for line in lines:
        if isinstance(line, tuple):
            branch, registers, name = line
            words.append(branch(*registers, places[name] - 4 * len(words)))
        elif not isinstance(line, str):
            words.append(line)
    return words


def to(branch, *registers, place):
    """Returns a line of a branch, or of a jump, to a place that a line names."""
    return branch, registers, place
