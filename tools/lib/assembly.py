"""Guests as assembly text: `assembled(text)` returns the words.

A line has an instruction, or several with a `;` between them, in the manual's spelling: `lw x7, RESULT(x5)`. Registers are
x0 to x31. A number may be a name of `ports`, or a sum such as `RAM + 8`. `li rd, number` is one instruction or two,
`la rd, label` is AUIPC and ADDI, and `mv`, `nop`, `j`, `csrr` and `csrw` are as in the manual. `.word` gives words as they
are, `label:` names the place of the next word, and what follows a `#` is a comment. Where a label is wanted, a sum may
stand behind it: `la x6, handler + 1`.
"""

import re

from lib import ports
from lib.encoding import INSTRUCTIONS, encoded
from lib.instructions import CSRS as CSR_NAMES

CSRS = {name: number for number, name in CSR_NAMES.items()}

# Short forms, and the instruction that each stands for.
SHORT = {
    "mv": lambda rd, rs: ("addi", rd, rs, "0"),
    "nop": lambda: ("addi", "x0", "x0", "0"),
    "j": lambda label: ("jal", "x0", label),
    "csrr": lambda rd, csr: ("csrrs", rd, csr, "x0"),
    "csrw": lambda csr, rs: ("csrrw", "x0", csr, rs),
}

TERM = re.compile(r"([+-]?)\s*(\w+)")
SUM = re.compile(rf"({TERM.pattern}\s*)*")
PLACE = re.compile(r"(.*)\((\w+)\)")
LABEL = re.compile(r"([A-Za-z_]\w*):\s*")
NEAR_LABEL = re.compile(r"(\w+)\s*([+-].*)?")
REGISTERS = {f"x{number}": number for number in range(32)}


class AssemblyError(Exception):
    """A line that is no assembly text."""


def halves(value):
    """Returns the upper 20 bits of LUI or AUIPC, and what ADDI adds to it, so that both give a number."""
    return (value + 0x800 >> 12) & 0xFFFFF, (value & 0xFFF ^ 0x800) - 0x800


def register(text):
    if text not in REGISTERS:
        raise AssemblyError(f"{text} is no register")
    return REGISTERS[text]


class Assembler:
    """Makes words of lines, with the names that numbers use."""

    def __init__(self, names):
        self.names, self.labels, self.words = names, {}, []

    def number(self, text):
        """Returns the value of a number, of a name, or of a sum of these."""
        if not SUM.fullmatch(text):
            raise AssemblyError(f"{text} is no number")
        value = 0
        for sign, part in TERM.findall(text):
            try:
                one = self.names[part] if part in self.names else int(part, 0)
            except ValueError:
                raise AssemblyError(f"{part} is no number, and no name") from None
            value += -one if sign == "-" else one
        return value

    def distance(self, text):
        """Returns how far it is from the next word to a label, or to so many bytes behind or before one."""
        found = NEAR_LABEL.fullmatch(text)
        if not found or found[1] not in self.labels:
            raise AssemblyError(f"there is no label {text}")
        return self.labels[found[1]] + self.number(found[2] or "0") - 4 * len(self.words)

    def place(self, text):
        """Returns the offset and the register of `offset(register)`."""
        found = PLACE.fullmatch(text)
        if not found:
            raise AssemblyError(f"{text} is no offset(register)")
        return self.number(found[1]), register(found[2])

    def csr(self, text):
        return CSRS[text] if text in CSRS else self.number(text)

    def operands(self, name, texts):
        """Returns an instruction's operands as numbers."""
        form = INSTRUCTIONS[name][1]
        *first, last = texts or [""]
        if form == "bare":
            return []
        if form in ("load", "S"):
            return [register(*first), *self.place(last)]
        if form in ("LR", "A"):
            return [*map(register, first), self.place(last)[1]]
        if form in ("B", "J"):
            return [*map(register, first), self.distance(last)]
        if form == "CSR":
            value = self.number(last) if name.endswith("i") else register(last)
            return [register(first[0]), self.csr(first[1]), value]
        return [*map(register, first), register(last) if form == "R" else self.number(last)]

    def add(self, name, *texts):
        """Adds the words of an instruction of the text."""
        if name == ".word":
            self.words += [self.number(one) & 0xFFFFFFFF for one in texts]
        elif name == "li":
            self.load_number(texts[0], self.number(texts[1]))
        elif name == "la":
            upper, rest = halves(self.distance(texts[1]))
            self.add("auipc", texts[0], str(upper))
            self.add("addi", texts[0], texts[0], str(rest))
        elif name in SHORT:
            self.add(*SHORT[name](*texts))
        elif name in INSTRUCTIONS:
            self.words.append(encoded(name, *self.operands(name, texts)))
        else:
            raise AssemblyError(f"there is no instruction {name}")

    def load_number(self, rd, value):
        """Adds the instructions that put a number into a register: one where that does, and else two."""
        upper, rest = halves(value)
        if is_short(value):
            self.add("addi", rd, "x0", str(rest))
            return
        self.add("lui", rd, str(upper))
        if rest:
            self.add("addi", rd, rd, str(rest))

    def size(self, name, texts):
        """Returns how many words an instruction of the text is."""
        if name == "li":
            value = self.number(texts[1])
            return 1 if is_short(value) or halves(value)[1] == 0 else 2
        return 2 if name == "la" else len(texts) if name == ".word" else 1


def is_short(value):
    """Tells whether ADDI alone puts a number into a register."""
    return halves(value)[0] == 0 or -2048 <= value < 2048


def statements(text):
    """Yields the labels and the instructions of a text: its line, the name, and its operands, which a label has none of."""
    for line in text.replace(";", "\n").splitlines():
        line = line.partition("#")[0].strip()
        while found := LABEL.match(line):
            yield line, found[1], None
            line = line[found.end() :]
        if line:
            name, _, rest = line.partition(" ")
            yield line, name, [one.strip() for one in rest.split(",") if one.strip()]


def assembled(text, **names):
    """Returns the words of a text. Its numbers may use the names of `ports`, and those that are given.

    Raises AssemblyError where a line is no assembly text, and names the line.
    """
    assembler, lines, at = Assembler({**vars(ports), **names}), list(statements(text)), 0
    line = ""
    try:
        for line, name, texts in lines:
            if texts is None:
                assembler.labels[name] = 4 * at
            else:
                at += assembler.size(name, texts)
        for line, name, texts in lines:
            if texts is not None:
                assembler.add(name, *texts)
    except (AssemblyError, TypeError, ValueError, IndexError) as why:
        raise AssemblyError(f"{line}: {why}") from None
    return assembler.words
