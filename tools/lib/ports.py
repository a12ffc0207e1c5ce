"""The ports of a guest's machine, as docs/machine.md has them: addresses, offsets of registers, commands and refusals."""

RAM, PAGE = 0x80000000, 4096

CONSOLE = 0x10000000

TIMER = 0x02004000
MTIMECMP, MTIMECMPH, MTIME, MTIMEH = 0, 4, 0x7FF8, 0x7FFC

# The block port.
BLOCK = 0x10001000
SECTOR, BLOCK_COMMAND, STATUS, COUNT, BUFFER = 0, 4, 8, 12, 0x200
READ, WRITE = 1, 2
SECTOR_SIZE, PAGE_SECTORS, FIRST_DISK_PAGE = 512, 8, 1 << 31

# The fork port.
FORK = 0x10002000
ARG0, ARG1, COMMAND, RESULT, CLONE_ID, ALLOT, JSEL, JKIND, JVALUE, GRANTED = range(0, 40, 4)
JLEN, JBYTES = 44, 0x40
TICKET, CLONE, JOIN, KILL, EXIT, ZERO, EXIT_BYTES = 1, 2, 3, 4, 5, 6, 7
NO_TICKET, CLONED, NOT_CLONED, BAD_ARGUMENT, NO_ALLOT, NO_COMMAND, ENDED = range(0xFFFFFFFF, 0xFFFFFFF8, -1)

# The sibling port.
SIBLING = 0x10003000
PEER, DATA, TALK, TALK_RESULT, SIBLINGS = range(0, 20, 4)
SEND, RECEIVE = 1, 2

# The registers that are words, by address: name, and whether it is loaded and stored.
WORDS = {
    TIMER + MTIMECMP: ("mtimecmp", "ls"), TIMER + MTIMECMPH: ("mtimecmph", "ls"),
    TIMER + MTIME: ("mtime", "ls"), TIMER + MTIMEH: ("mtimeh", "ls"),
    BLOCK + SECTOR: ("SECTOR", "ls"), BLOCK + BLOCK_COMMAND: ("disk COMMAND", "s"),
    BLOCK + STATUS: ("STATUS", "l"), BLOCK + COUNT: ("COUNT", "l"),
    FORK + ARG0: ("ARG0", "ls"), FORK + ARG1: ("ARG1", "ls"), FORK + COMMAND: ("COMMAND", "s"), FORK + RESULT: ("RESULT", "l"),
    FORK + CLONE_ID: ("CLONE ID", "l"), FORK + ALLOT: ("ALLOT", "l"), FORK + JSEL: ("JSEL", "ls"),
    FORK + JKIND: ("JKIND", "l"), FORK + JVALUE: ("JVALUE", "l"), FORK + GRANTED: ("GRANTED", "l"), FORK + JLEN: ("JLEN", "l"),
    SIBLING + PEER: ("PEER", "ls"), SIBLING + DATA: ("DATA", "ls"), SIBLING + TALK: ("sibling COMMAND", "s"),
    SIBLING + TALK_RESULT: ("sibling RESULT", "l"), SIBLING + SIBLINGS: ("SIBLINGS", "l"),
}  # fmt: skip
WORDS |= {BLOCK + BUFFER + 4 * number: (f"buffer[{number}]", "ls") for number in range(SECTOR_SIZE // 4)}
WORDS |= {FORK + JBYTES + 4 * number: (f"JBYTES[{number}]", "l") for number in range(16)}
