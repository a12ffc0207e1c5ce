"""Guests in user mode and under entries of memory protection, and a plain model of what entries allow."""

from lib.ports import RAM
from snippets import ALL, EXIT_0, EXIT_CAUSE, EXIT_VALUE, EXIT_X7, EXIT_X8, EXIT_X9, TO_TWO_BEFORE, TO_USER, TRAPS

ENTRIES = 8

# What a guest does, the guest, and how its machine ends.
GUESTS = [
    (
        "user mode has no entry: the fetch traps",
        f"li x5, FORK; {TRAPS}; {TO_TWO_BEFORE}; ecall; ebreak; {EXIT_CAUSE}",
        "exit 1 steps 13",
    ),
    (
        "so it does before a read of a CSR",
        f"li x5, FORK; {TRAPS}; {TO_TWO_BEFORE}; csrr x7, mcause; ebreak; {EXIT_CAUSE}",
        "exit 1 steps 13",
    ),
    (
        "and before MRET",
        f"li x5, FORK; {TRAPS}; {TO_TWO_BEFORE}; mret; ebreak; {EXIT_CAUSE}",
        "exit 1 steps 13",
    ),
    (
        "the trap leaves user mode in MPP",
        f"li x5, FORK; {TRAPS}; {TO_TWO_BEFORE}; ecall; ebreak; handler: csrr x7, mstatus; {EXIT_X7}",
        "exit 0 steps 13",
    ),
    (
        "with one, ECALL comes from user mode",
        f"li x5, FORK; {ALL}; {TRAPS}; {TO_TWO_BEFORE}; ecall; ebreak; {EXIT_CAUSE}",
        "exit 8 steps 17",
    ),
    (
        "and without X the fetch traps",
        f"li x5, FORK; li x6, -1; csrw pmpaddr0, x6; li x6, 27; csrw pmpcfg0, x6; {TRAPS}; {TO_TWO_BEFORE}; ecall; "
        f"ebreak; {EXIT_CAUSE}",
        "exit 1 steps 17",
    ),
    (
        "the first MRET stays in machine mode, as MPP is at the start",
        f"li x5, FORK; {ALL}; la x6, user; csrw mepc, x6; mret; user: csrr x7, mstatus; {EXIT_X7}",
        "exit 128 steps 13",
    ),
    (
        "the second goes to user mode",
        f"li x5, FORK; {ALL}; {TRAPS}; la x6, user; csrw mepc, x6; mret; user: la x6, user2; csrw mepc, x6; mret; "
        f"user2: ecall; {EXIT_CAUSE}",
        "exit 8 steps 21",
    ),
    (
        "MRET is illegal in user mode",
        f"li x5, FORK; {ALL}; {TRAPS}; {TO_TWO_BEFORE}; mret; ebreak; {EXIT_CAUSE}",
        "exit 2 steps 17",
    ),
    (
        "so is a read of a CSR",
        f"li x5, FORK; {ALL}; {TRAPS}; {TO_TWO_BEFORE}; csrr x7, mcause; ebreak; {EXIT_CAUSE}",
        "exit 2 steps 17",
    ),
    (
        "WFI changes nothing there: EBREAK behind it traps",
        f"li x5, FORK; {ALL}; {TRAPS}; {TO_TWO_BEFORE}; wfi; ebreak; {EXIT_CAUSE}",
        "exit 3 steps 18",
    ),
    (
        "mstatus keeps MIE, MPIE, MPP and MPRV",
        f"li x5, FORK; {ALL}; li x6, -1; csrw mstatus, x6; csrr x7, mstatus; {EXIT_X7}",
        "exit 137352 steps 11",
    ),
    (
        "MPP stays where it would be 01 or 10",
        f"li x5, FORK; {ALL}; li x6, 2048; csrw mstatus, x6; csrr x7, mstatus; li x6, 0; csrw mstatus, x6; "
        f"li x6, 0x1000; csrw mstatus, x6; csrr x8, mstatus; add x7, x7, x8; {EXIT_X7}",
        "exit 6144 steps 18",
    ),
    (
        "an interrupt comes in user mode with MIE 0",
        f"li x5, FORK; {ALL}; {TRAPS}; li x6, 128; csrw mie, x6; li x7, TIMER; sw x0, MTIMECMP(x7); "
        f"sw x0, MTIMECMPH(x7); {TO_USER}; user: addi x8, x8, 1; addi x8, x8, 1; {EXIT_X8}; {EXIT_CAUSE}",
        "exit 2147483655 steps 23",
    ),
    (
        "and in machine mode it does not",
        f"li x5, FORK; {ALL}; {TRAPS}; li x6, 128; csrw mie, x6; li x7, TIMER; sw x0, MTIMECMP(x7); "
        f"sw x0, MTIMECMPH(x7); addi x8, x8, 1; addi x8, x8, 1; {EXIT_X8}; {EXIT_CAUSE}",
        "exit 2 steps 18",
    ),
    (
        "an interrupt comes into a long loop in user mode",
        f"li x5, FORK; {ALL}; {TRAPS}; li x6, 128; csrw mie, x6; li x7, TIMER; li x8, 3000; sw x8, MTIMECMP(x7); "
        f"sw x0, MTIMECMPH(x7); {TO_USER}; user: addi x9, x9, 1; bne x9, x0, user; handler: {EXIT_X9}",
        "exit 1490 steps 3004",
    ),
    (
        "a CSR is illegal in user mode, with the word as value",
        f"li x5, FORK; {ALL}; {TRAPS}; {TO_USER}; user: csrr x7, mcycle; {EXIT_VALUE}",
        "exit 2952799219 steps 18",
    ),
    (
        "a handler that traps and keeps no mstatus returns into user mode",
        f"li x5, FORK; {ALL}; {TRAPS}; ecall; ecall; handler: addi x9, x9, 1; li x8, 1; bne x9, x8, behind; ebreak; "
        "mret; behind: li x8, 2; bne x9, x8, behind2; csrr x6, mepc; addi x6, x6, 4; csrw mepc, x6; mret; "
        f"behind2: csrr x7, mcause; {EXIT_X7}",
        "exit 2 steps 33",
    ),
    (
        "MPRV is 0 after MRET to user mode",
        f"li x5, FORK; {ALL}; {TRAPS}; li x6, 0x20000; csrw mstatus, x6; la x6, user; csrw mepc, x6; mret; user: ecall; "
        f"handler: csrr x7, mstatus; {EXIT_X7}",
        "exit 0 steps 19",
    ),
    (
        "an address word of all ones is everything",
        f"li x5, FORK; {TRAPS}; {ALL}; {TO_USER}; user: ecall; {EXIT_CAUSE}",
        "exit 8 steps 18",
    ),
    (
        "so is one of 31 ones",
        f"li x5, FORK; {TRAPS}; li x6, 0x7fffffff; csrw pmpaddr0, x6; li x6, 31; csrw pmpcfg0, x6; {TO_USER}; "
        f"user: ecall; {EXIT_CAUSE}",
        "exit 8 steps 19",
    ),
    (
        "and one of 29",
        f"li x5, FORK; {TRAPS}; li x6, 0x1fffffff; csrw pmpaddr0, x6; li x6, 31; csrw pmpcfg0, x6; {TO_USER}; "
        f"user: ecall; {EXIT_CAUSE}",
        "exit 8 steps 19",
    ),
    (
        "30 ones below 10 are a region from 2^33 on",
        f"li x5, FORK; {TRAPS}; li x6, 0xbfffffff; csrw pmpaddr0, x6; li x6, 31; csrw pmpcfg0, x6; {TO_USER}; "
        f"user: ecall; {EXIT_CAUSE}",
        "exit 1 steps 19",
    ),
    (
        "29 ones below 110 one from 3 * 2^32 on",
        f"li x5, FORK; {TRAPS}; li x6, 0xdfffffff; csrw pmpaddr0, x6; li x6, 31; csrw pmpcfg0, x6; {TO_USER}; "
        f"user: ecall; {EXIT_CAUSE}",
        "exit 1 steps 19",
    ),
    (
        "a range begins at the address word of an entry that is off",
        f"li x5, FORK; {TRAPS}; li x6, 0x20000000; csrw pmpaddr0, x6; li x6, 0x20000400; csrw pmpaddr1, x6; "
        f"li x6, 3840; csrw pmpcfg0, x6; {TO_USER}; user: ecall; {EXIT_CAUSE}",
        "exit 8 steps 22",
    ),
    (
        "which may be above the code",
        f"li x5, FORK; {TRAPS}; li x6, 0x20000100; csrw pmpaddr0, x6; li x6, 0x20000400; csrw pmpaddr1, x6; "
        f"li x6, 3840; csrw pmpcfg0, x6; {TO_USER}; user: ecall; {EXIT_CAUSE}",
        "exit 1 steps 23",
    ),
    (
        "the first entry that matches decides",
        f"li x5, FORK; {TRAPS}; li x6, 0x20000400; csrw pmpaddr0, x6; li x6, -1; csrw pmpaddr1, x6; li x6, 0x1f10; "
        f"csrw pmpcfg0, x6; {TO_USER}; user: li x7, RAM + PAGE; lw x8, 0(x7); {EXIT_CAUSE}",
        "exit 5 steps 23",
    ),
    (
        "the word beside is the second's",
        f"li x5, FORK; {TRAPS}; li x6, 0x20000400; csrw pmpaddr0, x6; li x6, -1; csrw pmpaddr1, x6; li x6, 0x1f10; "
        f"csrw pmpcfg0, x6; {TO_USER}; user: li x7, RAM + PAGE; lw x8, 4(x7); ecall; {EXIT_CAUSE}",
        "exit 8 steps 24",
    ),
    (
        "in machine mode an entry that is not locked allows all",
        f"li x5, FORK; {TRAPS}; li x6, 0x20000400; csrw pmpaddr0, x6; li x6, -1; csrw pmpaddr1, x6; li x6, 0x1f10; "
        f"csrw pmpcfg0, x6; li x7, RAM + PAGE; lw x8, 0(x7); li x7, 99; {EXIT_X7}; {EXIT_CAUSE}",
        "exit 99 steps 18",
    ),
    (
        "and one that is locked binds it",
        f"li x5, FORK; {TRAPS}; li x6, 0x20000400; csrw pmpaddr0, x6; li x6, -1; csrw pmpaddr1, x6; li x6, 0x1f90; "
        f"csrw pmpcfg0, x6; li x7, RAM + PAGE; lw x8, 0(x7); li x7, 99; {EXIT_X7}; {EXIT_CAUSE}",
        "exit 5 steps 18",
    ),
    (
        "a locked range guards the address word before it",
        "li x5, FORK; li x6, 136; csrw pmpcfg1, x6; li x6, 7; csrw pmpaddr3, x6; csrw pmpaddr4, x6; csrw pmpaddr2, x6; "
        f"csrr x7, pmpaddr3; csrr x8, pmpaddr4; add x7, x7, x8; csrr x8, pmpaddr2; add x7, x7, x8; {EXIT_X7}",
        "exit 7 steps 15",
    ),
    (
        "a byte with W and without R is left",
        "li x5, FORK; li x6, 0x1020304; csrw pmpcfg0, x6; li x6, 0x7f021f60; csrw pmpcfg0, x6; csrr x7, pmpcfg0; "
        f"{EXIT_X7}",
        "exit 520101632 steps 11",
    ),
    (
        "an SC that would fail is denied where W is missing",
        f"li x5, FORK; {TRAPS}; li x6, -1; csrw pmpaddr0, x6; li x6, 29; csrw pmpcfg0, x6; {TO_USER}; "
        f"user: li x7, RAM + PAGE; sc.w x8, x8, (x7); {EXIT_CAUSE}",
        "exit 7 steps 19",
    ),
    (
        "what LR reserves in machine mode SC stores to in user mode",
        f"li x5, FORK; {ALL}; {TRAPS}; li x7, RAM + PAGE; lr.w x8, (x7); {TO_USER}; user: sc.w x8, x5, (x7); "
        f"lw x9, 0(x7); ecall; handler: add x7, x9, x8; {EXIT_X7}",
        "exit 268443648 steps 22",
    ),
    (
        "a trap from user mode ends the reservation",
        f"li x5, FORK; {ALL}; {TRAPS}; li x7, RAM + PAGE; {TO_USER}; user: lr.w x8, (x7); ecall; "
        f"handler: sc.w x8, x5, (x7); lw x9, 0(x7); add x7, x9, x8; {EXIT_X7}",
        "exit 1 steps 22",
    ),
    (
        "MPRV has data accessed by the mode in MPP, and a trap leaves it",
        f"li x5, FORK; {TRAPS}; li x6, 0x20000; csrw mstatus, x6; li x7, RAM + PAGE; lw x8, 0(x7); "
        f"handler: csrr x7, mcause; csrr x8, mstatus; srli x8, x8, 11; add x7, x7, x8; {EXIT_X7}",
        "exit 72 steps 15",
    ),
    (
        "a port is denied as RAM is",
        f"li x5, FORK; {TRAPS}; li x6, 0x200001ff; csrw pmpaddr0, x6; li x6, 31; csrw pmpcfg0, x6; {TO_USER}; "
        f"user: li x6, EXIT; sw x6, COMMAND(x5); {EXIT_VALUE}",
        "exit 268443656 steps 20",
    ),
    (
        "so is the console, which puts out nothing",
        f"li x5, FORK; {TRAPS}; li x6, 0x200001ff; csrw pmpaddr0, x6; li x6, 31; csrw pmpcfg0, x6; {TO_USER}; "
        "user: li x8, CONSOLE; li x9, 65; sb x9, 0(x8); ecall; handler: csrr x7, mcause; csrr x8, mtval; "
        f"add x7, x7, x8; {EXIT_X7}",
        "exit 268435463 steps 23",
    ),
    (
        "code that ran is denied once its entry is locked without X",
        f"li x5, FORK; {TRAPS}; la x6, again; srli x6, x6, 2; csrw pmpaddr0, x6; li x9, 300; li x8, 144; "
        f"again: addi x9, x9, -1; bne x9, x0, again; csrw pmpcfg0, x8; beq x0, x0, again; {EXIT_VALUE}",
        "exit 2147483688 steps 617",
    ),
    (
        "stores in user mode go up to the first that is denied",
        f"li x5, FORK; {TRAPS}; li x6, 0x200005ff; csrw pmpaddr0, x6; li x6, 0x200001ff; csrw pmpaddr1, x6; "
        f"li x6, 0x1d1b; csrw pmpcfg0, x6; {TO_USER}; user: li x7, RAM + PAGE; again: sw x7, 0(x7); addi x7, x7, 4; "
        f"beq x0, x0, again; {EXIT_VALUE}",
        "exit 2147491840 steps 3096",
    ),
    (
        "a store to code without W traps",
        f"li x5, FORK; {TRAPS}; li x6, 0x200005ff; csrw pmpaddr0, x6; li x6, 0x200001ff; csrw pmpaddr1, x6; "
        f"li x6, 0x1d1b; csrw pmpcfg0, x6; {TO_USER}; user: sw x7, 0(x6); handler: csrr x7, mcause; csrr x8, mtval; "
        f"add x7, x7, x8; {EXIT_X7}",
        "exit 2147483727 steps 25",
    ),
]

# A machine forks in user mode, and its child stays there.
CHILD_OF_USER = (
    f"li x5, FORK; {TRAPS}; {ALL}; {TO_USER}; user: li x6, TICKET; sw x6, ARG0(x5); sw x0, ARG1(x5); "
    "sw x6, COMMAND(x5); lw x7, RESULT(x5); sw x7, ARG0(x5); li x6, CLONE; sw x6, COMMAND(x5); lw x8, CLONE_ID(x5); "
    f"bne x8, x0, child; li x6, JOIN; sw x6, COMMAND(x5); li x6, 1; sw x6, JSEL(x5); lw x7, JVALUE(x5); {EXIT_X7}; "
    f"child: ecall; {EXIT_CAUSE}"
)


# ---- a plain model


def region(entries, place):
    """Returns the first byte that an entry matches, and the one behind its last."""
    byte, word = entries[place]
    below = entries[place - 1][1] if place else 0
    how = byte >> 3 & 3
    if how == 0:
        return 0, 0
    if how == 1:
        return 4 * below, 4 * word
    if how == 2:
        return 4 * word, 4 * word + 4
    ones = 0
    while word >> ones & 1:
        ones += 1
    first = 4 * (word >> ones + 1 << ones + 1)
    return first, first + 2 ** (ones + 3)


def allows(entries, needs, user, address):
    """Returns whether an access that needs these bits is allowed in user mode, or in machine mode."""
    for place, (byte, _) in enumerate(entries):
        first, behind = region(entries, place)
        if first <= address < behind:
            return not user and byte >> 7 == 0 or byte & needs == needs
    return not user


# ---- guests that try accesses

KINDS = {"load": 1, "store": 2, "amo": 3}
TRIES = {"load": "lw x9, 0(x15)", "store": "sw x16, 0(x15)", "amo": "amoadd.w x9, x0, (x15)"}


def probe(kind, user, address):
    """Returns lines that try an access and put out 1 where it was made, and 0 where it was not. x7 has the bit MPRV, by which
    a data access has the rights of user mode."""
    tries = f"csrrs x0, mstatus, x7; {TRIES[kind]}; csrrc x0, mstatus, x7" if user else TRIES[kind]
    return f"li x15, {address}; li x8, 1; {tries}; addi x9, x8, 48; sb x9, 0(x5)"


def guest(entries, tries):
    """Returns a guest that writes the entries and then tries accesses, each told by a byte of its output. A trap leaves 0 in x8
    and goes on behind the instruction."""
    lines = ["j begin; handler: li x8, 0; csrr x6, mepc; addi x6, x6, 4; csrw mepc, x6; mret"]
    lines.append("begin: li x5, CONSOLE; li x6, RAM + 4; csrw mtvec, x6; li x7, 0x20000; csrw mstatus, x0")
    lines += [f"li x6, {word}; csrw pmpaddr{place}, x6" for place, (_, word) in enumerate(entries)]
    for half in 0, 1:
        packed = sum(byte << 8 * at for at, (byte, _) in enumerate(entries[4 * half : 4 * half + 4]))
        lines.append(f"li x6, {packed}; csrw pmpcfg{half}, x6")
    return "\n".join([*lines, *(probe(*one) for one in tries), f"li x5, FORK; {EXIT_0}"])


def drawn_entry(draw):
    """Returns an entry of pages 32 to 47, where the guest keeps nothing, or of user mode alone."""
    word = RAM // 4 + 1024 * draw.randrange(32, 48) + draw.randrange(1024)
    locks = draw.random() < 0.2
    byte = draw.choice((0, 1, 3, 4, 5, 7)) | draw.randrange(4) << 3
    if byte >> 3 & 3 == 3:
        ones = draw.choice((0, 0, 1, 2, 3, 5, 8)) if locks else draw.choice((0, 1, 2, 3, 5, 8, 12, 16, 20, 28, 29, 30, 31, 32))
        word = word >> ones << ones | (1 << ones) - 1
        if ones < 32:
            word &= ~(1 << ones)
    elif not locks and draw.random() < 0.2:
        word = draw.randrange(2**32)
    return byte, word & 0xFFFFFFFF, locks


def drawn_entries(draw):
    """Returns eight entries. One is locked only where its region lies in pages 32 to 47."""
    entries, locks = [], []
    for _ in range(ENTRIES):
        byte, word, wants_lock = drawn_entry(draw)
        entries.append((byte, word))
        locks.append(wants_lock)
    for place in range(ENTRIES):
        first, behind = region(entries, place)
        if locks[place] and RAM + 0x20000 <= first < behind <= RAM + 0x30000:
            entries[place] = entries[place][0] | 0x80, entries[place][1]
    return entries


def drawn_tries(draw, entries):
    """Returns accesses at the edges of regions and elsewhere in RAM."""
    addresses = [RAM + 4 * draw.randrange(0x8000, 0xC000) for _ in range(4)]
    for place in range(ENTRIES):
        for edge in region(entries, place):
            addresses += [edge - 4, edge]
    inside = [address for address in addresses if RAM + 0x20000 <= address < RAM + 0x30000]
    return [(kind, draw.random() < 0.6, address) for address in draw.sample(inside, min(8, len(inside))) for kind in KINDS]
