#!/usr/bin/env python3
"""Writes guest images: ELF files with one segment, of instruction words that go to 0x80000000.

    examples/make.py                     writes the images of this folder
    examples/make.py FILE WORD..         writes one image of these words, each in hexadecimal
    examples/make.py FILE --text TEXT    writes one image of assembly text, such as "li x5, FORK; sw x0, ARG0(x5)"
"""

import os
import struct
import sys

sys.dont_write_bytecode = True
sys.path.insert(0, f"{os.path.dirname(os.path.dirname(os.path.realpath(__file__)))}/tools")
from lib.assembly import AssemblyError, assembled
from lib.ports import RAM

# The guests by name, each as assembly text. README.md has them instruction by instruction.
GUESTS = {
    "exit_seven": "li x5, FORK; li x6, 7; sw x6, ARG0(x5); li x6, EXIT; sw x6, COMMAND(x5)",
    "print_letter": (
        "li x5, CONSOLE; li x6, 65; sb x6, 0(x5); li x5, FORK; sw x0, ARG0(x5); li x6, EXIT; sw x6, COMMAND(x5)"
    ),
    "illegal_word": ".word 0",
    "trap_handler": (
        "li x5, FORK; la x6, handler; csrw mtvec, x6; ecall; ebreak; handler: csrr x7, mcause; sw x7, ARG0(x5); "
        "li x6, EXIT; sw x6, COMMAND(x5)"
    ),
    "user_mode": (
        "li x5, FORK; la x6, handler; csrw mtvec, x6; addi x6, x6, -8; csrw mepc, x6; csrw mstatus, x0; mret; ecall; "
        "ebreak; handler: csrr x7, mcause; sw x7, ARG0(x5); li x6, EXIT; sw x6, COMMAND(x5)"
    ),
    "protected_user": (
        "li x5, FORK; li x6, -1; csrw pmpaddr0, x6; li x6, 31; csrw pmpcfg0, x6; la x6, handler; csrw mtvec, x6; "
        "addi x6, x6, -8; csrw mepc, x6; csrw mstatus, x0; mret; ecall; ebreak; handler: csrr x7, mcause; "
        "sw x7, ARG0(x5); li x6, EXIT; sw x6, COMMAND(x5)"
    ),
    "ten_ticks": (
        "li x5, FORK; la x6, handler; csrw mtvec, x6; li x8, TIMER; sw x0, MTIMECMPH(x8); li x10, 20; "
        "sw x10, MTIMECMP(x8); li x6, 128; csrw mie, x6; csrrsi x0, mstatus, 8; wait: j wait; "
        "handler: addi x7, x7, 1; li x11, 10; beq x7, x11, ends; addi x10, x10, 20; sw x10, MTIMECMP(x8); mret; "
        "ends: sw x7, ARG0(x5); li x6, EXIT; sw x6, COMMAND(x5)"
    ),
    "echo_byte": (
        "li x5, CONSOLE; lbu x6, 0(x5); sb x6, 0(x5); li x5, FORK; sw x0, ARG0(x5); li x6, EXIT; sw x6, COMMAND(x5)"
    ),
    "copy_sector": (
        "li x5, BLOCK; li x6, READ; sw x0, SECTOR(x5); sw x6, BLOCK_COMMAND(x5); li x7, RAM + PAGE; "
        "addi x8, x5, BUFFER; addi x9, x5, BUFFER + SECTOR_SIZE; copies: lw x10, 0(x8); sw x10, 0(x7); "
        "addi x8, x8, 4; addi x7, x7, 4; bne x8, x9, copies; sw x6, SECTOR(x5); li x11, WRITE; "
        "sw x11, BLOCK_COMMAND(x5); addi x8, x5, BUFFER; clears: sw x0, 0(x8); addi x8, x8, 4; bne x8, x9, clears; "
        "sw x6, BLOCK_COMMAND(x5); li x7, RAM + PAGE; addi x8, x5, BUFFER; li x12, 0; compares: lw x10, 0(x8); "
        "lw x13, 0(x7); beq x10, x13, is_same; addi x12, x12, 1; is_same: addi x8, x8, 4; addi x7, x7, 4; "
        "bne x8, x9, compares; lw x14, STATUS(x5); add x12, x12, x14; lw x14, COUNT(x5); li x15, 2; "
        "beq x14, x15, is_told; addi x12, x12, 1; is_told: li x16, CONSOLE; lw x10, BUFFER(x5); sb x10, 0(x16); "
        "lw x10, BUFFER + 508(x5); srli x10, x10, 24; sb x10, 0(x16); li x5, FORK; sw x12, ARG0(x5); li x6, EXIT; "
        "sw x6, COMMAND(x5)"
    ),
    "two_children": (
        "li x5, FORK; li x6, 2; sw x6, ARG0(x5); sw x0, ARG1(x5); li x6, TICKET; sw x6, COMMAND(x5); "
        "lw x7, RESULT(x5); sw x7, ARG0(x5); li x6, CLONE; sw x6, COMMAND(x5); lw x8, CLONE_ID(x5); "
        "bne x8, x0, child; li x6, JOIN; sw x7, ARG0(x5); sw x6, COMMAND(x5); li x6, 1; sw x6, JSEL(x5); "
        "lw x6, JVALUE(x5); sw x6, ARG0(x5); li x6, EXIT; sw x6, COMMAND(x5); child: addi x6, x8, 40; "
        "sw x6, ARG0(x5); li x6, EXIT; sw x6, COMMAND(x5)"
    ),
    "hand_over_bytes": (
        "li x5, FORK; li x9, RAM; sw x9, ARG1(x5); li x6, 7; sw x6, ARG0(x5); li x6, 0x400 + EXIT_BYTES; "
        "sw x6, COMMAND(x5)"
    ),
    "join_bytes": (
        "li x5, FORK; li x6, 2; sw x6, ARG0(x5); sw x0, ARG1(x5); li x6, TICKET; sw x6, COMMAND(x5); "
        "lw x7, RESULT(x5); sw x7, ARG0(x5); li x6, CLONE; sw x6, COMMAND(x5); lw x8, CLONE_ID(x5); "
        "bne x8, x0, child; li x6, JOIN; sw x7, ARG0(x5); sw x6, COMMAND(x5); li x6, 1; sw x6, JSEL(x5); "
        "lw x6, JBYTES(x5); sw x6, ARG0(x5); li x6, EXIT; sw x6, COMMAND(x5); child: addi x6, x8, 40; "
        "sw x6, ARG0(x5); li x9, RAM; sw x9, ARG1(x5); li x6, 0x400 + EXIT_BYTES; sw x6, COMMAND(x5)"
    ),
    "kill_then_join": (
        "li x5, FORK; li x6, 2; sw x6, ARG0(x5); sw x0, ARG1(x5); li x6, TICKET; sw x6, COMMAND(x5); "
        "lw x7, RESULT(x5); sw x7, ARG0(x5); li x6, CLONE; sw x6, COMMAND(x5); lw x8, CLONE_ID(x5); "
        "bne x8, x0, child; li x6, KILL; sw x7, ARG0(x5); sw x6, COMMAND(x5); li x6, JOIN; sw x6, COMMAND(x5); "
        "lw x6, RESULT(x5); sw x6, ARG0(x5); li x6, EXIT; sw x6, COMMAND(x5); child: addi x6, x8, 40; "
        "sw x6, ARG0(x5); li x6, EXIT; sw x6, COMMAND(x5)"
    ),
    "sibling_swap": (
        "li x5, FORK; li x6, 2; sw x6, ARG0(x5); sw x0, ARG1(x5); li x6, TICKET; sw x6, COMMAND(x5); "
        "lw x7, RESULT(x5); sw x7, ARG0(x5); li x6, CLONE; sw x6, COMMAND(x5); lw x8, CLONE_ID(x5); "
        "bne x8, x0, child; li x6, JOIN; sw x7, ARG0(x5); sw x6, COMMAND(x5); li x6, 1; sw x6, JSEL(x5); "
        "lw x6, JVALUE(x5); sw x6, ARG0(x5); li x6, EXIT; sw x6, COMMAND(x5); child: li x13, SIBLING; li x6, 3; "
        "sub x6, x6, x8; sw x6, PEER(x13); sw x8, DATA(x13); li x6, SEND; sw x6, TALK(x13); li x6, RECEIVE; "
        "sw x6, TALK(x13); lw x6, DATA(x13); sw x6, ARG0(x5); li x6, EXIT; sw x6, COMMAND(x5)"
    ),
    "sibling_stuck": (
        "li x5, FORK; li x6, 2; sw x6, ARG0(x5); sw x0, ARG1(x5); li x6, TICKET; sw x6, COMMAND(x5); "
        "lw x7, RESULT(x5); sw x7, ARG0(x5); li x6, CLONE; sw x6, COMMAND(x5); lw x8, CLONE_ID(x5); "
        "bne x8, x0, child; li x6, JOIN; sw x7, ARG0(x5); sw x6, COMMAND(x5); li x6, 1; sw x6, JSEL(x5); "
        "lw x6, JVALUE(x5); sw x6, ARG0(x5); li x6, EXIT; sw x6, COMMAND(x5); child: li x13, SIBLING; li x6, 3; "
        "sub x6, x6, x8; sw x6, PEER(x13); sw x8, DATA(x13); li x6, RECEIVE; sw x6, TALK(x13); li x6, RECEIVE; "
        "sw x6, TALK(x13); lw x6, DATA(x13); sw x6, ARG0(x5); li x6, EXIT; sw x6, COMMAND(x5)"
    ),
    "grandchild": (
        "li x5, FORK; li x9, RAM + PAGE; li x10, 17; sw x10, 0(x9); li x6, TICKET; sw x6, ARG0(x5); sw x6, ARG1(x5); "
        "sw x6, COMMAND(x5); lw x7, RESULT(x5); sw x7, ARG0(x5); li x6, CLONE; sw x6, COMMAND(x5); "
        "lw x8, RESULT(x5); bne x8, x0, child; li x10, 18; sw x10, 0(x9); j joins; child: li x6, TICKET; "
        "sw x6, ARG0(x5); sw x0, ARG1(x5); sw x6, COMMAND(x5); lw x7, RESULT(x5); sw x7, ARG0(x5); li x6, CLONE; "
        "sw x6, COMMAND(x5); lw x8, RESULT(x5); bne x8, x0, grandchild; li x10, 19; sw x10, 0(x9); "
        "joins: li x6, JOIN; sw x7, ARG0(x5); sw x6, COMMAND(x5); li x6, 1; sw x6, JSEL(x5); lw x10, JVALUE(x5); "
        "ends: sw x10, ARG0(x5); li x6, EXIT; sw x6, COMMAND(x5); grandchild: lw x10, 0(x9); j ends"
    ),
    "timer_at_fork": (
        "li x5, FORK; li x9, TIMER; li x10, RAM + 0x2000; csrw mtvec, x10; sw x5, 0(x10); li x6, TICKET; "
        "sw x6, ARG0(x5); sw x0, ARG1(x5); sw x6, COMMAND(x5); lw x7, RESULT(x5); sw x7, ARG0(x5); li x6, 128; "
        "csrw mie, x6; li x6, 19; sw x6, MTIMECMP(x9); sw x0, MTIMECMPH(x9); csrrsi x0, mstatus, 8; li x6, CLONE; "
        "sw x6, COMMAND(x5)"
    ),
    "thousand_children": (
        "li x5, FORK; li x6, 1000; sw x6, ARG0(x5); sw x0, ARG1(x5); li x6, TICKET; sw x6, COMMAND(x5); "
        "lw x7, RESULT(x5); sw x7, ARG0(x5); li x6, CLONE; sw x6, COMMAND(x5); lw x8, CLONE_ID(x5); "
        "bne x8, x0, child; li x6, JOIN; sw x6, COMMAND(x5); lw x6, RESULT(x5); sw x6, ARG0(x5); li x6, EXIT; "
        "sw x6, COMMAND(x5); child: sw x8, ARG0(x5); li x6, EXIT; sw x6, COMMAND(x5)"
    ),
    "long_chain": (
        "li x5, FORK; again: lw x9, ALLOT(x5); beq x9, x0, last; li x6, TICKET; sw x6, ARG0(x5); addi x10, x9, -1; "
        "sw x10, ARG1(x5); sw x6, COMMAND(x5); lw x7, RESULT(x5); sw x7, ARG0(x5); li x6, CLONE; sw x6, COMMAND(x5); "
        "lw x8, RESULT(x5); bne x8, x0, again; li x6, JOIN; sw x6, COMMAND(x5); li x6, 1; sw x6, JSEL(x5); "
        "lw x11, JVALUE(x5); addi x11, x11, 1; sw x11, ARG0(x5); li x6, EXIT; sw x6, COMMAND(x5); "
        "last: sw x0, ARG0(x5); li x6, EXIT; sw x6, COMMAND(x5)"
    ),
    "straight_line": (
        f"li x5, FORK; li x7, RAM + 0x40000; li x6, 0; {32497 * 'addi x6, x6, 1; sw x6, -16(x7); '}"
        "sw x6, ARG0(x5); li x6, EXIT; sw x6, COMMAND(x5)"
    ),
    "loop_compute": (
        "li x6, 1; again: slli x7, x6, 13; xor x6, x6, x7; srli x7, x6, 17; xor x6, x6, x7; slli x7, x6, 5; "
        "xor x6, x6, x7; andi x7, x6, 1; beq x7, x0, even; addi x8, x8, 1; even: j again"
    ),
    "loop_memory": (
        "li x5, RAM + PAGE; li x6, RAM + 0x2000; again: mv x7, x5; next: lw x8, 0(x7); addi x8, x8, 1; sw x8, 0(x7); "
        "lhu x9, 0(x7); sh x9, 2(x7); lb x10, 0(x7); sb x10, 1(x7); addi x7, x7, 4; bne x7, x6, next; j again"
    ),
    "loop_multiply": (
        "li x5, 0x19660d; li x6, 1; again: mul x6, x6, x5; addi x6, x6, 1; mulhu x7, x6, x5; divu x8, x6, x7; "
        "rem x9, x6, x5; j again"
    ),
}


def words_of(name):
    """Returns the words of a guest of this folder."""
    return assembled(GUESTS[name])


def image(words):
    """Returns the image of these words, each a number."""
    code = struct.pack(f"<{len(words)}I", *words)
    size = len(code)
    ident = b"\x7fELF" + bytes([1, 1, 1]) + bytes(9)
    header = struct.pack("<HHIIIIIHHHHHH", 2, 243, 1, RAM, 52, 0, 0, 52, 32, 1, 0, 0, 0)
    segment = struct.pack("<8I", 1, 84, RAM, RAM, size, size, 7, 4)
    return ident + header + segment + code


def write(file, words):
    with open(file, "wb") as to:
        to.write(image(words))


def main(arguments):
    if arguments == ["--help"]:
        print(__doc__)
        return
    if len(arguments) == 1 or arguments and arguments[0].startswith("-"):
        sys.exit("make.py: an image wants a name and its words; examples/make.py --help tells more")
    if arguments[1:2] == ["--text"]:
        try:
            write(arguments[0], assembled("; ".join(arguments[2:])))
        except AssemblyError as fault:
            sys.exit(f"make.py: {fault}")
        return
    if arguments:
        write(arguments[0], [int(word, 16) for word in arguments[1:]])
        return
    folder = os.path.dirname(os.path.abspath(__file__))
    for name in GUESTS:
        write(f"{folder}/{name}.elf", words_of(name))


if __name__ == "__main__":
    main(sys.argv[1:])
