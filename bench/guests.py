"""Guests that the measurements run: families whose machines make tickets and join them, as instruction words."""

import os
import sys

sys.path.insert(0, f"{os.path.dirname(os.path.dirname(os.path.realpath(__file__)))}/tools")
from lib.ports import (ARG0, ARG1, BLOCK, BLOCK_COMMAND, BUFFER, CLONE, CLONE_ID, COMMAND, EXIT, FORK, JOIN, PAGE, RAM, READ,
                   RESULT, SECTOR, TICKET, WRITE)  # fmt: skip
from lib.words import add, addi, beq, bne, jal, li, lw, number, placed, slt, sub, sw, to

FORK_PORT, BLOCK_PORT = li(5, FORK), li(13, BLOCK)

# Registers: x5 is the fork port, x9 a page of data, x6 to x8 are for use, x10 counts rounds, x11 what a child does, x12 is the
# size of a page, x13 the block port.


def call(command):
    return [addi(6, 0, command), sw(6, COMMAND, 5)]


def exit_with(register):
    return [sw(register, ARG0, 5), *call(EXIT)]


def family(children, tickets, start, child):
    """Returns a guest that makes so many tickets of so many children each, one after another. Its parent does `start` before,
    and each child does `child`."""
    head = [*FORK_PORT, *li(12, PAGE), *BLOCK_PORT, *number(10, tickets), *start]
    ask = [*number(6, children), sw(6, ARG0, 5), sw(0, ARG1, 5), *call(TICKET)]
    clone = [lw(7, RESULT, 5), sw(7, ARG0, 5), *call(CLONE), lw(8, CLONE_ID, 5)]
    join = [*call(JOIN), addi(10, 10, -1)]
    end = exit_with(0)
    body = [*ask, *clone, bne(8, 0, 4 * (len(join) + len(end) + 2)), *join]
    return [*head, *body, bne(10, 0, -4 * len(body)), *end, *child]


def touching(children, tickets, touched):
    """Returns a family whose children touch so many pages, that of their code and some that their parent wrote."""
    data = [*li(9, RAM + PAGE), *(touched - 1) * [sw(10, 0, 9), lw(8, 0, 9), add(9, 9, 12)]]
    child = [addi(11, 0, 40), addi(11, 11, -1), bne(11, 0, -4), *data, *exit_with(8)]
    return family(children, tickets, data, child)


def joining(tickets, first, step):
    """Returns a guest that makes so many tickets of one child and then joins them: first one of them, and from each on the one
    that is so many behind it, beginning anew behind the last. Without a step it joins none."""
    ask = [addi(6, 0, 1), sw(6, ARG0, 5), sw(0, ARG1, 5), *call(TICKET)]
    clone = [lw(7, RESULT, 5), sw(7, ARG0, 5), *call(CLONE), lw(8, CLONE_ID, 5), to(bne, 8, 0, place="child")]
    code = [*FORK_PORT, *number(10, tickets), "fork", *ask, *clone, addi(10, 10, -1), to(bne, 10, 0, place="fork")]
    if step is not None:
        start = [*number(10, tickets), *number(9, first), *number(11, step), *number(12, tickets)]
        on = [add(9, 9, 11), slt(13, 12, 9), to(beq, 13, 0, place="among"), sub(9, 9, 12), "among"]
        code += [*start, "join", sw(9, ARG0, 5), *call(JOIN), *on, addi(10, 10, -1), to(bne, 10, 0, place="join")]
    return placed([*code, *exit_with(0), "child", *exit_with(8)])


def reading(children, tickets, sectors, reads):
    """Returns a family whose children read so many sectors in a row, or make as many rounds in which they read none."""
    read = [addi(6, 0, READ), sw(6, BLOCK_COMMAND, 13) if reads else addi(6, 0, READ), lw(8, BUFFER, 13)]
    rounds = [sw(11, SECTOR, 13), *read, addi(11, 11, 1), addi(7, 11, -sectors)]
    child = [addi(11, 0, 0), *rounds, bne(7, 0, -4 * len(rounds)), *exit_with(8)]
    return family(children, tickets, [], child)


def copying():
    """Returns a guest that for ever reads a sector, changes a word of it and writes it, one sector of 1,024 after another."""
    change = [lw(8, BUFFER, 13), addi(8, 8, 1), sw(8, BUFFER, 13)]
    copy = [sw(11, SECTOR, 13), addi(6, 0, READ), sw(6, BLOCK_COMMAND, 13), *change, addi(6, 0, WRITE), sw(6, BLOCK_COMMAND, 13)]
    rounds = [*copy, addi(11, 11, -1), bne(11, 0, -4 * (len(copy) + 1))]
    return [*BLOCK_PORT, *number(11, 1023), *rounds, jal(-4 * (len(rounds) + 2))]


# ---- families that several workers run

# A round of a child: four computations, the count and the branch back.
ROUND = 6


def computation(steps):
    """Returns code that computes for about so many steps."""
    work = [addi(11, 11, 1), addi(12, 12, 3), addi(13, 11, 5), addi(14, 12, 7), addi(10, 10, -1)]
    return number(10, steps // ROUND) + work + [bne(10, 0, -4 * len(work))]


END = exit_with(0)
JOIN_IT = [sw(7, ARG0, 5), *call(JOIN)]


def ask(children, share):
    """Returns code that clones a ticket for so many children, of such a share, and whose number goes to x7."""
    ticket = [*number(6, children), sw(6, ARG0, 5), *number(6, share), sw(6, ARG1, 5), *call(TICKET)]
    return [*ticket, lw(7, RESULT, 5), sw(7, ARG0, 5), *call(CLONE), lw(8, RESULT, 5)]


def fork(parent, child):
    """Returns code by which a parent and its children, which x8 tells, go on. The parent's ends its machine, or goes back."""
    return [bne(8, 0, 4 * (len(parent) + 1)), *parent, *child]


def again(words):
    """Returns these words, and a branch back to them where x9 is not 0."""
    return [*words, bne(9, 0, -4 * len(words))]


def computing(children, steps):
    """Returns a guest with so many children, each of which computes, and ends."""
    return [*FORK_PORT, *ask(children, 0), *fork([*JOIN_IT, *END], [*computation(steps), *END])]


def looping(children):
    """Returns a guest with so many children, each of which has a child and joins it, again and again."""
    once = [*ask(1, 0), bne(8, 0, 4 * (len(JOIN_IT) + 2)), *JOIN_IT]
    return [*FORK_PORT, addi(9, 0, 1), *ask(children, 1), *fork([*JOIN_IT, *END], [*again(once), *END])]


def chain(machines):
    """Returns a guest in which each machine has a child and joins it, down to the last of so many."""
    once = [addi(9, 9, -1), addi(6, 0, 1), sw(6, ARG0, 5), sw(9, ARG1, 5), *call(TICKET), lw(7, RESULT, 5)]
    once += [sw(7, ARG0, 5), *call(CLONE), lw(8, RESULT, 5), *fork([*JOIN_IT, *END], [])]
    return [*FORK_PORT, *number(9, machines), *again(once), *END]


def one_by_one(count):
    """Returns a guest with so many tickets of a child each, which are joined in their order."""
    joins = [addi(14, 14, 1), sw(14, ARG0, 5), *call(JOIN), addi(9, 9, -1)]
    parent = [*number(9, count), *again(joins), *END]
    once = [*ask(1, 0), bne(8, 0, 4 * (len(parent) + 3)), addi(9, 9, -1)]
    return [*FORK_PORT, *number(9, count), *again(once), *parent, *END]


def orphan(steps):
    """Returns a guest that computes and ends beside a child that loops for ever."""
    return [*FORK_PORT, addi(9, 0, 1), *ask(1, 0), *fork([*computation(steps), *END], [bne(9, 0, 0)])]


def eldest(others):
    """Returns a guest that joins its eldest child, which ends at once, beside so many that loop for ever."""
    join = [sw(14, ARG0, 5), *call(JOIN), *END]
    code = [*FORK_PORT, addi(9, 0, 1), *ask(1, 0), addi(14, 7, 0)]
    rest = (len(ask(1, 0)) + 1) * others + len(join)
    code += [bne(8, 0, 4 * (rest + 2))]
    for left in range(others, 0, -1):
        code += ask(1, 0)
        code += [bne(8, 0, 4 * ((len(ask(1, 0)) + 1) * (left - 1) + len(join) + 1))]
    return [*code, *join, bne(9, 0, 0), *END]


def single(steps):
    """Returns a guest that computes alone."""
    return [*computation(steps), *FORK_PORT, *END]
