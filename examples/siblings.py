"""Families whose siblings talk: guests as instruction words, how each is run, and what it comes to.

The reports and the answers are those of whole copies. tests/siblings compares them with tests/whole_copies and the program.
"""

import os
import sys

sys.path.insert(0, f"{os.path.dirname(os.path.dirname(os.path.realpath(__file__)))}/tools")
from lib.assembly import assembled
from lib.ports import (ALLOT, ARG0, ARG1, CLONE, CLONE_ID, COMMAND, CONSOLE, DATA, EXIT, FORK, JOIN, JSEL, JVALUE, KILL, PAGE,
                       PEER, RAM, RECEIVE, RESULT, SEND, SIBLING, SIBLINGS, TALK, TICKET)  # fmt: skip
from lib.words import add, addi, beq, bne, jal, li, lw, number, placed, sb, sub, sw, to

# Registers: x5 is the fork port and x13 the sibling port, x6 is for commands, x7 has the ticket's number, x8 the number among
# the siblings, x9 counts rounds, x10 and x11 are peers, x12 a word, x14 a sum. They are 0 at the start.

PORTS = [*li(5, FORK), *li(13, SIBLING)]


def call(command):
    return [addi(6, 0, command), sw(6, COMMAND, 5)]


def exit_with(register):
    return [sw(register, ARG0, 5), *call(EXIT)]


def ask(children, share=0):
    """Returns code that clones a ticket for so many children, of such a share. Its number goes to x7, and RESULT to x8, which is
    the child's number in each, and 0 in the machine that asks."""
    ticket = [addi(6, 0, children), sw(6, ARG0, 5), addi(6, 0, share), sw(6, ARG1, 5), *call(TICKET)]
    return [*ticket, lw(7, RESULT, 5), sw(7, ARG0, 5), *call(CLONE), lw(8, RESULT, 5)]


def fork(children, parent, child, share=0):
    """Returns a guest whose children go on apart from their parent."""
    return placed([*PORTS, *ask(children, share), to(bne, 8, 0, place="child"), *parent, "child", *child])


JOIN_IT = [sw(7, ARG0, 5), *call(JOIN)]
KILL_IT = [sw(7, ARG0, 5), *call(KILL)]
JOINS = [*JOIN_IT, *exit_with(0)]


def adds_value(child):
    """Returns code that adds to x14 the value of a child of the last join."""
    return [addi(6, 0, child), sw(6, JSEL, 5), lw(6, JVALUE, 5), add(14, 14, 6)]


def talk(command):
    return [addi(6, 0, command), sw(6, TALK, 13)]


def send(peer, word):
    return [sw(peer, PEER, 13), sw(word, DATA, 13), *talk(SEND)]


def receive(peer, word):
    return [sw(peer, PEER, 13), *talk(RECEIVE), lw(word, DATA, 13)]


def adds(offset):
    """Returns code that adds a register of the sibling port to x14."""
    return [lw(6, offset, 13), add(14, 14, 6)]


def adds_result(command):
    """Returns code that gives the sibling port a command, and adds its RESULT to x14."""
    return [*talk(command), *adds(RESULT)]


def doubles_and_adds(register):
    """Returns code that adds a word to twice x14, so that the order of several tells."""
    return [add(14, 14, 14), add(14, 14, register)]


# The number of the other of two siblings, to x10; and from there to PEER.
OTHER = [addi(10, 0, 3), sub(10, 10, 8)]
NAME_PEER = [sw(10, PEER, 13)]


def where(register, value, place):
    """Returns code that goes to a place where a register has a value."""
    return [addi(6, 0, value), to(beq, register, 6, place=place)]


def pair(first, second):
    """Returns a guest of two siblings, of which each has its own code, and the number of the other in x10."""
    return fork(2, JOINS, [*OTHER, *where(8, 1, "first"), *second, "first", *first])


def rounds(count, name, body):
    """Returns code that does the same so many times, and counts them in x9."""
    return [addi(9, 0, count), name, *body, addi(9, 9, -1), to(bne, 9, 0, place=name)]


# ---- guests


def swap(first, second):
    """Returns a guest that is two_children up to its children. Each of these gives two commands with its number as the word
    and the other one as the peer, and exits with the word that it has then."""
    parent = [addi(6, 0, JOIN), sw(7, ARG0, 5), sw(6, COMMAND, 5), addi(6, 0, 1), sw(6, JSEL, 5), lw(6, JVALUE, 5), *exit_with(6)]
    port = [*li(13, SIBLING), addi(6, 0, 3), sub(6, 6, 8), sw(6, PEER, 13), sw(8, DATA, 13)]
    child = [*port, *talk(first), *talk(second), lw(6, DATA, 13), *exit_with(6)]
    ticket = [addi(6, 0, 2), sw(6, ARG0, 5), sw(0, ARG1, 5), *call(TICKET), lw(7, RESULT, 5), sw(7, ARG0, 5), *call(CLONE)]
    return placed([*li(5, FORK), *ticket, lw(8, CLONE_ID, 5), to(bne, 8, 0, place="child"), *parent, "child", *child])


def ring(children, count):
    """Returns a guest whose children stand in a ring. Child 1 puts a word in. Each adds one to it and passes it on, so many
    times, and exits with the last word that it passed on."""
    nexts = [addi(10, 8, 1), addi(11, 8, -1), addi(6, 0, children), to(bne, 8, 6, place="inner"), addi(10, 0, 1)]
    puts = ["inner", addi(6, 0, 1), to(bne, 8, 6, place="passes"), addi(11, 0, children), *send(10, 0)]
    loop = ["passes", *receive(11, 12), addi(12, 12, 1), *send(10, 12), addi(9, 9, -1), to(bne, 9, 0, place="passes")]
    return fork(children, JOINS, [*number(9, count), *nexts, *puts, *loop, *exit_with(12)])


def all_to_all(children, count):
    """Returns a guest whose children send their numbers to all others, and then receive of all others, so many times. Each
    exits with the sum of what it received."""
    sends = [addi(10, 0, children), "sends", to(beq, 10, 8, place="sent"), *send(10, 8), "sent", addi(10, 10, -1), to(bne, 10, 0, place="sends")]
    takes = [addi(10, 0, children), "takes", to(beq, 10, 8, place="taken"), *receive(10, 12), add(14, 14, 12), "taken"]
    takes += [addi(10, 10, -1), to(bne, 10, 0, place="takes")]
    return fork(children, JOINS, [*rounds(count, "again", [*sends, *takes]), *exit_with(14)])


def in_order():
    """Returns a guest in which one child sends the words 1 to 20, and the other exits with what tells their order."""
    sends = rounds(20, "sends", [addi(12, 12, 1), *send(10, 12)])
    return pair([*sends, *exit_with(12)], [*rounds(20, "takes", [*receive(10, 12), *doubles_and_adds(12)]), *exit_with(14)])


def no_peer():
    """Returns a guest whose children name no sibling: 0, themselves, and one more than there are. DATA stays."""
    code = [addi(12, 0, 77), sw(12, DATA, 13), addi(9, 0, 3)]
    for peer in (0, 8, 9):
        code += [sw(peer, PEER, 13), *adds_result(SEND), *adds_result(RECEIVE)]
    return fork(2, JOINS, [*code, *adds(DATA), *exit_with(14)])


def no_command():
    """Returns a guest whose children give commands that there are not before they send and before they receive. Each exits with
    the sum of the results."""
    refused = [*adds_result(0), *adds_result(3)]
    return fork(2, JOINS, [*OTHER, *NAME_PEER, *refused, *adds_result(SEND), *adds_result(0x101), *adds_result(RECEIVE), *exit_with(14)])


def to_one_that_ends(first):
    """Returns a guest in which child 1 is this, and the other receives of it, sends to it and receives of it again. It exits
    with the sum of the results and of DATA, which stays."""
    talks = [*NAME_PEER, addi(12, 0, 55), sw(12, DATA, 13), *adds_result(RECEIVE), *adds_result(SEND), *adds_result(RECEIVE)]
    return pair(first, [*talks, *adds(DATA), *exit_with(14)])


def words_left():
    """Returns a guest in which child 1 sends three words and exits, and the other receives four times."""
    sends = rounds(3, "sends", [addi(12, 12, 11), *send(10, 12)])
    takes = rounds(4, "takes", [*receive(10, 12), *doubles_and_adds(12), *adds(RESULT)])
    return pair([*sends, *exit_with(12)], [*takes, *exit_with(14)])


def second_brood():
    """Returns a guest that kills a brood whose siblings send to one another without end. In the second brood child 1 exits, and
    child 2 receives of it."""
    parent = [*ask(2), to(bne, 8, 0, place="first"), *rounds(40, "waits", [addi(12, 12, 1)]), *KILL_IT, *ask(2), to(bne, 8, 0, place="second"), *JOINS]
    second = ["second", *where(8, 1, "ends"), addi(10, 0, 1), *receive(10, 12), *adds(RESULT), "ends", *exit_with(14)]
    return placed([*PORTS, *parent, *second, "first", *OTHER, *SENDS_FOR_EVER])


def fresh_port():
    """Returns a guest whose root and children have used the port before they clone. Each child and grandchild adds up the
    registers of the port as it finds them, of which SIBLINGS alone is not 0. A child adds the value of its first child."""
    use = [addi(12, 0, 5), sw(12, PEER, 13), sw(12, DATA, 13), *talk(9)]
    sums = ["child", addi(14, 0, 0), *adds(PEER), *adds(DATA), *adds(RESULT), *adds(SIBLINGS)]
    child = [*sums, lw(9, ALLOT, 5), to(beq, 9, 0, place="ends"), *use, *ask(2), to(bne, 8, 0, place="child"), *JOIN_IT, *adds_value(1)]
    return placed([*PORTS, *use, *ask(3, 2), to(bne, 8, 0, place="child"), *JOINS, *child, "ends", *exit_with(14)])


def two_levels():
    """Returns a guest in which grandchildren swap their numbers, and children send before they join them and receive behind.
    A child exits with twice the value of its first child and the number of its sibling."""
    child = ["child", addi(11, 0, 3), sub(11, 11, 8), *send(11, 8), *ask(2), to(bne, 8, 0, place="grandchild")]
    child += [*JOIN_IT, *adds_value(1), *receive(11, 12), *doubles_and_adds(12), "ends", *exit_with(14)]
    grandchild = ["grandchild", *OTHER, *send(10, 8), *receive(10, 14), to(jal, place="ends")]
    return placed([*PORTS, *ask(2, 2), to(bne, 8, 0, place="child"), *JOIN_IT, to(jal, place="ends"), *child, *grandchild])


def stuck_family():
    """Returns a guest that joins ticket 1, kills ticket 2, leaves the child of ticket 3, which exits, and joins ticket 4, whose
    child joins two children that are stuck."""
    parent = ["again", *ask(1, 2), to(bne, 8, 0, place="child"), *where(7, 2, "kills"), *where(7, 3, "again"), *JOIN_IT, to(jal, place="again")]
    parent += ["kills", *KILL_IT, to(jal, place="again")]
    child = ["child", *where(7, 4, "joins"), *exit_with(8), "joins", *ask(2), to(bne, 8, 0, place="waits"), *JOIN_IT]
    return placed([*PORTS, *parent, *child, "waits", *OTHER, *receive(10, 12)])


def stuck_with_output():
    """Returns a guest that puts out a letter and joins two children which put one out, too, and are stuck."""
    put = [*li(15, CONSOLE), addi(12, 8, 65), sb(12, 0, 15)]
    child = ["child", *put, *OTHER, *receive(10, 12)]
    return placed([*PORTS, *put, *ask(2), to(bne, 8, 0, place="child"), *JOINS, *child])


def late_word():
    """Returns a guest of which child 1 loads from two pages that its parent wrote, and sends the last word. The other one receives it,
    and wants the page of its code alone."""
    pages = [*li(15, RAM + 10 * PAGE), sw(5, 0, 15), *li(16, RAM + 11 * PAGE), sw(13, 0, 16)]
    sends = [lw(12, 0, 15), lw(12, 0, 16), *send(10, 12), *exit_with(12)]
    child = ["child", *OTHER, *where(8, 1, "sends"), *receive(10, 12), *exit_with(12), "sends", *sends]
    return placed([*PORTS, *pages, *ask(2), to(bne, 8, 0, place="child"), *JOINS, *child])


def alone():
    """Returns a guest that was booted, and so has no sibling. It exits with the sum of the results and of SIBLINGS."""
    return [*PORTS, addi(10, 0, 1), *NAME_PEER, *adds_result(SEND), *adds_result(RECEIVE), *adds_result(3), *adds(SIBLINGS), *exit_with(14)]


def granted_fewer():
    """Returns a guest that asks for five children. Each exits with SIBLINGS and what comes of a word to the fifth."""
    return fork(5, JOINS, [addi(10, 0, 5), *NAME_PEER, *adds_result(SEND), *adds(SIBLINGS), *exit_with(14)])


LOOPS = [jal(0)]
PING = [*receive(10, 12), addi(12, 12, 1), *send(10, 12), *exit_with(12)]
PONG = [addi(12, 0, 40), *send(10, 12), *receive(10, 12), *exit_with(12)]
SENDS_NINE = [*rounds(9, "sends", send(10, 9)), *exit_with(9)]
SENDS_TWENTY = [*rounds(20, "sends", send(10, 9)), *exit_with(10)]
TAKES_ONE = [*receive(10, 12), *exit_with(12)]
LIVES_ON = [*rounds(40, "lives", [addi(12, 12, 1)]), *exit_with(12)]
SENDS_FOR_EVER = ["sends", *send(10, 8), to(jal, place="sends")]
TAKES_OF_NEXT = [addi(10, 8, 1), addi(6, 0, 4), to(bne, 10, 6, place="takes"), addi(10, 0, 1), "takes", *receive(10, 12), *exit_with(12)]
KILLS = [*rounds(40, "waits", [addi(12, 12, 1)]), *KILL_IT, lw(6, RESULT, 5), *exit_with(6)]


def report(*lines):
    """Returns the report of these lines, each of a machine that put out nothing, or of a ticket."""
    return "".join(f"{line}\n" if line.startswith("ticket ") else f"machine {line} out 0\n\n" for line in lines)


def ring_report(children, count):
    """Returns the report of a ring, of which child 1 makes 5 steps more than the others, and the last one 1 more."""
    lines = ["0 exit 0 steps 20"]
    for child in range(1, children + 1):
        word = children * count if child == 1 else children * (count - 1) + child - 1
        lines.append(f"0.1.{child} exit {word} steps {25 + 11 * count + 5 * (child == 1) + (child == children)}")
    return report(*lines)


def all_to_all_report(children, count):
    """Returns the report of all to all. A child makes 7 steps for a word that it sends, and 8 for one that it receives."""
    total = children * (children + 1) // 2
    steps = 18 + count * (15 * (children - 1) + 10)
    return report("0 exit 0 steps 20", *(f"0.1.{child} exit {count * (total - child)} steps {steps}" for child in range(1, children + 1)))


class Row:
    """A guest by its name: what it is, its words, the options that it is run with, and its report."""

    def __init__(self, name, says, words, options, *lines, report_is=None):
        self.name, self.says, self.words, self.options = name, says, words, options.split()
        self.report = report(*lines) if report_is is None else report_is


SWAP, STUCK = swap(SEND, RECEIVE), swap(RECEIVE, RECEIVE)
NINE, PAST_THE_END = pair(SENDS_NINE, TAKES_ONE), pair(SENDS_TWENTY, LIVES_ON)

# Guests of at most 64 words, but for nothing.
ROWS = [
    Row("sibling_swap", "two siblings swap their numbers", SWAP, "--clones 2", "0 exit 2 steps 21", "0.1.1 exit 2 steps 25", "0.1.2 exit 1 steps 25"),
    Row("sibling_stuck", "both receive first, and wait for ever", STUCK, "--clones 2", "0 stuck steps 14", "0.1.1 stuck steps 18", "0.1.2 stuck steps 18"),
    Row(
        "send_at_the_limit",
        "the limit comes with the SEND, and the words go with those that would have received them",
        SWAP,
        "--clones 2 --limit 19",
        "0 limit steps 19",
        "0.1.1 limit steps 19",
        "0.1.2 limit steps 19",
    ),
    Row(
        "receive_at_the_limit",
        "the limit comes with the RECEIVE",
        SWAP,
        "--clones 2 --limit 21",
        "0 exit 0 steps 21",
        "0.1.1 limit steps 21",
        "0.1.2 limit steps 21",
    ),
    Row(
        "waits_at_the_limit",
        "the RECEIVE that waits would be the last step: it makes none, and the limit does not come",
        STUCK,
        "--clones 2 --limit 19",
        "0 stuck steps 14",
        "0.1.1 stuck steps 18",
        "0.1.2 stuck steps 18",
    ),
    Row(
        "limit_before_the_wait",
        "the limit comes in the step before the RECEIVE",
        STUCK,
        "--clones 2 --limit 18",
        "0 limit steps 18",
        "0.1.1 limit steps 18",
        "0.1.2 limit steps 18",
    ),
    Row("alone", "a machine that was booted has no sibling: two results FFFFFFFC, one FFFFFFFA, and SIBLINGS 0", alone(), "", "0 exit 4294967282 steps 21"),
    Row(
        "no_peer",
        "six results FFFFFFFC, for the peers 0, CLONE ID and SIBLINGS + 1, and the 77 in DATA",
        no_peer(),
        "--clones 2",
        "0 exit 0 steps 20",
        "0.1.1 exit 53 steps 49",
        "0.1.2 exit 53 steps 49",
    ),
    Row("only_child", "the same of a child that is alone", no_peer(), "--clones 1", "0 exit 0 steps 20", "0.1.1 exit 53 steps 49"),
    Row(
        "no_command",
        "the commands 0, 3 and 101 have the result FFFFFFFA, and a SEND and a RECEIVE behind them 0",
        no_command(),
        "--clones 2",
        "0 exit 0 steps 20",
        "0.1.1 exit 4294967278 steps 40",
        "0.1.2 exit 4294967278 steps 40",
    ),
    Row(
        "granted_fewer",
        "five children are asked for and three granted: SIBLINGS is 3, and PEER 5 is none",
        granted_fewer(),
        "--clones 3",
        "0 exit 0 steps 20",
        *(f"0.1.{child} exit 4294967295 steps 25" for child in (1, 2, 3)),
    ),
    Row(
        "granted_all",
        "five are granted: SIBLINGS is 5, a word to child 5 has the result 0, and its own to itself FFFFFFFC",
        granted_fewer(),
        "--clones 5",
        "0 exit 0 steps 20",
        *(f"0.1.{child} exit {1 if child == 5 else 5} steps 25" for child in (1, 2, 3, 4, 5)),
    ),
    Row(
        "ping_pong",
        "one receives, adds 1 and sends back",
        pair(PING, PONG),
        "--clones 2",
        "0 exit 0 steps 20",
        "0.1.1 exit 41 steps 30",
        "0.1.2 exit 41 steps 30",
    ),
    Row(
        "in_order",
        "20 words are received in the order in which they were sent",
        in_order(),
        "--clones 2",
        "0 exit 0 steps 20",
        "0.1.1 exit 20 steps 162",
        "0.1.2 exit 2097130 steps 182",
    ),
    Row(
        "nine_words",
        "nine words are sent and one received, so the ninth has room or nobody to come to",
        NINE,
        "--clones 2",
        "0 exit 0 steps 20",
        "0.1.1 exit 0 steps 76",
        "0.1.2 exit 9 steps 25",
    ),
    Row(
        "eight_words",
        "siblings send without end: each stands at its ninth SEND",
        fork(2, JOINS, [*OTHER, *SENDS_FOR_EVER]),
        "--clones 2",
        "0 stuck steps 16",
        "0.1.1 stuck steps 59",
        "0.1.2 stuck steps 59",
    ),
    Row(
        "past_the_end",
        "twenty words are sent to one that receives none and exits: from then on they are dropped",
        PAST_THE_END,
        "--clones 2",
        "0 exit 0 steps 20",
        "0.1.1 exit 2 steps 142",
        "0.1.2 exit 40 steps 142",
    ),
    Row(
        "ended_by_exit",
        "a sibling has exited: a RECEIVE has the result FFFFFFF9, a SEND 0, and DATA stays 55",
        to_one_that_ends(exit_with(8)),
        "--clones 2",
        "0 exit 0 steps 20",
        "0.1.1 exit 1 steps 21",
        "0.1.2 exit 41 steps 38",
    ),
    Row(
        "ended_by_limit",
        "the same of a sibling that came to its limit",
        to_one_that_ends(LOOPS),
        "--clones 2 --limit 60",
        "0 exit 0 steps 20",
        "0.1.1 limit steps 60",
        "0.1.2 exit 41 steps 38",
    ),
    Row(
        "words_left",
        "three words of one that has exited are received, and then there is none",
        words_left(),
        "--clones 2",
        "0 exit 0 steps 20",
        "0.1.1 exit 33 steps 43",
        "0.1.2 exit 268 steps 62",
    ),
    Row(
        "second_brood",
        "a brood is killed while words wait in it, and the next one has none of them",
        second_brood(),
        "--clones 2",
        "0 exit 0 steps 156",
        "ticket 0.1 killed 2",
        "0.2.1 exit 0 steps 155",
        "0.2.2 exit 4294967289 steps 162",
    ),
    Row(
        "three_stuck",
        "three siblings wait in a ring",
        fork(3, JOINS, TAKES_OF_NEXT),
        "--clones 3",
        "0 stuck steps 16",
        "0.1.1 stuck steps 19",
        "0.1.2 stuck steps 19",
        "0.1.3 stuck steps 20",
    ),
    Row("killed_waiting", "their parent kills all three", fork(3, KILLS, TAKES_OF_NEXT), "--clones 3", "0 exit 3 steps 142", "ticket 0.1 killed 3"),
    Row("parent_ends", "their parent exits beside them", fork(3, exit_with(7), TAKES_OF_NEXT), "--clones 3", "0 exit 1 steps 17", "ticket 0.1 killed 3"),
    Row(
        "fresh_port",
        "a child starts with 0 in all registers of the port but SIBLINGS, which is of its own ticket",
        fresh_port(),
        "--clones 9",
        "0 exit 0 steps 25",
        *(
            line
            for child in (1, 2, 3)
            for line in (f"0.1.{child} exit 5 steps 57", f"0.1.{child}.1.1 exit 2 steps 61", f"0.1.{child}.1.2 exit 2 steps 61")
        ),
    ),
    Row(
        "two_levels",
        "children talk while theirs do",
        two_levels(),
        "--clones 6",
        "0 exit 0 steps 21",
        "0.1.1 exit 6 steps 48",
        "0.1.1.1.1 exit 2 steps 46",
        "0.1.1.1.2 exit 1 steps 46",
        "0.1.2 exit 5 steps 48",
        "0.1.2.1.1 exit 2 steps 46",
        "0.1.2.1.2 exit 1 steps 46",
    ),
    Row(
        "stuck_family",
        "a log and then broods: joined, killed, exited and not joined, and a child that joins two that are stuck",
        stuck_family(),
        "--clones 6",
        "0 stuck steps 74",
        "0.1.1 exit 1 steps 19",
        "ticket 0.2 killed 1",
        "0.3.1 exit 1 steps 57",
        "0.4.1 stuck steps 84",
        "0.4.1.1.1 stuck steps 86",
        "0.4.1.1.2 stuck steps 86",
    ),
    Row(
        "stuck_with_output",
        "what machines put out before they were stuck is told",
        stuck_with_output(),
        "--clones 2",
        report_is="".join(f"machine {line} out 1\n{put}\n" for line, put in (("0 stuck steps 19", "A"), ("0.1.1 stuck steps 24", "B"), ("0.1.2 stuck steps 24", "C"))),
    ),
    Row(
        "late_word",
        "a word is sent of pages that the other one does not want",
        late_word(),
        "--clones 2",
        "0 exit 0 steps 24",
        "0.1.1 exit 268447744 steps 31",
        "0.1.2 exit 268447744 steps 29",
    ),
    Row("small_ring", "4 siblings pass a word on 50 times each", ring(4, 50), "--clones 4", report_is=ring_report(4, 50)),
    Row("ring", "64 siblings pass a word on 16 times each", ring(64, 16), "--clones 64", report_is=ring_report(64, 16)),
    Row("all_to_all", "32 siblings send to all others, 4 times each", all_to_all(32, 4), "--clones 32", report_is=all_to_all_report(32, 4)),
]

# The ring whose siblings pass a word on a thousand times each, which takes whole copies some seconds.
LONG_RING = Row("long_ring", "64 siblings pass a word on 1,000 times each", ring(64, 1000), "--clones 64", report_is=ring_report(64, 1000))


def given(*children, ticket=1):
    """Returns lines by which children of a ticket get the page of their code."""
    lines = [(f"push 0.{ticket}.{children[0]} 0", f"0.{ticket}.{children[0]} push 0 0")]
    return [*lines, *((f"give 0.{ticket}.{child} 0", f"0.{ticket}.{child} got 0") for child in children)]


class Script:
    """A script by its name: what it shows, the words of its guest, the options, and its lines, each with its answer."""

    def __init__(self, name, says, words, options, *lines):
        self.name, self.says, self.words, self.options, self.lines = name, says, words, options.split(), lines


SCRIPTS = [
    Script(
        "a_receive_waits",
        "it makes no step, also where one is asked for, until the word has come",
        SWAP,
        "--clones 2",
        ("step 0 100", "0 ran 14 wait 1"),
        ("step 0.1.1 100", "0.1.1 ran 0 stall 0"),
        *given(1, 2),
        ("step 0.1.1 100", "0.1.1 ran 10 receive 2"),
        ("step 0.1.1 1", "0.1.1 ran 0 receive 2"),
        ("peek 0.1.1 80000000", "0.1.1 word 100022b7"),
        ("step 0.1.2 8", "0.1.2 ran 8 ok"),
        ("step 0.1.1 0", "0.1.1 ran 0 receive 2"),
        ("step 0.1.2 1", "0.1.2 ran 1 ok"),
        ("step 0.1.1 0", "0.1.1 ran 0 ok"),
        ("step 0.1.1 1", "0.1.1 ran 1 ok"),
        ("step 0.1.1 100", "0.1.1 ran 4 exit 2"),
        ("step 0.1.1 1", "0.1.1 none"),
        ("step 0 1", "0 ran 0 wait 1"),
        ("step 0.1.2 100", "0.1.2 ran 6 exit 1"),
        ("step 0 100", "0 ran 7 exit 2"),
    ),
    Script(
        "both_wait",
        "each waits for the other, and no line takes them further",
        STUCK,
        "--clones 2",
        ("step 0 100", "0 ran 14 wait 1"),
        *given(1, 2),
        ("step 0.1.1 100", "0.1.1 ran 8 receive 2"),
        ("step 0.1.2 100", "0.1.2 ran 8 receive 1"),
        ("step 0.1.1 100", "0.1.1 ran 0 receive 2"),
        ("step 0.1.2 100", "0.1.2 ran 0 receive 1"),
        ("step 0 100", "0 ran 0 wait 1"),
    ),
    Script(
        "a_send_waits",
        "eight words wait, and the ninth SEND goes on as one of them is received",
        NINE,
        "--clones 2",
        ("step 0 100", "0 ran 16 wait 1"),
        *given(1, 2),
        ("step 0.1.1 1000", "0.1.1 ran 58 send 2"),
        ("step 0.1.1 1", "0.1.1 ran 0 send 2"),
        ("step 0.1.2 8", "0.1.2 ran 8 ok"),
        ("step 0.1.1 0", "0.1.1 ran 0 send 2"),
        ("step 0.1.2 1", "0.1.2 ran 1 ok"),
        ("step 0.1.1 0", "0.1.1 ran 0 ok"),
        ("step 0.1.1 1", "0.1.1 ran 1 ok"),
        ("step 0.1.1 1000", "0.1.1 ran 5 exit 0"),
        ("step 0.1.2 1000", "0.1.2 ran 4 exit 9"),
        ("step 0 100", "0 ran 4 exit 0"),
    ),
    Script(
        "a_sibling_ends",
        "a SEND that waits goes on as the sibling ends, and what is sent then is dropped",
        PAST_THE_END,
        "--clones 2",
        ("step 0 100", "0 ran 16 wait 1"),
        *given(1, 2),
        ("step 0.1.1 1000", "0.1.1 ran 58 send 2"),
        ("step 0.1.2 129", "0.1.2 ran 129 ok"),
        ("step 0.1.1 0", "0.1.1 ran 0 send 2"),
        ("step 0.1.2 1", "0.1.2 ran 1 exit 40"),
        ("step 0.1.1 1000", "0.1.1 ran 72 exit 2"),
    ),
    Script(
        "words_of_one_that_ended",
        "they are received as if it lived",
        words_left(),
        "--clones 2",
        ("step 0 100", "0 ran 16 wait 1"),
        *given(1, 2),
        ("step 0.1.1 1000", "0.1.1 ran 31 exit 33"),
        ("step 0.1.2 1000", "0.1.2 ran 50 exit 268"),
        ("step 0 100", "0 ran 4 exit 0"),
    ),
    Script(
        "a_receive_of_one_that_ends",
        "it waits until the sibling has come to its limit",
        to_one_that_ends(LOOPS),
        "--clones 2 --limit 60",
        ("step 0 100", "0 ran 16 wait 1"),
        *given(1, 2),
        ("step 0.1.2 100", "0.1.2 ran 10 receive 1"),
        ("step 0.1.1 47", "0.1.1 ran 47 ok"),
        ("step 0.1.2 100", "0.1.2 ran 0 receive 1"),
        ("step 0.1.1 1", "0.1.1 ran 1 limit"),
        ("step 0.1.2 100", "0.1.2 ran 16 exit 41"),
    ),
    Script(
        "sends_at_the_limit",
        "the step that comes to the limit sends, and the other sends to one that has ended",
        SWAP,
        "--clones 2 --limit 19",
        ("step 0 100", "0 ran 14 wait 1"),
        *given(1, 2),
        ("step 0.1.1 100", "0.1.1 ran 9 limit"),
        ("step 0.1.2 8", "0.1.2 ran 8 ok"),
        ("step 0.1.2 100", "0.1.2 ran 1 limit"),
        ("step 0 100", "0 ran 5 limit"),
    ),
    Script(
        "words_of_a_brood_that_was_killed",
        "eight words wait each way as it is killed, and in the next brood none waits",
        second_brood(),
        "--clones 2",
        ("step 0 13", "0 ran 13 ok"),
        *given(1, 2),
        ("step 0.1.1 1000", "0.1.1 ran 47 send 2"),
        ("step 0.1.2 1000", "0.1.2 ran 47 send 1"),
        ("step 0 1000", "0 ran 139 wait 2"),
        ("step 0.1.1 1", "0.1.1 none"),
        *given(1, 2, ticket=2),
        ("step 0.2.2 1000", "0.2.2 ran 7 receive 1"),
        ("step 0.2.1 1000", "0.2.1 ran 7 exit 0"),
        ("step 0.2.2 1000", "0.2.2 ran 7 exit 4294967289"),
        ("step 0 1000", "0 ran 4 exit 0"),
    ),
    Script(
        "killed_waiting",
        "the kill comes whether they wait or not",
        fork(3, KILLS, TAKES_OF_NEXT),
        "--clones 3",
        ("step 0 13", "0 ran 13 ok"),
        *given(1, 2, 3),
        ("step 0.1.1 100", "0.1.1 ran 7 receive 2"),
        ("step 0.1.3 100", "0.1.3 ran 8 receive 1"),
        ("step 0 1000", "0 ran 129 exit 3"),
        ("step 0.1.1 100", "0.1.1 none"),
    ),
]

# Accesses to the port with x13 at its address, and the cause of the trap that each is, or 0.
LOADS = ("PEER", 0), ("DATA", 0), ("TALK", 5), ("TALK_RESULT", 0), ("SIBLINGS", 0), ("20", 5), ("2", 4), ("-4", 5)
STORES = ("PEER", 0), ("DATA", 0), ("TALK", 0), ("TALK_RESULT", 7), ("SIBLINGS", 7), ("20", 7), ("2", 6), ("-4", 7)
ACCESSES = [
    *((f"lw x12, {offset}(x13)", cause) for offset, cause in LOADS),
    *((f"sw x12, {offset}(x13)", cause) for offset, cause in STORES),
    *((f"{name} x12, PEER(x13)", 5) for name in ("lb", "lh", "lbu", "lhu")),
    *((f"{name} x12, TALK(x13)", 7) for name in ("sb", "sh")),
    ("lr.w x12, (x13)", 5),
    ("amoadd.w x12, x12, (x13)", 7),
]


def access(text):
    """Returns a guest that makes an access, and exits with 0, or with the cause of a trap."""
    ends = "sw {}, ARG0(x5); li x6, EXIT; sw x6, COMMAND(x5)"
    begins = f"li x5, FORK; li x13, SIBLING; la x6, handler; csrw mtvec, x6; {text}; {ends.format('x0')}"
    return assembled(f"{begins}; handler: csrr x7, mcause; {ends.format('x7')}")
