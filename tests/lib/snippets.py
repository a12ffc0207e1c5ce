"""Lines of assembly that guests of several tests have. x5 is the fork port in all of them."""


def exit_with(register):
    """Returns lines that end the machine with a register's value."""
    return f"sw {register}, ARG0(x5); li x6, EXIT; sw x6, COMMAND(x5)"


EXIT_0, EXIT_X7, EXIT_X8, EXIT_X9 = map(exit_with, ("x0", "x7", "x8", "x9"))

# Traps go to `handler`, which ends the machine with their cause, or their value.
TRAPS = "la x6, handler; csrw mtvec, x6"
EXIT_CAUSE = f"handler: csrr x7, mcause; {EXIT_X7}"
EXIT_VALUE = f"handler: csrr x7, mtval; {EXIT_X7}"

# An entry of memory protection that allows everything; and the way to user mode at `user`.
ALL = "li x6, -1; csrw pmpaddr0, x6; li x6, 31; csrw pmpcfg0, x6"
TO_USER = "csrw mstatus, x0; la x6, user; csrw mepc, x6; mret"
# The same to the word that stands two before the handler, whose address x6 has.
TO_TWO_BEFORE = "addi x6, x6, -8; csrw mepc, x6; csrw mstatus, x0; mret"

# It ends the machine with what the last command came to.
RESULT_OUT = f"lw x7, RESULT(x5); {EXIT_X7}"


def command(name, first=None, second=None):
    """Returns lines that store the arguments that are given, and the command."""
    arguments = "" if first is None else f"li x6, {first}; sw x6, ARG0(x5); "
    arguments += "" if second is None else f"li x6, {second}; sw x6, ARG1(x5); "
    return f"{arguments}li x6, {name}; sw x6, COMMAND(x5)"


def put(address, words):
    """Returns lines that store numbers from an address of RAM on."""
    return "; ".join([f"li x9, {address}", *(f"li x6, {word}; sw x6, {4 * place}(x9)" for place, word in enumerate(words))])


# It joins the children of the ticket whose number x7 has.
JOINED = f"sw x7, ARG0(x5); {command('JOIN')}"
