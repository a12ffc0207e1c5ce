# The start of a guest in C: sets up the registers that C needs, calls main, and ends the machine with its
# value. RAM needs nothing: the segments lie where they are used, and all else is zeros.

    .equ CONSOLE, 0x10000000
    .equ FORK, 0x10002000
    .equ EXIT, 5
    .equ TRAPPED, 900000                # SNOW_TRAPPED in snow.h
    .equ INTERRUPT, 32                  # and what an interrupt adds

    .section .text.start, "ax"
    .globl _start
_start:
    .option push
    .option norelax
    la      gp, __global_pointer$
    .option pop
    la      sp, __stack_top
    la      tp, __tls_base
    la      t0, snow_trap_entry
    csrw    mtvec, t0
    la      s0, __init_array_start      # what runs before main
    la      s1, __init_array_end
1:  beq     s0, s1, 2f
    lw      t0, 0(s0)
    addi    s0, s0, 4
    jalr    t0
    j       1b
2:
#ifdef SNOW_PICOLIBC
    la      a1, snow_arguments          # in a file that guest/cc makes
    lw      a0, snow_argument_count
#else
    li      a0, 0                       # no arguments
    li      a1, 0
#endif
    call    main
#if defined SNOW_PICOLIBC || defined SNOW_CPLUSPLUS
    call    exit                        # what atexit was told, destructors, and then _exit
#endif

    .globl _exit
_exit:
    li      t0, FORK
    sw      a0, 0(t0)
    li      t1, EXIT
    sw      t1, 8(t0)

# A trap goes to the guest's snow_trap, if it has one, but where the stack has overflowed. That lies first in
# RAM, so its pointer is then below RAM, and a handler in C would trap for ever.
    .globl  snow_trap_entry
    .balign 4
snow_trap_entry:
    bgez    sp, tell_trap
    j       snow_trap

# The default trap handler. It puts out cause, pc and value and ends the machine with 900000 and the cause,
# or 32 more for an interrupt. It uses no stack.
    .weak   snow_trap
    .set    snow_trap, tell_trap
tell_trap:
    li      t0, CONSOLE
    la      t1, trap_text
    bltz    sp, 0f
    la      t1, overflow_text
0:
    csrr    a0, mcause
    csrr    a1, mepc
    csrr    a2, mtval
    mv      a3, a0
1:  lbu     t2, 0(t1)                   # the text, in which a byte 1 stands for the next of the numbers
    addi    t1, t1, 1
    beqz    t2, 4f
    li      t3, 1
    beq     t2, t3, 2f
    sb      t2, 0(t0)
    j       1b
2:  li      t3, 28
3:  srl     t4, a0, t3                  # a number, eight digits from the highest
    andi    t4, t4, 15
    sltiu   t5, t4, 10
    addi    t4, t4, 'a' - 10
    beqz    t5, 5f
    addi    t4, t4, '0' - 'a' + 10
5:  sb      t4, 0(t0)
    addi    t3, t3, -4
    bgez    t3, 3b
    mv      a0, a1
    mv      a1, a2
    j       1b
4:  srli    a0, a3, 31
    slli    a0, a0, 5
    andi    a3, a3, 31
    add     a0, a0, a3
    li      t1, TRAPPED
    add     a0, a0, t1
#ifdef SNOW_PICOLIBC
    mv      s0, a0                      # what the trap means is told on a stack anew, as nothing goes back
    la      t0, end_trapped
    csrw    mtvec, t0
    srli    a0, sp, 31
    xori    a0, a0, 1
    la      sp, __stack_top
    .option push
    .option norelax
    la      gp, __global_pointer$
    .option pop
    call    snow_explain_trap
    .balign 4
end_trapped:
    mv      a0, s0
#endif
    j       _exit

    .section .rodata.tell_trap, "a"
overflow_text:
    .ascii  "stack overflow, "
trap_text:
    .asciz  "trap: cause \1 pc \1 value \1\n"
