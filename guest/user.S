# A task in user mode, for snow_user in snow.h: goes to it, gives its ECALLs to the guest's snow_service, and comes
# back where any other trap stops it. While the task runs mscratch has the address of a frame on the stack of the
# supervisor, so no register of the task is trusted.

# The frame, in bytes: the pc of the task in the place of x0, its x1 to x31, and what the supervisor wants back.
    .equ TASK_PC, 0
    .equ TASK_SP, 4 * 2
    .equ TASK_GP, 4 * 3
    .equ TASK_TP, 4 * 4
    .equ TASK_A0, 4 * 10
    .equ STOP, 4 * 32                   # where it is told how the task stopped
    .equ HANDLER, 4 * 33                # its mtvec
    .equ OWN, 4 * 34                    # its ra, gp, tp and s0 to s11
    .equ OWN_GP, OWN + 4
    .equ OWN_TP, OWN + 8
    .equ FRAME, 4 * 52

    .equ USER_ECALL, 8
    .equ MPP, 0x1800

    .macro  task instruction            # loads or stores x1 and x3 to x31 of the task
    .irp    number, 1, 3, 4, 5, 6, 7, 8, 9, 10, 11, 12, 13, 14, 15, 16, 17, 18, 19, 20, 21, 22, 23, 24, 25, 26, 27, 28, 29, 30, 31
    \instruction x\number, 4 * \number(sp)
    .endr
    .endm

    .macro  own instruction             # loads or stores what the supervisor wants back
    .set    at, OWN
    .irp    register, ra, gp, tp, s0, s1, s2, s3, s4, s5, s6, s7, s8, s9, s10, s11
    \instruction \register, at(sp)
    .set    at, at + 4
    .endr
    .endm

# snow_enter_user(entry, stack, stop)
    .section .text.snow_enter_user, "ax"
    .globl  snow_enter_user
snow_enter_user:
    addi    sp, sp, -FRAME
    own     sw
    sw      a2, STOP(sp)
    csrr    t0, mtvec
    sw      t0, HANDLER(sp)
    # the task is told nothing: its registers are 0, but for sp, gp and tp
    .irp    number, 1, 5, 6, 7, 8, 9, 10, 11, 12, 13, 14, 15, 16, 17, 18, 19, 20, 21, 22, 23, 24, 25, 26, 27, 28, 29, 30, 31
    sw      zero, 4 * \number(sp)
    .endr
    sw      a0, TASK_PC(sp)
    sw      a1, TASK_SP(sp)
    sw      gp, TASK_GP(sp)
    sw      tp, TASK_TP(sp)
go_on:
    csrw    mscratch, sp
    la      t0, user_trap
    csrw    mtvec, t0
    lw      t0, TASK_PC(sp)
    csrw    mepc, t0
    li      t0, MPP
    csrc    mstatus, t0                 # MRET goes to user mode
    task    lw
    lw      sp, TASK_SP(sp)
    mret

    .balign 4
user_trap:
    csrrw   sp, mscratch, sp
    task    sw
    csrr    t0, mscratch
    sw      t0, TASK_SP(sp)
    csrr    t0, mepc
    sw      t0, TASK_PC(sp)
    lw      t0, HANDLER(sp)
    csrw    mtvec, t0                   # a trap of the supervisor goes to its own handler
    lw      gp, OWN_GP(sp)
    lw      tp, OWN_TP(sp)
    csrr    t0, mcause
    li      t1, USER_ECALL
    bne     t0, t1, stopped
    addi    a0, sp, TASK_A0
    call    snow_service
    sw      a0, TASK_A0(sp)
    lw      t0, TASK_PC(sp)
    addi    t0, t0, 4                   # behind the ECALL
    sw      t0, TASK_PC(sp)
    j       go_on

# Where the guest has no snow_service an ECALL stops the task, too.
    .weak   snow_service
    .set    snow_service, stopped
stopped:
    lw      t0, STOP(sp)
    csrr    t1, mcause
    sw      t1, 0(t0)
    lw      t1, TASK_PC(sp)
    sw      t1, 4(t0)
    csrr    t1, mtval
    sw      t1, 8(t0)
    lw      t1, TASK_A0(sp)
    sw      t1, 12(t0)
    own     lw
    addi    sp, sp, FRAME
    ret
