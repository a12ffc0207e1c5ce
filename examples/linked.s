# A guest that a linker lays out: code, a word of data, and a word that starts as zero.
# It puts out a line and exits with 7. Assemble and link it by
#
#     riscv64-unknown-elf-as -march=rv32ima -mabi=ilp32 linked.s -o linked.o
#     riscv64-unknown-elf-ld -m elf32lriscv -n --no-relax -s -Ttext=0x80000000 -Tdata=0x80002000 linked.o -o linked.elf

    .equ CONSOLE, 0x10000
    .equ FORK, 0x10002

    .macro put letter
    addi x6, x0, \letter
    sb x6, 0(x5)
    .endm

    .text
    .globl _start
_start:
    lui x5, CONSOLE
    put 'l'
    put 'i'
    put 'n'
    put 'k'
    put 'e'
    put 'd'
    put '\n'
    lui x7, %hi(told)           # the line is out
    addi x7, x7, %lo(told)
    sw x5, 0(x7)
    lui x5, FORK
    addi x6, x0, 7              # the value
    sw x6, 0(x5)
    addi x6, x0, 5              # EXIT
    sw x6, 8(x5)

    .data
version:
    .word 1

    .bss
    .balign 4
told:
    .skip 4
