# The start of a C program, and the system calls by number (a7), with arguments in a0 to a2 and the answer in a0.
# At the start sp is the address after the last byte of memory, and every other register is 0.
        .section .init, "ax"
        .globl  _start
_start:
        .option push
        .option norelax
        la      gp, __global_pointer$
        .option pop
        call    main
        .globl  exit
exit:   li      a7, 1
        ecall

        .macro  CALL name, number
        .section .text.\name, "ax"
        .globl  \name
\name:  li      a7, \number
        ecall
        ret
        .endm
        CALL    write, 2
        CALL    read, 3
        CALL    getpid, 6
        CALL    kill, 8
        CALL    close, 10

# Two answers: the second, an end, comes in a1.
        .macro  CALL2 name, number, at
        .section .text.\name, "ax"
        .globl  \name
\name:  mv      t0, \at
        li      a7, \number
        ecall
        bltz    a0, 1f
        sw      a1, 0(t0)
1:      ret
        .endm
        CALL2   read_any, 4, a2
        CALL2   fork, 5, a0

# signal(f): f(number) is called for each signal that is taken, and what was interrupted goes on after it. The address that the call gets is
# `taken`, which calls f and then sigreturn: f itself would return to whatever ra holds. The registers of what was interrupted are the
# kernel's to keep. By signal(0) f stays noted, since a signal may still be taken before the call is made.
        .section .text.signal, "ax"
        .globl  signal
signal: beqz    a0, 1f
        la      t0, function
        sw      a0, 0(t0)
        la      a0, taken
1:      li      a7, 7
        ecall
        ret
        .balign 4
taken:  la      t0, function
        lw      t0, 0(t0)
        jalr    t0
        li      a7, 9
        ecall
        .section .bss
        .balign 4
function: .skip 4
