/*
 * What C can't say: how the program starts and calls the system, what a called function finds in registers and on the stack, and what a
 * caller leaves there. The machine's bytes stand as check.h says. Of a float register as many are moved as the ABI's floats have.
 */
#include "check.h"

    .macro integers instruction, numbers:vararg
    .irp number, \numbers
    \instruction a\number, INTEGERS_AT + 8 * \number(t0)
    .endr
    .endm

    .macro floats instruction, numbers:vararg
    .irp number, \numbers
#if defined(__riscv_float_abi_double)
    f\instruction\()d fa\number, FLOATS_AT + 8 * \number(t0)
#elif defined(__riscv_float_abi_single)
    f\instruction\()w fa\number, FLOATS_AT + 8 * \number(t0)
#endif
    .endr
    .endm

    /* STACK_BYTES bytes between two addresses, which move on */
    .macro copy_stack from, to
    li t3, STACK_BYTES / 8
1:  ld t4, (\from)
    sd t4, (\to)
    addi \from, \from, 8
    addi \to, \to, 8
    addi t3, t3, -1
    bnez t3, 1b
    .endm

    .text
    .globl _start
_start:
    .option push
    .option norelax
    la gp, __global_pointer$
    .option pop
    ld a0, 16(sp) /* the word behind the program's name */
    la sp, stack_top
    call check
    li a7, 93 /* exit */
    ecall

    /* long system_call(long a, long b, long c, long d, long number) */
    .globl system_call
system_call:
    mv a7, a4
    ecall
    ret

    /* What callers call: has `captured` look at the machine as it is here, and returns what that leaves in it. */
    .globl capture
capture:
    la t0, machine
    integers sd, 0, 1, 2, 3, 4, 5, 6, 7
    floats s, 0, 1, 2, 3, 4, 5, 6, 7
    mv t1, sp
    addi t2, t0, STACK_AT
    copy_stack t1, t2
    addi sp, sp, -16
    sd ra, (sp)
    call captured
    ld ra, (sp)
    addi sp, sp, 16
    la t0, machine
    integers ld, 0, 1
    floats l, 0, 1
    ret

    /* void enter(void (*function)(void)): calls it with what the machine has, and stores to the machine what comes back. */
    .globl enter
enter:
    addi sp, sp, -16
    sd ra, (sp)
    sd s0, 8(sp)
    mv s0, sp
    mv t5, a0
    la t0, machine
    addi sp, sp, -STACK_BYTES
    addi t1, t0, STACK_AT
    mv t2, sp
    copy_stack t1, t2
    integers ld, 0, 1, 2, 3, 4, 5, 6, 7
    floats l, 0, 1, 2, 3, 4, 5, 6, 7
    jalr t5
    la t0, machine
    integers sd, 0, 1
    floats s, 0, 1
    mv sp, s0
    ld ra, (sp)
    ld s0, 8(sp)
    addi sp, sp, 16
    ret

    .bss
    .balign 16
    .space 65536
stack_top:
    .space STACK_BYTES /* `capture` reads as far above its caller's stack pointer */

    .section .note.GNU-stack, "", @progbits
