//! `memset`, which the library leaves to whoever links it, and by which a flattening clears its
//! tables. The C library's is another code on each machine, and a counter may count every byte of
//! it; this one writes 256 bytes with 19 instructions, whatever the machine and its rustc. The
//! original clears lists, too, and keeps the C library's: beside it this isn't built.

use std::arch::global_asm;

global_asm!(
    ".globl memset",
    ".type memset, @function",
    "memset:",
    "mov r8, rdi",
    "movzx eax, sil",
    "movd xmm0, eax",
    "punpcklbw xmm0, xmm0",
    "pshuflw xmm0, xmm0, 0",
    "punpcklqdq xmm0, xmm0",
    "mov rcx, rdx",
    "shr rcx, 8",
    "jz 3f",
    "2:",
    ".irp at, 0, 16, 32, 48, 64, 80, 96, 112, 128, 144, 160, 176, 192, 208, 224, 240",
    "movups [rdi + \\at], xmm0",
    ".endr",
    "add rdi, 256",
    "dec rcx",
    "jnz 2b",
    "3:",
    "movzx ecx, dl",
    "rep stosb",
    "mov rax, r8",
    "ret",
    ".size memset, . - memset",
);
