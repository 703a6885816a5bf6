/* How a program without a library begins, calls its system and begins a thread: on RISC-V and on x86-64. */
#ifndef CALLS_H
#define CALLS_H

/* Called at the start with the stack pointer: the number of arguments stands there, and behind it the arguments. */
_Noreturn void begin(char **stack);

#ifdef __riscv

#include "../guests/libc/call.h"

__asm__(
    ".globl _start\n"
    "_start:\n\t"
    "mv a0, sp\n\t"
    "call begin\n");

/* A thread, which begins behind the call with the registers of its maker, but for the stack pointer. */
static inline long begin_thread(long flags, void *stack_end, void (*work)(void))
{
    register long a0 __asm__("a0") = flags;
    register void *a1 __asm__("a1") = stack_end;
    register void (*a5)(void) __asm__("a5") = work;
    register long a7 __asm__("a7") = CALL_CLONE;
    __asm__ volatile("ecall\n\t"
                     "bnez a0, 0f\n\t"
                     "jalr a5\n\t"
                     "li a0, 0\n\t"
                     "li a7, %4\n\t"
                     "ecall\n"
                     "0:"
                     : "+r"(a0)
                     : "r"(a1), "r"(a5), "r"(a7), "i"(CALL_EXIT)
                     : "memory");
    return a0;
}

#else

#define CALL_READ 0
#define CALL_WRITE 1
#define CALL_READV 19
#define CALL_PIPE2 293
#define CALL_CLOSE 3
#define CALL_DUP 32
#define CALL_EXIT 60
#define CALL_EXIT_GROUP 231
#define CALL_CLONE 56
#define CALL_WAIT4 61
#define CALL_FUTEX 202
#define CALL_BRK 12
#define CALL_MUNMAP 11
#define CALL_MMAP 9
#define CALL_SCHED_YIELD 24
#define CALL_GETPID 39
#define CALL_CLOCK_GETTIME 228
#define CALL_GETRANDOM 318

__asm__(
    ".globl _start\n"
    "_start:\n\t"
    "mov %rsp, %rdi\n\t"
    "call begin\n");

static inline long call(long number, long a, long b, long c, long d, long e, long f)
{
    register long r10 __asm__("r10") = d;
    register long r8 __asm__("r8") = e;
    register long r9 __asm__("r9") = f;
    __asm__ volatile("syscall"
        : "+a"(number)
        : "D"(a), "S"(b), "d"(c), "r"(r10), "r"(r8), "r"(r9)
        : "rcx", "r11", "memory");
    return number;
}

static inline long begin_thread(long flags, void *stack_end, void (*work)(void))
{
    long reply = CALL_CLONE;
    register void (*r9)(void) __asm__("r9") = work;
    __asm__ volatile("syscall\n\t"
                     "test %%rax, %%rax\n\t"
                     "jnz 0f\n\t"
                     "call *%%r9\n\t"
                     "xor %%edi, %%edi\n\t"
                     "mov %4, %%eax\n\t"
                     "syscall\n"
                     "0:"
                     : "+a"(reply)
                     : "D"(flags), "S"(stack_end), "r"(r9), "i"(CALL_EXIT)
                     : "rcx", "r11", "memory");
    return reply;
}

#endif

#endif
