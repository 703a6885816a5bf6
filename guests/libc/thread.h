/*
 * Threads by clone(2). One has a stack and variables of its own, and the rest of memory is that of all. The library
 * itself has no locks: of what keeps a state, such as malloc and printf, one thread at a time makes use.
 */
#ifndef THREAD_H
#define THREAD_H

#include <picolibc.h>
#include <picotls.h>
#include <stdint.h>
#include <sys/mman.h>

#include "answer.h"
#include "call.h"
#include "futex.h"

#define CLONE_VM 0x100
#define CLONE_FS 0x200
#define CLONE_FILES 0x400
#define CLONE_SIGHAND 0x800
#define CLONE_THREAD 0x10000
#define CLONE_SYSVSEM 0x40000
#define CLONE_SETTLS 0x80000
#define CLONE_PARENT_SETTID 0x100000
#define CLONE_CHILD_CLEARTID 0x200000
#define CLONE_CHILD_SETTID 0x1000000

/* What each thread has, and CLONE_SYSVSEM, which the kernel doesn't look at, and which other systems ask for. */
#define CLONE_A_THREAD (CLONE_VM | CLONE_FS | CLONE_FILES | CLONE_SIGHAND | CLONE_THREAD | CLONE_SYSVSEM)

struct cloning {
    long flags;
    void *stack; /* its end */
    void *parent_word, *tls, *child_word;
};

/* A new thread, which does work(given) and ends. The reply is the kernel's: its number, or an error. The thread begins
 * behind the call with the registers of its maker, so that it has the two there, but with reply 0. */
static inline long clone_thread(const struct cloning *x, void (*work)(void *), void *given)
{
    register long a0 __asm__("a0") = x->flags;
    register void *a1 __asm__("a1") = x->stack;
    register void *a2 __asm__("a2") = x->parent_word;
    register void *a3 __asm__("a3") = x->tls;
    register void *a4 __asm__("a4") = x->child_word;
    register void (*a5)(void *) __asm__("a5") = work;
    register void *a6 __asm__("a6") = given;
    register long a7 __asm__("a7") = CALL_CLONE;
    __asm__ volatile("ecall\n\t"
                     "bnez a0, 0f\n\t"
                     "mv a0, a6\n\t"
                     "jalr a5\n\t"
                     "li a0, 0\n\t"
                     "li a7, %8\n\t"
                     "ecall\n"
                     "0:"
                     : "+r"(a0)
                     : "r"(a1), "r"(a2), "r"(a3), "r"(a4), "r"(a5), "r"(a6), "r"(a7), "i"(CALL_EXIT)
                     : "memory");
    return a0;
}

#define THREAD_AREA 65536 /* a page that none may touch, the stack, and the thread's own variables */

struct thread {
    _Atomic uint32_t number; /* its number while it lives, and then 0, where it wakes who waits for it */
    void *area;
};

/* Begins a thread that does work(given). Answers 0, or -1 with errno set. */
static inline int thread_begin(struct thread *thread, void (*work)(void *), void *given)
{
    char *area = mmap(NULL, THREAD_AREA, PROT_READ | PROT_WRITE, MAP_PRIVATE | MAP_ANONYMOUS, -1, 0);
    if (area == MAP_FAILED)
        return -1;
    mprotect(area, 4096, PROT_NONE);
    uintptr_t align = _tls_align() > 16 ? _tls_align() : 16;
    uintptr_t own = ((uintptr_t)area + THREAD_AREA - _tls_size()) & -align;
    _init_tls((void *)own);
    thread->area = area;
    struct cloning x = {
        .flags = CLONE_A_THREAD | CLONE_SETTLS | CLONE_PARENT_SETTID | CLONE_CHILD_CLEARTID,
        .stack = (void *)own,
        .parent_word = &thread->number,
        .tls = (void *)own,
        .child_word = &thread->number,
    };
    if (answer(clone_thread(&x, work, given)) != -1)
        return 0;
    munmap(area, THREAD_AREA);
    return -1;
}

/* Waits until the word that has a thread's number is cleared. */
static inline void thread_wait(_Atomic uint32_t *number)
{
    for (uint32_t n; (n = atomic_load(number)) != 0;)
        futex_wait(number, n);
}

/* Waits until a thread has ended, and gives its memory back. */
static inline void thread_end(struct thread *thread)
{
    thread_wait(&thread->number);
    munmap(thread->area, THREAD_AREA);
}

#endif
