/* A system call as the kernel takes it: the number in a7, six arguments, and the reply, below 0 for an error. */
#ifndef CALL_H
#define CALL_H

#define CALL_DUP 23
#define CALL_DUP3 24
#define CALL_FCNTL 25
#define CALL_IOCTL 29
#define CALL_CLOSE 57
#define CALL_PIPE2 59
#define CALL_LSEEK 62
#define CALL_READ 63
#define CALL_WRITE 64
#define CALL_READV 65
#define CALL_WRITEV 66
#define CALL_PREAD64 67
#define CALL_PWRITE64 68
#define CALL_EXIT 93
#define CALL_EXIT_GROUP 94
#define CALL_SET_TID_ADDRESS 96
#define CALL_FUTEX 98
#define CALL_SET_ROBUST_LIST 99
#define CALL_CLOCK_GETTIME 113
#define CALL_SCHED_YIELD 124
#define CALL_UNAME 160
#define CALL_GETPID 172
#define CALL_GETPPID 173
#define CALL_GETUID 174
#define CALL_GETEUID 175
#define CALL_GETGID 176
#define CALL_GETEGID 177
#define CALL_GETTID 178
#define CALL_BRK 214
#define CALL_MUNMAP 215
#define CALL_CLONE 220
#define CALL_MMAP 222
#define CALL_MPROTECT 226
#define CALL_WAIT4 260
#define CALL_GETRANDOM 278

static inline long call(long number, long a, long b, long c, long d, long e, long f)
{
    register long a0 __asm__("a0") = a;
    register long a1 __asm__("a1") = b;
    register long a2 __asm__("a2") = c;
    register long a3 __asm__("a3") = d;
    register long a4 __asm__("a4") = e;
    register long a5 __asm__("a5") = f;
    register long a7 __asm__("a7") = number;
    __asm__ volatile("ecall" : "+r"(a0) : "r"(a1), "r"(a2), "r"(a3), "r"(a4), "r"(a5), "r"(a7) : "memory");
    return a0;
}

#endif
