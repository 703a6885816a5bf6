/*
 * What the guests have in place of a C library: two system calls, text on standard output, a generator of numbers and a
 * digest.
 */
#ifndef GUEST_H
#define GUEST_H

#include <stddef.h>
#include <stdint.h>

#include "../numbers.h"

static inline long write(int fd, const void *bytes, size_t count)
{
    register long a0 __asm__("a0") = fd;
    register const void *a1 __asm__("a1") = bytes;
    register size_t a2 __asm__("a2") = count;
    register long a7 __asm__("a7") = 64;
    __asm__ volatile("ecall" : "+r"(a0) : "r"(a1), "r"(a2), "r"(a7) : "memory");
    return a0;
}

static inline _Noreturn void exit_group(int status)
{
    register long a0 __asm__("a0") = status;
    register long a7 __asm__("a7") = 94;
    __asm__ volatile("ecall" : : "r"(a0), "r"(a7) : "memory");
    __builtin_unreachable();
}

/* Writes all the bytes, though a call may take fewer than it is given. */
static inline void print_bytes(const char *bytes, size_t count)
{
    while (count > 0) {
        long taken = write(1, bytes, count);
        if (taken <= 0)
            exit_group(1);
        bytes += taken;
        count -= taken;
    }
}

static inline void print(const char *text)
{
    size_t count = 0;
    while (text[count])
        count++;
    print_bytes(text, count);
}

static inline void print_decimal(uint64_t number)
{
    char digits[20];
    size_t first = sizeof digits;
    do {
        digits[--first] = '0' + number % 10;
        number /= 10;
    } while (number > 0);
    print_bytes(digits + first, sizeof digits - first);
}

/* Prints the lowest so many hexadecimal digits, 16 at most. */
static inline void print_hex(uint64_t number, unsigned count)
{
    char digits[16];
    for (unsigned k = count; k > 0; k--) {
        digits[k - 1] = "0123456789abcdef"[number & 15];
        number >>= 4;
    }
    print_bytes(digits, count);
}

static inline void print_digest(uint64_t digest)
{
    print("digest ");
    print_hex(digest, 16);
    print("\n");
}

#endif
