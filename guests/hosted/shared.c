/*
 * Shared anonymous memory: stored and loaded in all widths, at the ends of its pages too; atomic instructions on it;
 * and calls that take their bytes from it and put bytes into it. One task runs, so all is as in private memory.
 */
#include <stdatomic.h>
#include <stdint.h>
#include <stdio.h>
#include <stdlib.h>
#include <string.h>
#include <sys/mman.h>
#include <sys/random.h>
#include <unistd.h>

#include "../numbers.h"

#define PAGE 4096
#define PAGES 5

static unsigned char *area;

static void expect(int holds, const char *what)
{
    printf("%s: %s\n", what, holds ? "yes" : "no");
    if (!holds)
        exit(1);
}

/* Stores and loads by the instructions of a width, at any address. */
#define ACCESS(name, type, load, store)                                           \
    static void store_##name(void *at, type value)                                \
    {                                                                             \
        __asm__ volatile(store " %0, 0(%1)" : : "r"(value), "r"(at) : "memory");  \
    }                                                                             \
    static type load_##name(const void *at)                                       \
    {                                                                             \
        type value;                                                               \
        __asm__ volatile(load " %0, 0(%1)" : "=r"(value) : "r"(at) : "memory");   \
        return value;                                                             \
    }

ACCESS(byte, int8_t, "lb", "sb")
ACCESS(half, int16_t, "lh", "sh")
ACCESS(word, int32_t, "lw", "sw")
ACCESS(double, int64_t, "ld", "sd")

/* At each place from eight bytes before a page's end to the page's end: so most go over it. */
static void store_across(void)
{
    uint64_t digest = DIGEST_OFFSET;
    for (unsigned char *at = area + PAGE - 8; at <= area + PAGE; at++) {
        store_double(at, 0x0123456789abcdef);
        int64_t eight = load_double(at);
        store_word(at + 1, -2);
        int32_t four = load_word(at + 1);
        store_half(at + 3, -300);
        int16_t two = load_half(at + 3);
        store_byte(at + 7, -1);
        int8_t one = load_byte(at + 7);
        if (eight != 0x0123456789abcdef || four != -2 || two != -300 || one != -1)
            expect(0, "what was stored is loaded");
        digest = digest_bytes(digest, area + PAGE - 16, 32);
    }
    printf("digest over the end of a page %016llx\n", (unsigned long long)digest);
}

static void work_atomically(void)
{
    _Atomic int64_t *number = (void *)(area + PAGE);
    _Atomic int32_t *word = (void *)(area + 2 * PAGE - 4);
    atomic_store(number, 40);
    atomic_store(word, -1);
    int64_t olds[] = {atomic_fetch_add(number, 2), atomic_exchange(number, 0xf0), atomic_fetch_or(number, 0x0f),
        atomic_fetch_and(number, 0x3c), atomic_fetch_xor(number, -1), atomic_fetch_add(word, 3),
        atomic_exchange(word, INT32_MIN)};
    for (size_t k = 0; k < sizeof olds / sizeof *olds; k++)
        printf("%lld ", (long long)olds[k]);
    printf("%lld %ld\n", (long long)atomic_load(number), (long)atomic_load(word));
    int64_t expected = 5;
    int first = atomic_compare_exchange_strong(number, &expected, 7);
    int second = atomic_compare_exchange_strong(number, &expected, 7);
    printf("compared: %d %d, at last %lld\n", first, second, (long long)atomic_load(number));
}

/* A load-reserved and a store-conditional, alone and after one that has ended the reservation. */
static void reserve(void)
{
    int64_t *number = (void *)(area + 3 * PAGE), old;
    int first, second;
    *number = 11;
    __asm__ volatile(
        "lr.d %0, (%3)\n\t"
        "sc.d %1, %4, (%3)\n\t"
        "sc.d %2, %5, (%3)"
        : "=&r"(old), "=&r"(first), "=&r"(second)
        : "r"(number), "r"(22l), "r"(33l)
        : "memory");
    printf("reserved %lld, stored %d, and then %d: %lld\n", (long long)old, first, second, (long long)*number);
}

static void call_on_it(void)
{
    static const char text[] = "this line stands over the end of a page\n";
    char *line = (char *)area + 2 * PAGE - 10;
    memcpy(line, text, sizeof text);
    fflush(stdout);
    expect(write(1, line, sizeof text - 1) == sizeof text - 1, "written from shared memory");

    unsigned char *random = area + 4 * PAGE - 100, first[200];
    memset(random - 1, 0x55, 202);
    expect(getrandom(random, 200, 0) == 200, "random bytes over the end of a page");
    memcpy(first, random, 200);
    expect(getrandom(random, 200, 0) == 200 && memcmp(first, random, 200) != 0, "and others the second time");
    expect(memcmp(first, random, 100) != 0 && memcmp(first + 100, random + 100, 100) != 0, "in both pages");
    expect(random[-1] == 0x55 && random[200] == 0x55, "and none beside them");
}

int main(void)
{
    area = mmap(NULL, PAGES * PAGE, PROT_READ | PROT_WRITE, MAP_SHARED | MAP_ANONYMOUS, -1, 0);
    expect(area != MAP_FAILED, "shared pages are mapped");
    int zeros = 1;
    for (unsigned char *at = area; at < area + PAGES * PAGE; at += 8)
        zeros = zeros && load_double(at) == 0;
    expect(zeros, "they have zeros");
    store_across();
    work_atomically();
    reserve();
    call_on_it();
    expect(munmap(area, PAGES * PAGE) == 0, "they are unmapped");
    return 0;
}
