/*
 * What the five calls of memory answer, at the edges of addresses and lengths: a line a call, with the name of an
 * error, a number, or from 4,096 on its hexadecimal digits. What is expected is written by hand, from docs/GUESTS.md.
 * Behind the word `choice` stands what Linux, with addresses of 39 bits, answers where that is something else.
 */
#include <limits.h>
#include <stdio.h>

#include <call.h>

#define PAGE 4096l
#define LOW (1l << 37)                        /* the lowest address that a mapping finds, where nothing is mapped */
#define TOP (1l << 38)                        /* the end of all addresses */
#define READ_WRITE 3
#define SHARED 1
#define PRIVATE 2
#define FIXED 0x10
#define ANONYMOUS 0x20

static long map(long at, long length, long rights, long flags, long fd, long offset)
{
    return call(CALL_MMAP, at, length, rights, flags, fd, offset);
}

/* The usual mapping of a program. */
static long map_some(long at, long length)
{
    return map(at, length, READ_WRITE, PRIVATE | ANONYMOUS, -1, 0);
}

static long map_fixed(long at, long length)
{
    return map(at, length, READ_WRITE, PRIVATE | ANONYMOUS | FIXED, -1, 0);
}

static long unmap(long at, long length)
{
    return call(CALL_MUNMAP, at, length, 0, 0, 0, 0);
}

static long protect(long at, long length, long rights)
{
    return call(CALL_MPROTECT, at, length, rights, 0, 0, 0);
}

static long get_random(long at, long count, long flags)
{
    return call(CALL_GETRANDOM, at, count, flags, 0, 0, 0);
}

static long set_break(long to)
{
    return call(CALL_BRK, to, 0, 0, 0, 0, 0);
}

static void show(const char *what, long reply)
{
    static const struct {
        long reply;
        const char *name;
    } names[] = {{-9, "EBADF"}, {-12, "ENOMEM"}, {-14, "EFAULT"}, {-19, "ENODEV"}, {-22, "EINVAL"}};
    for (size_t k = 0; k < sizeof names / sizeof *names; k++)
        if (reply == names[k].reply) {
            printf("%s: %s\n", what, names[k].name);
            return;
        }
    printf(reply < PAGE ? "%s: %ld\n" : "%s: 0x%lx\n", what, reply);
}

static void map_at_places(void)
{
    show("mmap of a page", map_some(0, PAGE)); /* choice: another place on Linux */
    show("mmap of a byte", map_some(0, 1)); /* choice: the same */
    show("mmap with a hint", map_some(LOW, PAGE)); /* choice: at the hint */
    show("mmap with a hint in the midst of a page", map_some(LOW + 1, PAGE)); /* choice: at the hint's page */
    show("munmap of these four", unmap(TOP - (1 << 20) - 4 * PAGE, 4 * PAGE));
    show("mmap, fixed at 2^37", map_fixed(LOW, PAGE));
    show("mmap, fixed over it", map_fixed(LOW, 2 * PAGE));
    show("munmap of both", unmap(LOW, 2 * PAGE));
    show("mmap, fixed at 4096", map_fixed(PAGE, PAGE)); /* choice: EPERM for most users */
    show("munmap of it", unmap(PAGE, PAGE));
    show("mmap, shared", map(LOW, PAGE, READ_WRITE, SHARED | ANONYMOUS | FIXED, -1, 0));
    show("munmap of it", unmap(LOW, PAGE));
    show("mmap with no rights", map(LOW, PAGE, 0, PRIVATE | ANONYMOUS | FIXED, -1, 0));
    show("mmap with all rights", map(LOW, PAGE, 7, PRIVATE | ANONYMOUS | FIXED, -1, 0));
    show("munmap of it", unmap(LOW, PAGE));
    show("mmap, anonymous, of descriptor 0", map(LOW, PAGE, READ_WRITE, PRIVATE | ANONYMOUS | FIXED, 0, 0));
    show("mmap, anonymous, with offset 4096", map(LOW, PAGE, READ_WRITE, PRIVATE | ANONYMOUS | FIXED, -1, PAGE));
    show("munmap of it", unmap(LOW, PAGE));
}

static void map_wrongly(void)
{
    show("mmap of length 0", map_some(0, 0));
    show("mmap of length 0, fixed", map_fixed(LOW, 0));
    show("mmap of length 2^63 - 4095", map_some(0, LONG_MAX - 4094));
    show("mmap of length 2^63", map_some(0, LONG_MIN));
    show("mmap of length 2^63 + 1", map_some(0, LONG_MIN + 1)); /* choice: ENOMEM */
    show("mmap of length 2^64 - 1", map_some(0, -1)); /* choice: ENOMEM */
    show("mmap with rights 8", map(0, PAGE, 8, PRIVATE | ANONYMOUS, -1, 0)); /* choice: the address */
    show("mmap with rights -1", map(0, PAGE, -1, PRIVATE | ANONYMOUS, -1, 0)); /* choice: the address */
    show("mmap, neither shared nor private", map(0, PAGE, READ_WRITE, ANONYMOUS, -1, 0));
    show("mmap, both shared and private", map(0, PAGE, READ_WRITE, SHARED | PRIVATE | ANONYMOUS, -1, 0));
    show("mmap with offset 1", map(0, PAGE, READ_WRITE, PRIVATE | ANONYMOUS, -1, 1));
    show("mmap with offset 4095", map(0, PAGE, READ_WRITE, PRIVATE | ANONYMOUS, -1, 4095));

    show("mmap, fixed in the midst of a page", map_fixed(LOW + 1, PAGE));
    show("mmap, fixed before the end of a page", map_fixed(LOW + 4095, PAGE));
    show("mmap, fixed at 0", map_fixed(0, PAGE)); /* choice: EPERM for most users */
    show("mmap, fixed, with an end behind 2^38", map_fixed(TOP - PAGE, PAGE + 1)); /* choice: ENOMEM */
    show("mmap, fixed at 2^38", map_fixed(TOP, 1)); /* choice: ENOMEM */
    show("mmap, fixed at the last page", map_fixed(-PAGE, PAGE)); /* choice: ENOMEM */

    show("mmap of descriptor 0", map(0, PAGE, READ_WRITE, PRIVATE, 0, 0)); /* choice: by what it is */
    show("mmap of descriptor 1", map(0, PAGE, READ_WRITE, SHARED, 1, 0)); /* choice: by what it is */
    show("mmap of descriptor 2", map(0, PAGE, READ_WRITE, PRIVATE, 2, 0)); /* choice: by what it is */
    show("mmap of descriptor 3", map(0, PAGE, READ_WRITE, PRIVATE, 3, 0));
    show("mmap of descriptor -1", map(0, PAGE, READ_WRITE, SHARED, -1, 0));
    show("mmap of length 0 of descriptor 3", map(0, 0, READ_WRITE, PRIVATE, 3, 0)); /* choice: EBADF */

    show("mmap of 16384 pages", map_some(0, 16384 * PAGE)); /* choice: the address */
    show("mmap of 16384 pages, fixed", map_fixed(LOW, 16384 * PAGE)); /* choice: the address */
    show("mmap of 16384 pages of descriptor 1", map(0, 16384 * PAGE, READ_WRITE, PRIVATE, 1, 0)); /* choice */
    show("mmap of 16384 pages of descriptor 3", map(0, 16384 * PAGE, READ_WRITE, PRIVATE, 3, 0));
}

static void try_munmap(void)
{
    show("munmap in the midst of a page", unmap(LOW + 1, PAGE));
    show("munmap before the end of a page", unmap(LOW + 4095, PAGE));
    show("munmap of length 0", unmap(LOW, 0));
    show("munmap with an end behind 2^38", unmap(TOP - PAGE, PAGE + 1));
    show("munmap at 2^38", unmap(TOP, 1));
    show("munmap of the last page", unmap(-PAGE, PAGE));
    show("munmap over the last page", unmap(-PAGE, 2 * PAGE));
    show("munmap of length 2^64 - 1", unmap(PAGE, -1));
    show("munmap of a hole", unmap(LOW, PAGE));
    show("munmap of the page at 0", unmap(0, PAGE));
    show("munmap of a long hole", unmap(LOW, 1l << 36));

    show("mmap, fixed", map_fixed(LOW + PAGE, 2 * PAGE));
    show("munmap of a byte of the first page", unmap(LOW + PAGE, 1));
    show("mprotect of the first page", protect(LOW + PAGE, PAGE, 1));
    show("mprotect of the second", protect(LOW + 2 * PAGE, PAGE, 1));
    show("munmap of holes with a page among them", unmap(LOW, 8 * PAGE));
    show("mprotect of that page", protect(LOW + 2 * PAGE, PAGE, 1));
}

static void try_mprotect(void)
{
    show("mmap, fixed", map_fixed(LOW, 2 * PAGE));
    show("mprotect in the midst of a page", protect(LOW + 1, PAGE, READ_WRITE));
    show("mprotect with rights 8", protect(LOW, PAGE, 8)); /* choice: 0, as PROT_SEM is 8 */
    show("mprotect with rights 16", protect(LOW, PAGE, 16));
    show("mprotect with rights -1", protect(LOW, PAGE, -1));
    show("mprotect with an end behind 2^38", protect(TOP - PAGE, PAGE + 1, READ_WRITE)); /* choice: ENOMEM */
    show("mprotect at 2^38", protect(TOP, 1, READ_WRITE)); /* choice: ENOMEM */
    show("mprotect of length 2^64 - 1", protect(LOW, -1, READ_WRITE)); /* choice: ENOMEM */
    show("mprotect of the page below 2^38", protect(TOP - PAGE, PAGE, READ_WRITE)); /* choice: by what is there */
    show("mprotect of a hole", protect(LOW + 2 * PAGE, PAGE, READ_WRITE));
    show("mprotect of a page and a hole", protect(LOW + PAGE, PAGE + 1, 1));
    /* choice: EFAULT, as Linux has changed the pages before the hole. */
    show("getrandom into that page", get_random(LOW + PAGE, 1, 0));
    show("mprotect of a byte", protect(LOW, 1, 1));
    show("getrandom to the end of its page", get_random(LOW + 4095, 1, 0));

    show("mprotect of length 0", protect(LOW + PAGE, 0, 1));
    show("getrandom into that page", get_random(LOW + PAGE, 1, 0));
    show("mprotect of length 0 of a hole", protect(LOW + 2 * PAGE, 0, 1));
    show("mprotect of length 0 in the midst of a page", protect(LOW + 1, 0, 1));
    show("mprotect of length 0 with rights 8", protect(LOW, 0, 8)); /* choice: 0 */
    show("mprotect of length 0 at 2^38", protect(TOP, 0, 1));
    show("mprotect of length 0 behind 2^38", protect(TOP + PAGE, 0, 1)); /* choice: 0 */
    show("munmap of both pages", unmap(LOW, 2 * PAGE));
}

static void try_getrandom(void)
{
    static long word;
    show("mmap, fixed", map_fixed(LOW, PAGE));
    show("getrandom with flags 8", get_random(LOW, 16, 8));
    show("getrandom with flags -1", get_random(LOW, 16, -1));
    show("getrandom with flags 8 to nowhere", get_random(0, 16, 8));
    show("getrandom of 0 bytes with flags 8", get_random(LOW, 0, 8));
    show("getrandom with flags 3", get_random(LOW, 16, 3));
    show("getrandom with flags 7", get_random(LOW, 16, 7)); /* choice: EINVAL */
    show("getrandom of 0 bytes", get_random(LOW, 0, 0));
    show("getrandom of 0 bytes to nowhere", get_random(0, 0, 0));
    show("getrandom of 1 byte", get_random(LOW, 1, 0));
    show("getrandom of 256 bytes", get_random(LOW, 256, 0));
    show("getrandom of 257 bytes", get_random(LOW, 257, 0)); /* choice: 257 */
    show("getrandom of 2^64 - 1 bytes", get_random(LOW, -1, 0)); /* choice: 4096, or EFAULT */
    show("getrandom of 300 bytes, of which 256 are there", get_random(LOW + PAGE - 256, 300, 0));
    show("getrandom to 0", get_random(0, 16, 0));
    show("getrandom to a hole", get_random(LOW + PAGE, 1, 0));
    show("getrandom to the last bytes", get_random(-8, 16, 0));
    show("getrandom to a function", get_random((long)try_getrandom, 16, 0));
    show("getrandom to a variable", get_random((long)&word, sizeof word, 0));

    show("mmap over it", map_fixed(LOW, PAGE));
    show("getrandom of 9 bytes, of which 8 are there", get_random(LOW + PAGE - 8, 9, 0)); /* choice: 8 */
    show("what it put", *(volatile long *)(LOW + PAGE - 8)); /* choice: eight bytes */
    show("munmap of the page", unmap(LOW, PAGE));
}

/* A break is shown by its distance from the start. */
static void try_break(void)
{
    long start = set_break(0);
    show("brk(0), in its page", start % PAGE);
    show("brk of 1 byte", set_break(start + 1) - start);
    show("brk below the start", set_break(start - 1) - start);
    show("brk of 1", set_break(1) - start);
    show("brk of 2^37", set_break(LOW) - start); /* choice: the break may come to there */
    show("brk of 2^37 - 1", set_break(LOW - 1) - start); /* choice: the break may come to there */
    show("brk of 2^64 - 1", set_break(-1) - start);
    show("brk of 16384 pages", set_break(start + 16384 * PAGE) - start); /* choice: the break may come to there */
    show("brk of 10 bytes", set_break(start + 10) - start);
    show("brk of the start", set_break(start) - start);

    show("mmap, fixed behind a page", map_fixed(start + PAGE, PAGE) - start);
    show("brk of a byte of the mapped page", set_break(start + PAGE + 1) - start);
    show("brk behind it", set_break(start + 2 * PAGE + 1) - start);
    show("brk up to it, and a byte less", set_break(start + PAGE - 1) - start); /* choice: 0, Linux leaves a gap */
    show("brk up to it", set_break(start + PAGE) - start); /* choice: 0, the same */
    show("munmap of it", unmap(start + PAGE, PAGE));
    show("brk of two pages", set_break(start + 2 * PAGE) - start);
    show("getrandom to their end", get_random(start + 2 * PAGE - 8, 8, 0));
    show("brk of a page", set_break(start + PAGE) - start);
    show("getrandom behind it", get_random(start + PAGE, 8, 0));
    show("brk of the start", set_break(start) - start);
    show("getrandom behind it", get_random(start, 8, 0));
}

int main(void)
{
    map_at_places();
    map_wrongly();
    try_munmap();
    try_mprotect();
    try_getrandom();
    try_break();
    return 0;
}
