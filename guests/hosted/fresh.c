/*
 * New pages have zeros, wherever other pages were before: once pages were stored to, unmapped and mapped again; under a
 * fixed mapping over pages in use; in a heap that shrank and grew. The pages beside keep what they have.
 */
#include <stdint.h>
#include <stdio.h>
#include <stdlib.h>
#include <sys/mman.h>
#include <unistd.h>

#define PAGE 4096

static void expect(int holds, const char *kind, const char *what)
{
    printf("%s: %s: %s\n", kind, what, holds ? "yes" : "no");
    if (!holds)
        exit(1);
}

/* The words of a page, and of so many pages. */
#define WORDS (PAGE / sizeof(uint64_t))

static void fill(uint64_t *page, size_t pages)
{
    for (size_t k = 0; k < pages * WORDS; k++)
        page[k] = ~k;
}

static int is_filled(const uint64_t *page, size_t from, size_t to)
{
    for (size_t k = from * WORDS; k < to * WORDS; k++)
        if (page[k] != ~k)
            return 0;
    return 1;
}

static int is_zero(const uint64_t *page, size_t from, size_t to)
{
    for (size_t k = from * WORDS; k < to * WORDS; k++)
        if (page[k])
            return 0;
    return 1;
}

static void try_mappings(const char *kind, int flags)
{
    int rights = PROT_READ | PROT_WRITE;
    uint64_t *area = mmap(NULL, 4 * PAGE, rights, flags | MAP_ANONYMOUS, -1, 0);
    expect(area != MAP_FAILED && is_zero(area, 0, 4), kind, "new pages have zeros");

    fill(area, 4);
    int is_unmapped = munmap(area, 4 * PAGE) == 0;
    expect(is_unmapped && mmap(area, 4 * PAGE, rights, flags | MAP_ANONYMOUS | MAP_FIXED, -1, 0) == area, kind,
        "unmapped and mapped again");
    expect(is_zero(area, 0, 4), kind, "they have zeros again");

    fill(area, 4);
    uint64_t *second = area + WORDS;
    expect(mmap(second, PAGE, rights, flags | MAP_ANONYMOUS | MAP_FIXED, -1, 0) == second, kind,
        "a fixed mapping over one of them");
    expect(is_zero(area, 1, 2), kind, "that has zeros");
    expect(is_filled(area, 0, 1) && is_filled(area, 2, 4), kind, "the others keep their bytes");

    fill(area, 4);
    expect(munmap(area + 2 * WORDS, PAGE) == 0, kind, "one is unmapped");
    expect(is_filled(area, 0, 2) && is_filled(area, 3, 4), kind, "the others keep their bytes");
    expect(mmap(area, 4 * PAGE, PROT_NONE, flags | MAP_ANONYMOUS | MAP_FIXED, -1, 0) == area, kind,
        "a fixed mapping over pages and a hole");
    expect(mprotect(area, 4 * PAGE, PROT_READ) == 0 && is_zero(area, 0, 4), kind, "it has zeros");
    expect(munmap(area, 4 * PAGE) == 0, kind, "all are unmapped");
}

static void try_heap(void)
{
    size_t rest = -(uintptr_t)sbrk(0) % PAGE;
    expect(sbrk(rest) != (void *)-1, "heap", "the break is at a page's end");
    uint64_t *pages = sbrk(3 * PAGE);
    expect(pages != (void *)-1 && is_zero(pages, 0, 3), "heap", "new pages have zeros");
    fill(pages, 3);
    expect(sbrk(-2 * PAGE) != (void *)-1, "heap", "two of them are given back");
    expect(is_filled(pages, 0, 1), "heap", "the other keeps its bytes");
    expect(sbrk(2 * PAGE) == pages + WORDS, "heap", "and taken again");
    expect(is_zero(pages, 1, 3), "heap", "they have zeros again");
    expect(is_filled(pages, 0, 1), "heap", "the other has its bytes still");
}

int main(void)
{
    try_mappings("private", MAP_PRIVATE);
    try_mappings("shared", MAP_SHARED);
    try_heap();
    return 0;
}
