/*
 * As many pages as there may be: those of the image and of the stack, of the heap and of a mapping are 16,384 in all.
 * One more is refused, in the heap and in a mapping; what takes no more of them isn't, and a page that is given back
 * can be taken again. Linux has no such limit; what is expected is written by hand.
 */
#include <elf.h>
#include <errno.h>
#include <stdint.h>
#include <stdio.h>
#include <stdlib.h>
#include <sys/mman.h>
#include <unistd.h>

#define PAGE 4096
#define MOST_PAGES 16384
#define STACK_PAGES 64
#define HEAP_PAGES 20

extern const Elf64_Ehdr __ehdr_start;

static void expect(int holds, const char *what)
{
    printf("%s: %s\n", what, holds ? "yes" : "no");
}

/* The segments of a guest have no page in common: guest.ld begins each on a page of its own. */
static size_t image_pages(void)
{
    const Elf64_Phdr *headers = (const void *)((const char *)&__ehdr_start + __ehdr_start.e_phoff);
    size_t pages = 0;
    for (int k = 0; k < __ehdr_start.e_phnum; k++)
        if (headers[k].p_type == PT_LOAD)
            pages += (headers[k].p_vaddr + headers[k].p_memsz - 1) / PAGE - headers[k].p_vaddr / PAGE + 1;
    return pages;
}

static void *map(void *at, size_t pages, int flags)
{
    errno = 0;
    return mmap(at, pages * PAGE, PROT_READ | PROT_WRITE, MAP_PRIVATE | MAP_ANONYMOUS | flags, -1, 0);
}

static int is_refused(const void *reply)
{
    return reply == (void *)-1 && errno == ENOMEM;
}

/* A static variable, a local one, and the ends of heap and mapping: each is on a page that was reached before. */
static void store_everywhere(unsigned char *heap, unsigned char *area, size_t pages)
{
    static volatile unsigned char in_image = 1;
    volatile unsigned char in_stack = 2;
    heap[0] = heap[HEAP_PAGES * PAGE - 1] = area[0] = area[pages * PAGE - 1] = in_image + in_stack;
}

static int is_as_stored(const unsigned char *heap, const unsigned char *area, size_t pages)
{
    return heap[0] == 3 && heap[HEAP_PAGES * PAGE - 1] == 3 && area[0] == 3 && area[pages * PAGE - 1] == 3;
}

int main(void)
{
    size_t pages = MOST_PAGES - STACK_PAGES - HEAP_PAGES - image_pages();
    unsigned char *heap = sbrk(HEAP_PAGES * PAGE);
    expect(heap != (void *)-1, "the heap grows by 20 pages");
    expect(is_refused(map(NULL, pages + 1, 0)), "one page more than the rest is refused");
    unsigned char *area = map(NULL, pages, 0);
    expect(area != MAP_FAILED, "the rest is mapped");
    if (area == MAP_FAILED)
        return 1;
    store_everywhere(heap, area, pages);

    expect(is_refused(map(NULL, 1, 0)), "one more page is refused to a mapping");
    errno = 0;
    expect(is_refused(sbrk(1)), "and to the heap");
    expect(is_refused(map(area - PAGE, 2, MAP_FIXED)), "and to a fixed mapping half over one");
    expect(map(area + PAGE, 2, MAP_FIXED) == area + PAGE, "a fixed mapping over others takes none");
    expect(mprotect(area, pages * PAGE, PROT_READ) == 0 && mprotect(area, pages * PAGE, PROT_READ | PROT_WRITE) == 0,
        "other rights take none");

    expect(munmap(area + PAGE, PAGE) == 0 && map(area - PAGE, 1, MAP_FIXED) == area - PAGE,
        "a page is unmapped, and another mapped");
    expect(is_refused(map(area + PAGE, 1, MAP_FIXED)), "the first can't be mapped again");
    expect(munmap(area + 2 * PAGE, PAGE) == 0 && sbrk(PAGE) == heap + HEAP_PAGES * PAGE, "or the heap grows by it");
    errno = 0;
    expect(is_refused(sbrk(PAGE)), "but not by two");
    expect(sbrk(-PAGE) != (void *)-1 && map(area + PAGE, 1, MAP_FIXED) == area + PAGE,
        "what the heap gives back can be mapped");
    expect(is_as_stored(heap, area, pages), "what was stored is there");
    return 0;
}
