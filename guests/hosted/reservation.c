/*
 * What ends a reservation: a load-reserved reserves a place, memory is changed, and a store-conditional to that place
 * stores where the reservation is still there. It is lost where its page was unmapped, mapped over or given rights,
 * alone or with others, and kept where another page was, and where the call was refused.
 *
 * Linux ends the reservation in every call, and an emulator may end it in none; what is expected is written by hand.
 */
#include <stdint.h>
#include <stdio.h>
#include <sys/mman.h>
#include <unistd.h>


#define PAGE 4096

/* The page with the place, between two others. The place is the last eight bytes of its page. */
static char *page;
static int64_t *place;
static int flags;

static void map_fixed(void *at, size_t length)
{
    mmap(at, length, PROT_READ | PROT_WRITE, flags | MAP_ANONYMOUS | MAP_FIXED, -1, 0);
}

/* A store-conditional to a page that isn't there ends the group: so the page is mapped again. Either call alone loses
 * the reservation; that the first does can't be seen without the second. */
static void unmap(void *at, size_t length)
{
    munmap(at, length);
    map_fixed(at, length);
}

static void protect(void *at, size_t length)
{
    mprotect(at, length, PROT_READ | PROT_WRITE);
}

static void change_nothing(void) {}
static void unmap_it(void) { unmap(page, PAGE); }
static void map_over_it(void) { map_fixed(page, PAGE); }
static void protect_it(void) { protect(page, PAGE); }
static void unmap_by_a_byte(void) { unmap(page, 1); }
static void map_over_by_a_byte(void) { map_fixed(page, 1); }
static void protect_by_a_byte(void) { protect(page, 1); }
static void unmap_all(void) { unmap(page - PAGE, 3 * PAGE); }
static void map_over_all(void) { map_fixed(page - PAGE, 3 * PAGE); }
static void protect_all(void) { protect(page - PAGE, 3 * PAGE); }
static void take_rights_and_give_back(void) { mprotect(page, PAGE, PROT_NONE), protect(page, PAGE); }

static void unmap_before(void) { unmap(page - PAGE, PAGE); }
static void map_over_before(void) { map_fixed(page - PAGE, PAGE); }
static void protect_before(void) { protect(page - PAGE, PAGE); }
static void unmap_behind(void) { unmap(page + PAGE, PAGE); }
static void map_over_behind(void) { map_fixed(page + PAGE, PAGE); }
static void protect_behind(void) { protect(page + PAGE, PAGE); }
static void map_elsewhere(void) { munmap(mmap(NULL, PAGE, PROT_READ, flags | MAP_ANONYMOUS, -1, 0), PAGE); }
static void move_the_break(void) { sbrk(PAGE), sbrk(-PAGE); }
static void store_to_it(void) { *(volatile int64_t *)place = 3; }

static void unmap_nothing(void) { munmap(page, 0); }
static void protect_nothing(void) { mprotect(page, 0, PROT_NONE); }
static void unmap_unaligned(void) { munmap(page + 1, PAGE); }
static void protect_with_no_such_right(void) { mprotect(page, PAGE, 8); }
static void map_over_with_no_such_right(void) { mmap(page, PAGE, 8, flags | MAP_ANONYMOUS | MAP_FIXED, -1, 0); }

static const struct {
    const char *name;
    void (*change)(void);
} changes[] = {
    {"nothing", change_nothing},
    {"munmap, and mmap again", unmap_it},
    {"mmap over it", map_over_it},
    {"mprotect", protect_it},
    {"munmap of the page's first byte, and mmap again", unmap_by_a_byte},
    {"mmap over the page's first byte", map_over_by_a_byte},
    {"mprotect of the page's first byte", protect_by_a_byte},
    {"munmap of all three pages, and mmap again", unmap_all},
    {"mmap over all three pages", map_over_all},
    {"mprotect of all three pages", protect_all},
    {"mprotect to no rights and back", take_rights_and_give_back},
    {"munmap of the page before", unmap_before},
    {"mmap over the page before", map_over_before},
    {"mprotect of the page before", protect_before},
    {"munmap of the page behind", unmap_behind},
    {"mmap over the page behind", map_over_behind},
    {"mprotect of the page behind", protect_behind},
    {"mmap and munmap elsewhere", map_elsewhere},
    {"brk", move_the_break},
    {"a store of its own", store_to_it},
    {"munmap of no bytes, which is refused", unmap_nothing},
    {"mprotect of no bytes", protect_nothing},
    {"munmap that is refused", unmap_unaligned},
    {"mprotect that is refused", protect_with_no_such_right},
    {"mmap over it that is refused", map_over_with_no_such_right},
};

static void load_reserved(void)
{
    int64_t value;
    __asm__ volatile("lr.d %0, (%1)" : "=r"(value) : "r"(place) : "memory");
}

/* Whether it stored. */
static int store_conditional(int64_t value)
{
    long fails;
    __asm__ volatile("sc.d %0, %2, (%1)" : "=&r"(fails) : "r"(place), "r"(value) : "memory");
    return !fails;
}

static void try_all(const char *kind)
{
    char *area = mmap(NULL, 3 * PAGE, PROT_READ | PROT_WRITE, flags | MAP_ANONYMOUS, -1, 0);
    page = area + PAGE;
    place = (int64_t *)(page + PAGE - sizeof *place);
    for (size_t k = 0; k < sizeof changes / sizeof *changes; k++) {
        *place = 1;
        load_reserved();
        changes[k].change();
        int has_stored = store_conditional(4 + k);
        int is_stored = *place == (int64_t)(4 + k);
        printf("%s: %s: %s\n", kind, changes[k].name,
            has_stored != is_stored ? "told wrongly" : has_stored ? "kept" : "lost");
    }
    munmap(area, 3 * PAGE);
}

int main(void)
{
    flags = MAP_PRIVATE;
    try_all("private");
    flags = MAP_SHARED;
    try_all("shared");
    return 0;
}
