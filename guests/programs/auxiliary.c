/*
 * The auxiliary vector: the entries that do not differ from system to system, and what those with an address point to.
 * Other entries are left out, and of the random bytes it is shown only that they are there.
 */
#include "guest.h"

#define PROGRAM_HEADERS 3
#define HEADER_SIZE 4
#define HEADER_COUNT 5
#define PAGE_SIZE 6
#define ENTRY 9
#define RANDOM 25

extern const char _start[];

/* The fields of a program header that are looked at. */
struct program_header {
    uint32_t type, flags;
    uint64_t offset, address, physical, file_size, memory_size, alignment;
};

/* The value of an entry, or 0 where there is none. */
static uint64_t value_of(const uint64_t *vector, uint64_t type)
{
    for (; vector[0]; vector += 2)
        if (vector[0] == type)
            return vector[1];
    return 0;
}

static void print_number(const char *name, uint64_t number)
{
    print(name);
    print(" ");
    print_decimal(number);
    print("\n");
}

static const uint64_t *behind_strings(const uint64_t *pointers)
{
    while (*pointers)
        pointers++;
    return pointers + 1;
}

int main(const uint64_t *stack)
{
    const uint64_t *vector = behind_strings(behind_strings(stack + 1));
    const struct program_header *headers = (const void *)value_of(vector, PROGRAM_HEADERS);
    uint64_t count = value_of(vector, HEADER_COUNT), loaded = 0, with_entry = 0;
    print_number("size of a header", value_of(vector, HEADER_SIZE));
    print_number("headers", count);
    for (uint64_t k = 0; k < count; k++)
        if (headers[k].type == 1) {
            loaded++;
            uint64_t begin = headers[k].address;
            if (begin <= (uintptr_t)_start && (uintptr_t)_start < begin + headers[k].memory_size && headers[k].flags & 1)
                with_entry++;
        }
    print_number("segments", loaded);
    print_number("with the entry", with_entry);
    print_number("size of a page", value_of(vector, PAGE_SIZE));
    print(value_of(vector, ENTRY) == (uintptr_t)_start ? "entry at its place\n" : "entry elsewhere\n");
    const unsigned char *random = (const void *)value_of(vector, RANDOM);
    unsigned any = 0;
    for (int k = 0; k < 16; k++)
        any |= random[k];
    print(any ? "random bytes\n" : "no random bytes\n");
    return 0;
}
