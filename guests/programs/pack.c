/*
 * Packs a text by LZ77 and unpacks it. The packed form has groups of a byte of flags, the lowest first, and up to eight
 * items: a byte of the text for a flag of 0; for 1 a match of three bytes, that is how far back it begins less 1 in two
 * bytes, the lower first, and its length less SHORTEST.
 */
#include <stdbool.h>

#include "guest.h"
#include "memory.h"

#define SIZE 65536u
#define SHORTEST 4u
#define LONGEST (SHORTEST + 255u)
#define HEADS 4096u
#define TRIES 16u
#define NONE UINT32_MAX

static uint8_t text[SIZE], unpacked[SIZE];
static uint8_t packed[SIZE + SIZE / 8 + 1]; /* enough where there is no match */

static uint32_t heads[HEADS];   /* by the hash of four bytes: where they stood last */
static uint32_t previous[SIZE]; /* by place: where bytes of the same hash stood before */

static void write_text(void)
{
    static const char words[16][10] = {
        "page",  "file", "mount", "task", "kernel", "thread", "memory", "signal",
        "inode", "pipe", "futex", "path", "system", "call",   "folder", "register",
    };
    uint64_t state = 3;
    for (size_t at = 0, column = 0; at < SIZE;) {
        uint64_t number = next_number(&state);
        for (const char *letter = words[number % 16]; *letter && at < SIZE; letter++)
            text[at++] = *letter;
        if (at < SIZE)
            text[at++] = ++column % 12 ? ' ' : '\n';
    }
}

static uint32_t hash_at(size_t at)
{
    uint32_t four;
    memcpy(&four, text + at, sizeof four);
    return four * 2654435761u >> 20;
}

static void remember(size_t at)
{
    if (at + SHORTEST > SIZE)
        return;
    uint32_t hash = hash_at(at);
    previous[at] = heads[hash];
    heads[hash] = (uint32_t)at;
}

static size_t common_length(size_t before, size_t at)
{
    size_t most = SIZE - at < LONGEST ? SIZE - at : LONGEST, length = 0;
    while (length < most && text[before + length] == text[at + length])
        length++;
    return length;
}

/* The length of the longest match that begins at one of the last places of the same hash, and in `start` that place. */
static size_t find_match(size_t at, size_t *start)
{
    size_t longest = 0;
    if (at + SHORTEST > SIZE)
        return 0;
    uint32_t before = heads[hash_at(at)];
    for (unsigned k = 0; k < TRIES && before != NONE; k++, before = previous[before]) {
        size_t length = common_length(before, at);
        if (length > longest) {
            longest = length;
            *start = before;
        }
    }
    return longest;
}

static size_t put_match(size_t end, size_t back, size_t length)
{
    packed[end] = (back - 1) & 255;
    packed[end + 1] = (back - 1) >> 8;
    packed[end + 2] = length - SHORTEST;
    return end + 3;
}

static size_t pack(void)
{
    size_t end = 0, flags = 0;
    for (unsigned h = 0; h < HEADS; h++)
        heads[h] = NONE;
    for (size_t at = 0, item = 0; at < SIZE; item++) {
        if (item % 8 == 0) {
            flags = end++;
            packed[flags] = 0;
        }
        size_t start = 0, length = find_match(at, &start);
        if (length >= SHORTEST) {
            packed[flags] |= 1u << item % 8;
            end = put_match(end, at - start, length);
        } else {
            packed[end++] = text[at];
            length = 1;
        }
        for (; length > 0; length--)
            remember(at++);
    }
    return end;
}

static size_t unpack(size_t size)
{
    size_t at = 0;
    uint8_t flags = 0;
    for (size_t next = 0, item = 0; next < size; item++) {
        if (item % 8 == 0)
            flags = packed[next++];
        if (flags >> item % 8 & 1) {
            size_t back = 1 + (packed[next] | (size_t)packed[next + 1] << 8);
            /* Byte by byte, as a match may reach into what it gives. */
            for (size_t length = SHORTEST + packed[next + 2]; length > 0; length--, at++)
                unpacked[at] = unpacked[at - back];
            next += 3;
        } else {
            unpacked[at++] = packed[next++];
        }
    }
    return at;
}

static void print_size(const char *label, const uint8_t *bytes, size_t count)
{
    print(label);
    print_decimal(count);
    print(" bytes, ");
    print_digest(digest_bytes(DIGEST_OFFSET, bytes, count));
}

int main(void)
{
    write_text();
    size_t size = pack();
    size_t back = unpack(size);
    print_size("text ", text, SIZE);
    print_size("packed ", packed, size);
    print_size("unpacked ", unpacked, back);
    bool same = back == SIZE && memcmp(text, unpacked, SIZE) == 0;
    print(same ? "the same text\n" : "another text\n");
    return 0;
}
