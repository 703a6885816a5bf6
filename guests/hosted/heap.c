/*
 * Blocks of malloc, calloc and realloc that come and go in a fixed order of sizes. Each block is filled with a pattern
 * of its own, and all of it is looked at before it is freed or grown, so that no two blocks may share a byte, nor any
 * lose one. Then comes what is refused: a block larger than any memory.
 */
#include <errno.h>
#include <stdint.h>
#include <stdio.h>
#include <stdlib.h>

#include "../numbers.h"

#define BLOCKS 300
#define STEPS 20000

struct block {
    unsigned char *bytes;
    size_t size;
    uint64_t pattern;
};

static struct block blocks[BLOCKS];
static uint64_t state = 2463534242;
static long taken, freed, grown, cut, cleared;
static uint64_t sizes = DIGEST_OFFSET;

static _Noreturn void fail(const char *what)
{
    printf("%s\n", what);
    exit(1);
}

static unsigned char byte_of(const struct block *block, size_t at)
{
    return block->pattern >> at % 7 * 8 ^ at;
}

static void fill(struct block *block, size_t from)
{
    for (size_t k = from; k < block->size; k++)
        block->bytes[k] = byte_of(block, k);
}

static void look_at(const struct block *block, size_t size)
{
    for (size_t k = 0; k < size; k++)
        if (block->bytes[k] != byte_of(block, k))
            fail("a byte has changed");
}

/* Mostly small sizes, some of a few pages, and now and then one of many. */
static size_t next_size(void)
{
    uint64_t number = next_number(&state);
    size_t most = number % 64 == 0 ? 60000 : number % 8 == 0 ? 5000 : 200;
    return 1 + (number >> 8) % most;
}

static void take(struct block *block)
{
    block->size = next_size();
    block->pattern = next_number(&state);
    if (block->pattern % 4 == 0) {
        block->bytes = calloc(block->size, 1);
        for (size_t k = 0; block->bytes && k < block->size; k++)
            if (block->bytes[k])
                fail("calloc left a byte");
        cleared++;
    } else {
        block->bytes = malloc(block->size);
    }
    if (!block->bytes || (uintptr_t)block->bytes % 8)
        fail("no block, or one out of line");
    fill(block, 0);
    taken++;
}

static void resize(struct block *block)
{
    size_t old = block->size, size = next_size(), kept = old < size ? old : size;
    unsigned char *bytes = realloc(block->bytes, size);
    if (!bytes)
        fail("no larger block");
    block->bytes = bytes;
    block->size = size;
    look_at(block, kept);
    fill(block, kept);
    if (size > old)
        grown++;
    else
        cut++;
}

static void give_back(struct block *block)
{
    look_at(block, block->size);
    free(block->bytes);
    block->bytes = NULL;
    freed++;
}

static void step(void)
{
    uint64_t number = next_number(&state);
    struct block *block = &blocks[number % BLOCKS];
    if (!block->bytes)
        take(block);
    else if ((number >> 32) % 3 == 0)
        resize(block);
    else
        give_back(block);
    sizes = digest_bytes(sizes, &block->size, sizeof block->size);
}

int main(void)
{
    for (long k = 0; k < STEPS; k++)
        step();
    for (size_t k = 0; k < BLOCKS; k++)
        if (blocks[k].bytes)
            give_back(&blocks[k]);
    printf("taken %ld, of them by calloc %ld; freed %ld; grown %ld; cut %ld\n", taken, cleared, freed, grown, cut);
    printf("digest of the sizes %016llx\n", (unsigned long long)sizes);
    errno = 0;
    void *volatile huge = malloc((size_t)1 << 40);
    printf("a block of 2^40 bytes: %s\n", huge ? "given" : errno == ENOMEM ? "ENOMEM" : "refused");
    printf("a block behind it: %s\n", malloc(100000) ? "given" : "refused");
    return 0;
}
