/* A generator of numbers and a digest. */
#ifndef NUMBERS_H
#define NUMBERS_H

#include <stddef.h>
#include <stdint.h>

/* The next number of a fixed sequence: xorshift, with shifts by 13, 7 and 17. The state must not be 0. */
static inline uint64_t next_number(uint64_t *state)
{
    *state ^= *state << 13;
    *state ^= *state >> 7;
    *state ^= *state << 17;
    return *state;
}

#define DIGEST_OFFSET UINT64_C(0xcbf29ce484222325)
#define DIGEST_PRIME UINT64_C(0x100000001b3)

/* FNV-1a with 64 bits: the digest of the bytes behind those that gave `digest`, which is DIGEST_OFFSET for none. */
static inline uint64_t digest_bytes(uint64_t digest, const void *bytes, size_t count)
{
    const unsigned char *next = bytes;
    for (size_t k = 0; k < count; k++)
        digest = (digest ^ next[k]) * DIGEST_PRIME;
    return digest;
}

#endif
