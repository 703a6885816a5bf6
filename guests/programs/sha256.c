/* SHA-256 (FIPS 180-4) of the standard's first example, and of the bytes of a sequence of numbers. */

#include "guest.h"
#include "memory.h"

#define BLOCK 64u
#define SIZE 131072u

static const uint32_t round_constants[64] = {
    0x428a2f98, 0x71374491, 0xb5c0fbcf, 0xe9b5dba5, 0x3956c25b, 0x59f111f1, 0x923f82a4, 0xab1c5ed5,
    0xd807aa98, 0x12835b01, 0x243185be, 0x550c7dc3, 0x72be5d74, 0x80deb1fe, 0x9bdc06a7, 0xc19bf174,
    0xe49b69c1, 0xefbe4786, 0x0fc19dc6, 0x240ca1cc, 0x2de92c6f, 0x4a7484aa, 0x5cb0a9dc, 0x76f988da,
    0x983e5152, 0xa831c66d, 0xb00327c8, 0xbf597fc7, 0xc6e00bf3, 0xd5a79147, 0x06ca6351, 0x14292967,
    0x27b70a85, 0x2e1b2138, 0x4d2c6dfc, 0x53380d13, 0x650a7354, 0x766a0abb, 0x81c2c92e, 0x92722c85,
    0xa2bfe8a1, 0xa81a664b, 0xc24b8b70, 0xc76c51a3, 0xd192e819, 0xd6990624, 0xf40e3585, 0x106aa070,
    0x19a4c116, 0x1e376c08, 0x2748774c, 0x34b0bcb5, 0x391c0cb3, 0x4ed8aa4a, 0x5b9cca4f, 0x682e6ff3,
    0x748f82ee, 0x78a5636f, 0x84c87814, 0x8cc70208, 0x90befffa, 0xa4506ceb, 0xbef9a3f7, 0xc67178f2,
};

static const uint32_t initial_hash[8] = {
    0x6a09e667, 0xbb67ae85, 0x3c6ef372, 0xa54ff53a, 0x510e527f, 0x9b05688c, 0x1f83d9ab, 0x5be0cd19,
};

static uint32_t rotate_right(uint32_t word, unsigned by)
{
    return word >> by | word << (32 - by);
}

static uint32_t big_endian(const uint8_t *bytes)
{
    return (uint32_t)bytes[0] << 24 | (uint32_t)bytes[1] << 16 | (uint32_t)bytes[2] << 8 | bytes[3];
}

static void fill_schedule(uint32_t schedule[64], const uint8_t block[BLOCK])
{
    for (unsigned t = 0; t < 16; t++)
        schedule[t] = big_endian(block + 4 * t);
    for (unsigned t = 16; t < 64; t++) {
        uint32_t near = schedule[t - 2], far = schedule[t - 15];
        uint32_t sigma1 = rotate_right(near, 17) ^ rotate_right(near, 19) ^ near >> 10;
        uint32_t sigma0 = rotate_right(far, 7) ^ rotate_right(far, 18) ^ far >> 3;
        schedule[t] = sigma1 + schedule[t - 7] + sigma0 + schedule[t - 16];
    }
}

static void hash_block(uint32_t hash[8], const uint8_t block[BLOCK])
{
    uint32_t schedule[64];
    uint32_t a = hash[0], b = hash[1], c = hash[2], d = hash[3];
    uint32_t e = hash[4], f = hash[5], g = hash[6], h = hash[7];
    fill_schedule(schedule, block);
    for (unsigned t = 0; t < 64; t++) {
        uint32_t sum1 = rotate_right(e, 6) ^ rotate_right(e, 11) ^ rotate_right(e, 25);
        uint32_t sum0 = rotate_right(a, 2) ^ rotate_right(a, 13) ^ rotate_right(a, 22);
        uint32_t choice = (e & f) ^ (~e & g), majority = (a & b) ^ (a & c) ^ (b & c);
        uint32_t t1 = h + sum1 + choice + round_constants[t] + schedule[t];
        h = g, g = f, f = e, e = d + t1;
        d = c, c = b, b = a, a = t1 + sum0 + majority;
    }
    hash[0] += a, hash[1] += b, hash[2] += c, hash[3] += d;
    hash[4] += e, hash[5] += f, hash[6] += g, hash[7] += h;
}

/*
 * Hashes the bytes behind the last whole block with their padding: a bit 1, zeros, and as the last 8 bytes of a block
 * the number of bits of the message.
 */
static void hash_rest(uint32_t hash[8], const uint8_t *rest, uint64_t size)
{
    uint8_t padded[2 * BLOCK] = {0};
    size_t count = size % BLOCK, end = count < BLOCK - 8 ? BLOCK : 2 * BLOCK;
    memcpy(padded, rest, count);
    padded[count] = 0x80;
    for (unsigned k = 0; k < 8; k++)
        padded[end - 1 - k] = 8 * size >> 8 * k & 255;
    for (size_t at = 0; at < end; at += BLOCK)
        hash_block(hash, padded + at);
}

static void print_sha256(const char *label, const uint8_t *message, uint64_t size)
{
    uint32_t hash[8];
    uint64_t whole = size - size % BLOCK;
    memcpy(hash, initial_hash, sizeof hash);
    for (uint64_t at = 0; at < whole; at += BLOCK)
        hash_block(hash, message + at);
    hash_rest(hash, message + whole, size);
    print(label);
    for (unsigned k = 0; k < 8; k++)
        print_hex(hash[k], 8);
    print("\n");
}

int main(void)
{
    static uint64_t numbers[SIZE / sizeof(uint64_t)];
    uint64_t state = 1;
    for (size_t k = 0; k < SIZE / sizeof(uint64_t); k++)
        numbers[k] = next_number(&state);
    print_sha256("sha256 of abc: ", (const uint8_t *)"abc", 3);
    print_sha256("sha256 of 131072 bytes: ", (const uint8_t *)numbers, SIZE);
    return 0;
}
