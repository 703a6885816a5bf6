/* The sieve of Eratosthenes: how many primes there are below 500,000, and a digest of them as numbers of 32 bits. */
#include <stdbool.h>

#include "guest.h"

#define LIMIT 500000u

static bool is_composite[LIMIT];

static void sieve(void)
{
    for (uint32_t n = 2; n * n < LIMIT; n++) {
        if (is_composite[n])
            continue;
        /* The smaller multiples of n have a smaller prime divisor. */
        for (uint32_t multiple = n * n; multiple < LIMIT; multiple += n)
            is_composite[multiple] = true;
    }
}

int main(void)
{
    uint64_t count = 0, digest = DIGEST_OFFSET;
    sieve();
    for (uint32_t n = 2; n < LIMIT; n++) {
        if (is_composite[n])
            continue;
        count++;
        digest = digest_bytes(digest, &n, sizeof n);
    }
    print("primes below ");
    print_decimal(LIMIT);
    print(": ");
    print_decimal(count);
    print("\n");
    print_digest(digest);
    return 0;
}
