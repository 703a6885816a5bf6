/*
 * Counters without locks: each instruction of RV64A, in both widths, on numbers of a fixed sequence. One task runs, so
 * the values are those of the same operations one after another, and a digest of all old values shows them.
 */
#include <stdatomic.h>

#include "guest.h"

#define ROUNDS 50000u

struct word_counters {
    _Atomic uint32_t sum, all, any, odd, last, mixed;
    int32_t least, most;
    uint32_t lowest, highest;
};

struct double_counters {
    _Atomic uint64_t sum, all, any, odd, last, mixed;
    int64_t least, most;
    uint64_t lowest, highest;
};

/* C has no operations for minimum and maximum. */
#define FETCH(name, type, instruction)                                                             \
    static inline type name(type *at, type number)                                                 \
    {                                                                                              \
        type old;                                                                                  \
        __asm__ volatile(instruction " %0, %2, %1" : "=r"(old), "+A"(*at) : "r"(number) : "memory"); \
        return old;                                                                                \
    }

FETCH(fetch_min_word, int32_t, "amomin.w")
FETCH(fetch_max_word, int32_t, "amomax.w.aq")
FETCH(fetch_minu_word, uint32_t, "amominu.w.rl")
FETCH(fetch_maxu_word, uint32_t, "amomaxu.w.aqrl")
FETCH(fetch_min_double, int64_t, "amomin.d")
FETCH(fetch_max_double, int64_t, "amomax.d.aq")
FETCH(fetch_minu_double, uint64_t, "amominu.d.rl")
FETCH(fetch_maxu_double, uint64_t, "amomaxu.d.aqrl")

/* Stores after a load-reserved, and stores again, which must fail as there is no reservation then: whether it did. */
#define STORES_ONCE(name, type, width)                                                     \
    static unsigned name(type *at, type number)                                            \
    {                                                                                      \
        unsigned long failed;                                                              \
        type old;                                                                          \
        __asm__ volatile("0: lr." width " %1, %2\n"                                        \
                         "   sc." width " %0, %3, %2\n"                                    \
                         "   bnez %0, 0b\n"                                                \
                         "   sc." width " %0, %1, %2"                                      \
                         : "=&r"(failed), "=&r"(old), "+A"(*at) : "r"(number) : "memory"); \
        return failed != 0 && *at == number;                                               \
    }

STORES_ONCE(stores_word_once, uint32_t, "w")
STORES_ONCE(stores_double_once, uint64_t, "d")

static uint64_t mix(uint64_t digest, uint64_t number)
{
    return (digest ^ number) * DIGEST_PRIME;
}

static uint64_t count_word(struct word_counters *c, uint32_t number, uint64_t digest)
{
    digest = mix(digest, atomic_fetch_add(&c->sum, number));
    digest = mix(digest, atomic_fetch_and_explicit(&c->all, number | 0x10101010, memory_order_relaxed));
    digest = mix(digest, atomic_fetch_or_explicit(&c->any, number & 0x01010101, memory_order_acquire));
    digest = mix(digest, atomic_fetch_xor_explicit(&c->odd, number, memory_order_release));
    digest = mix(digest, atomic_exchange(&c->last, number));
    digest = mix(digest, (uint32_t)fetch_min_word(&c->least, (int32_t)number));
    digest = mix(digest, (uint32_t)fetch_max_word(&c->most, (int32_t)number));
    digest = mix(digest, fetch_minu_word(&c->lowest, number));
    digest = mix(digest, fetch_maxu_word(&c->highest, number));
    uint32_t old = atomic_load(&c->mixed);
    while (!atomic_compare_exchange_weak(&c->mixed, &old, 3 * old + number))
        ;
    return mix(digest, old);
}

static uint64_t count_double(struct double_counters *c, uint64_t number, uint64_t digest)
{
    digest = mix(digest, atomic_fetch_add(&c->sum, number));
    digest = mix(digest, atomic_fetch_and_explicit(&c->all, number | 0x10101010, memory_order_relaxed));
    digest = mix(digest, atomic_fetch_or_explicit(&c->any, number & 0x01010101, memory_order_acquire));
    digest = mix(digest, atomic_fetch_xor_explicit(&c->odd, number, memory_order_release));
    digest = mix(digest, atomic_exchange(&c->last, number));
    digest = mix(digest, (uint64_t)fetch_min_double(&c->least, (int64_t)number));
    digest = mix(digest, (uint64_t)fetch_max_double(&c->most, (int64_t)number));
    digest = mix(digest, fetch_minu_double(&c->lowest, number));
    digest = mix(digest, fetch_maxu_double(&c->highest, number));
    uint64_t old = atomic_load(&c->mixed);
    while (!atomic_compare_exchange_strong(&c->mixed, &old, 3 * old + number))
        ;
    return mix(digest, old);
}

int main(void)
{
    static struct word_counters words = {.all = UINT32_MAX, .lowest = UINT32_MAX};
    static struct double_counters doubles = {.all = UINT64_MAX, .lowest = UINT64_MAX};
    static uint32_t word;
    static uint64_t double_word;
    uint64_t state = 4, digest = DIGEST_OFFSET, refused = 0;
    for (unsigned k = 0; k < ROUNDS; k++) {
        uint64_t number = next_number(&state);
        digest = count_word(&words, (uint32_t)number, digest);
        digest = count_double(&doubles, number, digest);
        refused += stores_word_once(&word, (uint32_t)number) + stores_double_once(&double_word, number);
    }
    print("refused stores ");
    print_decimal(refused);
    print("\nwords ");
    print_digest(digest_bytes(DIGEST_OFFSET, &words, sizeof words));
    print("double words ");
    print_digest(digest_bytes(DIGEST_OFFSET, &doubles, sizeof doubles));
    print("old values ");
    print_digest(digest);
    return 0;
}
