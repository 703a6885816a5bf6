/*
 * futex(2), by which a task sleeps on a word or wakes those that do; and a lock and a condition, each of one word. What
 * is all zeros is a lock that nobody holds, and a condition on which nobody waits.
 */
#ifndef FUTEX_H
#define FUTEX_H

#include <limits.h>
#include <stdatomic.h>
#include <stdint.h>

#include "call.h"

#define FUTEX_WAIT 0
#define FUTEX_WAKE 1
#define FUTEX_PRIVATE_FLAG 128

/* Sleeps on the word where it has that value. It may come back at any time: who calls it looks at the word again. */
static inline void futex_wait(_Atomic uint32_t *word, uint32_t value)
{
    call(CALL_FUTEX, (long)word, FUTEX_WAIT, value, 0, 0, 0);
}

/* Wakes so many at most who sleep on the word, and answers how many these were. */
static inline long futex_wake(_Atomic uint32_t *word, int most)
{
    return call(CALL_FUTEX, (long)word, FUTEX_WAKE, most, 0, 0, 0);
}

/* 0 where nobody holds it, 1 where one does, and 2 where others may sleep on it besides. */
struct lock {
    _Atomic uint32_t state;
};

static inline void lock_take(struct lock *lock)
{
    uint32_t nobody = 0;
    if (atomic_compare_exchange_strong(&lock->state, &nobody, 1))
        return;
    while (atomic_exchange(&lock->state, 2) != 0)
        futex_wait(&lock->state, 2);
}

static inline void lock_give(struct lock *lock)
{
    if (atomic_exchange(&lock->state, 0) == 2)
        futex_wake(&lock->state, 1);
}

/* How often it was told that something has changed. */
struct condition {
    _Atomic uint32_t times;
};

/* Gives the lock, waits until something has changed, and takes the lock. It may come back without a change too. */
static inline void condition_wait(struct condition *condition, struct lock *lock)
{
    uint32_t times = atomic_load(&condition->times);
    lock_give(lock);
    futex_wait(&condition->times, times);
    lock_take(lock);
}

static inline void condition_tell_one(struct condition *condition)
{
    atomic_fetch_add(&condition->times, 1);
    futex_wake(&condition->times, 1);
}

static inline void condition_tell_all(struct condition *condition)
{
    atomic_fetch_add(&condition->times, 1);
    futex_wake(&condition->times, INT_MAX);
}

#endif
