/*
 * A queue of work: sixteen threads take numbers from it, and put their squares where they belong. It has room for a few
 * numbers, so that the thread that fills it waits for the others, and they for it. What is printed is the same in
 * whatever order they run.
 */
#include <stdint.h>
#include <stdio.h>
#include <stdlib.h>

#include <thread.h>

#include "../numbers.h"

#define THREADS 16
#define NUMBERS 1000
#define ROOM 24

static struct {
    struct lock lock;
    struct condition filled, taken;
    int numbers[ROOM];
    int begin, length, is_closed;
} queue;

static uint64_t squares[NUMBERS];
static int done, sum_of_done;

static void put(int number)
{
    lock_take(&queue.lock);
    while (queue.length == ROOM)
        condition_wait(&queue.taken, &queue.lock);
    queue.numbers[(queue.begin + queue.length) % ROOM] = number;
    queue.length++;
    condition_tell_one(&queue.filled);
    lock_give(&queue.lock);
}

static void close_queue(void)
{
    lock_take(&queue.lock);
    queue.is_closed = 1;
    condition_tell_all(&queue.filled);
    lock_give(&queue.lock);
}

/* The next number, or 0 where there will be none. */
static int take(void)
{
    int number = 0;
    lock_take(&queue.lock);
    while (queue.length == 0 && !queue.is_closed)
        condition_wait(&queue.filled, &queue.lock);
    if (queue.length > 0) {
        number = queue.numbers[queue.begin];
        queue.begin = (queue.begin + 1) % ROOM;
        queue.length--;
        condition_tell_one(&queue.taken);
    }
    lock_give(&queue.lock);
    return number;
}

static void work(void *given)
{
    static struct lock lock;
    (void)given;
    for (int number; (number = take()) != 0;) {
        squares[number - 1] += (uint64_t)number * number;
        lock_take(&lock);
        done++;
        sum_of_done += number;
        lock_give(&lock);
    }
}

int main(void)
{
    static struct thread threads[THREADS];
    for (int k = 0; k < THREADS; k++)
        if (thread_begin(&threads[k], work, NULL) != 0) {
            printf("thread %d hasn't begun\n", k + 1);
            exit(1);
        }
    for (int number = 1; number <= NUMBERS; number++)
        put(number);
    close_queue();
    for (int k = 0; k < THREADS; k++)
        thread_end(&threads[k]);

    uint64_t sum = 0;
    for (int k = 0; k < NUMBERS; k++)
        sum += squares[k];
    printf("numbers: %d, their sum %d\n", done, sum_of_done);
    printf("sum of the squares: %llu\n", (unsigned long long)sum);
    printf("digest %016llx\n", (unsigned long long)digest_bytes(DIGEST_OFFSET, squares, sizeof squares));
    return 0;
}
