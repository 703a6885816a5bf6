/*
 * Eight threads that clone makes, with a lock and a condition made of futexes. They begin together, count with the lock
 * held, also while they give up their turn, and go on one after another in the order of their names. The first four
 * have a thread pointer, and so variables, of their own; the last four have those of their maker. The group's first
 * thread waits for each by a futex on its clear word. What is printed is the same in whatever order they run.
 */
#include <stdio.h>
#include <stdlib.h>

#include <call.h>
#include <thread.h>

#define THREADS 8
#define WITH_OWN 4 /* so many have variables of their own */
#define TIMES 200
#define STACK 16384

static struct lock lock;
static struct condition changed;
static int arrived, open, turn = 1;
static long sum, order;
static _Thread_local long own = 100;

static struct worker {
    int name;
    long told, task; /* its number, as clone told it and as gettid tells it */
    long own;
    struct thread thread;
    _Atomic uint32_t child_word;
    _Alignas(16) char stack[STACK];
} workers[THREADS];

static void expect(int holds, const char *what)
{
    printf("%s: %s\n", what, holds ? "yes" : "no");
    if (!holds)
        exit(1);
}

static void arrive(void)
{
    lock_take(&lock);
    arrived++;
    condition_tell_all(&changed);
    while (!open)
        condition_wait(&changed, &lock);
    lock_give(&lock);
}

/* What it has read of the sum is still so when it stores, as it holds the lock. */
static void count(int name)
{
    for (int k = 0; k < TIMES; k++) {
        lock_take(&lock);
        long before = *(volatile long *)&sum;
        if (k % 8 == name % 8)
            call(CALL_SCHED_YIELD, 0, 0, 0, 0, 0, 0);
        sum = before + name;
        own += name;
        lock_give(&lock);
    }
}

static void take_turn(int name)
{
    lock_take(&lock);
    while (turn != name)
        condition_wait(&changed, &lock);
    order = order * 10 + name;
    turn++;
    condition_tell_all(&changed);
    lock_give(&lock);
}

static void work(void *given)
{
    struct worker *w = given;
    w->task = call(CALL_GETTID, 0, 0, 0, 0, 0, 0);
    arrive();
    count(w->name);
    take_turn(w->name);
    if (w->name <= WITH_OWN)
        w->own = own;
}

static int begin_with_own(struct worker *w)
{
    return thread_begin(&w->thread, work, w) == 0;
}

/* A thread with the thread pointer of its maker, on a stack that is there, whose number is put into two words. */
static int begin_without_own(struct worker *w)
{
    struct cloning x = {
        .flags = CLONE_A_THREAD | CLONE_PARENT_SETTID | CLONE_CHILD_SETTID | CLONE_CHILD_CLEARTID,
        .stack = w->stack + STACK,
        .parent_word = &w->thread.number,
        .child_word = &w->child_word,
    };
    w->told = clone_thread(&x, work, w);
    return w->told > 0;
}

static void begin_all(void)
{
    int begun = 0;
    for (int k = 0; k < THREADS; k++) {
        workers[k].name = k + 1;
        begun += k < WITH_OWN ? begin_with_own(&workers[k]) : begin_without_own(&workers[k]);
    }
    expect(begun == THREADS, "eight threads have begun");
}

/* While all wait: the numbers that they were told, and that all are of one group. */
static void compare_numbers(void)
{
    int same = 1, differ = 1;
    for (int k = 0; k < THREADS; k++) {
        struct worker *w = &workers[k];
        same = same && w->task == (long)atomic_load(&w->thread.number);
        if (k >= WITH_OWN)
            same = same && w->task == w->told && w->task == (long)atomic_load(&w->child_word);
        for (int other = 0; other < k; other++)
            differ = differ && w->task != workers[other].task;
    }
    expect(same, "clone, its words and gettid tell the same numbers");
    expect(differ && workers[0].task != call(CALL_GETPID, 0, 0, 0, 0, 0, 0), "and each another");
}

static void meet(void)
{
    lock_take(&lock);
    while (arrived < THREADS)
        condition_wait(&changed, &lock);
    compare_numbers();
    open = 1;
    condition_tell_all(&changed);
    lock_give(&lock);
}

static void end_all(void)
{
    for (int k = 0; k < THREADS; k++) {
        struct worker *w = &workers[k];
        if (k < WITH_OWN) {
            thread_end(&w->thread);
            printf("thread %d has ended, with %ld\n", w->name, w->own);
        } else {
            thread_wait(&w->child_word);
            printf("thread %d has ended\n", w->name);
        }
    }
}

int main(void)
{
    begin_all();
    meet();
    end_all();
    printf("sum %ld\n", sum);
    printf("order %ld\n", order);
    printf("the first thread's own variable: %ld\n", own);
    return 0;
}
