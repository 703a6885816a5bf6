/*
 * What a task is told of itself, of its system and of the time: its numbers, its user and its group, six names, and a
 * clock that goes on by 1,000 nanoseconds with each entry of the trace. Other systems answer otherwise; what is
 * expected is written by hand.
 */
#include <stdint.h>
#include <stdio.h>

#include "call.h"

#define NAMES 6
#define NAME_SIZE 65

struct time {
    int64_t seconds, nanoseconds;
};

static long ask(long number, long a, long b)
{
    return call(number, a, b, 0, 0, 0, 0);
}

static void show(const char *name, long value)
{
    printf("%s: %ld\n", name, value);
}

static void show_numbers(void)
{
    show("getpid", ask(CALL_GETPID, 0, 0));
    show("getppid", ask(CALL_GETPPID, 0, 0));
    show("gettid", ask(CALL_GETTID, 0, 0));
    show("getuid", ask(CALL_GETUID, 0, 0));
    show("geteuid", ask(CALL_GETEUID, 0, 0));
    show("getgid", ask(CALL_GETGID, 0, 0));
    show("getegid", ask(CALL_GETEGID, 0, 0));
}

static void show_names(void)
{
    static char names[NAMES][NAME_SIZE];
    show("uname", ask(CALL_UNAME, (long)names, 0));
    for (int k = 0; k < NAMES; k++)
        printf("  %s\n", names[k]);
    show("uname to nowhere", ask(CALL_UNAME, 0, 0));
}

/* Between two calls the instructions are an entry, so that the calls are two places apart. */
static void show_time(void)
{
    struct time first, second;
    long realtime = ask(CALL_CLOCK_GETTIME, 0, (long)&first);
    long monotonic = ask(CALL_CLOCK_GETTIME, 1, (long)&second);
    show("clock_gettime 0", realtime);
    show("clock_gettime 1", monotonic);
    show("nanoseconds between them",
        (second.seconds - first.seconds) * 1000000000 + second.nanoseconds - first.nanoseconds);
    show("beside whole microseconds", first.nanoseconds % 1000);
    show("seconds", first.seconds);
    show("clock_gettime 2", ask(CALL_CLOCK_GETTIME, 2, (long)&first));
    show("clock_gettime 2^32", ask(CALL_CLOCK_GETTIME, 1L << 32, (long)&first));
    show("clock_gettime 2 to nowhere", ask(CALL_CLOCK_GETTIME, 2, 0));
    show("clock_gettime 0 to nowhere", ask(CALL_CLOCK_GETTIME, 0, 0));
}

int main(void)
{
    show_numbers();
    show_names();
    show_time();
    show("sched_yield", ask(CALL_SCHED_YIELD, 0, 0));
    show("set_tid_address", ask(CALL_SET_TID_ADDRESS, 0, 0));
    show("set_robust_list", ask(CALL_SET_ROBUST_LIST, 0, 24));
    return 0;
}
