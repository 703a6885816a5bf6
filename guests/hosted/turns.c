/*
 * Whose turn it is: one program, run as four tasks whose arguments say what each does, step by step. A task takes one
 * turn for each call, and one for each run of instructions between two calls, or three where it works between them.
 * What is printed is in the order of these turns, and each line has the place of its call in the trace, which the time
 * tells. Other systems answer otherwise; what is expected is written by hand.
 */
#include <stdint.h>
#include <stdio.h>
#include <string.h>

#include "call.h"

#define PLACE 1000 /* nanoseconds */

static long ask(long number, long a, long b)
{
    return call(number, a, b, 0, 0, 0, 0);
}

/* Two calls: the time, whose place is shown, and the line. */
static void say(const char *name)
{
    struct {
        int64_t seconds, nanoseconds;
    } time;
    ask(CALL_CLOCK_GETTIME, 1, (long)&time);
    printf("%s at %ld\n", name, (long)time.nanoseconds / PLACE);
}

/* Four calls: three numbers, and the line. */
static void say_who(const char *name)
{
    long task = ask(CALL_GETTID, 0, 0), group = ask(CALL_GETPID, 0, 0), parent = ask(CALL_GETPPID, 0, 0);
    printf("%s is task %ld of group %ld, whose parent is %ld\n", name, task, group, parent);
}

/* No call, but 25,000 instructions, which with those around them are a run of 10,000, one more, and a shorter one. */
static void work(void)
{
    long times = 12500;
    __asm__ volatile("0: addi %0, %0, -1\n"
                     "   bnez %0, 0b"
                     : "+r"(times));
}

/* Ends with as many lines as it has said, which is a number of the task's own: no memory is another task's too. */
int main(int argc, char **argv)
{
    static int said;
    for (int k = 2; k < argc; k++) {
        if (strcmp(argv[k], "say") == 0) {
            say(argv[1]);
            said++;
        } else if (strcmp(argv[k], "who") == 0) {
            say_who(argv[1]);
        } else if (strcmp(argv[k], "work") == 0) {
            work();
        } else if (strcmp(argv[k], "yield") == 0) {
            ask(CALL_SCHED_YIELD, 0, 0);
        } else if (strcmp(argv[k], "break") == 0) {
            __asm__ volatile("ebreak");
        }
    }
    return said;
}
