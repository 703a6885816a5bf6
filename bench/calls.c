/*
 * Makes a system call so many times, or touches so many pages, or moves so much by pipes, and ends with status 0, or
 * with 1 where a reply is not what it should be. It is built as a guest and for the machine itself, without a library,
 * so that both do the same.
 *
 * Its arguments are what to do, of which the first letter counts, how often, and for `fork` how many pages to touch
 * before.
 */
#include "calls.h"

#define PAGE 4096

static long read_number(const char *digits)
{
    long number = 0;
    for (; *digits; digits++)
        number = number * 10 + *digits - '0';
    return number;
}

static void check(int holds)
{
    if (!holds)
        call(CALL_EXIT_GROUP, 1, 0, 0, 0, 0, 0);
}

static long map(long length)
{
    long at = call(CALL_MMAP, 0, length, 3, 0x22, -1, 0); /* to read and write; private and anonymous */
    check(at > 0);
    return at;
}

static void ask_for_break(void)
{
    check(call(CALL_BRK, 0, 0, 0, 0, 0, 0) > 0);
}

static void ask_for_random_bytes(void)
{
    char bytes[16];
    check(call(CALL_GETRANDOM, (long)bytes, sizeof bytes, 0, 0, 0, 0) == sizeof bytes);
}

static void ask_for_number(void)
{
    check(call(CALL_GETPID, 0, 0, 0, 0, 0, 0) > 0);
}

static void ask_for_time(void)
{
    long time[2];
    check(call(CALL_CLOCK_GETTIME, 1, (long)time, 0, 0, 0, 0) == 0); /* CLOCK_MONOTONIC */
}

static void yield(void)
{
    check(call(CALL_SCHED_YIELD, 0, 0, 0, 0, 0, 0) == 0);
}

static void map_and_unmap(void)
{
    check(call(CALL_MUNMAP, map(PAGE), PAGE, 0, 0, 0, 0) == 0);
}

static void write_a_byte(void)
{
    check(call(CALL_WRITE, 1, (long)".", 1, 0, 0, 0) == 1);
}

static void duplicate_and_close(void)
{
    long duplicate = call(CALL_DUP, 1, 0, 0, 0, 0, 0);
    check(duplicate > 1 && call(CALL_CLOSE, duplicate, 0, 0, 0, 0, 0) == 0);
}

static void touch(long pages)
{
    volatile char *area = pages > 0 ? (char *)map(pages * PAGE) : 0;
    for (long k = 0; k < pages; k++)
        area[k * PAGE] = 1;
}

/* A child that ends at once, and is waited for. */
static void fork_and_wait(void)
{
    long child = call(CALL_CLONE, 17, 0, 0, 0, 0, 0); /* SIGCHLD */
    if (child == 0)
        call(CALL_EXIT_GROUP, 0, 0, 0, 0, 0, 0);
    check(child > 0 && call(CALL_WAIT4, child, 0, 0, 0, 0, 0) == child);
}

static volatile int whose; /* the thread that goes on, 0 or 1 */

static void wait_until(int mine)
{
    while (whose != mine)
        call(CALL_FUTEX, (long)&whose, 0, !mine, 0, 0, 0); /* FUTEX_WAIT */
}

static void hand_over(int mine, long times)
{
    for (long k = 0; k < times; k++) {
        wait_until(mine);
        whose = !mine;
        check(call(CALL_FUTEX, (long)&whose, 1, 1, 0, 0, 0) >= 0); /* FUTEX_WAKE */
    }
}

static long other_times;

static void hand_back(void)
{
    hand_over(1, other_times);
}

/* Two threads that wait for each other: so often each goes on. */
static void hand_over_and_back(long times)
{
    static _Alignas(16) char stack[4096];
    other_times = times;
    check(begin_thread(0x10f00, stack + sizeof stack, hand_back) > 0); /* CLONE_THREAD and what it needs */
    hand_over(0, times);
    wait_until(0);
}

#define BLOCK 65536
#define BUFFERS 16
#define BUFFER_BYTES 64

static char block[BLOCK];
static int ends[2], ends_back[2]; /* of pipes: to read from, and to write to */

static void make_pipe(int *numbers)
{
    check(call(CALL_PIPE2, (long)numbers, 0, 0, 0, 0, 0) == 0);
}

static void close_end(int fd)
{
    check(call(CALL_CLOSE, fd, 0, 0, 0, 0, 0) == 0);
}

static void write_whole(int fd, long count)
{
    check(call(CALL_WRITE, fd, (long)block, count, 0, 0, 0) == count);
}

static void read_whole(int fd, long count)
{
    check(call(CALL_READ, fd, (long)block, count, 0, 0, 0) == count);
}

/* A task that writes to a pipe and reads from it. */
static void pass_a_byte(void)
{
    write_whole(ends[1], 1);
    read_whole(ends[0], 1);
}

static void pass_a_block(void)
{
    write_whole(ends[1], BLOCK);
    read_whole(ends[0], BLOCK);
}

static struct {
    char *bytes;
    long length;
} buffers[BUFFERS];

static void fill_records(void)
{
    for (int k = 0; k < BUFFERS; k++) {
        buffers[k].bytes = block + k * BUFFER_BYTES;
        buffers[k].length = BUFFER_BYTES;
    }
}

static void read_buffers(void)
{
    write_whole(ends[1], BUFFERS * BUFFER_BYTES);
    check(call(CALL_READV, ends[0], (long)buffers, BUFFERS, 0, 0, 0) == BUFFERS * BUFFER_BYTES);
}

/* Makes a child, and waits for its end once both have done their parts so many times. */
static void share(void (*part)(long times), void (*part_of_child)(long times), long times)
{
    int status = -1;
    long child = call(CALL_CLONE, 17, 0, 0, 0, 0, 0); /* SIGCHLD */
    check(child >= 0);
    if (child == 0) {
        part_of_child(times);
        call(CALL_EXIT_GROUP, 0, 0, 0, 0, 0, 0);
    }
    part(times);
    check(call(CALL_WAIT4, child, (long)&status, 0, 0, 0, 0) == child && status == 0);
}

/* A byte goes to the child by one pipe, and comes back by another. */
static void send_bytes(long times)
{
    for (long k = 0; k < times; k++) {
        write_whole(ends[1], 1);
        read_whole(ends_back[0], 1);
    }
}

static void send_back(long times)
{
    for (long k = 0; k < times; k++) {
        read_whole(ends[0], 1);
        write_whole(ends_back[1], 1);
    }
}

/* Blocks come from the child. A read or a write may move a part of one. */
static void take_blocks(long times)
{
    close_end(ends[1]);
    for (long left = times * BLOCK, got; left > 0; left -= got) {
        got = call(CALL_READ, ends[0], (long)block, BLOCK, 0, 0, 0);
        check(got > 0);
    }
}

static void send_blocks(long times)
{
    close_end(ends[0]);
    for (long left = times * BLOCK, put; left > 0; left -= put) {
        put = call(CALL_WRITE, ends[1], (long)block, left < BLOCK ? left : BLOCK, 0, 0, 0);
        check(put > 0);
    }
}

static void repeat(void (*what)(void), long times)
{
    for (long k = 0; k < times; k++)
        what();
}

_Noreturn void begin(char **stack)
{
    long times = read_number(stack[3]);
    switch (stack[2][0]) {
    case 'b': repeat(ask_for_break, times); break;
    case 'n': repeat(ask_for_number, times); break;
    case 'c': repeat(ask_for_time, times); break;
    case 'g': repeat(ask_for_random_bytes, times); break;
    case 'm': repeat(map_and_unmap, times); break;
    case 'w': repeat(write_a_byte, times); break;
    case 'd': repeat(duplicate_and_close, times); break;
    case 'y': repeat(yield, times); break;
    case 't': touch(times); break;
    case 'f': touch(read_number(stack[4])); repeat(fork_and_wait, times); break;
    case 'h': hand_over_and_back(times); break;
    case 'p': make_pipe(ends); repeat(pass_a_byte, times); break;
    case 'l': make_pipe(ends); repeat(pass_a_block, times); break;
    case 'v': make_pipe(ends); fill_records(); repeat(read_buffers, times); break;
    case 'e': make_pipe(ends); make_pipe(ends_back); share(send_bytes, send_back, times); break;
    case 's': make_pipe(ends); share(take_blocks, send_blocks, times); break;
    default: check(0);
    }
    call(CALL_EXIT_GROUP, 0, 0, 0, 0, 0, 0);
    __builtin_unreachable();
}
