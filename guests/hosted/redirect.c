/*
 * Standard output led into a pipe by dup3, read back from there, and led to where it was. First a program does that
 * with lines of its own, which fit into the pipe; then a child writes more than does, while its parent reads; and at
 * last both standard output and standard error of a child go into one pipe.
 */
#include <stdint.h>
#include <stdio.h>
#include <stdlib.h>
#include <sys/wait.h>
#include <unistd.h>

#include <descriptors.h>

#include "../numbers.h"

#define OUTPUT 1
#define ERROR 2
#define SQUARES 12
#define LINES 8000
#define MOST_SHOWN 512

static void expect(int holds, const char *what)
{
    printf("%s: %s\n", what, holds ? "yes" : "no");
    if (!holds)
        exit(1);
}

/* For what must hold while standard output is elsewhere. */
static void need(int holds, const char *what)
{
    if (holds)
        return;
    fprintf(stderr, "%s\n", what);
    exit(1);
}

static void say_squares(void)
{
    for (int k = 1; k <= SQUARES; k++)
        printf("%d squared is %d\n", k, k * k);
}

static void say_much(void)
{
    for (int k = 0; k < LINES; k++)
        printf("line %d of %d\n", k + 1, LINES);
}

static void say_by_both(void)
{
    printf("this goes to standard output\n");
    fprintf(stderr, "and this to standard error\n");
    printf("which are one pipe here\n");
}

/* Leads a number to what another stands for, which is closed then. */
static void lead(int number, int fd)
{
    need(dup3(fd, number, 0) == number, "not led");
    need(close(fd) == 0, "not closed");
}

/* What is read until the end: its number of bytes, of lines, its digest, and its first bytes. */
static struct text {
    size_t bytes, lines;
    uint64_t digest;
    char first[MOST_SHOWN];
} text;

static void add_bytes(const char *bytes, size_t count)
{
    for (size_t k = 0; k < count; k++) {
        text.lines += bytes[k] == '\n';
        if (text.bytes + k < MOST_SHOWN)
            text.first[text.bytes + k] = bytes[k];
    }
    text.digest = digest_bytes(text.digest, bytes, count);
    text.bytes += count;
}

static void read_text(int fd)
{
    static char bytes[65536];
    ssize_t got;
    text = (struct text){.digest = DIGEST_OFFSET};
    while ((got = read(fd, bytes, sizeof bytes)) > 0)
        add_bytes(bytes, got);
    need(got == 0, "not read");
    need(close(fd) == 0, "not closed");
}

static void show_text(void)
{
    printf("%zu bytes, %zu lines, digest %016llx\n", text.bytes, text.lines, (unsigned long long)text.digest);
}

/* Shows each line with a mark before it. */
static void quote_text(void)
{
    int is_begin = 1;
    show_text();
    for (size_t k = 0; k < text.bytes && k < MOST_SHOWN; k++) {
        if (is_begin)
            printf("> ");
        putchar(text.first[k]);
        is_begin = text.first[k] == '\n';
    }
}

/* What the program itself writes meanwhile goes into the pipe, which must have room for all of it. */
static void redirect_own(void)
{
    int ends[2], kept = fcntl(OUTPUT, F_DUPFD_CLOEXEC, 10);
    expect(kept >= 10, "standard output is kept");
    expect(pipe2(ends, O_CLOEXEC) == 0, "a pipe is made");
    lead(OUTPUT, ends[1]);
    say_squares();
    fflush(stdout);
    lead(OUTPUT, kept);
    read_text(ends[0]);
    expect(fcntl(kept, F_GETFD, 0) == -1, "what was kept is closed");
    quote_text();
}

/* What a child writes, by its standard output, and its standard error too where that is asked for. */
static void redirect_child(void (*work)(void), int with_error)
{
    int ends[2], status = -1;
    expect(pipe(ends) == 0, "a pipe is made");
    pid_t child = fork();
    if (child == 0) {
        need(close(ends[0]) == 0, "not closed");
        if (with_error)
            need(dup3(ends[1], ERROR, 0) == ERROR, "not led");
        lead(OUTPUT, ends[1]);
        work();
        exit(0);
    }
    expect(child > 0 && close(ends[1]) == 0, "a child is made");
    read_text(ends[0]);
    expect(waitpid(child, &status, 0) == child && status == 0, "and has ended");
}

int main(void)
{
    redirect_own();
    redirect_child(say_much, 0);
    show_text();
    redirect_child(say_by_both, 1);
    quote_text();
    expect(fcntl(OUTPUT, F_GETFL, 0) == O_WRONLY, "standard output is for writing, as before");
    return 0;
}
