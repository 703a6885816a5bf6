/*
 * Three processes joined by two pipes. The first makes two megabytes, the second turns each byte into another, and the
 * third, which made the others, takes the digest of what comes, and that of the bytes from which it was turned. How
 * many bytes one read or write moves is the system's matter; what is printed is the same in any case.
 */
#include <stdint.h>
#include <stdio.h>
#include <stdlib.h>
#include <sys/wait.h>
#include <unistd.h>

#include "../numbers.h"

#define TOTAL (2ul << 20)
#define BLOCK 65536
#define SEED 20191213
#define TURN 3 /* bits */

static union {
    unsigned char bytes[BLOCK];
    uint64_t numbers[BLOCK / sizeof(uint64_t)];
} block;

struct pipe {
    int read_end, write_end;
};

static struct pipe made, turned;

static void need(int holds, const char *what)
{
    if (holds)
        return;
    fprintf(stderr, "%s\n", what);
    exit(1);
}

static struct pipe begin_pipe(void)
{
    int ends[2];
    need(pipe(ends) == 0, "no pipe");
    return (struct pipe){.read_end = ends[0], .write_end = ends[1]};
}

/* Writes all of the bytes, of which a write may take a part. */
static void write_all(int fd, const unsigned char *bytes, size_t count)
{
    for (size_t done = 0; done < count;) {
        ssize_t written = write(fd, bytes + done, count - done);
        need(written > 0, "not written");
        done += written;
    }
}

static size_t read_some(int fd, unsigned char *bytes, size_t count)
{
    ssize_t got = read(fd, bytes, count);
    need(got >= 0, "not read");
    return got;
}

static void make_bytes(void)
{
    uint64_t state = SEED;
    for (size_t done = 0; done < TOTAL; done += BLOCK) {
        for (size_t k = 0; k < BLOCK / sizeof(uint64_t); k++)
            block.numbers[k] = next_number(&state);
        write_all(made.write_end, block.bytes, BLOCK);
    }
}

static unsigned char turned_left(unsigned char byte)
{
    return byte << TURN | byte >> (8 - TURN);
}

static unsigned char turned_right(unsigned char byte)
{
    return byte >> TURN | byte << (8 - TURN);
}

/* Turns each byte by some bits, and mixes the one before it in. */
static void turn_bytes(void)
{
    unsigned char before = 0;
    for (size_t got; (got = read_some(made.read_end, block.bytes, BLOCK)) > 0;) {
        for (size_t k = 0; k < got; k++) {
            unsigned char byte = block.bytes[k];
            block.bytes[k] = turned_left(byte) ^ before;
            before = byte;
        }
        write_all(turned.write_end, block.bytes, got);
    }
}

static void turn_back(unsigned char *before, unsigned char *bytes, size_t count)
{
    for (size_t k = 0; k < count; k++)
        *before = bytes[k] = turned_right(bytes[k] ^ *before);
}

static void take_digests(void)
{
    uint64_t came = DIGEST_OFFSET, was = DIGEST_OFFSET;
    size_t total = 0;
    unsigned char before = 0;
    for (size_t got; (got = read_some(turned.read_end, block.bytes, BLOCK)) > 0; total += got) {
        came = digest_bytes(came, block.bytes, got);
        turn_back(&before, block.bytes, got);
        was = digest_bytes(was, block.bytes, got);
    }
    printf("bytes: %zu\n", total);
    printf("digest of what came: %016llx\n", (unsigned long long)came);
    printf("digest of what was made: %016llx\n", (unsigned long long)was);
}

/* A child that does a part of the work, and ends. */
static pid_t fork_part(void (*work)(void))
{
    pid_t child = fork();
    need(child >= 0, "no child");
    if (child > 0)
        return child;
    work();
    exit(0);
}

static void close_end(int fd)
{
    need(close(fd) == 0, "not closed");
}

/* The first two parts close the ends that they don't use: a pipe is at its end once nobody has its write end. */
static void make_part(void)
{
    close_end(made.read_end);
    make_bytes();
}

static void turn_part(void)
{
    close_end(made.write_end);
    close_end(turned.read_end);
    turn_bytes();
}

static void show_end(const char *name, pid_t child)
{
    int status = -1;
    need(waitpid(child, &status, 0) == child && WIFEXITED(status), "not ended");
    printf("%s: exit %d\n", name, WEXITSTATUS(status));
}

int main(void)
{
    made = begin_pipe();
    pid_t maker = fork_part(make_part);
    turned = begin_pipe();
    pid_t turner = fork_part(turn_part);
    close_end(made.read_end);
    close_end(made.write_end);
    close_end(turned.write_end);
    take_digests();
    show_end("the first", maker);
    show_end("the second", turner);
    return 0;
}
