/*
 * One producer and four consumers on one pipe. What goes through it are records of one size, written several at a time,
 * but no more bytes than go in whole or wait: so each read of whole records gets whole records, whoever else reads. By
 * a second pipe each consumer tells what it got, and together that is each record once. What is printed is the same
 * whoever got which.
 */
#include <stdint.h>
#include <stdio.h>
#include <stdlib.h>
#include <sys/wait.h>
#include <unistd.h>

#include "../numbers.h"

#define CONSUMERS 4
#define RECORDS 20000
#define RECORD_BYTES 64
#define IN_A_WRITE 32 /* records: 2,048 bytes, and a pipe takes up to 4,096 whole */
#define SEED 5

struct record {
    uint64_t number; /* from 1 on */
    uint64_t numbers[RECORD_BYTES / sizeof(uint64_t) - 2];
    uint64_t digest; /* of what stands before it */
};

/* What a consumer got: how many, the sums of their numbers and of these squared, and how many weren't whole. */
struct result {
    uint64_t records, sum, squares, broken;
};

static struct record records[IN_A_WRITE];

static void need(int holds, const char *what)
{
    if (holds)
        return;
    fprintf(stderr, "%s\n", what);
    exit(1);
}

static uint64_t digest_of(const struct record *record)
{
    return digest_bytes(DIGEST_OFFSET, record, offsetof(struct record, digest));
}

/* As many whole records as are there, and at most as many as there is room for. */
static size_t read_records(int fd)
{
    ssize_t got = read(fd, records, sizeof records);
    need(got >= 0 && got % RECORD_BYTES == 0, "no whole records are read");
    return got / RECORD_BYTES;
}

static void consume(int fd, int to)
{
    struct result result = {0};
    for (size_t got; (got = read_records(fd)) > 0; result.records += got)
        for (size_t k = 0; k < got; k++) {
            result.sum += records[k].number;
            result.squares += records[k].number * records[k].number;
            result.broken += records[k].digest != digest_of(&records[k]);
        }
    need(write(to, &result, sizeof result) == sizeof result, "no result is written");
}

static void fill_record(struct record *record, uint64_t number)
{
    static uint64_t state = SEED;
    record->number = number;
    for (size_t k = 0; k < sizeof record->numbers / sizeof *record->numbers; k++)
        record->numbers[k] = next_number(&state);
    record->digest = digest_of(record);
}

/* A write that waits until there is room takes all of so few bytes. */
static void produce(int fd)
{
    for (uint64_t done = 0; done < RECORDS; done += IN_A_WRITE) {
        for (uint64_t k = 0; k < IN_A_WRITE; k++)
            fill_record(&records[k], done + k + 1);
        need(write(fd, records, sizeof records) == sizeof records, "records are not written");
    }
}

static void begin_consumer(const int work[2], const int results[2])
{
    pid_t child = fork();
    need(child >= 0, "no child");
    if (child > 0)
        return;
    need(close(work[1]) == 0 && close(results[0]) == 0, "not closed");
    consume(work[0], results[1]);
    exit(0);
}

/* The sums of what all consumers tell, until none is left that could tell more. */
static struct result read_results(int fd, int *count)
{
    struct result sum = {0}, result;
    ssize_t got;
    while ((got = read(fd, &result, sizeof result)) == sizeof result) {
        sum.records += result.records;
        sum.sum += result.sum;
        sum.squares += result.squares;
        sum.broken += result.broken;
        ++*count;
    }
    need(got == 0, "no whole result is read");
    return sum;
}

int main(void)
{
    int work[2], results[2], count = 0, ended = 0, status = -1;
    need(sizeof(struct record) == RECORD_BYTES, "records of another size");
    need(pipe(work) == 0 && pipe(results) == 0, "no pipe");
    for (int k = 0; k < CONSUMERS; k++)
        begin_consumer(work, results);
    need(close(work[0]) == 0 && close(results[1]) == 0, "not closed");
    produce(work[1]);
    need(close(work[1]) == 0, "not closed");

    struct result sum = read_results(results[0], &count);
    for (int k = 0; k < CONSUMERS; k++)
        ended += wait(&status) > 0 && status == 0;
    printf("consumers that told what they got: %d\n", count);
    printf("records: %llu, not whole: %llu\n", (unsigned long long)sum.records, (unsigned long long)sum.broken);
    printf("sum of their numbers: %llu\n", (unsigned long long)sum.sum);
    printf("sum of the squares: %llu\n", (unsigned long long)sum.squares);
    printf("consumers that ended well: %d\n", ended);
    return 0;
}
