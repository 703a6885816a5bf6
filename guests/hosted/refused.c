/*
 * How each call on descriptors refuses: read, write, readv, writev and pipe2, dup, dup3, fcntl, ioctl, close, lseek,
 * pread64 and pwrite64, on the ends of pipes. Each is asked for each of its errors, and for two at once where their
 * order shows: a line a call, with the name of an error or a number. A console that is full isn't shown. What is
 * expected the emulator printed, but for the lines of differs/refused, of which docs/GUESTS.md says why. Behind the
 * word `choice` stands what Linux answers where that is something else, with 256 as its limit of open files, with
 * SIGPIPE ignored, and with standard input, output and error each a pipe.
 */
#include <stdio.h>
#include <stdlib.h>

#include <call.h>
#include <descriptors.h>
#include <sys/mman.h>
#include <sys/uio.h>

#define PAGE 4096
#define MOST 256   /* numbers that a table has: 0 to 255 */
#define FREE 9     /* a number that isn't open */
#define NOWHERE 8
#define ROOM 65536 /* bytes of a pipe */
#define P32 (1l << 32)

#define F_GETOWN 9
#define O_DIRECT 040000
#define TCGETS 0x5401
#define FIONREAD 0x541b
#define SEEK_PAST_ALL 9
#define READ_END 3 /* the lowest free numbers, as 0, 1 and 2 are open */
#define WRITE_END 4

static char bytes[ROOM + 1];
static char *page_end; /* the end of a page behind which none is */

static void show(const char *what, long reply)
{
    static const struct {
        long reply;
        const char *name;
    } names[] = {{-9, "EBADF"},   {-11, "EAGAIN"}, {-14, "EFAULT"}, {-22, "EINVAL"}, {-24, "EMFILE"},
                 {-25, "ENOTTY"}, {-29, "ESPIPE"}, {-32, "EPIPE"},  {-38, "ENOSYS"}};
    for (size_t k = 0; k < sizeof names / sizeof *names; k++)
        if (reply == names[k].reply) {
            printf("%s: %s\n", what, names[k].name);
            return;
        }
    printf("%s: %ld\n", what, reply);
}

static long make_pipe(void *numbers, long flags)
{
    return call(CALL_PIPE2, (long)numbers, flags, 0, 0, 0, 0);
}

static long read_of(long fd, void *there, long count)
{
    return call(CALL_READ, fd, (long)there, count, 0, 0, 0);
}

static long write_to(long fd, const void *there, long count)
{
    return call(CALL_WRITE, fd, (long)there, count, 0, 0, 0);
}

static long read_vector(long fd, const struct iovec *buffers, long count)
{
    return call(CALL_READV, fd, (long)buffers, count, 0, 0, 0);
}

static long write_vector(long fd, const struct iovec *buffers, long count)
{
    return call(CALL_WRITEV, fd, (long)buffers, count, 0, 0, 0);
}

static long dup_of(long fd)
{
    return call(CALL_DUP, fd, 0, 0, 0, 0, 0);
}

static long dup_onto(long fd, long number, long flags)
{
    return call(CALL_DUP3, fd, number, flags, 0, 0, 0);
}

static long control(long fd, long command, long argument)
{
    return call(CALL_FCNTL, fd, command, argument, 0, 0, 0);
}

static long ask_device(long fd, long request, void *there)
{
    return call(CALL_IOCTL, fd, request, (long)there, 0, 0, 0);
}

static long close_of(long fd)
{
    return call(CALL_CLOSE, fd, 0, 0, 0, 0, 0);
}

static long seek(long fd, long offset, long whence)
{
    return call(CALL_LSEEK, fd, offset, whence, 0, 0, 0);
}

static long read_at(long fd, void *there, long count, long offset)
{
    return call(CALL_PREAD64, fd, (long)there, count, offset, 0, 0);
}

static long write_at(long fd, const void *there, long count, long offset)
{
    return call(CALL_PWRITE64, fd, (long)there, count, offset, 0, 0);
}

/* A pipe whose ends have the numbers 3 and 4. */
static void begin_pipe(long flags)
{
    int numbers[2] = {-1, -1};
    if (make_pipe(numbers, flags) == 0 && numbers[0] == READ_END && numbers[1] == WRITE_END)
        return;
    printf("no pipe, or of other numbers\n");
    exit(1);
}

/* One of the ends may be closed already. */
static void end_pipe(void)
{
    close_of(READ_END);
    close_of(WRITE_END);
}

static void make_pipes(void)
{
    int numbers[2] = {-1, -1};
    show("pipe2", make_pipe(numbers, 0));
    show("the number of its read end", numbers[0]);
    show("the number of its write end", numbers[1]);
    show("flags of the read end", control(numbers[0], F_GETFL, 0));
    show("flags of the write end", control(numbers[1], F_GETFL, 0));
    show("mark of the read end", control(numbers[0], F_GETFD, 0));
    end_pipe();
    show("pipe2 with O_NONBLOCK and O_CLOEXEC", make_pipe(numbers, O_NONBLOCK | O_CLOEXEC));
    show("flags of that read end", control(numbers[0], F_GETFL, 0));
    show("flags of that write end", control(numbers[1], F_GETFL, 0));
    show("mark of that read end", control(numbers[0], F_GETFD, 0));
    show("mark of that write end", control(numbers[1], F_GETFD, 0));
    end_pipe();
    show("pipe2 with flags 2^32", make_pipe(numbers, P32));
    end_pipe();
}

static void make_pipes_wrongly(void)
{
    int numbers[2] = {-1, -1};
    show("pipe2 with flags 1", make_pipe(numbers, 1));
    show("pipe2 with O_APPEND", make_pipe(numbers, O_APPEND));
    show("pipe2 with O_CLOEXEC and 1", make_pipe(numbers, O_CLOEXEC | 1));
    show("pipe2 with flags 1 to nowhere", make_pipe((void *)NOWHERE, 1));
    show("the numbers behind these", numbers[0] + numbers[1]);
    show("pipe2 with O_DIRECT", make_pipe(numbers, O_DIRECT)); /* choice: 0 */
    end_pipe();
    show("pipe2 to nowhere", make_pipe((void *)NOWHERE, 0));
    show("close of 3 behind it", close_of(READ_END));
    end_pipe();
    show("pipe2 to a function", make_pipe((void *)make_pipes_wrongly, 0));
    end_pipe();
    show("pipe2 to a page's end, with room for one number", make_pipe(page_end - sizeof(int), 0));
    end_pipe();
    show("pipe2 to a page's end, with room for both", make_pipe(page_end - sizeof numbers, 0));
    end_pipe();
}

/* Leaves no number free. */
static void fill_table(void)
{
    while (dup_of(0) >= 0)
        ;
}

static void use_full_table(void)
{
    int numbers[2] = {-1, -1};
    fill_table();
    show("pipe2 without a free number", make_pipe(numbers, 0));
    show("pipe2 with flags 1 without a free number", make_pipe(numbers, 1));
    show("pipe2 to nowhere without a free number", make_pipe((void *)NOWHERE, 0)); /* choice: EMFILE */
    close_of(WRITE_END);
    show("pipe2 with one free number", make_pipe(numbers, 0));
    show("the numbers it gave", numbers[0] + numbers[1]);
    show("dup with that number free", dup_of(0));
    show("dup without a free number", dup_of(0));
    show("dup of 256 without a free number", dup_of(MOST));
    show("fcntl F_DUPFD without a free number", control(0, F_DUPFD, READ_END));
    show("fcntl F_DUPFD from 256 on without a free number", control(0, F_DUPFD, MOST));
    for (long fd = READ_END; fd < MOST; fd++)
        close_of(fd);
}

/* The first lines are of an empty pipe with O_NONBLOCK. */
static void read_wrongly(void)
{
    begin_pipe(O_NONBLOCK);
    show("read of the write end", read_of(WRITE_END, bytes, 1));
    show("read of a number that isn't open", read_of(FREE, bytes, 1));
    show("read of 256", read_of(MOST, bytes, 1));
    show("read of -1", read_of(-1, bytes, 1));
    show("read of the write end, to nowhere", read_of(WRITE_END, (void *)NOWHERE, 1));
    show("read of a number that isn't open, to nowhere", read_of(FREE, (void *)NOWHERE, 1));
    show("read of the write end, no bytes", read_of(WRITE_END, bytes, 0));
    show("read of a number that isn't open, no bytes", read_of(FREE, bytes, 0));
    show("read of no bytes", read_of(READ_END, bytes, 0));
    show("read of no bytes to nowhere", read_of(READ_END, (void *)NOWHERE, 0));
    show("read of an empty pipe", read_of(READ_END, bytes, 1));
    show("read of an empty pipe, to nowhere", read_of(READ_END, (void *)NOWHERE, 1)); /* choice: EAGAIN */

    show("write of 6 bytes", write_to(WRITE_END, "abcdef", 6));
    show("read to nowhere", read_of(READ_END, (void *)NOWHERE, 1));
    show("read to a function", read_of(READ_END, (void *)read_wrongly, 1));
    show("read to the last byte of all", read_of(READ_END, (void *)-1, 1));
    show("read of 2 bytes by 2^32 + 3", read_of(P32 + READ_END, bytes, 2));
    show("read over a page's end, 4 bytes, all there", read_of(READ_END, page_end - 3, 4));
    show("read over a page's end, 8 bytes, of which 4 are there", read_of(READ_END, page_end - 4, 8)); /* choice: 4 */
    read_of(READ_END, bytes, ROOM);
    show("read of an empty pipe again", read_of(READ_END, bytes, 1));
    show("close of the write end", close_of(WRITE_END));
    show("read at the end", read_of(READ_END, bytes, 1));
    show("read at the end, to nowhere", read_of(READ_END, (void *)NOWHERE, 1)); /* choice: 0 */
    end_pipe();
}

static void write_wrongly(void)
{
    begin_pipe(O_NONBLOCK);
    show("write to the read end", write_to(READ_END, bytes, 1));
    show("write to a number that isn't open", write_to(FREE, bytes, 1));
    show("write to 256", write_to(MOST, bytes, 1));
    show("write to -1", write_to(-1, bytes, 1));
    show("write to the read end, from nowhere", write_to(READ_END, (void *)NOWHERE, 1));
    show("write to a number that isn't open, from nowhere", write_to(FREE, (void *)NOWHERE, 1));
    show("write to the read end, no bytes", write_to(READ_END, bytes, 0));
    show("write to a number that isn't open, no bytes", write_to(FREE, bytes, 0));
    show("write of no bytes", write_to(WRITE_END, bytes, 0));
    show("write of no bytes from nowhere", write_to(WRITE_END, (void *)NOWHERE, 0));
    show("write from nowhere", write_to(WRITE_END, (void *)NOWHERE, 1));
    show("write from the last byte of all", write_to(WRITE_END, (void *)-1, 1));
    show("write over a page's end", write_to(WRITE_END, page_end - 1, 2));
    show("read of what these put", read_of(READ_END, bytes, ROOM));
    end_pipe();
}

/* A pipe takes 65,536 bytes, and of up to 4,096 all or none. */
static void fill_pipe(void)
{
    begin_pipe(O_NONBLOCK);
    show("write of 65537 bytes to an empty pipe", write_to(WRITE_END, bytes, ROOM + 1));
    show("write to a full pipe", write_to(WRITE_END, bytes, 1));
    show("write to a full pipe, no bytes", write_to(WRITE_END, bytes, 0));
    show("write to a full pipe, from nowhere", write_to(WRITE_END, (void *)NOWHERE, 1)); /* choice: EAGAIN */
    show("read of 4096 bytes of it", read_of(READ_END, bytes, PAGE));
    show("write of 4097 bytes", write_to(WRITE_END, bytes, PAGE + 1));
    show("read of 4095 bytes", read_of(READ_END, bytes, PAGE - 1));
    show("write of 4096 bytes, with room for 4095", write_to(WRITE_END, bytes, PAGE));
    show("write of 4095 bytes, with room for them", write_to(WRITE_END, bytes, PAGE - 1)); /* choice: EAGAIN */
    end_pipe();
}

static void write_without_readers(void)
{
    begin_pipe(O_NONBLOCK);
    show("dup of the read end", dup_of(READ_END));
    show("close of the read end", close_of(READ_END));
    show("write with a duplicate of the read end open", write_to(WRITE_END, bytes, ROOM));
    show("close of the duplicate", close_of(WRITE_END + 1));
    show("write without a read end", write_to(WRITE_END, bytes, 1));
    show("write of 4097 bytes without a read end", write_to(WRITE_END, bytes, PAGE + 1));
    show("write without a read end, no bytes", write_to(WRITE_END, bytes, 0));
    show("write without a read end, from nowhere", write_to(WRITE_END, (void *)NOWHERE, 1)); /* choice: EPIPE */
    end_pipe();
}

static char first[3], second[4];
static const struct iovec two[] = {{first, sizeof first}, {second, sizeof second}};
static const struct iovec with_nowhere[] = {{first, sizeof first}, {(void *)NOWHERE, 1}};
static const struct iovec long_ones[] = {{first, 1l << 62}, {second, 1l << 62}};
static const struct iovec negative[] = {{first, -1}};
static const struct iovec many[IOV_MAX + 1];

/* The same of readv and of writev: which end it is for, and which it isn't. */
struct vectors {
    const char *name;
    long (*move)(long fd, const struct iovec *buffers, long count);
    long end, other_end;
};

static void show_vector(const struct vectors *v, const char *what, long fd, const struct iovec *buffers, long count)
{
    char line[96];
    snprintf(line, sizeof line, "%s %s", v->name, what);
    show(line, v->move(fd, buffers, count));
}

static void move_wrongly(const struct vectors *v)
{
    const struct iovec *nowhere = (void *)NOWHERE;
    show_vector(v, "of the other end", v->other_end, two, 2);
    show_vector(v, "of a number that isn't open", FREE, two, 2);
    show_vector(v, "of a number that isn't open, no records", FREE, two, 0);
    show_vector(v, "of the other end, no records", v->other_end, two, 0);
    show_vector(v, "of a number that isn't open, 1025 records", FREE, many, IOV_MAX + 1);
    show_vector(v, "of the other end, 1025 records", v->other_end, many, IOV_MAX + 1);
    show_vector(v, "of a number that isn't open, records nowhere", FREE, nowhere, 1);
    show_vector(v, "of the other end, records nowhere", v->other_end, nowhere, 1);

    show_vector(v, "of no records", v->end, two, 0);
    show_vector(v, "of no records from nowhere", v->end, nowhere, 0);
    show_vector(v, "of 1024 records of no bytes", v->end, many, IOV_MAX);
    show_vector(v, "of 1025 records", v->end, many, IOV_MAX + 1);
    show_vector(v, "of 1025 records nowhere", v->end, nowhere, IOV_MAX + 1);
    show_vector(v, "of -1 records", v->end, two, -1);
    show_vector(v, "of 2^32 + 1 records", v->end, many, P32 + 1); /* choice: 0, it takes 32 bits */
    show_vector(v, "of records nowhere", v->end, nowhere, 1);
    show_vector(v, "of a record over a page's end", v->end, (void *)(page_end - 8), 1);
    show_vector(v, "of a length below 0", v->end, negative, 1);
    show_vector(v, "of lengths of 2^63 together", v->end, long_ones, 2); /* choice: EFAULT */
}

static void move_vectors(void)
{
    static const struct vectors reading = {"readv", read_vector, READ_END, WRITE_END};
    static const struct vectors writing = {"writev", write_vector, WRITE_END, READ_END};
    begin_pipe(O_NONBLOCK);
    move_wrongly(&reading);
    show("readv of an empty pipe", read_vector(READ_END, two, 2));
    show("readv of an empty pipe, to nowhere", read_vector(READ_END, with_nowhere + 1, 1)); /* choice: EAGAIN */
    move_wrongly(&writing);
    show("writev of 3 and 4 bytes", write_vector(WRITE_END, two, 2));
    show("writev from nowhere", write_vector(WRITE_END, with_nowhere + 1, 1));
    show("readv of 7 bytes into 3 and nowhere", read_vector(READ_END, with_nowhere, 2));
    read_of(READ_END, bytes, ROOM);
    show("writev of 3 bytes and nowhere", write_vector(WRITE_END, with_nowhere, 2));
    read_of(READ_END, bytes, ROOM);
    write_to(WRITE_END, bytes, ROOM);
    show("writev to a full pipe", write_vector(WRITE_END, two, 2));
    close_of(READ_END);
    show("writev without a read end", write_vector(WRITE_END, two, 2));
    end_pipe();
}

static void duplicate_wrongly(void)
{
    begin_pipe(0);
    show("dup of a number that isn't open", dup_of(FREE));
    show("dup of 256", dup_of(MOST));
    show("dup of -1", dup_of(-1));
    show("dup3 of the read end onto itself", dup_onto(READ_END, READ_END, 0));
    show("dup3 of a number that isn't open onto itself", dup_onto(FREE, FREE, 0));
    show("dup3 with flags 1", dup_onto(READ_END, FREE, 1));
    show("dup3 with O_NONBLOCK", dup_onto(READ_END, FREE, O_NONBLOCK));
    show("dup3 with flags 1 of a number that isn't open", dup_onto(FREE, 7, 1));
    show("dup3 with flags 1 onto 256", dup_onto(READ_END, MOST, 1));
    show("dup3 of a number that isn't open", dup_onto(FREE, 7, 0));
    show("dup3 onto 256", dup_onto(READ_END, MOST, 0));
    show("dup3 onto -1", dup_onto(READ_END, -1, 0));

    show("fcntl F_DUPFD of a number that isn't open", control(FREE, F_DUPFD, 0));
    show("fcntl F_DUPFD from 256 on", control(READ_END, F_DUPFD, MOST));
    show("fcntl F_DUPFD_CLOEXEC from -1 on", control(READ_END, F_DUPFD_CLOEXEC, -1));
    show("fcntl F_DUPFD of a number that isn't open, from 256 on", control(FREE, F_DUPFD, MOST));
    show("fcntl F_GETFD of a number that isn't open", control(FREE, F_GETFD, 0));
    show("fcntl F_SETFD of a number that isn't open", control(FREE, F_SETFD, FD_CLOEXEC));
    show("fcntl F_GETFL of a number that isn't open", control(FREE, F_GETFL, 0));
    show("fcntl F_SETFL of a number that isn't open", control(FREE, F_SETFL, O_NONBLOCK));
    show("fcntl F_GETOWN", control(READ_END, F_GETOWN, 0)); /* choice: 0 */
    show("fcntl 99", control(READ_END, 99, 0));
    show("fcntl 99 of a number that isn't open", control(FREE, 99, 0));
    end_pipe();
}

static void ask_wrongly(void)
{
    begin_pipe(0);
    show("ioctl TCGETS of the read end", ask_device(READ_END, TCGETS, bytes));
    show("ioctl TCGETS of the write end, to nowhere", ask_device(WRITE_END, TCGETS, (void *)NOWHERE));
    show("ioctl FIONREAD of the read end", ask_device(READ_END, FIONREAD, bytes)); /* choice: 0 */
    show("ioctl 0 of the read end", ask_device(READ_END, 0, bytes));
    show("ioctl TCGETS of a number that isn't open", ask_device(FREE, TCGETS, bytes));
    show("close of the read end first", close_of(READ_END));
    show("close of it again", close_of(READ_END));
    show("close of 256", close_of(MOST));
    show("close of -1", close_of(-1));
    end_pipe();
}

static void use_positions(void)
{
    begin_pipe(O_NONBLOCK);
    show("lseek of the read end", seek(READ_END, 0, SEEK_SET));
    show("lseek of the write end", seek(WRITE_END, -1, SEEK_END));
    show("lseek of a number that isn't open", seek(FREE, 0, SEEK_SET));
    show("lseek from nowhere", seek(READ_END, 0, SEEK_PAST_ALL)); /* choice: EINVAL */
    show("lseek from nowhere of a number that isn't open", seek(FREE, 0, SEEK_PAST_ALL));

    show("pread64", read_at(READ_END, bytes, 1, 0));
    show("pread64 of no bytes", read_at(READ_END, bytes, 0, 0));
    show("pread64 to nowhere", read_at(READ_END, (void *)NOWHERE, 1, 0));
    show("pread64 at -1", read_at(READ_END, bytes, 1, -1)); /* choice: EINVAL */
    show("pread64 of the write end", read_at(WRITE_END, bytes, 1, 0)); /* choice: ESPIPE */
    show("pread64 of a number that isn't open", read_at(FREE, bytes, 1, 0));
    show("pread64 of a number that isn't open, to nowhere", read_at(FREE, (void *)NOWHERE, 1, 0));

    show("pwrite64", write_at(WRITE_END, bytes, 1, 0));
    show("pwrite64 of no bytes", write_at(WRITE_END, bytes, 0, 0));
    show("pwrite64 from nowhere", write_at(WRITE_END, (void *)NOWHERE, 1, 0));
    show("pwrite64 at -1", write_at(WRITE_END, bytes, 1, -1)); /* choice: EINVAL */
    show("pwrite64 of the read end", write_at(READ_END, bytes, 1, 0)); /* choice: ESPIPE */
    show("pwrite64 of a number that isn't open", write_at(FREE, bytes, 1, 0));
    show("pwrite64 of a number that isn't open, from nowhere", write_at(FREE, (void *)NOWHERE, 1, 0));
    end_pipe();
}

/* The numbers that the task begins with: an empty input, and the console. */
static void use_first_numbers(void)
{
    show("read of 0", read_of(0, bytes, 1));
    show("read of 0 again, no bytes", read_of(0, bytes, 0));
    show("readv of 0", read_vector(0, two, 2));
    show("read of 0, to nowhere", read_of(0, (void *)NOWHERE, 1)); /* choice: 0 */
    show("read of 1", read_of(1, bytes, 1));
    show("readv of 2", read_vector(2, two, 2));
    show("write to 0", write_to(0, bytes, 1));
    show("writev to 0", write_vector(0, two, 2));
    show("writev from nowhere to 1", write_vector(1, with_nowhere + 1, 1));
}

int main(void)
{
    char *pages = mmap(NULL, 2 * PAGE, PROT_READ | PROT_WRITE, MAP_PRIVATE | MAP_ANONYMOUS, -1, 0);
    if (pages == MAP_FAILED || munmap(pages + PAGE, PAGE) != 0)
        return 1;
    page_end = pages + PAGE;
    make_pipes();
    make_pipes_wrongly();
    use_full_table();
    read_wrongly();
    write_wrongly();
    fill_pipe();
    write_without_readers();
    move_vectors();
    duplicate_wrongly();
    ask_wrongly();
    use_positions();
    use_first_numbers();
    return 0;
}
