/*
 * What the calls on descriptors answer: dup, dup3, fcntl, ioctl, close, lseek, pread64, pwrite64, write, and mmap of a
 * file: a line a call, with the name of an error or a number. A console that is full isn't shown. What is expected is
 * written by hand, from docs/GUESTS.md. Behind the word `choice` stands what Linux answers where that is something
 * else, with standard input, output and error each a pipe of its own, and with 256 as its limit of open files.
 */
#include <stdio.h>
#include <string.h>

#include <call.h>
#include <sys/mman.h>
#include <sys/wait.h>
#include <thread.h>

#define PAGE 4096
#define MOST 256 /* numbers that a table has: 0 to 255 */
#define NOWHERE 8
#define P32 (1l << 32)

#define F_DUPFD 0
#define F_GETFD 1
#define F_SETFD 2
#define F_GETFL 3
#define F_SETFL 4
#define F_GETLK 5
#define F_GETOWN 9
#define F_DUPFD_CLOEXEC 1030
#define F_GETPIPE_SZ 1032
#define FD_CLOEXEC 1
#define O_RDWR 02
#define O_CREAT 0100
#define O_APPEND 02000
#define O_NONBLOCK 04000
#define O_CLOEXEC 02000000
#define TCGETS 0x5401
#define FIONREAD 0x541b
#define SEEK_PAST_ALL 9

static void show(const char *what, long reply)
{
    static const struct {
        long reply;
        const char *name;
    } names[] = {{-9, "EBADF"},   {-14, "EFAULT"}, {-19, "ENODEV"}, {-22, "EINVAL"},
                 {-24, "EMFILE"}, {-25, "ENOTTY"}, {-29, "ESPIPE"}};
    for (size_t k = 0; k < sizeof names / sizeof *names; k++)
        if (reply == names[k].reply) {
            printf("%s: %s\n", what, names[k].name);
            return;
        }
    printf("%s: %ld\n", what, reply);
}

static long dup_of(long fd)
{
    return call(CALL_DUP, fd, 0, 0, 0, 0, 0);
}

static long dup_onto(long fd, long number, long flags)
{
    return call(CALL_DUP3, fd, number, flags, 0, 0, 0);
}

static long control(long fd, long command, long argument)
{
    return call(CALL_FCNTL, fd, command, argument, 0, 0, 0);
}

static long close_of(long fd)
{
    return call(CALL_CLOSE, fd, 0, 0, 0, 0, 0);
}

static long write_to(long fd, const char *text)
{
    return call(CALL_WRITE, fd, (long)text, strlen(text), 0, 0, 0);
}

static long map_of(long fd)
{
    return call(CALL_MMAP, 0, PAGE, PROT_READ, MAP_PRIVATE, fd, 0);
}

/* 0, 1 and 2 are open, and the next numbers are free. */
static void duplicate(void)
{
    show("dup of 0", dup_of(0));
    show("dup of 1", dup_of(1));
    show("close of 3", close_of(3));
    show("dup of 2", dup_of(2));
    show("dup of 3, a duplicate", dup_of(3));
    show("dup of 2^32 + 1", dup_of(P32 + 1));
    show("dup of 9", dup_of(9));
    show("dup of 256", dup_of(MOST));
    show("dup of -1", dup_of(-1));
    for (long fd = 3; fd <= 6; fd++)
        show("close of a duplicate", close_of(fd));
    show("close of it again", close_of(6));
}

static void duplicate_onto(void)
{
    show("dup3 of 1 onto 7", dup_onto(1, 7, 0));
    show("dup3 of 0 onto 7, which is open", dup_onto(0, 7, 0));
    show("access mode of 7", control(7, F_GETFL, 0));
    show("dup3 of 1 onto 255 with O_CLOEXEC", dup_onto(1, MOST - 1, O_CLOEXEC));
    show("mark of 255", control(MOST - 1, F_GETFD, 0));
    show("mark of 1", control(1, F_GETFD, 0));
    show("dup3 of 1 onto 255 without", dup_onto(1, MOST - 1, 0));
    show("mark of 255", control(MOST - 1, F_GETFD, 0));
    show("close of 255", close_of(MOST - 1));
    show("close of 7", close_of(7));

    show("dup3 of 1 onto itself", dup_onto(1, 1, 0));
    show("dup3 of 1 onto itself with O_CLOEXEC", dup_onto(1, 1, O_CLOEXEC));
    show("dup3 of 9 onto itself", dup_onto(9, 9, 0));
    show("dup3 of 300 onto itself", dup_onto(300, 300, 0));
    show("dup3 of 1 onto 2^32 + 1", dup_onto(1, P32 + 1, 0));
    show("dup3 with flags 1", dup_onto(1, 7, 1));
    show("dup3 with O_NONBLOCK", dup_onto(1, 7, O_NONBLOCK));
    show("dup3 with O_CLOEXEC and 1", dup_onto(1, 7, O_CLOEXEC | 1));
    show("dup3 of 9 with flags 1", dup_onto(9, 7, 1));
    show("dup3 of 1 onto 256 with flags 1", dup_onto(1, MOST, 1));
    show("dup3 of 9 onto 7", dup_onto(9, 7, 0));
    show("dup3 of 1 onto 256", dup_onto(1, MOST, 0));
    show("dup3 of 1 onto -1", dup_onto(1, -1, 0));
    show("dup3 of 9 onto 256", dup_onto(9, MOST, 0));
}

static void fill_table(void)
{
    long last = 0, made = 0;
    for (long fd; (fd = dup_of(0)) >= 0; made++)
        last = fd;
    show("numbers that dup gave", made);
    show("the last of them", last);
    show("dup of 0", dup_of(0));
    show("dup of 256", dup_of(MOST));
    show("fcntl F_DUPFD from 0 on", control(0, F_DUPFD, 0));
    show("dup3 of 1 onto 200", dup_onto(1, 200, 0));
    show("close of 77", close_of(77));
    show("dup of 0", dup_of(0));
    for (long fd = 3; fd < MOST; fd++)
        close_of(fd);
    show("dup of 0", dup_of(0));
    show("close of 3", close_of(3));
}

static void control_numbers(void)
{
    show("fcntl F_DUPFD of 1 from 9 on", control(1, F_DUPFD, 9));
    show("fcntl F_DUPFD of 1 from 9 on", control(1, F_DUPFD, 9));
    show("fcntl F_DUPFD of 1 from 0 on", control(1, F_DUPFD, 0));
    show("fcntl F_DUPFD of 1 from 255 on", control(1, F_DUPFD, MOST - 1));
    show("fcntl F_DUPFD of 1 from 255 on", control(1, F_DUPFD, MOST - 1));
    show("fcntl F_DUPFD of 1 from 256 on", control(1, F_DUPFD, MOST));
    show("fcntl F_DUPFD of 1 from -1 on", control(1, F_DUPFD, -1));
    show("fcntl F_DUPFD of 8", control(8, F_DUPFD, 9));
    show("fcntl F_DUPFD of 8 from 256 on", control(8, F_DUPFD, MOST));
    show("fcntl F_DUPFD_CLOEXEC of 1 from 9 on", control(1, F_DUPFD_CLOEXEC, 9));
    show("fcntl F_DUPFD_CLOEXEC of 1 from 256 on", control(1, F_DUPFD_CLOEXEC, MOST));

    show("mark of 9", control(9, F_GETFD, 0));
    show("mark of 11", control(11, F_GETFD, 0));
    show("fcntl F_SETFD of 9 to FD_CLOEXEC", control(9, F_SETFD, FD_CLOEXEC));
    show("mark of 9", control(9, F_GETFD, 0));
    show("mark of 10, a duplicate too", control(10, F_GETFD, 0));
    show("fcntl F_SETFD of 9 to 2", control(9, F_SETFD, 2));
    show("mark of 9", control(9, F_GETFD, 0));
    show("fcntl F_SETFD of 9 to 3", control(9, F_SETFD, 3));
    show("mark of 9", control(9, F_GETFD, 0));
    show("fcntl F_GETFD of 8", control(8, F_GETFD, 0));
    show("fcntl F_SETFD of 8", control(8, F_SETFD, FD_CLOEXEC));
    show("close of 3", close_of(3));
    for (long fd = 9; fd <= 11; fd++)
        show("close of a duplicate", close_of(fd));
    show("close of 255", close_of(MOST - 1));
}

/* O_APPEND is 1024, and O_NONBLOCK 2048. */
static void control_status(void)
{
    show("dup of 0", dup_of(0));
    show("flags of 0", control(0, F_GETFL, 0));
    show("flags of 1", control(1, F_GETFL, 0));
    show("flags of 2", control(2, F_GETFL, 0));
    show("fcntl F_SETFL of 3 to O_NONBLOCK", control(3, F_SETFL, O_NONBLOCK));
    show("flags of 0, of the same description", control(0, F_GETFL, 0));
    show("fcntl F_SETFL of 0 to O_APPEND", control(0, F_SETFL, O_APPEND));
    show("flags of 3", control(3, F_GETFL, 0));
    show("fcntl F_SETFL of 0 to O_CREAT and O_RDWR", control(0, F_SETFL, O_CREAT | O_RDWR));
    show("flags of 0", control(0, F_GETFL, 0));
    show("flags of 1", control(1, F_GETFL, 0));
    show("fcntl F_GETFL of 8", control(8, F_GETFL, 0));
    show("fcntl F_SETFL of 8", control(8, F_SETFL, O_APPEND));
    show("close of 3", close_of(3));

    show("fcntl F_GETLK", control(0, F_GETLK, NOWHERE)); /* choice: EFAULT */
    show("fcntl F_GETOWN", control(0, F_GETOWN, 0)); /* choice: 0 */
    show("fcntl F_GETPIPE_SZ", control(0, F_GETPIPE_SZ, 0)); /* choice: 65536 */
    show("fcntl 99", control(0, 99, 0));
    show("fcntl -1", control(0, -1, 0));
    show("fcntl 99 of 8", control(8, 99, 0));
    show("fcntl 2^32 + F_GETFD", control(0, P32 + F_GETFD, 0));
}

static long ask_device(long fd, long request, void *there)
{
    return call(CALL_IOCTL, fd, request, (long)there, 0, 0, 0);
}

static void ask_devices(void)
{
    static char there[64];
    show("ioctl TCGETS of 0", ask_device(0, TCGETS, there));
    show("ioctl TCGETS of 1", ask_device(1, TCGETS, there));
    show("ioctl TCGETS to nowhere", ask_device(2, TCGETS, (void *)NOWHERE));
    show("ioctl FIONREAD of 0", ask_device(0, FIONREAD, there)); /* choice: 0 */
    show("ioctl 0 of 1", ask_device(1, 0, there));
    show("ioctl TCGETS of 8", ask_device(8, TCGETS, there));
    show("ioctl TCGETS of -1", ask_device(-1, TCGETS, there));
}

static void close_wrongly(void)
{
    show("close of 3", close_of(3));
    show("close of 256", close_of(MOST));
    show("close of -1", close_of(-1));
    show("dup of 0", dup_of(0));
    show("close of 2^32 + 3", close_of(P32 + 3));
    show("close of 3", close_of(3));
}

static long seek(long fd, long offset, long whence)
{
    return call(CALL_LSEEK, fd, offset, whence, 0, 0, 0);
}

static long read_at(long fd, void *there, long count, long offset)
{
    return call(CALL_PREAD64, fd, (long)there, count, offset, 0, 0);
}

static long write_at(long fd, const void *there, long count, long offset)
{
    return call(CALL_PWRITE64, fd, (long)there, count, offset, 0, 0);
}

static void use_positions(void)
{
    static char there[8];
    show("lseek of 0", seek(0, 0, SEEK_SET));
    show("lseek of 1", seek(1, 7, SEEK_CUR));
    show("lseek of 2", seek(2, -1, SEEK_END));
    show("lseek of 8", seek(8, 0, SEEK_SET));
    show("lseek of -1", seek(-1, 0, SEEK_SET));
    show("lseek from nowhere", seek(1, 0, SEEK_PAST_ALL)); /* choice: EINVAL */
    show("lseek from nowhere of 8", seek(8, 0, SEEK_PAST_ALL));

    show("pread64 of 0", read_at(0, there, sizeof there, 0));
    show("pread64 of 0, no bytes", read_at(0, there, 0, 0));
    show("pread64 of 0, to nowhere", read_at(0, (void *)NOWHERE, 1, 0));
    show("pread64 of 0, at -1", read_at(0, there, 1, -1)); /* choice: EINVAL */
    show("pread64 of 1, which is for writing", read_at(1, there, 1, 0)); /* choice: ESPIPE */
    show("pread64 of 8", read_at(8, there, 1, 0));
    show("pread64 of 8, at -1", read_at(8, there, 1, -1)); /* choice: EINVAL */

    show("pwrite64 of 1", write_at(1, there, sizeof there, 0));
    show("pwrite64 of 2, no bytes", write_at(2, there, 0, 0));
    show("pwrite64 of 1, from nowhere", write_at(1, (void *)NOWHERE, 1, 0));
    show("pwrite64 of 1, at -1", write_at(1, there, 1, -1)); /* choice: EINVAL */
    show("pwrite64 of 0, which is for reading", write_at(0, there, 1, 0)); /* choice: ESPIPE */
    show("pwrite64 of 8", write_at(8, there, 1, 0));
    show("pwrite64 of 8, at -1", write_at(8, there, 1, -1)); /* choice: EINVAL */
}

static long write_bytes(long fd, long from, long count)
{
    return call(CALL_WRITE, fd, from, count, 0, 0, 0);
}

static void write_wrongly(void)
{
    static const char letter = 'x';
    show("write of no bytes", write_bytes(1, (long)&letter, 0));
    show("write of no bytes from nowhere", write_bytes(1, NOWHERE, 0));
    show("write from nowhere", write_bytes(1, NOWHERE, 1));
    show("write from the last byte of all", write_bytes(1, -1, 1));
    show("write of 0, which is for reading", write_bytes(0, (long)&letter, 1));
    show("write of 0, from nowhere", write_bytes(0, NOWHERE, 1));
    show("write of 0, no bytes", write_bytes(0, (long)&letter, 0));
    show("write of 8", write_bytes(8, (long)&letter, 1));
    show("write of 8, from nowhere", write_bytes(8, NOWHERE, 1));
    show("write of 8, no bytes", write_bytes(8, (long)&letter, 0));
    show("write of 256", write_bytes(MOST, (long)&letter, 1));
    show("write of -1", write_bytes(-1, (long)&letter, 1));
    show("write of 2^32 + 1", write_to(P32 + 1, "by 2^32 + 1\n"));
}

/* Standard output is closed meanwhile, so that what its calls answer is shown behind them. */
static void write_by_duplicate(void)
{
    long copy = dup_of(1), closed = close_of(1), refused = write_to(1, "by 1, which is closed\n");
    long written = write_to(copy, "by a duplicate\n"), again = close_of(1), mapped = map_of(1);
    long lowest = dup_of(copy), by_lowest = write_to(1, "by the lowest number\n");
    show("dup of 1", copy);
    show("close of 1", closed);
    show("write of 1", refused);
    show("write of the duplicate", written);
    show("close of 1 again", again);
    show("mmap of 1", mapped);
    show("dup of the duplicate", lowest);
    show("write of 1", by_lowest);
    show("close of the duplicate", close_of(copy));
}

static void map_files(void)
{
    show("mmap of 0", map_of(0));
    show("mmap of 1", map_of(1)); /* choice: EACCES, as it is for writing */
    show("mmap of 3", map_of(3));
    show("dup of 0", dup_of(0));
    show("mmap of 3", map_of(3));
    show("mmap of 2^32 + 3", map_of(P32 + 3));
    show("close of 3", close_of(3));
    show("mmap of 3", map_of(3));
    show("mmap of -1", map_of(-1));
}

/* What a child finds open that it began with: 3, which it closes, and 4, which it opens. */
static void work_in_child(void)
{
    long closed = close_of(3), opened = dup_onto(0, 4, 0), again = close_of(3);
    control(0, F_SETFL, O_NONBLOCK);
    call(CALL_EXIT_GROUP, closed == 0 && opened == 4 && again == -9 ? 0 : 1, 0, 0, 0, 0, 0);
}

/* A process has its own numbers, and its descriptions are those of its maker. */
static void make_process(void)
{
    int status = -1;
    show("dup of 0", dup_of(0));
    long child = call(CALL_CLONE, 17, 0, 0, 0, 0, 0);
    if (child == 0)
        work_in_child();
    call(CALL_WAIT4, child, (long)&status, 0, 0, 0, 0);
    show("what a child ends with that closes 3 and opens 4", WEXITSTATUS(status));
    show("flags of 3", control(3, F_GETFL, 0));
    show("flags of 4", control(4, F_GETFL, 0));
    show("fcntl F_SETFL of 0 to none", control(0, F_SETFL, 0));
    show("close of 3", close_of(3));
}

static void work_in_thread(void *given)
{
    (void)given;
    close_of(3);
    dup_onto(0, 4, 0);
}

/* A thread has the numbers of its group. */
static void make_thread(void)
{
    struct thread thread = {0};
    show("dup of 0", dup_of(0));
    if (thread_begin(&thread, work_in_thread, NULL) != 0)
        printf("no thread\n");
    thread_end(&thread);
    show("close of 3, which a thread closed", close_of(3));
    show("close of 4, which it opened", close_of(4));
}

int main(void)
{
    duplicate();
    duplicate_onto();
    fill_table();
    control_numbers();
    control_status();
    ask_devices();
    close_wrongly();
    use_positions();
    write_wrongly();
    write_by_duplicate();
    map_files();
    make_process();
    make_thread();
    return 0;
}
