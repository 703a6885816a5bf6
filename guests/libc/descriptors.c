/* Descriptors: what is read and written by them, and how they are made, duplicated and closed. */
#include <stddef.h>
#include <sys/types.h>
#include <unistd.h>

#include "answer.h"
#include "call.h"
#include "descriptors.h"

ssize_t read(int fd, void *bytes, size_t count)
{
    return answer(call(CALL_READ, fd, (long)bytes, count, 0, 0, 0));
}

ssize_t write(int fd, const void *bytes, size_t count)
{
    return answer(call(CALL_WRITE, fd, (long)bytes, count, 0, 0, 0));
}

int close(int fd)
{
    return answer(call(CALL_CLOSE, fd, 0, 0, 0, 0, 0));
}

int dup(int fd)
{
    return answer(call(CALL_DUP, fd, 0, 0, 0, 0, 0));
}

int dup3(int fd, int number, int flags)
{
    return answer(call(CALL_DUP3, fd, number, flags, 0, 0, 0));
}

/* A number is its own duplicate where it is open, which dup3 refuses. */
int dup2(int fd, int number)
{
    if (fd == number)
        return fcntl(fd, F_GETFD, 0) == -1 ? -1 : fd;
    return dup3(fd, number, 0);
}

int pipe2(int ends[2], int flags)
{
    return answer(call(CALL_PIPE2, (long)ends, flags, 0, 0, 0, 0));
}

int pipe(int ends[2])
{
    return pipe2(ends, 0);
}
