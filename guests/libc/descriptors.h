/* fcntl(2), with its commands and the flags of descriptors and of open file descriptions as the kernel numbers them:
 * in <fcntl.h> of the library some are others. What <unistd.h> declares is in descriptors.c. */
#ifndef DESCRIPTORS_H
#define DESCRIPTORS_H

#include "answer.h"
#include "call.h"

#define F_DUPFD 0
#define F_GETFD 1
#define F_SETFD 2
#define F_GETFL 3
#define F_SETFL 4
#define F_DUPFD_CLOEXEC 1030

#define FD_CLOEXEC 1

#define O_RDONLY 0
#define O_WRONLY 01
#define O_RDWR 02
#define O_ACCMODE 03
#define O_APPEND 02000
#define O_NONBLOCK 04000
#define O_CLOEXEC 02000000

/* <unistd.h> declares these where it is asked to alone. */
int dup3(int fd, int number, int flags);
int pipe2(int ends[2], int flags);

static inline int fcntl(int fd, int command, int argument)
{
    return answer(call(CALL_FCNTL, fd, command, argument, 0, 0, 0));
}

#endif
