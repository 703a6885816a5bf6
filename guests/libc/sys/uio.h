/* readv(2) and writev(2), which the library lacks: several buffers, at most IOV_MAX, as if they were one. */
#ifndef SYS_UIO_H
#define SYS_UIO_H

#include <stddef.h>
#include <sys/types.h>

#include "../answer.h"
#include "../call.h"

#ifndef IOV_MAX
#define IOV_MAX 1024
#endif

struct iovec {
    void *iov_base;
    size_t iov_len;
};

static inline ssize_t readv(int fd, const struct iovec *buffers, int count)
{
    return answer(call(CALL_READV, fd, (long)buffers, count, 0, 0, 0));
}

static inline ssize_t writev(int fd, const struct iovec *buffers, int count)
{
    return answer(call(CALL_WRITEV, fd, (long)buffers, count, 0, 0, 0));
}

#endif
