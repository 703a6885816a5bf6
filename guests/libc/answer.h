/* From the kernel's replies to what the functions of the C library answer. */
#ifndef ANSWER_H
#define ANSWER_H

#include <errno.h>

/* The reply, or -1 with errno set. The library's number of ENOSYS is not the kernel's, 38; up to 34 all are the same. */
static inline long answer(long reply)
{
    if (reply >= 0 || reply < -4095)
        return reply;
    errno = reply == -38 ? ENOSYS : -reply;
    return -1;
}

#endif
