/* getrandom(2), which the library lacks. A call puts 256 bytes at most; the flags change nothing. */
#ifndef SYS_RANDOM_H
#define SYS_RANDOM_H

#include <stddef.h>
#include <sys/types.h>

#include "../answer.h"
#include "../call.h"

#define GRND_NONBLOCK 1
#define GRND_RANDOM 2
#define GRND_INSECURE 4

static inline ssize_t getrandom(void *bytes, size_t count, unsigned flags)
{
    return answer(call(CALL_GETRANDOM, (long)bytes, count, flags, 0, 0, 0));
}

#endif
