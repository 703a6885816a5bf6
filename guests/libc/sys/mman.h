/* mmap(2), munmap(2) and mprotect(2), which the library lacks. The kernel maps no files: flags need MAP_ANONYMOUS. */
#ifndef SYS_MMAN_H
#define SYS_MMAN_H

#include <stddef.h>
#include <sys/types.h>

#include "../answer.h"
#include "../call.h"

#define PROT_NONE 0
#define PROT_READ 1
#define PROT_WRITE 2
#define PROT_EXEC 4

#define MAP_SHARED 1
#define MAP_PRIVATE 2
#define MAP_FIXED 0x10
#define MAP_ANONYMOUS 0x20
#define MAP_FAILED ((void *)-1)

static inline void *mmap(void *at, size_t length, int rights, int flags, int fd, off_t offset)
{
    return (void *)answer(call(CALL_MMAP, (long)at, length, rights, flags, fd, offset));
}

static inline int munmap(void *at, size_t length)
{
    return answer(call(CALL_MUNMAP, (long)at, length, 0, 0, 0, 0));
}

static inline int mprotect(void *at, size_t length, int rights)
{
    return answer(call(CALL_MPROTECT, (long)at, length, rights, 0, 0, 0));
}

#endif
