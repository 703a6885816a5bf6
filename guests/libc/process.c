/* The heap's end, a process's own end, its number and its children, and the signals that a program sends itself. */
#include <errno.h>
#include <signal.h>
#include <stddef.h>
#include <stdint.h>
#include <sys/types.h>
#include <sys/wait.h>
#include <unistd.h>

#include "answer.h"
#include "call.h"

/* The heap's end, which is moved by so many bytes: what malloc takes its memory from. A refused brk answers the break
 * as it stands. */
void *sbrk(ptrdiff_t by)
{
    static uintptr_t end;
    if (end == 0)
        end = call(CALL_BRK, 0, 0, 0, 0, 0, 0);
    uintptr_t before = end, after = before + by;
    if (by != 0 && (uintptr_t)call(CALL_BRK, after, 0, 0, 0, 0, 0) != after) {
        errno = ENOMEM;
        return (void *)-1;
    }
    end = after;
    return (void *)before;
}

_Noreturn void _exit(int status)
{
    call(CALL_EXIT_GROUP, status, 0, 0, 0, 0, 0);
    __builtin_unreachable();
}

pid_t getpid(void)
{
    return call(CALL_GETPID, 0, 0, 0, 0, 0, 0);
}

#define CHILD_SIGNAL 17 /* SIGCHLD as the kernel numbers it, and the flags of a new process */

pid_t fork(void)
{
    return answer(call(CALL_CLONE, CHILD_SIGNAL, 0, 0, 0, 0, 0));
}

/* The kernel knows no process groups: -1 asks for any child, and a number above 0 for that one. */
pid_t waitpid(pid_t child, int *status, int options)
{
    return answer(call(CALL_WAIT4, child, (long)status, options, 0, 0, 0));
}

pid_t wait(int *status)
{
    return waitpid(-1, status, 0);
}

/* No call sends a signal. One that the library has no handler for ends the group with the status that a shell tells of
 * it: abort() ends with 134. */
int kill(pid_t process, int signal)
{
    (void)process;
    _exit(128 + signal);
}
