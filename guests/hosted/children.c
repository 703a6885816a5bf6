/*
 * Eight children by fork, which compute in memory of their own, and end with a status each. Their parent waits for four
 * of them by number, from the last on, and for the others as they come; at last there is none. What is printed is the
 * same in whatever order they run.
 */
#include <errno.h>
#include <stdio.h>
#include <stdlib.h>
#include <string.h>
#include <sys/wait.h>
#include <unistd.h>

#include <call.h>

#define CHILDREN 8
#define BY_NUMBER 4
#define NUMBERS 30000

static struct {
    pid_t number;
    int times; /* so often it was told that it ended */
    int status;
} children[CHILDREN];

static char sieve[NUMBERS];

static void expect(int holds, const char *what)
{
    printf("%s: %s\n", what, holds ? "yes" : "no");
    if (!holds)
        exit(1);
}

/* How many primes there are below a number. The sieve is to be empty before. */
static int primes_below(int end)
{
    int primes = 0;
    for (int n = 2; n < end; n++) {
        if (sieve[n])
            continue;
        primes++;
        for (int k = 2 * n; k < end; k += n)
            sieve[k] = 1;
    }
    return primes;
}

/* Fills the sieve, which is its own, empties it, and ends with the number of primes below a number: from 1 on. */
static _Noreturn void be_child(int name, pid_t parent)
{
    static const int ends[CHILDREN] = {3, 4, 6, 8, 12, 14, 18, 20};
    if (call(CALL_GETPPID, 0, 0, 0, 0, 0, 0) != parent || sieve[4] != 0)
        _exit(99);
    if (primes_below(NUMBERS - name) < 3000)
        _exit(98);
    memset(sieve, 0, sizeof sieve);
    _exit(primes_below(ends[name - 1]));
}

static void fork_all(void)
{
    pid_t parent = getpid();
    int forked = 0;
    for (int k = 0; k < CHILDREN; k++) {
        children[k].number = fork();
        if (children[k].number == 0)
            be_child(k + 1, parent);
        forked += children[k].number > 0;
    }
    expect(forked == CHILDREN, "eight children are made");
}

static void note(pid_t number, int status)
{
    for (int k = 0; k < CHILDREN; k++)
        if (children[k].number == number) {
            children[k].times++;
            children[k].status = status;
        }
}

static void wait_for_all(void)
{
    int status = -1, found = 0;
    for (int k = CHILDREN - 1; k > 0; k -= CHILDREN / BY_NUMBER) {
        pid_t number = waitpid(children[k].number, &status, 0);
        found += number == children[k].number;
        note(number, status);
    }
    expect(found == BY_NUMBER, "four are waited for by number");
    for (found = 0; found < CHILDREN - BY_NUMBER; found++)
        note(waitpid(-1, &status, 0), status);
}

static void show_all(void)
{
    for (int k = 0; k < CHILDREN; k++)
        printf("child %d: told %d time, exit %d%s\n", k + 1, children[k].times, WEXITSTATUS(children[k].status),
            WIFEXITED(children[k].status) ? "" : ", by a signal");
}

int main(void)
{
    fork_all();
    wait_for_all();
    show_all();
    errno = 0;
    expect(waitpid(-1, NULL, 0) == -1 && errno == ECHILD, "then there is no child");
    errno = 0;
    expect(waitpid(children[0].number, NULL, 0) == -1 && errno == ECHILD, "nor the first by its number");
    expect(sieve[4] == 0, "the parent's memory is as it was");
    return 0;
}
