/*
 * A child, a thread and the first thread sleep on words that nobody wakes, and the first waits for none of them: so the
 * run has no step more, and ends. On other systems it would not end; what is expected is written by hand.
 */
#include <stdio.h>
#include <unistd.h>

#include <thread.h>

static _Atomic uint32_t word;

static void sleep_for_ever(void *given)
{
    (void)given;
    for (;;)
        futex_wait(&word, 0);
}

int main(void)
{
    static struct thread thread;
    printf("before\n");
    if (fork() == 0)
        sleep_for_ever(NULL);
    thread_begin(&thread, sleep_for_ever, NULL);
    sleep_for_ever(NULL);
    printf("never\n");
    return 0;
}
