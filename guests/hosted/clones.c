/*
 * What clone, wait4, futex and exit answer at their edges: a line a call, with the name of an error, a number, or from
 * 4,096 on its hexadecimal digits. What is expected is written by hand, from docs/GUESTS.md. Behind the word `choice`
 * stands what Linux answers where that is something else.
 */
#include <stdio.h>
#include <stdlib.h>
#include <string.h>

#include <call.h>
#include <sys/mman.h>
#include <sys/wait.h>
#include <thread.h>

#define PAGE 4096
#define SIGCHLD 17
#define CLONE_VFORK 0x4000
#define ANY (-1)
#define MOST_TASKS 256

static struct shared {
    _Atomic uint32_t word, other;
    long number;
} *shared; /* in pages that a child shares */

static void show(const char *what, long reply)
{
    static const struct {
        long reply;
        const char *name;
    } names[] = {{-10, "ECHILD"}, {-11, "EAGAIN"}, {-14, "EFAULT"}, {-22, "EINVAL"}, {-38, "ENOSYS"}};
    for (size_t k = 0; k < sizeof names / sizeof *names; k++)
        if (reply == names[k].reply) {
            printf("%s: %s\n", what, names[k].name);
            return;
        }
    printf(reply < PAGE ? "%s: %ld\n" : "%s: 0x%lx\n", what, reply);
}

static long clone_with(long flags, long parent_word, long child_word)
{
    return call(CALL_CLONE, flags, 0, parent_word, 0, child_word, 0);
}

static long wait_for(long child, const void *status, long options)
{
    return call(CALL_WAIT4, child, (long)status, options, 0, 0, 0);
}

static long futex(const void *word, long operation, long value, long timeout)
{
    return call(CALL_FUTEX, (long)word, operation, value, timeout, 0, 0);
}

static _Noreturn void end_task(long status)
{
    call(CALL_EXIT, status, 0, 0, 0, 0, 0);
    __builtin_unreachable();
}

static _Noreturn void end_group(long status)
{
    call(CALL_EXIT_GROUP, status, 0, 0, 0, 0, 0);
    __builtin_unreachable();
}

static void show_status(const char *what, int status)
{
    if (WIFEXITED(status))
        printf("%s: exit %d\n", what, WEXITSTATUS(status));
    else
        printf("%s: signal %d\n", what, WTERMSIG(status));
}

/* A child that does this and ends with status 0, if it hasn't ended before. The reply is its number. */
static long fork_child(void (*work)(void))
{
    long child = clone_with(SIGCHLD, 0, 0);
    if (child != 0)
        return child;
    work();
    end_group(0);
}

/* The end of such a child. */
static void show_end(const char *what, void (*work)(void))
{
    int status = -1;
    long child = fork_child(work);
    if (wait_for(child, &status, 0) != child)
        printf("not waited for: ");
    show_status(what, status);
}

/* Of these a call that isn't refused would make a child, which would go on from here. */
static void clone_wrongly(void)
{
    const long thread = CLONE_A_THREAD & ~CLONE_SYSVSEM;
    show("clone with flags 0", clone_with(0, 0, 0)); /* choice: a child */
    show("clone with CLONE_VM alone", clone_with(CLONE_VM, 0, 0)); /* choice: a child in the same memory */
    show("clone with SIGCHLD and CLONE_VM", clone_with(SIGCHLD | CLONE_VM, 0, 0)); /* choice: the same */
    show("clone with SIGCHLD and CLONE_FILES", clone_with(SIGCHLD | CLONE_FILES, 0, 0)); /* choice: a child */
    show("clone with SIGCHLD and CLONE_VFORK", clone_with(SIGCHLD | CLONE_VFORK, 0, 0)); /* choice: a child */
    show("clone with another signal", clone_with(SIGCHLD + 1, 0, 0)); /* choice: a child */
    show("clone of a thread without CLONE_VM", clone_with(thread & ~CLONE_VM, 0, 0));
    show("clone of a thread without CLONE_SIGHAND", clone_with(thread & ~CLONE_SIGHAND, 0, 0));
    show("clone of a thread without CLONE_FS", clone_with(thread & ~CLONE_FS, 0, 0)); /* choice: a thread */
    show("clone of a thread without CLONE_FILES", clone_with(thread & ~CLONE_FILES, 0, 0)); /* choice: a thread */
    show("clone of a thread with SIGCHLD", clone_with(thread | SIGCHLD, 0, 0)); /* choice: a thread */

    show("clone, its number to nowhere", clone_with(SIGCHLD | CLONE_PARENT_SETTID, 0, 0)); /* choice: a child */
    show("clone, the child's word nowhere", clone_with(SIGCHLD | CLONE_CHILD_SETTID, 0, 0)); /* choice: a child */
    show("clone of a thread, its number to nowhere", clone_with(thread | CLONE_PARENT_SETTID, 0, 0)); /* choice */
    show("clone of a thread, its word nowhere", clone_with(thread | CLONE_CHILD_SETTID, 0, 0)); /* choice */
}

static void wait_without_children(void)
{
    int status;
    show("wait4 without children", wait_for(ANY, &status, 0));
    show("wait4 without children, WNOHANG", wait_for(ANY, &status, WNOHANG));
    show("wait4 of itself", wait_for(1, &status, 0));
    show("wait4 of a number that no task has", wait_for(2, &status, 0));
    show("wait4 of 0", wait_for(0, &status, 0)); /* choice: ECHILD */
    show("wait4 of -2", wait_for(-2, &status, 0)); /* choice: ECHILD */
    show("wait4 with WUNTRACED", wait_for(ANY, &status, WUNTRACED)); /* choice: ECHILD */
    show("wait4 with options 4", wait_for(ANY, &status, 4));
    show("wait4 with usage", call(CALL_WAIT4, ANY, 0, 0, (long)&status, 0, 0)); /* choice: ECHILD */
}

static void sleep_and_end(void)
{
    while (atomic_load(&shared->word) == 0)
        futex(&shared->word, FUTEX_WAIT, 0, 0);
    end_group(0x1234);
}

static void do_nothing(void)
{
}

static void wait_for_children(void)
{
    int status = -1;
    long woken, child = fork_child(sleep_and_end);
    show("clone of a process", child);
    show("wait4 of it, WNOHANG", wait_for(child, &status, WNOHANG));
    show("wait4 of any, WNOHANG", wait_for(ANY, &status, WNOHANG));
    show("wait4 of it, WNOHANG, to nowhere", wait_for(child, (void *)8, WNOHANG));
    show("wait4 of another, WNOHANG", wait_for(child + 1, &status, WNOHANG));
    while ((woken = futex(&shared->word, FUTEX_WAKE, 5, 0)) == 0)
        ; /* it doesn't sleep yet */
    show("wake of the child", woken);
    atomic_store(&shared->word, 1);
    futex(&shared->word, FUTEX_WAKE, 5, 0);

    show("wait4 of it, to nowhere", wait_for(child, (void *)8, 0));
    show("wait4 of any, to a function", wait_for(ANY, (void *)wait_for_children, 0)); /* choice: ECHILD */
    show("what was put", status);
    show("wait4 of it", wait_for(child, &status, WNOHANG)); /* choice: ECHILD */
    show_status("its status", status);
    show("wait4 of it again", wait_for(child, &status, 0));
    child = fork_child(do_nothing);
    show("clone of a process", child);
    show("wait4 of it without a status", wait_for(child, NULL, 0));
}

static struct {
    uint32_t parent, child;
} words;

/* In the child's memory its own word is set, and not its parent's. */
static void look_at_words(void)
{
    end_group(words.parent == 0 && words.child == call(CALL_GETTID, 0, 0, 0, 0, 0, 0) ? 0 : 1);
}

static void set_words(void)
{
    int status = -1;
    long flags = SIGCHLD | CLONE_PARENT_SETTID | CLONE_CHILD_SETTID;
    long child = clone_with(flags, (long)&words.parent, (long)&words.child);
    if (child == 0)
        look_at_words();
    show("clone of a process, with both words", child);
    show("its parent's word", words.parent);
    show("its own, in its parent's memory", words.child);
    show("wait4 of it", wait_for(child, &status, 0));
    show_status("which has its own alone", status);
}

/* The first thread's word is cleared when it ends. */
static _Atomic uint32_t first;

static void end_behind_first(void *given)
{
    (void)given;
    thread_wait(&first);
    end_task(6);
}

static void end_for_all(void *given)
{
    (void)given;
    end_group(7);
}

static void begin_thread(void (*work)(void *))
{
    static _Alignas(16) char stack[PAGE];
    struct cloning x = {.flags = CLONE_A_THREAD & ~CLONE_SYSVSEM, .stack = stack + sizeof stack};
    if (clone_thread(&x, work, NULL) < 0)
        end_group(99);
}

static void end_first(void)
{
    atomic_store(&first, 1);
    call(CALL_SET_TID_ADDRESS, (long)&first, 0, 0, 0, 0, 0);
    begin_thread(end_behind_first);
    end_task(5);
}

static void sleep_until_end(void)
{
    begin_thread(end_for_all);
    for (;;)
        futex_wait(&first, 0);
}

static void end_alone(void)
{
    end_task(0x103);
}

static void trap(void)
{
    __asm__ volatile("ebreak");
}

static void load_from_nowhere(void)
{
    __asm__ volatile("ld zero, 8(zero)");
}

static void end_in_all_ways(void)
{
    show_end("exit 0x103", end_alone);
    show_end("exit 5, and then exit 6 of a thread", end_first); /* choice: exit 5 */
    show_end("exit_group 7 of a thread", sleep_until_end);
    show_end("a trap", trap);
    show_end("a load from nowhere", load_from_nowhere);
}

static void use_futexes(void)
{
    static _Atomic uint32_t word = 3;
    static const uint32_t constant = 3;
    long second[2] = {0, 1};
    show("wait on another value", futex(&word, FUTEX_WAIT, 4, 0));
    show("wait on another value, private", futex(&word, FUTEX_WAIT | FUTEX_PRIVATE_FLAG, 4, 0));
    show("wait on another value, of a constant", futex(&constant, FUTEX_WAIT, 4, 0));
    show("wait on an odd address", futex((char *)&word + 1, FUTEX_WAIT, 3, 0));
    show("wait in the midst of a word", futex((char *)&word + 2, FUTEX_WAIT, 3, 0));
    show("wait at 0", futex(NULL, FUTEX_WAIT, 3, 0));
    show("wait with a timeout", futex(&word, FUTEX_WAIT, 3, (long)second)); /* choice: ETIMEDOUT */
    show("wait with a timeout on an odd address", futex((char *)&word + 1, FUTEX_WAIT, 3, (long)second));
    show("wait with a timeout on another value", futex(&word, FUTEX_WAIT, 4, (long)second)); /* choice: EAGAIN */

    show("wake of nobody", futex(&word, FUTEX_WAKE, 1, 0));
    show("wake of nobody, private", futex(&word, FUTEX_WAKE | FUTEX_PRIVATE_FLAG, 1, 0));
    show("wake of nobody, with a timeout", futex(&word, FUTEX_WAKE, 1, (long)second));
    show("wake on an odd address", futex((char *)&word + 1, FUTEX_WAKE, 1, 0));
    show("wake at 0", futex(NULL, FUTEX_WAKE, 1, 0));
    show("operation 2", futex(&word, 2, 1, 0));
    show("operation 3", futex(&word, 3, 1, 0)); /* choice: EFAULT */
    show("operation 9", futex(&word, 9, 4, 0)); /* choice: EINVAL */
    show("operation 2 on an odd address", futex((char *)&word + 1, 2, 1, 0));
    show("wait on another value, operation 2^32", futex(&word, 1l << 32, 4, 0));
}

static long *private_page;

static void store_in_both(void)
{
    *private_page = 7;
    shared->number = 7;
}

static void share_memory(void)
{
    private_page = mmap(NULL, PAGE, PROT_READ | PROT_WRITE, MAP_PRIVATE | MAP_ANONYMOUS, -1, 0);
    *private_page = 1;
    shared->number = 1;
    show_end("a child that stores into both pages", store_in_both);
    show("the private page has", *private_page);
    show("the shared page has", shared->number);
}

static _Atomic uint32_t is_over;

static void sleep_till_over(void *given)
{
    (void)given;
    while (atomic_load(&is_over) == 0)
        futex_wait(&is_over, 0);
}

/* Makes threads until that is refused. */
static void make_many(void)
{
    static _Alignas(16) char stacks[MOST_TASKS][512];
    static _Atomic uint32_t numbers[MOST_TASKS];
    struct cloning x = {.flags = CLONE_A_THREAD | CLONE_PARENT_SETTID | CLONE_CHILD_CLEARTID};
    long reply = 0, made = 0;
    for (; reply >= 0 && made < MOST_TASKS; made += reply > 0) {
        x.stack = stacks[made] + sizeof *stacks;
        x.parent_word = x.child_word = &numbers[made];
        reply = clone_thread(&x, sleep_till_over, NULL);
    }
    show("threads made", made);
    show("clone of one more", reply); /* choice: more of them */
    show("clone of a process", clone_with(SIGCHLD, 0, 0)); /* choice: a child */
    show("clone with CLONE_VM alone", clone_with(CLONE_VM, 0, 0)); /* choice: a child */

    atomic_store(&is_over, 1);
    futex_wake(&is_over, INT_MAX);
    for (long k = 0; k < made; k++)
        thread_wait(&numbers[k]);
    show_end("a child behind them", do_nothing);
}

int main(void)
{
    shared = mmap(NULL, PAGE, PROT_READ | PROT_WRITE, MAP_SHARED | MAP_ANONYMOUS, -1, 0);
    clone_wrongly();
    wait_without_children();
    wait_for_children();
    set_words();
    end_in_all_ways();
    use_futexes();
    share_memory();
    make_many();
    return 0;
}
