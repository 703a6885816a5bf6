/*
 * A buffer of two pages between guard pages, which mprotect makes. What mprotect says holds at once: a page that may
 * not be written can be read, and it keeps its bytes. Then bytes are written up to the end of the buffer and on: the
 * first byte of the guard page ends the group by signal 11. What was printed before is printed, and nothing behind it.
 */
#include <stdio.h>
#include <stdlib.h>
#include <sys/mman.h>

#define PAGE 4096

static void expect(int holds, const char *what)
{
    printf("%s: %s\n", what, holds ? "yes" : "no");
    if (!holds)
        exit(1);
}

int main(void)
{
    unsigned char *area = mmap(NULL, 4 * PAGE, PROT_READ | PROT_WRITE, MAP_PRIVATE | MAP_ANONYMOUS, -1, 0);
    expect(area != MAP_FAILED, "four pages are mapped");
    expect(mprotect(area, PAGE, PROT_NONE) == 0 && mprotect(area + 3 * PAGE, PAGE, PROT_NONE) == 0,
        "the first and the last are guards");

    volatile unsigned char *buffer = area + PAGE;
    for (int k = 0; k < 2 * PAGE; k++)
        buffer[k] = k % 251;
    expect(mprotect(area + PAGE, 2 * PAGE, PROT_READ) == 0, "the buffer may only be read");
    int same = 1;
    for (int k = 0; k < 2 * PAGE; k++)
        same = same && buffer[k] == k % 251;
    expect(same, "it has what was written");
    expect(mprotect(area + 2 * PAGE, PAGE, PROT_READ | PROT_WRITE) == 0, "its second page may be written again");

    for (int k = 2 * PAGE - 4;; k++) {
        printf("writing byte %d of %d\n", k, 2 * PAGE);
        buffer[k] = 0;
    }
}
