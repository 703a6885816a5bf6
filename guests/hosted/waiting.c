/*
 * A child reads an empty pipe of which it has a write end itself, and its parent writes to a full one of which it has a
 * read end: so nobody else can bring bytes or take them, and the run has no step more, and ends. On other systems it
 * would not end; what is expected is written by hand.
 */
#include <stdio.h>
#include <unistd.h>

#define ROOM 65536

int main(void)
{
    static char bytes[ROOM];
    int empty[2], full[2];
    if (pipe(empty) != 0 || pipe(full) != 0)
        return 1;
    printf("before\n");
    if (fork() == 0) {
        printf("read: %zd\n", read(empty[0], bytes, 1));
        return 0;
    }
    printf("written: %zd\n", write(full[1], bytes, ROOM));
    printf("written: %zd\n", write(full[1], bytes, 1));
    return 0;
}
