/*
 * The three streams, of the descriptors 0, 1 and 2. What is written goes out a line at a time, as each call costs more
 * than the bytes that it takes; setvbuf changes that. What is read comes in pieces of up to a buffer.
 */
#include <stdio.h>
#include <stdio-bufio.h>
#include <unistd.h>

static char input_bytes[4096], output_bytes[4096], error_bytes[1024];

static struct __file_bufio input =
    FDEV_SETUP_BUFIO(0, input_bytes, sizeof input_bytes, read, NULL, NULL, NULL, __SRD, 0);
static struct __file_bufio output =
    FDEV_SETUP_BUFIO(1, output_bytes, sizeof output_bytes, NULL, write, NULL, NULL, __SWR, __BLBF);
static struct __file_bufio error =
    FDEV_SETUP_BUFIO(2, error_bytes, sizeof error_bytes, NULL, write, NULL, NULL, __SWR, __BLBF);

FILE *const stdin = &input.xfile.cfile.file;
FILE *const stdout = &output.xfile.cfile.file;
FILE *const stderr = &error.xfile.cfile.file;

/* The last of all that exit calls. */
__attribute__((destructor(101))) static void flush_streams(void)
{
    fflush(stdout);
    fflush(stderr);
}
