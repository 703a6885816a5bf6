/*
 * What a program finds from its stack pointer up: its arguments and its environment, each string with its length, and
 * whether the words and the strings stand as they should. Variables are shown in the order of their texts, since the
 * emulator hands them on in another order than it gets them.
 */
#include "guest.h"

static size_t length_of(const char *text)
{
    size_t count = 0;
    while (text[count])
        count++;
    return count;
}

static int is_less(const char *a, const char *b)
{
    while (*a && *a == *b)
        a++, b++;
    return (unsigned char)*a < (unsigned char)*b;
}

static void print_string(const char *kind, const char *text)
{
    print(kind);
    print(" ");
    print_decimal(length_of(text));
    print(": ");
    print(text);
    print("\n");
}

/* Shows whether strings stand one behind the other, each with its NUL, and answers the place behind their null pointer. */
static const uint64_t *end_of(const uint64_t *pointers)
{
    const char *next = (const char *)pointers[0];
    int together = 1;
    for (; *pointers; pointers++) {
        const char *text = (const char *)*pointers;
        together = together && text == next;
        next = text + length_of(text) + 1;
    }
    print(together ? "one behind the other\n" : "not one behind the other\n");
    return pointers + 1;
}

/* The first string behind another in the order of texts, or behind none; or a null pointer. */
static const char *next_of(const uint64_t *pointers, const char *before)
{
    const char *next = 0;
    for (; *pointers; pointers++) {
        const char *text = (const char *)*pointers;
        if ((!before || is_less(before, text)) && (!next || is_less(text, next)))
            next = text;
    }
    return next;
}

int main(const uint64_t *stack)
{
    print((uintptr_t)stack % 16 == 0 ? "aligned\n" : "not aligned\n");
    print("count ");
    print_decimal(stack[0]);
    print("\n");
    for (const uint64_t *argument = stack + 1; *argument; argument++)
        print_string("argument", (const char *)*argument);
    const uint64_t *environment = end_of(stack + 1);
    print(environment == stack + 2 + stack[0] ? "as counted\n" : "not as counted\n");
    for (const char *text = next_of(environment, 0); text; text = next_of(environment, text))
        print_string("variable", text);
    end_of(environment);
    return 0;
}
