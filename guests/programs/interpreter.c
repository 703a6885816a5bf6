/*
 * An interpreter of a small language with a stack of numbers, and a program for it that prints, of the numbers from 2
 * to 499, each that takes more steps to 1 than all before by the rule of Collatz, and how many steps it takes.
 *
 *   123        pushes the number
 *   a to z     push the variable
 *   =a         pops into the variable
 *   + - * / %  pop two numbers, and push what they come to
 *   <          pops two numbers, and pushes whether the one pushed first is less
 *   . ;        pop and print, with a space or a new line behind
 *   (..)       the ( pops, and goes to the ) if that was 0
 *   {..?..}    goes round; the ? pops, and goes behind the } if that was 0
 */
#include <stdbool.h>

#include "guest.h"

#define DEPTH 16u

static const char program[] =
    "2=s { s 500 < ?"
    "    s=n 0=c"
    "    { 1 n < ?"
    "        n 2 % ( n 3 * 1 + =n c 1 + =c )" /* which leaves an even number */
    "        n 2 / =n c 1 + =c"
    "    }"
    "    m c < ( s. c; c=m )"
    "    s 1 + =s"
    "}";

/* What a program is translated to: a letter stands for all variables, and a digit for all numbers. */
struct operation {
    char name;
    uint32_t operand; /* the number, the variable, or where the bracket or ? goes */
};

static struct operation operations[sizeof program];

struct machine {
    uint64_t stack[DEPTH], variables[26], done;
    size_t depth, at;
};

static _Noreturn void refuse(const char *why)
{
    print("refused: ");
    print(why);
    print("\n");
    exit_group(1);
}

static bool is_digit(char c)
{
    return c >= '0' && c <= '9';
}

static bool is_variable(char c)
{
    return c >= 'a' && c <= 'z';
}

/* Translates the text, but for where brackets go, and answers how many operations there are. */
static size_t translate(void)
{
    size_t count = 0;
    for (const char *next = program; *next; next++) {
        struct operation operation = {.name = *next};
        if (is_digit(*next)) {
            operation.name = '0';
            for (; is_digit(*next); next++)
                operation.operand = 10 * operation.operand + (*next - '0');
            next--;
        } else if (is_variable(*next)) {
            operation.name = 'a';
            operation.operand = *next - 'a';
        } else if (*next == '=') {
            if (!is_variable(*++next))
                refuse("no variable behind =");
            operation.operand = *next - 'a';
        }
        if (operation.name != ' ')
            operations[count++] = operation;
    }
    return count;
}

/* Sets where each bracket and each ? goes. */
static void match_brackets(size_t count)
{
    size_t open[DEPTH], question[DEPTH], depth = 0;
    for (size_t at = 0; at < count; at++) {
        char name = operations[at].name;
        if (name == '(' || name == '{') {
            if (depth == DEPTH)
                refuse("too many brackets");
            question[depth] = at;
            open[depth++] = at;
        } else if (name == ')' || name == '}' || name == '?') {
            if (depth == 0)
                refuse("no open bracket");
            if (name == '?') {
                question[depth - 1] = at;
            } else {
                depth--;
                operations[at].operand = (uint32_t)open[depth];
                operations[question[depth]].operand = (uint32_t)at;
            }
        }
    }
    if (depth > 0)
        refuse("a bracket left open");
}

static void push(struct machine *m, uint64_t number)
{
    if (m->depth == DEPTH)
        refuse("the stack is full");
    m->stack[m->depth++] = number;
}

static uint64_t pop(struct machine *m)
{
    if (m->depth == 0)
        refuse("the stack is empty");
    return m->stack[--m->depth];
}

static void compute(struct machine *m, char name)
{
    uint64_t b = pop(m), a = pop(m);
    switch (name) {
    case '+': push(m, a + b); break;
    case '-': push(m, a - b); break;
    case '*': push(m, a * b); break;
    case '/': push(m, a / b); break;
    case '%': push(m, a % b); break;
    case '<': push(m, a < b); break;
    default: refuse("no such operation");
    }
}

static void print_top(struct machine *m, const char *end)
{
    print_decimal(pop(m));
    print(end);
}

static void step(struct machine *m)
{
    struct operation operation = operations[m->at];
    switch (operation.name) {
    case '0': push(m, operation.operand); break;
    case 'a': push(m, m->variables[operation.operand]); break;
    case '=': m->variables[operation.operand] = pop(m); break;
    case '.': print_top(m, " "); break;
    case ';': print_top(m, "\n"); break;
    case '(': case '?': m->at = pop(m) == 0 ? operation.operand : m->at; break;
    case '}': m->at = operation.operand; break;
    case '{': case ')': break;
    default: compute(m, operation.name);
    }
    m->at++;
    m->done++;
}

int main(void)
{
    static struct machine machine;
    size_t count = translate();
    match_brackets(count);
    while (machine.at < count)
        step(&machine);
    print_decimal(machine.done);
    print(" operations\n");
    return 0;
}
