/*
 * Prints the value of each argument, an expression of numbers, + - * / ^, signs, parentheses, constants and functions.
 * An argument that is none has a line on standard error, which says where; then the status is 1.
 */
#include <ctype.h>
#include <math.h>
#include <stdio.h>
#include <stdlib.h>
#include <string.h>

struct text {
    const char *begin, *next;
    const char *fault; /* the first that was found, at `next`; or a null pointer */
};

static double read_sum(struct text *text);

static double refuse(struct text *text, const char *fault)
{
    if (!text->fault)
        text->fault = fault;
    return 0;
}

/* Whether a character comes next, behind spaces; it is passed over then. */
static int passes(struct text *text, char character)
{
    while (isspace((unsigned char)*text->next))
        text->next++;
    if (text->fault || *text->next != character)
        return 0;
    text->next++;
    return 1;
}

static double read_enclosed(struct text *text)
{
    double value = read_sum(text);
    if (!passes(text, ')'))
        return refuse(text, "expected )");
    return value;
}

static double apply(struct text *text, const char *name, size_t length, double value)
{
    static const struct {
        const char *name;
        double (*function)(double);
    } functions[] = {{"sqrt", sqrt}, {"abs", fabs}, {"floor", floor}, {"exp", exp}, {"ln", log}, {"sin", sin}};
    for (size_t k = 0; k < sizeof functions / sizeof *functions; k++)
        if (strlen(functions[k].name) == length && memcmp(functions[k].name, name, length) == 0)
            return functions[k].function(value);
    return refuse(text, "no such function");
}

static double read_name(struct text *text)
{
    const char *name = text->next;
    while (isalpha((unsigned char)*text->next))
        text->next++;
    size_t length = text->next - name;
    if (passes(text, '('))
        return apply(text, name, length, read_enclosed(text));
    if (length == 2 && memcmp(name, "pi", 2) == 0)
        return M_PI;
    return refuse(text, "no such constant");
}

static double read_atom(struct text *text)
{
    char *end;
    if (passes(text, '('))
        return read_enclosed(text);
    if (isalpha((unsigned char)*text->next))
        return read_name(text);
    if (!isdigit((unsigned char)*text->next) && *text->next != '.')
        return refuse(text, "expected a number");
    double value = strtod(text->next, &end);
    if (end == text->next)
        return refuse(text, "expected a number");
    text->next = end;
    return value;
}

/* A sign goes before a power, and powers are read from the right: -2^2 is -4, and 2^3^2 is 512. */
static double read_power(struct text *text)
{
    if (passes(text, '-'))
        return -read_power(text);
    double base = read_atom(text);
    return passes(text, '^') ? pow(base, read_power(text)) : base;
}

static double read_product(struct text *text)
{
    double value = read_power(text);
    for (;;)
        if (passes(text, '*')) {
            value *= read_power(text);
        } else if (passes(text, '/')) {
            double by = read_power(text);
            if (by == 0)
                return refuse(text, "divided by 0");
            value /= by;
        } else {
            return value;
        }
}

static double read_sum(struct text *text)
{
    double value = read_product(text);
    for (;;)
        if (passes(text, '+'))
            value += read_product(text);
        else if (passes(text, '-'))
            value -= read_product(text);
        else
            return value;
}

int main(int argc, char **argv)
{
    int status = 0;
    if (argc < 2)
        return fprintf(stderr, "usage: evaluate EXPRESSION..\n"), 2;
    for (int k = 1; k < argc; k++) {
        struct text text = {argv[k], argv[k], NULL};
        double value = read_sum(&text);
        if (!passes(&text, '\0'))
            refuse(&text, "expected an operator");
        if (text.fault) {
            fprintf(stderr, "%s: %s at character %d\n", argv[k], text.fault, (int)(text.next - text.begin) + 1);
            status = 1;
        } else {
            printf("%s = %.15g\n", argv[k], value);
        }
    }
    return status;
}
