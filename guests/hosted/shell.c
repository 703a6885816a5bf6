/*
 * A small shell, whose arguments are the lines of its script. A line is one command, or several joined by pipes, as in
 * `echo a b | upper | count`. Each command runs in a child of its own, with its input and its output as standard input
 * and standard output, and the line is done once all of them have ended. Shown are each line, its output, and how its
 * commands ended where that isn't with 0.
 */
#include <ctype.h>
#include <stdio.h>
#include <stdlib.h>
#include <string.h>
#include <sys/wait.h>
#include <unistd.h>

#define INPUT 0
#define OUTPUT 1
#define NONE (-1)
#define MOST_COMMANDS 8
#define MOST_WORDS 16
#define MOST_BYTES 256 /* of a line, with its NUL */
#define NOT_FOUND 127
#define FAILED 1

struct command {
    int count;
    char *words[MOST_WORDS];
};

static void need(int holds, const char *what)
{
    if (holds)
        return;
    fprintf(stderr, "%s\n", what);
    exit(FAILED);
}

/* ---- the commands, each of which ends with what it answers */

/* Output that nobody reads any more ends a command. */
static void put(int character)
{
    if (putchar(character) == EOF)
        exit(FAILED);
}

static void put_text(const char *text)
{
    while (*text)
        put(*text++);
}

static int echo(const struct command *command)
{
    for (int k = 1; k < command->count; k++) {
        put_text(command->words[k]);
        put(k + 1 < command->count ? ' ' : '\n');
    }
    return 0;
}

static int cat(const struct command *command)
{
    (void)command;
    for (int character; (character = getchar()) != EOF;)
        put(character);
    return 0;
}

static int upper(const struct command *command)
{
    (void)command;
    for (int character; (character = getchar()) != EOF;)
        put(toupper(character));
    return 0;
}

/* Lines, words and bytes. */
static int count(const struct command *command)
{
    long lines = 0, words = 0, bytes = 0;
    int in_word = 0;
    (void)command;
    for (int character; (character = getchar()) != EOF; bytes++) {
        lines += character == '\n';
        words += !isspace(character) && !in_word;
        in_word = !isspace(character);
    }
    printf("%ld %ld %ld\n", lines, words, bytes);
    return 0;
}

/* A number of times its other words, each on a line. */
static int repeat(const struct command *command)
{
    long times = command->count > 1 ? strtol(command->words[1], NULL, 10) : 0;
    for (long n = 0; n < times; n++)
        for (int k = 2; k < command->count; k++) {
            put_text(command->words[k]);
            put('\n');
        }
    return 0;
}

/* So many lines at most. What comes behind them isn't read. */
static int first(const struct command *command)
{
    long lines = command->count > 1 ? strtol(command->words[1], NULL, 10) : 1;
    for (int character; lines > 0 && (character = getchar()) != EOF; lines -= character == '\n')
        put(character);
    return 0;
}

/* The lines that have a word. None is a failure. */
static int find(const struct command *command)
{
    static char line[MOST_BYTES];
    int is_found = 0;
    while (command->count > 1 && fgets(line, sizeof line, stdin))
        if (strstr(line, command->words[1])) {
            put_text(line);
            is_found = 1;
        }
    return is_found ? 0 : FAILED;
}

static int end_with(const struct command *command)
{
    return command->count > 1 ? atoi(command->words[1]) : 0;
}

static const struct {
    const char *name;
    int (*run)(const struct command *command);
} commands[] = {{"echo", echo},     {"cat", cat},     {"upper", upper}, {"count", count},
                {"repeat", repeat}, {"first", first}, {"find", find},   {"exit", end_with}};

static int run_command(const struct command *command)
{
    for (size_t k = 0; k < sizeof commands / sizeof *commands; k++)
        if (strcmp(commands[k].name, command->words[0]) == 0)
            return commands[k].run(command);
    fprintf(stderr, "%s: not found\n", command->words[0]);
    return NOT_FOUND;
}

/* ---- the shell */

/* Leaves the commands of a line, whose words stand in it from then on, and answers how many there are. */
static int read_line(char *line, struct command *into)
{
    int number = 0;
    char *rest = line;
    for (char *part; (part = strsep(&rest, "|")) != NULL; number++) {
        need(number < MOST_COMMANDS, "too many commands");
        struct command *command = &into[number];
        command->count = 0;
        for (char *word; (word = strsep(&part, " ")) != NULL;)
            if (*word) {
                need(command->count < MOST_WORDS, "too many words");
                command->words[command->count++] = word;
            }
        need(command->count > 0, "no command");
    }
    return number;
}

/* Leads a number to what another stands for, which is closed then. */
static void lead(int number, int fd)
{
    if (fd == NONE)
        return;
    need(dup2(fd, number) == number && close(fd) == 0, "not led");
}

/* A child that runs a command, with its input and its output where they are given. It has no use of another number. */
static pid_t begin_command(const struct command *command, int input, int output, int unused)
{
    pid_t child = fork();
    need(child >= 0, "no child");
    if (child > 0)
        return child;
    lead(INPUT, input);
    lead(OUTPUT, output);
    need(unused == NONE || close(unused) == 0, "not closed");
    exit(run_command(command));
}

static void close_if_any(int fd)
{
    need(fd == NONE || close(fd) == 0, "not closed");
}

/* Begins the commands one behind another, each with a pipe to the next one, of which the shell keeps no end. */
static void begin_commands(const struct command *line, int number, pid_t *children)
{
    int input = NONE;
    for (int k = 0; k < number; k++) {
        int ends[2] = {NONE, NONE};
        need(k + 1 == number || pipe(ends) == 0, "no pipe");
        children[k] = begin_command(&line[k], input, ends[1], ends[0]);
        close_if_any(input);
        close_if_any(ends[1]);
        input = ends[0];
    }
}

/* Waits for all of them, and answers how the last one ended. */
static int wait_for_all(const struct command *line, int number, const pid_t *children)
{
    int ends[MOST_COMMANDS];
    for (int k = 0; k < number; k++) {
        int status = -1;
        need(waitpid(children[k], &status, 0) == children[k] && WIFEXITED(status), "not ended");
        ends[k] = WEXITSTATUS(status);
    }
    for (int k = 0; k < number; k++)
        if (ends[k] != 0)
            printf("%s: exit %d\n", line[k].words[0], ends[k]);
    return ends[number - 1];
}

static int run_line(const char *text)
{
    static char line[MOST_BYTES];
    struct command parts[MOST_COMMANDS];
    pid_t children[MOST_COMMANDS];
    need(strlen(text) < sizeof line, "too long a line");
    strcpy(line, text);
    int number = read_line(line, parts);
    printf("$ %s\n", text);
    begin_commands(parts, number, children);
    return wait_for_all(parts, number, children);
}

int main(int argc, char **argv)
{
    int status = 0;
    for (int k = 1; k < argc; k++)
        status = run_line(argv[k]);
    return status;
}
