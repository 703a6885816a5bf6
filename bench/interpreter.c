/*
 * Runs a RISC-V program for 64 bits, for so many instructions at most: interpreter PROGRAM COUNT. It has the
 * instructions of RV64IMA and the system calls write and exit_group, and any other call answers ENOSYS. It prints what
 * the Sentry prints without a trace, and on standard error how many instructions ran and a checksum of the registers.
 * It ends with status 0 where the program has ended, with 8 where it lives, and with 1 at what the Sentry ends by a
 * signal, and at a write that it refuses. It takes the file to be a sound ELF-64 of at most 1 MiB, and the machine to
 * be little-endian.
 */
#include <elf.h>
#include <inttypes.h>
#include <stdbool.h>
#include <stdio.h>
#include <stdlib.h>
#include <string.h>

#define PAGE 4096
#define TOP (UINT64_C(1) << 38) /* the end of the stack, and of all that is mapped */

struct page {
    uint32_t rights; /* as p_flags has them */
    uint8_t bytes[PAGE];
};

/* The pages by number. Most of this array is never touched, and takes no memory. */
static struct page *pages[TOP / PAGE];

static _Noreturn void stop(const char *why, uint64_t at)
{
    fflush(stdout);
    fprintf(stderr, "interpreter: %s at %#" PRIx64 "\n", why, at);
    exit(1);
}

static struct page *map(uint64_t at, uint32_t rights)
{
    if (at >= TOP)
        stop("a segment too high", at);
    struct page **page = &pages[at / PAGE];
    if (!*page && !(*page = calloc(1, sizeof **page)))
        stop("no memory", at);
    (*page)->rights |= rights;
    return *page;
}

static inline uint8_t *look(uint64_t at, uint32_t right)
{
    struct page *page = at < TOP ? pages[at / PAGE] : NULL;
    if (!page || (page->rights & right) != right)
        stop("no such access", at);
    return page->bytes + at % PAGE;
}

static uint64_t read_across(uint64_t at, unsigned width)
{
    uint64_t value = 0;
    for (unsigned k = 0; k < width; k++)
        value |= (uint64_t)*look(at + k, PF_R) << 8 * k;
    return value;
}

static inline uint64_t read_bytes(uint64_t at, unsigned width)
{
    uint64_t value = 0;
    if (at % PAGE + width > PAGE)
        return read_across(at, width);
    memcpy(&value, look(at, PF_R), width);
    return value;
}

static void write_across(uint64_t at, uint64_t value, unsigned width)
{
    look(at + width - 1, PF_W); /* of the later page, so that nothing is written where it may not be */
    for (unsigned k = 0; k < width; k++)
        *look(at + k, PF_W) = value >> 8 * k;
}

static inline void write_bytes(uint64_t at, uint64_t value, unsigned width)
{
    if (at % PAGE + width > PAGE)
        write_across(at, value, width);
    else
        memcpy(look(at, PF_W), &value, width);
}

static inline uint64_t load(uint32_t word, uint64_t at)
{
    switch (word >> 12 & 7) {
    case 0: return (int8_t)read_bytes(at, 1);
    case 1: return (int16_t)read_bytes(at, 2);
    case 2: return (int32_t)read_bytes(at, 4);
    case 3: return read_bytes(at, 8);
    case 4: return read_bytes(at, 1);
    case 5: return read_bytes(at, 2);
    case 6: return read_bytes(at, 4);
    default: stop("no such load", at);
    }
}

static inline void store(uint32_t word, uint64_t at, uint64_t value)
{
    switch (word >> 12 & 7) {
    case 0: write_bytes(at, value, 1); break;
    case 1: write_bytes(at, value, 2); break;
    case 2: write_bytes(at, value, 4); break;
    case 3: write_bytes(at, value, 8); break;
    default: stop("no such store", at);
    }
}

static inline bool is_taken(uint32_t word, uint64_t a, uint64_t b)
{
    switch (word >> 12 & 7) {
    case 0: return a == b;
    case 1: return a != b;
    case 4: return (int64_t)a < (int64_t)b;
    case 5: return (int64_t)a >= (int64_t)b;
    case 6: return a < b;
    case 7: return a >= b;
    default: stop("no such branch", word);
    }
}

static inline uint64_t shift_immediate(uint32_t word, uint64_t a)
{
    unsigned by = word >> 20 & 63;
    switch (word >> 26 << 3 | (word >> 12 & 7)) {
    case 1: return a << by;
    case 5: return a >> by;
    case 16 << 3 | 5: return (int64_t)a >> by;
    default: stop("no such shift", word);
    }
}

static inline uint64_t compute_immediate(uint32_t word, uint64_t a, uint64_t b)
{
    switch (word >> 12 & 7) {
    case 0: return a + b;
    case 2: return (int64_t)a < (int64_t)b;
    case 3: return a < b;
    case 4: return a ^ b;
    case 6: return a | b;
    case 7: return a & b;
    default: return shift_immediate(word, a);
    }
}

static inline uint64_t compute_word_immediate(uint32_t word, uint32_t a, uint32_t immediate)
{
    unsigned by = immediate & 31;
    if ((word >> 12 & 7) == 0)
        return (int32_t)(a + immediate);
    switch (word >> 25 << 3 | (word >> 12 & 7)) {
    case 1: return (int32_t)(a << by);
    case 5: return (int32_t)(a >> by);
    case 32 << 3 | 5: return (int32_t)a >> by;
    default: stop("no such operation on a word and an immediate", word);
    }
}

static inline uint64_t multiply(uint32_t word, uint64_t a, uint64_t b)
{
    switch (word >> 12 & 7) {
    case 0: return a * b;
    case 1: return (__int128)(int64_t)a * (int64_t)b >> 64;
    case 2: return (__int128)(int64_t)a * b >> 64;
    default: return (unsigned __int128)a * b >> 64;
    }
}

/* Of words too, which come extended by their sign where the operation is signed, and by zeros where it is not. */
static inline uint64_t divide(uint32_t word, uint64_t a, uint64_t b)
{
    switch (word >> 12 & 7) {
    case 4: return b == 0 ? UINT64_MAX : b == UINT64_MAX ? -a : (uint64_t)((int64_t)a / (int64_t)b);
    case 5: return b == 0 ? UINT64_MAX : a / b;
    case 6: return b == 0 ? a : b == UINT64_MAX ? 0 : (uint64_t)((int64_t)a % (int64_t)b);
    default: return b == 0 ? a : a % b;
    }
}

static inline uint64_t compute(uint32_t word, uint64_t a, uint64_t b)
{
    switch (word >> 25 << 3 | (word >> 12 & 7)) {
    case 0: return a + b;
    case 32 << 3: return a - b;
    case 1: return a << (b & 63);
    case 2: return (int64_t)a < (int64_t)b;
    case 3: return a < b;
    case 4: return a ^ b;
    case 5: return a >> (b & 63);
    case 32 << 3 | 5: return (int64_t)a >> (b & 63);
    case 6: return a | b;
    case 7: return a & b;
    case 1 << 3: case 1 << 3 | 1: case 1 << 3 | 2: case 1 << 3 | 3: return multiply(word, a, b);
    case 1 << 3 | 4: case 1 << 3 | 5: case 1 << 3 | 6: case 1 << 3 | 7: return divide(word, a, b);
    default: stop("no such operation", word);
    }
}

static inline uint64_t compute_word(uint32_t word, uint32_t a, uint32_t b)
{
    switch (word >> 25 << 3 | (word >> 12 & 7)) {
    case 0: return (int32_t)(a + b);
    case 32 << 3: return (int32_t)(a - b);
    case 1: return (int32_t)(a << (b & 31));
    case 5: return (int32_t)(a >> (b & 31));
    case 32 << 3 | 5: return (int32_t)a >> (b & 31);
    case 1 << 3: return (int32_t)(a * b);
    case 1 << 3 | 4: case 1 << 3 | 6: return (int32_t)divide(word, (int32_t)a, (int32_t)b);
    case 1 << 3 | 5: case 1 << 3 | 7: return (int32_t)divide(word, a, b);
    default: stop("no such operation on words", word);
    }
}

static inline uint64_t distance(uint32_t word)
{
    uint32_t bits = (word >> 31) << 19 | (word >> 12 & 255) << 11 | (word >> 20 & 1) << 10 | (word >> 21 & 1023);
    return (int32_t)(bits << 12) >> 11;
}

static inline uint64_t branch_distance(uint32_t word)
{
    uint32_t bits = (word >> 31) << 11 | (word >> 7 & 1) << 10 | (word >> 25 & 63) << 4 | (word >> 8 & 15);
    return (int32_t)(bits << 20) >> 19;
}

static inline uint64_t jump_target(uint32_t word, uint64_t at)
{
    if (word >> 12 & 7)
        stop("no such jump", word);
    return at & ~UINT64_C(1);
}

static inline uint64_t store_distance(uint32_t word)
{
    return (int32_t)((word & 0xfe000000) | (word >> 7 & 31) << 20) >> 20;
}

/* The registers of a task, of which x[0] stays 0, and what else there is of it. */
struct task {
    uint64_t pc, x[32];
    uint64_t reserved; /* the address of its reservation, and in the lowest bits its width by 4; 0 for none */
    uint64_t done;     /* how many instructions ran */
    bool has_ended;
    int status;
};

/* What an atomic memory operation stores. Words are extended by their sign, which keeps their order unsigned too. */
static inline uint64_t combine(uint32_t word, uint64_t a, uint64_t b)
{
    switch (word >> 27) {
    case 0: return a + b;
    case 1: return b;
    case 4: return a ^ b;
    case 8: return a | b;
    case 12: return a & b;
    case 16: return (int64_t)a < (int64_t)b ? a : b;
    case 20: return (int64_t)a > (int64_t)b ? a : b;
    case 24: return a < b ? a : b;
    case 28: return a > b ? a : b;
    default: stop("no such atomic operation", word);
    }
}

static uint64_t do_atomic(struct task *task, uint32_t word, uint64_t at, uint64_t b)
{
    unsigned operation = word >> 27, width = (word >> 12 & 7) == 2 ? 4 : 8;
    uint64_t place = at | width / 4;
    if ((word >> 13 & 3) != 1 || at % width != 0 || (operation == 2 && (word >> 20 & 31) != 0))
        stop("no such atomic operation", at);
    if (operation == 3) {
        bool fails = task->reserved != place;
        task->reserved = 0;
        if (!fails)
            write_bytes(at, b, width);
        return fails;
    }
    uint64_t old = width == 4 ? (uint64_t)(int32_t)read_bytes(at, 4) : read_bytes(at, 8);
    if (operation == 2)
        task->reserved = place;
    else
        write_bytes(at, combine(word, old, width == 4 ? (uint64_t)(int32_t)b : b), width);
    return old;
}

/* What the console has, and whether it ends within a line. */
static uint64_t console_size;
static bool is_within_line;

static uint64_t do_write(uint32_t descriptor, uint64_t from, uint64_t count)
{
    if (descriptor != 1 && descriptor != 2)
        stop("a write to no descriptor", descriptor);
    count = count < 65536 ? count : 65536;
    console_size += count;
    if (console_size > 1048576)
        stop("too long a console", console_size);
    for (uint64_t k = 0; k < count; k++) {
        uint8_t byte = *look(from + k, PF_R);
        putchar(byte);
        is_within_line = byte != '\n';
    }
    return count;
}

static void do_call(struct task *task, uint32_t word)
{
    uint64_t *x = task->x;
    if (word != 0x73)
        stop("no call", word);
    switch (x[17]) {
    case 64: x[10] = do_write(x[10], x[11], x[12]); break;
    case 94:
        task->has_ended = true;
        task->status = x[10] & 255;
        break;
    default: x[10] = -38; break; /* ENOSYS */
    }
}

static void run(struct task *task, uint64_t count)
{
    uint64_t pc = task->pc, *x = task->x, done = 0;
    for (; done < count && !task->has_ended; done++) {
        uint32_t word;
        memcpy(&word, look(pc, PF_X), sizeof word); /* pc is a multiple of 4 */
        unsigned target = word >> 7 & 31;
        uint64_t value = 0, next = pc + 4;
        uint64_t a = x[word >> 15 & 31], b = x[word >> 20 & 31];
        uint64_t immediate = (int32_t)word >> 20, upper = (int32_t)(word & ~4095u);
        switch (word & 127) {
        case 0x37: value = upper; break;
        case 0x17: value = pc + upper; break;
        case 0x6f: value = next; next = pc + distance(word); break;
        case 0x67: value = next; next = jump_target(word, a + immediate); break;
        case 0x63: next = is_taken(word, a, b) ? pc + branch_distance(word) : next; target = 0; break;
        case 0x03: value = load(word, a + immediate); break;
        case 0x23: store(word, a + store_distance(word), b); target = 0; break;
        case 0x13: value = compute_immediate(word, a, immediate); break;
        case 0x1b: value = compute_word_immediate(word, a, immediate); break;
        case 0x33: value = compute(word, a, b); break;
        case 0x3b: value = compute_word(word, a, b); break;
        case 0x2f: value = do_atomic(task, word, a, b); break;
        case 0x0f: target = 0; break;
        case 0x73: do_call(task, word); target = 0; break;
        default: stop("no such instruction", pc);
        }
        if (next % 4)
            stop("a jump to no multiple of 4", pc);
        x[target] = value;
        x[0] = 0;
        pc = next;
    }
    task->pc = pc;
    task->done = done;
}

/* Maps the segments of a program, and answers where it begins. */
static uint64_t read_program(const char *path)
{
    static uint8_t file[1 << 20];
    Elf64_Ehdr header;
    FILE *stream = fopen(path, "rb");
    if (!stream || fread(file, 1, sizeof file, stream) < sizeof header)
        stop("no program", 0);
    fclose(stream);
    memcpy(&header, file, sizeof header);
    for (unsigned k = 0; k < header.e_phnum; k++) {
        Elf64_Phdr segment;
        memcpy(&segment, file + header.e_phoff + k * sizeof segment, sizeof segment);
        for (uint64_t n = 0; segment.p_type == PT_LOAD && n < segment.p_memsz; n++) {
            uint64_t at = segment.p_vaddr + n;
            struct page *page = map(at, segment.p_flags);
            page->bytes[at % PAGE] = n < segment.p_filesz ? file[segment.p_offset + n] : 0;
        }
    }
    return header.e_entry;
}

static void report(const struct task *task)
{
    uint64_t sum = task->pc;
    for (unsigned k = 0; k < 32; k++)
        sum = sum * 31 + task->x[k];
    if (is_within_line)
        putchar('\n');
    if (task->has_ended)
        printf("group 1 exit %d\n", task->status);
    else
        printf("group 1 live\n");
    fprintf(stderr, "%" PRIu64 " %016" PRIx64 "\n", task->done, sum);
}

int main(int argc, char **argv)
{
    struct task task = {.x = {[2] = TOP}};
    if (argc != 3)
        stop("usage: interpreter PROGRAM COUNT", 0);
    task.pc = read_program(argv[1]);
    for (unsigned k = 1; k <= 64; k++)
        map(TOP - k * PAGE, PF_R | PF_W);
    run(&task, strtoull(argv[2], NULL, 10));
    report(&task);
    return task.has_ended ? 0 : 8;
}
