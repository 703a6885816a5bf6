/*
 * Reads a text of some hundreds of kilobytes that it makes itself: counts each word in a hash table, sorts the words by
 * their counts, and shows the most frequent, how many words have each length, and digests of the text and of the list.
 */
#include <ctype.h>
#include <stdint.h>
#include <stdio.h>
#include <stdlib.h>
#include <string.h>

#include "../numbers.h"

#define TEXT_SIZE 300000
#define SHOWN 12
#define LONGEST 16

struct word {
    struct word *next; /* in the same list of the table */
    unsigned count;
    char letters[];
};

static struct word **table;
static size_t table_size, word_count;

static void *need(void *block)
{
    if (!block) {
        fprintf(stderr, "words: no memory\n");
        exit(1);
    }
    return block;
}

/* A word of syllables; lower numbers have fewer, and stand for words that come more often. */
static size_t spell(char *to, uint64_t number)
{
    static const char syllables[][4] = {"ba", "do", "fi", "gul", "he", "ka", "lo", "mer", "nu", "pa", "ri", "so", "tan",
        "u", "ve", "zi"};
    size_t length = 0;
    do {
        const char *syllable = syllables[number % 16];
        memcpy(to + length, syllable, strlen(syllable));
        length += strlen(syllable);
        number /= 16;
    } while (number > 0);
    return length;
}

/* Words with commas, full stops and lines between them. Their numbers have up to 13 bits, and few bits most often. */
static size_t make_text(char *text, size_t size)
{
    uint64_t state = 88172645463325252;
    size_t length = 0, column = 0;
    while (length < size - 40) {
        uint64_t number = next_number(&state);
        size_t begin = length;
        length += spell(text + length, (number >> 20) % (UINT64_C(2) << number % 13));
        if (number >> 60 == 0)
            text[begin] = toupper((unsigned char)text[begin]);
        if (number >> 59 == 7)
            text[length++] = (number >> 58) % 2 ? ',' : '.';
        column += length - begin + 1;
        text[length++] = column > 72 ? '\n' : ' ';
        column = column > 72 ? 0 : column;
    }
    return length;
}

static struct word **place_of(const char *letters, size_t length)
{
    struct word **place = &table[digest_bytes(DIGEST_OFFSET, letters, length) % table_size];
    while (*place && (memcmp((*place)->letters, letters, length) != 0 || (*place)->letters[length]))
        place = &(*place)->next;
    return place;
}

static void grow(void)
{
    struct word **old = table;
    size_t old_size = table_size;
    table_size = table_size * 2 + 1;
    table = need(calloc(table_size, sizeof *table));
    for (size_t k = 0; k < old_size; k++)
        for (struct word *word = old[k], *next; word; word = next) {
            next = word->next;
            struct word **place = place_of(word->letters, strlen(word->letters));
            word->next = NULL;
            *place = word;
        }
    free(old);
}

static void count_word(const char *letters, size_t length)
{
    if (word_count * 2 >= table_size)
        grow();
    struct word **place = place_of(letters, length);
    if (!*place) {
        *place = need(calloc(1, sizeof **place + LONGEST + 1));
        memcpy((*place)->letters, letters, length);
        word_count++;
    }
    (*place)->count++;
}

static void count_words(char *text, size_t size, unsigned *lengths)
{
    for (size_t k = 0, begin = 0; k <= size; k++) {
        if (k < size && isalpha((unsigned char)text[k])) {
            text[k] = tolower((unsigned char)text[k]);
            continue;
        }
        if (k > begin && k - begin <= LONGEST) {
            count_word(text + begin, k - begin);
            lengths[k - begin]++;
        }
        begin = k + 1;
    }
}

static int compare(const void *a, const void *b)
{
    const struct word *left = *(struct word *const *)a, *right = *(struct word *const *)b;
    if (left->count != right->count)
        return left->count < right->count ? 1 : -1;
    return strcmp(left->letters, right->letters);
}

static struct word **sorted_words(void)
{
    struct word **words = need(malloc(word_count * sizeof *words));
    size_t n = 0;
    for (size_t k = 0; k < table_size; k++)
        for (struct word *word = table[k]; word; word = word->next)
            words[n++] = word;
    qsort(words, n, sizeof *words, compare);
    return words;
}

static void show(struct word **words, unsigned total, const unsigned *lengths)
{
    uint64_t digest = DIGEST_OFFSET;
    for (size_t k = 0; k < word_count; k++) {
        char line[64];
        digest = digest_bytes(digest, line, sprintf(line, "%u %s\n", words[k]->count, words[k]->letters));
    }
    printf("words %u, different ones %zu\n", total, word_count);
    for (size_t k = 0; k < SHOWN && k < word_count; k++)
        printf("%6u %5.2f%% %s\n", words[k]->count, 100.0 * words[k]->count / total, words[k]->letters);
    for (size_t k = 1; k <= LONGEST; k++)
        if (lengths[k])
            printf("%2zu letters %6u %.*s\n", k, lengths[k], (int)(lengths[k] * 60.0 / total),
                "############################################################");
    printf("digest of the list %016llx\n", (unsigned long long)digest);
}

int main(void)
{
    char *text = need(malloc(TEXT_SIZE));
    unsigned lengths[LONGEST + 1] = {0}, total = 0;
    size_t size = make_text(text, TEXT_SIZE);
    printf("bytes %zu, digest %016llx\n", size, (unsigned long long)digest_bytes(DIGEST_OFFSET, text, size));
    count_words(text, size, lengths);
    for (size_t k = 1; k <= LONGEST; k++)
        total += lengths[k];
    show(sorted_words(), total, lengths);
    return 0;
}
