/* Sorts numbers by heapsort, and shows that they ascend, that their sum stayed, and a digest of them. */
#include <stdbool.h>

#include "guest.h"

#define COUNT 32768u

static void swap(uint64_t *a, uint64_t *b)
{
    uint64_t kept = *a;
    *a = *b;
    *b = kept;
}

/* Lets the number at `root` sink until neither child is above it. */
static void sink(uint64_t *heap, size_t root, size_t count)
{
    for (size_t child; (child = 2 * root + 1) < count; root = child) {
        if (child + 1 < count && heap[child] < heap[child + 1])
            child++;
        if (heap[root] >= heap[child])
            return;
        swap(&heap[root], &heap[child]);
    }
}

static void sort(uint64_t *numbers, size_t count)
{
    for (size_t root = count / 2; root > 0; root--)
        sink(numbers, root - 1, count);
    for (size_t left = count; left > 1; left--) {
        swap(&numbers[0], &numbers[left - 1]);
        sink(numbers, 0, left - 1);
    }
}

static bool ascends(const uint64_t *numbers, size_t count)
{
    for (size_t k = 1; k < count; k++)
        if (numbers[k - 1] > numbers[k])
            return false;
    return true;
}

static uint64_t sum_of(const uint64_t *numbers, size_t count)
{
    uint64_t sum = 0;
    for (size_t k = 0; k < count; k++)
        sum += numbers[k];
    return sum;
}

int main(void)
{
    static uint64_t numbers[COUNT];
    uint64_t state = 2;
    for (size_t k = 0; k < COUNT; k++)
        numbers[k] = next_number(&state);
    uint64_t sum = sum_of(numbers, COUNT);
    sort(numbers, COUNT);
    print_decimal(COUNT);
    print(ascends(numbers, COUNT) ? " numbers that ascend" : " numbers out of order");
    print(sum_of(numbers, COUNT) == sum ? ", of the same sum\n" : ", of another sum\n");
    print_digest(digest_bytes(DIGEST_OFFSET, numbers, sizeof numbers));
    return 0;
}
