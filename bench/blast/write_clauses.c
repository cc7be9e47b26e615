/* Writes as many clauses as a formula has, of the same lengths, so many times.
 *
 *   write_clauses TIMES
 *
 * Each line of the input is one that blast_main prints: a kind, a count, microseconds, variables, clauses, and
 * how many clauses there are of each length from 0 to 32. The answer to it is the kind, the count and the least
 * time in microseconds of writing them into one growing array, each clause as its length and its literals. */
#include <stdio.h>
#include <stdlib.h>
#include <time.h>

enum { LONGEST = 32 };

struct array {
    int *items;
    size_t length, room;
};

static void push(struct array *array, int item)
{
    if (array->length == array->room) {
        array->room = array->room ? 2 * array->room : 64;
        array->items = realloc(array->items, array->room * sizeof *array->items);
        if (!array->items)
            exit(1);
    }
    array->items[array->length++] = item;
}

static double now(void)
{
    struct timespec t;
    clock_gettime(CLOCK_MONOTONIC, &t);
    return t.tv_sec * 1e6 + t.tv_nsec / 1e3;
}

/* The clauses of each length in turn, over variables that go round. */
static long write_all(const long *counts, int variables)
{
    struct array array = {0};
    long left[LONGEST + 1], sum;
    int lengths[LONGEST + 1], kinds = 0, variable = 1;
    for (int length = 0; length <= LONGEST; length++)
        if (counts[length]) {
            left[kinds] = counts[length];
            lengths[kinds++] = length;
        }
    while (kinds) {
        int kept = 0;
        for (int kind = 0; kind < kinds; kind++) {
            int length = lengths[kind];
            push(&array, length);
            for (int i = 0; i < length; i++) {
                variable = variable < variables ? variable + 1 : 1;
                push(&array, i % 2 ? -variable : variable);
            }
            if (--left[kind]) {
                left[kept] = left[kind];
                lengths[kept++] = length;
            }
        }
        kinds = kept;
    }
    sum = array.length ? array.items[array.length - 1] + (long)array.length : 0;
    free(array.items);
    return sum;
}

int main(int argc, char **argv)
{
    int times = argc > 1 ? atoi(argv[1]) : 5;
    char kind[64];
    long count, micros, variables, clauses, counts[LONGEST + 1];
    while (scanf("%63s %ld %ld %ld %ld", kind, &count, &micros, &variables, &clauses) == 5) {
        double least = 1e18;
        long sum = 0;
        for (int length = 0; length <= LONGEST; length++)
            if (scanf("%ld", &counts[length]) != 1)
                return 1;
        for (int round = 0; round < times; round++) {
            double start = now();
            sum += write_all(counts, variables ? variables : 1);
            double took = now() - start;
            if (took < least)
                least = took;
        }
        printf("%s %ld %.0f %ld\n", kind, count, least, sum);
    }
    return 0;
}
