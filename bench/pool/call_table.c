/* The peer: a table of distinct folded terms with open addressing.
 *
 *   call_table TIMES < CALLS
 *
 * reads what make_calls writes, makes the calls TIMES times, each time in a new table, and prints the least
 * time in microseconds, the count of nodes, and a sum over the answers.
 */
#include "table.h"
#include <stdio.h>

/* ---- the calls */

struct call {
    uint32_t kind, word[3];
};

static uint32_t called(struct table *t, const uint32_t *made, struct call call)
{
    switch (call.kind) {
    case 0:
        return intern(t, (struct node){ PARAM, call.word[0], 0, 0 });
    case 1:
        return intern(t, number((int32_t)call.word[0]).node);
    case 2:
        return make(t, fold(t, call.word[0], made[call.word[1]], made[call.word[2]]));
    case 3:
        return make(t, pick(t, made[call.word[0]], made[call.word[1]], made[call.word[2]]));
    case 4:
        return make(t, negate(t, made[call.word[0]]));
    default:
        return make(t, truth(t, made[call.word[0]]));
    }
}

static struct call *read_calls(uint32_t *count)
{
    uint32_t room = 1024;
    struct call *calls = have(malloc(sizeof *calls * room));
    char line[128];
    for (*count = 0; fgets(line, sizeof line, stdin) != NULL; ++*count) {
        if (*count == room) {
            room *= 2;
            calls = have(realloc(calls, sizeof *calls * room));
        }
        long long w[4] = { 0, 0, 0, 0 };
        sscanf(line, "%lld %lld %lld %lld", &w[0], &w[1], &w[2], &w[3]);
        calls[*count] = (struct call){ (uint32_t)w[0], { (uint32_t)w[1], (uint32_t)w[2], (uint32_t)w[3] } };
    }
    return calls;
}

int main(int count_of_words, char **words)
{
    int times = count_of_words > 1 ? atoi(words[1]) : 1;
    uint32_t count, nodes = 0, sum = 0;
    struct call *calls = read_calls(&count);
    long long least = -1;
    for (int round = 0; round < times; round++) {
        long long start = microseconds();
        struct table t = { NULL, NULL, 0, 512, NULL, 0 };
        uint32_t *made = have(malloc(sizeof *made * count));
        grow(&t);
        for (uint32_t i = 0; i < count; i++) {
            made[i] = called(&t, made, calls[i]);
        }
        long long time = microseconds() - start;
        least = least < 0 || time < least ? time : least;
        nodes = t.count;
        sum = 0;
        for (uint32_t i = 0; i < count; i++) {
            sum = 31 * sum + made[i];
        }
        free(t.nodes), free(t.truths), free(t.slots), free(made);
    }
    printf("%lld %u %u\n", least, nodes, sum);
    return 0;
}
