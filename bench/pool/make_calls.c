/* Writes calls that make terms, one a line, the operands by the numbers of earlier calls:
 *
 *   make_calls COUNT SEED
 *
 *   0 K        the parameter K
 *   1 N        the number N
 *   2 OP A B   an operator, by its place in the order of terms (1 to 14)
 *   3 C A B    a choice
 *   4 A        a negation
 *   5 A        a truth
 *
 * A quarter of the calls stand once more as they stood before. Half of the operands are of the last 64 calls,
 * the others of all calls before.
 */
#include <stdint.h>
#include <stdio.h>
#include <stdlib.h>

struct call {
    int kind;
    int64_t word[3];
};

static uint64_t state;

static uint32_t random_word(void)
{
    state ^= state << 13;
    state ^= state >> 7;
    state ^= state << 17;
    return (uint32_t)(state >> 32);
}

static uint32_t below(uint32_t n)
{
    return random_word() % n;
}

static uint32_t operand(uint32_t before)
{
    if (below(2) == 0) {
        return before - 1 - below(before < 64 ? before : 64);
    }
    return below(before);
}

static struct call new_call(uint32_t before)
{
    uint32_t which = before < 8 ? 0 : below(100);
    struct call call = { 0, { 0, 0, 0 } };
    if (which < 3) {
        call.word[0] = before < 8 ? before : below(8);
    } else if (which < 10) {
        call.kind = 1;
        call.word[0] = below(4) == 0 ? (int64_t)below(3) - 1 : (int64_t)(int32_t)random_word() >> below(24);
    } else if (which < 85) {
        call.kind = 2;
        call.word[0] = 1 + below(14);
        call.word[1] = operand(before);
        call.word[2] = operand(before);
    } else if (which < 90) {
        call.kind = 3;
        call.word[0] = operand(before);
        call.word[1] = operand(before);
        call.word[2] = operand(before);
    } else {
        call.kind = which < 95 ? 4 : 5;
        call.word[0] = operand(before);
    }
    return call;
}

int main(int count_of_words, char **words)
{
    static const int lengths[6] = { 1, 1, 3, 3, 1, 1 };
    uint32_t count = count_of_words > 1 ? (uint32_t)atol(words[1]) : 1000000;
    state = 88172645463325252u + (count_of_words > 2 ? (uint64_t)atol(words[2]) : 1);
    struct call *calls = malloc(sizeof *calls * count);
    if (calls == NULL) {
        return 1;
    }
    for (uint32_t i = 0; i < count; i++) {
        calls[i] = i >= 8 && below(4) == 0 ? calls[below(i)] : new_call(i);
        printf("%d", calls[i].kind);
        for (int k = 0; k < lengths[calls[i].kind]; k++) {
            printf(" %lld", (long long)calls[i].word[k]);
        }
        putchar('\n');
    }
    return 0;
}
