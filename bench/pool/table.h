/* A table of distinct folded terms with open addressing, and a clock: what the programs in C share that stand beside
 * this project's pool. */
#include <stdint.h>
#include <stdlib.h>
#include <time.h>

enum { PARAM, ADD, SUB, MUL, DIV, REM, SHL, SHR, AND, OR, XOR, LT, LE, EQ, NE, PICK, NUM };

struct node {
    uint32_t kind, a, b, c;
};

struct table {
    struct node *nodes;
    uint8_t *truths;
    uint32_t count, room;
    uint32_t *slots; /* a node's number and 1, or 0 */
    uint32_t mask;
};

/* What a folding answers: a node that is there, a node, or an operator on a node and 0. */
struct answer {
    enum { NONE, KNOWN, NEW, WITH_ZERO } form;
    uint32_t known;
    struct node node;
};

static const uint32_t absent = UINT32_MAX;

static void *have(void *memory)
{
    if (memory == NULL) {
        exit(1);
    }
    return memory;
}

static struct answer known(uint32_t n)
{
    return (struct answer){ KNOWN, n, { 0, 0, 0, 0 } };
}

static struct answer new_node(uint32_t kind, uint32_t a, uint32_t b, uint32_t c)
{
    return (struct answer){ NEW, 0, { kind, a, b, c } };
}

static struct answer number(int32_t n)
{
    return new_node(NUM, (uint32_t)n, 0, 0);
}

static struct answer with_zero(uint32_t kind, uint32_t a)
{
    return (struct answer){ WITH_ZERO, 0, { kind, a, 0, 0 } };
}

static const struct answer none = { NONE, 0, { 0, 0, 0, 0 } };

/* ---- the table */

static uint32_t hash(struct node n)
{
    uint64_t h = ((uint64_t)n.kind << 32 | n.a) * 0x9e3779b97f4a7c15u;
    h = (h ^ (h >> 32) ^ ((uint64_t)n.b << 32 | n.c)) * 0xd6e8feb86659fd93u;
    return (uint32_t)(h >> 32);
}

static int same_node(struct node m, struct node n)
{
    return m.kind == n.kind && m.a == n.a && m.b == n.b && m.c == n.c;
}

static uint32_t find(const struct table *t, struct node n)
{
    for (uint32_t i = hash(n) & t->mask; t->slots[i] != 0; i = (i + 1) & t->mask) {
        if (same_node(t->nodes[t->slots[i] - 1], n)) {
            return t->slots[i] - 1;
        }
    }
    return absent;
}

static void put(struct table *t, uint32_t number)
{
    uint32_t i = hash(t->nodes[number]) & t->mask;
    while (t->slots[i] != 0) {
        i = (i + 1) & t->mask;
    }
    t->slots[i] = number + 1;
}

static void grow(struct table *t)
{
    t->room *= 2;
    t->nodes = have(realloc(t->nodes, sizeof *t->nodes * t->room));
    t->truths = have(realloc(t->truths, t->room));
    free(t->slots);
    t->mask = 2 * t->room - 1;
    t->slots = have(calloc(2 * (size_t)t->room, sizeof *t->slots));
    for (uint32_t i = 0; i < t->count; i++) {
        put(t, i);
    }
}

static int is_compare(uint32_t kind)
{
    return kind >= LT && kind <= NE;
}

static int is_truth_node(const struct table *t, struct node n)
{
    switch (n.kind) {
    case PARAM:
        return 0;
    case NUM:
        return n.a <= 1;
    case PICK:
        return t->truths[n.b] && t->truths[n.c];
    default:
        return is_compare(n.kind) || (n.kind >= AND && n.kind <= XOR && t->truths[n.a] && t->truths[n.b]);
    }
}

static uint32_t intern(struct table *t, struct node n)
{
    uint32_t there = find(t, n);
    if (there != absent) {
        return there;
    }
    if (t->count == t->room) {
        grow(t);
    }
    t->nodes[t->count] = n;
    t->truths[t->count] = (uint8_t)is_truth_node(t, n);
    put(t, t->count);
    return t->count++;
}

static uint32_t make(struct table *t, struct answer answer)
{
    if (answer.form == KNOWN) {
        return answer.known;
    }
    if (answer.form == WITH_ZERO) {
        answer.node.b = intern(t, number(0).node);
    }
    return intern(t, answer.node);
}

/* ---- the order of terms */

static int order(uint32_t a, uint32_t b)
{
    return (a > b) - (a < b);
}

static int compare(const struct table *t, uint32_t a, uint32_t b)
{
    while (a != b) {
        struct node m = t->nodes[a], n = t->nodes[b];
        if (m.kind != n.kind) {
            return order(m.kind, n.kind);
        }
        if (m.kind == PARAM) {
            return order(m.a, n.a);
        }
        if (m.kind == NUM) {
            return order(m.a ^ 0x80000000u, n.a ^ 0x80000000u);
        }
        if (m.a != n.a) {
            a = m.a, b = n.a;
        } else if (m.b != n.b) {
            a = m.b, b = n.b;
        } else {
            a = m.c, b = n.c;
        }
    }
    return 0;
}

/* ---- folding */

static int32_t total(uint32_t kind, int32_t a, int32_t b)
{
    uint32_t x = (uint32_t)a, y = (uint32_t)b;
    switch (kind) {
    case ADD:
        return (int32_t)(x + y);
    case SUB:
        return (int32_t)(x - y);
    case MUL:
        return (int32_t)(x * y);
    case DIV:
        return b == 0 ? 0 : b == -1 ? (int32_t)(0 - x) : a / b;
    case REM:
        return b == 0 || b == -1 ? 0 : a % b;
    case SHL:
        return (int32_t)(x << (y % 32));
    case SHR:
        return a >> (y % 32);
    case AND:
        return a & b;
    case OR:
        return a | b;
    case XOR:
        return a ^ b;
    case LT:
        return a < b;
    case LE:
        return a <= b;
    case EQ:
        return a == b;
    default:
        return a != b;
    }
}

static int is_number(const struct table *t, int32_t n, uint32_t a)
{
    return t->nodes[a].kind == NUM && (int32_t)t->nodes[a].a == n;
}

static int exchanges(uint32_t kind)
{
    return kind == ADD || kind == MUL || (kind >= AND && kind <= XOR) || kind == EQ || kind == NE;
}

static struct answer unequal(const struct table *t, uint32_t a, uint32_t b)
{
    struct node m = t->nodes[a], n = t->nodes[b];
    if (m.kind == NUM && n.kind == NUM) {
        return number(m.a != n.a);
    }
    if (compare(t, a, b) > 0) {
        uint32_t first = b;
        b = a, a = first;
    }
    if (a == b) {
        return number(0);
    }
    if (t->truths[a] && is_number(t, 0, b)) {
        return known(a);
    }
    return new_node(NE, a, b, 0);
}

static struct answer negate(const struct table *t, uint32_t a)
{
    struct node n = t->nodes[a];
    switch (n.kind) {
    case NUM:
        return number(n.a == 0);
    case LT:
        return new_node(LE, n.b, n.a, 0);
    case LE:
        return new_node(LT, n.b, n.a, 0);
    case EQ:
        return unequal(t, n.a, n.b);
    case NE:
        return new_node(EQ, n.a, n.b, 0);
    default:
        return with_zero(EQ, a);
    }
}

static int stands_for(const struct table *t, uint32_t n, struct answer answer)
{
    if (answer.form == KNOWN) {
        return n == answer.known;
    }
    if (answer.form == WITH_ZERO) {
        answer.node.b = find(t, number(0).node);
        if (answer.node.b == absent) {
            return 0;
        }
    }
    return same_node(t->nodes[n], answer.node);
}

static int are_opposite(const struct table *t, uint32_t a, uint32_t b)
{
    return (t->truths[a] && stands_for(t, b, negate(t, a))) || (t->truths[b] && stands_for(t, a, negate(t, b)));
}

static struct answer beside_number(uint32_t kind, uint32_t a, int32_t n)
{
    switch (kind) {
    case ADD:
    case SUB:
    case XOR:
        return n == 0 ? known(a) : none;
    case OR:
        return n == 0 ? known(a) : n == -1 ? number(-1) : none;
    case MUL:
        return n == 1 ? known(a) : n == 0 ? number(0) : none;
    case DIV:
        return n == 1 ? known(a) : none;
    case REM:
        return n == 1 ? number(0) : none;
    case SHL:
    case SHR:
        return (uint32_t)n % 32 == 0 ? known(a) : none;
    case AND:
        return n == -1 ? known(a) : n == 0 ? number(0) : none;
    default:
        return none;
    }
}

static struct answer twice(uint32_t kind, uint32_t a)
{
    switch (kind) {
    case SUB:
    case XOR:
    case LT:
    case NE:
        return number(0);
    case EQ:
    case LE:
        return number(1);
    case AND:
    case OR:
        return known(a);
    default:
        return none;
    }
}

static struct answer on_truths(const struct table *t, uint32_t kind, uint32_t a, uint32_t b)
{
    int beside_one = t->truths[a] && is_number(t, 1, b);
    if (kind == AND) {
        return beside_one ? known(a) : are_opposite(t, a, b) ? number(0) : none;
    }
    return beside_one || are_opposite(t, a, b) ? number(1) : none;
}

static struct answer fold(const struct table *t, uint32_t kind, uint32_t a, uint32_t b)
{
    struct answer answer = none;
    if (t->nodes[a].kind == NUM && t->nodes[b].kind == NUM) {
        return number(total(kind, (int32_t)t->nodes[a].a, (int32_t)t->nodes[b].a));
    }
    if (exchanges(kind) && compare(t, a, b) > 0) {
        uint32_t first = b;
        b = a, a = first;
    }
    if (t->nodes[b].kind == NUM) {
        answer = beside_number(kind, a, (int32_t)t->nodes[b].a);
    }
    if (answer.form == NONE && a == b) {
        answer = twice(kind, a);
    }
    if (answer.form == NONE && (kind == AND || kind == OR)) {
        answer = on_truths(t, kind, a, b);
    }
    if (answer.form == NONE && kind == EQ && is_compare(t->nodes[a].kind) && is_number(t, 0, b)) {
        answer = negate(t, a);
    }
    if (answer.form == NONE && kind == NE && t->truths[a] && is_number(t, 0, b)) {
        answer = known(a);
    }
    return answer.form == NONE ? new_node(kind, a, b, 0) : answer;
}

static struct answer pick(const struct table *t, uint32_t c, uint32_t a, uint32_t b)
{
    if (t->nodes[c].kind == NUM) {
        return known(t->nodes[c].a == 0 ? b : a);
    }
    return a == b ? known(a) : new_node(PICK, c, a, b);
}

static struct answer truth(const struct table *t, uint32_t a)
{
    return t->truths[a] ? known(a) : t->nodes[a].kind == NUM ? number(1) : with_zero(NE, a);
}

/* ---- the clock */

static long long microseconds(void)
{
    struct timespec now;
    clock_gettime(CLOCK_MONOTONIC, &now);
    return now.tv_sec * 1000000LL + now.tv_nsec / 1000;
}
