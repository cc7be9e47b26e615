/* The peer: runs a program, keeps its evaluations, and makes their terms in a table with open addressing.
 *
 *   run_terms TIMES A B < PROGRAM
 *
 * reads a program as `program.txt` has it, runs it TIMES times on the words A and B, each time with a new table, and
 * prints the least microseconds of the run and of the terms, the counts of evaluations and of nodes, and a sum over
 * the values and one over the nodes.
 */
#include "../pool/table.h"
#include <stdio.h>
#include <string.h>

enum { NUMBER = NUM + 1, VARIABLE, NEGATE, INVERT, FLIP, ALSO, ELSE, GREATER, AT_LEAST, CHOICE };
enum { PARAMETERS = 2, VARIABLES = 10 };
enum { SET, IF, WHILE, OUT, RETURN, BLOCK };

struct expr {
    int form;
    int32_t n;
    struct expr *a, *b, *c;
};

struct stmt {
    int form, var;
    uint32_t number;
    struct expr *value;
    struct stmt *inside, *other, *next;
};

struct event {
    uint32_t stmt;
    uint8_t what, safe;
    int32_t value;
};

/* ---- reading */

static struct expr *new_expr(int form, int32_t n, struct expr *a, struct expr *b, struct expr *c)
{
    struct expr *e = have(malloc(sizeof *e));
    *e = (struct expr){ form, n, a, b, c };
    return e;
}

static const struct {
    const char *word;
    int form;
} operators[] = { { "+", ADD }, { "-", SUB }, { "*", MUL }, { "/", DIV }, { "%", REM }, { "<<", SHL }, { ">>", SHR },
    { "&", AND }, { "|", OR }, { "^", XOR }, { "<", LT }, { "<=", LE }, { ">", GREATER }, { ">=", AT_LEAST },
    { "==", EQ }, { "!=", NE }, { "&&", ALSO }, { "||", ELSE } };

static int operator_of(const char *word)
{
    for (size_t i = 0; i < sizeof operators / sizeof *operators; i++) {
        if (strcmp(operators[i].word, word) == 0) {
            return operators[i].form;
        }
    }
    fprintf(stderr, "no such word: %s\n", word);
    exit(1);
}

/* The words up to `;` or the end of the line, an operator behind its operands. */
static struct expr *read_expr(void)
{
    struct expr *stack[16];
    int n = 0;
    for (char *word; (word = strtok(NULL, " \n")) != NULL && strcmp(word, ";") != 0;) {
        if (word[0] == 'v') {
            stack[n++] = new_expr(VARIABLE, atoi(word + 1), NULL, NULL, NULL);
        } else if (word[0] >= '0' && word[0] <= '9') {
            stack[n++] = new_expr(NUMBER, atoi(word), NULL, NULL, NULL);
        } else if (strcmp(word, "?:") == 0) {
            n -= 2;
            stack[n - 1] = new_expr(CHOICE, 0, stack[n - 1], stack[n], stack[n + 1]);
        } else if (strcmp(word, "neg") == 0 || strcmp(word, "!") == 0 || strcmp(word, "~") == 0) {
            int form = word[0] == 'n' ? NEGATE : word[0] == '!' ? INVERT : FLIP;
            stack[n - 1] = new_expr(form, 0, stack[n - 1], NULL, NULL);
        } else {
            n--;
            stack[n - 1] = new_expr(operator_of(word), 0, stack[n - 1], stack[n], NULL);
        }
    }
    return stack[0];
}

static struct stmt *new_stmt(int form, int var, struct expr *value)
{
    struct stmt *s = have(calloc(1, sizeof *s));
    s->form = form, s->var = var, s->value = value;
    return s;
}

static struct stmt *read_all(void)
{
    struct stmt *first = NULL, **end = &first;
    char line[256];
    while (fgets(line, sizeof line, stdin) != NULL) {
        char *word = strtok(line, " \n");
        if (strcmp(word, "end") == 0) {
            break;
        }
        struct stmt *s = new_stmt(SET, 0, NULL);
        if (strcmp(word, "set") == 0 || strcmp(word, "when") == 0 || strcmp(word, "either") == 0) {
            s->var = atoi(strtok(NULL, " \n"));
            s->value = read_expr();
            if (word[0] != 's') {
                s->form = IF;
                s->inside = new_stmt(SET, s->var, read_expr());
            }
            if (word[0] == 'e') {
                s->other = new_stmt(SET, s->var, read_expr());
            }
        } else {
            s->form = word[0] == 'w' ? WHILE : word[0] == 'o' ? OUT : RETURN;
            s->value = read_expr();
            if (s->form == WHILE) {
                s->inside = new_stmt(BLOCK, 0, NULL);
                s->inside->inside = read_all();
            }
        }
        *end = s;
        end = &s->next;
    }
    return first;
}

/* Numbers the statements in the order of the text. */
static uint32_t number_all(struct stmt *s, uint32_t number)
{
    for (; s != NULL; s = s->next) {
        s->number = number;
        number = number_all(s->inside, number + 1);
        number = number_all(s->other, number);
    }
    return number;
}

/* ---- the run */

struct run {
    int32_t *state, *outs;
    uint32_t out_count, out_room, turns;
    struct event *events;
    uint32_t count, room;
};

/* Whether the expression has a value, which is written. */
static int evaluate(const struct expr *e, const int32_t *state, int32_t *value)
{
    int32_t a, b;
    switch (e->form) {
    case NUMBER:
        *value = e->n;
        return 1;
    case VARIABLE:
        *value = state[e->n];
        return 1;
    case NEGATE:
    case INVERT:
    case FLIP:
        if (!evaluate(e->a, state, &a)) {
            return 0;
        }
        *value = e->form == NEGATE ? (int32_t)(0 - (uint32_t)a) : e->form == INVERT ? a == 0 : ~a;
        return 1;
    case CHOICE:
        return evaluate(e->a, state, &a) && evaluate(a != 0 ? e->b : e->c, state, value);
    default:
        break;
    }
    if (!evaluate(e->a, state, &a)) {
        return 0;
    }
    if ((e->form == ALSO && a == 0) || (e->form == ELSE && a != 0)) {
        *value = e->form == ELSE;
        return 1;
    }
    if (!evaluate(e->b, state, &b)) {
        return 0;
    }
    if (e->form == ALSO || e->form == ELSE) {
        *value = b != 0;
    } else if (e->form == GREATER || e->form == AT_LEAST) {
        *value = e->form == GREATER ? a > b : a >= b;
    } else if ((e->form == DIV || e->form == REM) && b == 0) {
        return 0;
    } else {
        *value = total((uint32_t)e->form, a, b);
    }
    return 1;
}

static int told(struct run *r, const struct stmt *s, int32_t *value)
{
    if (r->count == r->room) {
        r->room = r->room == 0 ? 4 : 2 * r->room;
        r->events = have(realloc(r->events, sizeof *r->events * r->room));
    }
    *value = 0;
    int safe = evaluate(s->value, r->state, value);
    r->events[r->count++] = (struct event){ s->number, (uint8_t)s->form, (uint8_t)safe, safe ? *value : 0 };
    return safe;
}

static void put_out(struct run *r, int32_t value)
{
    if (r->out_count == r->out_room) {
        r->out_room = r->out_room == 0 ? 4 : 2 * r->out_room;
        r->outs = have(realloc(r->outs, sizeof *r->outs * r->out_room));
    }
    r->outs[r->out_count++] = value;
}

/* Whether the run goes on. */
static int execute(struct run *r, const struct stmt *s)
{
    int32_t value;
    for (; s != NULL; s = s->next) {
        switch (s->form) {
        case SET:
            if (!told(r, s, &value)) {
                return 0;
            }
            r->state[s->var] = value;
            break;
        case IF:
            if (!told(r, s, &value) || !execute(r, value != 0 ? s->inside : s->other)) {
                return 0;
            }
            break;
        case WHILE:
            while (1) {
                if (!told(r, s, &value)) {
                    return 0;
                }
                if (value == 0) {
                    break;
                }
                if (r->turns == 0) {
                    return 0;
                }
                r->turns--;
                if (!execute(r, s->inside)) {
                    return 0;
                }
            }
            break;
        case BLOCK:
            if (!execute(r, s->inside)) {
                return 0;
            }
            break;
        default:
            if (!told(r, s, &value)) {
                return 0;
            }
            put_out(r, value);
            if (s->form == RETURN) {
                return 0;
            }
        }
    }
    return 1;
}

/* ---- the terms */

struct symbol {
    uint32_t value, safe;
};

static uint32_t make_op(struct table *t, uint32_t kind, uint32_t a, uint32_t b)
{
    return make(t, fold(t, kind, a, b));
}

static uint32_t make_number(struct table *t, int32_t n)
{
    return intern(t, number(n).node);
}

static uint32_t make_truth(struct table *t, uint32_t a)
{
    return make(t, truth(t, a));
}

static uint32_t safe_where(struct table *t, uint32_t fails, uint32_t safe, uint32_t inner)
{
    return make_op(t, AND, safe, make_op(t, OR, fails, inner));
}

static struct symbol unary(struct table *t, int form, struct symbol x)
{
    switch (form) {
    case NEGATE:
        x.value = make_op(t, SUB, make_number(t, 0), x.value);
        break;
    case INVERT:
        x.value = make(t, negate(t, make_truth(t, x.value)));
        break;
    default:
        x.value = make_op(t, XOR, x.value, make_number(t, -1));
    }
    return x;
}

static struct symbol binary(struct table *t, int form, struct symbol x, struct symbol y)
{
    struct symbol made;
    if (form == ALSO || form == ELSE) {
        uint32_t first = make_truth(t, x.value), second = make_truth(t, y.value);
        made.value = make_op(t, form == ALSO ? AND : OR, first, second);
        first = make_truth(t, x.value);
        made.safe = safe_where(t, form == ALSO ? make(t, negate(t, first)) : first, x.safe, y.safe);
        return made;
    }
    if (form == GREATER || form == AT_LEAST) {
        made.value = make_op(t, form == GREATER ? LT : LE, y.value, x.value);
    } else {
        made.value = make_op(t, (uint32_t)form, x.value, y.value);
    }
    made.safe = make_op(t, AND, x.safe, y.safe);
    if (form == DIV || form == REM) {
        made.safe = make_op(t, AND, made.safe, make_op(t, NE, y.value, make_number(t, 0)));
    }
    return made;
}

/* A variable that isn't set yet has its parameter's word, or 0. */
static uint32_t read_slot(struct table *t, const uint32_t *slots, uint32_t v)
{
    if (slots[v] != absent) {
        return slots[v];
    }
    return v < PARAMETERS ? intern(t, (struct node){ PARAM, v, 0, 0 }) : make_number(t, 0);
}

static struct symbol symbol(struct table *t, const struct expr *e, const uint32_t *slots)
{
    struct symbol made;
    switch (e->form) {
    case NUMBER:
        made.value = make_number(t, e->n);
        made.safe = make_number(t, 1);
        return made;
    case VARIABLE:
        made.value = read_slot(t, slots, (uint32_t)e->n);
        made.safe = make_number(t, 1);
        return made;
    case NEGATE:
    case INVERT:
    case FLIP:
        return unary(t, e->form, symbol(t, e->a, slots));
    case CHOICE: {
        struct symbol c = symbol(t, e->a, slots), x = symbol(t, e->b, slots), y = symbol(t, e->c, slots);
        uint32_t test = make_truth(t, c.value);
        made.value = make(t, pick(t, test, x.value, y.value));
        made.safe = safe_where(t, make(t, negate(t, test)), c.safe, x.safe);
        made.safe = safe_where(t, test, made.safe, y.safe);
        return made;
    }
    default: {
        struct symbol x = symbol(t, e->a, slots), y = symbol(t, e->b, slots);
        return binary(t, e->form, x, y);
    }
    }
}

static void rows_of(const struct stmt *s, const struct stmt **rows)
{
    for (; s != NULL; s = s->next) {
        rows[s->number] = s;
        rows_of(s->inside, rows);
        rows_of(s->other, rows);
    }
}

/* ---- measuring */

int main(int count_of_words, char **words)
{
    if (count_of_words != 4) {
        return 2;
    }
    struct stmt *program = read_all();
    uint32_t statements = number_all(program, 0);
    long long run_time = -1, term_time = -1;
    uint32_t sum = 0, node_sum = 0, nodes = 0, count = 0;
    for (int round = atoi(words[1]); round > 0; round--) {
        long long start = microseconds();
        int32_t state[VARIABLES] = { atoi(words[2]), atoi(words[3]) };
        struct run r = { state, NULL, 0, 0, 256, NULL, 0, 0 };
        execute(&r, program);
        long long between = microseconds();
        struct table t = { NULL, NULL, 0, 8, NULL, 0 };
        grow(&t);
        const struct stmt **rows = have(calloc(statements, sizeof *rows));
        rows_of(program, rows);
        uint32_t *slots = have(malloc(sizeof *slots * VARIABLES));
        for (uint32_t v = 0; v < VARIABLES; v++) {
            slots[v] = absent;
        }
        uint32_t *values = NULL, *safes = NULL, room = 0;
        for (uint32_t i = 0; i < r.count; i++) {
            if (i == room) {
                room = room == 0 ? 4 : 2 * room;
                values = have(realloc(values, sizeof *values * room));
                safes = have(realloc(safes, sizeof *safes * room));
            }
            const struct stmt *s = rows[r.events[i].stmt];
            struct symbol made = symbol(&t, s->value, slots);
            values[i] = made.value, safes[i] = made.safe;
            if (s->form == SET && r.events[i].safe) {
                slots[s->var] = made.value;
            }
        }
        long long end = microseconds();
        run_time = run_time < 0 || between - start < run_time ? between - start : run_time;
        term_time = term_time < 0 || end - between < term_time ? end - between : term_time;
        sum = 0, node_sum = 0, nodes = t.count, count = r.count;
        for (uint32_t i = 0; i < count; i++) {
            sum = 31 * sum + (uint32_t)r.events[i].value;
            node_sum = 31 * (31 * node_sum + values[i]) + safes[i];
        }
        free(t.nodes), free(t.truths), free(t.slots), free(rows), free(slots), free(values), free(safes);
        free(r.events), free(r.outs);
    }
    printf("%lld %lld %u %u %u %u\n", run_time, term_time, count, nodes, sum, node_sum);
    return 0;
}
