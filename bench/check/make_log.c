/* Makes formulas that have no model, and refutes them by clause learning. It writes the formula and the
   log of its learnt clauses, each with the clauses that its conflict resolved, in the order of the trail
   and the clause in conflict last.

   make_log pigeons HOLES LIMIT | make_log random VARS CLAUSES SEED LIMIT
   LIMIT: the most lines; a log that reaches it is written without the empty clause at its end.

   The text: "VARS CLAUSES LINES", then each clause as its literals and 0, then each line as its literals,
   0, its hints from 1 and 0. */
#include <stdint.h>
#include <stdio.h>
#include <stdlib.h>
#include <string.h>

typedef struct { int size; int *lits; int hint_count; int *hints; } Clause;
typedef struct { int clause; int blocker; } Watch;
typedef struct { int size, room; Watch *items; } Watches;

static Clause *clauses;
static int clause_count, clause_room, formula_count, vars;
static Watches *watches;         /* by place of a literal: the clauses that watch its negation */
static signed char *value;       /* by place: 1 true, -1 false, 0 free */
static int *level, *reason, *trail, *limits;
static int trail_size, head, level_count;
static double *activity, bump = 1.0;
static signed char *phase, *seen;
static uint64_t seed = 1;

static uint64_t next_random(void) {
    seed ^= seed << 13; seed ^= seed >> 7; seed ^= seed << 17;
    return seed;
}
static int place(int lit) { return lit < 0 ? -2 * lit + 1 : 2 * lit; }
static void *grown(void *old, size_t size) {
    void *new = realloc(old, size);
    if (!new) { fprintf(stderr, "out of memory\n"); exit(1); }
    return new;
}
static int add_clause(const int *lits, int size, const int *hints, int hint_count) {
    if (clause_count == clause_room) {
        clause_room = clause_room ? 2 * clause_room : 1024;
        clauses = grown(clauses, clause_room * sizeof(Clause));
    }
    Clause *c = &clauses[clause_count];
    c->size = size;
    c->lits = grown(NULL, (size + 1) * sizeof(int));
    memcpy(c->lits, lits, size * sizeof(int));
    c->hint_count = hint_count;
    c->hints = grown(NULL, (hint_count + 1) * sizeof(int));
    if (hint_count) memcpy(c->hints, hints, hint_count * sizeof(int));
    return clause_count++;
}
static void watch(int lit, int clause, int blocker) {
    Watches *w = &watches[place(-lit)];
    if (w->size == w->room) {
        w->room = w->room ? 2 * w->room : 8;
        w->items = grown(w->items, w->room * sizeof(Watch));
    }
    w->items[w->size++] = (Watch){clause, blocker};
}
static void assign(int lit, int why) {
    value[place(lit)] = 1;
    value[place(-lit)] = -1;
    level[abs(lit)] = level_count;
    reason[abs(lit)] = why;
    trail[trail_size++] = lit;
}
static int propagate(void) {
    while (head < trail_size) {
        int lit = trail[head++];
        Watches *w = &watches[place(lit)];
        int kept = 0;
        for (int i = 0; i < w->size; i++) {
            Watch item = w->items[i];
            if (value[place(item.blocker)] > 0) { w->items[kept++] = item; continue; }
            Clause *c = &clauses[item.clause];
            if (c->lits[0] == -lit) { c->lits[0] = c->lits[1]; c->lits[1] = -lit; }
            if (value[place(c->lits[0])] > 0) { w->items[kept++] = (Watch){item.clause, c->lits[0]}; continue; }
            int k = 2;
            while (k < c->size && value[place(c->lits[k])] < 0) k++;
            if (k < c->size) {
                c->lits[1] = c->lits[k]; c->lits[k] = -lit;
                watch(c->lits[1], item.clause, c->lits[0]);
                continue;
            }
            w->items[kept++] = item;
            if (value[place(c->lits[0])] < 0) {
                while (++i < w->size) w->items[kept++] = w->items[i];
                w->size = kept;
                return item.clause;
            }
            assign(c->lits[0], item.clause);
        }
        w->size = kept;
    }
    return -1;
}
static void backjump(int to) {
    while (trail_size > (to < level_count ? limits[to] : trail_size)) {
        int lit = trail[--trail_size];
        phase[abs(lit)] = lit > 0 ? 1 : -1;
        value[place(lit)] = value[place(-lit)] = 0;
    }
    head = trail_size;
    level_count = to;
}
static void raise_activity(int var) {
    activity[var] += bump;
    if (activity[var] > 1e100) {
        for (int v = 1; v <= vars; v++) activity[v] *= 1e-100;
        bump *= 1e-100;
    }
}
/* Learns from a conflict, and answers the level to jump to, or -1 after the empty clause. */
static int *learnt, *used;
static int learn(int conflict) {
    int size = 1, used_count = 0, open = 0, back = 0;
    int why = conflict, at = trail_size;
    used[used_count++] = conflict;
    for (;;) {
        Clause *c = &clauses[why];
        for (int k = 0; k < c->size; k++) {
            int var = abs(c->lits[k]);
            if (value[place(c->lits[k])] > 0 || seen[var]) continue;
            seen[var] = 1;
            raise_activity(var);
            if (level[var] == level_count) open++;
            else {
                learnt[size++] = c->lits[k];
                if (level[var] > back) back = level[var];
            }
        }
        while (!seen[abs(trail[at - 1])]) at--;
        int lit = trail[--at];
        open--;
        if (level_count > 0 && open == 0) { learnt[0] = -lit; seen[abs(lit)] = 0; break; }
        seen[abs(lit)] = 0;
        why = reason[abs(lit)];
        used[used_count++] = why;
        if (level_count == 0) {
            int left = 0;
            for (int k = 0; k < at; k++) left |= seen[abs(trail[k])];
            open = 1;
            Clause *d = &clauses[why];
            for (int k = 0; k < d->size; k++) left |= d->lits[k] != lit;
            if (!left) { size = 0; break; }
        }
    }
    for (int k = 1; k < size; k++) seen[abs(learnt[k])] = 0;
    for (int a = 0, b = used_count - 1; a < b; a++, b--) { int t = used[a]; used[a] = used[b]; used[b] = t; }
    int number = add_clause(learnt, size, used, used_count);
    bump *= 1.0 / 0.95;
    if (size == 0) return -1;
    backjump(back);
    Clause *c = &clauses[number];
    if (size > 1) {
        int best = 1;
        for (int k = 2; k < size; k++) if (level[abs(c->lits[k])] > level[abs(c->lits[best])]) best = k;
        int t = c->lits[1]; c->lits[1] = c->lits[best]; c->lits[best] = t;
        watch(c->lits[0], number, c->lits[1]);
        watch(c->lits[1], number, c->lits[0]);
    }
    assign(c->lits[0], number);
    return back;
}
static int refute(int limit) {
    for (int k = 0; k < formula_count; k++) {
        watch(clauses[k].lits[0], k, clauses[k].lits[1]);
        watch(clauses[k].lits[1], k, clauses[k].lits[0]);
    }
    while (clause_count - formula_count < limit) {
        int conflict = propagate();
        if (conflict >= 0) {
            if (learn(conflict) < 0) return 0;
            continue;
        }
        int best = 0;
        for (int v = 1; v <= vars; v++) if (!value[2 * v] && (!best || activity[v] > activity[best])) best = v;
        if (!best) return 1;
        limits[level_count++] = trail_size;
        assign(phase[best] > 0 ? best : -best, -1);
    }
    return 0;
}
static void pigeons(int holes) {
    vars = holes * (holes + 1);
    int lits[64];
    for (int p = 0; p <= holes; p++) {
        for (int h = 0; h < holes; h++) lits[h] = p * holes + h + 1;
        add_clause(lits, holes, NULL, 0);
    }
    for (int h = 0; h < holes; h++)
        for (int p = 0; p <= holes; p++)
            for (int q = 0; q < p; q++) {
                lits[0] = -(p * holes + h + 1); lits[1] = -(q * holes + h + 1);
                add_clause(lits, 2, NULL, 0);
            }
}
static void random_clauses(int v, int count) {
    vars = v;
    for (int k = 0; k < count; k++) {
        int a = 1 + next_random() % v, b, c;
        do b = 1 + next_random() % v; while (b == a);
        do c = 1 + next_random() % v; while (c == a || c == b);
        int lits[3] = {next_random() % 2 ? a : -a, next_random() % 2 ? b : -b, next_random() % 2 ? c : -c};
        add_clause(lits, 3, NULL, 0);
    }
}
int main(int argc, char **argv) {
    int limit;
    if (argc == 4 && !strcmp(argv[1], "pigeons")) { pigeons(atoi(argv[2])); limit = atoi(argv[3]); }
    else if (argc == 6 && !strcmp(argv[1], "random")) {
        seed = 88172645463325252u + atoi(argv[4]) * 7919u;
        for (int k = 0; k < 10; k++) next_random();
        random_clauses(atoi(argv[2]), atoi(argv[3])); limit = atoi(argv[5]);
    } else { fprintf(stderr, "usage: make_log pigeons HOLES LIMIT | random VARS CLAUSES SEED LIMIT\n"); return 2; }
    formula_count = clause_count;
    watches = calloc(2 * vars + 2, sizeof *watches);
    value = calloc(2 * vars + 2, 1); phase = calloc(vars + 1, 1); seen = calloc(vars + 1, 1);
    level = calloc(vars + 1, sizeof(int)); reason = calloc(vars + 1, sizeof(int)); trail = calloc(vars + 1, sizeof(int));
    limits = calloc(vars + 1, sizeof(int)); activity = calloc(vars + 1, sizeof(double));
    learnt = calloc(vars + 1, sizeof(int)); used = calloc(vars + 2, sizeof(int));
    int model = refute(limit);
    if (model) { fprintf(stderr, "it has a model\n"); return 3; }
    printf("%d %d %d\n", vars, formula_count, clause_count - formula_count);
    for (int k = 0; k < clause_count; k++) {
        for (int j = 0; j < clauses[k].size; j++) printf("%d ", clauses[k].lits[j]);
        printf("0\n");
        if (k < formula_count) continue;
        for (int j = 0; j < clauses[k].hint_count; j++) printf("%d ", clauses[k].hints[j] + 1);
        printf("0\n");
    }
    return 0;
}
