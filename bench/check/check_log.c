/* The peer: a checker of logs in C, with dense tables, stamps in place of clearing, and a signature beside
   each clause of an index. It reads the text of make_log, checks the log so many times, and prints the least
   time in microseconds of the plain check and of the check that each line is fresh.

   check_log FILE TIMES */
#include <stdint.h>
#include <stdio.h>
#include <stdlib.h>
#include <string.h>
#include <time.h>

typedef struct { uint64_t signature; uint32_t clause; } Entry;
typedef struct { uint32_t size, room; Entry *items; } List;

static int vars, formula_count, line_count, count;
static uint32_t *starts, *hint_starts; /* of each clause in lits, of each line in hints */
static uint32_t *lits, *hints;         /* a literal is its place: 2k, or 2k + 1 for the negation */
static uint32_t *stamps, *seen, stamp, seen_stamp;

static void *room_for(size_t size) {
    void *made = calloc(1, size ? size : 1);
    if (!made) { fprintf(stderr, "out of memory\n"); exit(1); }
    return made;
}
static double now(void) {
    struct timespec t;
    clock_gettime(CLOCK_MONOTONIC, &t);
    return t.tv_sec * 1e6 + t.tv_nsec * 1e-3;
}

/* The tests of one line. The units that its hints make true are written to `units`. */
static const char *line_fault(int line, uint32_t *units) {
    uint32_t first = starts[formula_count + line], last = starts[formula_count + line + 1];
    stamp++;
    for (uint32_t k = first; k < last; k++) {
        uint32_t lit = lits[k];
        if (lit < 2 || lit >= 2u * vars + 2) return "literal";
        if (stamps[lit] == stamp) return "repeat";
        stamps[lit] = stamp;
    }
    for (uint32_t k = first; k < last; k++) if (stamps[lits[k] ^ 1] == stamp) return "tautology";
    uint32_t hint = hint_starts[line], end = hint_starts[line + 1];
    if (hint == end) return "no hints";
    for (uint32_t k = hint; k < end; k++) if (hints[k] >= (uint32_t)(formula_count + line)) return "hint";
    for (; hint + 1 < end; hint++) {
        uint32_t found = 0;
        for (uint32_t k = starts[hints[hint]]; k < starts[hints[hint] + 1]; k++) {
            uint32_t lit = lits[k];
            if (stamps[lit] == stamp || lit == found) continue;
            if (found) return "not unit";
            found = lit;
        }
        if (!found) return "not unit";
        stamps[found ^ 1] = stamp;
        *units++ = found;
    }
    for (uint32_t k = starts[hints[hint]]; k < starts[hints[hint] + 1]; k++)
        if (stamps[lits[k]] != stamp) return "not false";
    return NULL;
}
static uint64_t signature_of(uint32_t clause) {
    uint64_t bits = 0;
    for (uint32_t k = starts[clause]; k < starts[clause + 1]; k++) bits |= 1ull << ((lits[k] * 0x9E3779B1u) >> 26);
    return bits;
}
static void add(List *lists, uint32_t clause) {
    List *best = NULL;
    for (uint32_t k = starts[clause]; k < starts[clause + 1]; k++)
        if (!best || lists[lits[k]].size < best->size) best = &lists[lits[k]];
    if (!best) return;
    if (best->size == best->room) {
        best->room = best->room ? 2 * best->room : 8;
        best->items = realloc(best->items, best->room * sizeof(Entry));
        if (!best->items) exit(1);
    }
    best->items[best->size++] = (Entry){signature_of(clause), clause};
}
/* Whether the line contains an earlier clause. */
static int contains(List *lists, uint32_t clause) {
    uint64_t bits = signature_of(clause);
    seen_stamp++;
    for (uint32_t k = starts[clause]; k < starts[clause + 1]; k++) seen[lits[k]] = seen_stamp;
    for (uint32_t k = starts[clause]; k < starts[clause + 1]; k++) {
        List *list = &lists[lits[k]];
        for (uint32_t i = 0; i < list->size; i++) {
            if (list->items[i].signature & ~bits) continue;
            uint32_t other = list->items[i].clause, j = starts[other];
            while (j < starts[other + 1] && seen[lits[j]] == seen_stamp) j++;
            if (j == starts[other + 1]) return 1;
        }
    }
    return 0;
}
static int is_lean(int line, const uint32_t *units) {
    seen_stamp++;
    for (uint32_t h = hint_starts[line + 1]; h-- > hint_starts[line];) {
        if (h + 1 < hint_starts[line + 1] && seen[units[h - hint_starts[line]] ^ 1] != seen_stamp) return 0;
        for (uint32_t k = starts[hints[h]]; k < starts[hints[h] + 1]; k++) seen[lits[k]] = seen_stamp;
    }
    for (uint32_t k = starts[formula_count + line]; k < starts[formula_count + line + 1]; k++)
        if (seen[lits[k]] != seen_stamp) return 0;
    return 1;
}
static const char *check(void) {
    stamps = room_for((2 * vars + 2) * sizeof *stamps);
    uint32_t *units = room_for((2 * vars + 2) * sizeof *units);
    stamp = 0;
    const char *why = NULL;
    for (int line = 0; line < line_count && !why; line++) why = line_fault(line, units);
    free(stamps);
    free(units);
    return why;
}
static const char *check_fresh(void) {
    stamps = room_for((2 * vars + 2) * sizeof *stamps);
    seen = room_for((2 * vars + 2) * sizeof *seen);
    uint32_t *units = room_for((2 * vars + 2) * sizeof *units);
    List *lists = room_for((2 * vars + 2) * sizeof *lists);
    char *occurs = room_for(2 * vars + 2);
    for (uint32_t k = starts[formula_count]; k < starts[count]; k++) occurs[lits[k]] = 1;
    for (int clause = 0; clause < formula_count; clause++) {
        uint32_t k = starts[clause];
        while (k < starts[clause + 1] && occurs[lits[k]]) k++;
        if (k == starts[clause + 1]) add(lists, clause);
    }
    stamp = seen_stamp = 0;
    const char *why = NULL;
    for (int line = 0; line < line_count && !why; line++) {
        why = line_fault(line, units);
        if (!why && starts[formula_count + line] == starts[formula_count + line + 1]) why = "empty";
        if (!why && contains(lists, formula_count + line)) why = "contains";
        if (!why && !is_lean(line, units)) why = "loose";
        add(lists, formula_count + line);
    }
    for (int k = 0; k < 2 * vars + 2; k++) free(lists[k].items);
    free(stamps); free(seen); free(units); free(lists); free(occurs);
    return why;
}
static long number(FILE *file) {
    long n;
    if (fscanf(file, "%ld", &n) != 1) { fprintf(stderr, "bad file\n"); exit(1); }
    return n;
}
int main(int argc, char **argv) {
    if (argc != 4) return 2;
    FILE *file = fopen(argv[1], "r");
    if (!file) return 2;
    vars = number(file); formula_count = number(file); line_count = number(file);
    count = formula_count + line_count;
    size_t room = 1 << 20, hint_room = 1 << 20, size = 0, hint_size = 0;
    lits = room_for(room * sizeof *lits);
    hints = room_for(hint_room * sizeof *hints);
    starts = room_for((count + 1) * sizeof *starts);
    hint_starts = room_for((line_count + 1) * sizeof *hint_starts);
    for (int k = 0; k < count; k++) {
        long n;
        while ((n = number(file))) {
            if (size == room) lits = realloc(lits, (room *= 2) * sizeof *lits);
            lits[size++] = n < 0 ? -2 * n + 1 : 2 * n;
        }
        starts[k + 1] = size;
        if (k < formula_count) continue;
        while ((n = number(file))) {
            if (hint_size == hint_room) hints = realloc(hints, (hint_room *= 2) * sizeof *hints);
            hints[hint_size++] = n - 1;
        }
        hint_starts[k - formula_count + 1] = hint_size;
    }
    double least = 1e18, least_fresh = 1e18;
    const char *why = NULL, *why_fresh = NULL;
    for (int time = 0; time < atoi(argv[2]); time++) {
        double begin = now();
        why = check();
        double took = now() - begin;
        if (took < least) least = took;
    }
    for (int time = 0; time < atoi(argv[3]); time++) {
        double begin = now();
        why_fresh = check_fresh();
        double took = now() - begin;
        if (took < least_fresh) least_fresh = took;
    }
    printf("%.0f %.0f %s %s\n", least, least_fresh, why ? why : "ok", why_fresh ? why_fresh : "ok");
    return 0;
}
