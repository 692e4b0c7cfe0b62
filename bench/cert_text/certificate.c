/* The same certificate, read line by line and checked with all clauses of a query in one array and a
   table of marks. The clauses of the circuit's three queries stand here. */
#include <stdint.h>
#include <stdio.h>
#include <stdlib.h>
#include <string.h>

static const char HEAD[] = "cert 1\nk 1\nkeep 1\nc -2\nq keep\n";
static const char CHAIN[] = "r 5 3 2 4 5 / 4 2 3 4\n";
static const char TAIL[] = "q base 1\nr 4 2 / 3\nq step\nr 9 5 8 / 6 3\nend\n";

typedef struct {
    uint32_t vars, clauses;
    const uint32_t *literals, *ends;
} Query;

static const uint32_t keep_literals[] = {3, 5, 7, 9, 4, 9, 6, 8}, keep_ends[] = {1, 3, 5, 7, 8};
static const uint32_t base_literals[] = {5, 7, 3, 6}, base_ends[] = {1, 2, 3, 4};
static const uint32_t step_literals[] = {5, 7, 3, 11, 4, 10, 5, 13, 6, 12, 7, 9, 7, 12};
static const uint32_t step_ends[] = {2, 3, 5, 7, 9, 11, 12, 13, 14};
static const Query queries[] = {
    {4, 5, keep_literals, keep_ends}, {3, 4, base_literals, base_ends}, {6, 9, step_literals, step_ends}};

static const char *at, *end;

/* the clauses of a query, one behind the other */
static uint32_t *arena;
static uint64_t arena_room;
static uint64_t *ends;
static uint64_t ends_room;
static uint32_t clause_count, empty_count;
static uint8_t marks[64];

static void add_clause(const uint32_t *literals, uint32_t count) {
    uint64_t start = clause_count ? ends[clause_count - 1] : 0;
    if (start + count > arena_room) arena = realloc(arena, (arena_room = 2 * (start + count)) * sizeof *arena);
    if (clause_count == ends_room) ends = realloc(ends, (ends_room = 2 * ends_room + 16) * sizeof *ends);
    if (!arena || !ends) exit(1);
    memcpy(arena + start, literals, count * sizeof *literals);
    ends[clause_count++] = start + count;
    if (count == 0) empty_count++;
}

static int line_is(const char *text) {
    size_t length = strlen(text);
    if ((size_t)(end - at) < length || memcmp(at, text, length)) return 0;
    at += length;
    return 1;
}

/* a plain decimal number; at a number too large UINT32_MAX */
static int number(uint32_t *value) {
    const char *first = at;
    uint64_t sum = 0;
    while (at < end && *at >= '0' && *at <= '9') {
        sum = 10 * sum + (uint64_t)(*at++ - '0');
        if (sum > UINT32_MAX) sum = UINT32_MAX;
    }
    *value = (uint32_t)sum;
    return at > first && (at == first + 1 || *first != '0');
}

/* numbers, each behind a space, onto a list that grows */
typedef struct {
    uint32_t *items;
    size_t count, room;
} Numbers;

static int numbers(Numbers *list) {
    list->count = 0;
    while (at + 1 < end && at[0] == ' ' && at[1] != '/') {
        at++;
        if (list->count == list->room) list->items = realloc(list->items, (list->room = 2 * list->room + 8) * sizeof *list->items);
        if (!list->items || !number(&list->items[list->count++])) return 0;
    }
    return 1;
}

static int step(uint32_t vars, uint32_t pivot, uint32_t id, uint32_t *touched, uint32_t *count) {
    if (id == 0 || id > clause_count || pivot == 0 || pivot > vars) return 0;
    uint64_t start = id > 1 ? ends[id - 2] : 0, stop = ends[id - 1];
    int plain = marks[2 * pivot], negated = marks[2 * pivot + 1], other_plain = 0, other_negated = 0;
    for (uint64_t i = start; i < stop; i++) {
        other_plain |= arena[i] == 2 * pivot;
        other_negated |= arena[i] == 2 * pivot + 1;
    }
    if (!((plain && !negated && other_negated && !other_plain) || (negated && !plain && other_plain && !other_negated))) return 0;
    for (uint64_t i = start; i < stop; i++)
        if (!marks[arena[i]]) marks[touched[(*count)++] = arena[i]] = 1;
    marks[2 * pivot] = marks[2 * pivot + 1] = 0;
    return 1;
}

static int chain(uint32_t vars) {
    static Numbers ids, pivots;
    static uint32_t touched[4096], result[4096];
    uint32_t count = 0, length = 0;
    if (!numbers(&ids) || !line_is(" /") || !numbers(&pivots) || !line_is("\n")) return 0;
    if (ids.count == 0 || pivots.count + 1 != ids.count) return 0;
    if (ids.items[0] == 0 || ids.items[0] > clause_count) return 0;
    uint64_t start = ids.items[0] > 1 ? ends[ids.items[0] - 2] : 0, stop = ends[ids.items[0] - 1];
    for (uint64_t i = start; i < stop; i++)
        if (!marks[arena[i]]) marks[touched[count++] = arena[i]] = 1;
    for (size_t i = 1; i < ids.count; i++)
        if (!step(vars, pivots.items[i - 1], ids.items[i], touched, &count)) return 0;
    for (uint32_t i = 0; i < count; i++) {
        if (marks[touched[i]]) result[length++] = touched[i];
        marks[touched[i]] = 0;
    }
    add_clause(result, length);
    return 1;
}

/* the chains of a query, kept as numbers */
static int query(const Query *of, const char *due, uint32_t *chains) {
    clause_count = empty_count = 0;
    for (uint32_t i = 0; i < of->clauses; i++) {
        uint32_t start = i ? of->ends[i - 1] : 0;
        add_clause(of->literals + start, of->ends[i] - start);
    }
    for (*chains = 0; line_is("r"); ++*chains)
        if (!chain(of->vars)) return 0;
    return empty_count && line_is(due);
}

int main(int argc, char **argv) {
    size_t chains = argc > 1 ? strtoul(argv[1], 0, 10) : 1, length = strlen(HEAD) + chains * strlen(CHAIN) + strlen(TAIL);
    char *text = malloc(length + 1), *p = text;
    if (!text) return 1;
    p = stpcpy(p, HEAD);
    for (size_t i = 0; i < chains; i++) p = stpcpy(p, CHAIN);
    stpcpy(p, TAIL);
    at = text;
    end = text + length;
    uint32_t kept, base, last;
    if (!line_is(HEAD) || !query(&queries[0], "q base 1\n", &kept) || !query(&queries[1], "q step\n", &base) ||
        !query(&queries[2], "end\n", &last) || at != end)
        return 1;
    printf("k=1 and %u chains for the set\n", kept);
    free(text);
    return 0;
}
