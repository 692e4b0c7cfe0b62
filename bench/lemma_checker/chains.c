/* The same formula and chains, checked with all clauses in one array and a table of marks. */
#include <stdint.h>
#include <stdio.h>
#include <stdlib.h>
#include <string.h>

enum { CLAUSES = 1000000, CHAINS = 200000, STEPS = 8 };

static uint32_t *arena;
static uint64_t *ends;
static uint32_t clause_count;
static uint8_t *marks;

typedef struct {
    const uint32_t *literals;
    uint32_t count;
} Clause;

static Clause clause_at(uint32_t i) {
    uint64_t start = i ? ends[i - 1] : 0;
    Clause clause = {arena + start, (uint32_t)(ends[i] - start)};
    return clause;
}

static int add_clause(const uint32_t *literals, uint32_t count) {
    uint64_t start = clause_count ? ends[clause_count - 1] : 0;
    memcpy(arena + start, literals, count * sizeof(uint32_t));
    ends[clause_count++] = start + count;
    return 1;
}

static uint32_t touched[4 * STEPS];
static uint32_t touched_count;

static void mark(uint32_t literal) {
    if (!marks[literal]) {
        marks[literal] = 1;
        touched[touched_count++] = literal;
    }
}

static int has(Clause clause, uint32_t literal) {
    for (uint32_t i = 0; i < clause.count; i++)
        if (clause.literals[i] == literal) return 1;
    return 0;
}

static int step(uint32_t pivot, Clause clause) {
    int plain = marks[2 * pivot], negated = marks[2 * pivot + 1];
    int other_plain = has(clause, 2 * pivot), other_negated = has(clause, 2 * pivot + 1);
    if (!((plain && !negated && other_negated && !other_plain) || (negated && !plain && other_plain && !other_negated)))
        return 0;
    for (uint32_t i = 0; i < clause.count; i++) mark(clause.literals[i]);
    marks[2 * pivot] = 0;
    marks[2 * pivot + 1] = 0;
    return 1;
}

static int try_chain(const uint32_t *ids, const uint32_t *pivots, uint32_t count) {
    touched_count = 0;
    Clause first = clause_at(ids[0] - 1);
    for (uint32_t i = 0; i < first.count; i++) mark(first.literals[i]);
    int resolves = 1;
    for (uint32_t i = 1; i < count && resolves; i++) {
        if (ids[i] == 0 || ids[i] > clause_count) resolves = 0;
        else resolves = step(pivots[i - 1], clause_at(ids[i] - 1));
    }
    uint32_t result[4 * STEPS], length = 0;
    for (uint32_t i = 0; i < touched_count; i++) {
        if (marks[touched[i]]) result[length++] = touched[i];
        marks[touched[i]] = 0;
    }
    return resolves && add_clause(result, length);
}

int main(void) {
    arena = malloc((2ull * CLAUSES + 4ull * STEPS * CHAINS) * sizeof(uint32_t));
    ends = malloc((CLAUSES + CHAINS) * sizeof(uint64_t));
    marks = calloc(2 * (CLAUSES + 2), 1);
    if (!arena || !ends || !marks) return 1;
    for (uint32_t i = 1; i <= CLAUSES; i++) {
        uint32_t literals[2] = {2 * i + 1, 2 * i + 2};
        if (!add_clause(literals, 2)) return 1;
    }
    uint32_t count = 0;
    for (uint32_t i = 0; i < CHAINS; i++) {
        uint32_t first = i * 5 % (CLAUSES - STEPS) + 1, ids[STEPS], pivots[STEPS];
        ids[0] = first;
        for (uint32_t s = 1; s < STEPS; s++) {
            ids[s] = first + s;
            pivots[s - 1] = first + s;
        }
        count += try_chain(ids, pivots, STEPS);
    }
    printf("%u chains resolve over %llu literals\n", count, (unsigned long long)count * 2 * STEPS);
    free(arena);
    free(ends);
    free(marks);
    return 0;
}
