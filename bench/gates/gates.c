/* The same graph and the same loop as src/main.rt, in C. */
#include <stdbool.h>
#include <stdint.h>
#include <stdio.h>
#include <stdlib.h>

#define NODES 100000u
#define ROUNDS 4000u

enum tag { ZERO, LATCH, INPUT, AND };
struct node { enum tag tag; uint32_t a, b; };

static struct node nodes[NODES];
static uint32_t size;
static bool table[NODES];

static uint32_t next(uint32_t number) { return number * 1664525u + 1013904223u; }

static void and_gate(uint32_t a, uint32_t b)
{
    if (a < 2 || b < 2 || a / 2 == b / 2)
        return;
    nodes[size++] = (struct node){ AND, a, b };
}

static bool value_at(uint32_t wire) { return table[wire / 2] != (wire % 2 == 1); }

static void eval(const bool *latches, const bool *inputs)
{
    for (uint32_t i = 0; i < size; i++) {
        struct node n = nodes[i];
        bool value = false;
        switch (n.tag) {
        case ZERO: value = false; break;
        case LATCH: value = latches[n.a]; break;
        case INPUT: value = inputs[n.a]; break;
        case AND: value = value_at(n.a) && value_at(n.b); break;
        }
        table[i] = value;
    }
}

int main(void)
{
    nodes[size++] = (struct node){ ZERO, 0, 0 };
    for (uint32_t i = 0; i < 4; i++)
        nodes[size++] = (struct node){ INPUT, i, 0 };
    uint32_t number = 1;
    for (uint32_t i = 0; i < 2 * NODES; i++)
        if (size < NODES) {
            number = next(number);
            uint32_t a = (number >> 8) % (2 * size);
            number = next(number);
            uint32_t b = (number >> 8) % (2 * size);
            and_gate(a, b);
        }
    uint32_t count = 0;
    for (uint32_t round = 0; round < ROUNDS; round++) {
        bool inputs[4] = { round % 2 == 1, round / 2 % 2 == 1, round / 4 % 2 == 1, round / 8 % 2 == 1 };
        eval(NULL, inputs);
        if (table[size - 1])
            count++;
    }
    printf("%u nodes, %u rounds, %u\n", size, ROUNDS, count);
    return 0;
}
