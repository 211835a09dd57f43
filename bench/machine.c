/* The lockstep machine, and the evaluation of a network in rank order, as a C programmer writes them. A gate is evaluated as in
 * Rattle, so that the two machines are compared, and not two ways to evaluate a gate. */
#include <string.h>

#include "machine.h"

/* `translate` and `apply` stand in a file of their own: -DGATES='"FILE"' builds the same machine with others. */
#ifndef GATES
#define GATES "gates_table.h"
#endif
#include GATES

/* The codes are f and g1 to g5. */
static uint8_t gate(const uint8_t codes[6], uint8_t a1, uint8_t a2, uint8_t a3, uint8_t a4)
{
    const uint8_t *g = codes + 1;

    return translate(g[4], apply(codes[0], translate(g[0], a1), translate(g[1], a2), translate(g[2], a3), translate(g[3], a4)));
}

/* What a pair names in a processor's own memory; none reads the zeros behind the four parts. */
static uint8_t fetch(const uint8_t *own, const uint8_t *pair)
{
    unsigned part = pair[0] < PARTS ? pair[0] : PARTS;

    return own[PART * part + pair[1]];
}

static unsigned word(const uint8_t *at)
{
    return at[0] + 256u * at[1];
}

static uint8_t result(const uint8_t *panel, const uint8_t *line, const uint8_t *own)
{
    unsigned signal = word(line);
    const uint8_t *entry = panel + SIGNAL * signal, *pair = line + OPERANDS;

    if (signal == 0)
        return 0;
    if (entry[KIND] == INPUT)
        return entry[HAND];
    return gate(entry + CODES, fetch(own, pair), fetch(own, pair + 2), fetch(own, pair + 4), fetch(own, pair + 6));
}

/* "In slot i every processor fetches first, then stores": the lines are those of the slot. */
static void run_slot(const uint8_t *panel, const uint8_t *lines, unsigned processors, unsigned slot, uint8_t *memory)
{
    uint8_t results[PROCESSORS], sent[PROCESSORS];

    for (unsigned p = 0; p < processors; p++) {
        const uint8_t *line = lines + LINE * p, *own = memory + OWN * p;
        results[p] = result(panel, line, own);
        sent[p] = fetch(own, line + SEND);
    }
    for (unsigned p = 0; p < processors; p++) {
        const uint8_t *line = lines + LINE * p;
        uint8_t *own = memory + OWN * p;
        if (word(line) != 0)
            own[PART + slot] = results[p];
        if (line[SENDER] != NO_SENDER)
            own[3 * PART + slot] = sent[line[SENDER]];
    }
}

static void exchange(uint8_t *a, uint8_t *b, unsigned count)
{
    uint8_t kept[SLOTS];

    memcpy(kept, a, count);
    memcpy(a, b, count);
    memcpy(b, kept, count);
}

static void run_cycle(const uint8_t *panel, const uint8_t *program, unsigned processors, unsigned slots, uint8_t *memory)
{
    for (unsigned i = 0; i < slots; i++)
        run_slot(panel, program + LINE * PROCESSORS * i, processors, i, memory);
    for (unsigned p = 0; p < processors; p++) {
        uint8_t *own = memory + OWN * p;
        exchange(own, own + PART, slots);
        exchange(own + 2 * PART, own + 3 * PART, slots);
    }
}

uint64_t c_run(const uint8_t *panel, const uint8_t *program, uint8_t *memory, uint16_t cycles)
{
    unsigned processors = panel[P_AT], slots = word(panel + C_AT), mask = panel[MASK];
    const uint8_t *place = panel + SIGNAL * word(panel + WATCHED) + PLACE;

    for (unsigned done = 1; done <= cycles; done++) {
        run_cycle(panel, program, processors, slots, memory);
        if (mask >> memory[OWN * place[0] + place[1]] & 1)
            return done;
    }
    return cycles;
}

static uint8_t value(const struct network *network, unsigned signal, const uint8_t *values)
{
    const uint16_t *source = network->sources[signal];

    return gate(network->codes[signal], values[source[0]], values[source[1]], values[source[2]], values[source[3]]);
}

void c_rank_order(const struct network *network, uint8_t values[SIGNALS + 1], uint16_t cycles)
{
    uint8_t old[SIGNALS + 1];

    for (unsigned t = 0; t < cycles; t++) {
        const uint16_t *next = network->order, *gates = next + network->inputs, *ranks = gates + network->unit_delays;
        memcpy(old, values, network->signals + 1);
        for (; next < gates; next++)
            values[*next] = network->hand[*next];
        for (; next < ranks; next++)
            values[*next] = value(network, *next, old);
        for (; next < network->order + network->signals; next++)
            values[*next] = value(network, *next, values);
    }
}
