/* machine_main [WAY]: times the lockstep machine, Rattle's and C's in turn, on tables from a fixed seed, and Rattle's against C
 * that evaluates a network of the same size in rank order. Prints ns a processor and slot, and the ratio. WAY names the gates of
 * a machine.c that is built with others: it prints the two rows of the machine alone, by that name, to stand below the others.
 * Exits 1 where a byte differs. */
#include <stdio.h>
#include <stdlib.h>
#include <string.h>

#include "cavundir.h"
#include "clock.h"
#include "machine.h"
#include "random.h"

static const double SECONDS_A_PAIR = 1.2;

struct board {
    unsigned processors, slots;
    uint16_t cycles; /* of a pass */
    uint8_t panel[PANEL], program[PROGRAM], start[MEMORY];
    struct network network;
};

static struct board full = {.processors = PROCESSORS, .slots = SLOTS, .cycles = 64};
static struct board small = {.processors = 2, .slots = 12, .cycles = 10000};

static uint8_t by_rattle[MEMORY], by_c[MEMORY], values[SIGNALS + 1];

static void put_word(uint8_t *at, unsigned n)
{
    at[0] = n % 256;
    at[1] = n / 256;
}

/* A location of one of the first parts, or none, each as often as another. */
static void put_pair(uint8_t *pair, unsigned parts, unsigned slots)
{
    unsigned part = random_below(parts + 1);

    pair[0] = part < parts ? part : NO_PART;
    pair[1] = part < parts ? random_below(slots) : 0;
}

/* One signal of 16 is an input; the gates' codes are legal, and random. The mask is 0, so that no run stops early. */
static void make_panel(struct board *b, unsigned signals)
{
    put_word(b->panel + N_AT, signals);
    b->panel[P_AT] = b->processors;
    put_word(b->panel + C_AT, b->slots);
    put_word(b->panel + WATCHED, 1);
    for (unsigned s = 1; s <= signals; s++) {
        uint8_t *entry = b->panel + SIGNAL * s;
        entry[KIND] = random_below(16) == 0 ? INPUT : UNIT_DELAY + random_below(2);
        entry[HAND] = random_below(4);
        if (entry[KIND] == INPUT)
            continue;
        entry[CODES] = random_below(5);
        for (int g = 1; g <= 5; g++)
            entry[CODES + g] = random_below(7);
    }
}

/* The numbers 1 to `signals` in random order. */
static void shuffle(uint16_t *numbers, unsigned signals)
{
    for (unsigned k = 0; k < signals; k++) {
        unsigned other = random_below(k + 1);
        numbers[k] = numbers[other];
        numbers[other] = k + 1;
    }
}

/* Each signal stands in one slot, and no slot is empty. A quarter of the slots receive nothing. */
static void make_program(struct board *b, unsigned signals)
{
    uint16_t placed[SIGNALS];

    shuffle(placed, signals);
    for (unsigned i = 0; i < b->slots; i++) {
        for (unsigned p = 0; p < b->processors; p++) {
            uint8_t *line = b->program + LINE * (PROCESSORS * i + p);
            unsigned signal = placed[b->processors * i + p];
            uint8_t *entry = b->panel + SIGNAL * signal;
            put_word(line, signal);
            entry[PLACE] = p;
            entry[PLACE + 1] = i;
            for (int j = 0; j < 4; j++) {
                if (entry[KIND] == INPUT)
                    line[OPERANDS + 2 * j] = NO_PART;
                else
                    put_pair(line + OPERANDS + 2 * j, PARTS, b->slots);
            }
            put_pair(line + SEND, 2, b->slots);
            line[SENDER] = random_below(4) == 0 ? NO_SENDER : random_below(b->processors);
        }
    }
}

static void make_memory(struct board *b)
{
    for (unsigned p = 0; p < b->processors; p++)
        for (unsigned part = 0; part < PARTS; part++)
            for (unsigned k = 0; k < b->slots; k++)
                b->start[OWN * p + PART * part + k] = random_below(4);
}

/* A network with the panel's kinds and codes. A source is none as often as an operand is, else any signal that does not close a
 * chain: ranked[s] tells where a rank-order gate stands in the order. */
static void make_network(struct board *b, unsigned signals)
{
    struct network *n = &b->network;
    uint16_t drawn[SIGNALS];
    static unsigned ranked[SIGNALS + 1];

    shuffle(drawn, signals);
    for (unsigned kind = INPUT; kind <= RANK_ORDER; kind++) {
        for (unsigned k = 0; k < signals; k++) {
            unsigned s = drawn[k];
            if (b->panel[SIGNAL * s + KIND] != kind)
                continue;
            ranked[s] = kind == RANK_ORDER ? n->signals : 0;
            n->inputs += kind == INPUT;
            n->unit_delays += kind == UNIT_DELAY;
            n->order[n->signals++] = s;
        }
    }
    for (unsigned s = 1; s <= signals; s++) {
        const uint8_t *entry = b->panel + SIGNAL * s;
        n->hand[s] = entry[HAND];
        memcpy(n->codes[s], entry + CODES, sizeof n->codes[s]);
        for (int j = 0; j < 4; j++) {
            unsigned source = random_below(PARTS + 1) == PARTS ? 0 : 1 + random_below(signals);
            while (entry[KIND] == RANK_ORDER && source != 0 && ranked[source] >= ranked[s])
                source = 1 + random_below(signals);
            n->sources[s][j] = source;
        }
    }
}

static void make_board(struct board *b)
{
    unsigned signals = b->processors * b->slots;

    make_panel(b, signals);
    make_program(b, signals);
    make_memory(b);
    make_network(b, signals);
}

/* The cycles done, and 65536, which no run does, where the call is refused. */
static uint64_t run_in_rattle(struct board *b, uint16_t cycles)
{
    uint64_t answer = cavundir_run(b->panel, PANEL, b->program, PROGRAM, by_rattle, MEMORY, cycles);

    return cavundir_refusal(answer) == CAVUNDIR_NOT_REFUSED ? cavundir_cycles(answer) : 65536;
}

static uint64_t run_in_c(struct board *b, uint16_t cycles)
{
    return c_run(b->panel, b->program, by_c, cycles);
}

static uint64_t run_in_rank_order(struct board *b, uint16_t cycles)
{
    c_rank_order(&b->network, values, cycles);
    return cycles;
}

static void fail(const char *what)
{
    fprintf(stderr, "bench: FAILED: %s\n", what);
    exit(1);
}

/* The session counts the cycles finished, and refuses a run beyond 65535 of them. */
static void set_back(struct board *b)
{
    put_word(b->panel + FINISHED, 0);
    memcpy(by_rattle, b->start, MEMORY);
    memcpy(by_c, b->start, MEMORY);
    memset(values, 0, sizeof values);
}

/* Both leave the same memory, byte by byte, after the cycles wanted. */
static void same_run(struct board *b, uint16_t cycles, uint64_t done)
{
    set_back(b);
    if (run_in_rattle(b, cycles) != done || run_in_c(b, cycles) != done)
        fail("machine: the cycles done are wrong");
    if (memcmp(by_rattle, by_c, MEMORY) != 0)
        fail("machine: Rattle and C leave different memories");
    if (memcmp(by_rattle, b->start, MEMORY) == 0)
        fail("machine: the memory was not changed");
}

/* Before anything is timed: short runs, a pass, a run that the watch ends, and tables that are out of range. */
static void check(struct board *b)
{
    for (uint16_t cycles = 1; cycles <= 8; cycles++)
        same_run(b, cycles, cycles);
    same_run(b, b->cycles, b->cycles);

    b->panel[MASK] = 15;
    same_run(b, b->cycles, 1);
    b->panel[MASK] = 16;
    set_back(b);
    if (run_in_rattle(b, 1) != 65536 || memcmp(by_rattle, b->start, MEMORY) != 0)
        fail("machine: tables out of range were run");
    b->panel[MASK] = 0;
}

typedef uint64_t run(struct board *b, uint16_t cycles);

/* Rattle's run and the other in turn until the time is used up, each pass from the same memory; the fastest of each counts. */
static void compare(const char *what, struct board *b, run *in_c)
{
    double rattle = 1e9, c = 1e9;
    double operations = (double)b->cycles * b->processors * b->slots;

    for (double end = now() + SECONDS_A_PAIR; now() < end;) {
        set_back(b);
        double start = now();
        uint64_t x = run_in_rattle(b, b->cycles);
        double middle = now();
        uint64_t y = in_c(b, b->cycles);
        double stop = now();
        if (x != y || (in_c == run_in_c && memcmp(by_rattle, by_c, MEMORY) != 0))
            fail("machine: Rattle and C differ");
        if (middle - start < rattle)
            rattle = middle - start;
        if (stop - middle < c)
            c = stop - middle;
    }
    printf("%-22s %8.2f %8.2f %8.2f\n", what, 1e9 * rattle / operations, 1e9 * c / operations, rattle / c);
}

static void compare_all(void)
{
    printf("%-22s %8s %8s %8s\n", "ns a processor's slot", "Rattle", "C", "ratio");
    compare("machine, full table", &full, run_in_c);
    compare("machine, small table", &small, run_in_c);
    compare("full, C in rank order", &full, run_in_rank_order);
    compare("small, C in rank order", &small, run_in_rank_order);
}

static void compare_way(const char *way)
{
    char what[64];

    snprintf(what, sizeof what, "full, %s", way);
    compare(what, &full, run_in_c);
    snprintf(what, sizeof what, "small, %s", way);
    compare(what, &small, run_in_c);
}

int main(int count, char **words)
{
    make_board(&full);
    make_board(&small);
    check(&full);
    check(&small);
    if (count > 1)
        compare_way(words[1]);
    else
        compare_all();
    return 0;
}
