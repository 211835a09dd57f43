/* The lockstep machine over the working buffers (docs/PANEL.md), and a network evaluated without them, in C (machine.c). Rattle's
 * machine is cavundir_run of the panel's archive. */
#ifndef MACHINE_H
#define MACHINE_H

#include <stddef.h>
#include <stdint.h>

enum { PROCESSORS = 16, SLOTS = 256, SIGNALS = PROCESSORS * SLOTS };

/* The panel: ten bytes for the session, then ten for each signal s at 10 * s. */
enum { SIGNAL = 10, PANEL = SIGNAL * (SIGNALS + 1) };
enum { N_AT = 0, P_AT = 2, C_AT = 3, FINISHED = 5, WATCHED = 7, MASK = 9 };
enum { KIND = 0, CODES = 1, HAND = 7, PLACE = 8 };
enum { INPUT = 1, UNIT_DELAY = 2, RANK_ORDER = 3 };

/* The program: 13 bytes for each slot and processor; the lines of a slot stand together. */
enum { LINE = 13, PROGRAM = LINE * PROCESSORS * SLOTS };
enum { OPERANDS = 2, SEND = 10, SENDER = 12 };
enum { NO_PART = 9, NO_SENDER = 99 };

/* The memory: for each processor four parts of 256 locations, and 256 zeros. */
enum { PARTS = 4, PART = 256, OWN = PART * (PARTS + 1), MEMORY = OWN * PROCESSORS };

/* Runs the given number of cycles, or up to the first that shows a watched value; answers the cycles done. It takes the tables on
 * trust: a gate has no guards, so codes must be legal and values 0 to 3. */
uint64_t c_run(const uint8_t *panel, const uint8_t *program, uint8_t *memory, uint16_t cycles);

/* A network as a simulator on one processor keeps it. `order` has the inputs, then the unit-delay gates, then the rank-order
 * gates, each after its sources. Source 0 is none. */
struct network {
    size_t inputs, unit_delays, signals;
    uint16_t order[SIGNALS];
    uint8_t hand[SIGNALS + 1];
    uint8_t codes[SIGNALS + 1][6];
    uint16_t sources[SIGNALS + 1][4];
};

/* Evaluates the network for the given number of cycles, on the same trust. values[s] is that of signal s, and values[0] is 0. */
void c_rank_order(const struct network *network, uint8_t values[SIGNALS + 1], uint16_t cycles);

#endif
