/* Times the check of the three files, Rattle's and C's in turn, on the largest legal files, and prints ms and the ratio.
 * Exits 1 where an answer is wrong. */
#include <stdio.h>
#include <stdlib.h>
#include <string.h>

#include "cavundir.h"
#include "checks.h"
#include "clock.h"

enum { PROCESSORS = 16, SLOTS = 256, SIGNALS = PROCESSORS * SLOTS, STIM_LINES = 65534 };
enum { NET_LENGTH = 73 * (SIGNALS + 1), MOD_LENGTH = 85 * (SIGNALS + 1), STIM_LENGTH = 19 * STIM_LINES };
static const double SECONDS = 1.5;

/* room for a byte more, which snprintf ends with */
static uint8_t net[NET_LENGTH + 1], mod[MOD_LENGTH + 1], stim[STIM_LENGTH + 1];

static uint8_t *put(uint8_t *place, const unsigned *numbers, int count)
{
    for (int j = 0; j < count; j++, place += 6)
        snprintf((char *)place, 7, "%6u", numbers[j]);
    *place = '\n';
    return place + 1;
}

static unsigned placed_at(unsigned processor, unsigned slot)
{
    return SLOTS * processor + slot + 1;
}

/* Slot 0 of each processor has an input; then unit-delay and rank-order gates by turns. Operands: local, then from the next
 * processor, which sends its slot before (part 1); so every part but 3 after a send of part 0 is read. */
static void make_files(void)
{
    uint8_t *n = put(net, (unsigned[12]){0, SIGNALS}, 12);
    uint8_t *m = put(mod, (unsigned[14]){PROCESSORS, SLOTS}, 14);

    for (unsigned q = 0; q < PROCESSORS; q++) {
        unsigned from = (q + 1) % PROCESSORS;
        for (unsigned i = 0; i < SLOTS; i++) {
            unsigned signal = placed_at(q, i);
            unsigned kind = i == 0 ? 1 : 2 + i % 2;
            /* the second operand's location: its send is that of slot k, location k - 1 */
            unsigned k = i > 1 ? i - 1 : 0;
            unsigned line[14] = {q, i, signal, 9, 0, 9, 0, 9, 0, 9, 0, i > 0, i > 0 ? i - 1 : 0, from};
            unsigned gate[12] = {kind, signal};
            if (kind != 1) {
                gate[3] = gate[4] = 4;
                gate[8] = placed_at(q, i - 1);
                gate[9] = k > 0 ? placed_at(from, k - 1) : 0;
                gate[4] = k > 0 ? 4 : 0;
                line[3] = kind == 3;
                line[4] = i - 1;
                line[5] = k == 0 ? 9 : kind;
                line[6] = k;
            }
            n = put(n, gate, 12);
            m = put(m, line, 14);
        }
    }

    uint8_t *s = stim;
    for (unsigned signal = 1; signal <= SIGNALS; signal++)
        s = put(s, (unsigned[3]){0, signal, signal % 4}, 3);
    unsigned rest = STIM_LINES - 1 - SIGNALS;
    for (unsigned k = 0; k < rest; k++)
        s = put(s, (unsigned[3]){1 + k / PROCESSORS, placed_at(k % PROCESSORS, 0), k % 4}, 3);
    put(s, (unsigned[3]){65535}, 3);
}

/* The largest files are accepted; with a byte more at the end of STIM, refused there. */
static void check(void)
{
    stim[STIM_LENGTH] = '\n';
    for (size_t more = 0; more < 2; more++) {
        uint64_t wanted = more ? (uint64_t)CAVUNDIR_STIM_MISFORMED << 56 | (STIM_LINES + 1) : 0;
        uint64_t x = cavundir_check_files(net, NET_LENGTH, mod, MOD_LENGTH, stim, STIM_LENGTH + more);
        uint64_t y = c_check_files(net, NET_LENGTH, mod, MOD_LENGTH, stim, STIM_LENGTH + more);
        if (x != wanted || y != wanted) {
            fprintf(stderr, "bench: FAILED: the check answers %llu in Rattle and %llu in C\n", (unsigned long long)x,
                    (unsigned long long)y);
            exit(1);
        }
    }
}

int main(void)
{
    double rattle = 1e9, c = 1e9;

    make_files();
    check();
    double end = now() + SECONDS;
    for (double start = now(); start < end;) {
        cavundir_check_files(net, NET_LENGTH, mod, MOD_LENGTH, stim, STIM_LENGTH);
        double middle = now();
        c_check_files(net, NET_LENGTH, mod, MOD_LENGTH, stim, STIM_LENGTH);
        double stop = now();
        if (middle - start < rattle)
            rattle = middle - start;
        if (stop - middle < c)
            c = stop - middle;
        start = stop;
    }
    printf("%-22s %8.2f %8.2f %8.2f\n", "largest files, ms", 1e3 * rattle, 1e3 * c, rattle / c);
    return 0;
}
