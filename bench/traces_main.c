/* Times turning and turning back, Rattle's and C's in turn, on the values of 4,096 signals from a fixed seed, and prints ns a
 * call and the ratio. Exits 1 where an answer or a byte differs. */
#include <stdio.h>
#include <stdlib.h>
#include <string.h>

#include "cavundir.h"
#include "clock.h"
#include "random.h"
#include "traces.h"

enum { SIGNALS = 4096, VALUES = CAVUNDIR_TRACE_VALUES_BYTES, BLOCK = CAVUNDIR_TRACE_BLOCK_BYTES, FILLED = 0xA5 };
static const double SECONDS_A_PAIR = 0.5;

typedef uint64_t turning(const uint8_t *from, size_t from_bytes, uint8_t *to, size_t to_bytes, uint32_t count);

static uint8_t values[SIGNALS * VALUES], blocks[SIGNALS * BLOCK];
/* what each side writes; a signal has as many bytes as it has values, or fewer */
static uint8_t by_rattle[SIGNALS * VALUES], by_c[SIGNALS * VALUES];

static void fail(const char *what)
{
    fprintf(stderr, "bench: FAILED: traces: %s\n", what);
    exit(1);
}

/* Turns every signal; answers all refusals, joined. */
static uint64_t turn_all(turning *turn, const uint8_t *from, size_t from_bytes, uint8_t *to, size_t to_bytes, uint32_t count)
{
    uint64_t refused = 0;

    for (size_t s = 0; s < SIGNALS; s++)
        refused |= turn(from + from_bytes * s, from_bytes, to + to_bytes * s, to_bytes, count);
    return refused;
}

static void compare(const char *what, turning *rattle, turning *c, const uint8_t *from, size_t from_bytes, size_t to_bytes,
                    uint32_t count)
{
    double least_rattle = 1e9, least_c = 1e9;

    for (double end = now() + SECONDS_A_PAIR; now() < end;) {
        memset(by_rattle, FILLED, sizeof by_rattle);
        memset(by_c, FILLED, sizeof by_c);
        double start = now();
        uint64_t x = turn_all(rattle, from, from_bytes, by_rattle, to_bytes, count);
        double middle = now();
        uint64_t y = turn_all(c, from, from_bytes, by_c, to_bytes, count);
        double stop = now();
        if (x != 0 || y != 0)
            fail("a call was refused");
        if (memcmp(by_rattle, by_c, sizeof by_c) != 0)
            fail("Rattle and C leave different bytes");
        if (middle - start < least_rattle)
            least_rattle = middle - start;
        if (stop - middle < least_c)
            least_c = stop - middle;
    }
    printf("%-22s %8.2f %8.2f %8.2f\n", what, 1e9 * least_rattle / SIGNALS, 1e9 * least_c / SIGNALS, least_rattle / least_c);
}

/* Before anything is timed: some bytes, with any count, give the same answer and leave the same bytes, refused or not. */
static void check(turning *rattle, turning *c, size_t from_bytes, size_t to_bytes)
{
    for (int k = 0; k < 20000; k++) {
        uint8_t from[VALUES], x[VALUES], y[VALUES];
        uint32_t count = random_below(VALUES + 3);
        unsigned most = random_below(2) ? 4 : 256, filled = random_below(from_bytes + 1);
        for (size_t b = 0; b < from_bytes; b++)
            from[b] = b < filled ? random_below(most) : 0;
        memset(x, FILLED, sizeof x);
        memset(y, FILLED, sizeof y);
        if (rattle(from, from_bytes, x, to_bytes, count) != c(from, from_bytes, y, to_bytes, count))
            fail("Rattle and C answer differently");
        if (memcmp(x, y, sizeof x) != 0)
            fail("Rattle and C leave different bytes");
    }
}

/* The two rows of a count. The bytes past it are none that turning may look at. */
static void compare_count(uint32_t count, const char *forth, const char *back)
{
    for (size_t s = 0; s < SIGNALS; s++)
        for (size_t j = 0; j < VALUES; j++)
            values[VALUES * s + j] = random_below(j < count ? 4 : 256);
    compare(forth, cavundir_turn, c_turn, values, VALUES, BLOCK, count);
    memcpy(blocks, by_c, sizeof blocks);
    compare(back, cavundir_turn_back, c_turn_back, blocks, BLOCK, VALUES, count);
}

int main(void)
{
    check(cavundir_turn, c_turn, VALUES, BLOCK);
    check(cavundir_turn_back, c_turn_back, BLOCK, VALUES);

    printf("%-22s %8s %8s %8s\n", "ns a call", "Rattle", "C", "ratio");
    compare_count(64, "turn, 64 cycles", "turn back, 64 cycles");
    compare_count(17, "turn, 17 cycles", "turn back, 17 cycles");
    return 0;
}
