/* Times chart pages, Rattle's and C's in turn, on signals and values from a fixed seed, and prints ns a page and the ratio.
 * Exits 1 where an answer or a byte differs. */
#include <stdio.h>
#include <stdlib.h>
#include <string.h>

#include "cavundir.h"
#include "charts.h"
#include "clock.h"
#include "random.h"

enum { PAGES = 256, FILLED = 0xA5 };
static const double SECONDS_A_PAIR = 0.5;

typedef uint64_t charting(const uint8_t *signals, size_t signals_bytes, const uint8_t *values, size_t values_bytes,
                          uint8_t *page, size_t page_bytes, uint32_t signal_count, uint32_t first_cycle,
                          uint32_t cycle_count);

struct counts {
    uint32_t signals, first, cycles;
};

/* what is given for each page, and what each side prints */
static uint8_t signals[PAGES][CAVUNDIR_CHART_SIGNALS_BYTES], values[PAGES][CAVUNDIR_CHART_VALUES_BYTES];
static uint8_t by_rattle[PAGES][CAVUNDIR_CHART_PAGE_BYTES], by_c[PAGES][CAVUNDIR_CHART_PAGE_BYTES];

static void fail(const char *what)
{
    fprintf(stderr, "bench: FAILED: charts: %s\n", what);
    exit(1);
}

/* Signals and values that are legal within the counts, and any bytes past them: they are none that a chart may look at. */
static void make_page(int p, const struct counts *of)
{
    for (size_t k = 0; k < CAVUNDIR_CHART_SIGNALS; k++) {
        unsigned number = k < of->signals ? 1 + random_below(4096) : random_below(65536);
        signals[p][2 * k] = number % 256;
        signals[p][2 * k + 1] = number / 256;
        for (size_t c = 0; c < CAVUNDIR_CHART_CYCLES; c++)
            values[p][CAVUNDIR_CHART_CYCLES * k + c] = random_below(k < of->signals && c < of->cycles ? 4 : 256);
    }
}

static uint64_t print_page(charting *chart, int p, uint8_t page[CAVUNDIR_CHART_PAGE_BYTES], const struct counts *of)
{
    return chart(signals[p], sizeof signals[p], values[p], sizeof values[p], page, CAVUNDIR_CHART_PAGE_BYTES, of->signals,
                 of->first, of->cycles);
}

/* Prints every page; answers all refusals, joined. */
static uint64_t print_all(charting *chart, uint8_t pages[PAGES][CAVUNDIR_CHART_PAGE_BYTES], const struct counts *of)
{
    uint64_t refused = 0;

    for (int p = 0; p < PAGES; p++)
        refused |= print_page(chart, p, pages[p], of);
    return refused;
}

static void compare(const char *what, const struct counts *of)
{
    double least_rattle = 1e9, least_c = 1e9;

    for (int p = 0; p < PAGES; p++)
        make_page(p, of);
    for (double end = now() + SECONDS_A_PAIR; now() < end;) {
        memset(by_rattle, FILLED, sizeof by_rattle);
        memset(by_c, FILLED, sizeof by_c);
        double start = now();
        uint64_t x = print_all(cavundir_chart, by_rattle, of);
        double middle = now();
        uint64_t y = print_all(c_chart, by_c, of);
        double stop = now();
        if (x != 0 || y != 0)
            fail("a call was refused");
        if (memcmp(by_rattle, by_c, sizeof by_c) != 0)
            fail("Rattle and C leave different bytes");
        if (middle - start < least_rattle)
            least_rattle = middle - start;
        if (stop - middle < least_c)
            least_c = stop - middle;
    }
    printf("%-22s %8.1f %8.1f %8.2f\n", what, 1e9 * least_rattle / PAGES, 1e9 * least_c / PAGES, least_rattle / least_c);
}

/* Before anything is timed: pages of any counts, some with a wrong byte, give the same answer and leave the same bytes,
 * refused or not. */
static void check(void)
{
    for (int k = 0; k < 20000; k++) {
        const struct counts of = {random_below(CAVUNDIR_CHART_SIGNALS + 2), random_below(65600),
                                  random_below(CAVUNDIR_CHART_CYCLES + 2)};
        make_page(0, &of);
        if (random_below(4) == 0)
            signals[0][random_below(sizeof signals[0])] = random_below(256);
        if (random_below(4) == 0)
            values[0][random_below(sizeof values[0])] = random_below(256);
        memset(by_rattle[0], FILLED, sizeof by_rattle[0]);
        memset(by_c[0], FILLED, sizeof by_c[0]);
        if (print_page(cavundir_chart, 0, by_rattle[0], &of) != print_page(c_chart, 0, by_c[0], &of))
            fail("Rattle and C answer differently");
        if (memcmp(by_rattle[0], by_c[0], sizeof by_c[0]) != 0)
            fail("Rattle and C leave different bytes");
    }
}

int main(void)
{
    check();

    printf("%-22s %8s %8s %8s\n", "ns a page", "Rattle", "C", "ratio");
    compare("chart, full page", &(struct counts){CAVUNDIR_CHART_SIGNALS, 1, CAVUNDIR_CHART_CYCLES});
    compare("chart, 3 x 10", &(struct counts){3, 1, 10});
    return 0;
}
