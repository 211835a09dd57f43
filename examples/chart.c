/* chart: a run of the flip-flop of examples/flip-flop, recorded and printed as chart pages.
 *
 * A page has up to 56 signals and 72 cycles. More signals, or more cycles, take more pages. First come all cycles of the
 * first signals, page by page: on the wall they make a row beside the board, and further signals make the row below.
 *
 *     (cd crates/cavundir_panel_c && rt lib && cp out/libcavundir_panel_c.a out/libcavundir_panel.a)
 *     gcc -std=c17 -I include examples/chart.c crates/cavundir_panel_c/out/libcavundir_panel.a -o chart
 */
#include <inttypes.h>
#include <stdio.h>
#include <string.h>

#include "cavundir.h"

/* NET and MOD of examples/flip-flop. STIM gives no signal a value, so all begin as U; the inputs are set below. */
static const char net[] =
    "     0    10     0     0     0     0     0     0     0     0     0     0\n"
    "     1     1     0     0     0     0     0     0     0     0     0     0\n"
    "     1     2     0     0     0     0     0     0     0     0     0     0\n"
    "     1     3     0     0     0     0     0     0     0     0     0     0\n"
    "     1     4     0     0     0     0     0     0     0     0     0     0\n"
    "     2     5     0     4     4     4     1     5     1     8     6     0\n"
    "     2     6     0     4     4     4     1     5     5     2     3     0\n"
    "     2     7     0     4     4     4     1     5     6     3     8     0\n"
    "     2     8     0     4     4     4     1     5     7     2     4     0\n"
    "     2     9     0     4     4     4     1     5     1     6    10     0\n"
    "     2    10     0     4     4     4     1     5     9     2     7     0\n";
static const char mod[] =
    "     1    10     0     0     0     0     0     0     0     0     0     0     0     0\n"
    "     0     0     1     9     0     9     0     9     0     9     0     9     0    99\n"
    "     0     1     2     9     0     9     0     9     0     9     0     9     0    99\n"
    "     0     2     3     9     0     9     0     9     0     9     0     9     0    99\n"
    "     0     3     4     9     0     9     0     9     0     9     0     9     0    99\n"
    "     0     4     5     0     0     0     7     0     5     9     0     9     0    99\n"
    "     0     5     6     0     4     0     1     0     2     9     0     9     0    99\n"
    "     0     6     7     0     5     0     2     0     7     9     0     9     0    99\n"
    "     0     7     8     0     6     0     1     0     3     9     0     9     0    99\n"
    "     0     8     9     0     0     0     5     0     9     9     0     9     0    99\n"
    "     0     9    10     0     8     0     1     0     6     9     0     9     0    99\n";
static const char stim[] =
    "   100     0     0\n";

enum { PRESET = 1, CLEAR, CLOCK, D, Q = 9, QINV, SIGNALS = QINV };
enum { CYCLES = 101 }; /* time 0 and 100 cycles */

/* What the inputs are set to, from which cycle on, in the order of the cycles. */
static const struct setting {
    uint32_t cycle, signal, value;
} settings[] = {
    /* as in STIM of examples/flip-flop: cleared, then D is taken when CLOCK rises at 10 */
    {1, PRESET, 1}, {1, CLEAR, 1}, {1, CLOCK, 1}, {1, D, 1}, {3, CLEAR, 0}, {6, CLEAR, 1}, {7, CLOCK, 0}, {10, CLOCK, 1},
    /* D is 0 when CLOCK rises again; a change while CLOCK is 1 does nothing */
    {20, D, 0}, {24, CLOCK, 0}, {28, CLOCK, 1}, {34, D, 1},
    /* D floats when CLOCK rises, and nothing is known until PRESET */
    {40, D, 3}, {44, CLOCK, 0}, {48, CLOCK, 1}, {58, PRESET, 0}, {62, PRESET, 1},
    /* D is 0, then 1 */
    {66, D, 0}, {70, CLOCK, 0}, {74, CLOCK, 1}, {82, D, 1}, {86, CLOCK, 0}, {90, CLOCK, 1},
};
enum { SETTINGS = sizeof settings / sizeof *settings };

/* The lines of the chart in their order: the inputs, the outputs, the gates between. */
static const uint16_t chosen[] = {PRESET, CLEAR, CLOCK, D, Q, QINV, 5, 6, 7, 8};
enum { CHOSEN = sizeof chosen / sizeof *chosen };

/* the session */
static uint8_t panel[CAVUNDIR_PANEL_BYTES];
static uint8_t program[CAVUNDIR_PROGRAM_BYTES];
static uint8_t memory[CAVUNDIR_MEMORY_BYTES];

/* the value of each signal, from 1 on, in each cycle, from 0 on */
static uint8_t recorded[SIGNALS][CYCLES];

/* what every call on the session is lent */
#define SESSION panel, sizeof panel, program, sizeof program, memory, sizeof memory
/* the bytes of a text, without the zero that ends it in C */
#define TEXT(text) (const uint8_t *)(text), sizeof(text) - 1

static bool done(const char *call, uint64_t answer)
{
    if (cavundir_refusal(answer) == CAVUNDIR_NOT_REFUSED)
        return true;
    printf("%s is refused: number %u, returned %" PRIu32 "\n", call, cavundir_refusal(answer),
           cavundir_returned(answer));
    return false;
}

/* Sets the inputs that change in a cycle, and runs it. */
static bool run(uint32_t cycle)
{
    for (int k = 0; k < SETTINGS; k++)
        if (settings[k].cycle == cycle && !done("set", cavundir_set(SESSION, settings[k].signal, settings[k].value)))
            return false;
    return done("run", cavundir_run(SESSION, 1));
}

/* Keeps every signal at time 0, before anything is run, and at the end of each cycle. */
static bool record(void)
{
    for (uint32_t cycle = 0; cycle < CYCLES; cycle++) {
        if (cycle > 0 && !run(cycle))
            return false;
        for (uint32_t signal = 1; signal <= SIGNALS; signal++)
            recorded[signal - 1][cycle] = (uint8_t)cavundir_returned(cavundir_read(SESSION, signal));
    }
    return true;
}

/* Prints one page. Its values are copied together: their rows are 72 apart, however few cycles it has. */
static bool print_page(const uint16_t *signals, uint32_t signal_count, uint32_t first_cycle, uint32_t cycle_count)
{
    uint8_t numbers[CAVUNDIR_CHART_SIGNALS_BYTES] = {0}, values[CAVUNDIR_CHART_VALUES_BYTES] = {0};
    uint8_t page[CAVUNDIR_CHART_PAGE_BYTES] = {0};

    for (uint32_t k = 0; k < signal_count; k++) {
        numbers[2 * k] = (uint8_t)(signals[k] % 256);
        numbers[2 * k + 1] = (uint8_t)(signals[k] / 256);
        memcpy(values + CAVUNDIR_CHART_CYCLES * k, recorded[signals[k] - 1] + first_cycle, cycle_count);
    }
    if (!done("chart", cavundir_chart(numbers, sizeof numbers, values, sizeof values, page, sizeof page, signal_count,
                                      first_cycle, cycle_count)))
        return false;
    /* the bytes after these lines are none of the text; a form feed gives the next page a sheet of its own */
    fwrite(page, CAVUNDIR_CHART_LINE, 1 + signal_count, stdout);
    putchar('\f');
    return true;
}

static uint32_t at_most(uint32_t most, uint32_t number)
{
    return number < most ? number : most;
}

/* All cycles of the first signals, then those of the next. */
static bool print_pages(void)
{
    for (uint32_t s = 0; s < CHOSEN; s += CAVUNDIR_CHART_SIGNALS)
        for (uint32_t cycle = 0; cycle < CYCLES; cycle += CAVUNDIR_CHART_CYCLES)
            if (!print_page(chosen + s, at_most(CAVUNDIR_CHART_SIGNALS, CHOSEN - s), cycle,
                            at_most(CAVUNDIR_CHART_CYCLES, CYCLES - cycle)))
                return false;
    return true;
}

int main(void)
{
    if (!done("open", cavundir_open(TEXT(net), TEXT(mod), TEXT(stim), SESSION)))
        return 1;
    return record() && print_pages() ? 0 : 1;
}
