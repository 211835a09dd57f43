/* Chart pages as a C programmer writes them from the description: every line filled with spaces, then printed into. */
#include <string.h>

#include "charts.h"

enum { SIGNALS = 56, CYCLES = 72, COLUMNS = 80, LINE = COLUMNS + 1, FIELD = 6, SPACES = 2 };
enum { LAST_SIGNAL = 4096, LAST_CYCLE = 65535 };

static uint64_t refusal(uint64_t number, uint64_t returned)
{
    return number << 56 | returned;
}

static unsigned chosen(const uint8_t *signals, uint32_t k)
{
    return signals[2 * k] | signals[2 * k + 1] << 8;
}

/* 41, then 42; 0 where neither applies. */
static uint64_t numbers(const uint8_t *signals, const uint8_t *values, uint32_t signal_count, uint32_t cycle_count)
{
    for (uint32_t k = 0; k < signal_count; k++)
        if (chosen(signals, k) < 1 || chosen(signals, k) > LAST_SIGNAL)
            return refusal(41, chosen(signals, k));
    for (uint32_t k = 0; k < signal_count; k++)
        for (uint32_t c = 0; c < cycle_count; c++)
            if (values[CYCLES * k + c] > 3)
                return refusal(42, values[CYCLES * k + c]);
    return 0;
}

/* A number at the right end of its field; the field is spaces. */
static void put(uint8_t *field, unsigned number)
{
    uint8_t *digit = field + FIELD;

    do
        *--digit = '0' + number % 10;
    while (number /= 10);
}

uint64_t c_chart(const uint8_t *signals, size_t signals_bytes, const uint8_t *values, size_t values_bytes, uint8_t *page,
                 size_t page_bytes, uint32_t signal_count, uint32_t first_cycle, uint32_t cycle_count)
{
    if (signals_bytes != 2 * SIGNALS || values_bytes != SIGNALS * CYCLES || page_bytes != (SIGNALS + 1) * LINE)
        return refusal(40, 0);
    if (signal_count < 1 || signal_count > SIGNALS || cycle_count < 1 || cycle_count > CYCLES || first_cycle > LAST_CYCLE ||
        first_cycle + cycle_count - 1 > LAST_CYCLE)
        return refusal(46, 0);
    uint64_t refused = numbers(signals, values, signal_count, cycle_count);
    if (refused)
        return refused;

    memset(page, ' ', (size_t)LINE * (signal_count + 1));
    put(page, first_cycle);
    put(page + FIELD, first_cycle + cycle_count - 1);
    page[COLUMNS] = '\n';
    for (uint32_t k = 0; k < signal_count; k++) {
        uint8_t *line = page + LINE * (k + 1);
        put(line, chosen(signals, k));
        for (uint32_t c = 0; c < cycle_count; c++)
            line[FIELD + SPACES + c] = "01UZ"[values[CYCLES * k + c]];
        line[COLUMNS] = '\n';
    }
    return 0;
}
