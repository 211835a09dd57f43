/* Chart pages in C (charts.c). The call takes and answers what cavundir_chart does. */
#ifndef CHARTS_H
#define CHARTS_H

#include <stddef.h>
#include <stdint.h>

uint64_t c_chart(const uint8_t *signals, size_t signals_bytes, const uint8_t *values, size_t values_bytes, uint8_t *page,
                 size_t page_bytes, uint32_t signal_count, uint32_t first_cycle, uint32_t cycle_count);

#endif
