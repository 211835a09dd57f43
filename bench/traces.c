/* Turning by signal as a C programmer writes it from the description: a bit at a time, at its place in the block. */
#include <string.h>

#include "traces.h"

enum { VALUES = 64, BLOCK = 16, HALF = BLOCK / 2 };

static uint64_t refusal(uint64_t number, uint64_t returned)
{
    return number << 56 | returned;
}

/* 40, then 52 for the count; 0 where neither applies. */
static uint64_t sizes(size_t values_bytes, size_t block_bytes, uint32_t count)
{
    if (values_bytes != VALUES || block_bytes != BLOCK)
        return refusal(40, 0);
    return count < 1 || count > VALUES ? refusal(52, 0) : 0;
}

uint64_t c_turn(const uint8_t *values, size_t values_bytes, uint8_t *block, size_t block_bytes, uint32_t count)
{
    uint64_t refused = sizes(values_bytes, block_bytes, count);

    if (refused)
        return refused;
    for (uint32_t j = 0; j < count; j++)
        if (values[j] > 3)
            return refusal(42, values[j]);
    memset(block, 0, BLOCK);
    for (uint32_t j = 0; j < count; j++) {
        block[j / 8] |= (values[j] & 1) << j % 8;
        block[HALF + j / 8] |= (values[j] >> 1) << j % 8;
    }
    return 0;
}

uint64_t c_turn_back(const uint8_t *block, size_t block_bytes, uint8_t *values, size_t values_bytes, uint32_t count)
{
    uint64_t refused = sizes(values_bytes, block_bytes, count);

    if (refused)
        return refused;
    for (uint32_t j = count; j < VALUES; j++)
        if ((block[j / 8] | block[HALF + j / 8]) >> j % 8 & 1)
            return refusal(52, 0);
    for (uint32_t j = 0; j < VALUES; j++)
        values[j] = (block[j / 8] >> j % 8 & 1) | (block[HALF + j / 8] >> j % 8 & 1) << 1;
    return 0;
}
