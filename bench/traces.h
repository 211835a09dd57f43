/* Turning by signal in C (traces.c). The calls take and answer what those of cavundir.h do. */
#ifndef TRACES_H
#define TRACES_H

#include <stddef.h>
#include <stdint.h>

uint64_t c_turn(const uint8_t *values, size_t values_bytes, uint8_t *block, size_t block_bytes, uint32_t count);

uint64_t c_turn_back(const uint8_t *block, size_t block_bytes, uint8_t *values, size_t values_bytes, uint32_t count);

#endif
