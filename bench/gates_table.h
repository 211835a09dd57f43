/* Translations and functions by the tables of crates/gates, which tables.h has in C. No guards, as in Rattle: codes are legal and
 * values are 0 to 3. Included by machine.c alone. */
#ifndef GATES_TABLE_H
#define GATES_TABLE_H

#include "tables.h"

static uint8_t translate(uint8_t g, uint8_t v)
{
    return translations[4 * g + v];
}

static uint8_t apply(uint8_t f, uint8_t a, uint8_t b, uint8_t c, uint8_t d)
{
    return functions[256 * f + 64 * a + 16 * b + 4 * c + d];
}

#endif
