/* Translations and functions by formulas, on all codes and values: what the tables are measured against. Included by machine.c
 * alone. */
#ifndef GATES_FORMULAS_H
#define GATES_FORMULAS_H

#include <stdint.h>

enum { U = 2 };
enum { AND, XOR, IDENTITY, SELECT, MAJORITY };

/* The results for codes 0 to 6 and values 0 to 3, two bits each: that of v by g stands at bit 2 * (4 * g + v). */
static uint8_t translate(uint8_t g, uint8_t v)
{
    if (g > 6)
        return U;
    if (v > 3)
        return g <= 3 ? g : g == 5 ? U : v;
    return 0xa4a1e4ffaa5500 >> (2 * (4 * g + v)) & 3;
}

static int count(uint8_t k, uint8_t a, uint8_t b, uint8_t c, uint8_t d)
{
    return (a == k) + (b == k) + (c == k) + (d == k);
}

static uint8_t apply(uint8_t f, uint8_t a, uint8_t b, uint8_t c, uint8_t d)
{
    switch (f) {
    case AND:
        return count(0, a, b, c, d) > 0 ? 0 : count(1, a, b, c, d) == 4 ? 1 : U;
    case XOR:
        return (a | b | c | d) >= U ? U : a ^ b ^ c ^ d;
    case IDENTITY:
        return a;
    case SELECT:
        if (a == 0)
            return b;
        if (a == 1)
            return c;
        return b == c && b < U ? b : U;
    case MAJORITY:
        return count(0, a, b, c, U) >= 2 ? 0 : count(1, a, b, c, U) >= 2 ? 1 : U;
    default:
        return U;
    }
}

#endif
