/* trace: a recorder that stores what it saw of a session in blocks, two bits a cycle, and reads it back.
 *
 * The network is that of panel.c: an input, 1; its inverse a cycle later, 2; and the inverse of 2 in the same cycle, 3.
 *
 *     (cd crates/cavundir_panel_c && rt lib && cp out/libcavundir_panel_c.a out/libcavundir_panel.a)
 *     gcc -std=c17 -I include examples/trace.c crates/cavundir_panel_c/out/libcavundir_panel.a -o trace
 */
#include <inttypes.h>
#include <stdio.h>
#include <string.h>

#include "cavundir.h"

/* the files, as panel.c explains them */
static const char net[] =
    "     0     3     0     0     0     0     0     0     0     0     0     0\n"
    "     1     1     0     0     0     0     0     0     0     0     0     0\n"
    "     2     2     2     4     0     0     0     5     1     0     0     0\n"
    "     3     3     2     4     0     0     0     5     2     0     0     0\n";
static const char mod[] =
    "     1     3     0     0     0     0     0     0     0     0     0     0     0     0\n"
    "     0     0     1     9     0     9     0     9     0     9     0     9     0    99\n"
    "     0     1     2     0     0     9     0     9     0     9     0     9     0    99\n"
    "     0     2     3     1     1     9     0     9     0     9     0     9     0    99\n";
static const char stim[] =
    "     0     1     0\n"
    "     4     0     0\n";

/* the session */
static uint8_t panel[CAVUNDIR_PANEL_BYTES];
static uint8_t program[CAVUNDIR_PROGRAM_BYTES];
static uint8_t memory[CAVUNDIR_MEMORY_BYTES];

/* what every call on the session is lent */
#define SESSION panel, sizeof panel, program, sizeof program, memory, sizeof memory
/* the bytes of a text, without the zero that ends it in C */
#define TEXT(text) (const uint8_t *)(text), sizeof(text) - 1

enum { SIGNALS = 3 };

/* What the recorder keeps of up to 64 cycles: their number, and a block for each signal. */
struct recorded {
    uint32_t count;
    uint8_t blocks[SIGNALS][CAVUNDIR_TRACE_BLOCK_BYTES];
};

static bool done(const char *call, uint64_t answer)
{
    if (cavundir_refusal(answer) == CAVUNDIR_NOT_REFUSED)
        return true;
    printf("%s is refused: number %u, returned %" PRIu32 "\n", call, cavundir_refusal(answer),
           cavundir_returned(answer));
    return false;
}

/* The input has each of the four values in turn, every one for three cycles. */
static uint32_t input_in(unsigned cycle)
{
    return cycle / 3 % 4;
}

/* Runs the cycles one by one, and keeps the value of each signal at the end of each, a byte a value. */
static bool record(unsigned first, uint32_t count, uint8_t values[SIGNALS][CAVUNDIR_TRACE_VALUES_BYTES])
{
    for (uint32_t cycle = 0; cycle < count; cycle++) {
        if (!done("set", cavundir_set(SESSION, 1, input_in(first + cycle))) || !done("run", cavundir_run(SESSION, 1)))
            return false;
        for (uint32_t signal = 1; signal <= SIGNALS; signal++)
            values[signal - 1][cycle] = (uint8_t)cavundir_returned(cavundir_read(SESSION, signal));
    }
    return true;
}

static void show(uint32_t signal, const uint8_t *block, const uint8_t *values, uint32_t count)
{
    printf("signal %" PRIu32 "  ", signal);
    for (size_t k = 0; k < CAVUNDIR_TRACE_BLOCK_BYTES; k++)
        printf("%02x%s", block[k], k == 7 ? " " : "");
    printf("\n          ");
    for (uint32_t cycle = 0; cycle < count; cycle++)
        putchar("01UZ"[values[cycle]]);
    puts("");
}

/* Turns the values of each signal into its block, and compares what the block gives back. */
static bool store(struct recorded *to, uint8_t values[SIGNALS][CAVUNDIR_TRACE_VALUES_BYTES])
{
    printf("%" PRIu32 " cycles\n", to->count);
    for (uint32_t s = 0; s < SIGNALS; s++) {
        uint8_t *block = to->blocks[s], back[CAVUNDIR_TRACE_VALUES_BYTES];
        if (!done("turn", cavundir_turn(values[s], sizeof values[s], block, sizeof to->blocks[s], to->count)) ||
            !done("turn_back", cavundir_turn_back(block, sizeof to->blocks[s], back, sizeof back, to->count)))
            return false;
        show(s + 1, block, back, to->count);
        if (memcmp(back, values[s], to->count) != 0) {
            puts("other values came back");
            return false;
        }
    }
    return true;
}

/* Records as many cycles as `to` says, and stores them. What stands past them in the values is not looked at. */
static bool keep(struct recorded *to, unsigned first)
{
    uint8_t values[SIGNALS][CAVUNDIR_TRACE_VALUES_BYTES];

    return record(first, to->count, values) && store(to, values);
}

int main(void)
{
    struct recorded full = {.count = 64}, rest = {.count = 9};
    uint8_t *block = full.blocks[0], back[CAVUNDIR_TRACE_VALUES_BYTES];

    if (!done("open", cavundir_open(TEXT(net), TEXT(mod), TEXT(stim), SESSION)))
        return 1;
    if (!keep(&full, 0) || !keep(&rest, full.count))
        return 1;

    /* a block read with another count than its own: a bit past it is set */
    done("64 cycles read as 9", cavundir_turn_back(block, CAVUNDIR_TRACE_BLOCK_BYTES, back, sizeof back, rest.count));
    return 0;
}
