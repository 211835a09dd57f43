/* cavundir.h: the calls of Cavundir, a lockstep logic simulator, for a front panel in C or C++.
 *
 * A session lives in three working buffers that the panel owns and lends to every call on it: panel, program and memory.
 * Each has one fixed length. The calls keep nothing else: a session is its buffers, and a copy of them is a session too.
 *
 * Three calls are for recorders, and take none of these buffers: cavundir_turn stores the values of a signal in a block
 * of two bits a cycle, cavundir_turn_back gives them back, and cavundir_chart prints the values of signals on a page.
 *
 * A buffer is handed over as a pointer and a length in bytes. The buffers of one call must not overlap. A null pointer
 * is allowed with length 0; as NET, MOD or STIM that is a file that is absent. The bytes of a file are only read.
 *
 * Every call gives one number, its answer, which the functions at the end take apart:
 *
 *     uint64_t answer = cavundir_run(panel, sizeof panel, program, sizeof program, memory, sizeof memory, 100);
 *     if (cavundir_refusal(answer) != CAVUNDIR_NOT_REFUSED)
 *         printf("refused: %u, %" PRIu32 "\n", cavundir_refusal(answer), cavundir_returned(answer));
 *
 * docs/PANEL.md says what every byte of the working buffers holds; no call needs it.
 */
#ifndef CAVUNDIR_H
#define CAVUNDIR_H

#include <stdbool.h>
#include <stddef.h>
#include <stdint.h>

#ifdef __cplusplus
extern "C" {
#endif

/* The version of this header and of its archive: 100 for each whole number, and 1 for each after the point. */
#define CAVUNDIR_VERSION 102
#define CAVUNDIR_VERSION_TEXT "1.2"

/* The lengths of the working buffers. With any other length a call is refused. */
#define CAVUNDIR_PANEL_BYTES 40970
#define CAVUNDIR_PROGRAM_BYTES 53248
#define CAVUNDIR_MEMORY_BYTES 20480

/* The lengths of the buffers for turning: a byte for the value of each of up to 64 cycles, and a block of two bits for
 * each. With any other length a call is refused. */
#define CAVUNDIR_TRACE_VALUES_BYTES 64
#define CAVUNDIR_TRACE_BLOCK_BYTES 16

/* The most signals and cycles of a chart page, and the bytes of its line: 80 columns and the line end. */
#define CAVUNDIR_CHART_SIGNALS 56
#define CAVUNDIR_CHART_CYCLES 72
#define CAVUNDIR_CHART_LINE 81

/* The lengths of the buffers for a chart: two bytes for the number of each of up to 56 signals, a row of 72 values for
 * each, and a page of a first line and one for each. With any other length a call is refused. */
#define CAVUNDIR_CHART_SIGNALS_BYTES 112
#define CAVUNDIR_CHART_VALUES_BYTES 4032
#define CAVUNDIR_CHART_PAGE_BYTES 4617

/* The numbers of the refusals, and what each returns. Lines are counted from 1. cavundir_text says each in a sentence. */
enum cavundir_number {
    CAVUNDIR_NOT_REFUSED = 0,

    /* by the opening and the check, of a file; the returned value is a line, or the smallest such signal */
    CAVUNDIR_NET_MISFORMED = 10,    /* line: misformed, missing or surplus */
    CAVUNDIR_NET_LAYOUT = 11,       /* line: a value, a fixed zero or the order is wrong */
    CAVUNDIR_NET_SOURCE = 12,       /* line: a source above N, or source 0 with a translation above 3 */
    CAVUNDIR_NET_CLOSED_CHAIN = 13, /* signal: a closed chain of rank-order gates runs through it */
    CAVUNDIR_MOD_MISFORMED = 20,    /* line: misformed, missing or surplus */
    CAVUNDIR_MOD_LAYOUT = 21,       /* line: a value, a fixed zero or the order is wrong */
    CAVUNDIR_MOD_PLACED = 22,       /* signal: not placed exactly once */
    CAVUNDIR_MOD_OPERAND = 23,      /* line: an operand isn't right */
    CAVUNDIR_MOD_SEND = 24,         /* line: sends an empty slot's location, or part 1 from its own slot or above */
    CAVUNDIR_MOD_RECEIVE = 25,      /* line: receives from a processor that sends none in that slot */
    CAVUNDIR_STIM_MISFORMED = 30,   /* line: misformed, missing or surplus */
    CAVUNDIR_STIM_LAYOUT = 31,      /* line: a value, a fixed zero or the order is wrong */
    CAVUNDIR_STIM_NO_INPUT = 32,    /* line: a time after 0 on a signal that is no input */

    /* by any call but the check */
    CAVUNDIR_LENGTH = 40,           /* 0: a buffer that has a fixed length is lent with another */

    /* by set, watch, read and run; 41 also by chart, 42 also by turn and chart */
    CAVUNDIR_SIGNAL = 41,           /* the signal given: 0 or above N, or set on a gate; of chart: the first chosen that
                                       is 0 or above 4096 */
    CAVUNDIR_VALUE = 42,            /* the value given: above 3, or a mask above 15; of turn and chart: the first
                                       recorded above 3 */
    CAVUNDIR_CYCLES = 43,           /* the cycles finished: these and the cycles given exceed 65535 */
    CAVUNDIR_DAMAGED = 44,          /* 0: no session is in the buffers, a number in them is out of its range, or a byte
                                       that holds no number is not 0; whether the tables belong together is not judged */

    /* by chart */
    CAVUNDIR_PAGE = 46,             /* 0: the signal count is 0 or above 56, the cycle count 0 or above 72, or the last
                                       cycle above 65535 */

    /* by turn and turn_back */
    CAVUNDIR_BLOCK = 52             /* 0: the cycle count is 0 or above 64; by turn_back too: an unused bit is set */
};

/* Checks the three files alone. It answers what an opening on working buffers of the right lengths answers: not refused
 * where the files are accepted, else the refusal. It writes nothing. */
uint64_t cavundir_check_files(const uint8_t *net, size_t net_bytes,
                              const uint8_t *mod, size_t mod_bytes,
                              const uint8_t *stim, size_t stim_bytes);

/* Opens a session on the bytes of the three files: 0 cycles finished, every signal at its value of time 0, the watch on
 * signal 1 with mask 0. All bytes of the working buffers are written, whatever was in them. Where it is refused, every
 * working buffer is left all zero, a buffer of a wrong length too. If it was lent all three in their right lengths, every
 * call below then gives CAVUNDIR_DAMAGED; refused by CAVUNDIR_LENGTH, it cleared only what it was lent. */
uint64_t cavundir_open(const uint8_t *net, size_t net_bytes,
                       const uint8_t *mod, size_t mod_bytes,
                       const uint8_t *stim, size_t stim_bytes,
                       uint8_t *panel, size_t panel_bytes,
                       uint8_t *program, size_t program_bytes,
                       uint8_t *memory, size_t memory_bytes);

/* The four calls below change no byte where they are refused. A value is 0, 1, 2 (U, undefined) or 3 (Z, floating). */

/* Sets an input for the next cycle, and for those after it until it is set again. Of several settings before a cycle
 * the last counts. */
uint64_t cavundir_set(uint8_t *panel, size_t panel_bytes,
                      const uint8_t *program, size_t program_bytes,
                      const uint8_t *memory, size_t memory_bytes,
                      uint32_t signal, uint32_t value);

/* Sets the one watch: a run stops after a cycle at whose end the signal has a value v with bit v (of weight 2^v) in the
 * mask. Mask 0 watches nothing. */
uint64_t cavundir_watch(uint8_t *panel, size_t panel_bytes,
                        const uint8_t *program, size_t program_bytes,
                        const uint8_t *memory, size_t memory_bytes,
                        uint32_t signal, uint32_t mask);

/* Reads a signal: the returned value is its value at the end of the last finished cycle. */
uint64_t cavundir_read(const uint8_t *panel, size_t panel_bytes,
                       const uint8_t *program, size_t program_bytes,
                       const uint8_t *memory, size_t memory_bytes,
                       uint32_t signal);

/* Runs the given number of cycles, or fewer where the watch stops it. A session has at most 65535 cycles. */
uint64_t cavundir_run(uint8_t *panel, size_t panel_bytes,
                      const uint8_t *program, size_t program_bytes,
                      uint8_t *memory, size_t memory_bytes,
                      uint32_t cycles);

/* The two calls below turn the values of one signal in up to 64 cycles, a byte each, into a block of 16 bytes, and back.
 * The caller keeps the block's cycle count, 1 to 64, and gives it at each call. Cycle j, from 0, has the low bit of its
 * value in bit j % 8 of byte j / 8 of the block, and the high bit in the same bit of byte 8 + j / 8. Bits of cycles from
 * the count on are unused, and 0. A refused call changes no byte. */

/* Turns values into a block, and writes all of its bytes. Only the first `count` values are read. */
uint64_t cavundir_turn(const uint8_t *values, size_t values_bytes,
                       uint8_t *block, size_t block_bytes,
                       uint32_t count);

/* Turns a block back into values, and writes all of them: those from the count on are 0. */
uint64_t cavundir_turn_back(const uint8_t *block, size_t block_bytes,
                            uint8_t *values, size_t values_bytes,
                            uint32_t count);

/* Prints recorded values as a chart page: a line with the first and the last cycle, six columns each, then a line for
 * each chosen signal, in the order chosen: its number in six columns, two spaces, and 0, 1, U or Z for each cycle. Spaces
 * fill every line to 80 columns, and a line end follows. A page has 1 to 56 signals and 1 to 72 cycles, the last at most
 * 65535; the first may be 0.
 *
 * Chosen signal k, from 0, has its number in bytes 2 * k and 2 * k + 1 of `signals`, the low one first, and its value in
 * cycle first_cycle + c in byte 72 * k + c of `values`, whatever the counts are. What stands past the counts is not read.
 *
 * The text is the first 81 * (signal_count + 1) bytes of the page. Those after it keep their values, and a refused call
 * changes none. */
uint64_t cavundir_chart(const uint8_t *signals, size_t signals_bytes,
                        const uint8_t *values, size_t values_bytes,
                        uint8_t *page, size_t page_bytes,
                        uint32_t signal_count, uint32_t first_cycle, uint32_t cycle_count);

/* The refusal's number, one of enum cavundir_number; 0 where the call was not refused. */
static inline unsigned cavundir_refusal(uint64_t answer)
{
    return (unsigned)(answer >> 56);
}

/* What a refusal returns, or the value that was read. */
static inline uint32_t cavundir_returned(uint64_t answer)
{
    return (uint32_t)answer;
}

/* A refusal's number in words, for a person; the returned value says which line, which signal and so on. */
static inline const char *cavundir_text(unsigned number)
{
    switch (number) {
    case CAVUNDIR_NOT_REFUSED:
        return "The call was not refused.";
    case CAVUNDIR_NET_MISFORMED:
        return "NET: the line is misformed or missing, or is one too many.";
    case CAVUNDIR_NET_LAYOUT:
        return "NET: a value, a fixed zero or the order is wrong on the line.";
    case CAVUNDIR_NET_SOURCE:
        return "NET: a source on the line is above N, or is 0 with a translation above 3.";
    case CAVUNDIR_NET_CLOSED_CHAIN:
        return "NET: a closed chain of rank-order gates runs through the signal.";
    case CAVUNDIR_MOD_MISFORMED:
        return "MOD: the line is misformed or missing, or is one too many.";
    case CAVUNDIR_MOD_LAYOUT:
        return "MOD: a value, a fixed zero or the order is wrong on the line.";
    case CAVUNDIR_MOD_PLACED:
        return "MOD: the signal is not placed exactly once.";
    case CAVUNDIR_MOD_OPERAND:
        return "MOD: an operand on the line does not bring its source as old as the gate wants it.";
    case CAVUNDIR_MOD_SEND:
        return "MOD: the line sends an empty slot's location, or part 1 with a location not below its own slot.";
    case CAVUNDIR_MOD_RECEIVE:
        return "MOD: the line receives from a processor that sends none in that slot.";
    case CAVUNDIR_STIM_MISFORMED:
        return "STIM: the line is misformed or missing, or is one too many.";
    case CAVUNDIR_STIM_LAYOUT:
        return "STIM: a value, a fixed zero or the order is wrong on the line.";
    case CAVUNDIR_STIM_NO_INPUT:
        return "STIM: the line names a signal that is no input, at a time after 0.";
    case CAVUNDIR_LENGTH:
        return "A working buffer, or one for turning or for a chart, has a wrong length.";
    case CAVUNDIR_SIGNAL:
        return "The signal is 0 or above N, on a chart above 4096, or it is a gate and was to be set.";
    case CAVUNDIR_VALUE:
        return "The value, or a recorded one, is above 3, or the mask above 15.";
    case CAVUNDIR_CYCLES:
        return "The cycles finished and those asked for are above 65535 together.";
    case CAVUNDIR_DAMAGED:
        return "The working buffers hold no session, or a number in them is out of its range.";
    case CAVUNDIR_PAGE:
        return "The signal count of a page is 0 or above 56, the cycle count 0 or above 72, or a cycle above 65535.";
    case CAVUNDIR_BLOCK:
        return "The cycle count of a block is 0 or above 64, or a bit past it is set.";
    default:
        return "No refusal has this number.";
    }
}

/* Of a run that was not refused: the cycles it did. */
static inline unsigned cavundir_cycles(uint64_t answer)
{
    return (unsigned)(answer & 0xFFFF);
}

/* Of a run that was not refused: whether its last cycle shows a watched value. A run of 0 cycles is not stopped. */
static inline bool cavundir_stopped(uint64_t answer)
{
    return (answer >> 16 & 1) != 0;
}

#ifdef __cplusplus
}
#endif

#endif
