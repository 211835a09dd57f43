/* stack FOLDER..: the stack that each call needs, the most over the files NET, MOD and STIM of all folders. A call runs on
 * a stack of its own, filled with one byte before: the depth is from its caller's frame to the deepest byte that changed. */
#include <stdio.h>
#include <stdlib.h>
#include <string.h>
#include <ucontext.h>

#include "cavundir.h"

enum { STACK = 1 << 20, FILLED = 0xA5, NET = 0, MOD, STIM, FILES };

static const char *const names[FILES] = {"NET", "MOD", "STIM"};
static uint8_t files[FILES][1 << 21], stack[STACK];
static size_t lengths[FILES];
static uint8_t panel[CAVUNDIR_PANEL_BYTES], program[CAVUNDIR_PROGRAM_BYTES], memory[CAVUNDIR_MEMORY_BYTES];

/* what the next call is given, and what it answered */
static size_t program_bytes = sizeof program, block_bytes = CAVUNDIR_TRACE_BLOCK_BYTES;
static size_t page_bytes = CAVUNDIR_CHART_PAGE_BYTES;
static uint32_t signal_given, number_given;
static uint32_t signals_given, first_given, cycles_given; /* of a chart */
static uint8_t values[CAVUNDIR_TRACE_VALUES_BYTES], block[CAVUNDIR_TRACE_BLOCK_BYTES];
static uint8_t chosen[CAVUNDIR_CHART_SIGNALS_BYTES], recorded[CAVUNDIR_CHART_VALUES_BYTES], page[CAVUNDIR_CHART_PAGE_BYTES];
static uint64_t answer;

#define GIVEN files[NET], lengths[NET], files[MOD], lengths[MOD], files[STIM], lengths[STIM]
#define SESSION panel, sizeof panel, program, program_bytes, memory, sizeof memory

static void checking(void) { answer = cavundir_check_files(GIVEN); }
static void opening(void) { answer = cavundir_open(GIVEN, SESSION); }
static void setting(void) { answer = cavundir_set(SESSION, signal_given, number_given); }
static void watching(void) { answer = cavundir_watch(SESSION, signal_given, number_given); }
static void reading(void) { answer = cavundir_read(SESSION, signal_given); }
static void running(void) { answer = cavundir_run(SESSION, number_given); }
static void turning(void) { answer = cavundir_turn(values, sizeof values, block, block_bytes, number_given); }
static void turning_back(void) { answer = cavundir_turn_back(block, block_bytes, values, sizeof values, number_given); }
static void charting(void)
{
    answer = cavundir_chart(chosen, sizeof chosen, recorded, sizeof recorded, page, page_bytes, signals_given, first_given,
                            cycles_given);
}

static struct call {
    const char *name;
    void (*make)(void);
    size_t most;
} calls[] = {{"check_files", checking, 0}, {"open", opening, 0},           {"set", setting, 0},
             {"watch", watching, 0},       {"read", reading, 0},           {"run", running, 0},
             {"turn", turning, 0},         {"turn_back", turning_back, 0}, {"chart", charting, 0}};
enum { CHECK_FILES, OPEN, SET, WATCH, READ, RUN, TURN, TURN_BACK, CHART, CALLS };

static void (*make)(void);
static uint8_t *from;

static void on_the_stack(void)
{
    from = __builtin_frame_address(0);
    make();
}

static void measure(int which)
{
    static ucontext_t here, there;

    memset(stack, FILLED, STACK);
    getcontext(&there);
    there.uc_stack.ss_sp = stack;
    there.uc_stack.ss_size = STACK;
    there.uc_link = &here;
    make = calls[which].make;
    makecontext(&there, on_the_stack, 0);
    swapcontext(&here, &there);

    size_t deepest = 0;
    while (deepest < STACK && stack[deepest] == FILLED)
        deepest++;
    if (deepest < 4096) {
        fprintf(stderr, "bench: FAILED: %s needs more than %d bytes of stack\n", calls[which].name, STACK);
        exit(1);
    }
    size_t needed = from - (stack + deepest);
    if (needed > calls[which].most)
        calls[which].most = needed;
}

/* Every call on a session with these numbers; `lent` is the program's length. */
static void measure_session(uint32_t signal, uint32_t number, size_t lent)
{
    signal_given = signal;
    number_given = number;
    program_bytes = lent;
    for (int which = SET; which <= RUN; which++)
        measure(which);
    program_bytes = sizeof program;
}

/* Both turning calls with every count and two that are refused by 52; then by 40. The value makes bits of every cycle, or is
 * refused by 42. */
static void measure_turning(uint8_t value)
{
    memset(values, value, sizeof values);
    for (number_given = 0; number_given <= sizeof values + 1; number_given++) {
        measure(TURN);
        measure(TURN_BACK);
    }
    block_bytes = 0;
    measure(TURN);
    measure(TURN_BACK);
    block_bytes = sizeof block;
}

static void measure_chart(uint32_t signals, uint32_t first, uint32_t cycles)
{
    signals_given = signals;
    first_given = first;
    cycles_given = cycles;
    measure(CHART);
}

/* Charts with every count of signals and of cycles, beside the least and the most of the other, and counts that are refused
 * by 46; then by 40. The bytes make signals and values, or are refused by 41 or 42. */
static void measure_charts(uint8_t signal_byte, uint8_t value)
{
    memset(chosen, signal_byte, sizeof chosen);
    memset(recorded, value, sizeof recorded);
    for (uint32_t count = 0; count <= CAVUNDIR_CHART_SIGNALS + 1; count++) {
        measure_chart(count, 0, 1);
        measure_chart(count, 65536 - CAVUNDIR_CHART_CYCLES, CAVUNDIR_CHART_CYCLES);
    }
    for (uint32_t count = 0; count <= CAVUNDIR_CHART_CYCLES + 1; count++) {
        measure_chart(1, 0, count);
        measure_chart(CAVUNDIR_CHART_SIGNALS, 65536 - count, count);
    }
    page_bytes = 0;
    measure_chart(1, 0, 1);
    page_bytes = sizeof page;
}

static void read_files(const char *folder)
{
    for (int k = 0; k < FILES; k++) {
        char path[4096];
        snprintf(path, sizeof path, "%s/%s", folder, names[k]);
        FILE *file = fopen(path, "rb");
        lengths[k] = file ? fread(files[k], 1, sizeof files[k], file) : 0;
        if (file)
            fclose(file);
    }
}

int main(int count, char **folders)
{
    int opened = 0;

    for (int k = 1; k < count; k++) {
        read_files(folders[k]);
        measure(CHECK_FILES);
        measure(OPEN);
        opened += answer == 0;
        measure_session(1, 3, sizeof program);     /* not refused, where signal 1 is an input */
        measure_session(0, 65536, sizeof program); /* 41 and 43 */
        measure_session(1, 3, 0);                  /* 40 */
        program_bytes = 0;
        measure(OPEN);
        program_bytes = sizeof program;
    }
    measure_turning(3);
    measure_turning(4);
    measure_charts(1, 3);
    measure_charts(1, 4);
    measure_charts(255, 3);
    if (opened == 0) {
        fprintf(stderr, "bench: FAILED: no files were accepted\n");
        return 1;
    }
    printf("%-22s %8s\n", "stack of a call", "bytes");
    for (int which = 0; which < CALLS; which++)
        printf("%-22s %8zu\n", calls[which].name, calls[which].most);
    return 0;
}
