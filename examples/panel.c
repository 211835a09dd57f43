/* panel: a session with Cavundir, from the opening to a refusal.
 *
 * The network has an input, 1, and two gates: 2 is the inverse of 1, and unit-delay: it takes 1 as it was a cycle ago;
 * 3 is the inverse of 2, and rank-order: it takes 2 as it is in the same cycle.
 *
 *     (cd crates/cavundir_panel_c && rt lib && cp out/libcavundir_panel_c.a out/libcavundir_panel.a)
 *     gcc -std=c17 -I include examples/panel.c crates/cavundir_panel_c/out/libcavundir_panel.a -o panel
 */
#include <inttypes.h>
#include <stdio.h>

#include "cavundir.h"

/* NET: N; then for each signal kind, number, f, g1 to g5, four sources */
static const char net[] =
    "     0     3     0     0     0     0     0     0     0     0     0     0\n"
    "     1     1     0     0     0     0     0     0     0     0     0     0\n"
    "     2     2     2     4     0     0     0     5     1     0     0     0\n"
    "     3     3     2     4     0     0     0     5     2     0     0     0\n";

/* MOD: one processor of three slots; in each a signal, four operands, what is sent, the processor received from */
static const char mod[] =
    "     1     3     0     0     0     0     0     0     0     0     0     0     0     0\n"
    "     0     0     1     9     0     9     0     9     0     9     0     9     0    99\n"
    "     0     1     2     0     0     9     0     9     0     9     0     9     0    99\n"
    "     0     2     3     1     1     9     0     9     0     9     0     9     0    99\n";

/* STIM: signal 1 is 0 at time 0. A session uses no later line; the panel sets its inputs itself. */
static const char stim[] =
    "     0     1     0\n"
    "     2     1     1\n"
    "     4     0     0\n";

/* the session */
static uint8_t panel[CAVUNDIR_PANEL_BYTES];
static uint8_t program[CAVUNDIR_PROGRAM_BYTES];
static uint8_t memory[CAVUNDIR_MEMORY_BYTES];

/* what every call is lent */
#define SESSION panel, sizeof panel, program, sizeof program, memory, sizeof memory
/* the bytes of a text, without the zero that ends it in C */
#define TEXT(text) (const uint8_t *)(text), sizeof(text) - 1

/* Says what a call was, and whether it was refused. */
static bool refused(const char *call, uint64_t answer)
{
    printf("%-18s", call);
    if (cavundir_refusal(answer) == CAVUNDIR_NOT_REFUSED)
        return false;
    printf("refused: number %u, returned %" PRIu32 "\n", cavundir_refusal(answer), cavundir_returned(answer));
    return true;
}

static void show(const char *call, uint64_t answer)
{
    if (!refused(call, answer))
        puts("done");
}

static void show_run(const char *call, uint64_t answer)
{
    if (!refused(call, answer))
        printf("cycles: %u%s\n", cavundir_cycles(answer), cavundir_stopped(answer) ? ", stopped by the watch" : "");
}

static void show_signals(void)
{
    static const char values[] = {'0', '1', 'U', 'Z'};
    printf("%-18s", "signals 1 to 3");
    for (uint32_t signal = 1; signal <= 3; signal++)
        printf(" %c", values[cavundir_returned(cavundir_read(SESSION, signal))]);
    puts("");
}

int main(void)
{
    uint64_t opened = cavundir_open(TEXT(net), TEXT(mod), TEXT(stim), SESSION);
    show("open", opened);
    if (cavundir_refusal(opened) != CAVUNDIR_NOT_REFUSED)
        return 1;
    show_signals();
    show_run("run 1", cavundir_run(SESSION, 1));
    show_signals();
    show("set 1 to 1", cavundir_set(SESSION, 1, 1));
    show_run("run 1", cavundir_run(SESSION, 1));
    show_signals();
    show("watch 3 for 1", cavundir_watch(SESSION, 3, 1 << 1));
    show_run("run 100", cavundir_run(SESSION, 100));
    show_signals();

    /* these are refused, and change nothing */
    show("set 2 to 1", cavundir_set(SESSION, 2, 1));
    show("set 1 to 4", cavundir_set(SESSION, 1, 4));
    show_run("run 65533", cavundir_run(SESSION, 65533));
    show("lend a byte less",
         cavundir_set(panel, sizeof panel - 1, program, sizeof program, memory, sizeof memory, 1, 0));
    show_signals();

    /* a refused opening leaves no session */
    show("open without MOD", cavundir_open(TEXT(net), NULL, 0, TEXT(stim), SESSION));
    show("set 1 to 0", cavundir_set(SESSION, 1, 0));
    return 0;
}
