/* guard FOLDER: the panel's calls on buffers beside pages that nobody may touch.
 *
 * Each buffer lent ends at such a page, and in a second round begins after one; one that is lent to read stands on pages
 * that cannot be written. A buffer has 0 bytes, 1, one too few, as many as it should or one too many, each length of one
 * with each of the others; NET, MOD and STIM are those of FOLDER, cut or a byte longer. Answer and bytes must be those of
 * the same call on ordinary memory; with a wrong length that is 40. Turning and charts are tried too with what stands past
 * the counts on a guarded page. Prints how many calls were made. Where a call touches what it was not lent, it says which
 * byte, and exits with 1.
 */
#define _GNU_SOURCE
#include <signal.h>
#include <sys/mman.h>
#include <unistd.h>

#include "calls.h"

/* the files first, as the opening takes them; last the buffers of turning and of charts */
enum { SESSION_END = FILES + BUFFERS };
enum { TRACE_VALUES = SESSION_END, TRACE_BLOCK, CHART_SIGNALS, CHART_VALUES, CHART_PAGE, LENT };
enum { VARIED = 5, SLACK = 0xC3, DAMAGED = 64 };

/* the buffers that are no session's, each with its one length */
static const struct {
    const char *name;
    size_t length;
} others[LENT - SESSION_END] = {
    {"values", CAVUNDIR_TRACE_VALUES_BYTES},
    {"block", CAVUNDIR_TRACE_BLOCK_BYTES},
    {"signals", CAVUNDIR_CHART_SIGNALS_BYTES},
    {"recorded values", CAVUNDIR_CHART_VALUES_BYTES},
    {"page", CAVUNDIR_CHART_PAGE_BYTES},
};

/* the calls that take no session: their buffers, from the first to the one after the last, and the one written to */
static const struct recorder {
    const char *name;
    int first, end, written;
} recorders[] = {
    {"turn", TRACE_VALUES, CHART_SIGNALS, TRACE_BLOCK},
    {"back", TRACE_VALUES, CHART_SIGNALS, TRACE_VALUES},
    {"chart", CHART_SIGNALS, LENT, CHART_PAGE},
};
enum { RECORDERS = sizeof recorders / sizeof *recorders };

/* A page that nobody may touch, the pages with the buffer, and another such page. */
struct guarded {
    uint8_t *map;
    size_t inner;
    struct bytes buffer;
};

static const char *folder;
static const struct call *current;
static struct guarded lent[LENT];
static bool begins; /* the buffers begin after a guarded page; else they end at one */
static const char *where;
static size_t page;
static unsigned long made;

static const char *name_of(int which)
{
    if (which >= SESSION_END)
        return others[which - SESSION_END].name;
    return which < FILES ? file_names[which] : buffer_names[which - FILES];
}

/* The one length of a buffer that is no file. */
static size_t length_of(int which)
{
    return which >= SESSION_END ? others[which - SESSION_END].length : lengths[which - FILES];
}

/* A call's row of the calls that take no session; none for the others. */
static const struct recorder *recorder_of(const struct call *call)
{
    for (int r = 0; r < RECORDERS; r++)
        if (!strcmp(call->name, recorders[r].name))
            return &recorders[r];
    return NULL;
}

/* The first of the buffers that a call takes, the opening alone taking files, and the one after the last. */
static int first_of(const struct call *call)
{
    const struct recorder *recorder = recorder_of(call);
    if (recorder)
        return recorder->first;
    return strcmp(call->name, "open") ? FILES : 0;
}

static int end_of(const struct call *call)
{
    const struct recorder *recorder = recorder_of(call);
    return recorder ? recorder->end : SESSION_END;
}

/* Whether a call that was not refused may write to a buffer. */
static bool may_write(const struct call *call, int which)
{
    const struct recorder *recorder = recorder_of(call);
    if (recorder)
        return which == recorder->written;
    return which >= FILES && writes(call, which - FILES);
}

static uint64_t make_any(const struct call *call, const struct bytes on[LENT])
{
    const struct bytes values = on[TRACE_VALUES], block = on[TRACE_BLOCK];
    const struct bytes chosen = on[CHART_SIGNALS], recorded = on[CHART_VALUES], chart = on[CHART_PAGE];
    const uint32_t *numbers = call->numbers;
    if (!strcmp(call->name, "turn"))
        return cavundir_turn(values.at, values.length, block.at, block.length, numbers[0]);
    if (!strcmp(call->name, "back"))
        return cavundir_turn_back(block.at, block.length, values.at, values.length, numbers[0]);
    if (!strcmp(call->name, "chart"))
        return cavundir_chart(chosen.at, chosen.length, recorded.at, recorded.length, chart.at, chart.length, numbers[0],
                              numbers[1], numbers[2]);
    return make(call, on, on + FILES);
}

/* Says which call it was; what is wrong with it follows. */
static void say_call(void)
{
    const uint32_t *numbers = current->numbers;
    fprintf(stderr, "%s: %s %u %u %u, lent", folder, current->name, numbers[0], numbers[1], numbers[2]);
    for (int l = first_of(current), end = end_of(current); l < end; l++)
        fprintf(stderr, " %s of %zu%s", name_of(l), lent[l].buffer.length, l < end - 1 ? "," : "");
    fprintf(stderr, " bytes, %s: ", where);
}

static void fail(const char *words, const char *of)
{
    say_call();
    fprintf(stderr, "%s%s\n", words, of);
    exit(1);
}

/* The signal of a page that was not to be touched. */
static void touched(int number, siginfo_t *fault, void *context)
{
    (void)number, (void)context;
    const uint8_t *at = fault->si_addr;
    say_call();
    for (int l = 0; l < LENT; l++)
        if (lent[l].map && at >= lent[l].map && at < lent[l].map + lent[l].inner + 2 * page) {
            fprintf(stderr, "it touched byte %td of %s\n", at - lent[l].buffer.at, name_of(l));
            _exit(1);
        }
    fprintf(stderr, "it touched memory that was not lent\n");
    _exit(1);
}

static struct guarded guard(struct bytes from)
{
    size_t inner = (from.length + page - 1) / page * page;
    uint8_t *map = mmap(NULL, inner + 2 * page, PROT_NONE, MAP_PRIVATE | MAP_ANONYMOUS, -1, 0);
    if (map == MAP_FAILED || (inner && mprotect(map + page, inner, PROT_READ | PROT_WRITE))) {
        perror("mmap");
        exit(2);
    }
    struct bytes buffer = {map + page + (begins ? 0 : inner - from.length), from.length};
    memset(map + page, SLACK, inner);
    memcpy(buffer.at, from.at, from.length);
    return (struct guarded){map, inner, buffer};
}

static void release(int which)
{
    munmap(lent[which].map, lent[which].inner + 2 * page);
    lent[which].map = NULL;
}

/* The bytes must be as expected, and those that share a page with them as they were. */
static void check(int which, struct bytes expected)
{
    const struct guarded *found = &lent[which];
    if (memcmp(found->buffer.at, expected.at, expected.length))
        fail("it left other bytes than on ordinary memory in ", name_of(which));
    const uint8_t *slack = begins ? found->buffer.at + expected.length : found->map + page;
    for (size_t i = 0; i < found->inner - expected.length; i++)
        if (slack[i] != SLACK)
            fail("it wrote beside ", name_of(which));
}

/* Makes a call on guarded copies of these bytes, and compares it with what is expected of it. */
static void make_guarded(const struct call *call, const struct bytes from[LENT], uint64_t expected,
                         const struct bytes after[LENT])
{
    struct bytes buffers[LENT] = {0};
    for (int l = first_of(call); l < end_of(call); l++) {
        lent[l] = guard(from[l]);
        buffers[l] = lent[l].buffer;
        if (lent[l].inner && !may_write(call, l))
            mprotect(lent[l].map + page, lent[l].inner, PROT_READ);
    }
    if (make_any(call, buffers) != expected)
        fail("its answer is not that on ordinary memory", "");
    for (int l = first_of(call); l < end_of(call); l++) {
        check(l, after[l]);
        release(l);
    }
    made++;
}

/* Makes a call on copies of these bytes: on ordinary memory, before a guarded page and after one. */
static void try(const struct call *call, const struct bytes from[LENT])
{
    struct bytes after[LENT] = {0};
    bool right = true;
    current = call;
    where = "on ordinary memory";
    for (int l = first_of(call); l < end_of(call); l++) {
        lent[l].buffer = after[l] = block(from[l].length);
        memcpy(after[l].at, from[l].at, from[l].length);
        right = right && (l < FILES || from[l].length == length_of(l));
    }
    uint64_t expected = make_any(call, after);
    if ((cavundir_refusal(expected) == CAVUNDIR_LENGTH) == right)
        fail(right ? "40 with right lengths" : "not 40 with a wrong length", "");
    for (int side = 0; side < 2; side++) {
        begins = side;
        where = begins ? "after a guarded page" : "before a guarded page";
        make_guarded(call, from, expected, after);
    }
    for (int l = first_of(call); l < end_of(call); l++)
        free(after[l].at);
}

/* The call with every length of three buffers, or of the two of turning, from `first` on. Each has a byte more than its
 * length says. */
static void try_lengths(const struct call *call, const struct bytes from[LENT], int first)
{
    struct bytes varied[LENT];
    int end = first + 3 < end_of(call) ? first + 3 : end_of(call), choices = 1;
    for (int l = first; l < end; l++)
        choices *= VARIED;
    memcpy(varied, from, sizeof varied);
    for (int choice = 0; choice < choices; choice++) {
        for (int l = first, rest = choice; l < end; l++, rest /= VARIED) {
            size_t whole = from[l].length;
            varied[l].length = (size_t[]){0, 1, whole ? whole - 1 : 0, whole, whole + 1}[rest % VARIED];
        }
        try(call, varied);
    }
}

/* Every call but the opening, with every signal of a session and one too many. */
static void try_numbers(const struct bytes from[LENT])
{
    static const uint32_t cycles[] = {0, 1, 2, 5, 65536, UINT32_MAX};
    uint32_t size = from[FILES + PANEL].at[0] + 256u * from[FILES + PANEL].at[1];
    for (uint32_t signal = 0; signal <= size + 1; signal++) {
        try(&(struct call){.name = "set", .numbers = {signal, signal % 5}}, from);
        try(&(struct call){.name = "watch", .numbers = {signal, signal % 17}}, from);
        try(&(struct call){.name = "read", .numbers = {signal}}, from);
    }
    try(&(struct call){.name = "set", .numbers = {UINT32_MAX, UINT32_MAX}}, from);
    try(&(struct call){.name = "watch", .numbers = {UINT32_MAX, UINT32_MAX}}, from);
    try(&(struct call){.name = "read", .numbers = {UINT32_MAX}}, from);
    for (size_t i = 0; i < sizeof cycles / sizeof *cycles; i++)
        try(&(struct call){.name = "run", .numbers = {cycles[i]}}, from);
}

static const struct call session_calls[] = {
    {.name = "set", .numbers = {1, 1}},
    {.name = "watch", .numbers = {1, 15}},
    {.name = "read", .numbers = {1}},
    {.name = "run", .numbers = {2}},
};
enum { SESSION_CALLS = sizeof session_calls / sizeof *session_calls };

/* The calls on buffers with one byte changed to 255, which most ranges do not have. */
static void try_damaged(struct bytes from[LENT])
{
    for (int b = FILES; b < SESSION_END; b++)
        for (int at = 0; at < DAMAGED; at++) {
            uint8_t kept = from[b].at[at];
            from[b].at[at] = 255;
            for (int c = 0; c < SESSION_CALLS; c++)
                try(&session_calls[c], from);
            from[b].at[at] = kept;
        }
}

/* How many bytes of a buffer turning or a chart reads where it is not refused. */
static size_t within(const struct call *call, int which)
{
    const uint32_t *numbers = call->numbers;
    if (which == TRACE_VALUES)
        return numbers[0];
    if (which == CHART_SIGNALS)
        return 2 * (size_t)numbers[0];
    if (which == CHART_VALUES) /* to the last cycle of the last row */
        return CAVUNDIR_CHART_CYCLES * (size_t)(numbers[0] - 1) + numbers[2];
    return length_of(which);
}

static struct bytes filled(size_t length)
{
    struct bytes made = block(length);
    memset(made.at, SLACK, length);
    return made;
}

/* A call that is not refused, with what stands past its counts where nobody may touch it: only what is within is read. */
static void try_within(const struct call *call, const struct bytes from[LENT])
{
    const int written = recorder_of(call)->written;
    struct bytes wanted = filled(length_of(written)), found = filled(length_of(written)), buffers[LENT];
    memcpy(buffers, from, sizeof buffers);
    buffers[written] = wanted;
    make_any(call, buffers);

    current = call;
    begins = false;
    where = "with what is past the counts on a guarded page";
    for (int l = first_of(call); l < end_of(call); l++)
        if (l != written) {
            lent[l] = guard((struct bytes){from[l].at, within(call, l)});
            buffers[l].at = lent[l].buffer.at;
        }
    buffers[written] = lent[written].buffer = found;
    if (make_any(call, buffers) != 0 || memcmp(found.at, wanted.at, wanted.length))
        fail("its answer or what it writes is not that on ordinary memory", "");
    for (int l = first_of(call); l < end_of(call); l++)
        if (l != written)
            release(l);
    free(wanted.at);
    free(found.at);
    made++;
}

/* Both turning calls with every count from 0 to one too many, on values and the block of them, and with every length. */
static void try_turning(const struct bytes from[LENT])
{
    for (uint32_t count = 0; count <= from[TRACE_VALUES].length + 1; count++) {
        const struct call turn = {.name = "turn", .numbers = {count}}, back = {.name = "back", .numbers = {count}};
        if (make_any(&turn, from) == 0)
            try_within(&turn, from);
        try(&turn, from);
        try(&back, from);
        try(&(struct call){.name = "back", .numbers = {count - 1}}, from); /* an unused bit is set, most often */
        if (count % 32 < 2) {
            try_lengths(&turn, from, TRACE_VALUES);
            try_lengths(&back, from, TRACE_VALUES);
        }
    }
}

/* A chart whose last cycle is the last of a session. */
static void try_chart(uint32_t signal_count, uint32_t cycle_count, const struct bytes from[LENT])
{
    const struct call chart = {.name = "chart", .numbers = {signal_count, 65536 - cycle_count, cycle_count}};
    if (make_any(&chart, from) == 0)
        try_within(&chart, from);
    try(&chart, from);
}

/* Charts with every count from 0 to one too many, beside the least and the most of the other; with every length; and with
 * no signal's number, or no value, at the end of the buffer, where fewer signals and cycles leave it alone. */
static void try_charts(const struct bytes from[LENT])
{
    enum { SIGNALS = CAVUNDIR_CHART_SIGNALS, CYCLES = CAVUNDIR_CHART_CYCLES };
    for (uint32_t count = 0; count <= SIGNALS + 1; count++) {
        try_chart(count, 1, from);
        try_chart(count, CYCLES, from);
    }
    for (uint32_t count = 0; count <= CYCLES + 1; count++) {
        try_chart(1, count, from);
        try_chart(SIGNALS, count, from);
    }
    try(&(struct call){.name = "chart", .numbers = {SIGNALS, UINT32_MAX, CYCLES}}, from);
    try_lengths(&(struct call){.name = "chart", .numbers = {SIGNALS, 0, CYCLES}}, from, CHART_SIGNALS);
    for (int l = CHART_SIGNALS; l <= CHART_VALUES; l++) {
        uint8_t *last = from[l].at + from[l].length - 1, kept = *last;
        *last = 255;
        try_chart(SIGNALS, CYCLES, from);
        try_chart(SIGNALS - 1, CYCLES - 1, from);
        *last = kept;
    }
}

/* A block with two bytes more than its length says: a file of length 0 is lent with 1 too. */
static struct bytes padded(struct bytes from)
{
    struct bytes made = block(from.length + 2);
    memset(made.at, 0, made.length);
    if (from.length)
        memcpy(made.at, from.at, from.length);
    return (struct bytes){made.at, from.length};
}

/* What byte k of a buffer that is no file has at first. */
static uint8_t byte_of(int which, size_t k)
{
    if (which < SESSION_END)
        return 255;
    if (which == TRACE_VALUES || which == CHART_VALUES)
        return 3 - k % 4;
    if (which == CHART_SIGNALS) /* 3841 and on, the low byte first */
        return k % 2 ? 15 : 1 + k / 2;
    return 0;
}

/* The files of the folder, and the other buffers with a byte more than their length says. */
static void prepare(struct bytes from[LENT])
{
    for (int f = 0; f < FILES; f++)
        from[f] = padded(read_file(folder, file_names[f]));
    for (int l = FILES; l < LENT; l++) {
        from[l] = block(length_of(l) + 1);
        for (size_t k = 0; k <= length_of(l); k++)
            from[l].at[k] = byte_of(l, k);
        from[l].length = length_of(l);
    }
}

int main(int count, char **words)
{
    if (count != 2) {
        fprintf(stderr, "usage: guard FOLDER\n");
        return 2;
    }
    folder = words[1];
    page = (size_t)sysconf(_SC_PAGESIZE);
    struct sigaction action = {.sa_sigaction = touched, .sa_flags = SA_SIGINFO};
    sigaction(SIGSEGV, &action, NULL);
    sigaction(SIGBUS, &action, NULL);

    struct bytes from[LENT];
    prepare(from);
    try_turning(from);
    try_charts(from);
    const struct call opening = {.name = "open"};
    try_lengths(&opening, from, 0);
    try_lengths(&opening, from, FILES);
    for (int c = 0; c < SESSION_CALLS; c++)
        try_lengths(&session_calls[c], from, FILES);

    /* refused or not, the opening leaves bytes that the calls have to do with */
    make(&opening, from, from + FILES);
    for (int c = 0; c < SESSION_CALLS; c++)
        try_lengths(&session_calls[c], from, FILES);
    try_numbers(from);
    try_damaged(from);
    printf("%lu calls\n", made);
    return 0;
}
