/* play FOLDER: a list of calls, made as a panel in C makes them.
 *
 * Opens a session on FOLDER's NET, MOD and STIM, makes the calls of FOLDER/CALLS and prints the answer to each, as
 * ANSWERS has it (tests/cases/README.md). A call with `!` is made six times: each working buffer in turn is lent one
 * byte short, then one byte long. It checks too that no call changes a byte that it has to leave alone, and that an
 * answer has no bit set that means nothing; where it finds one it says so on standard error, and exits with 1.
 */
#include <inttypes.h>

#include "calls.h"

static void fail(const struct call *call, const char *words, const char *of)
{
    fprintf(stderr, "%s: %s%s\n", call->line, words, of);
    exit(1);
}

/* Copies of the buffers, the one at `which` longer or shorter. A byte more is 0, which is in no number's way. */
static void copy(struct bytes to[BUFFERS], const struct bytes from[BUFFERS], int which, int more)
{
    for (int b = 0; b < BUFFERS; b++) {
        size_t length = from[b].length + (b == which ? (size_t)more : 0);
        to[b] = block(length);
        memset(to[b].at, 0, length);
        memcpy(to[b].at, from[b].at, length < from[b].length ? length : from[b].length);
    }
}

static void release(struct bytes buffers[BUFFERS])
{
    for (int b = 0; b < BUFFERS; b++)
        free(buffers[b].at);
}

/* A refused opening leaves zeros; otherwise a buffer that the call had no business with is as it was. */
static void check_bytes(const struct call *call, bool refused, const struct bytes before[BUFFERS],
                        const struct bytes after[BUFFERS])
{
    for (int b = 0; b < BUFFERS; b++) {
        if (refused && !strcmp(call->name, "open")) {
            for (size_t i = 0; i < after[b].length; i++)
                if (after[b].at[i])
                    fail(call, "a refused opening leaves a byte that is not 0 in ", buffer_names[b]);
        } else if ((refused || !writes(call, b)) && memcmp(before[b].at, after[b].at, after[b].length)) {
            fail(call, "it changed ", buffer_names[b]);
        }
    }
}

/* Makes the call on these buffers, and checks what it left in them. */
static uint64_t checked(const struct call *call, const struct bytes files[FILES], struct bytes lent[BUFFERS])
{
    struct bytes before[BUFFERS];
    copy(before, lent, PANEL, 0);
    uint64_t answer = make(call, files, lent);
    check_bytes(call, cavundir_refusal(answer) != CAVUNDIR_NOT_REFUSED, before, lent);
    release(before);
    return answer;
}

/* The call with each buffer of a wrong length, on copies: the session's own buffers are not lent. */
static uint64_t with_wrong_lengths(const struct call *call, const struct bytes files[FILES],
                                   const struct bytes own[BUFFERS])
{
    const uint64_t expected = (uint64_t)CAVUNDIR_LENGTH << 56;
    for (int b = 0; b < BUFFERS; b++) {
        for (int more = -1; more <= 1; more += 2) {
            struct bytes lent[BUFFERS];
            copy(lent, own, b, more);
            if (checked(call, files, lent) != expected)
                fail(call, more < 0 ? "not 40 with a byte less in " : "not 40 with a byte more in ", buffer_names[b]);
            release(lent);
        }
    }
    return expected;
}

/* Prints the answer as ANSWERS has it. A bit that the answer has no use for must be 0. */
static void print_answer(const struct call *call, uint64_t answer)
{
    uint64_t used = 0; /* a setting, a watch and the opening answer 0 */
    if (cavundir_refusal(answer) != CAVUNDIR_NOT_REFUSED) {
        used = UINT64_C(0xFF000000FFFFFFFF);
        printf("refused %u %" PRIu32 "\n", cavundir_refusal(answer), cavundir_returned(answer));
    } else if (!strcmp(call->name, "read")) {
        used = 3;
        printf("value %" PRIu32 "\n", cavundir_returned(answer));
    } else if (!strcmp(call->name, "run")) {
        used = 0x1FFFF;
        printf("done %u stopped %d\n", cavundir_cycles(answer), cavundir_stopped(answer));
    } else {
        puts("ok");
    }
    if (answer & ~used)
        fail(call, "its answer has a bit too many", "");
}

static void parse(struct call *call, char *line)
{
    line[strcspn(line, "\n")] = 0;
    *call = (struct call){.line = line, .wrong = line[0] == '!'};
    int read = sscanf(line + call->wrong, "%7s %" SCNu32 " %" SCNu32, call->name, &call->numbers[0], &call->numbers[1]);
    int wanted = !strcmp(call->name, "open")                                 ? 1
                 : !strcmp(call->name, "read") || !strcmp(call->name, "run") ? 2
                 : !strcmp(call->name, "set") || !strcmp(call->name, "watch") ? 3
                                                                              : 0;
    if (read != wanted)
        fail(call, "no call", "");
}

/* Whether the list has the opening; where it has not, it is called on a session that is open. */
static bool has_opening(FILE *calls)
{
    char line[256];
    bool found = false;
    while (fgets(line, sizeof line, calls))
        found = found || strstr(line, "open");
    rewind(calls);
    return found;
}

int main(int count, char **words)
{
    if (count != 2) {
        fprintf(stderr, "usage: play FOLDER\n");
        return 2;
    }
    char line[4096];
    snprintf(line, sizeof line, "%s/CALLS", words[1]);
    FILE *calls = fopen(line, "r");
    if (!calls) {
        perror(line);
        return 2;
    }
    struct bytes files[FILES], own[BUFFERS];
    for (int f = 0; f < FILES; f++)
        files[f] = read_file(words[1], file_names[f]);
    for (int b = 0; b < BUFFERS; b++) {
        own[b] = block(lengths[b]);
        memset(own[b].at, 0xA5, own[b].length);
    }

    struct call call = {.line = "the opening before the list", .name = "open"};
    if (!has_opening(calls) && checked(&call, files, own) != 0)
        fail(&call, "refused", "");
    while (fgets(line, sizeof line, calls)) {
        parse(&call, line);
        print_answer(&call, call.wrong ? with_wrong_lengths(&call, files, own) : checked(&call, files, own));
    }

    fclose(calls);
    release(own);
    for (int f = 0; f < FILES; f++)
        free(files[f].at);
    return 0;
}
