/* The listing program as a C programmer writes it over the same working buffers: reads NET, MOD and STIM in the working folder,
 * checks them, loads the buffers, runs the machine of machine.c a cycle at a time and prints what changed. */
#include <fcntl.h>
#include <stdbool.h>
#include <string.h>
#include <unistd.h>

#include "cavundir.h"
#include "checks.h"
#include "machine.h"

enum { U = 2 };
enum { NET_FIELDS = 12, MOD_FIELDS = 14, STIM_FIELDS = 3, FIELD = 6 };
enum { NET_BYTES = 299081, MOD_BYTES = 348245, STIM_BYTES = 1245146 };
enum { PIECE = SIGNALS * (FIELD * STIM_FIELDS + 1) }; /* all that one cycle can print */

/* a byte more than a file may have */
static uint8_t net[NET_BYTES + 1], mod[MOD_BYTES + 1], stim[STIM_BYTES + 1];
static uint8_t panel[PANEL], program[PROGRAM], memory[MEMORY], shown[SIGNALS + 1], piece[PIECE];

static size_t read_file(const char *name, uint8_t *bytes, size_t room)
{
    int file = open(name, O_RDONLY);
    size_t length = 0;
    ssize_t got;

    if (file < 0)
        return 0;
    while (length < room && (got = read(file, bytes + length, room - length)) > 0)
        length += got;
    close(file);
    return length;
}

static bool write_all(const uint8_t *bytes, size_t length)
{
    for (ssize_t done; length > 0; bytes += done, length -= done)
        if ((done = write(STDOUT_FILENO, bytes, length)) < 0)
            return false;
    return true;
}

/* The number at a field of a file that is accepted. */
static unsigned number(const uint8_t *file, unsigned fields, size_t line, unsigned field)
{
    const uint8_t *column = file + line * (FIELD * fields + 1) + FIELD * field;
    unsigned n = 0;

    for (int k = 0; k < FIELD; k++)
        if (column[k] != ' ')
            n = 10 * n + column[k] - '0';
    return n;
}

static uint8_t *put_field(uint8_t *column, unsigned n)
{
    int k = FIELD - 1;

    do
        column[k--] = '0' + n % 10;
    while ((n /= 10) > 0);
    while (k >= 0)
        column[k--] = ' ';
    return column + FIELD;
}

static uint8_t *put_line(uint8_t *place, unsigned time, unsigned signal, unsigned value)
{
    place = put_field(put_field(put_field(place, time), signal), value);
    *place = '\n';
    return place + 1;
}

static void put_word(uint8_t *at, unsigned n)
{
    at[0] = n % 256;
    at[1] = n / 256;
}

static void load_network(unsigned signals)
{
    put_word(panel + N_AT, signals);
    put_word(panel + WATCHED, 1);
    for (unsigned s = 1; s <= signals; s++) {
        uint8_t *entry = panel + SIGNAL * s;
        entry[KIND] = number(net, NET_FIELDS, s, 0);
        for (int j = 0; j < 6; j++)
            entry[CODES + j] = number(net, NET_FIELDS, s, 2 + j);
        entry[HAND] = U;
    }
}

static void load_line(unsigned p, unsigned i, size_t file_line)
{
    uint8_t *line = program + LINE * (PROCESSORS * i + p);
    unsigned signal = number(mod, MOD_FIELDS, file_line, 2);

    put_word(line, signal);
    for (int j = 0; j < 11; j++)
        line[OPERANDS + j] = number(mod, MOD_FIELDS, file_line, 3 + j);
    if (signal != 0) {
        panel[SIGNAL * signal + PLACE] = p;
        panel[SIGNAL * signal + PLACE + 1] = i;
    }
}

/* Loads the table; answers the number of its slots. */
static unsigned load_table(void)
{
    unsigned processors = number(mod, MOD_FIELDS, 0, 0), slots = number(mod, MOD_FIELDS, 0, 1);

    panel[P_AT] = processors;
    put_word(panel + C_AT, slots);
    for (unsigned p = 0; p < processors; p++)
        for (unsigned i = 0; i < slots; i++)
            load_line(p, i, 1 + p * slots + i);
    return slots;
}

/* Takes the settings of a time from the lines of STIM; answers the line after them. */
static size_t take_settings(size_t line, unsigned time)
{
    for (;; line++) {
        unsigned signal = number(stim, STIM_FIELDS, line, 1);
        if (signal == 0 || number(stim, STIM_FIELDS, line, 0) != time)
            return line;
        panel[SIGNAL * signal + HAND] = number(stim, STIM_FIELDS, line, 2);
    }
}

static uint8_t hand_at(unsigned p, unsigned i)
{
    const uint8_t *line = program + LINE * (PROCESSORS * i + p);

    return panel[SIGNAL * (line[0] + 256u * line[1]) + HAND];
}

/* Time 0 in the earlier local half, and what is sent in both halves of the switch. */
static void load_memory(unsigned slots)
{
    for (unsigned p = 0; p < panel[P_AT]; p++) {
        uint8_t *own = memory + OWN * p;
        for (unsigned i = 0; i < slots; i++) {
            const uint8_t *lines = program + LINE * PROCESSORS * i;
            uint8_t sender = lines[LINE * p + SENDER];
            if (lines[LINE * p] != 0 || lines[LINE * p + 1] != 0)
                own[i] = hand_at(p, i);
            if (sender != NO_SENDER)
                own[2 * PART + i] = own[3 * PART + i] = hand_at(sender, lines[LINE * sender + SEND + 1]);
        }
    }
}

static bool print_changes(unsigned time, unsigned signals)
{
    uint8_t *end = piece;

    for (unsigned s = 1; s <= signals; s++) {
        const uint8_t *place = panel + SIGNAL * s + PLACE;
        uint8_t value = memory[OWN * place[0] + place[1]];
        if (value != shown[s]) {
            shown[s] = value;
            end = put_line(end, time, s, value);
        }
    }
    return write_all(piece, end - piece);
}

static bool print_listing(unsigned end_time)
{
    unsigned signals = number(net, NET_FIELDS, 0, 1);

    load_network(signals);
    unsigned slots = load_table();
    size_t line = take_settings(0, 0);
    load_memory(slots);
    memset(shown, 4, sizeof shown); /* no value: at time 0 all are printed */
    if (!print_changes(0, signals))
        return false;
    for (unsigned time = 1; time <= end_time; time++) {
        line = take_settings(line, time);
        c_run(panel, program, memory, 1);
        if (!print_changes(time, signals))
            return false;
    }
    return write_all(piece, put_line(piece, end_time, 0, 0) - piece);
}

int main(void)
{
    size_t net_length = read_file("NET", net, sizeof net), mod_length = read_file("MOD", mod, sizeof mod);
    size_t stim_length = read_file("STIM", stim, sizeof stim);
    uint64_t refusal = c_check_files(net, net_length, mod, mod_length, stim, stim_length);

    if (refusal != 0) {
        uint8_t *end = put_field(put_field(piece, cavundir_refusal(refusal)), cavundir_returned(refusal));
        *end = '\n';
        return !write_all(piece, end + 1 - piece);
    }
    return !print_listing(number(stim, STIM_FIELDS, stim_length / (FIELD * STIM_FIELDS + 1) - 1, 0));
}
