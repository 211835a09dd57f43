/* The check of the three files as a C programmer writes it: each line is read once into a struct, closed chains are found by
 * Tarjan's strong components. */
#include <stdbool.h>
#include <string.h>

#include "checks.h"

enum { SIGNALS = 4096, PROCESSORS = 16, SLOTS = 256, STIM_LINES = 65534, NO_PART = 9, NO_PROCESSOR = 99 };
enum { INPUT = 1, UNIT_DELAY = 2, RANK_ORDER = 3 };

struct signal {
    uint16_t kind, source[4];
};

struct pair {
    uint16_t part, location;
};

struct line {
    uint16_t signal, from;
    struct pair operand[4], send;
};

struct text {
    const uint8_t *bytes;
    size_t length, place;
};

static struct signal network[SIGNALS + 1];
static uint32_t size;
static struct line table[PROCESSORS][SLOTS];
static uint32_t processors, slots;

static uint64_t refusal(uint64_t number, uint64_t returned)
{
    return number << 56 | returned;
}

/* A number right-justified in six columns, or -1. */
static int32_t read_field(const uint8_t *column)
{
    int k = 0;
    while (k < 6 && column[k] == ' ')
        k++;
    if (k == 6 || (column[k] == '0' && k < 5))
        return -1;
    int32_t number = 0;
    for (; k < 6; k++) {
        uint8_t digit = column[k] - '0';
        if (digit > 9)
            return -1;
        number = 10 * number + digit;
    }
    return number <= 65535 ? number : -1;
}

static bool read_line(struct text *text, int fields, uint16_t *numbers)
{
    if (text->length - text->place < (size_t)(6 * fields + 1))
        return false;
    const uint8_t *column = text->bytes + text->place;
    for (int j = 0; j < fields; j++, column += 6) {
        int32_t number = read_field(column);
        if (number < 0)
            return false;
        numbers[j] = number;
    }
    text->place += 6 * fields + 1;
    return *column == '\n';
}

static bool all_zero(const uint16_t *numbers, int count)
{
    for (int j = 0; j < count; j++)
        if (numbers[j] != 0)
            return false;
    return true;
}

static bool signal_layout(const uint16_t *field, uint32_t number)
{
    if (field[0] < INPUT || field[0] > RANK_ORDER || field[1] != number)
        return false;
    if (field[0] == INPUT)
        return all_zero(field + 2, 10);
    for (int j = 3; j < 8; j++)
        if (field[j] > 6)
            return false;
    return field[2] <= 4;
}

static bool signal_sources(const uint16_t *field)
{
    for (int j = 0; j < 4; j++) {
        uint16_t source = field[8 + j];
        if (source > size || (source == 0 && field[3 + j] > 3))
            return false;
    }
    return true;
}

static bool is_rank_order(uint32_t s)
{
    return s != 0 && network[s].kind == RANK_ORDER;
}

/* The smallest signal on a closed chain of rank-order gates, or 0. */
static uint32_t first_loop(void)
{
    static uint16_t found[SIGNALS + 1], low[SIGNALS + 1], component[SIGNALS + 1], path[SIGNALS + 1];
    static uint8_t next[SIGNALS + 1], waiting[SIGNALS + 1];
    uint32_t smallest = SIGNALS + 1, count = 0, height, top = 0;
    memset(found, 0, sizeof found);
    memset(next, 0, sizeof next);
    memset(waiting, 0, sizeof waiting);

    for (uint32_t root = 1; root <= size; root++) {
        if (!is_rank_order(root) || found[root])
            continue;
        path[0] = root;
        height = 1;
        found[root] = low[root] = ++count;
        component[top++] = root;
        waiting[root] = 1;
        while (height > 0) {
            uint32_t s = path[height - 1];
            if (next[s] < 4) {
                uint32_t source = network[s].source[next[s]++];
                if (!is_rank_order(source))
                    continue;
                if (source == s && s < smallest)
                    smallest = s;
                if (!found[source]) {
                    found[source] = low[source] = ++count;
                    component[top++] = source;
                    waiting[source] = 1;
                    path[height++] = source;
                } else if (waiting[source] && found[source] < low[s]) {
                    low[s] = found[source];
                }
                continue;
            }
            height--;
            if (height > 0 && low[s] < low[path[height - 1]])
                low[path[height - 1]] = low[s];
            if (low[s] != found[s])
                continue;
            bool alone = component[top - 1] == s;
            uint32_t member;
            do {
                member = component[--top];
                waiting[member] = 0;
                if (!alone && member < smallest)
                    smallest = member;
            } while (member != s);
        }
    }
    return smallest <= SIGNALS ? smallest : 0;
}

static uint64_t check_net(struct text text)
{
    uint16_t field[12];
    if (!read_line(&text, 12, field))
        return refusal(10, 1);
    size = field[1];
    if (field[0] != 0 || size < 1 || size > SIGNALS || !all_zero(field + 2, 10))
        return refusal(11, 1);
    for (uint32_t s = 1; s <= size; s++) {
        if (!read_line(&text, 12, field))
            return refusal(10, s + 1);
        if (!signal_layout(field, s))
            return refusal(11, s + 1);
        if (!signal_sources(field))
            return refusal(12, s + 1);
        network[s].kind = field[0];
        memcpy(network[s].source, field + 8, sizeof network[s].source);
    }
    if (text.place != text.length)
        return refusal(10, size + 2);
    uint32_t loop = first_loop();
    return loop ? refusal(13, loop) : 0;
}

static bool pair_layout(struct pair pair, uint16_t parts)
{
    if (pair.part == NO_PART)
        return pair.location == 0;
    return pair.part < parts && pair.location < slots;
}

static bool line_layout(const uint16_t *field, uint32_t processor, uint32_t slot, const struct line *line)
{
    if (field[0] != processor || field[1] != slot || line->signal > size)
        return false;
    for (int j = 0; j < 4; j++)
        if (!pair_layout(line->operand[j], 4))
            return false;
    return pair_layout(line->send, 2) && (line->from < processors || line->from == NO_PROCESSOR);
}

static uint64_t read_table(struct text text)
{
    uint16_t field[14];
    if (!read_line(&text, 14, field))
        return refusal(20, 1);
    processors = field[0];
    slots = field[1];
    if (processors < 1 || processors > PROCESSORS || slots < 1 || slots > SLOTS || !all_zero(field + 2, 12))
        return refusal(21, 1);
    for (uint32_t q = 0; q < processors; q++) {
        for (uint32_t i = 0; i < slots; i++) {
            struct line *line = &table[q][i];
            if (!read_line(&text, 14, field))
                return refusal(20, q * slots + i + 2);
            line->signal = field[2];
            for (int j = 0; j < 4; j++)
                line->operand[j] = (struct pair){field[3 + 2 * j], field[4 + 2 * j]};
            line->send = (struct pair){field[11], field[12]};
            line->from = field[13];
            if (!line_layout(field, q, i, line))
                return refusal(21, q * slots + i + 2);
        }
    }
    return text.place == text.length ? 0 : refusal(20, processors * slots + 2);
}

static uint32_t first_unplaced(void)
{
    static uint16_t placed[SIGNALS + 1];
    memset(placed, 0, sizeof placed);
    for (uint32_t q = 0; q < processors; q++)
        for (uint32_t i = 0; i < slots; i++)
            placed[table[q][i].signal]++;
    for (uint32_t s = 1; s <= size; s++)
        if (placed[s] != 1)
            return s;
    return 0;
}

static bool send_right(uint32_t q, uint32_t i)
{
    struct pair send = table[q][i].send;
    if (send.part == NO_PART)
        return true;
    return table[q][send.location].signal != 0 && (send.part == 0 || send.location < i);
}

static bool reception_right(uint32_t q, uint32_t i)
{
    uint32_t from = table[q][i].from;
    return from == NO_PROCESSOR || table[from][i].send.part != NO_PART;
}

static bool operand_right(uint32_t q, uint32_t i, int j)
{
    struct pair pair = table[q][i].operand[j];
    const struct signal *gate = &network[table[q][i].signal];
    uint32_t k = pair.location, source = gate->source[j];
    if (table[q][i].signal == 0 || gate->kind == INPUT || source == 0)
        return pair.part == NO_PART;
    if (pair.part == 0)
        return gate->kind == UNIT_DELAY && table[q][k].signal == source;
    if (pair.part == 1)
        return gate->kind == RANK_ORDER && k < i && table[q][k].signal == source;
    if (pair.part == NO_PART || table[q][k].from == NO_PROCESSOR)
        return false;
    struct pair send = table[table[q][k].from][k].send;
    if (table[table[q][k].from][send.location].signal != source)
        return false;
    if (pair.part == 2)
        return send.part == 1 && gate->kind == UNIT_DELAY;
    return k < i && send.part == (gate->kind == UNIT_DELAY ? 0 : 1);
}

static bool operands_right(uint32_t q, uint32_t i)
{
    return operand_right(q, i, 0) && operand_right(q, i, 1) && operand_right(q, i, 2) && operand_right(q, i, 3);
}

static uint64_t each_line(uint64_t number, bool (*right)(uint32_t, uint32_t))
{
    for (uint32_t q = 0; q < processors; q++)
        for (uint32_t i = 0; i < slots; i++)
            if (!right(q, i))
                return refusal(number, q * slots + i + 2);
    return 0;
}

static uint64_t check_mod(struct text text)
{
    uint64_t answer = read_table(text);
    if (answer)
        return answer;
    uint32_t unplaced = first_unplaced();
    if (unplaced)
        return refusal(22, unplaced);
    if ((answer = each_line(24, send_right)) || (answer = each_line(25, reception_right)))
        return answer;
    return each_line(23, operands_right);
}

static uint64_t check_stim(struct text text)
{
    uint16_t field[3];
    uint32_t time = 0, signal = 0;
    for (uint32_t line = 1; line <= STIM_LINES; line++) {
        if (!read_line(&text, 3, field))
            return refusal(30, line);
        if (field[1] == 0) {
            if (field[2] != 0 || field[0] < time)
                return refusal(31, line);
            return text.place == text.length ? 0 : refusal(30, line + 1);
        }
        bool rising = line == 1 || field[0] > time || (field[0] == time && field[1] > signal);
        if (field[1] > size || field[2] > 3 || !rising)
            return refusal(31, line);
        if (field[0] > 0 && network[field[1]].kind != INPUT)
            return refusal(32, line);
        time = field[0];
        signal = field[1];
    }
    return refusal(30, STIM_LINES + 1);
}

uint64_t c_check_files(const uint8_t *net, size_t net_length, const uint8_t *mod, size_t mod_length, const uint8_t *stim,
                       size_t stim_length)
{
    uint64_t answer = check_net((struct text){net, net_length, 0});
    if (answer)
        return answer;
    answer = check_mod((struct text){mod, mod_length, 0});
    if (answer)
        return answer;
    return check_stim((struct text){stim, stim_length, 0});
}
