#!/usr/bin/env python3
"""Files for trials: accepted ones at random, damage to them, pairs at the ends of what is accepted, hard networks.

A random triple of NET, MOD and STIM follows from a seed and a number, so it can be made again:
    tests/independent/generate.py SEED NUMBER FOLDER
writes it to a folder, and prints what was done to it and what document 01 says of it.
"""
import functools
import random
import sys
from pathlib import Path

sys.dont_write_bytecode = True
from cavundir import INPUT, NO_PROCESSOR, NONE, NO_PART, RANK_ORDER, UNIT_DELAY, check_files

NET, MOD, STIM = range(3)
# columns of a row
KIND, F, G, SOURCES = 0, 2, 3, 8
SIGNAL, OPERANDS, SEND, SENDER = 2, 3, 11, 13
# how many triples are made of one accepted triple; the first of them is that triple itself
FAMILY = 20
# translations of a source or a result: seldom constants, which would hide what stands before them
TRANSLATIONS = 0, 1, 2, 3, 4, 4, 4, 5, 5, 6


def text(rows):
    """The bytes of a file. A number that is too large, or below 0, makes its line misformed."""
    return b"".join((b"%6d" * len(row) + b"\n") % tuple(row) for row in rows)


def texts(tables):
    return tuple(text(rows) for rows in tables)


# Accepted files


def accepted(rnd, processors, slots, filled=0.8, sent=0.6, kinds=(1, 2, 2)):
    """The rows of NET, MOD and STIM. Signals, sends and senders are drawn first; then each gate takes as sources what
    some operand can carry to it, so no operand is wrong and no chain is closed. `kinds` weighs inputs, unit-delay and
    rank-order gates."""
    places = [(processor, slot) for processor in range(processors) for slot in range(slots)]
    used = [place for place in places if rnd.random() < filled] or [rnd.choice(places)]
    numbers = list(range(1, len(used) + 1))
    rnd.shuffle(numbers)
    signal = dict(zip(used, numbers))
    kind = [0] + rnd.choices((INPUT, UNIT_DELAY, RANK_ORDER), kinds, k=len(used))

    send, sender = {}, {}
    for processor, slot in places:
        part = rnd.randrange(2)
        below = slots if part == 0 else slot
        location = rnd.randrange(below) if below else 0
        if rnd.random() < sent and location < below and (processor, location) in signal:
            send[processor, slot] = part, location
    for processor, slot in places:
        senders = [other for other in range(processors) if (other, slot) in send]
        if senders and rnd.random() < sent:
            sender[processor, slot] = rnd.choice(senders)

    def carried(part, location, processor, slot, kind):
        """The signal that an operand brings to a gate of this kind, in time; 0 if there is none."""
        if part in (1, 3) and location >= slot:
            return 0
        if part in (0, 1):
            return signal.get((processor, location), 0)
        other = sender.get((processor, location))
        if other is None:
            return 0
        sent_part, sent_location = send[other, location]
        wanted = 1 if part == 2 or kind == RANK_ORDER else 0
        return signal[other, sent_location] if sent_part == wanted else 0

    net = [[0, len(used)] + [0] * 10] + [[INPUT, number] + [0] * 10 for number in range(1, len(used) + 1)]
    mod = [[processors, slots] + [0] * 12]
    for processor, slot in places:
        number = signal.get((processor, slot), 0)
        operands = [NONE] * 4
        if kind[number] in (UNIT_DELAY, RANK_ORDER):
            sources, g = [0] * 4, [rnd.randrange(4) for _ in range(4)]
            for j in range(4):
                for _ in range(3):
                    part = rnd.choice((0, 2, 3) if kind[number] == UNIT_DELAY else (1, 3))
                    location = rnd.randrange(slots)
                    source = carried(part, location, processor, slot, kind[number])
                    if source:
                        operands[j], sources[j], g[j] = (part, location), source, rnd.choice(TRANSLATIONS)
                        break
            net[number] = [kind[number], number, rnd.randrange(5), *g, rnd.choice(TRANSLATIONS), *sources]
        pairs = operands + [send.get((processor, slot), NONE)]
        mod.append([processor, slot, number] + [number for pair in pairs for number in pair]
                   + [sender.get((processor, slot), NO_PROCESSOR)])

    stim = [[0, number, rnd.randrange(4)] for number in range(1, len(used) + 1) if rnd.random() < 0.5]
    time = 0
    for _ in range(rnd.randrange(6)):
        time += rnd.randint(1, 3)
        stim += [[time, number, rnd.randrange(4)]
                 for number in range(1, len(used) + 1) if kind[number] == INPUT and rnd.random() < 0.4]
    stim.append([time + rnd.randrange(4), 0, 0])
    return net, mod, stim


def largest(rnd, kinds=(1, 2, 2)):
    """The largest files: 16 processors of 256 slots, a signal in each, and 65534 lines of STIM."""
    net, mod, stim = accepted(rnd, 16, 256, filled=1, sent=1, kinds=kinds)
    inputs = [number for number, row in enumerate(net) if number and row[KIND] == INPUT]
    stim = [[0, number, rnd.randrange(4)] for number in range(1, 4097)]
    for line in range(65534 - 4096 - 1):
        stim.append([1 + line // len(inputs), inputs[line % len(inputs)], rnd.randrange(4)])
    stim.append([65535, 0, 0])
    return net, mod, stim


# Damage. A function here changes the rows of one file or more, and answers False if these files have no place for it.


def pick(rnd, rows, fits=lambda row: True):
    """Some row after the first, or None."""
    fitting = [row for row in rows[1:] if fits(row)]
    return rnd.choice(fitting) if fitting else None


def gates(row):
    return row[KIND] in (UNIT_DELAY, RANK_ORDER)


def boundary(rnd, tables, old):
    size, processors, slots = len(tables[NET]) - 1, tables[MOD][0][0], tables[MOD][0][1]
    return rnd.choice((
        0, 1, 2, 3, 4, 5, 6, 7, 8, 9, 10, 15, 16, 17, 98, 99, 100, 255, 256, 257, 4095, 4096, 4097,
        size - 1, size, size + 1, processors - 1, processors, processors + 1, slots - 1, slots, slots + 1,
        old - 1, old + 1, old + 1, 65534, 65535, 65536, 99999, 100000, 999999, -1))


def change_number(rnd, tables):
    row = rnd.choice(rnd.choice(tables))
    column = rnd.randrange(len(row))
    row[column] = boundary(rnd, tables, row[column])


def change_first_line(rnd, tables):
    row = tables[rnd.choice((NET, MOD))][0]
    column = rnd.choice((0, 1, 1, rnd.randrange(len(row))))
    row[column] = boundary(rnd, tables, row[column])


def swap_lines(rnd, tables):
    rows = rnd.choice(tables)
    if len(rows) < 2:
        return False
    a, b = rnd.sample(range(len(rows)), 2)
    rows[a], rows[b] = rows[b], rows[a]


def drop_line(rnd, tables):
    rows = rnd.choice(tables)
    if len(rows) < 2:
        return False
    del rows[rnd.choice((-1, rnd.randrange(1, len(rows))))]


def repeat_line(rnd, tables):
    rows = rnd.choice(tables)
    at = rnd.choice((len(rows) - 1, rnd.randrange(len(rows))))
    rows.insert(at, rows[at].copy())


def change_code(rnd, tables):
    row = pick(rnd, tables[NET], gates)
    if not row:
        return False
    column = rnd.randrange(F, SOURCES)
    row[column] = rnd.randrange(9)


def change_kind(rnd, tables):
    row = pick(rnd, tables[NET])
    if not row:
        return False
    row[KIND] = rnd.choice((1, 2, 2, 3, 3, 3, 4))
    if row[KIND] == INPUT and rnd.random() < 0.7:
        row[2:] = [0] * 10


def change_source(rnd, tables):
    row = pick(rnd, tables[NET], gates)
    if not row:
        return False
    size = len(tables[NET]) - 1
    some = rnd.randint(1, size)
    row[SOURCES + rnd.randrange(4)] = rnd.choice((some, some, row[1], 0, size, size + 1, 65535))


def lose_constant(rnd, tables):
    """Source 0 under a translation that needs one."""
    row = pick(rnd, tables[NET], gates)
    if not row:
        return False
    j = rnd.randrange(4)
    row[SOURCES + j], row[G + j] = 0, rnd.randint(3, 6)


def close_ring(rnd, tables):
    """A ring of gates, most often all of them rank-order, and some gates behind it that are on no closed chain."""
    rows = [row for row in tables[NET][1:] if gates(row)]
    rnd.shuffle(rows)
    ring = rows[:rnd.choice((1, 1, 2, 2, 3, 4, len(rows)))]
    if not ring:
        return False
    for row, after in zip(ring, ring[1:] + ring[:1]):
        row[KIND] = RANK_ORDER if rnd.random() < 0.95 else UNIT_DELAY
        row[SOURCES + rnd.randrange(4)] = after[1]
    for row in rows[len(ring):len(ring) + rnd.randrange(4)]:
        row[KIND] = RANK_ORDER
        row[SOURCES + rnd.randrange(4)] = rnd.choice(ring)[1]


def change_placed(rnd, tables):
    row = pick(rnd, tables[MOD])
    if not row:
        return False
    size = len(tables[NET]) - 1
    row[SIGNAL] = rnd.choice((0, rnd.randint(1, max(size, 1)), size, size + 1))


def exchange_placed(rnd, tables):
    a, b = pick(rnd, tables[MOD]), pick(rnd, tables[MOD])
    if not a:
        return False
    first, last = rnd.choice(((SIGNAL, SIGNAL), (SIGNAL, SEND - 1), (SIGNAL, SENDER), (SEND, SENDER)))
    a[first:last + 1], b[first:last + 1] = b[first:last + 1], a[first:last + 1]


def change_pair(rnd, row, at, parts, slots):
    """Another part, another location, both, or none."""
    what = rnd.randrange(4)
    if what == 3:
        row[at:at + 2] = NONE
    if what in (0, 2):
        row[at] = rnd.choice(parts)
    if what in (1, 2):
        some = rnd.randrange(slots)
        row[at + 1] = rnd.choice((some, some, row[1], row[1] - 1, row[at + 1] + 1, slots))


def change_operand(rnd, tables):
    row = pick(rnd, tables[MOD], lambda row: rnd.random() < 0.2 or set(row[OPERANDS:SEND:2]) != {NO_PART})
    if not row:
        return False
    change_pair(rnd, row, OPERANDS + 2 * rnd.randrange(4), (0, 1, 2, 3, 0, 1, 2, 3, 9, 4), max(tables[MOD][0][1], 1))


def lose_operand(rnd, tables):
    row = pick(rnd, tables[MOD], lambda row: set(row[OPERANDS:SEND:2]) != {NO_PART})
    if not row:
        return False
    at = OPERANDS + 2 * rnd.choice([j for j in range(4) if row[OPERANDS + 2 * j] != NO_PART])
    row[at:at + 2] = NONE


def add_operand(rnd, tables):
    """An operand where none is wanted, in an empty slot and an input's among others."""
    row = pick(rnd, tables[MOD], lambda row: NO_PART in row[OPERANDS:SEND:2])
    if not row:
        return False
    at = OPERANDS + 2 * rnd.choice([j for j in range(4) if row[OPERANDS + 2 * j] == NO_PART])
    row[at:at + 2] = rnd.randrange(4), rnd.randrange(max(tables[MOD][0][1], 1))


def change_send(rnd, tables):
    row = pick(rnd, tables[MOD])
    if not row:
        return False
    change_pair(rnd, row, SEND, (0, 1, 0, 1, 0, 1, 9, 2), max(tables[MOD][0][1], 1))


def send_late(rnd, tables):
    """Part 1 at the own slot or above, or the last location below it."""
    slots = max(tables[MOD][0][1], 1)
    row = pick(rnd, tables[MOD], lambda row: row[1] < slots)
    if not row:
        return False
    row[SEND:SENDER] = 1, rnd.choice((row[1], min(row[1] + 1, slots - 1), max(row[1] - 1, 0)))


def send_empty(rnd, tables):
    empty = pick(rnd, tables[MOD], lambda row: row[SIGNAL] == 0)
    row = empty and pick(rnd, tables[MOD], lambda row: row[0] == empty[0])
    if not row:
        return False
    row[SEND:SENDER] = rnd.randrange(2), empty[1]


def lose_send(rnd, tables):
    row = pick(rnd, tables[MOD], lambda row: row[SEND] != NO_PART)
    if not row:
        return False
    row[SEND:SENDER] = NONE


def change_sender(rnd, tables):
    row = pick(rnd, tables[MOD])
    if not row:
        return False
    processors = max(tables[MOD][0][0], 1)
    some = rnd.randrange(processors)
    row[SENDER] = rnd.choice((some, some, some, NO_PROCESSOR, processors - 1, processors, NO_PROCESSOR - 1))


def change_line_of_stim(rnd, tables):
    row = rnd.choice(tables[STIM])
    size = len(tables[NET]) - 1
    column = rnd.randrange(3)
    row[column] = rnd.choice((
        (row[0] - 1, row[0] + 1, 0, 65535), (row[1] - 1, row[1] + 1, 0, size, size + 1), (row[2] + 1, 3, 4, 0))[column])


def late_gate(rnd, tables):
    """A gate's value at a time after 0, in its place by time and signal."""
    gate = pick(rnd, tables[NET], gates)
    if not gate:
        return False
    stim = tables[STIM]
    row = [rnd.randint(1, max(stim[-1][0], 1)), gate[1], rnd.randrange(4)]
    stim[-1][0] = max(stim[-1][0], 1)
    stim.insert(sum(other < row for other in stim[:-1]), row)


def late_input(rnd, tables):
    """As late_gate, but an input, which may have a value at any time."""
    row = pick(rnd, tables[NET], lambda row: row[KIND] == INPUT)
    if not row:
        return False
    row = [rnd.randint(0, max(tables[STIM][-1][0], 1)), row[1], rnd.randrange(4)]
    tables[STIM][-1][0] = max(tables[STIM][-1][0], 1)
    tables[STIM].insert(sum(other < row for other in tables[STIM][:-1]), row)


# the number after a name says how often it is drawn
DAMAGE_TO_ROWS = {
    change_number: 6, change_first_line: 1, swap_lines: 1, drop_line: 1, repeat_line: 1, change_code: 2, change_kind: 2,
    change_source: 3, lose_constant: 2, close_ring: 4, change_placed: 3, exchange_placed: 2, change_operand: 3,
    lose_operand: 1, add_operand: 1, change_send: 3, send_late: 2, send_empty: 1, lose_send: 3, change_sender: 3,
    change_line_of_stim: 4, late_gate: 4, late_input: 2}


# Damage to the bytes of one file.


def other_byte(rnd, data):
    at = rnd.randrange(len(data))
    return data[:at] + bytes([rnd.choice(b" \t\0\r\n\v\f+-.0123456789aA_\x80\xff")]) + data[at + 1:]


def more_byte(rnd, data):
    at = rnd.randrange(len(data) + 1)
    return data[:at] + rnd.choice((b" ", b"\n", b"0", b"1", b"\0", b"\r", b"\t")) + data[at:]


def less_byte(rnd, data):
    at = rnd.randrange(len(data))
    return data[:at] + data[at + 1:]


def swap_bytes(rnd, data):
    at = rnd.randrange(max(len(data) - 1, 1))
    return data[:at] + data[at:at + 2][::-1] + data[at + 2:]


def before_number(rnd, data):
    """A zero, a sign or another byte in the column before a number."""
    columns = [at for at in range(len(data) - 1) if data[at] == 32 and data[at + 1] != 32]
    if not columns:
        return data
    at = rnd.choice(columns)
    return data[:at] + rnd.choice((b"0", b"0", b"+", b"-", b"\t", b"\0", b"1", b"9")) + data[at + 1:]


def cut(rnd, data):
    ends = [at + near for at, byte in enumerate(data) if byte == 10 for near in (-1, 0, 1, 1, 2)]
    return data[:rnd.choice(ends + [rnd.randrange(len(data)), 0])]


def add(rnd, data):
    last = data[data.rfind(b"\n", 0, -1) + 1:]
    return data + rnd.choice((b"\n", b" ", b"\0", b"\x1a", b"0", last, last[:-1], b"     0" * 3 + b"\n", b"\r\n"))


def carriage_returns(rnd, data):
    return data.replace(b"\n", b"\r\n", rnd.choice((1, -1)))


def no_bytes(rnd, data):
    return b""


DAMAGE_TO_BYTES = {
    other_byte: 6, more_byte: 2, less_byte: 2, swap_bytes: 2, before_number: 3, cut: 3, add: 4, carriage_returns: 1,
    no_bytes: 1}


def damaged(rnd, tables):
    """The three files with one to three kinds of damage, and their names."""
    tables = [[row.copy() for row in rows] for rows in tables]
    kinds = {**DAMAGE_TO_ROWS, **DAMAGE_TO_BYTES}
    drawn = rnd.choices(list(kinds), list(kinds.values()), k=rnd.choice((1, 1, 1, 2, 2, 3)))
    names = [damage.__name__ for damage in drawn if damage in DAMAGE_TO_ROWS and damage(rnd, tables) is not False]
    files = list(texts(tables))
    for damage in drawn:
        if damage in DAMAGE_TO_BYTES:
            which = rnd.randrange(3)
            if files[which]:
                files[which] = damage(rnd, files[which])
                names.append(f"{damage.__name__} in {('NET', 'MOD', 'STIM')[which]}")
    return ", ".join(names) or "nothing", tuple(files)


@functools.lru_cache(maxsize=1)
def family(seed, number):
    rnd = random.Random(f"{seed} family {number}")
    most_processors, most_slots = rnd.choice(((3, 8), (3, 8), (3, 8), (16, 4), (6, 16)))
    return accepted(rnd, rnd.randint(1, most_processors), rnd.randint(1, most_slots),
                    filled=rnd.choice((0.5, 0.8, 0.9, 1)), sent=rnd.choice((0, 0.5, 0.8, 1)),
                    kinds=rnd.choice(((1, 2, 2), (1, 2, 2), (1, 0, 4), (1, 4, 0), (4, 1, 1), (0, 1, 1))))


@functools.lru_cache(maxsize=1)
def largest_of(seed):
    return largest(random.Random(f"{seed} largest"))


def triple(seed, number):
    """What was done, and the three files. A number below 0 is damage to the largest files."""
    if number < 0:
        return damaged(random.Random(f"{seed} {number}"), largest_of(seed))
    tables = family(seed, number // FAMILY)
    if number % FAMILY == 0:
        return "nothing", texts(tables)
    return damaged(random.Random(f"{seed} {number}"), tables)


# Pairs at the ends of what is accepted


def signals(*rows):
    """NET's rows of signals, each as kind and sources; a gate hands its first source on."""
    net = [[0, len(rows)] + [0] * 10]
    for kind, *sources in rows:
        sources += [0] * (4 - len(sources))
        codes = [4 if source else 0 for source in sources]
        net.append([kind, len(net)] + ([0] * 10 if kind == INPUT else [2, *codes, 4, *sources]))
    return net


def module(processors, slots, places, operands={}, sends={}, senders={}):
    """MOD's rows. `places` has the signals by processor and slot, `operands` the first operand."""
    mod = [[processors, slots] + [0] * 12]
    for place in ((processor, slot) for processor in range(processors) for slot in range(slots)):
        mod.append([*place, places.get(place, 0), *operands.get(place, NONE), *NONE, *NONE, *NONE,
                    *sends.get(place, NONE), senders.get(place, NO_PROCESSOR)])
    return mod


def boundaries():
    """Names, three files, and what document 01 says of them: None where they are accepted."""
    tables = largest(random.Random(1))
    full = texts(tables)
    net, mod, stim = full
    yield "N 4096, P 16, C 256, 65534 lines of STIM", full, None
    yield "N 4097", (text([[0, 4097] + [0] * 10] + tables[NET][1:] + [[INPUT, 4097] + [0] * 10]), mod, stim), (11, 1)
    yield "N 4096 and a line more", (net + text([[INPUT, 4097] + [0] * 10]), mod, stim), (10, 4098)
    yield "N 4096 and a line less", (net[:-73], mod, stim), (10, 4097)
    yield "P 16, C 256 and a line more", (net, mod + mod[-85:], stim), (20, 4098)
    yield "P 16, C 256 and a line less", (net, mod[:-85], stim), (20, 4097)
    yield "65534 lines of STIM and a byte", (net, mod, stim + b" "), (30, 65535)
    yield "65534 lines of STIM and a line", (net, mod, stim + stim[-19:]), (30, 65535)
    yield "65533 lines of STIM, the last of them missing", (net, mod, stim[:-19]), (30, 65534)
    yield "65534 lines of STIM, no end", (net, mod, stim[:-19] + text([[65535, tables[STIM][-2][1], 0]])), (30, 65535)
    yield "65534 lines of STIM, no end, then the end", (
        net, mod, stim[:-19] + text([[65535, tables[STIM][-2][1], 0], [65535, 0, 0]])), (30, 65535)
    yield "65534 lines of STIM, the last a time below", (net, mod, stim[:-19] + text([[1, 0, 0]])), (31, 65534)

    one, end = text(signals([INPUT])), text([[0, 0, 0]])
    for processors, slots in (
            (1, 1), (16, 1), (1, 256), (16, 256), (0, 1), (1, 0), (17, 1), (1, 257), (16, 257), (17, 256)):
        expected = None if 1 <= processors <= 16 and 1 <= slots <= 256 else (21, 1)
        yield f"P {processors}, C {slots}", (one, text(module(processors, slots, {(0, 0): 1})), end), expected
    yield "N 0", (text([[0] * 12]), text(module(1, 1, {})), end), (11, 1)

    # two processors of six slots; 1 to 3 are inputs, 4 and 5 unit-delay, 6 and 7 rank-order gates
    net = signals([INPUT], [INPUT], [INPUT], [UNIT_DELAY, 1], [UNIT_DELAY, 2], [RANK_ORDER, 4], [RANK_ORDER, 2])
    places = {(0, 0): 1, (0, 3): 2, (0, 4): 4, (0, 5): 6, (1, 1): 3, (1, 4): 5, (1, 5): 7}
    operands = {(0, 4): (0, 0), (0, 5): (1, 4), (1, 4): (2, 4), (1, 5): (3, 4)}
    mod = module(2, 6, places, operands, {(0, 4): (1, 3)}, {(1, 4): 0})
    stim = [[0, 1, 0], [0, 4, 3], [2, 1, 1], [2, 2, 3], [5, 3, 0], [5, 0, 0]]
    base = net, mod, stim
    yield "two processors", texts(base), None

    def other(which, line, column, value):
        tables = [[row.copy() for row in rows] for rows in base]
        tables[which][line - 1][column] = value
        return texts(tables)

    def one_number(name, which, line, column, answers):
        """The same number at values on both sides of an end."""
        for value, expected in answers:
            yield f"{name} {value}", other(which, line, column, value), expected

    yield from one_number("kind", NET, 4, 0, ((0, (11, 4)), (1, None), (4, (11, 4))))
    yield from one_number("f", NET, 5, 2, ((4, None), (5, (11, 5))))
    yield from one_number("g1", NET, 5, 3, ((6, None), (7, (11, 5))))
    yield from one_number("g5", NET, 5, 7, ((6, None), (7, (11, 5))))
    yield from one_number("g2 without a source", NET, 5, 4, ((3, None), (4, (12, 5)), (6, (12, 5)), (7, (11, 5))))
    yield from one_number("source", NET, 5, 9, (
        (0, None), (7, (23, 6)), (8, (12, 5)), (65535, (12, 5)), (65536, (10, 5)), (-1, (10, 5))))
    yield from one_number("an input's source", NET, 2, 8, ((1, (11, 2)), (65535, (11, 2)), (65536, (10, 2))))
    yield from one_number("a rank-order gate's source", NET, 8, 8, (
        (2, None), (6, (23, 13)), (7, (13, 7)), (8, (12, 8))))
    yield from one_number("a unit-delay gate's source", NET, 5, 8, ((1, None), (4, (23, 6)), (6, (23, 6))))
    yield from one_number("signal", NET, 8, 1, ((7, None), (6, (11, 8)), (8, (11, 8))))
    yield from one_number("fixed zero", NET, 1, 11, ((0, None), (1, (11, 1))))

    yield from one_number("placed in an empty slot", MOD, 3, 2, ((0, None), (7, (22, 7)), (8, (21, 3))))
    yield from one_number("operand's part", MOD, 6, 3, (
        (0, None), (1, (23, 6)), (2, (23, 6)), (3, (23, 6)), (4, (21, 6)), (8, (21, 6)), (9, (23, 6)), (10, (21, 6))))
    yield from one_number("operand's location", MOD, 7, 4, ((4, None), (5, (23, 7)), (6, (21, 7))))
    yield from one_number("none with location", MOD, 2, 4, ((0, None), (1, (21, 2))))
    yield from one_number("send's part", MOD, 6, 11, (
        (1, None), (0, (23, 12)), (2, (21, 6)), (8, (21, 6)), (9, (21, 6))))
    yield from one_number("send's location", MOD, 6, 12, ((3, None), (4, (24, 6)), (1, (24, 6)), (6, (21, 6))))
    yield from one_number("sender", MOD, 12, 13, (
        (0, None), (1, (25, 12)), (2, (21, 12)), (98, (21, 12)), (99, (23, 12)), (100, (21, 12))))
    yield from one_number("processor", MOD, 8, 0, ((1, None), (0, (21, 8)), (2, (21, 8))))
    yield from one_number("slot", MOD, 8, 1, ((0, None), (1, (21, 8))))
    yield from one_number("fixed zero", MOD, 1, 13, ((0, None), (1, (21, 1))))

    yield from one_number("value", STIM, 4, 2, ((3, None), (4, (31, 4)), (65535, (31, 4)), (65536, (30, 4))))
    yield from one_number("signal at time 0", STIM, 2, 1, ((7, None), (8, (31, 2)), (2, None), (1, (31, 2))))
    yield from one_number("signal at a later time", STIM, 5, 1, ((3, None), (4, (32, 5)), (7, (32, 5)), (8, (31, 5))))
    yield from one_number("same time, signal", STIM, 4, 1, ((2, None), (1, (31, 4)), (3, None)))
    yield from one_number("last time", STIM, 6, 0, ((4, (31, 6)), (5, None), (65535, None), (65536, (30, 6))))
    yield from one_number("last value", STIM, 6, 2, ((0, None), (1, (31, 6))))
    yield from one_number("end before the end", STIM, 2, 1, ((0, (31, 2)),))
    yield from one_number("end at line 1", STIM, 1, 1, ((0, (30, 2)),))

    for which, name, number in ((NET, "NET", 10), (MOD, "MOD", 20), (STIM, "STIM", 30)):
        files = texts(base)
        lines = len(base[which])

        def put(data):
            return files[:which] + (data,) + files[which + 1:]

        yield f"{name} without bytes", put(b""), (number, 1)
        yield f"{name} without its last byte", put(files[which][:-1]), (number, lines)
        yield f"{name} without its last line", put(text(base[which][:-1])), (number, lines)
        for more in (b"\n", b" ", b"\0", text(base[which][-1:])):
            yield f"{name} and {more[:6]!r}", put(files[which] + more), (number, lines + 1)

    # sends: part 1 from below its own slot alone, part 0 from any slot that has a signal
    inputs = text(signals(*[[INPUT]] * 6))
    places = {(0, slot): slot + 1 for slot in range(6)}
    for part, slot, expected in (
            (1, 5, None), (1, 4, (24, 6)), (1, 3, (24, 5)), (0, 5, None), (0, 4, None), (0, 0, None)):
        mod = module(1, 7, places, sends={(0, slot): (part, 4)})
        yield f"send part {part} location 4 in slot {slot}", (inputs, text(mod), end), expected
    for part in (0, 1):
        mod = module(1, 8, places, sends={(0, 7): (part, 6)})
        yield f"send part {part} of an empty slot", (inputs, text(mod), end), (24, 9)
    mod = module(1, 8, places, sends={(0, 7): (1, 5)}, senders={(0, 7): 0})
    yield "an empty slot sends, and receives from its own processor", (inputs, text(mod), end), None

    # operands at the gate's own slot and beside it: the gate is in slot 3, and takes its source from the switch, then
    # from its own processor (at location 3 that is the gate itself)
    for kind in (UNIT_DELAY, RANK_ORDER):
        for location in (2, 3, 4):
            net = text(signals([INPUT], [kind, 1]))
            for part, sent in ((2, 0), (2, 1), (3, 0), (3, 1)):
                mod = module(2, 5, {(0, 1): 1, (1, 3): 2}, {(1, 3): (part, location)},
                             {(0, location): (sent, 1)}, {(1, location): 0})
                in_time = (kind, part, sent) == (UNIT_DELAY, 2, 1) or location < 3 and (kind, part, sent) in (
                    (UNIT_DELAY, 3, 0), (RANK_ORDER, 3, 1))
                yield (f"kind {kind}, part {part} location {location} of a send of part {sent}", (net, text(mod), end),
                       None if in_time else (23, 10))
            for part in (0, 1):
                source = 2 if location == 3 else 1
                net = text(signals([INPUT], [kind, source]))
                mod = module(1, 5, {(0, 0 if location == 3 else location): 1, (0, 3): 2}, {(0, 3): (part, location)})
                in_time = part == 0 if kind == UNIT_DELAY else part == 1 and location < 3
                expected = None if in_time else (23, 5)
                if kind == RANK_ORDER and source == 2:
                    expected = 13, 2
                yield f"kind {kind}, part {part} location {location}", (net, text(mod), end), expected

    # no MOD can place so long a chain, so it is absent: what NET passes gets 20
    for name, net, answer in hard_networks():
        yield name, (text(net), b"", b""), answer or (20, 1)


# Networks that are hard for 13


def hard_networks():
    """Names, NET's rows, and what NET's check says of them: None where it passes. All gates are rank-order; a signal
    without sources is an input. Each shape is there with rising and falling numbers, since a search in the order of the
    numbers is fast on one and slow on the other."""
    rnd = random.Random(3)
    size = 4096
    all_numbers = range(1, size + 1)

    def net(sources):
        rows = ([source for source in sources(number) if 1 <= source <= size] for number in all_numbers)
        return signals(*([RANK_ORDER, *row] if row else [INPUT] for row in rows))

    def at_random(sources):
        """The same network, numbered otherwise."""
        new = [0] + rnd.sample(all_numbers, size)
        old = {new[number]: number for number in all_numbers}
        return net(lambda number: [new[source] for source in sources(old[number]) if 1 <= source <= size])

    def before(number):
        return [number - 1]

    def after(number):
        return [number + 1]

    def four_after(number):
        return range(number + 1, number + 5)

    def ring(number):
        return [number % size + 1]

    yield "chain of 4095, each fed by the one before", net(before), None
    yield "chain of 4095, each fed by the one after", net(after), None
    yield "chain of 4095, numbers at random", at_random(before), None
    yield "the first chain closed, signal 1 apart", net(lambda number: [number - 1 if number != 2 else size]), (13, 2)
    yield "ring of 4096, each fed by the one after", net(ring), (13, 1)
    yield "ring of 4096, each fed by the one before", net(lambda number: [number - 1 or size]), (13, 1)
    yield "ring of 4096, numbers at random", at_random(ring), (13, 1)
    yield "each fed by the four before", net(lambda number: range(number - 4, number)), None
    yield "each fed by the four after", net(four_after), None
    yield "each fed by four before, at random", net(lambda number: rnd.choices(range(number), k=4)), None
    yield "each fed by four after, at random", net(lambda number: rnd.choices(range(number + 1, size + 2), k=4)), None
    yield "1024 rings of four", net(lambda number: [number + 1 if number % 4 else number - 3]), (13, 1)
    yield "4096 gates, each fed by itself", net(lambda number: [number]), (13, 1)

    # gates that depend on a ring and are on none. The ring has the highest numbers, so each of the others is in its way
    def behind(first, feeds, ring=lambda number, first: [number + 1 if number < size else first]):
        return net(lambda number: feeds(number) if number < first else ring(number, first)), (13, first)

    def some_of_ring(number, first=2097):
        return rnd.choices(range(first, size + 1), k=4)

    def next_and_some(number):
        return [number + 1, *rnd.choices(range(number + 1, size + 1), k=3)]

    yield "2096 behind a ring of 2000, all fed by one gate", *behind(2097, lambda number: [2097])
    yield "2096 behind a ring of 2000, each fed by four gates of it", *behind(2097, some_of_ring)
    yield "2096 behind a ring of 2000, in a chain", *behind(2097, after)
    yield "2096 behind a ring of 2000, each fed by the four after", *behind(2097, four_after)
    yield "2096 behind a ring of 2000, each fed by the next and three after, at random", *behind(
        2097, next_and_some)
    yield "2096 behind 2000 gates, fed by four of these like these themselves", *behind(
        2097, some_of_ring, lambda number, first: [number + 1 if number < size else first, *some_of_ring(number)[1:]])
    yield "4095 behind a gate that feeds itself, in a chain", *behind(size, after)
    yield "4095 behind a gate that feeds itself, each fed by the four after", *behind(size, four_after)
    yield "4095 behind a gate that feeds itself, each fed by the next and three after, at random", *behind(
        size, next_and_some)


def main():
    seed, number, folder = sys.argv[1], int(sys.argv[2]), Path(sys.argv[3])
    done, files = triple(seed, number)
    folder.mkdir(parents=True, exist_ok=True)
    for name, data in zip(("NET", "MOD", "STIM"), files):
        (folder / name).write_bytes(data)
    refusal = check_files(*files)
    print(f"{done}: {'accepted' if refusal is None else 'refusal %d, returned %d' % refusal}")


if __name__ == "__main__":
    main()
