#!/usr/bin/env python3
"""Writes NET, MOD and STIM of the board that README.md describes into a folder: examples/board/make.py FOLDER

Three steps, each of use for other boards: `Board` makes a network of named gates, `Schedule` places it on processors and
finds a slot of the switch for each value that another processor needs, `waveform` gives the inputs their values.
"""
import sys
from collections import namedtuple
from pathlib import Path

INPUT, UNIT_DELAY, RANK_ORDER = 1, 2, 3
AND, XOR, IDENTITY, SELECT, MAJORITY = range(5)
AS_IT_IS, INVERTED = 4, 5
NONE, NO_PROCESSOR = (9, 0), 99
PROCESSORS, MOST_SLOTS = 8, 256

Gate = namedtuple("Gate", "kind f g sources")


def bits(name, count):
    """The names of a number's bits, the lowest first."""
    return [f"{name}{bit}" for bit in range(count)]


# The network


class Board:
    """Gates by name. An operand is a name, a pair of a translation and a name, or a constant 0 or 1."""

    def __init__(self):
        self.gates = {}

    def inputs(self, *names):
        for name in names:
            self.gates[name] = Gate(INPUT, 0, [0] * 5, [None] * 4)

    def gate(self, name, kind, f, *operands, result=AS_IT_IS):
        g, sources = [], []
        for operand in (*operands, *[0] * (4 - len(operands))):
            translation, source = operand if isinstance(operand, tuple) else (AS_IT_IS, operand)
            constant = isinstance(source, int)
            g.append(source if constant else translation)
            sources.append(None if constant else source)
        self.gates[name] = Gate(kind, f, [*g, result], sources)
        return name

    def now(self, name, f, *operands, **more):
        """A gate that takes its sources in the same cycle."""
        return self.gate(name, RANK_ORDER, f, *operands, **more)

    def register(self, name, f, *operands):
        """A gate that takes its sources a cycle earlier, and so can hold a value."""
        return self.gate(name, UNIT_DELAY, f, *operands)

    def adder(self, total, carry, *operands):
        """Two or three bits added: their sum and their carry."""
        self.now(total, XOR, *operands)
        self.now(carry, MAJORITY, *operands)

    def either(self, name, a, b):
        """OR, by an AND of inverses."""
        return self.now(name, AND, (INVERTED, a), (INVERTED, b), 1, 1, result=INVERTED)

    def number(self, first):
        """Signals by name, from 1: inputs, then the names in `first`, then all others as they were made."""
        names = [name for name, gate in self.gates.items() if gate.kind == INPUT]
        names += first
        names += [name for name in self.gates if name not in set(names)]
        return {name: number for number, name in enumerate(names, 1)}


def multiply(board, x, y, product):
    """Eight rows: row j adds x, where y's bit j is 1, to what the rows before it gave. Each row is one bit higher."""
    for j in range(8):
        for i in range(8):
            board.now(product[0] if i == j == 0 else f"and{j}.{i}", AND, x[i], y[j], 1, 1)
    above = [f"and0.{i}" for i in range(1, 8)] + [0]
    for j in range(1, 8):
        carry, totals = 0, []
        for i in range(8):
            last = product[j + i] if i == 0 or j == 7 else f"sum{j}.{i}"
            following = product[15] if i == j == 7 else f"carry{j}.{i}"
            board.adder(last, following, f"and{j}.{i}", above[i], carry)
            totals.append(last)
            carry = following
        above = totals[1:] + [carry]


def accumulate(board, total, product):
    """The total register: 0 after RESET, else the product added to it. What is carried out of bit 15 is lost."""
    carry = 0
    for i in range(16):
        board.now(f"add{i}", XOR, total[i], product[i], carry)
        board.register(total[i], SELECT, "RESET", f"add{i}", 0)
        if i < 15:
            carry = board.now(f"over{i}", MAJORITY, total[i], product[i], carry)


def count_cycles(board, count):
    """The cycles since RESET."""
    carry = 1
    for i in range(16):
        board.now(f"step{i}", XOR, count[i], carry)
        board.register(count[i], SELECT, "RESET", f"step{i}", 0)
        if i < 15:
            carry = board.now(f"all{i}", AND, count[i], carry, 1, 1)


def compare(board, total, limit):
    """REACHED: the total is not below the limit. LATCH holds it until RESET."""
    so_far = 1
    for i in range(16):
        name = "REACHED" if i == 15 else f"reached{i}"
        so_far = board.now(name, MAJORITY, total[i], (INVERTED, limit[i]), so_far)
    board.either("held", "LATCH", "REACHED")
    board.register("LATCH", SELECT, "RESET", "held", 0)


A, B, LIMIT, X, Y = bits("A", 8), bits("B", 8), bits("LIMIT", 16), bits("X", 8), bits("Y", 8)
PRODUCT, TOTAL, COUNT = bits("PRODUCT", 16), bits("TOTAL", 16), bits("COUNT", 16)


def multiplier():
    """The board's gates, and its signals by name."""
    board = Board()
    board.inputs("RESET", "LOAD", *A, *B, *LIMIT)
    for register, data in ((X, A), (Y, B)):
        for bit, given in zip(register, data):
            board.register(bit, SELECT, "LOAD", bit, given)
    multiply(board, X, Y, PRODUCT)
    accumulate(board, TOTAL, PRODUCT)
    count_cycles(board, COUNT)
    compare(board, TOTAL, LIMIT)
    return board.gates, board.number([*X, *Y, *PRODUCT, *TOTAL, *COUNT, "REACHED", "LATCH"])


# Places and the switch


class Schedule:
    """Where each gate is computed, and what is sent. A switch location k of a processor is what it receives in slot k."""

    def __init__(self, gates):
        self.gates = gates
        self.place = {}  # processor and slot of a gate
        self.used = {}  # the gate at a processor and slot
        self.sends = {}  # part and location sent by a processor in a slot
        self.senders = {}  # the processor that a processor receives from in a slot
        self.arrived = {}  # the slot in which a processor receives a gate's value, by the part that is sent

    def put(self, name, processor, slot):
        self.place[name] = processor, slot
        self.used[processor, slot] = name

    def free_slot(self, processor, slot=0):
        while (processor, slot) in self.used:
            slot += 1
        return slot

    def can_send(self, name, part, slot, processor):
        """Whether the switch can bring a gate's value to a processor in a slot. Others may receive the same."""
        home, location = self.place[name]
        return (processor, slot) not in self.senders and self.sends.get((home, slot)) in (None, (part, location))

    def send(self, name, part, slot, processor):
        home, location = self.place[name]
        self.sends[home, slot] = part, location
        self.senders[processor, slot] = home
        self.arrived[name, part, processor] = slot

    def fetches(self, name, processor):
        """What a rank-order gate costs on a processor: the first slot that is free once all sources are there, and the
        sends that bring those of other processors. A value is sent after it is stored, and read after it is sent."""
        sends, ready = {}, 0
        for source in sources_of(self.gates[name]):
            home, slot = self.place[source]
            if (source, 1, processor) in self.arrived:
                slot = self.arrived[source, 1, processor]
            elif home != processor:
                slot = sends[source] = next(k for k in range(slot + 1, MOST_SLOTS) if k not in sends.values()
                                            and self.can_send(source, 1, k, processor))
            ready = max(ready, slot + 1)
        return self.free_slot(processor, ready), sends

    def put_early(self, names):
        """In turn over the processors, so that the bits of a number are apart."""
        for turn, name in enumerate(names):
            processor = turn % PROCESSORS
            self.put(name, processor, self.free_slot(processor))

    def put_in_time(self, names):
        """Rank-order gates, sources first: each where it is done first."""
        for name in names:
            costs = [(*self.fetches(name, processor), processor) for processor in range(PROCESSORS)]
            slot, sends, processor = min(costs, key=lambda cost: (cost[0], len(cost[1]), cost[2]))
            for source, k in sends.items():
                self.send(source, 1, k, processor)
            self.put(name, processor, slot)

    def put_anywhere(self, names):
        for name in names:
            slot, processor = min((self.free_slot(processor), processor) for processor in range(PROCESSORS))
            self.put(name, processor, slot)

    def slots(self):
        return 1 + max(slot for _, slot in [*self.used, *self.senders])

    def operand_now(self, name, source):
        """An operand of a rank-order gate: part and location."""
        processor, _ = self.place[name]
        home, location = self.place[source]
        return (1, location) if home == processor else (3, self.arrived[source, 1, processor])

    def operand_earlier(self, name, source):
        """An operand of a unit-delay gate. From another processor it comes by what is sent already, or by a new send: of
        the earlier value before the gate's own slot, or of the present value, to be read in the next cycle."""
        processor, slot = self.place[name]
        home, location = self.place[source]
        if home == processor:
            return 0, location
        if (source, 1, processor) in self.arrived:
            return 2, self.arrived[source, 1, processor]
        if self.arrived.get((source, 0, processor), slot) < slot:
            return 3, self.arrived[source, 0, processor]
        for k in range(MOST_SLOTS):
            for sent, part in ((0, 3), (1, 2)):
                if self.can_send(source, sent, k, processor) and (k < slot if sent == 0 else location < k):
                    self.send(source, sent, k, processor)
                    return part, k
        raise ValueError(f"the switch has no slot left for {source}, which {name} needs")

    def operands(self, name):
        gate = self.gates[name]
        fetch = self.operand_now if gate.kind == RANK_ORDER else self.operand_earlier
        return [fetch(name, source) if source else NONE for source in gate.sources]


def sources_of(gate):
    return [source for source in gate.sources if source]


def longest_first(gates):
    """Rank-order gates, those with the longest chain behind them first; so a gate comes after its sources."""
    ranked = [name for name, gate in gates.items() if gate.kind == RANK_ORDER]
    length = dict.fromkeys(gates, 0)
    changed = True
    while changed:
        changed = False
        for name in ranked:
            for source in sources_of(gates[name]):
                if length[source] <= length[name]:
                    length[source], changed = length[name] + 1, True
    return sorted(ranked, key=lambda name: -length[name])


def schedule(gates):
    ranked = longest_first(gates)
    awaited = {source for name in ranked for source in sources_of(gates[name])}
    others = [name for name in gates if gates[name].kind != RANK_ORDER]
    made = Schedule(gates)
    made.put_early([name for name in others if name in awaited])
    made.put_in_time(ranked)
    made.put_anywhere([name for name in others if name not in awaited])
    return made


# The waveform


def set_bits(names, number):
    return {name: number >> bit & 1 for bit, name in enumerate(names)}


PAIRS = (85, 51), (2, 3), (100, 10), (99, 101), (123, 231), (128, 128), (170, 204), (1, 254), (0, 255), (17, 241)


def waveform():
    """Times, and the inputs' values from then on: first the sum of the squares of 1 to 24, which is 4900 and the limit;
    then 255 times 255 again and again, so that the total passes 65535; then other products."""
    yield 1, {"RESET": 1, "LOAD": 1, **set_bits(A, 0), **set_bits(B, 0), **set_bits(LIMIT, 4900)}
    yield 2, {"RESET": 0}
    for number in range(1, 25):
        yield 1 + number, {**set_bits(A, number), **set_bits(B, number)}
    yield 26, {**set_bits(A, 0), **set_bits(B, 0)}
    yield 30, {"RESET": 1, **set_bits(A, 255), **set_bits(B, 255), **set_bits(LIMIT, 65025)}
    yield 31, {"RESET": 0, "LOAD": 0, **set_bits(A, 85), **set_bits(B, 51)}
    yield 35, {"LOAD": 1}
    for time, (a, b) in enumerate(PAIRS, 35):
        yield time, {**set_bits(A, a), **set_bits(B, b)}
    yield 48, {}


# The three files


def text(rows):
    return b"".join((b"%6d" * len(row) + b"\n") % tuple(row) for row in rows)


def net_rows(gates, numbers):
    yield [0, len(numbers)] + [0] * 10
    for name, number in numbers.items():
        kind, f, g, sources = gates[name]
        yield [kind, number, f, *g, *(numbers.get(source, 0) for source in sources)]


def mod_rows(made, numbers):
    operands = {name: made.operands(name) for name in numbers}  # before the sends are written: it makes some
    slots = made.slots()
    yield [PROCESSORS, slots] + [0] * 12
    for place in ((processor, slot) for processor in range(PROCESSORS) for slot in range(slots)):
        name = made.used.get(place)
        pairs = [*operands.get(name, [NONE] * 4), made.sends.get(place, NONE)]
        yield [*place, numbers.get(name, 0), *(number for pair in pairs for number in pair),
               made.senders.get(place, NO_PROCESSOR)]


def stim_rows(numbers):
    """A value that an input has already is not given again."""
    held, given = {}, {}
    for time, values in waveform():
        given.setdefault(time, {}).update(values)
    for time in sorted(given):
        rows = sorted((numbers[name], value) for name, value in given[time].items() if held.get(name) != value)
        held.update(given[time])
        yield from ([time, number, value] for number, value in rows)
    yield [max(given), 0, 0]


def files():
    gates, numbers = multiplier()
    return {"NET": text(net_rows(gates, numbers)), "MOD": text(mod_rows(schedule(gates), numbers)),
            "STIM": text(stim_rows(numbers))}


if __name__ == "__main__":
    if len(sys.argv) != 2:
        sys.exit("usage: make.py FOLDER")
    for name, data in files().items():
        (Path(sys.argv[1]) / name).write_bytes(data)
