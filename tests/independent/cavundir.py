"""Document 01 in Python: the checks of NET, MOD and STIM, and the listing by VAL on the network.

Written from the document alone, to be compared with the proved code: nothing is shared with it. Where the document
leaves a point open it follows docs/DECISIONS.md, D1 to D5. An answer of a check is None where the file is accepted,
else the refusal's number and returned value. Run as a program it prints what the listing program prints in a folder.
"""
import functools
import sys
from collections import namedtuple
from pathlib import Path

INPUT, UNIT_DELAY, RANK_ORDER = 1, 2, 3
AND, XOR, IDENTITY, SELECT, MAJORITY = range(5)
LOCAL_EARLIER, LOCAL_PRESENT, SWITCH_EARLIER, SWITCH_PRESENT, NO_PART = 0, 1, 2, 3, 9
NONE = NO_PART, 0
NO_PROCESSOR = 99
U, Z = 2, 3
NET_FIELDS, MOD_FIELDS, STIM_FIELDS = 12, 14, 3
SIGNALS, PROCESSORS, SLOTS, STIM_LINES = 4096, 16, 256, 65534

Signal = namedtuple("Signal", "kind f g sources")
Line = namedtuple("Line", "processor slot signal operands send sender")

# a field is right exactly if it is the text of a number from 0 to 65535
NUMBERS = {b"%6d" % number: number for number in range(65536)}


def line_length(fields):
    return 6 * fields + 1


def read_line(data, line, fields):
    """The numbers of a line, counted from 1, if the lines before it are right; None if it is misformed or missing."""
    length = line_length(fields)
    text = data[(line - 1) * length:line * length]
    if len(text) != length or text[-1] != 10:
        return None
    numbers = [NUMBERS.get(text[column:column + 6]) for column in range(0, length - 1, 6)]
    return None if None in numbers else numbers


def check_net(net, limit=SIGNALS):
    head = read_line(net, 1, NET_FIELDS)
    if head is None:
        return 10, 1
    size = head[1]
    if head[0] != 0 or not 1 <= size <= limit or any(head[2:]):
        return 11, 1
    for number in range(1, size + 1):
        line = number + 1
        numbers = read_line(net, line, NET_FIELDS)
        if numbers is None:
            return 10, line
        kind, named, f, *g = numbers[:8]
        sources = numbers[8:]
        if kind not in (INPUT, UNIT_DELAY, RANK_ORDER) or named != number or f > MAJORITY or max(g) > 6:
            return 11, line
        if kind == INPUT and any(numbers[2:]):
            return 11, line
        if any(source > size or source == 0 and g[j] > 3 for j, source in enumerate(sources)):
            return 12, line
    if len(net) > (size + 1) * line_length(NET_FIELDS):
        return 10, size + 2
    network = read_network(net)
    closed = [number for group in rank_order_groups(network) for number in group
              if len(group) > 1 or number in network[number].sources]
    return (13, min(closed)) if closed else None


def read_network(net):
    """The signals of an accepted NET by number; at 0 stands nothing."""
    size = read_line(net, 1, NET_FIELDS)[1]
    lines = (read_line(net, number + 1, NET_FIELDS) for number in range(1, size + 1))
    return [None] + [Signal(numbers[0], numbers[2], numbers[3:8], numbers[8:]) for numbers in lines]


def rank_order_groups(network):
    """The rank-order gates, grouped: two are in one group if each is reached from the other over rank-order sources.
    A group comes after those that its gates have as sources. Tarjan's method, with a stack in place of recursion."""
    ranked = {number for number, signal in enumerate(network) if signal and signal.kind == RANK_ORDER}
    after = {number: [source for source in network[number].sources if source in ranked] for number in ranked}
    groups, found, low, waiting, grouped = [], {}, {}, [], set()

    for first in sorted(ranked):
        if first in found:
            continue
        path = [(first, iter(after[first]))]
        found[first] = low[first] = len(found)
        waiting.append(first)
        while path:
            number, sources = path[-1]
            for source in sources:
                if source not in found:
                    found[source] = low[source] = len(found)
                    waiting.append(source)
                    path.append((source, iter(after[source])))
                    break
                if source not in grouped:
                    low[number] = min(low[number], found[source])
            else:
                path.pop()
                if path:
                    low[path[-1][0]] = min(low[path[-1][0]], low[number])
                if low[number] == found[number]:
                    group = [waiting.pop()]
                    while group[-1] != number:
                        group.append(waiting.pop())
                    groups.append(group)
                    grouped.update(group)
    return groups


def check_mod(net, mod):
    """MOD on a NET that is accepted."""
    network = read_network(net)
    head = read_line(mod, 1, MOD_FIELDS)
    if head is None:
        return 20, 1
    processors, slots = head[:2]
    if not 1 <= processors <= PROCESSORS or not 1 <= slots <= SLOTS or any(head[2:]):
        return 21, 1

    lines = []
    for place in range(processors * slots):
        numbers = read_line(mod, place + 2, MOD_FIELDS)
        if numbers is None:
            return 20, place + 2
        processor, slot, signal, *pairs, sender = numbers
        pairs = list(zip(pairs[::2], pairs[1::2]))
        line = Line(processor, slot, signal, pairs[:4], pairs[4], sender)
        if ((processor, slot) != divmod(place, slots) or signal >= len(network)
                or any(not fits(pair, (0, 1, 2, 3), slots) for pair in line.operands)
                or not fits(line.send, (0, 1), slots)
                or sender != NO_PROCESSOR and sender >= processors):
            return 21, place + 2
        lines.append(line)
    if len(mod) > (len(lines) + 1) * line_length(MOD_FIELDS):
        return 20, len(lines) + 2

    placed = [0] * len(network)
    for line in lines:
        placed[line.signal] += 1
    for number in range(1, len(network)):
        if placed[number] != 1:
            return 22, number

    def at(processor, slot):
        return lines[processor * slots + slot]

    for wrong, number in ((wrong_send, 24), (wrong_sender, 25), (wrong_operand, 23)):
        for line in lines:
            if wrong(line, at, network):
                return number, line.processor * slots + line.slot + 2
    return None


def fits(pair, parts, slots):
    """A pair against the layout."""
    part, location = pair
    return location == 0 if part == NO_PART else part in parts and location < slots


def wrong_send(line, at, network):
    part, location = line.send
    if part == NO_PART:
        return False
    return at(line.processor, location).signal == 0 or part == 1 and location >= line.slot


def wrong_sender(line, at, network):
    return line.sender != NO_PROCESSOR and at(line.sender, line.slot).send == NONE


def wrong_operand(line, at, network):
    """Some operand of the line is not right."""
    signal = network[line.signal]  # nothing for an empty slot
    if signal is None or signal.kind == INPUT:
        return any(operand != NONE for operand in line.operands)
    return any(not right(operand, source, signal.kind, line, at)
               for operand, source in zip(line.operands, signal.sources))


def right(operand, source, kind, line, at):
    part, location = operand
    if source == 0 or part == NO_PART:
        return source == 0 and part == NO_PART
    if part == LOCAL_EARLIER:
        return kind == UNIT_DELAY and at(line.processor, location).signal == source
    if part == LOCAL_PRESENT:
        return kind == RANK_ORDER and location < line.slot and at(line.processor, location).signal == source
    sender = at(line.processor, location).sender
    if sender == NO_PROCESSOR:
        return False
    sent_part, sent_location = at(sender, location).send
    if at(sender, sent_location).signal != source:
        return False
    if part == SWITCH_EARLIER:
        return kind == UNIT_DELAY and sent_part == 1
    return location < line.slot and sent_part == (0 if kind == UNIT_DELAY else 1)


def check_stim(net, stim):
    """STIM on a NET that is accepted."""
    network = read_network(net)
    before = -1, 0  # the time and signal of the line before
    for line in range(1, STIM_LINES + 1):
        numbers = read_line(stim, line, STIM_FIELDS)
        if numbers is None:
            return 30, line
        time, signal, value = numbers
        if signal == 0:
            if value != 0 or time < before[0]:
                return 31, line
            return (30, line + 1) if len(stim) > line * line_length(STIM_FIELDS) else None
        if signal >= len(network) or value > 3 or (time, signal) <= before:
            return 31, line
        if time > 0 and network[signal].kind != INPUT:
            return 32, line
        before = time, signal
    return 30, STIM_LINES + 1  # missing or surplus


def check_files(net, mod, stim):
    """An absent file is one without bytes."""
    return check_net(net) or check_mod(net, mod) or check_stim(net, stim)


def translate(g, value):
    if g <= 3:
        return g
    if g == 4:
        return value
    if g == 5:
        return (1, 0, U, U)[value]
    return (0, 1, U, U)[value]


def apply(f, a, b, c, d):
    four = a, b, c, d
    if f == AND:
        return 0 if 0 in four else 1 if four == (1, 1, 1, 1) else U
    if f == XOR:
        return U if U in four or Z in four else sum(four) % 2
    if f == IDENTITY:
        return a
    if f == SELECT:
        if a in (0, 1):
            return c if a else b
        return b if b == c and b in (0, 1) else U
    zeros, ones = four[:3].count(0), four[:3].count(1)
    return 0 if zeros >= 2 else 1 if ones >= 2 else U


@functools.lru_cache(maxsize=1 << 20)  # a large network evaluates the same gates on the same operands again and again
def gate(f, g1, g2, g3, g4, g5, a, b, c, d):
    return translate(g5, apply(f, translate(g1, a), translate(g2, b), translate(g3, c), translate(g4, d)))


def listing(net, mod, stim):
    """All that the program prints: the listing, or one refusal's line."""
    refusal = check_files(net, mod, stim)
    if refusal:
        return b"%6d%6d\n" % refusal
    network = read_network(net)
    length = line_length(STIM_FIELDS)
    given = {}
    for line in range(1, len(stim) // length):
        time, signal, value = read_line(stim, line, STIM_FIELDS)
        given.setdefault(time, {})[signal] = value
    last = read_line(stim, len(stim) // length, STIM_FIELDS)[0]
    unit_delay = [number for number, signal in enumerate(network) if signal and signal.kind == UNIT_DELAY]
    rank_order = [number for group in rank_order_groups(network) for number in group]  # sources first

    def evaluate(number, values):
        signal = network[number]
        return gate(signal.f, *signal.g, *(values[source] for source in signal.sources))

    # at 0, for operands without a source: any value will do, since their translation is a constant
    values = [0] + [given.get(0, {}).get(number, U) for number in range(1, len(network))]
    printed = [b"%6d%6d%6d\n" % (0, number, values[number]) for number in range(1, len(network))]
    resting = False
    for time in range(1, last + 1):
        if resting and time not in given:
            continue  # values and inputs are as they were a cycle ago, so what follows from them is too
        before, values = values, values.copy()
        for number, value in given.get(time, {}).items():
            values[number] = value
        for number in unit_delay:
            values[number] = evaluate(number, before)
        for number in rank_order:
            values[number] = evaluate(number, values)
        resting = values == before
        printed += [b"%6d%6d%6d\n" % (time, number, values[number])
                    for number in range(1, len(network)) if values[number] != before[number]]
    printed.append(b"%6d%6d%6d\n" % (last, 0, 0))
    return b"".join(printed)


def read_folder(folder):
    """NET, MOD and STIM of a folder; one that is absent has no bytes."""
    paths = (Path(folder) / name for name in ("NET", "MOD", "STIM"))
    return tuple(path.read_bytes() if path.is_file() else b"" for path in paths)


if __name__ == "__main__":
    sys.stdout.buffer.write(listing(*read_folder(sys.argv[1] if len(sys.argv) > 1 else ".")))
