"""docs/PANEL.md in Python: what the panel's calls do to the bytes of the working buffers, on any bytes.

Written from that paper and document 01, to be compared with the proved code: nothing is shared with it. The buffers are
a list of three bytearrays: panel, program, memory.
"""
import sys
from pathlib import Path

sys.path.insert(0, str(Path(__file__).resolve().parent.parent / "independent"))
import cavundir
import session
from cavundir import INPUT, MOD_FIELDS, NO_PART, NO_PROCESSOR, PROCESSORS, SIGNALS, SLOTS
from session import LENGTHS, OK, refused

PANEL, PROGRAM, MEMORY = range(3)
FINISHED, WATCHED, MASK = 5, 7, 9
HAND = 7  # a signal's byte
PARTS = 256 * 5


def word(data, at):
    return data[at] + 256 * data[at + 1]


def put_word(data, at, number):
    data[at], data[at + 1] = number % 256, number // 256


def line_at(processor, slot):
    return 13 * (16 * slot + processor)


def opened(net, mod, stim):
    """The bytes after the opening on accepted files."""
    network = cavundir.read_network(net)
    values = session.time_zero(network, stim)
    processors, slots = cavundir.read_line(mod, 1, MOD_FIELDS)[:2]
    lines = [cavundir.read_line(mod, line + 2, MOD_FIELDS) for line in range(processors * slots)]
    panel, program, memory = (bytearray(length) for length in LENGTHS)

    put_word(panel, 0, len(network) - 1)
    panel[2] = processors
    put_word(panel, 3, slots)
    put_word(panel, WATCHED, 1)
    for number, signal in enumerate(network):
        if signal:
            panel[10 * number:10 * number + 8] = signal.kind, signal.f, *signal.g, values[number]
    for processor, slot, signal, *rest in lines:
        at = line_at(processor, slot)
        put_word(program, at, signal)
        program[at + 2:at + 13] = rest
        if signal:
            panel[10 * signal + 8:10 * signal + 10] = processor, slot
            memory[PARTS * processor + slot] = values[signal]
        sender = rest[-1]
        if sender != NO_PROCESSOR:
            location = lines[sender * slots + slot][12]  # of the sender's send, in this slot
            sent = values[lines[sender * slots + location][2]]
            for part in (2, 3):
                memory[PARTS * processor + 256 * part + slot] = sent
    return [panel, program, memory]


# 44


def in_range(buffers):
    """Every number is in the range of docs/PANEL.md, and every byte that holds none is 0."""
    panel, program, memory = buffers
    size, processors, slots = word(panel, 0), panel[2], word(panel, 3)
    return (1 <= size <= SIGNALS and 1 <= processors <= PROCESSORS and 1 <= slots <= SLOTS
            and 1 <= word(panel, WATCHED) <= size and panel[MASK] <= 15
            and all(signal_in_range(panel[10 * s:10 * s + 10], processors, slots) for s in range(1, size + 1))
            and zeros(panel, 10 * (size + 1), LENGTHS[PANEL])
            and program_in_range(program, size, processors, slots)
            and memory_in_range(memory, processors, slots))


def zeros(data, start, end):
    return data.count(0, start, end) == end - start


def signal_in_range(numbers, processors, slots):
    kind, f, *g, hand, processor, slot = numbers
    codes = f == max(g) == 0 if kind == INPUT else f <= 4 and max(g) <= 6
    return 1 <= kind <= 3 and codes and hand <= 3 and processor < processors and slot < slots


def program_in_range(program, size, processors, slots):
    for slot in range(slots):
        for processor in range(processors):
            at = line_at(processor, slot)
            pairs = list(zip(program[at + 2:at + 12:2], program[at + 3:at + 12:2]))
            sender = program[at + 12]
            if (word(program, at) > size or not cavundir.fits(pairs[4], (0, 1), slots)
                    or not all(cavundir.fits(pair, (0, 1, 2, 3), slots) for pair in pairs[:4])
                    or sender >= processors and sender != NO_PROCESSOR):
                return False
        if not zeros(program, line_at(processors, slot), line_at(0, slot + 1)):
            return False
    return zeros(program, line_at(0, slots), LENGTHS[PROGRAM])


def memory_in_range(memory, processors, slots):
    for processor in range(processors):
        for part in range(4):
            at = PARTS * processor + 256 * part
            if max(memory[at:at + slots]) > 3 or not zeros(memory, at + slots, at + 256):
                return False
        if not zeros(memory, PARTS * processor + 256 * 4, PARTS * (processor + 1)):
            return False
    return zeros(memory, PARTS * processors, LENGTHS[MEMORY])


# The machine


def cycle(panel, program, memory):
    """One cycle of the machine, and the change of places after it. All processors fetch before one stores."""
    processors, slots = panel[2], word(panel, 3)

    def fetch(processor, part, location):
        return 0 if part == NO_PART else memory[PARTS * processor + 256 * part + location]

    def result(processor, line):
        at = 10 * word(line, 0)
        kind, f, *g, hand = panel[at:at + 8]
        if kind == INPUT:
            return hand
        return cavundir.gate(f, *g, *(fetch(processor, line[j], line[j + 1]) for j in (2, 4, 6, 8)))

    for slot in range(slots):
        lines = [program[line_at(p, slot):line_at(p, slot) + 13] for p in range(processors)]
        results = [result(p, line) if word(line, 0) else None for p, line in enumerate(lines)]
        sent = [fetch(p, line[10], line[11]) for p, line in enumerate(lines)]
        for p, line in enumerate(lines):
            if results[p] is not None:
                memory[PARTS * p + 256 + slot] = results[p]
            if line[12] != NO_PROCESSOR:
                memory[PARTS * p + 256 * 3 + slot] = sent[line[12]]
    for p in range(processors):
        parts = [slice(PARTS * p + 256 * part, PARTS * p + 256 * part + slots) for part in range(4)]
        for earlier, present in (parts[:2], parts[2:]):
            memory[earlier], memory[present] = memory[present], memory[earlier]


# The calls


def value(buffers, signal):
    """A signal's value at the end of the last finished cycle, at its place."""
    panel, _, memory = buffers
    return memory[PARTS * panel[10 * signal + 8] + panel[10 * signal + 9]]


def refusal(buffers, name, numbers):
    if tuple(map(len, buffers)) != LENGTHS:
        return refused(40, 0)
    if not in_range(buffers):
        return refused(44, 0)
    panel = buffers[PANEL]
    if name == "run":
        finished = word(panel, FINISHED)
        return refused(43, finished) if finished + numbers[0] > session.MOST_CYCLES else None
    signal = numbers[0]
    if not 1 <= signal <= word(panel, 0) or name == "set" and panel[10 * signal] != INPUT:
        return refused(41, signal)
    if numbers[-1] > {"set": 3, "watch": 15, "read": signal}[name]:
        return refused(42, numbers[-1])
    return None


def run(buffers, cycles):
    panel, program, memory = buffers
    for done in range(1, cycles + 1):
        cycle(panel, program, memory)
        put_word(panel, FINISHED, word(panel, FINISHED) + 1)
        if panel[MASK] >> value(buffers, word(panel, WATCHED)) & 1:
            return "done", done, 1
    return "done", cycles, 0


def call(buffers, name, *numbers):
    """The answer to a session call; the bytes become what it leaves."""
    refused_by = refusal(buffers, name, numbers)
    if refused_by:
        return refused_by
    if name == "run":
        return run(buffers, *numbers)
    signal = numbers[0]
    if name == "read":
        return "value", value(buffers, signal)
    panel = buffers[PANEL]
    if name == "set":
        panel[10 * signal + HAND] = numbers[1]
    else:
        put_word(panel, WATCHED, signal)
        panel[MASK] = numbers[1]
    return OK


def bits(answer):
    """The 64 bits that C gets."""
    word, *numbers = answer
    if word == "refused":
        return numbers[0] << 56 | numbers[1]
    if word == "done":
        return numbers[1] << 16 | numbers[0]
    return numbers[0] if word == "value" else 0
