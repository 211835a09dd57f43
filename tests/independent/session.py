#!/usr/bin/env python3
"""The plain session of document 01 in Python: what the panel's calls answer, by VAL on the network.

Written from the document alone, over the files as cavundir.py reads them. It is fed the calls' arguments, lengths lent
among them, and nothing from working buffers, so 44 never comes. Run as a program it prints ANSWERS for the CALLS in a
folder.
"""
import sys
from pathlib import Path

sys.dont_write_bytecode = True
import cavundir
from cavundir import INPUT, RANK_ORDER, STIM_FIELDS, UNIT_DELAY, U

LENGTHS = 40970, 53248, 20480  # of panel, program and memory, as docs/PANEL.md fixes them
MOST_CYCLES = 65535
OK = ("ok",)


def refused(number, returned):
    return "refused", number, returned


def time_zero(network, stim):
    """Each signal's value at time 0: given, or U. At 0, for operands without a source: any value will do, since their
    translation is a constant."""
    values = [0] + [U] * (len(network) - 1)
    for line in range(1, len(stim) // cavundir.line_length(STIM_FIELDS) + 1):
        time, signal, value = cavundir.read_line(stim, line, STIM_FIELDS)
        if time > 0:
            break
        if signal:
            values[signal] = value
    return values


class Session:
    """A plain session on accepted files. `rows` has the input values of cycles 1 to t, `values` VAL at t."""

    def __init__(self, net, stim):
        self.network = cavundir.read_network(net)
        self.values = time_zero(self.network, stim)
        self.hand = {number: self.values[number] for number in self.of_kind(INPUT)}
        self.watched, self.mask = 1, 0
        self.rows = []
        self.unit_delay = self.of_kind(UNIT_DELAY)
        # sources first, so that each gate finds them settled
        self.rank_order = [number for group in cavundir.rank_order_groups(self.network) for number in group]

    def of_kind(self, kind):
        return [number for number, signal in enumerate(self.network) if signal and signal.kind == kind]

    @property
    def finished(self):
        return len(self.rows)

    def call(self, name, *numbers, lengths=LENGTHS):
        """The answer to a call, as a tuple whose first word is that of tests/cases/README.md."""
        return self.refusal(name, numbers, lengths) or getattr(self, name)(*numbers)

    def refusal(self, name, numbers, lengths):
        """40, 41, 42, 43 in this order; None where none applies."""
        if tuple(lengths) != LENGTHS:
            return refused(40, 0)
        if name == "run":
            return refused(43, self.finished) if self.finished + numbers[0] > MOST_CYCLES else None
        signal = numbers[0]
        if not 1 <= signal < len(self.network) or name == "set" and self.network[signal].kind != INPUT:
            return refused(41, signal)
        if name == "set" and numbers[1] > 3 or name == "watch" and numbers[1] > 15:
            return refused(42, numbers[1])
        return None

    def set(self, signal, value):
        self.hand[signal] = value
        return OK

    def watch(self, signal, mask):
        self.watched, self.mask = signal, mask
        return OK

    def read(self, signal):
        return "value", self.values[signal]

    def run(self, cycles):
        row = self.hand.copy()
        resting = False
        for done in range(1, cycles + 1):
            self.rows.append(row)
            # in a run all rows are alike: once a cycle changes nothing, no later one does
            if not resting:
                before, self.values = self.values, self.next_values(row)
                resting = self.values == before
            if self.mask >> self.values[self.watched] & 1:
                return "done", done, 1
        return "done", cycles, 0

    def next_values(self, row):
        """VAL at t + 1, from VAL at t and the row of that cycle."""
        before, values = self.values, self.values.copy()
        for number, value in row.items():
            values[number] = value
        for number in self.unit_delay:
            values[number] = self.evaluate(number, before)
        for number in self.rank_order:
            values[number] = self.evaluate(number, values)
        return values

    def evaluate(self, number, values):
        _, f, g, (a, b, c, d) = self.network[number]
        return cavundir.gate(f, *g, values[a], values[b], values[c], values[d])


def opening(net, mod, stim, lengths=LENGTHS):
    """The answer of the opening, and the session where it was not refused."""
    if tuple(lengths) != LENGTHS:
        return refused(40, 0), None
    refusal = cavundir.check_files(net, mod, stim)
    if refusal:
        return refused(*refusal), None
    return OK, Session(net, stim)


def text(answer):
    """A line of ANSWERS."""
    if answer[0] == "done":
        return "done %d stopped %d" % answer[1:]
    return " ".join(str(part) for part in answer)


def read_calls(folder):
    """The lines of CALLS: whether a buffer of a wrong length is lent, the call's name, its numbers."""
    for line in (Path(folder) / "CALLS").read_text().splitlines():
        name, *numbers = line.removeprefix("!").split()
        yield line.startswith("!"), name, [int(number) for number in numbers]


def play(folder):
    """The answers to the CALLS of a folder. A list without an opening is called on a session that is open."""
    files = cavundir.read_folder(folder)
    calls = list(read_calls(folder))
    session = None
    if not any(name == "open" for _, name, _ in calls):
        session = opening(*files)[1]
    for wrong, name, numbers in calls:
        lengths = (LENGTHS[0] + 1, *LENGTHS[1:]) if wrong else LENGTHS
        if name == "open":
            answer, opened = opening(*files, lengths=lengths)
            if not wrong:  # else the session's own buffers were not lent
                session = opened
            yield answer
        else:
            yield session.call(name, *numbers, lengths=lengths)


if __name__ == "__main__":
    for answer in play(sys.argv[1] if len(sys.argv) > 1 else "."):
        print(text(answer))
