#!/usr/bin/env python3
"""boards.py FOLDER: writes NET, MOD and STIM of the boards that bench/run times, each board to a folder of its own there.

Places, sends, operands and sources are those of the trials' random files (tests/independent/generate.py), with a signal
in every slot. The gates' codes are drawn anew, so that in each cycle no signal changes, or a tenth of them, or nearly all:
a signal is still, or it turns (0 and 1 by turns), or it is lively (a parity of lively sources: any value in any cycle).
"""
import random
import sys
from pathlib import Path

sys.dont_write_bytecode = True
root = Path(__file__).resolve().parent.parent
sys.path.insert(0, str(root / "tests" / "independent"))
from cavundir import INPUT, LOCAL_EARLIER, RANK_ORDER, STIM_LINES, UNIT_DELAY, XOR, gate
from generate import F, KIND, OPERANDS, SIGNAL, SOURCES, accepted, text

SEED = 1982
LIVELY = 0.2  # of the signals of a board of which a tenth changes: a lively one changes every other cycle
IDENTITY_OR_INVERT = 4, 5
# inputs are few: each change of one takes a line of STIM
FULL, SMALL = dict(processors=16, slots=256, kinds=(1, 256, 256)), dict(processors=2, slots=12, kinds=(0, 1, 1))


def sources(row):
    return [source for source in row[SOURCES:] if source]


def feed_all(rnd, net, mod):
    """Gives each gate without a source one: any signal of its own processor, a cycle late."""
    slots = mod[0][1]
    for row in mod[1:]:
        signal = net[row[SIGNAL]]
        if signal[KIND] != INPUT and not sources(signal):
            location = rnd.randrange(slots)
            row[OPERANDS:OPERANDS + 2] = LOCAL_EARLIER, location
            signal[KIND], signal[SOURCES] = UNIT_DELAY, mod[1 + row[0] * slots + location][SIGNAL]


def turning_signals(net):
    """All inputs, and all gates of which a source turns."""
    turning = set(range(1, len(net)))
    while True:
        idle = {s for s in turning if net[s][KIND] != INPUT and turning.isdisjoint(sources(net[s]))}
        if not idle:
            return turning
        turning -= idle


def lively_signals(rnd, net):
    """The inputs, and gates with a lively source, until there are enough: so each follows from an input at last."""
    fed = [[] for _ in net]
    for s, row in enumerate(net):
        for source in sources(row) if s else []:
            fed[source].append(s)
    lively = {s for s in range(1, len(net)) if net[s][KIND] == INPUT}
    while len(lively) < LIVELY * len(net):
        lively.add(rnd.choice([gate for s in sorted(lively) for gate in fed[s]]))
    return lively


def some_codes(rnd, row, hidden):
    """Any function; translations that hide what is in `hidden`, and mostly hand on the rest."""
    g = [rnd.choice(IDENTITY_OR_INVERT) if source and source not in hidden else rnd.randrange(2)
         for source in row[SOURCES:]]
    return [rnd.randrange(5), *g, rnd.choice(IDENTITY_OR_INVERT)]


def parity_codes(rnd, row):
    return [XOR, *some_codes(rnd, row, ())[1:]]


def value_of(codes, row, values, time):
    """What a gate gives in an even or an odd cycle, of sources that are still or turn."""
    at = time if row[KIND] == RANK_ORDER else 1 - time
    return gate(*codes, *(values[source][at] for source in row[SOURCES:]))


def fitting_codes(rnd, row, values, wanted, hidden):
    """Codes by which the gate has the values wanted, in even and odd cycles. There are some: a still gate needs no source,
    and AND of all that turns, in one phase, turns."""
    while True:
        codes = some_codes(rnd, row, hidden)
        if all(value_of(codes, row, values, time) == wanted[time] for time in (0, 1)):
            return codes


def board(rnd, cycles, change, processors, slots, kinds):
    net, mod, _ = accepted(rnd, processors, slots, filled=1, sent=1, kinds=kinds)
    feed_all(rnd, net, mod)
    turning = turning_signals(net) if change == "all" else set()
    lively = lively_signals(rnd, net) if change == "tenth" else set()
    first = [0] + [rnd.randrange(2) for _ in net[1:]]
    values = [(value, 1 - value if s in turning else value) for s, value in enumerate(first)]
    for s, row in enumerate(net):
        if s == 0 or row[KIND] == INPUT:
            continue
        row[F:SOURCES] = parity_codes(rnd, row) if s in lively else fitting_codes(rnd, row, values, values[s], lively)
    inputs = [s for s in range(1, len(net)) if net[s][KIND] == INPUT]
    return net, mod, stimulus(rnd, cycles, first, inputs, turning, lively)


def stimulus(rnd, cycles, first, inputs, turning, lively):
    """All signals at time 0; then the inputs, where they change."""
    stim = [[0, s, value] for s, value in enumerate(first) if s]
    values = first.copy()
    for time in range(1, cycles + 1):
        for s in inputs:
            if s in turning or s in lively and rnd.randrange(2):
                values[s] = 1 - values[s]
                stim.append([time, s, values[s]])
    stim.append([cycles, 0, 0])
    assert len(stim) <= STIM_LINES
    return stim


# The number of cycles is such that a run takes one second or two; the small boards have all that a session can have.
BOARDS = {
    "quiet": (20000, "none", FULL),
    "tenth": (12000, "tenth", FULL),
    "all": (10000, "all", FULL),
    "small-quiet": (65535, "none", SMALL),
    "small-all": (65535, "all", SMALL),
}


def main():
    for name, (cycles, change, size) in BOARDS.items():
        folder = Path(sys.argv[1]) / name
        folder.mkdir(parents=True, exist_ok=True)
        tables = board(random.Random(f"{SEED} {name}"), cycles, change, **size)
        for file, rows in zip(("NET", "MOD", "STIM"), tables):
            (folder / file).write_bytes(text(rows))


if __name__ == "__main__":
    if len(sys.argv) != 2:
        sys.exit(__doc__)
    main()
