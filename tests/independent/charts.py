#!/usr/bin/env python3
"""Document 02, ticket 1, in Python: the recorded values of chosen signals, printed as a chart page.

The page is written from the document alone, to be compared with the proved code: nothing is shared with it. The call answers
as session.py has it, beside the page as it leaves it. Run as a program it prints ANSWERS for the VECTORS in a folder.
"""
import sys
from pathlib import Path

sys.dont_write_bytecode = True
import session
from session import OK, refused
from traces import read_buffer

SIGNALS, VALUES, PAGE = 112, 4032, 4617  # bytes
MOST_SIGNALS, MOST_CYCLES = 56, 72  # on one page
LAST_SIGNAL, LAST_CYCLE = 4096, 65535  # the highest numbers allowed
NUMBER, LINE = 6, 80  # columns
LETTERS = "01UZ"  # how the values 0 to 3 are printed


def column(number):
    """A decimal number in six columns, with spaces before it."""
    return str(number).rjust(NUMBER)


def chart(signals, values, page, signal_count, first_cycle, cycle_count):
    """Print one chart page; return the answer and the page as it is afterwards."""
    if len(signals) != SIGNALS or len(values) != VALUES or len(page) != PAGE:
        return refused(40, 0), page

    last_cycle = first_cycle + cycle_count - 1
    if not (1 <= signal_count <= MOST_SIGNALS and 1 <= cycle_count <= MOST_CYCLES
            and last_cycle <= LAST_CYCLE):
        return refused(46, 0), page

    pairs = zip(signals[0::2], signals[1::2])
    chosen = [low + 256 * high for low, high in pairs][:signal_count]
    for signal in chosen:
        if signal == 0 or signal > LAST_SIGNAL:
            return refused(41, signal), page

    rows = [values[start:start + MOST_CYCLES] for start in range(0, VALUES, MOST_CYCLES)]
    printed = [row[:cycle_count] for row in rows[:signal_count]]
    for row in printed:
        for value in row:
            if value > 3:
                return refused(42, value), page

    lines = [column(first_cycle) + column(last_cycle)]
    for signal, row in zip(chosen, printed):
        lines.append(column(signal) + "  " + "".join(LETTERS[value] for value in row))
    text = "".join(line.ljust(LINE) + "\n" for line in lines).encode("ascii")
    return OK, text + page[len(text):]


# Vectors

KEPT = {"ok": "rest kept", "refused": "page kept"}  # the last line of an answer


def read_vectors(folder):
    """The lines of VECTORS: the signals, the values, the page, the three numbers."""
    for line in (Path(folder) / "VECTORS").read_text().splitlines():
        _, signals, values, page, *numbers = line.split()
        yield read_buffer(signals), read_buffer(values), read_buffer(page), *map(int, numbers)


def read_answers(folder):
    """Of each call in ANSWERS the answer and the text of the page, which is empty where it was refused."""
    lines = iter((Path(folder) / "ANSWERS").read_text().splitlines())
    for line in lines:
        kind, *numbers = line.split()
        text = "".join(row + "\n" for row in iter(lambda: next(lines), KEPT[kind]))
        yield (kind, *map(int, numbers)), text.encode("ascii")


if __name__ == "__main__":
    for *lent, page, signal_count, first_cycle, cycle_count in read_vectors(sys.argv[1] if len(sys.argv) > 1 else "."):
        answer, after = chart(*lent, page, signal_count, first_cycle, cycle_count)
        written = (LINE + 1) * (signal_count + 1) if answer == OK else 0
        kept = KEPT[answer[0]] if after[written:] == page[written:] else "other bytes changed too"
        print(session.text(answer), after[:written].decode("ascii") + kept, sep="\n")
