#!/usr/bin/env python3
"""Document 02, ticket 7, in Python: the values of one signal turned into a block, and a block turned back.

Turning is written from the document alone, to be compared with the proved code: nothing is shared with it. A call answers
as session.py has it, beside the buffer that it writes to as it leaves it. Run as a program it prints ANSWERS for the
VECTORS in a folder.
"""
import sys
from pathlib import Path

sys.dont_write_bytecode = True
import session
from session import OK, refused

VALUES, BLOCK = 64, 16  # bytes
HALF = 8  # bytes of low bits, and as many of high bits


def turn(values, block, count):
    """The answer, and the block afterwards: the first count values turned, or the block as it was if refused."""
    if len(values) != VALUES or len(block) != BLOCK:
        return refused(40, 0), block
    if not 1 <= count <= 64:
        return refused(52, 0), block
    for value in values[:count]:
        if value > 3:
            return refused(42, value), block
    turned = bytearray(BLOCK)
    for cycle in range(count):
        low, high = values[cycle] & 1, values[cycle] >> 1
        turned[cycle // 8] |= low << cycle % 8
        turned[HALF + cycle // 8] |= high << cycle % 8
    return OK, bytes(turned)


def turn_back(block, values, count):
    """The answer, and the values afterwards: count of them and then 0, or the values as they were if refused."""
    if len(block) != BLOCK or len(values) != VALUES:
        return refused(40, 0), values
    if not 1 <= count <= 64:
        return refused(52, 0), values
    read = []
    for cycle in range(64):
        low = block[cycle // 8] >> cycle % 8 & 1
        high = block[HALF + cycle // 8] >> cycle % 8 & 1
        read.append(low + 2 * high)
    if any(read[count:]):
        return refused(52, 0), values
    return OK, bytes(read)


CALLS = {"turn": turn, "turn_back": turn_back}


# Vectors


def read_buffer(word):
    """The bytes that a word of VECTORS or ANSWERS stands for."""
    data = b""
    for item in word.split(",") if word != "-" else ():
        digits, _, times = item.partition("x")
        data += bytes.fromhex(digits) * int(times or 1)
    return data


def read_vectors(folder):
    """The lines of VECTORS: the call's name, the buffer that it reads, the one that it writes to, the count."""
    for line in (Path(folder) / "VECTORS").read_text().splitlines():
        name, given, written, count = line.split()
        yield {"turn": "turn", "back": "turn_back"}[name], read_buffer(given), read_buffer(written), int(count)


def read_answers(folder):
    """The lines of ANSWERS: the answer, and the buffer written to."""
    for line in (Path(folder) / "ANSWERS").read_text().splitlines():
        kind, *numbers, written = line.split()
        yield (kind, *map(int, numbers)), read_buffer(written)


if __name__ == "__main__":
    for name, *given in read_vectors(sys.argv[1] if len(sys.argv) > 1 else "."):
        answer, written = CALLS[name](*given)
        print(session.text(answer), written.hex() or "-")
