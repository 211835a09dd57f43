"""A panel's call made on copies of some bytes, with bytes around each buffer that it must leave alone."""
import ctypes

import session
from buffers import bits

GUARD = bytes(range(160, 224))
MOST = 2 ** 32 - 1


def lend(call, lent, *numbers):
    """The answer of a call, the bytes as it leaves them, and whether it wrote beyond them. None is a null pointer."""
    areas = [(ctypes.c_ubyte * (len(data or b"") + 2 * len(GUARD))).from_buffer_copy(GUARD + (data or b"") + GUARD)
             for data in lent]
    arguments = []
    for data, area in zip(lent, areas):
        arguments += (None, 0) if data is None else (ctypes.addressof(area) + len(GUARD), len(data))
    answer = call(*arguments, *numbers)
    after = [bytearray(area) for area in areas]
    strayed = any(data[:len(GUARD)] != GUARD or data[-len(GUARD):] != GUARD for data in after)
    return answer, [data[len(GUARD):-len(GUARD)] for data in after], strayed


def said(answer):
    number, returned = answer >> 56, answer & MOST
    return f"refused {number} {returned}" if number else f"{answer:#x}"


def in_words(where, name, numbers):
    return f"{where}: {name} {' '.join(map(str, numbers))}:"


def compare(expect, calls, where, name, lent, numbers, answer, after):
    """A trial of one call: its answer and every byte lent must be as given. Answers whether they are."""
    found, left, strayed = lend(calls[name], lent, *numbers)
    words = in_words(where, name, numbers)
    if strayed:
        return expect(False, f"{words} it wrote beyond a buffer")
    if found != bits(answer):
        return expect(False, f"{words} the library says {said(found)}, expected is {session.text(answer)}")
    wrong = [f"byte {next(i for i in range(len(data)) if data[i] != other[i])} of buffer {which}"
             for which, (data, other) in enumerate(zip(left, after)) if data != other]
    return expect(not wrong, f"{words} wrong are {', '.join(wrong)}")
