#!/usr/bin/env python3
"""Reads the board's listing on standard input, shows it as numbers, and checks it by arithmetic: in every cycle after
the first RESET the registers, the product, the total, the count and the comparison must be what README.md says.
Exit status 0 exactly if all are."""
import sys

sys.dont_write_bytecode = True
from make import A, B, COUNT, LIMIT, PRODUCT, TOTAL, X, Y, multiplier

BUSES = {"A": A, "B": B, "LIMIT": LIMIT, "X": X, "Y": Y, "PRODUCT": PRODUCT, "TOTAL": TOTAL, "COUNT": COUNT,
         **{name: [name] for name in ("RESET", "LOAD", "REACHED", "LATCH")}}
SHOWN = "X", "Y", "PRODUCT", "TOTAL", "COUNT", "REACHED", "LATCH"


def by_time(lines):
    """All signals' values at each time from 0 to T: what the listing does not name is as it was."""
    times, values, now = [], {}, 0
    for line in lines:
        time, signal, value = map(int, line.split())
        while now < time:
            times.append(values.copy())
            now += 1
        if signal:
            values[signal] = value
    return times + [values]


def number(values, signals):
    """The number that some bits show; None where one of them is undefined or floating."""
    shown = [values[signal] for signal in signals]
    return None if max(shown) > 1 else sum(bit << place for place, bit in enumerate(shown))


def expected(before, now):
    """What a cycle must show, from the cycle before it and from its own inputs and registers."""
    reset, load = before["RESET"], before["LOAD"]
    return {
        "X": before["A"] if load else before["X"],
        "Y": before["B"] if load else before["Y"],
        "PRODUCT": now["X"] * now["Y"],
        "TOTAL": 0 if reset else (before["TOTAL"] + before["PRODUCT"]) % 65536,
        "COUNT": 0 if reset else (before["COUNT"] + 1) % 65536,
        "REACHED": int(now["TOTAL"] >= now["LIMIT"]),
        "LATCH": 0 if reset else int(before["LATCH"] or before["REACHED"])}


def faults(before, now):
    """What is wrong with a cycle, in words. Once RESET and LOAD have been 1, nothing shown is undefined."""
    undefined = [f"{name} is undefined" for name in SHOWN if now[name] is None]
    if undefined:
        return undefined
    return [f"{name} is {now[name]}, expected {value}"
            for name, value in expected(before, now).items() if now[name] != value]


def main():
    numbers = multiplier()[1]
    buses = {name: [numbers[bit] for bit in names] for name, names in BUSES.items()}
    times = [{name: number(values, signals) for name, signals in buses.items()} for values in by_time(sys.stdin)]
    begun = next((time for time, shown in enumerate(times) if shown["RESET"] == 1), len(times))
    wrong = 0
    print("  time" + "".join(f"{name:>9}" for name in SHOWN))
    for time, now in enumerate(times):
        print(f"{time:6}" + "".join(f"{'U' if now[name] is None else now[name]:>9}" for name in SHOWN))
        for fault in faults(times[time - 1], now) if time > begun else ():
            wrong += 1
            print(f"wrong at {time}: {fault}")
    checked = len(times) - begun - 1
    print(f"{checked} cycles checked, {wrong} numbers wrong")
    return 0 if checked > 0 and not wrong else 1


if __name__ == "__main__":
    sys.exit(main())
