#!/usr/bin/env python3
"""Times the checks of NET, MOD and STIM on the largest files, and NET's on networks that are hard for 13.

Prints ms, the fastest of several calls, and exits 1 where an answer is wrong. With an argument it times that
archive in place of the one in crates/cavundir_panel_c/out.
"""
import random
import sys
import time
from pathlib import Path

sys.dont_write_bytecode = True
root = Path(__file__).resolve().parent.parent
sys.path[:0] = [str(root / "tests" / "lib"), str(root / "tests" / "independent")]
import generate
import library

SECONDS_A_ROW = 0.3
CALLS = 5  # at the least


def fastest(files):
    times = []
    while len(times) < CALLS or sum(times) < SECONDS_A_ROW:
        began = time.perf_counter()
        answer = check(*files)
        times.append(time.perf_counter() - began)
    return min(times), answer


def rows():
    """Names, files, and the right answer."""
    net, mod, stim = generate.texts(generate.largest(random.Random(1)))
    yield "largest NET alone", (net, b"", b""), (20, 1)
    yield "largest NET and MOD", (net, mod, b""), (30, 1)
    yield "largest NET, MOD and STIM", (net, mod, stim), None
    for name, network, refusal in generate.hard_networks():
        # MOD is absent, so that a NET that passes gets 20 at once
        yield name, (generate.text(network), b"", b""), refusal or (20, 1)


check = library.check_files(library.load(sys.argv[1] if len(sys.argv) > 1 else library.archive()))
wrong = 0
print(f"{'ms':>9}  answer    files")
for name, files, expected in rows():
    seconds, answer = fastest(files)
    shown = "accepted" if answer is None else f"{answer[0]} {answer[1]}"
    print(f"{seconds * 1000:9.3f}  {shown:8}  {name}{'' if answer == expected else ': WRONG'}", flush=True)
    wrong += answer != expected
sys.exit(1 if wrong else 0)
