#!/usr/bin/env python3
"""verilog.py FOLDER CYCLES PROGRAM: the network of a board in Verilog, run by Icarus Verilog, beside the listing program.

Prints us a cycle of both, and their ratio. Rank-order gates are continuous assignments without delay, and unit-delay gates
have a delay of one cycle, which is two steps of the time: between them all is settled, and can be read. Of the translations
it has those that these boards have.
Exits 1 where the signals' last values are not those of the listing, which goes to a file here.
"""
import os
import subprocess
import sys
from pathlib import Path

sys.dont_write_bytecode = True
root = Path(__file__).resolve().parent.parent
sys.path.insert(0, str(root / "tests" / "independent"))
from cavundir import AND, IDENTITY, INPUT, SELECT, UNIT_DELAY, XOR, read_network
from generate import text

RUNS = 3


def operand(g, source):
    return {0: "1'b0", 1: "1'b1", 4: f"s{source}", 5: f"~s{source}"}[g]


def expression(signal):
    a, b, c, d = (operand(g, source) for g, source in zip(signal.g, signal.sources))
    if signal.f == AND:
        value = f"{a} & {b} & {c} & {d}"
    elif signal.f == XOR:
        value = f"{a} ^ {b} ^ {c} ^ {d}"
    elif signal.f == IDENTITY:
        value = a
    elif signal.f == SELECT:
        value = f"{a} ? {c} : {b}"
    else:
        value = f"{a} & {b} | {a} & {c} | {b} & {c}"
    return f"~({value})" if signal.g[4] == 5 else value


def module(network, first):
    """The Verilog text. Its time begins with cycle 1: at time 0 of a board a rank-order gate may have any value, here it has
    its own. `go` lets each unit-delay gate look at its sources once all have their values of cycle 1."""
    yield f"`timescale 1ns/1ns\nmodule board;\nreg go = 0;\nreg [{len(network) - 1}:0] hand;"
    numbered = list(enumerate(network))[1:]
    for s, signal in numbered:
        yield f"reg s{s} = {first[s]};" if signal.kind == UNIT_DELAY else f"wire s{s};"
    for s, signal in numbered:
        if signal.kind == INPUT:
            yield f"assign s{s} = hand[{s}];"
        elif signal.kind == UNIT_DELAY:
            seen = " or ".join(["go"] + [f"s{source}" for source, g in zip(signal.sources, signal.g) if g > 3])
            yield f"always @({seen}) s{s} <= #2 {expression(signal)};"
        else:
            yield f"assign s{s} = {expression(signal)};"
    hand = "".join(str(first[s]) if network[s].kind == INPUT else "0" for s in range(len(network) - 1, 0, -1))
    last = ", ".join(f"s{s}" for s, _ in numbered)
    yield f"""integer file, got, at, signal, value, cycles;
initial begin
  hand = {len(network)}'b{hand}0;
  file = $fopen("settings", "r");
  #0 go = 1;
  got = $fscanf(file, "%d %d %d", at, signal, value);
  while (got == 3) begin
    if (at > $time) #(at - $time);
    hand[signal] = value;
    got = $fscanf(file, "%d %d %d", at, signal, value);
  end
end
initial begin
  got = $value$plusargs("cycles=%d", cycles);
  #(2 * cycles - 1) $display("%b", {{{last}}});
  $finish;
end
endmodule"""


def time_of(command, folder):
    """The least processor time of some runs, and what was printed."""
    least = 1e9
    for _ in range(RUNS):
        with open(folder / "printed", "wb") as printed:
            child = subprocess.Popen(command, cwd=folder, stdout=printed)
            _, status, used = os.wait4(child.pid, 0)
        if status != 0:
            sys.exit(f"bench: FAILED: {command[0]} in {folder}")
        least = min(least, used.ru_utime + used.ru_stime)
    return least, (folder / "printed").read_bytes()


def listed(program, folder, stim, cycles):
    """The listing program's time for a number of cycles, and the values at their end."""
    settings = [row for row in stim if row[0] <= cycles and row[1]]
    (folder / "STIM").write_bytes(text(settings + [[cycles, 0, 0]]))
    seconds, printed = time_of([program], folder)
    values = {}
    for line in printed.splitlines():
        _, s, value = line.split()
        values[int(s)] = value.decode()
    del values[0]  # of the last line, which names no signal
    return seconds, values


def simulated(folder, cycles):
    seconds, printed = time_of(["vvp", "-n", "board.vvp", f"+cycles={cycles}"], folder)
    values = printed.decode().split()[-1]
    return seconds, dict(enumerate(values, 1))


def make(board, folder, stim, program):
    network = read_network((board / "NET").read_bytes())
    for name in ("NET", "MOD"):
        (folder / name).write_bytes((board / name).read_bytes())
    _, first = listed(program, folder, stim, 1)
    (folder / "board.v").write_text("\n".join(module(network, first)) + "\n")
    later = [[2 * time - 2, s, value] for time, s, value in stim if time > 1 and s]
    (folder / "settings").write_text("".join(f"{time} {s} {value}\n" for time, s, value in later))
    subprocess.run(["iverilog", "-o", "board.vvp", "board.v"], cwd=folder, check=True)


def main(board, cycles, program):
    folder = board / "verilog"
    folder.mkdir(exist_ok=True)
    stim = [[int(number) for number in line.split()] for line in (board / "STIM").read_text().splitlines()]
    make(board, folder, stim, program)
    times = []
    # twice: what the start of a program takes, and the reading of files, is in both
    for count in (1, cycles + 1):
        ours, theirs = listed(program, folder, stim, count), simulated(folder, count)
        times.append((ours[0], theirs[0]))
        if ours[1] != theirs[1]:
            sys.exit(f"bench: FAILED: the Verilog of {board} gives other values")
    ours, theirs = (1e6 * (after - before) / cycles for before, after in zip(*times))
    ratio = f"{ours / theirs:8.2f}" if theirs >= 1 else f"{'-':>8}"  # less is lost in what else differs between two runs
    print(f"{board.name:22} {ours:8.1f} {theirs:8.1f} {ratio}", flush=True)


if __name__ == "__main__":
    if len(sys.argv) != 4:
        sys.exit(__doc__)
    main(Path(sys.argv[1]), int(sys.argv[2]), sys.argv[3])
