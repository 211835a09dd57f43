"""What the suites share about programs: compiling them, running them, and tools that a machine may lack."""
import os
import shutil
import subprocess
from concurrent.futures import ThreadPoolExecutor
from pathlib import Path

root = Path(__file__).resolve().parent.parent.parent
C_FLAGS = "-std=c17", "-O2", "-g", "-Wall", "-Wextra", "-Werror", "-I", root / "include"
LONGEST = 120  # seconds for a program


def run(words, seconds=LONGEST, **options):
    """Exit status, standard output and standard error of a command; the status is None where it did not end."""
    try:
        done = subprocess.run(words, stdin=subprocess.DEVNULL, capture_output=True, text=True, timeout=seconds, **options)
    except subprocess.TimeoutExpired:
        return None, "", f"not done in {seconds} s"
    return done.returncode, done.stdout, done.stderr


def compiled(score, source, program, *words, compiler="gcc"):
    """The program, compiled from a source; None, and a fault counted, where that fails."""
    status, _, said = run([compiler, source, *words, "-o", program])
    right = score.expect(status == 0, f"{source}: {compiler}: exit status {status}\n{said}")
    return program if right else None


def each(function, items):
    """Calls a function on each, as many at a time as there are processors to run on. The answers, in order."""
    with ThreadPoolExecutor(len(os.sched_getaffinity(0))) as pool:
        return list(pool.map(function, items))


def tool(command, package):
    """Whether a command is there; tests/lib/need installs it where it can."""
    if not shutil.which(command):
        run([root / "tests" / "lib" / "need", command, package], seconds=600)
    return shutil.which(command) is not None


def skip(what, why):
    print(f"skipped: {what}, since {why}", flush=True)


def first_difference(found, wanted):
    """The first line in which two texts differ, in words."""
    pairs = enumerate(zip(found.splitlines() + ["nothing"], wanted.splitlines() + ["nothing"]), 1)
    return next((f"line {number} is '{a}', expected '{b}'" for number, (a, b) in pairs if a != b), "the same is printed")


def expect_printed(score, what, found, wanted):
    """A run, as `run` answers it, must print what is wanted, nothing on standard error, and exit with 0."""
    status, out, said = found
    words = f"{what}: exit status {status}; {first_difference(out, wanted)}\n{said}"
    return score.expect(found == (0, wanted, ""), words.rstrip())
