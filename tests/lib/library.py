"""What the suites share: counting trials, and the proved code, to be called from Python."""
import ctypes
import subprocess
import sys
import tempfile
import time
from pathlib import Path

from building import PROGRAM, archive  # for the suites, too

root = Path(__file__).resolve().parent.parent.parent


class Score:
    """What passed and what failed. After `most` faults it gives up: more would say nothing new."""

    def __init__(self, most=30):
        self.passed = self.failed = 0
        self.most = most

    def fail(self, words):
        self.failed += 1
        print(words, flush=True)
        if self.failed == self.most:
            print("it gives up here")
            self.end()

    def expect(self, right, words):
        """Counts a trial. Answers whether it passed."""
        if right:
            self.passed += 1
        else:
            self.fail(words)
        return right

    def end(self):
        print(f"{self.passed} passed, {self.failed} failed")
        sys.exit(1 if self.failed else 0)


def trials(numbers, least, seconds):
    """The numbers in order; a slow machine stops after these seconds, if it has tried as many as `least`."""
    start = time.monotonic()
    for tried, number in enumerate(numbers):
        if tried >= least and time.monotonic() - start > seconds:
            break
        yield number


def refusal_in(printed):
    """The refusal that the listing program printed, as tests/independent answers it; None for a listing."""
    return (int(printed[:6]), int(printed[6:12])) if len(printed) == len("    10     1\n") else None


def load(path):
    """The functions of an archive that C can call. OSError, with what was printed, if they cannot be had."""
    with tempfile.TemporaryDirectory() as folder:
        shared = Path(folder) / "library.so"
        done = subprocess.run(["gcc", "-shared", "-o", shared, "-Wl,--no-undefined", "-Wl,--whole-archive", path,
                               "-Wl,--no-whole-archive"], capture_output=True, text=True)
        if done.returncode != 0:
            raise OSError(f"{done.stderr}gcc: exit status {done.returncode}")
        return ctypes.CDLL(str(shared))


def check_files(library):
    """cavundir_check_files, answering as tests/independent does: None, or a refusal's number and returned value."""
    call = library.cavundir_check_files
    call.argtypes = [ctypes.c_char_p, ctypes.c_size_t] * 3  # a slice is a pointer and a length
    call.restype = ctypes.c_uint64

    def check(net, mod, stim):
        answer = call(net, len(net), mod, len(mod), stim, len(stim))
        return divmod(answer, 2 ** 56) if answer else None

    return check


def panel_calls(library):
    """The panel's calls by name. They take a pointer and a length for each buffer, then the numbers."""
    calls = {}
    for name, buffers, numbers in (("check_files", 3, 0), ("open", 6, 0), ("set", 3, 2), ("watch", 3, 2), ("read", 3, 1),
                                   ("run", 3, 1), ("turn", 2, 1), ("turn_back", 2, 1), ("chart", 3, 3)):
        call = calls[name] = getattr(library, f"cavundir_{name}")
        call.argtypes = [ctypes.c_void_p, ctypes.c_size_t] * buffers + [ctypes.c_uint32] * numbers
        call.restype = ctypes.c_uint64
    return calls
