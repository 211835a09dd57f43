#!/usr/bin/env python3
"""The archive and the program that the suites and the benchmark try: where they stand, and how they are built.

usage: tests/lib/building.py archive|program     prints its path, once it is built where it was missing or older than a source

`rt` builds what it proves in crates/NAME/out. `rt ci` leaves there the program, and the libraries as it proved them, but no
archive, and no mark by which a later `rt lib` would take these libraries as they stand: it would prove them all once more.
"""
import contextlib
import os
import shutil
import subprocess
import sys
import tempfile
from pathlib import Path

sys.dont_write_bytecode = True
root = Path(__file__).resolve().parent.parent.parent
RT = shutil.which("rt") or "/opt/rattle/bin/rt"
SOURCES = "src", "specs", "proofs"
FOR_C, PROGRAM_CRATE = "cavundir_panel_c", "cavundir"
ARCHIVE = root / "crates" / FOR_C / "out" / "libcavundir_panel.a"
PROGRAM = root / "crates" / PROGRAM_CRATE / "out" / "cavundir"


def crates():
    """The names of crates.txt, each with whether it is a library that other crates use."""
    for line in (root / "crates.txt").read_text(encoding="utf-8").split("\n"):
        words = line.partition("#")[0].partition(":")[0].split()
        if words:
            yield words[0], "staticlib" not in words and (root / "crates" / words[0] / "src" / "lib.rt").is_file()


def newest_source():
    """When a source was last changed."""
    folders = (root / "crates" / name / part for name, _ in crates() for part in SOURCES)
    files = [root / "crates.txt", *(path for folder in folders for path in folder.rglob("*"))]
    return max(path.stat().st_mtime for path in files)


def is_stale(path):
    return not path.exists() or path.stat().st_mtime < newest_source()


def left_by_ci():
    """Whether every library stands in its out/ as `rt ci` left it, later than every source: no other command has marked one."""
    newest = newest_source()
    for name, is_library in crates():
        rlib = root / "crates" / name / "out" / "rlib"
        made = rlib / f"{name}.rlib"
        if is_library and ((rlib / "stamp").exists() or not made.is_dir() or made.stat().st_mtime < newest):
            return False
    return True


def link_or_copy(one, other):
    try:
        os.link(one, other)
    except OSError:
        shutil.copy2(one, other)


def kit():
    """The part of `rt` that knows a crate's mark."""
    said = subprocess.run([RT, "doc"], capture_output=True, text=True, check=True).stdout.strip()
    sys.path.insert(0, str(Path(said).parent / "bin"))
    import rtlib
    return rtlib


@contextlib.contextmanager
def marks_kept(crates):
    """A crate's mark holds those of the crates below it. Kept, each is made once, and not once for each way down to it."""
    whole = {type(crate): type(crate).stamp for crate in crates}
    made = {}

    def stamp(crate):
        if crate.folder not in made:
            made[crate.folder] = whole[type(crate)](crate)
        return made[crate.folder]

    for kind in whole:
        kind.stamp = stamp
    try:
        yield
    finally:
        for kind, own in whole.items():
            kind.stamp = own


def second_root(folder):
    """Makes the folder one in which `rt` finds the sources and the proved libraries, and builds in an out/ of its own. It finds
    those that `rt ci` left as if `rt lib` had built them: they fit one another."""
    vouched = left_by_ci()
    folder.mkdir(parents=True, exist_ok=True)
    shutil.copyfile(root / "crates.txt", folder / "crates.txt")
    for name, is_library in crates():
        crate, copy = root / "crates" / name, folder / "crates" / name
        for part in SOURCES:
            if (crate / part).is_dir():
                shutil.copytree(crate / part, copy / part)
        if is_library and (crate / "out" / "rlib").is_dir():
            shutil.copytree(crate / "out" / "rlib", copy / "out" / "rlib", copy_function=link_or_copy)
    if vouched:
        marked = [crate for crate in kit().crates_below(str(folder.resolve())) if crate.makes_rlib()]
        with marks_kept(marked):
            for crate in marked:
                Path(crate.folder, "out", "rlib", "stamp").write_text(crate.stamp(), encoding="utf-8")
    return folder


def build(verb, name, folder=root):
    """Runs `rt` in a crate's folder. OSError, with what it printed, where it fails."""
    done = subprocess.run([RT, verb], cwd=folder / "crates" / name, stdin=subprocess.DEVNULL, capture_output=True, text=True)
    if done.returncode != 0:
        raise OSError(f"{done.stdout}{done.stderr}rt {verb} in crates/{name}: exit status {done.returncode}")


def archive():
    """The archive that a panel links."""
    if is_stale(ARCHIVE):
        with tempfile.TemporaryDirectory() as name:
            folder = second_root(Path(name)) if left_by_ci() else root
            build("lib", FOR_C, folder)
            ARCHIVE.parent.mkdir(exist_ok=True)
            shutil.copyfile(folder / "crates" / FOR_C / "out" / f"lib{FOR_C}.a", ARCHIVE)
    return ARCHIVE


def program():
    """The listing program."""
    if is_stale(PROGRAM):
        build("run", PROGRAM_CRATE)
    return PROGRAM


if __name__ == "__main__":
    if sys.argv[1:] not in (["archive"], ["program"]):
        sys.exit("usage: tests/lib/building.py archive|program")
    try:
        print({"archive": archive, "program": program}[sys.argv[1]]())
    except OSError as fault:
        sys.exit(str(fault))
