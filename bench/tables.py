#!/usr/bin/env python3
"""tables.py FILE: prints the two tables of crates/gates/src/table.rt as C, so that C has Rattle's numbers and no copy of them."""
import re
import sys
from pathlib import Path

LENGTHS = {"FUNCTIONS": 1280, "TRANSLATIONS": 28}
A_LINE = 32  # numbers


def fail(words):
    sys.exit(f"bench: FAILED: {sys.argv[1]}: {words}")


def numbers(source, name):
    """The numbers of one constant, each the value of a signal."""
    found = re.findall(rf"\bconst {name}: \[u8; \d+\] = \[(.*?)\];", source, re.DOTALL)
    if len(found) != 1:
        fail(f"{len(found)} tables {name}")
    items = found[0].replace(",", " ").split()
    if len(items) != LENGTHS[name]:
        fail(f"{name} has {len(items)} numbers, not {LENGTHS[name]}")
    for item in items:
        if item not in ("0", "1", "2", "3"):
            fail(f"{item} in {name} is no value")
    return items


def in_c(name, items):
    lines = [", ".join(items[at:at + A_LINE]) for at in range(0, len(items), A_LINE)]
    return f"static const uint8_t {name.lower()}[{len(items)}] = {{\n" + "".join(f"    {line},\n" for line in lines) + "};\n"


def main():
    source = re.sub(r"//.*", "", Path(sys.argv[1]).read_text(encoding="utf-8"))
    tables = "".join(in_c(name, numbers(source, name)) for name in LENGTHS)
    print(f"/* Made by bench/tables.py from {sys.argv[1]}. */\n#include <stdint.h>\n\n{tables}", end="")


if __name__ == "__main__":
    if len(sys.argv) != 2:
        sys.exit(__doc__)
    main()
