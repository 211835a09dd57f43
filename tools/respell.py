#!/usr/bin/env python3
"""Spells this repository's own definitions and lemmas as today's Rattle does: words in snake case, types and modules in camel case.

usage: python3 tools/respell.py [--table FILE]      at the top of the repository, once, after the kit's port.py

A name that the texts of specs/ or proofs/ declare gets underscores where it had dashes or humps ('unit-delay', 'leftAfter').
A name that begins with a capital and has no dash is a type or a fact and stays. Where a definition with humps and a lemma
with dashes would fall together, the lemma gets '_lem'. A name that a file imports from a library stays in that file.
In comments the code spans turn, and no other words. --table writes the rows 'old, tab, new' to FILE.
"""

import collections
import glob
import re
import sys

WORD = re.compile(r'[^\s(){}.;,@"«»`:]+')
DECLARED = re.compile(r"^\s*(?:(?:unfoldable|abbrev|pub|ruleset) +)*([^\s:={}()\[\],;.|λ→]+)(?:\s*\{[^}]*\})*\s*:(?!=)")
RULESET = re.compile(r"^\s*(?:pub +)?ruleset +(\S+) *=")
ITEMS = re.compile(r"\buse ([^\s;{]+)\.\{([^}]*)\}", re.S)
OWN = re.compile(r"Rattle\.(\w+)\.")
# What Rattle makes of a function's code, and its answers by name: not ours to spell.
MADE = re.compile(r"/proofs/(?:[^/]+/)+(?:Proof|Answers|Invariants)\.antt$")
SPAN = re.compile(r"`[^`\n]*`")


def snake(name):
    return re.sub(r"(?<=[a-z0-9])[A-Z]", lambda m: "_" + m[0].lower(), name).replace("-", "_")


def texts(kinds):
    for kind in kinds:
        yield from sorted(glob.glob("crates/*/**/*." + kind, recursive=True))


def declared():
    """Each name that specs/ and the lemma files declare, with the folders that do."""
    found = collections.defaultdict(set)
    for path in texts(["antt"]):
        if "/out/" in path or MADE.search(path):
            continue
        folder = "specs" if "/specs/" in path else "proofs"
        with open(path, encoding="utf-8") as f:
            for line in f:
                if line.lstrip().startswith(("--", "use ")):
                    continue
                m = DECLARED.match(line) or RULESET.match(line)
                if m:
                    found[m[1]].add(folder)
    return found


def table():
    names = declared()
    rows = {}
    for name in names:
        if name[0].isupper() and "-" not in name or not re.search(r"[A-Za-z]", name):
            continue
        new = snake(name)
        if new != name:
            rows[name] = new
    together = collections.defaultdict(list)
    for name, new in rows.items():
        together[new].append(name)
    for new, old in together.items():
        if new in names:
            old = old + [new]
        if len(old) < 2:
            continue
        # A definition of specs/ gets the plain spelling; of two, the one with humps, which clauses cite.
        old.sort(key=lambda it: ("specs" not in names[it], "-" in it, it != new))
        rows.pop(new, None)
        rows[old[0]] = new
        for it in old[1:]:
            rows[it] = new + "_lem"
    return rows


def turned(word, rows, kept):
    if word in kept:
        return word
    bare = word.rstrip("'")
    return rows.get(word) or (rows[bare] + word[len(bare) :] if bare in rows else word)


def turn(text, rows, kept):
    return WORD.sub(lambda m: turned(m[0], rows, kept), text)


def turn_file(path, rows):
    with open(path, encoding="utf-8") as f:
        text = f.read()
    mark = "--" if path.endswith(".antt") else "//"
    kept = set()
    for module, items in ITEMS.findall(text):
        m = OWN.match(module + ".")
        if not m or m[1] in ("std", "core") or not glob.glob("crates/" + m[1]):
            kept.update(it.split(" as ")[0].strip() for it in items.split(","))
    out = []
    for line in text.split("\n"):
        at = re.search(r"(?:^|(?<=\s))" + mark + r"(?=\s|$)", line)
        code, comment = (line[: at.start()], line[at.start() :]) if at else (line, "")
        comment = SPAN.sub(lambda m: turn(m[0], rows, kept), comment)
        out.append(turn(code, rows, kept) + comment)
    new = "\n".join(out)
    if new != text:
        with open(path, "w", encoding="utf-8") as f:
            f.write(new)
        return 1
    return 0


def main():
    rows = table()
    if "--table" in sys.argv:
        with open(sys.argv[sys.argv.index("--table") + 1], "w", encoding="utf-8") as f:
            f.writelines(f"{old}\t{new}\n" for old, new in sorted(rows.items()))
    count = sum(turn_file(path, rows) for path in texts(["antt", "rt"]) if "/out/" not in path)
    print(f"respell: {len(rows)} names, {count} files")


if __name__ == "__main__":
    main()
