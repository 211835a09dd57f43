#!/usr/bin/env python3
"""What the tests read in the sources: the functions of a Rattle file, the names that an antt file declares, and those that
either imports. Run by itself it is a test: every name that a file imports is used in it."""
import re
import sys
from dataclasses import dataclass
from pathlib import Path

root = Path(__file__).resolve().parent.parent.parent


@dataclass(frozen=True)
class Function:
    name: str
    owner: str  # the type whose `impl` block has it, or nothing
    line: int
    public: bool
    exported: bool  # extern "C"
    requires: bool
    ensures: bool

    @property
    def full_name(self):
        return f"{self.owner}::{self.name}" if self.owner else self.name


# a comment, a text, a byte in quotes: none of their brackets count
HIDDEN = re.compile(r"""//[^\n]*|/\*.*?\*/|"(?:\\.|[^"\\])*"|\bb'(?:\\x..|\\.|[^\\'\n])'""", re.S)
FUNCTION = re.compile(r'(\bpub\s+)?(\bextern\s+"C"\s+)?\bfn\s+(\w+)')
IMPL = re.compile(r"^\s*impl\b[^{;]*?(\w+)(?:<[^{;]*>)?\s*\{", re.M)  # not a parameter's `&impl Trait`
# what can stand between a function's parameters and its body: a clause, or a bracket of the result's type
AFTER_PARAMETERS = re.compile(r"\b(ghost|requires|ensures)\b|[(\[{;]")


def sources(folder, *kinds):
    """The files of some kinds, all if none is named, in a crate's folder or one of crates; what `rt` keeps in out/ is not one."""
    found = (path for path in folder.rglob("*") if path.suffix in (kinds or (".antt", ".rt")))
    return sorted(path for path in found if "out" not in path.relative_to(root).parts)


def visible(text):
    """The text with blanks in place of what is hidden, every character at its place."""
    return HIDDEN.sub(lambda m: m[0] if m[0] == '"C"' else re.sub(r"[^\n]", " ", m[0]), text)


def closed(text, at):
    """The place after the bracket that closes the one at a place."""
    depth = 0
    for place in range(at, len(text)):
        if text[place] in "([{":
            depth += 1
        elif text[place] in ")]}":
            depth -= 1
            if depth == 0:
                return place + 1
    return len(text)


def clauses(text, at):
    """The kinds of clauses in a function's header, from the end of its name."""
    found = set()
    at = closed(text, text.find("(", at))
    while (m := AFTER_PARAMETERS.search(text, at)) and m[0] not in "{;":
        if m[1]:
            found.add(m[1])
            at = closed(text, text.find("{", m.end()))
        else:
            at = closed(text, m.start())
    return found


def functions(path):
    text = visible(Path(path).read_text(encoding="utf-8"))
    owners = [(m.end(), closed(text, m.end() - 1), m[1]) for m in IMPL.finditer(text)]
    found = []
    for m in FUNCTION.finditer(text):
        header = clauses(text, m.end())
        owner = next((name for start, end, name in owners if start <= m.start() < end), "")
        line = text.count("\n", 0, m.start(3)) + 1
        found.append(Function(m[3], owner, line, bool(m[1]), bool(m[2]), "requires" in header, "ensures" in header))
    return found


def types(path):
    """The structs and enums of a Rattle file."""
    return set(re.findall(r"\b(?:struct|enum)\s+(\w+)", visible(Path(path).read_text(encoding="utf-8"))))


NAME = r'(?:«[^»]*»|[^\s(){}.;,@"«»]+)'
MARKS = re.compile(r"^(?:(?:unfoldable|abbrev|axiom|pub)\s+)+")
SIGNATURE = re.compile(rf"^({NAME})\s*(?:\{{[^{{}}]*\}}\s*)?:\s")
MEMBERS = re.compile(rf"^({NAME}(?:\s+{NAME})*?)\s+:\s")
NAMED_BLOCK = re.compile(rf"^(?:data|record|ruleset)\s+({NAME})")


def declared(lines, members=False):
    """The names that a block of lines declares; those of a `where` below a clause are its own affair."""
    items = []
    for line in lines:
        if items and len(line) - len(line.lstrip()) > indent:
            items[-1].append(line)
        else:
            indent = len(line) - len(line.lstrip())
            items.append([line])
    found = set()
    for item in items:
        text = MARKS.sub("", " ".join(line.strip() for line in item) + " ")
        inside = next((item[k + 1 :] for k, line in enumerate(item) if re.search(r"\bwhere\s*$", line)), [])
        if re.match(r"mutual\b", text):
            found |= declared(item[1:])
        elif re.match(r"module\s", text):
            found |= declared(inside)
        elif m := NAMED_BLOCK.match(text):
            found |= {m[1]} | declared(inside, members=True)
        elif m := SIGNATURE.match(text):
            found.add(m[1])
        elif members and (m := MEMBERS.match(text)):
            found |= set(m[1].split())
    return found


def uncommented(text):
    """The lines of an antt file without their comments."""
    text = re.sub(r"\{-.*?-\}", lambda m: "\n" * m[0].count("\n"), text, flags=re.S)
    return [re.sub(r"(^|\s)--(?=\s|$).*", "", line).rstrip() for line in text.split("\n")]


def declarations(path):
    return declared([line for line in uncommented(Path(path).read_text(encoding="utf-8")) if line])


# `use A.B.{a, ◌b◌, c as d}` brings a, ◌b◌ and d; `use A.B as c` and Rattle's `use a::B` bring one name
IMPORT = re.compile(r"^(ghost\s+)?use\s+([^{};]+?)(?:\{([^{}]*)\})?;?\s*$", re.M)
CLAUSE = re.compile(r"\b(?:ghost|requires|ensures|by)\b[^{};]*(?=\{)")
METHODS = {"FileExt": {"read_at"}}  # a trait of std is used where one of its methods is called


def brought(where, names):
    """The names that an import brings."""
    items = [where] if names is None else [item.strip() for item in names.split(",")]
    return [re.split(r"\s+as\s+|::|\.", item)[-1].strip() for item in items if item]


def antt_words(text):
    """The names of an antt text, without those after a full stop, which are fields or another module's."""
    return set(re.findall(rf"(?<![^\s(){{}};,@]){NAME}", text))


def is_used(name, words):
    """A name is among the words: whole, or all parts of an operator, or a method of a trait."""
    return name in words or bool(METHODS.get(name, set()) & words) or ("◌" in name and all(part in words for part in name.split("◌") if part))


def unused_imports(path):
    """The names that a file imports and does not use, each with its line. Those of a `ghost use` are for the clauses."""
    text = Path(path).read_text(encoding="utf-8")
    if Path(path).suffix == ".rt":
        text = visible(text)
        rest = IMPORT.sub("", text)
        words = set(re.findall(r"\w+", rest))
        ghost_words = antt_words("\n".join(rest[m.end() : closed(rest, m.end())] for m in CLAUSE.finditer(rest)))
    else:
        text = "\n".join(uncommented(text))
        words = antt_words(IMPORT.sub("", text))
    found = []
    for m in IMPORT.finditer(text):
        line = text.count("\n", 0, m.start()) + 1
        found += [(line, name) for name in brought(m[2], m[3]) if not is_used(name, ghost_words if m[1] else words)]
    return found


def main():
    passed = failed = 0
    for path in sources(root / "crates"):
        faults = unused_imports(path)
        for line, name in faults:
            print(f"{path.relative_to(root)}:{line}: {name} is imported and not used")
        if faults:
            failed += 1
        else:
            passed += 1
    print(f"{passed} passed, {failed} failed")
    return 1 if failed else 0


if __name__ == "__main__":
    sys.exit(main())
