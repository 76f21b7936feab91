#!/usr/bin/env python3
"""Turns the repository's own definitions, lemmas, fields and variables to snake case.

usage: python3 tools/respell.py [--list]     at the top of the repository; --list only prints what it would rename

Every name that an .antt file of crates/ declares, and that has a dash or a capital after its first letter, is
respelled where it stands in .antt files and in clauses of .rt files, but for comments, for the names of goals, and for
names that an import brings in from elsewhere. OWN has the names for which the plain rule would make two names one.
"""
import os
import re
import sys
from collections import defaultdict

WORD = re.compile(r"[^\s(){}\[\];,.:\"«»`]+")
DECLARED = re.compile(r"^\s*(?:(?:pub|abbrev|unfoldable|ruleset)\s+)*([^\s(){}\[\];,.:\"]+) :(?= |$)")
GOAL = re.compile(r" : (?:\(.*\) → |\{.*\} → )*goal\.")
BINDER = re.compile(r"[({]([^\s(){}\[\];,.:\"]+(?: [^\s(){}\[\];,.:\"]+)*) : ")

# a lemma beside a definition or a field whose name differs only in spelling
OWN = {
    # computed tests of a row, beside the lemmas number_ok, none_ok and pattern_ok that say what they prove
    "numberOk": "number_passes",
    "noneOk": "none_passes",
    "patternOk": "pattern_passes",
    "allOk": "all_pass",
    # a test of a size, beside the lemma size_is on it
    "sizeIs": "is_size",
    # lemmas, beside the definitions top_word, half_word, infinity_word, after_blank and after_digit
    "top-word": "high_fits",
    "half-word": "half_fits",
    "infinity-word": "infinity_has_word",
    "after-blank": "after_byte_blank",
    "after-digit": "after_byte_digit",
}

# respelled where it is declared, and left in a clause that has the new spelling beside it
LEFT = {"Numbers.three-halves": "Numbers.three_halves"}


def snake(name):
    if "-" in name:
        return name.replace("-", "_")
    if re.search(r"[a-z][A-Z]", name) and name[0].islower():
        return re.sub(r"(?<=[a-z0-9])([A-Z])", lambda m: "_" + m.group(1).lower(), name)
    return name


def files(ending):
    for folder, dirs, names in os.walk("crates"):
        dirs[:] = sorted(d for d in dirs if d != "out")
        for n in sorted(names):
            if n.endswith(ending):
                yield os.path.join(folder, n)


def read(path):
    with open(path, encoding="utf-8") as f:
        return f.read()


def declared():
    """The names that the repository's .antt files declare, each with the files that do."""
    found = defaultdict(set)
    for path in files(".antt"):
        for line in read(path).split("\n"):
            m = DECLARED.match(line)
            if m and not GOAL.search(line):
                found[m.group(1)].add(path)
            if not line.startswith("use "):
                for names in BINDER.findall(line):
                    for n in names.split():
                        found[n].add(path)
    return found


def brought_in(text):
    """The names that a file imports from outside the repository."""
    own = sorted(os.listdir("crates"))
    found = set()
    for m in re.finditer(r"^(?:ghost |pub )?use ([\w.]+)\.\{([^}]*)\}", text, re.M):
        crate = m.group(1).split(".")[1] if m.group(1).startswith("Rattle.") else ""
        if crate not in own:
            for it in m.group(2).split(","):
                words = it.split(" as ")
                found.add(words[-1].strip())
    return found


def turn(text, names, comment, skip):
    """The text with its words respelled, comments left alone."""
    out = []
    for line in text.split("\n"):
        at = re.search(comment, line)
        code, rest = (line[: at.start()], line[at.start() :]) if at else (line, "")

        def word(m):
            w = m.group(0)
            if w in skip or w not in names:
                return w
            before = code[: m.start()]
            if before.endswith(".") and not re.search(r"(^|[^\w'-])(?:\w+\.)*[A-Z]\w*\.$", before) and w not in FIELDS:
                return w
            return names[w]

        out.append(WORD.sub(word, code) + rest)
    return "\n".join(out)


def fields():
    """The fields of the repository's records."""
    found = set()
    for path in files(".antt"):
        inside = False
        for line in read(path).split("\n"):
            if re.match(r"(abbrev )?(pub )?record\b.* where$", line):
                inside = True
            elif line and not line.startswith(" "):
                inside = False
            m = DECLARED.match(line)
            if inside and m:
                found.add(m.group(1))
    return found


FIELDS = fields()


def main():
    found = declared()
    names = {n: OWN.get(n, snake(n)) for n in found if OWN.get(n, snake(n)) != n}
    together = defaultdict(set)
    for n in found:
        together[names.get(n, n)].add(n)
    for n, olds in sorted(together.items()):
        if len(olds) > 1:
            both = sorted(olds)
            shared = set.intersection(*(found[o] for o in both))
            print(f"{n}: {', '.join(both)}" + (f" together in {sorted(shared)}" if shared else "") + "   " + "; ".join(f"{o} in {sorted(found[o])[0]}" for o in both))
    if "--list" in sys.argv:
        for n in sorted(names):
            print(n, "->", names[n])
        return
    for path in files(".antt"):
        text = read(path)
        new = turn(text, names, r"(^|\s)--(\s|$)", brought_in(text))
        if new != text:
            with open(path, "w", encoding="utf-8") as f:
                f.write(new)
    for path in files(".rt"):
        text = read(path)
        new = turn(text, names, r"//", set())
        for old in LEFT:
            new = new.replace(old, LEFT[old])
        if new != text:
            with open(path, "w", encoding="utf-8") as f:
                f.write(new)


main()
