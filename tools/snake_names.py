#!/usr/bin/env python3
"""Respells the names of definitions and lemmas from dashes to underscores.

usage: python3 tools/snake_names.py        at the top of the repository, once, right after the kit's own script

A name counts if a file of specs/ or proofs/ of a crate here defines it (definitions, lemmas, records, fields, constructors),
and it is not one that the checker makes; a few others are listed below. Names of src/, strings, inputs and outputs stay as
they are.
"""
import os
import re
import sys

NAME = r"[A-Za-z_ℕℤ][\w'ℕ≡<≤+*∷-]*"
DEFINED = re.compile(r"(?m)^( *)(?:(?:abbrev|unfoldable|pub|data|record|ruleset|mutual) )*(" + NAME + r")(?:[^\n:]*?) :(?!:) ?(.*)$")
WORD = re.compile(r"(?<![\w'ℕ≡<≤+*∷◌-])" + NAME + r"(?![\w'ℕ≡<≤+*∷◌-])")
# What the check knows at a goal, or a loop's variables: names that follow one of these are made by the checker.
MADE_ROOTS = {"c", "l", "w", "g", "goal", "Goals", "Given"}
MADE = re.compile(r"^(invariant|decreases)-")
# Names of imports and of variables, and names after a word that the library no longer has.
OTHERS = [
    "count-one", "entries-of", "expand-one", "how-many", "is-wanted", "made-full", "watch-lawful",
    "keeps-all", "kind-is", "line-serves", "main-on", "node-on", "out-serves", "start-on", "yes-false",
]
RENAMED = {
    "each-from-getD": "each_from_get_or", "each_from_getD": "each_from_get_or",
    "lines-getD": "lines_get_or", "lines_getD": "lines_get_or",
    "getD-rows": "get_or_rows", "get_d_rows": "get_or_rows",
}


def files(kinds):
    for folder, dirs, names in os.walk("crates"):
        dirs[:] = sorted(d for d in dirs if d != "out")
        for name in sorted(names):
            if name.endswith(kinds):
                yield os.path.join(folder, name)


def read(path):
    with open(path, encoding="utf-8") as f:
        return f.read()


def of_a_function(path):
    return os.path.basename(os.path.dirname(path)) not in ("specs", "proofs")


def defined():
    own, foreign = set(), set()
    for path in files(".antt"):
        text = read(path)
        for m in DEFINED.finditer(text):
            name, of_type = m.group(2), m.group(3)
            if of_a_function(path) and (of_type.startswith("goal.") or MADE.match(name)):
                continue
            own.add(name)
    for path in files((".antt", ".rt")):
        for m in re.finditer(r"use (?:Rattle\.std|borrow|logic|lib|mathlib|Prim|denote)[\w.·]*\.\{([^}]*)\}", read(path)):
            foreign |= {w.strip().split(" as ")[0] for w in m.group(1).split(",")}
    own = {n for n in own if "-" in n}
    both = sorted(own & foreign)
    if both:
        print("also of the library, left:", ", ".join(both))
    return own - foreign


def root_of(text, at):
    """The first part of the dotted path that ends before text[at], or an empty word."""
    if at == 0 or text[at - 1] != ".":
        return ""
    m = re.search(r"([\w'«»·-]+)(?:\.[\w'«»·-]+)*\.$", text[max(0, at - 300):at])
    return m.group(1) if m else ""


def respell(path, names):
    text = read(path)
    made = of_a_function(path) and path.endswith(".antt")
    goals = [m.span() for m in re.finditer(r"(?:Goals|Given)\.\{[^}]*\}", text)]
    strings = [m.span() for m in re.finditer(r'"(?:[^"\\]|\\.)*"', text)] if path.endswith(".rt") else []

    def word(m):
        w, at = m.group(0), m.start()
        if made and root_of(text, at) in MADE_ROOTS:
            return w
        if any(a <= at < b for a, b in goals + strings):
            return w
        return names.get(w, w)

    new = WORD.sub(word, text)
    if new == text:
        return False
    with open(path, "w", encoding="utf-8") as f:
        f.write(new)
    return True


def main():
    names = {name: name.replace("-", "_") for name in defined() | set(OTHERS)} | RENAMED
    taken = set()
    for path in files((".antt", ".rt")):
        taken |= set(WORD.findall(read(path)))
    for name, new in sorted(names.items()):
        if name in taken and new in taken:
            print("falls together:", name, "with", new)
    changed = sum(respell(path, names) for path in list(files((".antt", ".rt"))))
    print(f"{len(names)} names, {changed} files")
    return 0


if __name__ == "__main__":
    sys.exit(main())
