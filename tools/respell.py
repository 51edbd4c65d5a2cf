#!/usr/bin/env python3
"""Turns the repository's own definitions and lemmas to snake case: run once, after the kit's port.py.

usage: tools/respell.py         at the top of the repository: files below crates/ are rewritten in place
       tools/respell.py --dry   prints each old name with its new one, and the names that would fall together

A lemma named by its left side keeps the dash behind the outer call, as length-written. Names that Rattle
makes (steps and goals in the proof of a function) are left, but for a step named after a function of src/.
"""
import collections
import os
import re
import sys

NAME = r"[A-Za-z][^\s(){}\[\];,.«»\"λ]*"
DECLARES = re.compile(r"^\s*(?:(?:abbrev|unfoldable|pub|data|record|\|)\s+)*(" + NAME + r")\s*(?:\([^:]*:.*|\{[^:]*:.*)?:\s(?!goal\.)")
TOKEN = re.compile(r"(?<![^\s(){}\[\];,.«»\"λ])" + NAME)
OUTER = ("length-", "member-")
# names of this repository that stand behind a `let` or a `λ`
BOUND = "all-formed all-fresh fresh-board is-part is-total most-a most-b now-is own-promise own-ready s-long still-up three-is with-i".split()
HAND = ("Answers.antt", "Invariants.antt", "Proof.antt")


def files(ending):
    for folder, dirs, names in os.walk("crates"):
        dirs[:] = sorted(d for d in dirs if d != "out")
        for name in sorted(names):
            if name.endswith(ending):
                yield os.path.join(folder, name)


def text(path):
    with open(path, encoding="utf-8") as f:
        return f.read()


def code(line):
    """The line without its comment."""
    return re.sub(r"--(\s.*)?$", "", line)


def snake(name):
    for outer in OUTER:
        if name.startswith(outer):
            return outer + name[len(outer):].replace("-", "_")
    return name.replace("-", "_")


def declared():
    found = set(BOUND)
    for path in files(".antt"):
        for line in text(path).split("\n"):
            m = DECLARES.match(code(line))
            if m and "-" in m[1]:
                found.add(m[1])
    return found


def functions():
    return {m for path in files(".rt") for m in re.findall(r"\bfn (\w+)", text(path))}


def ghost_parts(src):
    """The spans of a source that are antt: clauses and ghost items, without comments."""
    blank = re.sub(r"//[^\n]*|\"(?:[^\"\\\n]|\\.)*\"", lambda m: " " * len(m[0]), src)
    for m in re.finditer(r"\b(?:requires|ensures|ghost)\b", blank):
        if re.match(r"ghost\s+use\b", blank[m.start():]):
            yield m.start(), blank.index(";", m.start())
            continue
        start = blank.find("{", m.end())
        if start < 0 or re.search(r"[;}]", blank[m.end():start]):
            continue
        depth = 0
        for k in range(start, len(blank)):
            depth += (blank[k] == "{") - (blank[k] == "}")
            if depth == 0:
                yield start, k
                break


def turned(names, steps):
    def one(m):
        t = m[0]
        if t in names:
            return names[t]
        if m.string[:m.start()].endswith(("c.", "w.")) and t.replace("-", "_") in steps:
            return t.replace("-", "_")
        return t
    return one


def main(argv):
    names = {n: snake(n) for n in declared() if snake(n) != n}
    steps = functions()
    if argv == ["--dry"]:
        taken = collections.Counter(names.values())
        there = {m[1] for path in files(".antt") for line in text(path).split("\n") if (m := DECLARES.match(code(line)))}
        for old in sorted(names):
            both = "  FALLS TOGETHER" if names[old] in there or taken[names[old]] > 1 else ""
            print(old, names[old] + both)
        return
    for path in files(".antt"):
        own = steps if path.endswith(HAND) else set()
        old = text(path)
        new = "\n".join(TOKEN.sub(turned(names, own), code(line)) + line[len(code(line)):] for line in old.split("\n"))
        if new != old:
            with open(path, "w", encoding="utf-8") as f:
                f.write(new)
    for path in files(".rt"):
        old = new = text(path)
        for start, end in sorted(ghost_parts(old), reverse=True):
            new = new[:start] + TOKEN.sub(turned(names, set()), old[start:end]) + new[end:]
        if new != old:
            with open(path, "w", encoding="utf-8") as f:
                f.write(new)


main(sys.argv[1:])
