#!/usr/bin/env python3
"""Lists the lines of src/ where a newer form of the language may be plainer, point by point.

usage: tools/places.py [TOP]     TOP is a checkout of this repository, by default this one

A line listed is a candidate: docs/DESIGN-PASS.md says which of them are places, and what became of each.
"""
import collections
import glob
import itertools
import os
import re
import sys

TOP = sys.argv[1] if len(sys.argv) > 1 else os.path.join(os.path.dirname(os.path.abspath(__file__)), "..")

# one pattern for each point that a line alone can show
LINES = {
    "1 enums, flags, numbers for refusals and for none": r"^ *(pub(\([a-z]+\))? )?enum |: bool,|number: *(u8|[0-9]+)|fault\(Layer|ill_formed\(|not_for_us\(|out_of_range\(|no_rule\(|\bNo\([^)]*\)|NO_BALLOT|[^a-z0-9]-1(i32)?\b|\buntil\b",
    "3 loops": r"^ *(for|while|loop)\b",
    "4 conversions, comparisons, printing and Option or Result by hand": r"\bimpl(<.*>)? (PartialEq|Eq|PartialOrd|Ord|Clone|Copy|Default|Hash|From<|TryFrom<|fmt::)|fn (of|number|from_\w+|to_\w+|as_\w+|kind_number|is_\w+)\(|(None|Err\(\w+\)) => |\(\w+ / [0-9_x]+ *(% [0-9_x]+)?\) as u|\* 256 \+",
    "6 buffers with a length, arrays of fixed size, lists": r"\[[A-Za-z0-9:]+; *[A-Za-z0-9_]+\]|\blen: usize|\bsaves: usize|Vec<",
    "7 switches and tables of functions": r"\bmatch (command|sort|numbers|name|self) \{|\bif is\(|\bfn\(|\bdyn\b|: Sort,",
}


def sources():
    for path in sorted(glob.glob(os.path.join(TOP, "crates/*/src/**/*.rt"), recursive=True)):
        crate = os.path.relpath(path, TOP).split(os.sep)[1]
        if crate.endswith("_tests") or crate == "slots_long":
            continue
        yield os.path.relpath(path, TOP), open(path, encoding="utf-8").read()


def functions(text):
    """(name, parameters, clauses, body) of each function with a body."""
    for m in re.finditer(r"\bfn (\w+)(?:<[^(]*>)?\(", text):
        depth, i = 1, m.end()
        while depth:
            depth += {"(": 1, ")": -1}.get(text[i], 0)
            i += 1
        params = text[m.end() : i - 1]
        rest = text[i:]
        clauses = re.match(r"(?:[^{;]*?)((?:\n *(?:requires|ensures)\*?[^\n]*)*)\s*\{\n", rest)
        if not clauses:
            continue
        start = clauses.end()
        depth, j = 1, start
        while depth:
            depth += {"{": 1, "}": -1}.get(rest[j], 0)
            j += 1
        names = [p.split(":")[0].strip().removeprefix("mut ") for p in params.split(",") if ":" in p]
        yield m.group(1), names, clauses.group(1), rest[start : j - 1].strip()


def head(title, lines):
    print(f"== {title}: {len(lines)}")
    for line in lines:
        print("   " + line)


for title, pattern in LINES.items():
    found = []
    for path, text in sources():
        for number, line in enumerate(text.split("\n"), 1):
            if line.strip().startswith("//") or re.match(r" *(ghost )?use |.*(ensures|requires) ", line):
                continue
            if re.search(pattern, line):
                found.append(f"{path}:{number}: {line.strip()[:110]}")
    head(title, found)

forwards, shapes, pairs, facts = [], collections.defaultdict(list), collections.Counter(), collections.Counter()
for path, text in sources():
    for name, params, clauses, body in functions(text):
        call = re.fullmatch(r"(?:self\.|Self::|[A-Z]\w*::)?(\w+)(?:::<[^>]*>)?\(([^()]*)\);?", body)
        if call and [a.strip().lstrip("&") for a in call.group(2).split(",") if a.strip()] == [p for p in params if p != "self"]:
            forwards.append(f"{path}: {name} only calls {call.group(1)}")
        shape = re.sub(r"\b[A-Z]\w*\b|\b[0-9][\w]*\b", "_", re.sub(r"\b[a-z_]\w*\b", "x", body))
        if len(shape) > 12:
            shapes[shape].append(f"{path}: {name}")
        for size in (2, 3):
            pairs.update(itertools.combinations([p for p in params if p != "rt"], size))
        for clause in re.findall(r"(?:requires|ensures)\*?[^{]*\{ (.*) \}", clauses):
            facts.update(set(f.strip("() ") for f in clause.split(" × ")))
head("2 functions that only forward", forwards)
head("2 bodies of one shape", [" | ".join(v) for v in shapes.values() if len(v) > 1])
alone = collections.Counter()
for path, text in sources():
    for name, params, clauses, body in functions(text):
        alone.update(set(params))
together = [
    f"{n} times of {alone[a]} and {alone[b]}: {a}, {b}"
    for (a, b), n in ((p, n) for p, n in pairs.most_common() if len(p) == 2)
    if n >= 3 and 4 * n >= 3 * min(alone[a], alone[b])
]
head("5 parameters that mostly come together, in three functions or more", together)
head("5 facts in three contracts or more", [f"{n} times: {f}" for f, n in facts.most_common() if n >= 3])
