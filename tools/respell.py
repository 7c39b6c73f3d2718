#!/usr/bin/env python3
"""Brings the names of this repository's definitions and lemmas to the spelling of today's Rattle: words in snake case, types in camel case.

Run once at the top, after port.py. Names come from the declarations of specs/ and proofs/*.antt. They are respelled there, in the proofs of functions,
in the imports and clauses of src/, and in the edits. Names of src/ stay. It stops where two names would fall together.
"""
import collections
import os
import re
import sys

IDENT = re.compile(r"[^\s(){}\[\].,;:@|\"]+")
# Lemmas that would fall together with the definition that they speak of.
APART = {"below-zero": "nat_abs_below_zero", "cost-to": "cost_to_most", "first-bad": "first_bad_is", "is_digit": "is_digit_within", "turn_by": "turn_by_is", "last-in": "last_inside", "near-in": "near_inside", "period-of": "period_bounds", "width-of": "width_told", "arc-of": "arc_told"}
# Words of the library that a lemma's name may join by a dash, as the names of this repository.
WORDS = {"length", "set", "append", "take", "drop", "map", "sum", "add", "sub", "mul", "neg", "mod", "rem", "quot", "replicate"}


def files(root, ends):
    for folder, dirs, names in os.walk(os.path.join(root, "crates")):
        dirs[:] = sorted(d for d in dirs if d != "out")
        for name in sorted(names):
            if name.endswith(ends):
                yield os.path.join(folder, name)


def is_function_proof(path):
    return path.endswith("/Proof.antt")


def declared(path):
    """The names that a file declares: (name, is it a type)."""
    kind, deep = None, 0
    for line in open(path, encoding="utf-8"):
        if m := re.match(r"( *)module _.* where$", line.rstrip()):
            deep = len(m[1]) + 2
        elif line[:1].strip():
            deep = 0
        if re.match(r"\s*(--|(pub )?(use|mod) )", line) or " : " not in line and " where" not in line:
            continue
        m = re.match(r"( *)((?:abbrev |unfoldable |pub )*)(record |data |ruleset )?(" + IDENT.pattern + r")(?= )", line)
        if not m:
            continue
        if len(m[1]) == deep:
            kind = (m[3] or "").strip()
            if kind in ("record", "data") or line[m.end():].startswith(" :"):
                yield m[4], kind in ("record", "data") or m[4][0].isupper()
        elif line[m.end():].startswith(" :"):
            yield m[4], m[4][0].isupper()


def snake(word):
    word = re.sub(r"(?<=[a-z0-9])([A-Z])", lambda m: "_" + m[1].lower(), word)
    return re.sub(r"(?<=[A-Za-z])ℤ", "_ℤ", word)


def respelled(name, is_type, functions):
    if is_type:
        return re.sub(r"-(\w)", lambda m: m[1].upper(), name)
    parts = name.split("-")
    out = snake(parts[0])
    for left, right in zip(parts, parts[1:]):
        both = all(p in functions | WORDS for p in (left, right))
        out += ("-" if both else "_") + snake(right)
    return out


def turned(text, names):
    return IDENT.sub(lambda m: names.get(m[0], m[0]), text)


def main():
    root = os.getcwd()
    owners = collections.defaultdict(set)
    types = set()
    for path in files(root, ".antt"):
        if not is_function_proof(path):
            for name, is_type in declared(path):
                owners[name].add(path)
                if is_type:
                    types.add(name)
    functions = {n for path in files(root, ".antt") if "/specs/" in path for n in re.findall(r"(?m)^(?:abbrev|unfoldable) pub ([a-z]\S*) :", open(path, encoding="utf-8").read())}
    names = {n: respelled(n, n in types, functions) for n in owners}
    names = {n: APART.get(n, new) for n, new in names.items() if new != n or n in APART}
    back = collections.Counter(names.values())
    bad = [f"{n} -> {new}" for n, new in names.items() if back[new] > 1 or new in owners and new not in names]
    for path in files(root, (".antt", ".rt")):
        text = open(path, encoding="utf-8").read()
        here = set(IDENT.findall(text))
        if path.endswith(".rt"):
            here = {w for line in text.splitlines() if re.match(r"\s*(pub )?(mut )?\w+: ", line) for w in IDENT.findall(line)} | {w for w in here if w in names}
        places = set(re.findall(r"(?m)^use [\w.]*?\.proofs\.(?:\w+\.)*(\w+)\.(?:Statement|Tie)\b", text))
        bad += [f"{path}: {n} -> {names[n]}" for n in here if n in names and names[n] in here and names[n] not in names and names[n] not in places]
    if bad:
        print("\n".join(bad))
        if "--force" not in sys.argv:
            return 1
    for path in files(root, (".antt", ".rt", ".edit")):
        text = open(path, encoding="utf-8").read()
        if path.endswith(".antt"):
            own = set(re.findall(r"(?m)^(\S+) : tie\.Need-", text)) if is_function_proof(path) else set()
            new = turned(text, {n: v for n, v in names.items() if n not in own})
        elif path.endswith(".rt"):
            new = "".join(turned(l, names) if re.match(r"\s*(ghost use|requires|ensures)\b", l) else l for l in text.splitlines(True))
        else:
            ghost = re.search(r"(?m)^file: *(specs|proofs)/", text)
            new = turned(text, names) if ghost else "".join(turned(l, names) if re.match(r"\w+: *(ghost use|requires|ensures)\b", l) else l for l in text.splitlines(True))
        if new != text:
            open(path, "w", encoding="utf-8").write(new)
    print(f"{len(names)} names respelled")
    return 0


sys.exit(main())
