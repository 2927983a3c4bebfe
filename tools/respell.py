#!/usr/bin/env python3
"""Respells this repository's own definitions and lemmas as the Rattle of docs/PORT.md does: words in snake case, lemmas too, and types in
camel case. Modules and what Rust declares keep their names.

usage: respell.py [--list] FOLDER      FOLDER holds crates/; once, after port.py. --list prints the renamings and writes nothing.

A name is one that a file of specs/ or proofs/ declares, but for what stands in the proof of one function (proofs/F/). A lemma that would have
its function's name gets _lem. Names that still fall together end it with status 1 and nothing written. docs/PORT-NAMES.tsv has what was renamed, by this
script and by port.py.
"""
import collections
import glob
import re
import sys

WORD = r"[^\s(){}.;,@\"«»\[\]]+"
DECLARED = re.compile(rf"(?m)^(?P<in>[ ]*)(?:(?:unfoldable|abbrev|pub|irrelevant|data|record|ruleset|opaque)\s+)*(?P<names>{WORD})(?: (?:\{{[^{{}}]*\}}|\([^()]*\)))*\s+(?::|=)(?= |$)")
KEYWORDS = {"use", "where", "module", "infixr", "infixl", "infix", "unfolding", "let", "in", "--"}
MADE = re.compile(r"^(returns|loop|invariant|decreases)(-|$)")
CAMEL = re.compile("[a-z][A-Z]")


def files(root, *ends):
    for end in ends:
        yield from sorted(glob.glob(f"{root}/crates/*/**/*.{end}", recursive=True))


def text(path):
    with open(path, encoding="utf-8") as f:
        return f.read()


def declared(root):
    found = set()
    for path in files(root, "antt"):
        if path.endswith("/Proof.antt"):
            continue
        for m in DECLARED.finditer(re.sub(r"--[^\n]*", "", text(path))):
            if m["names"] not in KEYWORDS and not MADE.match(m["names"]):
                found.add(m["names"])
    return found


def types(root):
    """Lower-case names of types."""
    for path in files(root, "antt"):
        if not path.endswith("/Proof.antt"):
            for m in re.finditer(rf"(?m)^[ ]*(?:(?:unfoldable|abbrev|pub)\s+)*([a-z]{WORD}) : (?:[^\n]*→ )?Type 0$", text(path)):
                yield m[1]


def snake(word):
    if not word[:1].islower():
        return word
    return re.sub(r"(?<=[a-z0-9])([A-Z])", lambda m: "_" + m[1].lower(), word)


def respelt(name):
    return snake(re.sub(r"(?<=\w)-(?=\w)", "_", name))


def clauses(source):
    """The spans of a .rt file that are antt: ghost items and clauses."""
    for m in re.finditer(r"ghost use [^;]*;|(?:requires|ensures)\*?\s*(?:\w+\s*)?(?=\{)|ghost (?:\w+\s*)?(?:\w+:\s*)?(?=\{)", source):
        if m[0].startswith("ghost use"):
            yield m.start(), m.end()
            continue
        depth, at = 0, m.end()
        while True:
            depth += {"{": 1, "}": -1}.get(source[at], 0)
            at += 1
            if depth == 0:
                break
        yield m.end(), at


def replaced(source, table, word=re.compile(WORD)):
    return word.sub(lambda m: table.get(m[0], m[0]), source)


def main():
    args = sys.argv[1:]
    listing = "--list" in args
    root = [a for a in args if not a.startswith("--")][0]
    found = declared(root)
    table = {n: respelt(n) for n in found}
    for n in types(root):
        table[n] = n[0].upper() + n[1:]
    fall = collections.defaultdict(list)
    for n in found:
        fall[table[n]].append(n)
    for m, ns in fall.items():
        functions = [n for n in ns if CAMEL.search(n)] or [n for n in ns if "-" not in n]
        for n in ns:
            if len(ns) > 1 and len(functions) == 1 and n not in functions:
                table[n] = m + "_lem"
    fall = collections.Counter(table.values())
    bad = [n for n, m in table.items() if fall[m] > 1]
    for n in sorted(bad):
        print(f"falls together: {n} as {table[n]}")
    table = {n: m for n, m in table.items() if n != m}
    if listing:
        for n, m in sorted(table.items()):
            print(f"{n}\t{m}")
        return 0
    if bad:
        return 1
    camel = {n: m for n, m in table.items() if CAMEL.search(n)}
    for path in files(root, "antt"):
        old = text(path)
        new = "".join(part if part.startswith("--") else replaced(part, table) for part in re.split(r"((?:^|(?<=\s))--[^\n]*)", old))
        new = re.sub(r"((?:^|(?<=\s))--[^\n]*)", lambda m: replaced(m[0], camel), new)
        if new != old:
            with open(path, "w", encoding="utf-8") as f:
                f.write(new)
    for path in files(root, "rt"):
        old = text(path)
        new, at = "", 0
        for a, b in clauses(old):
            new += old[at:a] + replaced(old[a:b], table)
            at = b
        new += old[at:]
        new = re.sub(r"//[^\n]*", lambda m: replaced(m[0], camel), new)
        if new != old:
            with open(path, "w", encoding="utf-8") as f:
                f.write(new)
    print(f"respelt: {len(table)} names")
    return 0


raise SystemExit(main())
