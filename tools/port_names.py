#!/usr/bin/env python3
"""Brings the names of this repository's own definitions and lemmas to the spelling of the prover's library: snake case, where it was camel case or
words joined by hyphens. A hyphen stays between the names of two functions, as in `length-bytes_of`. Types, facts, functions of src/, generated names and
strings stay. Run once at the top of the repository, right after the toolchain's own port script; prints what would fall together, and then stops."""
import collections
import glob
import os
import re
import sys

SIGNATURE = re.compile(r"^( *)((?:(?:abbrev|unfoldable|pub|data|record) )*)([^\s:(){}]+)(?: [({][^:]*:.*[)}])* : ")
FIELD = re.compile(r"^ +pub ([^\s:(){}]+)((?: [^\s:(){}]+)*) : ")
TOKEN = re.compile(r"[A-Za-zℕℤ0-9_'\-◌≢≡≤<>+*∷·]+")
GENERATED = re.compile(r"^(returns|loop|invariant|decreases|cast|overflow|in)(-|$)|-requires(-\d+)?$|-spec-\d+$")
# The camel-case names of functions that a lemma's name joins to another function's.
FUNCTIONS = {"length", "getD", "bit", "byte", "bytes", "marked", "bits", "get_or"}

# Lemmas that the toolchain's script had spelled as a definition is spelled now.
LEMMAS = {name: name + "_lem" for name in ("at_most_one", "in_rows", "inner_code", "spot_in", "in_order")}
# Fields of demand 1 beside the definitions that they speak of, and its fields that lemmas elsewhere share a name with.
CHOSEN = {"read-border": "reading_border", "write-border": "writing_border"}
FIELDS = {
    "place-of", "cell-at", "centre-of", "code-between", "step-along", "cells-touch", "touching-cells", "is-mask", "reading-of", "is-chart",
    "write-number",
}


def is_lemma_file(path):
    return "/specs/" in path or "/must-fail/" in path or os.path.dirname(path).endswith("/proofs")


def snake(word):
    word = re.sub(r"(?<=[a-z0-9])(?=[A-Z])", "_", word)
    word = re.sub(r"(?<=[A-Z])(?=[A-Z][a-z])", "_", word)
    return word.lower()


def renamed(name, functions):
    parts = name.split("-")
    head = name[0].isupper()
    spelled = [p if head and i == 0 else snake(p) for i, p in enumerate(parts)]
    if len(parts) == 2 and parts[0] in FUNCTIONS and parts[1] in functions:
        return "-".join(spelled)
    return "_".join(spelled)


def tokens(line):
    return TOKEN.findall(line)


def code_part(line, mark):
    at = line.find(mark)
    return (line, "") if at < 0 else (line[:at], line[at:])


def main():
    antt = sorted(glob.glob("crates/*/specs/**/*.antt", recursive=True) + glob.glob("crates/*/proofs/**/*.antt", recursive=True))
    named = set()
    for path in filter(is_lemma_file, antt):
        for line in open(path, encoding="utf-8"):
            m = SIGNATURE.match(line)
            if m and ("pub" in m.group(2) or len(m.group(1)) <= 2):
                named.add(m.group(3))
    camel = {n for n in named if "-" not in n and re.search("[a-z0-9][A-Z]", n)}
    turned = {}
    for name in sorted(named):
        if GENERATED.search(name) or "≢" in name or "◌" in name:
            continue
        if ("-" in name) or (name in camel and not name[0].isupper()):
            turned[name] = renamed(name, camel | {"digits", "list_of", "bytes_of", "bits_of", "bit", "byte"})
    turned = {a: b for a, b in turned.items() if a != b}
    turned.update(LEMMAS)
    stands = collections.defaultdict(set)
    for path in antt:
        for line in open(path, encoding="utf-8"):
            for token in tokens(code_part(line, "-- ")[0]):
                stands[token].add(path)
    # A lemma that would get the name of what it speaks of ends in _lem, as in the library.
    functions = {turned[a] for a in turned if "-" not in a}
    for name in [a for a in turned if "-" in a and a not in CHOSEN]:
        if turned[name] in functions or turned[name] in stands:
            turned[name] += "_lem"
    turned.update(CHOSEN)
    together = collections.defaultdict(list)
    for a, b in turned.items():
        together[b].append(a)
    for b, many in sorted(together.items()):
        both = stands[b] & set().union(*(stands[a] for a in many))
        if len(many) > 1 or both:
            print("fall together:", many, b, sorted(both)[:3])
    left = {t for t in stands if re.search("[a-z0-9][A-Z]", t) and not t[0].isupper() and t not in turned}
    print("left:", " ".join(sorted(left)))
    if "--list" in sys.argv:
        return
    rust = {m for path in glob.glob("crates/*/src/**/*.rt", recursive=True) for m in re.findall(r"fn (\w+)", open(path, encoding="utf-8").read())}
    place = ""

    def turn(m):
        name = m.group(0)
        plain = name.replace("-", "_")
        if re.search("crates/demands/(.*/Demand1.antt|must-fail/)", place) and name in FIELDS:
            return plain
        # A step of a function's proof has the name of the function that is called.
        if place and not is_lemma_file(place) and m.start() > 0 and m.string[m.start() - 1] == "." and plain in rust:
            return plain
        return turned.get(name, name)

    respell = lambda text: TOKEN.sub(turn, text)
    quoted = lambda text: re.sub(r"`[^`]*`", lambda m: respell(m.group(0)), text)
    for path in antt + sorted(glob.glob("crates/*/src/**/*.rt", recursive=True)):
        place = path if path.endswith(".antt") else ""
        mark = "-- " if path.endswith(".antt") else "//"
        lines = [code_part(line, mark) for line in open(path, encoding="utf-8")]
        text = "".join(respell(code) + quoted(comment) for code, comment in lines)
        open(path, "w", encoding="utf-8").write(text)
    for path in sorted(glob.glob("crates/*/must-fail/*.edit")):
        place = path
        lines = open(path, encoding="utf-8").readlines()
        text = "".join(respell(line) if line.startswith(("old:", "new:")) else quoted(line) for line in lines)
        open(path, "w", encoding="utf-8").write(text)
    place = ""
    for path in sorted(glob.glob("docs/*.md")) + ["README.md"]:
        text = quoted(open(path, encoding="utf-8").read())
        open(path, "w", encoding="utf-8").write(text)


if __name__ == "__main__":
    main()
