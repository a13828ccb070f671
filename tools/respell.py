#!/usr/bin/env python3
"""Brings the repository's own definitions and lemmas to the spelling of today's Rattle: words in snake case, with types and modules
left in camel case. Functions of src/, exported C names, strings, inputs and outputs keep their names.

usage: python3 tools/respell.py     at the top, once, after the kit's port.py

It reads which names specs/ and proofs/ declare, and rewrites whole words in .antt files, in the clauses and comments of .rt files, in
must-fail edits and, between backticks, in README.md and docs/. A lemma that would get its definition's name gets `_lem` behind it.
"""
import os
import re

# Lemmas that would fall together with the definition or constructor that they speak of.
APART = {
    "at-root": "at_root_lem",
    "cells-of": "cells_of_lem",
    "heard-from": "heard_from_lem",
    "links-of": "links_of_lem",
    "mark-at": "mark_at_lem",
    "member-in": "member_in_lem",
    "no-parent": "no_parent_lem",
    "parent-at": "parent_at_lem",
    "same-table": "same_table_lem",
    "exact-F": "exact_f_lem",
}
TOP = re.compile(r"^(?:(?:abbrev|unfoldable|pub|infix[lr]?\s+\d+)\s+)*([^\s:;(){}.,\"]+)\s*(?:(?:\{[^}]*\}|\([^)]*\))\s*)*:\s")
INNER = re.compile(r"^\s+(?:pub\s+)?([^\s:;(){}.,\"=λ]+)\s*:\s")
TYPE = re.compile(r"^\s*(?:pub\s+)?(?:data|record)\s+(?:pub\s+)?(\S+)")
WORD = re.compile(r"[^\s(){}\[\].,;:\"`]+")
TICKED = re.compile(r"`[^`\n]*`")


def snake(name):
    if name in APART:
        return APART[name]
    if name[0].isupper():
        return name
    return re.sub(r"(?<=[a-z0-9])([A-Z])", lambda m: "_" + m.group(1).lower(), name).replace("-", "_")


def files(*ends):
    for folder, dirs, names in os.walk("crates"):
        dirs[:] = sorted(d for d in dirs if d != "out")
        for name in sorted(names):
            if name.endswith(ends):
                yield os.path.join(folder, name)


def read(path):
    with open(path, encoding="utf-8") as f:
        return f.read()


def declared():
    """The names that definitions, lemmas, fields and constructors have. A function's own proof declares what Rattle made, not these."""
    found = set()
    for path in files(".antt"):
        if not re.search(r"crates/\w+/(specs|proofs)/\w+\.antt$", path):
            continue
        for line in read(path).splitlines():
            if line.lstrip().startswith("--") or TYPE.match(line):
                continue
            m = TOP.match(line) or INNER.match(line)
            if m:
                found.add(m.group(1))
    return found


def words(text, turn):
    return WORD.sub(lambda m: turn.get(m.group(0), m.group(0)), text)


def comment(text, turn):
    """In prose a word with a dash is English unless it stands between backticks."""
    camel = {a: b for a, b in turn.items() if "-" not in a}
    return words(TICKED.sub(lambda m: words(m.group(0), turn), text), camel)


def source(text, turn, mark):
    lines = []
    for line in text.split("\n"):
        code, sep, said = line.partition(mark)
        lines.append(words(code, turn) + sep + comment(said, turn))
    return "\n".join(lines)


def main():
    names = declared()
    turn = {a: snake(a) for a in names if snake(a) != a}
    after = {snake(a) for a in names}
    for path in files(".antt"):
        text = read(path)
        own = turn
        if path.endswith("/Proof.antt"):
            # What Rattle made has dashes too: a word with one is ours only where the file imports it.
            brought = set(WORD.findall(" ".join(re.findall(r"(?m)^use .*$", text))))
            own = {a: b for a, b in turn.items() if "-" not in a or a in brought}
        write(path, text, source(text, own, "--"))
    for path in files(".rt"):
        text = read(path)
        write(path, text, source(text, turn, "//"))
    for path in files(".edit"):
        text = read(path)
        lines = [words(l, turn) if l.startswith(("old:", "new:")) else comment(l, turn) for l in text.split("\n")]
        write(path, text, "\n".join(lines))
    pages = {a: b for a, b in turn.items()}
    for path in ["README.md"] + [os.path.join(d, n) for d, _, ns in os.walk("docs") for n in sorted(ns) if n.endswith(".md")]:
        text = read(path)

        def ticked(m):
            return WORD.sub(lambda w: pages.get(w.group(0)) or (snake(w.group(0)) if snake(w.group(0)) in after else w.group(0)), m.group(0))

        write(path, text, TICKED.sub(ticked, text))


def write(path, old, new):
    if new != old:
        with open(path, "w", encoding="utf-8") as f:
            f.write(new)


main()
