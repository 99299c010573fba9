#!/usr/bin/env python3
"""Brings the names of this repository's own definitions and lemmas to snake case, as today's library spells its own: halvesOf becomes
halves_of, orElse-assoc or_else-assoc. Types, facts and modules keep their capitals, also within a name. Run once, at the top, after the kit's
own script. Functions, struct fields, exported names, strings, inputs and outputs have no such name and stay.

A name is turned wherever it stands in crates/ (sources, definitions, proofs, must-fail edits) and between backticks in README.md and docs/.
"""
import os
import re

TOKEN = re.compile(r"[◌A-Za-z_0-9'\-]+")
COMMENT = re.compile(r"(?m)--.*$|//.*$")
PIECE = re.compile(r"[a-z][a-z0-9]*[A-Z]")


def snake(piece):
    if not PIECE.match(piece):
        return piece
    piece = re.sub(r"([A-Z]+)([A-Z][a-z])", r"\1_\2", piece)
    return re.sub(r"(?<=[a-z0-9])([A-Z])", r"_\1", piece).lower()


def turned(token):
    return "".join(snake(p) for p in re.split(r"([◌_'\-]+)", token))


def files(top, endings):
    for folder, dirs, names in os.walk(top):
        dirs[:] = sorted(d for d in dirs if d not in ("out", "target", ".git"))
        for name in sorted(names):
            if name.endswith(endings):
                yield os.path.join(folder, name)


def read(path):
    with open(path, encoding="utf-8") as f:
        return f.read()


def main():
    code = list(files("crates", (".antt", ".rt")))
    texts = {p: read(p) for p in code}
    tokens = set()
    declared = set()
    for p, t in texts.items():
        bare = COMMENT.sub("", t)
        tokens |= set(TOKEN.findall(bare))
        if p.endswith(".antt"):
            declared |= set(re.findall(r"(?m)^\s*(?:abbrev |unfoldable |pub |private )*([◌A-Za-z_0-9'\-]+) :", bare))
    names = {w: turned(w) for w in tokens if turned(w) != w}
    # A lemma that would have its function's name gets _lem; what a function of src/ is called keeps its name.
    called = {w for p, t in texts.items() if p.endswith(".rt") for w in re.findall(r"\bfn (\w+)", t)}
    fallen = {v for v in names.values() if v in declared and v not in called}
    names |= {v: v + "_lem" for v in fallen}
    made = {}
    for old, new in names.items():
        made.setdefault(new, []).append(old)
    for new, olds in sorted(made.items()):
        if len(olds) > 1:
            raise SystemExit(f"{olds} fall together as {new}")
    print(f"{len(names)} names; with _lem: {sorted(fallen)}")

    def word(m):
        return names.get(m.group(), m.group())

    for p in code + list(files("crates", (".edit",))):
        old = texts.get(p) or read(p)
        new = TOKEN.sub(word, old)
        if p.endswith(".edit"):
            new = "\n".join(a if a.startswith("file:") else b for a, b in zip(old.split("\n"), new.split("\n")))
        if new != old:
            with open(p, "w", encoding="utf-8") as f:
                f.write(new)
    pages = ["README.md"] + list(files("docs", (".md",)))
    for p in pages:
        old = read(p)
        new = re.sub(r"`[^`\n]+`", lambda m: TOKEN.sub(word, m.group()), old)
        if new != old:
            with open(p, "w", encoding="utf-8") as f:
                f.write(new)


main()
