#!/usr/bin/env python3
"""Brings the repository's own names in specs/ and proofs/ to the spelling of the library: words in snake case.

usage: python3 tools/respell.py [--check]     at the top, once, after the toolchain's own script

A definition's name in camel case is written in snake case. In a name with dashes a dash stays where it joins two names (a law
`grayed-length` on `length` of `grayed`), and is `_` before or after a plain word. Types, facts and modules keep their capitals;
so do names from src/, strings, and what the toolchain makes (goals, steps). Rewrites .antt, the clauses of .rt, the edits of
must-fail/ and the pages. --check writes nothing and prints the table.
"""
import os
import re
import sys

TOKEN = r"[^\s(){}.;,@\"«»`\[\]]+"
DECLARED = re.compile(
    r"^\s*(?:abbrev |unfoldable |pub |data |record |ruleset )*(?!use |let |in |where |module )((?:[^\s(){}.;,:=→λ]+ )+):(?= |$)", re.M
)
RULESET = re.compile(r"^\s*(?:pub )?ruleset ([^\s(){}.;,:=]+) =", re.M)
MADE = re.compile(r"^(add|sub|mul|cast|slice|bounds|returns|loop|invariant|decreases|then|else|overflow)-")
OWN = {"Cmax": "c_max", "getD-upd": "get_or-upd"}
# Laws that had the name of a definition, but for its spelling, and that the toolchain's script had turned already.
LAWS = {
    "crates/machine/specs/CensusLaws.antt": ("in_use",),
    "crates/runs/specs/Proof.antt": ("in_use",),
    "crates/runs/specs/RangeWriter.antt": ("made_ok", "stored_ok"),
    "crates/turns/proofs/Making.antt": ("record_of",),
    "crates/turns/proofs/plain/record_of/Proof.antt": ("record_of",),
}


def texts(endings, below):
    for folder, dirs, files in os.walk(below):
        dirs[:] = sorted(d for d in dirs if d not in ("out", ".git", "target"))
        for name in sorted(files):
            if name.endswith(endings):
                yield os.path.join(folder, name)


def read(path):
    with open(path, encoding="utf-8") as f:
        return f.read()


def bare(text):
    return re.sub(r"--[^\n]*", "", text)


def declared():
    """The names that specs/ and proofs/ declare; of a function's own proof file, its proof alone."""
    found = set()
    for path in texts(".antt", "crates"):
        text = bare(read(path))
        names = {n for m in DECLARED.finditer(text) for n in m[1].split()} | set(RULESET.findall(text))
        if path.endswith("/Proof.antt"):
            names = {n for n in names if n.endswith("-spec") or re.match(r"[a-z]+[A-Z]", n)}
        found |= {n for n in names if not MADE.match(n)}
    return found


def library():
    found = {"◌∷◌"}
    for path in ("/specs/Prelude.antt", "/proofs/Common.antt"):
        text = bare(read(KIT + "/rattle/std" + path))
        found |= set(re.findall(TOKEN, text))
    return {n for n in found if re.fullmatch(r"[a-z][a-z_0-9]*", n)}


def snake(name):
    return re.sub(r"(?<=[a-z0-9])([A-Z])", lambda m: "_" + m[1].lower(), name)


def spelled(name, names):
    if name in OWN:
        return OWN[name]
    if name.endswith("-spec"):
        return name.replace("-", "_")
    if "-" not in name or not re.fullmatch(r"[A-Za-z0-9_'-]+", name):
        return snake(name) if re.match(r"[a-z]+\w*[A-Z]", name) else name
    parts = [snake(p) if p[:1].islower() else p for p in name.split("-")]
    said = parts[0]
    for a, b in zip(parts, parts[1:]):
        joins = all(p in names or p[:1].isupper() for p in (a, b))
        said += ("-" if joins else "_") + b
    return said


def table():
    own = declared()
    names = {snake(n) for n in own if "-" not in n} | library()
    rows = {n: spelled(n, names) for n in sorted(own)}
    defined = {n for n in own if "-" not in n and n == rows[n]} | {s for n, s in rows.items() if "-" not in n}
    for n, s in rows.items():
        if "-" in n and s in defined:
            rows[n] = s + "_lem"
    return {n: s for n, s in rows.items() if s != n}


def turn(text, rows, which=lambda n: True):
    return re.sub(TOKEN, lambda m: one(m[0], rows, which), text)


def one(word, rows, which):
    base = word.rstrip("'")
    if word in rows and which(word):
        return rows[word]
    if base in rows and which(base):
        return rows[base] + word[len(base) :]
    return word


def camel(name):
    return "-" not in name


def antt(text, rows):
    lines = []
    for line in text.split("\n"):
        m = re.search(r"(?:^|\s)--(?:\s|$)", line)
        code, comment = (line[: m.start()], line[m.start() :]) if m else (line, "")
        comment = re.sub(r"`[^`]*`", lambda s: turn(s[0], rows), comment)
        lines.append(turn(code, rows) + turn(comment, rows, camel))
    return "\n".join(lines)


def prose(text, rows):
    return turn(re.sub(r"`[^`\n]*`", lambda s: turn(s[0], rows), text), rows, camel)


CLAUSE = re.compile(r"ghost use [^;]*;|(?:ensures|requires)\*?(?: \w+)? \{(?:[^{}]|\{[^{}]*\})*\}", re.S)


def rt(text, rows):
    text = CLAUSE.sub(lambda m: turn(m[0], rows), text)
    return re.sub(r"//[^\n]*", lambda m: prose(m[0], rows), text)


def edit(text, rows):
    specs = re.search(r"^file: (specs|proofs)/", text, re.M)
    lines = []
    for line in text.split("\n"):
        if line.startswith("#"):
            line = prose(line, rows)
        elif line.startswith(("old:", "new:")):
            line = turn(line, rows) if specs else turn(line, rows, camel)
        lines.append(line)
    return "\n".join(lines)


def main(argv):
    rows = table()
    taken = {}
    for old, new in rows.items():
        taken.setdefault(new, []).append(old)
    own = declared()
    for new, olds in taken.items():
        if len(olds) > 1 or new in own:
            print("falls together:", new, olds)
    if argv == ["--check"]:
        for old, new in rows.items():
            print(old, new, sep="\t")
        return 0
    for endings, form in ((".antt", antt), (".rt", rt), (".edit", edit), (".md", prose)):
        for below in (("crates",) if endings != ".md" else ("README.md", "docs", "examples")):
            paths = [below] if os.path.isfile(below) else texts(endings, below)
            for path in paths:
                old = read(path)
                new = old
                for law in LAWS.get(path, ()):
                    new = re.sub(rf"(?<![\w.'-]){law}(?![\w.'-])", law + "_lem", new)
                new = form(new, rows)
                if new != old:
                    with open(path, "w", encoding="utf-8") as f:
                        f.write(new)
    return 0


if __name__ == "__main__":
    import shutil

    KIT = os.path.dirname(os.path.dirname(os.path.realpath(shutil.which("rt"))))
    raise SystemExit(main(sys.argv[1:]))
