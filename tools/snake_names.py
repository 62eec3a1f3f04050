#!/usr/bin/env python3
"""Spells the repository's own names of definitions and lemmas in snake case: `next-outcome` becomes `next_outcome`.

usage: python3 tools/snake_names.py [--list]        at the top of the repository

Own names are those that a file of specs/ or proofs/ declares: definitions, lemmas, constructors, fields, what is bound
by a signature, a λ or a `let`, and the names after `as` in an import. A goal's name, which Rattle makes, keeps its dashes, and so does a name that some file imports
from the library. Only specs/, proofs/, the ghost text of src/, and names in backticks of README.md and docs/ change.
With --list it only prints the names.
"""
import pathlib
import re
import sys

WORD = r"[^\W\d][\w'′]*(?:-[\w'′*+≡<≤∷]+)+"
# a word stands alone between blanks, brackets and dots
EDGE = r"[\s(){}\[\].,;`\"|«»]"
NAME = re.compile(rf"(?:(?<=^)|(?<={EDGE}))({WORD})(?=$|{EDGE})", re.M)
SIGNATURE = re.compile(rf"^\s*(?:(?:pub|abbrev|unfoldable|private)\s+)*({WORD})\s*:\s*(.*)$", re.M)
BINDER = re.compile(r"[({]([^(){}:]*?)\s:\s")
LAMBDA = re.compile(r"λ\s*([^.()]*?)\.")
LET = re.compile(rf"\blet\s+({WORD})\b")
USE = re.compile(r"use\s+([\w·.]+)\.\{([^}]*)\}")
ALIAS = re.compile(rf"\bas\s+({WORD})")


def texts(top):
    for path in sorted(top.glob("crates/*/specs/**/*.antt")) + sorted(top.glob("crates/*/proofs/**/*.antt")):
        yield path, path.read_text(encoding="utf-8")


def own_names(top):
    crates = {p.name for p in (top / "crates").iterdir()}
    declared, library = set(), set()
    for path, text in texts(top):
        bare = re.sub(r"--.*", "", text)
        for name, kind in SIGNATURE.findall(bare):
            if not re.fullmatch(r"(?:goal|need|needs)\." + re.escape(name), kind.strip()):
                declared.add(name)
        for found in BINDER.findall(bare) + LAMBDA.findall(bare):
            declared.update(w for w in found.split() if re.fullmatch(WORD, w))
        declared.update(LET.findall(bare))
    for path in list(top.glob("crates/*/**/*.antt")) + list(top.glob("crates/*/src/**/*.rt")):
        for module, names in USE.findall(path.read_text(encoding="utf-8")):
            declared.update(ALIAS.findall(names))
            of = re.match(r"Rattle[.·](\w+)", module)
            if not of or of.group(1) not in crates:
                library.update(n.strip().split(" as ")[0].strip() for n in names.split(","))
    return declared - library, declared & library


def spell(name):
    return name.replace("-", "_")


def turned(text, names):
    return NAME.sub(lambda m: spell(m.group(1)) if m.group(1) in names else m.group(1), text)


# the ghost text of a source: lines of `ghost use`, and what stands between braces after a ghost word
GHOST = re.compile(r"^\s*(?:ghost|requires|ensures)\b")


def turned_source(text, names):
    out = []
    depth = 0
    for line in text.split("\n"):
        if depth > 0 or GHOST.match(line):
            line = turned(line, names)
            depth = max(0, depth + line.count("{") - line.count("}"))
        out.append(line)
    return "\n".join(out)


def turned_page(text, names):
    return re.sub(r"`[^`\n]+`", lambda m: turned(m.group(0), names), text)


def main():
    top = pathlib.Path(".")
    names, kept = own_names(top)
    spelled = {}
    for name in names:
        spelled.setdefault(spell(name), []).append(name)
    if "--list" in sys.argv:
        print("\n".join(sorted(names)))
        print("kept, since the library has the name:", ", ".join(sorted(kept)) or "none")
        return
    for path, text in texts(top):
        path.write_text(turned(text, names), encoding="utf-8")
    for path in top.glob("crates/*/src/**/*.rt"):
        path.write_text(turned_source(path.read_text(encoding="utf-8"), names), encoding="utf-8")
    for path in [top / "README.md", *top.glob("docs/*.md")]:
        path.write_text(turned_page(path.read_text(encoding="utf-8"), names), encoding="utf-8")
    print(f"{len(names)} names")


main()
