#!/usr/bin/env python3
"""Gives the definitions and lemmas of specs/ and proofs/ the spelling of respell.tsv.

usage: python3 tools/respell.py [FOLDER]     FOLDER: the top of the repository (default: this folder)

Each line of respell.tsv is an old name, a tab and the new one; a third field `label` marks the name of a
record's field or of a constructor, which is turned behind a dot too. Names are turned in specs/*.antt and
proofs/**/*.antt, and in the ghost parts of src/*.rt: `ghost use` lines, clauses and ghost members. Of
comments only names in camel case are turned. Functions, strings, inputs and outputs keep their names. A
second run changes nothing.
"""

import pathlib
import re
import sys

NAME = re.compile(r"[^\s(){};,.\[\]«»⌜⌝\"`]+")
GHOST = re.compile(r"\b(?:requires|ensures|ghost)\*?(?: \w+)?(?: =|:)? \{")
HERE = pathlib.Path(__file__).resolve().parent


def table():
    names, labels = {}, set()
    for line in (HERE / "respell.tsv").read_text(encoding="utf-8").splitlines():
        old, new, *label = line.split("\t")
        names[old] = new
        if label:
            labels.add(old)
    return names, labels


def turned(text, names, labels):
    def one(m):
        name = m.group()
        if name not in names or (text[m.start() - 1 : m.start()] == "." and name not in labels):
            return name
        return names[name]

    return NAME.sub(one, text)


def turned_comment(text, names):
    return NAME.sub(lambda m: names.get(m.group(), m.group()) if re.search("[a-z][A-Z]", m.group()) else m.group(), text)


def antt(text, names, labels):
    out = []
    for line in text.split("\n"):
        if line.lstrip().startswith("--"):
            out.append(turned_comment(line, names))
        else:
            out.append(turned(line, names, labels))
    return "\n".join(out)


def closing(text, at):
    deep = 0
    for i in range(at, len(text)):
        deep += {"{": 1, "}": -1}.get(text[i], 0)
        if deep == 0:
            return i + 1
    return len(text)


def rust(text, names, labels):
    text = re.sub(r"(?m)^\s*ghost use .*$", lambda m: turned(m.group(), names, labels), text)
    out, at = [], 0
    for m in GHOST.finditer(text):
        if m.start() < at:
            continue
        end = closing(text, m.end() - 1)
        out += [text[at : m.end()], turned(text[m.end() : end], names, labels)]
        at = end
    return "".join(out) + text[at:]


def main():
    top = pathlib.Path(sys.argv[1] if len(sys.argv) > 1 else ".")
    names, labels = table()
    for path in sorted(top.glob("crates/*/*/**/*")):
        if path.suffix not in (".antt", ".rt") or "out" in path.parts:
            continue
        old = path.read_text(encoding="utf-8")
        new = antt(old, names, labels) if path.suffix == ".antt" else rust(old, names, labels)
        if new != old:
            path.write_text(new, encoding="utf-8")


main()
