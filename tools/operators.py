#!/usr/bin/env python3
"""Respells the two tests of specs/Finite.antt of crate prelude: && is the word and, || the word or, since a reader takes the library's signs for the library's own.

usage: operators.py     at the top of the repository, after respell.py

In .antt files everything but quoted text turns, unless the file takes the signs from the library; in .rt files the ghost use lines and the clauses alone, since && and || are Rust's there; in the edits of
must-fail/ the lines of a file of specs/ or proofs/, and of a clause. A second run writes nothing more.
"""

import os
import re

TURN = {"◌&&◌": "◌and◌", "◌||◌": "◌or◌", "&&": "and", "||": "or"}
TOKEN = re.compile(r"(?<![^\s(){},])(◌&&◌|◌\|\|◌|&&|\|\|)(?![^\s(){},;])")


LIBRARYS = re.compile(r"(?m)^use mathlib\.Core\.Bool\.\{[^}]*◌(&&|\|\|)◌")


def turned(text):
    if LIBRARYS.search(text):
        return text
    return TOKEN.sub(lambda m: TURN[m[0]], text)


def clauses(text):
    """The text with its clauses and ghost use lines turned."""
    text = re.sub(r"(?m)^ghost use [^;]*;", lambda m: turned(m[0]), text)
    out, at = [], 0
    for m in re.finditer(r"\b(?:requires|ensures)\b *\w* *\{", text):
        if m.start() < at:
            continue
        depth, end = 1, m.end()
        while depth:
            depth += {"{": 1, "}": -1}.get(text[end], 0)
            end += 1
        out += [text[at : m.end()], turned(text[m.end() : end])]
        at = end
    return "".join(out) + text[at:]


def edited(text):
    of_antt = re.search(r"(?m)^file: *\S+\.antt", text)
    return "\n".join(turned(l) if re.match(r"(old|new):", l) and (of_antt or "ensures" in l or "requires" in l) else l for l in text.split("\n"))


count = 0
for folder, dirs, names in os.walk("crates"):
    dirs[:] = [d for d in dirs if d != "out"]
    for name in names:
        turn = {".antt": turned, ".rt": clauses, ".edit": edited}.get(os.path.splitext(name)[1])
        if not turn:
            continue
        path = os.path.join(folder, name)
        with open(path, encoding="utf-8") as f:
            text = f.read()
        new = turn(text)
        if new != text:
            count += 1
            with open(path, "w", encoding="utf-8") as f:
                f.write(new)
print(f"operators: {count} files")
