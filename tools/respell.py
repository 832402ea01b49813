#!/usr/bin/env python3
"""Brings the repository's own definitions and lemmas to the spelling of today's Rattle: words in snake case, types in camel case.

usage: respell.py [--check]      at the top of the repository, after port.py; --check writes nothing and prints the names alone

A name in lower case gets its humps as words (firstEntry: first_entry). A dash stays where it joins two names that are declared, or imported from
a library (has-take), and is an underscore before a plain word (those-kept: those_kept). A type is one word (Legal-moves: LegalMoves). Names of a
function's own proof, names that a library declares too, and names of Rattle source stay. Text in quotes stays. Documents turn in code spans alone.
It stops without writing where a new name stands already in a file that has the old one.
"""

import os
import re
import sys

WORD = re.compile(r"[^\s(){}.;,@\"«»]+")
KINDS = "unfoldable|abbrev|pub|data|record|constructor|opaque|private|mutual"
DECL = re.compile(rf"(?m)^( *)((?:(?:{KINDS}) +)*)([^\s(){{}}.;,@\"«»]+)((?: +[({{][^(){{}}\n]*[)}}])*) +: ")
MANY = re.compile(rf"(?m)^ *(?:(?:{KINDS}) +)*((?:[^\s(){{}}.;,@\"«»:→=]+ +)+): ")
CASE = re.compile(r"(?m)^ *(?:data|record) +(?:pub +)?([^\s(){}.;,@\"«»]+)")
USE = re.compile(r"(?m)^(?:ghost )?use ([^\s;{]+)\.\{([^}]*)\}")
CODE = re.compile(r"\b(?:fn|struct|enum|const|static|mod|trait|type|let|let mut) +(\w+)|\b(\w+) *:(?!:)")
OF_FUNCTION = re.compile(r"/proofs/(.+/)?(Proof|Answers|Invariants)\.antt$")


def read(path):
    with open(path, encoding="utf-8") as f:
        return f.read()


def files(kinds, *roots):
    for root in roots:
        if os.path.isfile(root):
            yield root
        for folder, dirs, names in os.walk(root):
            dirs[:] = sorted(d for d in dirs if d not in ("out", "target", ".git"))
            for name in sorted(names):
                if name.endswith(kinds):
                    yield os.path.join(folder, name)


def humps(word):
    return re.sub(r"(?<=[a-z0-9])([A-Z])(?![A-Z])", lambda m: "_" + m[1].lower(), word)


def spelled(name, known):
    if not re.match(r"[A-Za-z]", name):
        return name
    parts = name.split("-")
    if not all(parts):
        return name
    if name[0].isupper():
        return "".join(p[0].upper() + p[1:] for p in parts)
    joined = humps(parts[0])
    for before, part in zip(parts, parts[1:]):
        both = part in known and (before in known or before[0].isupper())
        joined += ("-" if both else "_") + (part if part[0].isupper() else humps(part))
    return joined


# Definitions that would have the name of a crate.
OTHERWISE = {"kuhnTree": "tree_of_kuhn", "leducTree": "tree_of_leduc", "kuhnListing": "listing_of_kuhn", "nashConv": "nash_conv_over", "leducListing": "listing_of_leduc"}

# Lemmas of one crate that have the name of what they are about, which elsewhere is another thing's.
IN_CRATE = {
    "arena": {"later_of": "later_of_lem"},
    "cases_leduc": {"laid_out": "laid_out_lem"},
    "kuhn_arena_layout": {"byte-of": "byte_of_lem", "later_of": "later_of_lem"},
    "arena_index": {"passed-by": "passed_by_lem", "later_of": "later_of_lem"},
}


def of_crate(table, path):
    m = re.match(r"crates/(\w+)/", path)
    return {**table, **IN_CRATE.get(m[1] if m else "", {})}


def declared():
    own, library, known, rust = set(), set(), set(), set()
    for path in files((".antt", ".rt"), "crates"):
        text = read(path)
        for module, names in USE.findall(text):
            of_ours = module.startswith("Rattle.") and not module.startswith("Rattle.std.")
            for item in names.split(","):
                item = item.strip().split(" as ")[0].strip()
                if item and not of_ours:
                    library.add(item)
        if path.endswith(".rt"):
            for a, b in CODE.findall(re.sub(r"//[^\n]*", "", text)):
                rust.update((a, b))
        elif not OF_FUNCTION.search(path):
            own.update(m[2] for m in DECL.findall(text))
            for m in MANY.findall(text):
                own.update(m.split())
            own.update(CASE.findall(text))
    # A name without a dash that is long enough to be one, and no plain word of a lemma's name.
    known = {n for n in own | library if re.fullmatch(r"[A-Za-z]\w+", n)} - PLAIN
    return own, library, known, rust


# Words that are declared somewhere, as a local name, and say in a lemma's name what it does.
PLAIN = set("at is are of to by in on no not one two all each more most less least none some first last past here there up down left right own same keeps kept adds back step bound low high fits into from once with without below above both way end ends next whole part parts room long new old gone stays moved found passed holds fails true false zero self sum here's".split())


def turned(text, table, path):
    def one(m):
        return table.get(m[0], m[0])

    if path.endswith(".md"):
        return re.sub(r"`[^`\n]+`", lambda s: WORD.sub(one, s[0]), text)
    out = []
    for k, piece in enumerate(re.split(r'("(?:[^"\\\n]|\\.)*")', text)):
        out.append(piece if k % 2 else WORD.sub(one, piece))
    if not path.endswith((".antt", ".rt", ".edit")):
        return "".join(out)
    return re.sub(r"`[^`\n]+`", lambda s: WORD.sub(one, s[0]), "".join(out))


def main():
    own, library, known, rust = declared()
    table = {}
    for name in sorted(own):
        if name in library or name in rust:
            continue
        new = spelled(name, known)
        if new != name:
            table[name] = new
    where = list(files((".antt", ".rt", ".edit", ".md"), "crates", "docs", "README.md", "CONTRIBUTING.md"))
    where = [p for p in where if "/landings/" not in p]
    table.update(OTHERWISE)
    # Names that fall together in a file: two old ones, or an old one and a word that stands there already. A lemma then gets _lem, as it has the
    # name of what it is about; what is left is printed, and nothing is written.
    words_of = {p: set(WORD.findall(read(p))) for p in where if p.endswith(".antt") and not OF_FUNCTION.search(p)}
    for again in range(2):
        left = []
        for path, words in words_of.items():
            got = {}
            for word in words:
                got.setdefault(of_crate(table, path).get(word, word), []).append(word)
            for new, olds in got.items():
                for old in olds if len(olds) > 1 else []:
                    if old in table and "-" in old and not again:
                        table[old] = new + "_lem"
                    elif old in table:
                        left.append(f"falls together: {old} -> {new} in {path}")
    if "--check" in sys.argv or left:
        print("\n".join(left + [f"{old} {new}" for old, new in sorted(table.items())]))
        return 1 if left else 0
    count = 0
    for path in where:
        text = read(path)
        new = turned(text, of_crate(table, path), path)
        if new != text:
            count += 1
            with open(path, "w", encoding="utf-8") as f:
                f.write(new)
    print(f"respell: {len(table)} names in {count} files")
    return 0


if __name__ == "__main__":
    sys.exit(main())
