#!/usr/bin/env python3
"""forms.py [FOLDER] [-v]: counts forms in the .rt files of FOLDER/crates/*/src, crate by crate and in all, and lists the places with -v.

It reads tokens, without comments, clauses and attributes, where tools/places.py looks at lines. Twins are two functions of different crates whose bodies are
the same tokens, 25 or more, when every name and every literal is replaced."""

import re
import sys
from collections import Counter, defaultdict
from itertools import combinations
from pathlib import Path

verbose = "-v" in sys.argv
root = Path(next((a for a in sys.argv[1:] if a != "-v"), "."))
TOKEN = re.compile(r"""(?P<skip>\s+|//[^\n]*) | (?P<text>b?"(?:\\.|[^"\\])*"|b?'(?:\\.[^']*|[^\\'])'(?!\w)) | (?P<life>'\w+)
    | (?P<number>\d(?:\w|\.(?=\d))*) | (?P<name>[^\W\d]\w*) | (?P<sign>\.\.=?|::|->|=>|[=!<>+*/%&|^-]=|&&|\|\||.)""", re.X | re.S)
WORDS = set("as break const continue else false fn for if impl in let loop match mod mut ref return self static true where while".split())
NUMBERS = set("u8 u16 u32 u64 u128 usize i8 i16 i32 i64 i128 isize f32 f64".split())
CODES = set("action call case code game kind mark number outcome refusal sort status tag".split())
COMPARED = ("<", ">", "<=", ">=", "==", "!=")
TITLES = ["while loops", "for loops whose number does nothing but index", "casts by as", "a buffer and its length or place as parameters",
          "functions of more than six parameters", "twins", "number fields named like a code", "matches on integer literals"]


def end_of(toks, at):
    """Behind the group that opens at `at`."""
    depth = 0
    while True:
        depth += (toks[at][0] in "([{") - (toks[at][0] in ")]}")
        at += 1
        if depth == 0:
            return at


def tokens(path):
    """The tokens, each with its kind and its line, without clauses, ghost items and attributes."""
    text, line, all_toks, at, out = path.read_text(), 1, [], 0, []
    for found in TOKEN.finditer(text):
        if found.lastgroup != "skip":
            all_toks.append((found.group(), found.lastgroup, line))
        line += found.group().count("\n")
    while at < len(all_toks):
        word = all_toks[at][0]
        if word in ("requires", "ensures", "ghost"):
            while all_toks[at][0] not in "{;":
                at += 1
            at = end_of(all_toks, at) if all_toks[at][0] == "{" else at + 1
        elif word == "#":
            at = end_of(all_toks, at + 1 + (all_toks[at + 1][0] == "!"))
        else:
            out.append(all_toks[at])
            at += 1
    return out


def parts(toks):
    """The tokens between commas."""
    out, depth = [[]], 0
    for tok in toks:
        depth += (tok[0] in "([{<") - (tok[0] in ")]}>")
        if tok[0] == "," and depth == 0:
            out.append([])
        else:
            out[-1].append(tok)
    return [p for p in out if p]


def functions(toks):
    """Name, line, parameters and body of each function."""
    for at in range(len(toks) - 1):
        if toks[at][0] == "fn" and toks[at + 1][1] == "name":
            k = next(k for k in range(at, len(toks)) if toks[k][0] == "(" and toks[k - 1][0] in (toks[at + 1][0], ">"))
            given, k = parts(toks[k + 1:end_of(toks, k) - 1]), end_of(toks, k)
            while toks[k][0] not in "{;":
                k = end_of(toks, k) if toks[k][0] in "([" else k + 1
            yield toks[at + 1][0], toks[at][2], given, toks[k + 1:end_of(toks, k) - 1] if toks[k][0] == "{" else []


def pairs_of(given, body, known):
    """Which parameter is a place in which buffer, or its length: in an index, in a method's brackets, compared with `len`, or handed on as such."""
    names = [next((w for w, k, _ in p if k == "name" and w != "mut"), "") for p in given]
    stands = {j: {names[j]} for j, p in enumerate(given) if [w for w, _, _ in p][1:] in ([":", "usize"], ["usize"])}
    buffers = [i for i, p in enumerate(given) if any(w == "[" for w, _, _ in p)]
    words, found = [w for w, _, _ in body] + [""] * 8, set()
    for n, word in enumerate(words):
        for j in stands:
            if word == "for" and stands[j] & set(words[n + 3:words.index("{", n)]):
                stands[j].add(words[n + 1])
    for n, word in enumerate(words[:-8]):
        for i in (i for i in buffers if word == names[i]):
            opens = n + 1 if words[n + 1] == "[" else n + 3 if words[n + 1] == "." and words[n + 3] == "(" else None
            if opens:
                end = end_of(body, opens)
                beside = [w for sign, w in ((words[n - 1], words[n - 2]), (words[end], words[end + 1])) if sign in COMPARED]
                found |= {(i, j) for j in stands if stands[j] & set(beside if words[n + 2] == "len" else words[opens:end])}
        if body[n][1] == "name" and words[n + 1] == "(":
            handed = [{w for w, _, _ in p} for p in parts(body[n + 2:end_of(body, n + 1) - 1])]
            handed = [{words[n - 2]}] * (words[n - 1] == ".") + handed
            for a, b in known.get((word, len(handed)), ()):
                found |= {(i, j) for i in buffers for j in stands if names[i] in handed[a] and "len" not in handed[a] and stands[j] & handed[b]}
    return found


def forms(toks):
    """The forms of which a few tokens tell: title and line."""
    words, struct = [w for w, _, _ in toks], False
    for n, word in enumerate(words):
        struct = word == "struct" or struct and word not in ("fn", "impl", "enum", "trait")
        if word == "while":
            yield 0, toks[n][2]
        if word == "for" and words[n + 2] == "in" and {"..", "..="} & set(words[n + 3:words.index("{", n)]):
            uses = [k for k in range(words.index("{", n), end_of(toks, words.index("{", n))) if words[k] == words[n + 1]]
            if uses and all(words[k - 1] == "[" and words[k + 1] == "]" for k in uses):
                yield 1, toks[n][2]
        if word == "as" and words[n + 1] in NUMBERS:
            yield 2, toks[n][2]
        if struct and word == ":" and words[n + 1] in ("u64", "usize") and CODES & set(words[n - 1].split("_")):
            yield 6, toks[n][2]
        if word == "match":
            at, arm, depth = words.index("{", n), [], 0
            for k in range(at + 1, end_of(toks, at) - 1):
                depth += (words[k] in "([{") - (words[k] in ")]}")
                arm = [] if words[k] in ",}" and depth == 0 else arm + [toks[k]]
                if words[k] == "=>" and depth == 0 and arm[0][1] == "number":
                    yield 7, toks[n][2]
                    break


crates = {p.parent.name: [(f, tokens(f)) for f in sorted(p.glob("**/*.rt"))] for p in sorted(root.glob("crates/*/src"))}
every = [(c, f, *g) for c, files in crates.items() for f, toks in files for g in functions(toks)]
places = [(title, c, f"{f.relative_to(root)}:{line}") for c, files in crates.items() for f, toks in files for title, line in forms(toks)]
known, bodies = defaultdict(set), defaultdict(list)
for _ in range(8):
    for c, f, name, line, given, body in every:
        known[name, len(given)] |= pairs_of(given, body, known)
for c, f, name, line, given, body in every:
    where = f"{f.relative_to(root)}:{line}: {name}"
    places += [(3, c, where)] * bool(pairs_of(given, body, known)) + [(4, c, f"{where}: {len(given)}")] * (len(given) > 6)
    if len(body) >= 25:
        bodies[" ".join(w if k == "sign" or w in WORDS else k for w, k, _ in body)].append((c, where))
places += [(5, a[0], f"{a[1]} and {b[1]}") for same in bodies.values() for a, b in combinations(same, 2) if a[0] != b[0]]
for crate in crates:
    count = Counter(title for title, c, _ in places if c == crate)
    if count:
        print(f"{crate}: {', '.join(f'{count[t]} {TITLES[t]}' for t in sorted(count))}")
for t, title in enumerate(TITLES):
    print(f"{sum(1 for p in places if p[0] == t):5}  {title}")
    for where in (w for u, _, w in places if u == t and verbose):
        print(f"         {where}")
