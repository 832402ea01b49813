#!/usr/bin/env python3
"""places.py [FOLDER]: counts, in the .rt files of FOLDER/crates/*/src, the places of the eight points of docs/DESIGN-PASS.md, and lists them with -v.

A place is found by the text alone: what a line looks like, not what it means."""

import re
import sys
from collections import defaultdict
from pathlib import Path

arguments = [a for a in sys.argv[1:] if a != "-v"]
verbose = "-v" in sys.argv[1:]
root = Path(arguments[0] if arguments else ".")

FACT = re.compile(r"[^×{}]+")
HEAD = re.compile(r"^\s*(pub )?(extern \"C\" )?fn (\w+)")


def files():
    for path in sorted(root.glob("crates/*/src/**/*.rt")):
        yield path, path.read_text().split("\n")


def functions(lines):
    """Each function's head: its line, its name, the text from `fn` to its body."""
    i = 0
    while i < len(lines):
        found = HEAD.match(lines[i])
        if found:
            j = i
            while j < len(lines) and lines[j].rstrip() not in ("{", "    {") and not lines[j].rstrip().endswith(" {") and not lines[j].rstrip().endswith(";"):
                j += 1
            yield i, found.group(3), " ".join(line.strip() for line in lines[i:j + 1])
            i = j
        i += 1


def split(text):
    """Top-level parts of a parameter list."""
    parts, depth, last = [], 0, ""
    for c in text:
        if c in "([<{":
            depth += 1
        if c in ")]>}":
            depth -= 1
        if c == "," and depth == 0:
            parts.append(last.strip())
            last = ""
        else:
            last += c
    return [p for p in parts + [last.strip()] if p]


def parameters(head):
    at = head.index("(", head.index("fn "))
    depth = 0
    for k in range(at, len(head)):
        depth += {"(": 1, ")": -1}.get(head[k], 0)
        if depth == 0:
            return split(head[at + 1:k])
    return []


places = defaultdict(list)
facts = defaultdict(list)
groups = defaultdict(list)
named = defaultdict(list)
for path, lines in files():
    name = path.relative_to(root)
    for i, line in enumerate(lines):
        text = line.split("//")[0]
        where = f"{name}:{i + 1}: {line.strip()}"
        kind = re.match(r"^(pub )?(struct|enum) (\w+)", text)
        if kind:
            named[f"type {kind.group(3)}"].append((name.parts[1], where))
        if re.search(r"^\s*(pub )?enum \w+", text):
            places["1 own enums"].append(where)
        if re.search(r"\b(refusal|refused)\w*: u64\b", text) or re.search(r"fn \w*(refusal|validate)\w*\(.*-> u64", text):
            places["1 refusals as numbers: fields, parameters and results"].append(where)
        if re.search(r"refusals::[A-Z_]+\b", text):
            places["1 refusals as numbers: uses"].append(where)
        if re.search(r"\b(END|CHANCE|DECISION|LOSS|TIE|WIN|Game::KUHN|Self::KUHN|Self::LEDUC)\b", text) and "const" not in text:
            places["1 kinds as numbers: uses"].append(where)
        if re.search(r"\bwhile\b", text):
            k = next((k for k in range(i + 1, len(lines)) if re.match(r"^" + re.match(r"\s*", line).group() + r"}", lines[k])), i)
            body = "\n".join(lines[i + 1:k])
            if re.search(r"\b\w+ [+-]= 1;", body):
                places["3 loops that count by hand"].append(where)
            else:
                places["3 other while loops"].append(where)
        if re.search(r"\bas (u8|u16|u32|u64|usize|i64|f64)\b", text):
            places["4 casts by as"].append(where)
        if re.search(r"fn (wide|state_of|position_of|public_of|byte_of|number_of|moved_of|written_of|payoffs_of|number|print_whole|say_number|say_byte|larger|earlier|order)\(", text):
            places["4 conversions, orders and printing by hand"].append(where)
        if re.search(r"\bif (code|call|sort|asked|g\.number|self\.number) [!=]= ", text) or re.search(r"\bmatch (asked|code|call)\b", text):
            places["7 switches on which step to run"].append(where)
        if re.search(r"^\s*(pub )?(count|dealt|acted\w*|len|actions|left): usize,", text):
            places["6 lengths beside a buffer: fields"].append(where)
    for i, function, head in functions(lines):
        where = f"{name}:{i + 1}: {function}"
        given = parameters(head)
        if function != "main":
            named[f"fn {function}"].append((name.parts[1], where))
        if len(given) > 6:
            places["5 functions of more than six parameters"].append(f"{where}: {len(given)}")
        names = [p.split(":")[0].replace("mut ", "").strip() for p in given]
        for a, b in (("cards", "dealt"), ("history", "acted"), ("bytes", "count"), ("out", "at"), ("w", "at"), ("source", "count"), ("numbers", "at")):
            if a in names and b in names:
                groups[f"{a}, {b}"].append(where)
        for clause in re.findall(r"requires(?: \w+)? \{(.*?)\}(?= ensures| requires| \{|$)", head):
            for fact in FACT.findall(clause):
                fact = fact.strip().strip("()").strip()
                if fact:
                    facts[fact].append(where)
for fact, found in sorted(facts.items(), key=lambda f: -len(f[1])):
    if len(found) >= 3:
        places["5 facts that three or more contracts ask for"].append(f"{fact}: {len(found)} times")
for group, found in sorted(groups.items(), key=lambda g: -len(g[1])):
    for where in found:
        places[f"6 a buffer and its length or place as parameters"].append(f"{where}: {group}")
for what, found in sorted(named.items()):
    if len({crate for crate, _ in found}) > 1:
        places["2 names of functions and types that stand in several crates"].append(f"{what}: {', '.join(sorted(crate for crate, _ in found))}")
for title in sorted(places):
    print(f"{len(places[title]):5}  {title}")
    if verbose:
        for where in places[title]:
            print(f"         {where}")
