#!/usr/bin/env python3
"""Lists the places of docs/DESIGN-PASS.md, a line each, and counts them.

    python3 tools/places.py [POINT ..] [--root FOLDER]

What it lists are candidates, found by the text alone: each was then looked at.
"""
import collections
import glob
import re
import sys

args = sys.argv[1:]
root = "."
if "--root" in args:
    at = args.index("--root")
    root = args[at + 1]
    del args[at : at + 2]
POINTS = [int(a) for a in args] or list(range(1, 9))

FILES = {}
for path in sorted(glob.glob(root + "/crates/*/src/**/*.rt", recursive=True)):
    FILES[path[len(root) + 1 :]] = open(path, encoding="utf-8").read()

ENUMS = set()
for text in FILES.values():
    ENUMS |= set(re.findall(r"^(?:pub )?enum (\w+)", text, re.M))

FUNCTION = re.compile(r"^( *)(?:pub(?:\(crate\))? )?fn (\w+)(.*?)\n\1\}$", re.M | re.S)


def short(path):
    return path[len("crates/") :].replace("/src/", "/")


def lines(pattern):
    """Each line of the sources that the pattern is found in."""
    for path, text in FILES.items():
        for number, line in enumerate(text.split("\n"), 1):
            if re.search(pattern, line):
                yield f"{short(path)}:{number}: {line.strip()[:110]}"


def functions():
    """Each function: file, name, parameters, result, clauses, body."""
    for path, text in FILES.items():
        text = re.sub(r"//[^\n]*", "", text)
        for match in FUNCTION.finditer(text):
            whole = match.group(0)
            opening = re.search(r"\n" + match.group(1) + r"\{\n", whole)
            head = whole[: opening.start()] if opening else whole.split("{\n")[0]
            body = whole[opening.end() :] if opening else whole.split("{\n", 1)[-1]
            plain = re.split(r"\n\s*(?:requires|ensures)\b", head)[0]
            plain = re.sub(r"\s+", " ", plain)
            inner = re.search(r"\((.*)\)(?: -> (.*))?$", plain.strip())
            params = []
            if inner:
                for part in re.split(r",(?![^\[<(]*[\]>)])", inner.group(1)):
                    if ":" in part:
                        name, kind = part.split(":", 1)
                        params.append((name.strip(), kind.strip()))
            yield path, match.group(2), params, (inner.group(2) if inner else "") or "", head, body


def flags_and_codes():
    """Point 1: variants and fields that say that nothing is there or that all went well, and numbers for refusals."""
    yield from lines(
        r"^ +(pub )?(good|there|known|read|failed|well|whole|fits|number): (bool|u8),"
        r"|^ +(Nothing|Nowhere|Done|Good|Well|Fine|Enough|Free|Unread),"
        r"|\bRefused\(u8\),|^(pub )?fn .*(refusal|class_number).*-> u(8|64)$"
    )


def twins():
    """Point 2: functions whose bodies are the same text but for names and numbers."""
    shapes = collections.defaultdict(list)
    words = "let mut if else while return match for in true false as usize u8 u64 u16 u32 bool loop break N S fn".split()
    for path, name, _, _, _, body in functions():
        shape = re.sub(r'"[^"]*"', "S", body)
        shape = re.sub(r"\b\d\w*\b", "N", shape)
        shape = re.sub(r"[A-Za-z_]\w*(::\w+)*", lambda m: m.group(0) if m.group(0) in words else "x", shape)
        shape = re.sub(r"\s+", "", shape)
        if len(shape) >= 60:
            shapes[shape].append(f"{short(path)}: {name}")
    for group in sorted(shapes.values(), key=lambda g: -len(g)):
        if len(group) > 1:
            yield " = ".join(group)


def loops():
    """Point 3: loops that are no `for`."""
    yield from lines(r"^\s*(let (mut )?\w+ = )?('\w+: )?(while|loop)\b")


def by_hand():
    """Point 4: comparisons of two values of a type, and conversions of one plain value, as functions of their own."""
    plain = ENUMS | {"bool", "u8", "u16", "u32", "u64", "usize"}
    for path, name, params, result, _, _ in functions():
        kinds = [k for _, k in params]
        if len(kinds) == 2 and kinds[0] == kinds[1] and result == "bool":
            yield f"{short(path)}: {name}({', '.join(kinds)}) -> bool"
        elif len(kinds) == 1 and kinds[0] in plain and result in plain and (kinds[0] in ENUMS or result in ENUMS or kinds[0] == "bool" or kinds == [result]):
            yield f"{short(path)}: {name}({kinds[0]}) -> {result}"


def together():
    """Point 5: facts that three or more functions require, and three or more parameters that five or more functions of a crate take together."""
    facts = collections.defaultdict(set)
    takes = collections.defaultdict(list)
    for path, name, params, _, head, _ in functions():
        for clause in re.findall(r"requires(?: \w+)? \{(.*)\}\s*$", head, re.M):
            for fact in clause.split("×"):
                facts[re.sub(r"\s+", " ", fact.strip().strip("()"))].add(f"{short(path)}: {name}")
        takes[path.split("/")[1]].append(frozenset(p for p, _ in params if p not in ("self", "&self", "&mut self")))
    for fact, where in sorted(facts.items(), key=lambda f: (-len(f[1]), f[0])):
        if len(where) >= 3:
            yield f"{len(where)} functions require {fact}"
    for crate, sets in sorted(takes.items()):
        groups = {a & b for a in sets for b in sets if len(a & b) >= 3}
        counts = {g: sum(g <= s for s in sets) for g in groups}
        for group, count in sorted(counts.items(), key=lambda g: (-g[1], sorted(g[0]))):
            if count >= 5:
                yield f"{count} functions of {crate} take {', '.join(sorted(group))}"


def arrays():
    """Point 6: fields that are arrays, and functions that are lent octets with their number beside them."""
    yield from lines(r"^ +(pub )?\w+: \[.*; .*\],")
    for path, name, params, _, _, _ in functions():
        for (_, first), (second, kind) in zip(params, params[1:]):
            if first.startswith(("&[u8]", "&mut [u8]")) and kind == "usize" and second in ("n", "len", "size", "have", "count"):
                yield f"{short(path)}: {name}({', '.join(p + ': ' + k for p, k in params)})"


def switches():
    """Point 7: functions that are told by a flag what to do."""
    for path, name, params, _, _, _ in functions():
        for parameter, kind in params:
            if kind == "bool":
                yield f"{short(path)}: {name}, by {parameter}"


def answers():
    """Point 8: answers in proofs of functions, by crate, and lines of lemmas."""
    for crate in sorted(glob.glob(root + "/crates/*")):
        count = 0
        for path in glob.glob(crate + "/proofs/**/Answers.antt", recursive=True):
            text = open(path, encoding="utf-8").read()
            count += len(re.findall(r"^(?:abbrev |unfoldable )?pub [\w-]+ : goal\.", text, re.M))
        if count:
            yield f"{crate[len(root) + 8:]}: {count} answers", count


TABLE = {1: flags_and_codes, 2: twins, 3: loops, 4: by_hand, 5: together, 6: arrays, 7: switches, 8: answers}
for point in POINTS:
    rows = list(TABLE[point]())
    total = sum(r[1] for r in rows) if rows and isinstance(rows[0], tuple) else len(rows)
    print(f"---- {point}: {TABLE[point].__doc__.split(':', 1)[1].strip()}")
    for row in rows:
        print(row[0] if isinstance(row, tuple) else row)
    print(f"{total} in all")
