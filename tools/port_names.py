#!/usr/bin/env python3
"""Spells this repository's own definitions and lemmas as today's Rattle spells names.

usage: python3 tools/port_names.py        at the top of the repository, once, after the toolchain's port.py

Of each name that a file of specs/ or proofs/ declares: `withExpect` becomes `with_expect`, and in the name of a lemma a dash stays where it joins the
names of two functions, as in `length-be`, and is an underscore otherwise. What changes is said, a row for each name; a row that begins with `meets` is a name
that would fall together with another in some file, and stays. Names of Rust, strings, inputs and outputs are not touched.
"""

import glob
import os
import re
import subprocess
import sys

NAME = r"[^\s(){}.;,@\"«»]+"
TOKEN = re.compile(r"[^\s(){}\[\].;,@\"«»`|:]+")
TOP = re.compile(r"(?m)^(?:abbrev |unfoldable )?(?:pub )?(%s) :(?= |$)" % NAME)
INNER = re.compile(r"(?m)^[ ]+(?:pub )?(%s) :(?= |$)" % NAME)


def read(path):
    with open(path, encoding="utf-8") as file:
        return file.read()


def snake(name):
    return re.sub(r"(?<=[a-z0-9])[A-Z]", lambda m: "_" + m[0].lower(), name)


def files(*patterns):
    found = []
    for pattern in patterns:
        found += glob.glob(pattern, recursive=True)
    return sorted(f for f in found if "/out/" not in f)


def library_words():
    """The names of functions that the toolchain's library exports for specs and proofs."""
    kit = os.path.dirname(subprocess.run(["rt", "doc"], capture_output=True, text=True).stdout.strip())
    words = set()
    for pattern in ("std/specs/Prelude.antt", "std/proofs/Common.antt", "core/specs/**/*.antt", "std*/specs/**/*.antt"):
        for path in glob.glob(os.path.join(kit, "rattle", pattern), recursive=True):
            text = read(path)
            words |= {m[1] for m in TOP.finditer(text)}
            for m in re.finditer(r"\{([^{}]*)\}", text):
                words |= {w.strip().split(" ")[0] for w in m[1].split(",")}
    return words


# Lemmas that the toolchain's script has respelled, and that would meet a definition: they keep the dash that they had.
BACK = {"rule_fits": "rule-fits", "slot_ok": "slot-ok", "no_reader": "no-reader"}


def main():
    for path in files("crates/rules/proofs/*.antt"):
        text = read(path)
        with open(path, "w", encoding="utf-8") as file:
            file.write(TOKEN.sub(lambda m: BACK.get(m[0], m[0]), text))
    definitions = files("crates/*/specs/**/*.antt")
    lemmas = [f for f in files("crates/*/proofs/**/*.antt") if os.path.basename(f) not in ("Proof.antt", "Answers.antt", "Invariants.antt")]
    functions, camel, dashed = set(), set(), set()
    for path in definitions + lemmas + files("crates/*/proofs/**/Proof.antt"):
        text = read(path)
        names = {m[1] for m in TOP.finditer(text)} | {m[1] for m in INNER.finditer(text)}
        camel |= {n for n in names if n[0].islower() and re.search("[a-z0-9][A-Z]", n)}
        if path in definitions:
            functions |= {m[1] for m in TOP.finditer(text)}
        if path in definitions or path in lemmas:
            for m in re.finditer(r"(?m)^(abbrev |unfoldable )(?:pub )?(%s) :" % NAME, text):
                functions.add(m[2])
            dashed |= {m[1] for m in TOP.finditer(text) if "-" in m[1] and not m[1].startswith(("invariant-", "decreases-")) and "◌" not in m[1]}
    # Names that are bound without a declaration of their own.
    camel |= {"beginsWith", "behindOf", "copyHere", "handsBy", "heardBy", "nextLength", "otherWord", "outcomeLeaves", "repeatsOn", "talliedOver", "wroteBefore", "zoneFrom"}
    known = {snake(n) for n in functions} | library_words()
    turn = {n: snake(n) for n in camel}
    for name in dashed:
        parts = [snake(p) for p in name.split("-")]
        joined = parts[0]
        for before, after in zip(parts, parts[1:]):
            joined += ("-" if before in known and after in known and before and after else "_") + after
        if joined != name:
            turn[name] = joined

    # Names that would fall together.
    code = files("crates/*/specs/**/*.antt", "crates/*/proofs/**/*.antt", "crates/*/src/**/*.rt")
    meets = set()
    new = {}
    for old, to in turn.items():
        new.setdefault(to, set()).add(old)
    # The name of a function of Rust, or of a step behind a dot, stands in another space of names.
    for path in files("crates/*/specs/**/*.antt", "crates/*/proofs/**/*.antt"):
        words = {m[0] for m in re.finditer(r"(?<![^\s(){}\[\];,@\"«»`|:])" + TOKEN.pattern, re.sub(r"--.*", "", read(path)))}
        for to, olds in new.items():
            here = olds & words
            if here and to in words:
                meets |= here
    # Of a definition and a lemma that would, the lemma keeps its dashes.
    for to, olds in new.items():
        if len(olds) > 1:
            meets |= olds - camel if len(olds & camel) == 1 else olds
    for name in sorted(meets):
        print("meets", name, turn[name], sep="\t")
        del turn[name]

    texts = code + files("crates/*/must-fail/*.edit", "crates/*/wrong/*.edit", "crates/*/right/*.edit", "tests/notices.d/*")
    for path in texts + files("README.md", "docs/*.md"):
        text = read(path)
        if path.endswith(".md"):
            changed = re.sub(r"`[^`\n]*`", lambda s: TOKEN.sub(lambda m: turn.get(m[0], m[0]), s[0]), text)
        else:
            changed = re.sub(TOKEN, lambda m: turn.get(m[0], m[0]), text)
        if changed != text:
            with open(path, "w", encoding="utf-8") as file:
                file.write(changed)
    for old in sorted(turn):
        print(old, turn[old], sep="\t")


if __name__ == "__main__":
    sys.exit(main())
