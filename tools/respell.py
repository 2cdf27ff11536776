#!/usr/bin/env python3
"""Spells the definitions and lemmas of specs/ and proofs/ as today's Rattle spells its own.

usage: python3 tools/respell.py [--check]     at the top of the repository, once, after port.py

A type or a statement is in upper camel case, everything else in snake case; a dash stays where it joins the names of two
definitions. Names that Rattle makes (goals, invariants, measures) and names from src/ keep their spelling.
--check writes nothing and prints the table, with each new name that was in use before.
"""
import glob
import re
import sys

KEYWORDS = {"abbrev", "pub", "unfoldable", "data", "record", "mutual", "mod", "axiom"}
NOT_NAMES = {"let", "in", "elim", "use", "module", "where", "unfolding", "open", "λ", "--", "?", "_", "ruleset"}
TOKEN = re.compile(r"[^\s(){}\[\].,;\"«»`]+")
DECLARED = re.compile(r"^\s*((?:(?:%s)\s+)*)([^\s(){}\[\].,;:]+)((?:\s+[({][^:]*:.*[)}])?)\s+:\s" % "|".join(KEYWORDS))
OF_STD = re.compile(r"use\s+(?:Rattle\.std|borrow|native|mathlib|lib|Prim)\b[^{;\n]*\{([^}]*)\}")
# words of std that begin the name of a lemma on them
WORDS = {"length", "map", "take", "drop", "get_or", "set", "append", "reverse", "sum"}
# spelled by hand: a word of an older library inside a name, or a name that would fall together with another
BY_HAND = {
    "getD-quads": "get_or-quads",
    "L-some": "l_some",
    "N-small": "n_small",
    "RW-small": "rw_small",
    "RW-some": "rw_some",
    "SW-some": "sw_some",
    "after-head": "after_head_cases",
    "content-of": "entry_content",
    "end-fault": "end_refuses",
    "fault-of": "fault_in",
}


def read(path):
    with open(path, encoding="utf-8") as f:
        return f.read()


def snake(name):
    return re.sub(r"(?<=[a-z0-9])([A-Z])", lambda m: "_" + m.group(1).lower(), name)


def camel(name):
    return "".join(part[:1].upper() + part[1:] for part in re.split(r"[-_]", name))


def respelled(name, words):
    if name in BY_HAND:
        return BY_HAND[name]
    if name[0].isupper():
        return camel(name)
    parts = name.split("-")
    made = snake(parts[0])
    for i in range(1, len(parts)):
        before, after = "-".join(parts[:i]), "-".join(parts[i:])
        joins = before in WORDS and (after in words or after in WORDS)
        made += ("-" if joins else "_") + snake(parts[i])
    return made


def main(argv):
    specs = sorted(glob.glob("crates/*/specs/**/*.antt", recursive=True))
    proofs = sorted(glob.glob("crates/*/proofs/**/*.antt", recursive=True))
    rust = sorted(glob.glob("crates/*/src/*.rt"))
    of_std, own = set(), {}
    for path in specs + proofs + rust:
        text = read(path)
        for found in OF_STD.finditer(text):
            of_std.update(item.split(" as ")[0].strip() for item in found.group(1).split(","))
        if not path.endswith(".antt"):
            continue
        for line in text.splitlines():
            found = DECLARED.match(line)
            if not found or "goal." in line or "need." in line:
                continue
            name = found.group(2)
            if name not in NOT_NAMES | KEYWORDS and re.match(r"[A-Za-z]", name):
                own.setdefault(name, path)
    table = {}
    for name in own:
        if name in of_std:
            continue
        new = respelled(name, own)
        if new != name:
            table[name] = new
    texts = specs + proofs + rust + sorted(glob.glob("docs/*.md")) + ["README.md"]
    used = {}
    for path in texts:
        for token in TOKEN.findall(read(path)):
            used.setdefault(token, set()).add(path)
    if "--check" in argv:
        for name in sorted(table):
            clash = sorted(used.get(table[name], ()))[:4]
            print(name, table[name], "  USED BEFORE: " + " ".join(clash) if clash else "")
        seen = {}
        for name, new in table.items():
            seen.setdefault(new, []).append(name)
        for new, names in seen.items():
            if len(names) > 1:
                print("FALL TOGETHER:", new, names)
        return
    for path in texts:
        text = read(path)
        quoted_only = path.endswith(".md")

        def turned(found):
            word = found.group(0)
            return table.get(word, word)

        if quoted_only:
            made = re.sub(r"`[^`\n]*`", lambda m: TOKEN.sub(turned, m.group(0)), text)
        else:
            made = TOKEN.sub(turned, text)
        if made != text:
            with open(path, "w", encoding="utf-8") as f:
                f.write(made)


main(sys.argv[1:])
