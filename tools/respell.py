#!/usr/bin/env python3
"""Respells the definitions and lemmas of this repository: words in snake case, facts and types in camel case.

usage: python3 tools/respell.py [--list]    at the top of the repository

Run once, after the toolchain's own script. A name is one of the repository's own when a file below specs/ or proofs/
declares it; the name of a goal, which the toolchain makes, is left alone, and so are strings and Rust names.
It refuses to run where two names would fall together.
"""

import os
import re
import sys

# What one spelling would give to two things, or to a word of the language.
CHOSEN = {
    "negotiation": {"first_of": "decided_by", "ofStreams": "outcome_of_streams", "in-force": "in_force_lem"},
    "scanner": {"in-force": "in_force_lem"},
    "text": {
        "short_escape": "short_escape_lem",
        "hex-digit": "hex_digit_lem",
        "fold-value": "fold_value_lem",
        "fold-fields": "fold_fields_lem",
        "fold-items": "fold_items_lem",
    },
}
# Fields of records with a dash in their names: behind a dot any other such name is a step, which the toolchain names.
FIELDS = {"in-text", "in-form", "good-end", "past-digits"}
BREAKS = r"\s(){}\[\],;.\"`"
TOKEN = re.compile(r"[^" + BREAKS + r"]+")
STRING = re.compile(r'b?"(?:[^"\\]|\\.)*"')


def files(*endings):
    for folder, dirs, names in os.walk("crates"):
        dirs[:] = sorted(d for d in dirs if d != "out")
        for name in sorted(names):
            if name.endswith(endings):
                yield os.path.join(folder, name)


def read(path):
    with open(path, encoding="utf-8") as f:
        return f.read()


def declared():
    """The names that files of specs/ and proofs/ declare, each with a place; names of goals are left out."""
    found, goals = {}, set()
    head = re.compile(r"\s*((?:(?:pub|abbrev|unfoldable|data|record|ruleset)\s+)*)([^" + BREAKS + r":]+)\s*(.*)$")
    for path in files(".antt"):
        for number, line in enumerate(read(path).split("\n"), 1):
            if re.match(r"\s*(--|use |open |unfolding|mod |pub mod|pub use|elim |let |module )", line):
                continue
            m = head.match(line)
            if not m:
                continue
            words, name, rest = m.groups()
            if not words and not re.match(r"(\{[^}]*\}\s*|\([^)]*\)\s*)*:\s", rest):
                continue
            if re.match(r":\s*goal\.", rest):
                goals.add(name)
            else:
                found.setdefault(name, f"{path}:{number}")
    return {n: p for n, p in found.items() if n not in goals}


def respelt(name):
    if name[0].isupper():
        return "".join(w[:1].upper() + w[1:] for w in name.split("-"))
    return re.sub(r"([a-z0-9])([A-Z])", r"\1_\2", name).replace("-", "_").lower()


def renamings(names):
    out = {}
    for name in names:
        if re.fullmatch(r"[A-Za-z0-9_'-]+", name) and respelt(name) != name:
            out[name] = respelt(name)
    return out


def strings_apart(text):
    """The text in pieces: (is a string, piece)."""
    at = 0
    for m in STRING.finditer(text):
        yield False, text[at:m.start()]
        yield True, m.group(0)
        at = m.end()
    yield False, text[at:]


def turn(text, new, made):
    """The text with each name turned; one with a dash behind a dot only where a module stands before the dot."""

    def one(m):
        word = m.group(0)
        if word not in new:
            return word
        before = text[: m.start()]
        if before.endswith(".") and "-" in word and word not in FIELDS:
            base = TOKEN.findall(before[-80:-1])
            if base and not base[-1][0].isupper():
                made.append((base[-1], word))
                return word
        return new[word]

    return TOKEN.sub(one, text)


def main():
    names = declared()
    new = renamings(names)
    clash = []
    for crate in sorted(os.listdir("crates")):
        mine = {**new, **CHOSEN.get(crate, {})}
        here = {w for p in files(".antt") if p.split(os.sep)[1] == crate for w in TOKEN.findall(read(p))}
        given = {}
        for n in here & set(names):
            given.setdefault(mine.get(n, n), []).append(n)
        clash += [(crate, t, ns) for t, ns in given.items() if len(ns) > 1]
    if "--list" in sys.argv:
        for n in sorted(new):
            print(n, "->", new[n], names[n])
    for row in clash:
        print("falls together:", *row)
    if "--list" in sys.argv:
        return
    if clash:
        raise SystemExit("respell: nothing was written")
    left = []
    for path in files(".antt", ".rt", ".edit"):
        text = read(path)
        mine = dict(new)
        if path.endswith(".antt"):
            mine.update(CHOSEN.get(path.split(os.sep)[1], {}))
            out = turn(text, mine, left)
        else:
            out = "".join(p if s else turn(p, mine, left) for s, p in strings_apart(text))
        if out != text:
            with open(path, "w", encoding="utf-8") as f:
                f.write(out)
    for path in ["README.md"] + [os.path.join("docs", f) for f in sorted(os.listdir("docs"))]:
        text = read(path)
        out = re.sub(r"`[^`\n]*`", lambda m: turn(m.group(0), new, left), text)
        if out != text:
            with open(path, "w", encoding="utf-8") as f:
                f.write(out)
    for base, word in left:
        print("left behind a dot:", base + "." + word)


main()
