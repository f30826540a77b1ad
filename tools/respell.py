#!/usr/bin/env python3
"""Brings the repository's own definitions and lemmas to snake case: run once, at the top, after the kit's port.

Renames each name that a file of specs/ or a lemma file of proofs/ declares and that has a dash or a capital inside, in every
.antt and .rt file and every must-fail edit. Types, modules, variants and constants keep their names, strings of .rt files
too; a name that would fall together with another gets `_lem`.
"""
import collections
import glob
import re
import sys

NAME = r"[^\s:(){}\[\].,;«»⌜⌝]+"
DECLARED = re.compile(r"^\s*(?:abbrev |unfoldable |pub |ruleset |data |record )*(" + NAME + r")(?:\s*\{[^}]*\})?\s*:(?=\s)")
# lemmas that the kit's port had turned, and one that it left, by a word of the library
CHOSEN = {
    "ended_at": "ended_at_lem",
    "get_d_rows": "get_or_rows",
    "getD-tab": "get_or_tab",
    "goes_on": "goes_on_lem",
}


def declared():
    names = collections.Counter()
    for path in glob.glob("crates/*/specs/**/*.antt", recursive=True) + glob.glob("crates/*/proofs/*.antt"):
        for line in open(path):
            found = DECLARED.match(line)
            if found:
                names[found.group(1)] += 1
    return names


def snake(name):
    turned = re.sub(r"(?<=[a-z0-9])([A-Z])", lambda m: "_" + m.group(1).lower(), name) if name[0].islower() else name
    return turned.replace("-", "_")


def mapping(names):
    turned = {}
    taken = {name for name in names if snake(name) == name and name not in CHOSEN}
    # definitions in camel case first, so that a lemma gives way to a definition
    for name in sorted(names, key=lambda n: ("-" in n, n)):
        new = CHOSEN.get(name, snake(name))
        if new == name:
            continue
        while new in taken:
            print(f"falls together: {name} with {new}", file=sys.stderr)
            new += "_lem"
        taken.add(new)
        turned[name] = new
    return turned


def respelled(text, turned, rust):
    token = re.compile(r"(?<![\w\-'])[A-Za-z][\w\-]*[\w'₀-₉]*")

    def one(m):
        return turned.get(m.group(0), m.group(0))

    if not rust:
        return token.sub(one, text)
    # strings and comments of a source file keep their words
    parts = re.split(r'("(?:[^"\\]|\\.)*"|//[^\n]*)', text)
    return "".join(p if i % 2 else token.sub(one, p) for i, p in enumerate(parts))


def main():
    turned = mapping(declared())
    for path in (
        glob.glob("crates/**/*.antt", recursive=True)
        + glob.glob("crates/*/src/**/*.rt", recursive=True)
        + glob.glob("crates/*/must-fail/*.edit")
    ):
        text = open(path).read()
        new = respelled(text, turned, path.endswith(".rt"))
        if new != text:
            open(path, "w").write(new)
    for old, new in sorted(turned.items()):
        print(old, new)


main()
