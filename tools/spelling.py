#!/usr/bin/env python3
"""Brings this repository's own definitions and lemmas to today's spelling: words in snake case. Run once, after port.py.

usage: tools/spelling.py [--check]     at the top; --check lists the names that would fall together and writes nothing

A name of ours is one that stands at the head of a signature, a constructor or a field in specs/, or of a lemma in proofs/*.antt.
Types and modules keep their capitals. Functions of src/, exported C names, strings, inputs and outputs keep their names.
"""

import collections
import glob
import re
import sys

TOKEN = re.compile(r"[^\s(){}.;,@\"«»\[\]\\:`]+")
HEAD = re.compile(r"^ *(?:(?:abbrev|unfoldable|pub|data|record) )*([^\s(){}.;,:=|]+)(?=[^\n=]* :(?:\s|$))", re.M)
MEMBER = re.compile(r"^  (?:pub )?((?:[^\s(){}.;,:=|]+ )+):\s", re.M)
WORDS = {"pub", "use", "mod", "abbrev", "unfoldable", "infixl", "infixr", "infix", "data", "record", "module", "open"}

# Lemmas that would fall together with the definition that they are about, or with one of the library, and what they are called instead.
APART = {
    "and-then": "and_then_lem",
    "bisect-in": "bisect_in_lem",
    "counts-hold": "counts_hold_lem",
    "delta-below": "delta_at_below",
    "get-or": "get_rule_or",
    "in-range": "in_range_lem",
    "push-played": "push_played_lem",
    "read-in": "read_in_lem",
    "state-orders": "state_orders_lem",
}
# The same in one crate alone: another crate has a lemma of this name that stands by itself.
APART_IN = {"demands": {"or-else": "or_else_lem"}}


def snake(name):
    name = re.sub(r"(?<=[a-z0-9])(?=[A-Z])", "_", name).lower()
    return name.replace("-", "_")


def own():
    """The names of ours that are not in snake case, each with where it stands."""
    found = collections.defaultdict(set)
    for path in glob.glob("crates/*/specs/**/*.antt", recursive=True) + glob.glob("crates/*/proofs/*.antt"):
        with open(path, encoding="utf-8") as it:
            text = it.read()
        names = HEAD.findall(text)
        if "/specs/" in path:
            names += [name for line in MEMBER.findall(text) for name in line.split()]
        for name in names:
            if name not in WORDS and name[0].islower() and snake(name) != name:
                found[name].add(path)
    return found


def main():
    check = sys.argv[1:] == ["--check"]
    if sys.argv[1:] and not check:
        sys.exit(__doc__)
    names = own()
    paths = glob.glob("crates/**/*.antt", recursive=True) + glob.glob("crates/*/src/**/*.rt", recursive=True)
    for path in sorted(paths):
        with open(path, encoding="utf-8") as it:
            text = it.read()
        apart = {**APART, **APART_IN.get(path.split("/")[1], {})}
        turned = {name: apart.get(name, snake(name)) for name in names}
        if check:
            tokens = set(TOKEN.findall(text))
            after = collections.defaultdict(set)
            for token in tokens:
                after[turned.get(token, token)].add(token)
            for name, olds in sorted(after.items()):
                if len(olds) > 1:
                    print(f"{path}: {name} is {' and '.join(sorted(olds))}")
            continue
        # Behind a dot stands a field, a constructor or a step, which has no lemma's name.
        new = TOKEN.sub(lambda it: it[0] if it[0] not in names else snake(it[0]) if text[: it.start()].endswith(".") else turned[it[0]], text)
        if new != text:
            with open(path, "w", encoding="utf-8") as it:
                it.write(new)
    if check:
        print(f"{len(names)} names")


main()
