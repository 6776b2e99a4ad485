#!/usr/bin/env python3
"""Respells this repository's own definitions and lemmas: words in snake case, facts and types in camel case.

usage: python3 tools/respell.py        at the top of the repository, once, after /opt/rattle/port/port.py

It goes over the .antt files and the ghost lines and clauses of the .rt files, without their strings, and renames each name that an .antt file of the
repository declares, or imports under, with a dash (or as `seedA` and `getD`), wherever it stands as a whole word. What Rattle itself makes, as
`loop-i-preserved`, keeps its dashes, and so does the first dash of a lemma like `length-append`, which joins two names. The first
failing test of an ordered list, which port.py calls `first_of`, as a tactic is called, is `first_failing`. Functions of src/, strings,
inputs and outputs are not touched, and a product `A·S` in a comment, which port.py took for a path, is put back. It stops where two
names would fall together.
"""

import glob
import re
import sys

WORD = re.compile(r"\"[^\"\n]*\"|[^\s(){}\[\],;.:=«»\"`⌜⌝]+")
DECLARES = re.compile(r"^\s*((?:abbrev |unfoldable |pub |record |data |syntax )*)([^\s(){}:;=,.]+) :(?: (.*))?$")
# Names that join two names: the function on the left side of a lemma, a dash, and what it is applied to.
HEADS = ("length", "get_or", "drop", "take")
SHAPES = re.compile(r"^\s*(?:pub )?(?:record|data) ([^\s(){}:;=,.]+) [{(]")
RENAMES = re.compile(r" as ([^\s(){}:;=,.]+)")
LIBRARY = re.compile(r"^(?:ghost )?use (?:Rattle\.std\b|(?!Rattle\.))[^{]*\{([^}]*)\}")
TESTS = re.compile(r"(?m)^(?:ghost )?use Rattle\.protocol\.specs\.Tests\.\{[^}]*\bfirst_of\b")
PRODUCT = re.compile(r"\bA(?:\.|-as-)S\b")
CLAUSE = re.compile(r"^\s*(ghost\b|requires\b|ensures\b|invariant\b)")


def antt_files():
    return sorted(glob.glob("crates/*/specs/**/*.antt", recursive=True) + glob.glob("crates/*/proofs/**/*.antt", recursive=True))


def rt_files():
    return sorted(glob.glob("crates/*/src/**/*.rt", recursive=True))


def spelled(name, lemma=True):
    name = name.replace("seedA", "seed_a").replace("getD", "get_or").replace("first-of-", "first-failing-").replace("first_of_", "first_failing_")
    if "-" not in name:
        return name
    if name[0].isupper():
        parts = name.split("-")
        return "".join(p[0].upper() + p[1:] for p in parts)
    head, _, rest = name.partition("-")
    if lemma and head in HEADS:
        return head + "-" + rest.replace("-", "_")
    return name.replace("-", "_")


def borrowed():
    """The names that a file of the repository takes from a library, which keep their spelling."""
    names = set()
    for path in antt_files() + rt_files():
        with open(path, encoding="utf-8") as f:
            for line in f:
                m = LIBRARY.match(line)
                if m:
                    names.update(n.split(" as ")[0].strip() for n in m.group(1).split(","))
    return names


def declared():
    """The names that .antt files declare, without those that are goals, invariants or measures of a function."""
    own, made = {}, set()
    for path in antt_files() + rt_files():
        with open(path, encoding="utf-8") as f:
            for line in f:
                if line.startswith(("use ", "ghost use ")):
                    for name in RENAMES.findall(line):
                        own.setdefault(name, set()).add(path)
                if path.endswith(".rt"):
                    continue
                m = SHAPES.match(line)
                if m:
                    own.setdefault(m.group(1), set()).add(path)
                m = DECLARES.match(line)
                if not m:
                    continue
                name, type_ = m.group(2), m.group(3) or ""
                if type_.startswith(("goal.", "need.", "rules.")):
                    made.add(name)
                else:
                    own.setdefault(name, set()).add(path)
    return own, made


def main():
    own, made = declared()
    table, taken, kept = {}, {}, borrowed()
    for name in sorted(own):
        new = spelled(name, not any("/specs/" in path for path in own[name]))
        if new != name and name not in made and name not in kept:
            table[name] = new
        taken.setdefault(new, set()).add(name)
    bad = 0
    for new, olds in taken.items():
        if len(olds) > 1:
            print(f"falls together: {sorted(olds)} as {new}: {sorted(set().union(*(own[o] for o in olds)))[:6]}")
            bad += 1
    table.pop("first_of", None)
    table["seedA"] = "seed_a"
    both = sorted(n for n in made if n in own and spelled(n) != n)
    if both:
        print("also a goal's name, left:", *both)
    if "--dry" in sys.argv:
        for k, v in sorted(table.items()):
            print(k, v)
        return 0
    if bad:
        return 1

    def turn(text, more):
        return WORD.sub(lambda m: more.get(m.group(0)) or table.get(m.group(0), m.group(0)), text)

    changed = 0
    for path in antt_files() + rt_files():
        with open(path, encoding="utf-8") as f:
            was = f.read()
        more = {"first_of": "first_failing"} if TESTS.search(was) or path.endswith("protocol/specs/Tests.antt") else {}
        old = PRODUCT.sub("A·S", was)
        if path.endswith(".antt"):
            new = turn(old, more)
        else:
            new, depth = [], 0
            for line in old.split("\n"):
                if depth > 0 or CLAUSE.match(line):
                    depth += line.count("{") - line.count("}")
                    line = turn(line, more)
                new.append(line)
            new = "\n".join(new)
        if new != was:
            changed += 1
            with open(path, "w", encoding="utf-8") as f:
                f.write(new)
    print(f"{len(table)} names in {changed} files")
    return 0


if __name__ == "__main__":
    raise SystemExit(main())
