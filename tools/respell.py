#!/usr/bin/env python3
"""Brings the repository's own definitions and lemmas to today's spelling, once, after the kit's port.py: words joined by
dashes to snake case, and types and facts, which begin with a capital, to camel case. usage: tools/respell.py [ROOT]

A name is renamed if a file of specs/ or proofs/ declares it: as a definition, a lemma, a constructor or a field; so is
the name of a clause where a proof cites it. Names that Rattle makes for a function's goals (below proofs/F/) keep their
spelling. A name that now stands beside the same name of something else in a file is printed: a definition may be called
as the Rust function that it tells of, and fields of two records alike.

It goes by whole words: a word of a text or a comment, or a name of the kit's, that is spelled like one of these names
changes too, and is to be put back by hand.
"""

import os
import re
import sys

ROOT = sys.argv[1] if len(sys.argv) > 1 else "."
WORD = r"[A-Za-z][A-Za-z0-9_']*(?:-[A-Za-z0-9_']+)+"
TOP = re.compile(r"^(?:abbrev |unfoldable |pub |data |record )*(" + WORD + r")(?= |$)")
FIELD = re.compile(r"^\s+(?:pub )?(" + WORD + r"(?: " + WORD + r")*) :")
CONSTRUCTORS = re.compile(r"^\s+((?:[a-z][A-Za-z0-9_'-]* )+):")
LABEL = re.compile(r"\b(?:ensures|requires) (\w*_\w*) \{")
PARAMETERS = ["path-before", "buffer-now"]
MADE = re.compile(r"^(returns|loop|invariant|decreases|in_\w+|overflow_\w+|bounds|slice_bounds)-|-(requires|preserved|init|smaller)$")


def files(*ends):
    for top in ("crates", "refused"):
        for folder, dirs, names in os.walk(os.path.join(ROOT, top)):
            dirs[:] = sorted(d for d in dirs if d != "out")
            for name in sorted(names):
                if name.endswith(ends):
                    yield os.path.join(folder, name)


def text(path):
    with open(path, encoding="utf-8") as f:
        return f.read()


def spelled(name):
    if name[0].isupper():
        return "".join(part[:1].upper() + part[1:] for part in re.split("[-_]", name))
    return name.replace("-", "_")


def declared():
    found = set()
    for path in files(".antt"):
        for line in text(path).splitlines():
            for pattern in (TOP, FIELD, CONSTRUCTORS):
                m = pattern.match(line)
                if m and " = " not in line.split(":")[0]:
                    found |= {w for w in m[1].split() if "-" in w}
    return {n for n in found if not MADE.search(n)} | set(PARAMETERS) | labels()


def labels():
    """The names of clauses, which older proofs spell with dashes."""
    return {label.replace("_", "-") for path in files(".rt") for label in LABEL.findall(text(path))}


def main():
    names = {n: spelled(n) for n in declared()}
    token = re.compile(r"(?<![\w'\u00b7-])(" + "|".join(map(re.escape, sorted(names, key=len, reverse=True))) + r")(?![\w'-])")
    turned = {}
    for path in files(".antt", ".rt", ".edit"):
        old = text(path)
        words = set(re.findall(r"[\w'-]+", old))
        for n in sorted(words & set(names)):
            if names[n] in words:
                print(f"beside its namesake: {names[n]} in {os.path.relpath(path, ROOT)}")
        new = token.sub(lambda m: names[m[1]], old)
        if new != old:
            turned[path] = new
    for path, new in turned.items():
        with open(path, "w", encoding="utf-8") as f:
            f.write(new)
    print(f"{len(names)} names, {len(turned)} files")


main()
