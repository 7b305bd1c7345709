#!/usr/bin/env python3
"""Brings the repository's own definitions and lemmas to snake case: usage: tools/respell.py [ROOT] [FILE ..]

Each line of tools/respelled.txt is an older name and its spelling today. With files only these are respelled, else each .rt and .antt file under ROOT/crates.
A name is a whole word, with its dashes. A name in a string or in the Rust part of a source file stays, since only what follows `ghost use`, stands in a clause,
or stands in specs/ and proofs/ is of the logic; the names of the list occur nowhere else.
`tools/respell.py --make` writes the list: a camel case word becomes snake case, and a dash becomes an underscore where it joins plain words; it stays where it
joins two names of definitions, where the word with an underscore is another name already, and in what the checker makes."""

import collections
import glob
import os
import re
import sys

HERE = os.path.dirname(os.path.realpath(__file__))
LIST = os.path.join(HERE, "respelled.txt")
WORD = re.compile(r"[A-Za-z_](?:[A-Za-z0-9_']|-(?=[A-Za-z0-9_']))*")
MADE = re.compile(r"(returns|loop|invariant|decreases|Need|need|overflow|bounds|cast|shared|After|At|c|put|slice|enum)(-|$)")
DECLARED = re.compile(r"^\s*((?:unfoldable |abbrev |irreducible |pub |private )*)([^\s:{}()=,;]+)\s*:(?!=)", re.M)


def files(root):
    for pattern in ("specs/**/*.antt", "proofs/**/*.antt", "src/**/*.rt"):
        yield from sorted(glob.glob(os.path.join(root, "crates", "*", pattern), recursive=True))


def snake(word):
    return re.sub(r"(?<=[a-z0-9])([A-Z])", lambda m: "_" + m[1].lower(), word)


def make(root):
    words, lemmas, definitions = collections.Counter(), set(), set()
    for path in files(root):
        text = open(path).read()
        bare = re.sub(r"--.*", "", text) if path.endswith(".antt") else re.sub(r"//.*", "", text)
        for m in WORD.finditer(bare):
            words[m[0]] += 1
        if not path.endswith(".antt"):
            continue
        if "/specs/" in path:
            definitions |= {m[2] for m in DECLARED.finditer(bare)}
        elif re.search(r"/proofs/[^/]*\.antt$", path):
            lemmas |= {m[2] for m in DECLARED.finditer(bare)}
    library = {m for path in files(root) for line in re.findall(r"use Rattle\.std\.\S+\.\{(.*)\}", open(path).read()) for m in re.split(r",\s*", line)}
    names = {snake(d) for d in definitions if "-" not in d} | {w for w in library if w and "-" not in w}
    made = {}
    for word in sorted(words):
        if not re.match(r"[a-z]", word) or word in library:
            continue
        if "-" not in word:
            to = snake(word) if re.search(r"[a-z0-9][A-Z]", word) and not re.search(r"_[A-Z]", word) else word
        else:
            parts = [snake(p) if re.match(r"[a-z]", p) else p for p in word.split("-")]
            to = "-".join(parts)
            if word in lemmas and not MADE.match(word):
                joined = parts[0]
                for i, part in enumerate(parts[1:], 1):
                    two = "_".join(parts[:i]) in names and "_".join(parts[i:]) in names
                    joined += ("-" if two else "_") + part
                to = joined
        if to != word:
            made[word] = to
    # names that would fall together keep their dashes
    kept = {w for w in words if w not in made} | library
    for word in sorted(made):
        to = made[word]
        if to in kept or sum(t == to for t in made.values()) > 1:
            plain = "-".join(snake(p) if re.match(r"[a-z]", p) else p for p in word.split("-"))
            if plain == to:
                print("falls together:", word, to, file=sys.stderr)
            made[word] = plain
    with open(LIST, "w") as f:
        for word in sorted(made):
            if made[word] != word:
                f.write(f"{word} {made[word]}\n")


# Names that a definition's new spelling would fall together with, in the module that declares them and where they are imported from it: a lemma that has its
# definition's name ends in _lem.
TOGETHER = [
    ("acceptance", "proofs.Follow", "target_below", "target_below_lem"),
    ("acceptance", "proofs.Types", "field_row", "field_row_lem"),
    ("judging", "proofs.Before", "rows_before", "rows_before_lem"),
    ("judging", "proofs.Numbers", "by_rows", "by_rows_lem"),
    ("interpreter", "proofs.Live", "takes_at", "takes_at_lem"),
    ("machine", "proofs.Memory", "room_of", "room_of_lem"),
    ("machine", "proofs.Targets", "in_cell", "in_cell_lem"),
    ("machine", "proofs.Targets", "in_field", "in_field_lem"),
    ("references", "proofs.TargetsArms", "no_cell", "no_cell_lem"),
    ("semantics", "proofs.Frames", "in_cell", "in_cell_lem"),
    ("semantics", "proofs.Running", "goes_on", "goes_on_lem"),
    ("semantics", "specs.Stops", "too_large", "sum_too_large"),
    ("sizes", "proofs.Rows", "row_count", "row_count_lem"),
]


def apart(path, text):
    """The text with the names of TOGETHER, as this file has them, out of the way."""
    for crate, module, name, to in TOGETHER:
        own = re.sub(r"__e\d+\.antt$", ".antt", path).endswith(f"crates/{crate}/{module.replace('.', '/')}.antt")
        if own or re.search(r"use Rattle\." + crate + r"\." + module.replace(".", r"\.") + r"\.\{[^}]*\b" + name + r"\b", text):
            text = re.sub(r"(?<![\w.'\-])" + name + r"(?![\w'\-])", to, text)
    return text


def spellings():
    return dict(line.split() for line in open(LIST))


def respell(text, names):
    return WORD.sub(lambda m: names.get(m[0], m[0]), text)


def main(words):
    if words and words[0] == "--make":
        return make(words[1] if len(words) > 1 else ".")
    root = words[0] if words else "."
    names = spellings()
    for path in words[1:] or files(root):
        with open(path) as f:
            text = f.read()
        new = respell(apart(path, text), names)
        if new != text:
            with open(path, "w") as f:
                f.write(new)


if __name__ == "__main__":
    main(sys.argv[1:])
