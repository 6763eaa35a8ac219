#!/usr/bin/env python3
"""Spells the repository's own definitions and lemmas as today's Rattle does: words in snake case. Run once, at the top, after the kit's port.py.

A name that specs/ or proofs/ declare turns in every .antt and .rt file of crates/, in must-fail/*.edit, and in the code spans of README.md and docs/:
`addExp` to `add_exp`, `sum-meets` to `sum_meets`. Types and modules keep their spelling, and so does whatever src/ names.
A lemma that would meet its definition's name gets `_lem`; the names of OWN are chosen by hand, for the same reason.
"""
import collections
import os
import re

NAME = r"[^\s(){}.;,@\"«»:]+"
WORD = re.compile(r"(?<![^\s(){}.;,@\"«»:\x60])[^\s(){}.;,@\"«»:\x60]+")
DECLARED = re.compile(
    rf"(?m)^ *(?:(?:pub|abbrev|unfoldable) )*(?!use |open |module |record |data |unfolding )({NAME})(?: +\{{[^{{}}\n]*\}})* *:(?=\s)"
)
COMMENT = re.compile(r"--[^\n]*")
CLAUSES = re.compile(r"(?:requires|ensures)\s*(?:\w+\s*)?\{|ghost\b")
# Two definitions, or a definition and a field of src/ or a word of the library, that would fall together.
OWN = {
    "homSnv": "hom_snv_rate",
    "hetSnv": "het_snv_rate",
    "homIndel": "hom_indel_rate",
    "hetIndel": "het_indel_rate",
    "rowsIn": "rows_within",
    "variantIn": "variant_of_row",
    "over_first": "over_first_lem",
    "chain_left": "chain_left_lem",
    "count_word": "count_word_lem",
    "written_from": "written_from_lem",
    "is-nan": "is_nan_lem",
    "non-neg": "non_neg_lem",
    "in-range": "in_range",
}


def texts(folders, endings):
    for folder in folders:
        for at, dirs, files in os.walk(folder):
            dirs[:] = sorted(d for d in dirs if d != "out")
            for name in sorted(files):
                if name.endswith(endings):
                    yield os.path.join(at, name)


def read(path):
    with open(path, encoding="utf-8") as f:
        return f.read()


def write(path, text):
    with open(path, "w", encoding="utf-8") as f:
        f.write(text)


def snake(name):
    if name[0].isupper():
        return name
    words = re.sub(r"(?<=[a-z0-9])[A-Z](?=[a-z0-9]|$|-|_)", lambda m: "_" + m[0].lower(), name)
    return words.replace("-", "_")


def table():
    declared, places = set(), {}
    for path in texts(["crates"], (".antt",)):
        text = COMMENT.sub("", read(path))
        declared |= set(DECLARED.findall(text))
        places[path] = set(WORD.findall(text))
    rows = {n: snake(n) for n in declared if snake(n) != n}
    met = collections.defaultdict(list)
    for n in declared:
        met[snake(n)].append(n)
    for new, olds in met.items():
        if len(olds) > 1 and any(sum(o in words for o in olds) > 1 for words in places.values()):
            rows |= {o: new + "_lem" for o in olds if "-" in o}
    return rows | OWN


def turned(text, rows):
    def one(m):
        word = m[0]
        if word not in rows:
            return word
        if text[m.start() - 1 : m.start()] == "." and rows[word].endswith("_lem"):
            return snake(word)
        return rows[word]

    return WORD.sub(one, text)


def main():
    rows = table()
    for path in texts(["crates"], (".antt", ".rt", ".edit")):
        text = read(path)
        here = rows
        if path.endswith(".rt"):
            here = {o: n for o, n in rows.items() if "-" in o or o.lower() != o}
        write(path, turned(text, here))
    spans = re.compile(r"\x60[^\x60\n]+\x60")
    for path in ["README.md", *texts(["docs"], (".md",))]:
        write(path, spans.sub(lambda m: turned(m[0], rows), read(path)))


if __name__ == "__main__":
    main()
