#!/usr/bin/env python3
"""Follows what a reader must believe: the definitions in crates/*/specs that the public promises, the sentences that
docs/TRUST.md names and the samples' theorem reach, through every definition that these use.

Run as python3 tools/trust.py at the repository's root. It fails if a reached definition stands on the inner shelf
(specs/Inner), if a believed file holds a definition that nothing reaches, or if the file tables of docs/TRUST.md have
another file or number of lines than these; with --write it puts the numbers of lines right. --list prints each file
with what is not reached in it.
"""
import glob
import os
import re
import sys

TRUST = "docs/TRUST.md"
# The public operations, and the functions whose promises say what the program reads.
OPERATIONS = {
    "variants_and_fragments/src/lib.rt": ["check_case"],
    "var_filter/src/lib.rt": ["var_filter"],
    "genotype_probs/src/lib.rt": ["genotype_priors"],
    "no_haplotypes/src/lib.rt": ["call_genotypes_no_haplotypes"],
    "haplotype_assembly/src/lib.rt": ["given_phase", "generate_flist_buffer"],
    "shuffle/src/lib.rt": ["sweep_orders"],
    "with_haplotypes/src/lib.rt": ["call_genotypes_with_haplotypes"],
    "late_reads/src/lib.rt": ["arrive", "depart"],
    "condorbed/src/requests.rt": ["named", "next"],
}
SAMPLES = "samples/specs/Samples.antt"
PROGRAM = "protocol/specs/Text.antt"

BREAKS = re.compile(r"[\s(){}\[\],;λ]+")
USE = re.compile(r"^(?:pub |ghost )*use (\S+)\.\{(.*)\};?\s*$")
ALIAS = re.compile(r"^(?:ghost )?use (\S+) as (\S+?);?\s*$")
HEAD = re.compile(r"^(?:unfoldable |abbrev |pub )*(record |data )?([^\s:(){}]+)\s")
NESTED = re.compile(r"^  (?:unfoldable |abbrev |pub )*([^\s:(){}]+)\s+:\s")
PATH = re.compile(r"^Rattle\.([a-z_]+)\.specs\.(.+)$")
# A clause of a contract, with its name where the contract has several.
CLAUSE = re.compile(r"ensures (?:\w+ )?(\{.*\})")


def code(line):
    """The line without its comment."""
    return re.sub(r"(?:(?<=\s)|^)--(?:\s.*)?$", "", line)


def words(lines):
    return {word for line in lines for word in BREAKS.split(code(line)) if word}


def fronts(word):
    """The word, and what stands before each of its dots: a field is written close to its record."""
    parts = word.split(".")
    return [".".join(parts[:length]) for length in range(len(parts), 0, -1)]


class Module:
    """A file of specs: what it imports, and its definitions, each with its first line, the line after its last and the
    words that it uses. A comment stands with the definition below it."""

    def __init__(self, file):
        self.file = file
        self.lines = open(file, encoding="utf-8").read().split("\n")
        self.uses, self.aliases, self.definitions = imports(self.lines), aliases(self.lines), {}
        heads = self.heads()
        for number, (at, name, kind) in enumerate(heads):
            end = heads[number + 1][0] if number + 1 < len(heads) else len(self.lines)
            self.add(at, end, name, kind)

    def heads(self):
        """Where definitions start: at the margin, or in a `module _ .. where` of the file."""
        found, inside, seen = [], False, set()
        for at, line in enumerate(self.lines):
            text = code(line)
            if not text.strip() or USE.match(line) or ALIAS.match(line):
                continue
            if not text[0].isspace():
                inside = text.startswith("module ")
                match = HEAD.match(text + " ")
                if inside or not match or (match.group(1) is None and " : " not in text):
                    continue
                name = match.group(2)
            else:
                match = NESTED.match(text) if inside else None
                if not match:
                    continue
                name = match.group(1)
            if name not in seen:
                seen.add(name)
                found.append((at, name, "data" if text.startswith("pub data") or text.startswith("data") else None))
        return found

    def add(self, at, end, name, kind):
        while end > at + 1 and self.is_gap(end - 1):
            end -= 1
        start = at
        while start > 0 and self.lines[start - 1].lstrip().startswith("--") and "-- ----" not in self.lines[start - 1]:
            start -= 1
        used = words(self.lines[at:end])
        if self.lines[at].startswith(" "):
            used |= words(line for line in self.lines if line.startswith("module "))
        self.definitions[name] = (start, end, used)
        if kind == "data":
            for line in self.lines[at + 1:end]:
                before, colon, _ = code(line).partition(" : ")
                for constructor in before.split() if colon and "→" not in before else []:
                    self.definitions.setdefault(constructor, (start, end, {name}))

    def is_gap(self, at):
        line = self.lines[at].strip()
        return not line or line.startswith("--") or line.startswith("module ")


def imports(lines):
    """The names that these lines bring in, each with the path of its module and its name there."""
    found = {}
    for line in lines:
        match = USE.match(line)
        for name in match.group(2).split(",") if match else []:
            there, _, here = name.strip().partition(" as ")
            found[here or there] = match.group(1), there
    return found


def aliases(lines):
    """The modules that these lines give a name, each with its path."""
    return {match.group(2): match.group(1) for match in map(ALIAS.match, lines) if match}


class Specs:
    def __init__(self, root="."):
        self.root, self.modules = root, {}
        for file in glob.glob(os.path.join(root, "crates/*/specs/**/*.antt"), recursive=True):
            crate, rest = os.path.relpath(file, os.path.join(root, "crates")).split("/specs/")
            if os.path.basename(file) != "Lib.antt":
                self.modules[crate, rest[:-len(".antt")].replace("/", ".")] = Module(file)

    def find(self, path, name):
        """The module and name that an import of this name from this path means, through `pub use`."""
        match = PATH.match(path)
        module = match and self.modules.get(match.groups())
        if not module:
            return None
        if name in module.definitions:
            return match.groups(), name
        return self.find(*module.uses[name]) if name in module.uses else None

    def meant(self, key, word):
        """What a word in a definition of this module means: nothing, if it is no definition of specs."""
        module = self.modules[key]
        own = next((name for name in fronts(word) if name in module.definitions), None)
        return (key, own) if own else self.brought(module.uses, module.aliases, word)

    def brought(self, uses, named, word):
        """What a word means by imports: a name, or a module's alias and a name there."""
        for name in fronts(word):
            alias, _, rest = name.partition(".")
            found = self.find(*uses[name]) if name in uses else alias in named and rest and self.find(named[alias], rest)
            if found:
                return found
        return None

    def promises(self):
        """What the promises of the public operations and of the static library name."""
        files = {os.path.join(self.root, "crates", file): names for file, names in OPERATIONS.items()}
        for file in glob.glob(os.path.join(self.root, "crates/exports/src/*.rt")):
            files[file] = re.findall(r'extern "C" fn (\w+)', open(file, encoding="utf-8").read())
        for file, names in files.items():
            text = open(file, encoding="utf-8").read()
            uses, named = imports(text.split("\n")), aliases(text.split("\n"))
            for name in names:
                contract = re.search(r"fn %s\b.*?\n *\{" % name, text, re.S).group(0)
                for word in words(CLAUSE.findall(contract)):
                    yield self.brought(uses, named, word)

    def sentences(self):
        """What docs/TRUST.md names as a sentence: a name and its file of specs, in a column of a table."""
        for line in open(os.path.join(self.root, TRUST), encoding="utf-8"):
            for name, crate, file in re.findall(r"\| `([^`]+)`, `([a-z_]+)/specs/(\w+)\.antt` \|", line):
                yield (crate, file), name

    def reached(self):
        whole = [tuple(re.match(r"(\w+)/specs/(\w+)\.antt", file).groups()) for file in (SAMPLES, PROGRAM)]
        start = [(key, name) for key in whole for name in self.modules[key].definitions]
        found, todo = set(), [*start, *self.sentences(), *self.promises()]
        while todo:
            item = todo.pop()
            if item is None or item in found:
                continue
            found.add(item)
            key, name = item
            todo.extend(self.meant(key, word) for word in self.modules[key].definitions[name][2])
        return found


def report(specs, found):
    """What is wrong, and the believed files with their lines."""
    wrong, believed = [], {}
    for key, module in sorted(specs.modules.items()):
        file = "%s/specs/%s.antt" % (key[0], key[1].replace(".", "/"))
        here = [name for name in module.definitions if (key, name) in found]
        rest = [name for name in module.definitions if (key, name) not in found]
        if key[1].startswith("Inner."):
            wrong.extend("%s: a promise reaches %s, which stands on the inner shelf" % (file, name) for name in here)
        elif rest:
            wrong.append("%s: nothing reaches %s" % (file, ", ".join(rest)))
        if here and not key[1].startswith("Inner."):
            believed[file] = len(module.lines) - 1
    return wrong, believed


def tables(believed, write):
    """Compares the tables of docs/TRUST.md with the believed files; with `write` puts the numbers right."""
    text, wrong = open(TRUST, encoding="utf-8").read(), []
    row = re.compile(r"^(\| `([a-z_]+/specs/[\w/]+\.antt)` \| )([\d,]+)( \|)", re.M)
    listed = {match.group(2): match.group(3) for match in row.finditer(text)}
    wrong.extend("%s has no row for %s" % (TRUST, file) for file in believed if file not in listed)
    wrong.extend("%s has a row for %s, which nothing reaches" % (TRUST, file) for file in listed if file not in believed)
    if write:
        fresh = row.sub(lambda m: m.group(1) + str(believed.get(m.group(2), m.group(3))) + m.group(4), text)
        open(TRUST, "w", encoding="utf-8").write(fresh)
    else:
        wrong.extend("%s: %s has %d lines, not %s" % (TRUST, file, believed[file], count)
                     for file, count in listed.items() if file in believed and int(count) != believed[file])
    return wrong


def main():
    specs = Specs()
    found = specs.reached()
    wrong, believed = report(specs, found)
    wrong += tables(believed, "--write" in sys.argv)
    print("\n".join(wrong) if wrong else "ok", end="\n")
    table = believed.get("steps/specs/Table.antt", 0)
    print("%d files, %d lines to believe, %d of them the table of knots" % (len(believed), sum(believed.values()), table))
    return 1 if wrong else 0


if __name__ == "__main__":
    sys.exit(main())
