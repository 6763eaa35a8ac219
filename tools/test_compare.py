#!/usr/bin/env python3
"""Tests that oracle/compare notices wrong values: python3 tools/test_compare.py [--model]

Run after oracle/build. The program's answers, with --model those of tools/model.py, are given one deliberate fault at a time.
Of calling without haplotypes: in the first variant of each request a word of its answer, its qual or its gq is one more. Of
muted reads, in several operations: they vote; or their calls count nowhere. The comparison must count just the answers that
the fault changed. Then the model has the fault too: now only longshot's values can show it, so all are counted but those of
gq, which longshot defines in another way. Last, longshot's gq is given in the place of the program's.
"""
import argparse
import importlib.machinery
import importlib.util
import pathlib
import random

from layout import CALLED
from model import Case, Fragment, check, encode
from protocol import LEFT_OUT, Request, ask

SEED, COUNT = 4, 300
PATH = pathlib.Path(__file__).resolve().parent.parent / "oracle" / "compare"
WORDS, QUALS, GQS = range(1, 4)
FAULTS = [("word %d" % place, WORDS, place) for place in range(CALLED.words)] + [("qual", QUALS, 0), ("gq", GQS, 0)]
BY_MODEL = Request.answer

LOADER = importlib.machinery.SourceFileLoader("compare", str(PATH))
compare = importlib.util.module_from_spec(importlib.util.spec_from_loader("compare", LOADER))
LOADER.exec_module(compare)
compare.SHOWN = 0


def by_model(requests):
    """The model without a fault."""
    return [BY_MODEL(request) for request in requests]


def raised(answer, line, place):
    """The answer with one element one more; a pattern so becomes that of the next number."""
    lines = [text.split() for text in answer.split("\n")]
    if place < len(lines[line]):
        lines[line][place] = str(int(lines[line][place]) + 1)
    return "\n".join(" ".join(words) for words in lines)


def voting(fragment):
    """The fragment with a vote."""
    return Fragment(fragment.strand % 2, fragment.calls, fragment.present)


def dropped(fragment):
    """The fragment without its calls, if it is muted."""
    return Fragment(fragment.strand, fragment.calls if fragment.votes() else [], fragment.present)


MUTED_FAULTS = [("muted reads vote", voting, ["nohap", "run", "flist"]), ("muted calls count nowhere", dropped, ["nohap"])]


def with_fragments(request, change):
    """The request on its case with each fragment changed."""
    case = check(request.words, request.bases)
    data = encode(Case(case.variants, [change(x) for x in case.fragments], case.cutoff))
    return Request(request.word, *data, request.parts, request.rooms)


def noticed(right, wrong, words=("nohap",)):
    """Of COUNT cases, how many answers of these operations there are, how many wrong ones are not the right ones, and how
    many the comparison counts."""
    changed = 0

    def tested(requests):
        nonlocal changed
        answers = wrong(requests)
        changed += sum(a != b for a, b in zip(answers, right(requests)))
        return answers

    comparison = compare.Comparison(tested)
    compare.accepted(comparison, random.Random(SEED), words, COUNT, False)
    return sum(comparison.compared.values()), changed, comparison.different


def in_both(right, wrong, words=("nohap",)):
    """The same, where the model has the fault too; `wrong` makes wrong answers of right ones."""
    Request.answer = lambda request: wrong(by_model)([request])[0]
    try:
        return noticed(right, wrong(right), words)
    finally:
        Request.answer = BY_MODEL


def raising(line, place):
    """The fault that raises one element of an answer."""
    return lambda right: lambda requests: [raised(answer, line, place) for answer in right(requests)]


def muting(change):
    """The fault that takes each fragment for a changed one."""
    return lambda right: lambda requests: right([with_fragments(request, change) for request in requests])


def with_longshots(right):
    """The right answers with longshot's slice where the comparison leaves it out."""
    def wrong(requests):
        at = 1 + LEFT_OUT["nohap"]
        both = [(a.split("\n"), b.split("\n")) for a, b in zip(right(requests), ask(compare.ORACLE, requests))]
        return ["\n".join(a[:at] + b[at:at + 1] + a[at + 1:]) for a, b in both]
    return wrong


class Result:
    """A test: its name, how many answers there were, changed and differ, and how many should differ."""

    def __init__(self, name, counts, wanted=None):
        self.name, (self.all, self.changed, self.different) = name, counts
        self.wanted = self.changed if wanted is None else wanted

    def good(self):
        return self.different == self.wanted and (self.changed > 0) == (self.name != "no fault")

    def text(self):
        return "%s: %d of %d answers changed, %d differ%s" % (
            self.name, self.changed, self.all, self.different, "" if self.good() else ": FAILED")


def results(right):
    yield Result("no fault", noticed(right, right))
    for name, line, place in FAULTS:
        yield Result(name, noticed(right, raising(line, place)(right)))
        yield Result(name + ", in the model too", in_both(right, raising(line, place)), 0 if line == GQS else None)
    for name, change, words in MUTED_FAULTS:
        yield Result(name, noticed(right, muting(change)(right), words))
        yield Result(name + ", in the model too", in_both(right, muting(change), words))
    yield Result("longshot's gq", noticed(right, with_longshots(right)))


def main():
    options = argparse.ArgumentParser(description=__doc__, formatter_class=argparse.RawDescriptionHelpFormatter)
    options.add_argument("--model", action="store_true")
    given = options.parse_args()
    compare.need_built([compare.ORACLE] if given.model else [compare.ORACLE, compare.PROGRAM])
    right = by_model if given.model else compare.by_program
    passed, failed = 0, 0
    for result in results(right):
        passed, failed = passed + result.good(), failed + (not result.good())
        print(result.text())
    print("%d passed, %d failed" % (passed, failed))
    raise SystemExit(failed > 0)


if __name__ == "__main__":
    main()
