#!/usr/bin/env python3
"""Writes the recorded requests of the program and the answers that documents 01 and 02 give to them.

Run at the repository's root, after oracle/build: python3 tools/record.py
It writes crates/condorbed/stdin and crates/condorbed/stdout. Accepted requests of the operations that longshot has, and
arrivals and departures on fresh values, are answered by the oracle, longshot's own code; refusals, `check`, `orders` and
gq of `nohap`, which longshot defines in another way, by tools/model.py, which is written from the documents. The model
answers the others too, and a difference between the two ends this script without a list.
A change of the layout is a change of tools/layout.py and a new run of this script.
"""
import itertools
import random
import sys

from cases import RATES, Standing, Trial, fresh, muted, random_case, random_records, tangled
from layout import (ABSENT, ARRIVING, CALL, COUNTED, FRAGMENT, HEAD, LOWEST, LOWEST_LENT, MAX_ALLELES, MAX_CALLS, MAX_COUNT,
                    MAX_FRAGMENTS, MAX_LENGTH, MAX_VARIANTS, MUTED_FORWARD, MUTED_REVERSE, PAIR, STRANDS, VARIANT, Layout,
                    needs)
from model import Call, Case, Fragment, Variant, check, encode, start_haplotypes
from protocol import LATE, LatePart, Request, ask_oracle

HEADER = """# Written by tools/record.py: %d requests and one that cannot be read. The answers in the file stdout are
# longshot's own for %d of them (oracle/build compiles its files with the steps of document 01), those of tools/model.py
# for refusals, check, orders, arrivals and departures on values that are not fresh, and gq of nohap (request 4).
"""

# The request that cannot be read, up to the number that does not fit its type and from it on; it is the fifth token.
UNREADABLE = ("# an integer that does not fit its type ends the program\ncheck 6 0 0\n  # a comment is no token\n  ",
              "2147483648 0 0 0 0\ncheck 6 0 0 0 0 0 0 0\n")


class Record:
    """The requests with their notes, in order."""

    def __init__(self):
        self.entries = []

    def note(self, text):
        self.entries.append("# %s\n" % text)

    def add(self, word, words, bases, parts=(), rooms=()):
        self.entries.append(Request(word, words, bases, parts, rooms))

    def check(self, words, bases):
        self.add("check", words, bases)

    def filter(self, words, bases, quals, density_qual, dist, count, max_depth, room):
        self.add("filter", words, bases, (quals, density_qual, dist, count, max_depth), [room])

    def priors(self, words, bases, rates, rooms):
        self.add("priors", words, bases, [rates], rooms)

    def nohap(self, words, bases, rates, rooms):
        self.add("nohap", words, bases, [rates], rooms)

    def phase(self, words, bases, phase, sets, rooms):
        self.add("phase", words, bases, (phase, sets), rooms)

    def run(self, words, bases, rates, phase, sets, orders, limit, rooms):
        self.add("run", words, bases, (rates, phase, sets, orders, limit), rooms)

    def flist(self, words, bases, single_reads, room):
        self.add("flist", words, bases, [single_reads], [room])

    def orders(self, words, bases, seed, room):
        self.add("orders", words, bases, [seed], [room])


def sample():
    """Four variants (a single base, three alleles, an indel, one allele) and five fragments."""
    variants = [
        Variant(10, 30, (0, 1), ["A", "G"]),
        Variant(10, 0, (2, 0), ["C", "T", "CTT"]),
        Variant(25, 7, (1, 1), ["ACG", "A"]),
        Variant(90, 2147483647, (0, 0), ["T"]),
    ]
    fragments = [
        Fragment(0, [Call(0, 1, -5796, -1700), Call(1, 2, -9000, -40), Call(3, 0, -2000, -1)]),
        Fragment(1, [Call(1, 0, LOWEST, 0)]),
        Fragment(0, []),
        Fragment(1, [Call(0, 0, 0, LOWEST), Call(2, 1, -2001, -3)]),
        Fragment(0, [Call(2, 0, -13607, -12), Call(3, 0, -13607, -12)]),
    ]
    return Case(variants, fragments, -2000)


# The words and bases of a case of nothing.
NOTHING = HEAD.make(), []


def with_word(words, i, value):
    return words[:i] + [value] + words[i + 1:]


def rooms(word, n, f=0, more=()):
    """What a request needs in each output slice, by n variants and f fragments, and so much more."""
    return [need + extra for need, extra in itertools.zip_longest(needs(word, n, f), more, fillvalue=0)]


def heads(rec):
    rec.note("number 1: fewer than six words, each word out of its range, the length")
    words, bases = encode(sample())
    for short in range(HEAD.words):
        rec.check(words[:short], bases)
    ranges = [(HEAD.n, 0, MAX_VARIANTS), (HEAD.f, 0, MAX_FRAGMENTS), (HEAD.c, 0, MAX_CALLS), (HEAD.cutoff, LOWEST, 0),
              (HEAD.used, 0, words[HEAD.c]), (HEAD.free, 0, words[HEAD.used])]
    for field, low, high in ranges:
        for value in (low - 1, high + 1):
            rec.check(with_word(words, field, value), bases)
    rec.check(words[:-1], bases)
    rec.check(words + [0], bases)
    rec.check(with_word(words, HEAD.used, 9) + [0], bases)
    rec.check(with_word(words, HEAD.free, 9) + [0], bases)
    rec.check(changed_words(words, [(HEAD.used, 9), (HEAD.free, -1)]), bases)
    rec.check(HEAD.make(n=MAX_VARIANTS + 1, f=-1, cutoff=1), [])
    rec.check(HEAD.make(c=-1, cutoff=1, used=7), [])
    rec.check(HEAD.make(used=1), [])
    rec.check(HEAD.make(cutoff=LOWEST), [])
    rec.check(*NOTHING)


def variants(rec):
    rec.note("number 2: each field of a variant record out of its range; the later one's place where a position falls")
    words, bases = encode(sample())
    at = Layout.of(words)
    pos0, dp, k, first, second = VARIANT.pos0, VARIANT.dp, VARIANT.k, VARIANT.genotype, VARIANT.genotype + 1
    length = [VARIANT.lengths + j for j in range(MAX_ALLELES)]
    faults = [(0, pos0, -1), (2, pos0, 9), (3, pos0, 24), (1, dp, -1), (0, first, -1), (0, first, 2), (1, second, 3),
              (3, second, 1), (0, k, 0), (1, k, MAX_ALLELES + 1), (2, k, -1), (0, length[0], 0),
              (1, length[2], MAX_LENGTH + 1), (2, length[2], 1), (3, length[1], -1), (0, length[2], 2147483647),
              (1, pos0, -2147483648)]
    for v, field, value in faults:
        rec.check(with_word(words, at.variant(v) + field, value), bases)
    rec.check(with_word(with_word(words, at.variant(3) + dp, -1), at.variant(1) + second, 9), bases)


def alleles(rec):
    rec.note("number 3: the length before any byte, then the first variant with a byte other than A, C, G, T")
    words, bases = encode(sample())
    rec.check(words, bases[:-1])
    rec.check(words, bases + [65])
    rec.check(words, [])
    for place, byte in [(0, 97), (2, 0), (len(bases) - 1, 78), (7, 255)]:
        rec.check(words, with_word(bases, place, byte))
    rec.check(words, with_word(bases, 0, 1) + [65])
    rec.check(words, with_word(with_word(bases, 8, 1), 3, 1))


def calls(rec):
    rec.note("number 4: the record's number, from 1; a record that no fragment reaches is none of them")
    words, bases = encode(sample())
    at = Layout.of(words)
    variant, allele, qual, one_minus_qual = CALL.variant, CALL.allele, CALL.qual, CALL.one_minus_qual
    faults = [(1, variant, -1), (8, variant, 4), (1, allele, 2), (2, allele, 3), (3, allele, -1), (4, qual, LOWEST - 1),
              (5, qual, 1), (6, one_minus_qual, LOWEST - 1), (8, one_minus_qual, 1)]
    for r, field, value in faults:
        rec.check(with_word(words, at.call(r) + field, value), bases)
    rec.check(HEAD.make(f=1, c=1, used=1) + FRAGMENT.make(first=1) + CALL.make(), [])
    rec.check(HEAD.make(c=1, used=1) + CALL.make(), [])


def chains(rec):
    rec.note("number 5: the fragment, the later one where a record is shared; F where a record is in no chain")
    words, bases = encode(sample())
    at = Layout.of(words)
    first, strand = FRAGMENT.first, FRAGMENT.strand
    faults = [(0, first, ABSENT), (0, first, -2), (1, first, 9), (2, first, 1), (2, first, 2), (1, strand, 4),
              (4, strand, -1), (2, first, -2147483648)]
    for f, field, value in faults:
        rec.check(with_word(words, at.fragment(f) + field, value), bases)
    for r, value in [(1, 1), (2, 1), (4, 5), (3, 9), (8, -1), (7, 7), (6, 7), (5, 8), (1, 3)]:
        rec.check(with_word(words, at.call(r) + CALL.next, value), bases)
    rec.check(with_word(words, at.call(2) + CALL.variant, 0), bases)
    rec.check(with_word(words, at.fragment(3) + first, 6), bases)
    rec.check(with_word(words, at.fragment(4) + first, 0), bases)
    rec.check(HEAD.make(n=1, c=1, used=1) + VARIANT.make(k=1, lengths=[1]) + CALL.make(), [65])
    shared = with_word(with_word(words, at.fragment(1) + first, 1), at.fragment(0) + strand, 5)
    rec.check(shared, bases)


# Words that no accepted call record has.
NO_RECORD = CALL.make(variant=-1, allele=99, qual=7, one_minus_qual=LOWEST - 1, next=-5)


def changed_words(words, changes):
    """The words with each change: a place and its value."""
    for place, value in changes:
        words = with_word(words, place, value)
    return words


def idle_records(rec):
    rec.note("absent fragments, a free chain and an unused tail: nothing looks at their records, but for next")
    case = sample()
    case.fragments[1:2] = [Fragment(1, [], False)]
    case.fragments.append(Fragment(0, [], False))
    idle = {r: NO_RECORD for r in (2, 7, 10, 11)}
    words, bases = encode(case, idle=idle, used=9, free=[7, 2])
    at, first, strand = Layout.of(words), FRAGMENT.first, FRAGMENT.strand
    rec.check(words, bases)
    rec.check(with_word(words, at.fragment(1) + strand, 4), bases)
    rec.check(with_word(words, at.fragment(5) + strand, -1), bases)
    rec.check(with_word(words, HEAD.used, 8), bases)
    rec.note("a chain into the tail: 5 at its fragment; to a free record: 4 there")
    for f, r in [(5, 10), (5, 11), (5, 12), (2, 10), (5, 2), (5, 7)]:
        rec.check(with_word(words, at.fragment(f) + first, r), bases)
    for r, following in [(9, 10), (4, 10), (4, 7), (1, 2), (3, 12)]:
        rec.check(with_word(words, at.call(r) + CALL.next, following), bases)


def freed_sample():
    """Two variants; read 0 in the records 6 and 3, read 1 absent, read 2 in the record 1; free 5, 2 and 4; 7 unused."""
    variants = [Variant(10, 30, (0, 1), ["A", "G"]), Variant(25, 7, (1, 1), ["C", "T"])]
    fragments = [Fragment(0, [Call(0, 1, -5796, -1700), Call(1, 0, -9000, -40)]), Fragment(1, [], False),
                 Fragment(1, [Call(0, 0, -2001, -3)])]
    idle = {r: NO_RECORD for r in (2, 4, 5, 7)}
    return encode(Case(variants, fragments, -2000), [6, 3, 1], idle, 6, [5, 2, 4])


def free_chains(rec):
    words, bases = freed_sample()
    at = Layout.of(words)
    after = lambda r: at.call(r) + CALL.next
    fits = [(at.call(4) + i, x) for i, x in enumerate(ARRIVING.make(variant=1))]
    rec.note("the free chain: 1 where it starts in the tail; what it has twice, shares or leaves out is 5, place F; a next of "
             "it out of range too")
    rec.check(words, bases)
    for changes in (
            [(HEAD.free, 7)], [(HEAD.free, 0)], [(HEAD.free, 3)], [(after(4), 1)], [(after(4), 5)], [(after(4), 4)],
            [(after(2), 0)], [(after(4), 7)], [(after(4), -1)], [(after(5), -2147483648)], [(HEAD.used, 7)]):
        rec.check(changed_words(words, changes), bases)
    rec.note("a fragment runs into it: 4 where the words are wrong, place F where they fit; a chain that cycles")
    for changes in (
            [(at.fragment(1), 4)], [(at.fragment(1), 4)] + fits, [(after(1), 4)] + fits, [(after(3), 4)] + fits,
            [(after(1), 5)], [(after(3), 6)]):
        rec.check(changed_words(words, changes), bases)
    rec.note("4, then 5 at a fragment, then place F")
    faults = [(at.call(3) + CALL.allele, 2), (at.fragment(2) + FRAGMENT.strand, 4), (after(4), 5)]
    for i in range(2):
        rec.check(changed_words(words, faults[i:]), bases)
    rec.note("all records free, in order and in another one; the last next leads back to the first")
    idle = {r: NO_RECORD for r in (1, 2, 3)}
    for free in ([1, 2, 3], [3, 1, 2]):
        words, _ = encode(Case([], [], 0), idle=idle, free=free)
        rec.check(words, [])
    rec.check(with_word(words, Layout.of(words).call(2) + CALL.next, 3), [])


def past_faults(rec):
    rec.note("number 4 along every chain, past any 5: behind a bad strand, a link back, variants that do not rise")
    words, bases = encode(sample(), idle={9: NO_RECORD, 10: NO_RECORD}, used=9)
    at, strand = Layout.of(words), FRAGMENT.strand
    after, bad = lambda r: at.call(r) + CALL.next, lambda r: (at.call(r) + CALL.qual, 1)
    for changes in (
            [bad(2), (at.fragment(0) + strand, 7)], [bad(3), (at.call(1) + CALL.variant, 1)],
            [bad(1), (after(4), 1), (at.fragment(0), 0)], [bad(7), (after(8), 7), (at.fragment(4), 8)],
            [(after(8), 7)], [(after(3), 1)], [bad(3), (after(3), 1)], [(after(4), 9)], [(after(8), 10)],
            [bad(8), (after(5), 8), bad(6)], [bad(8), (after(6), 9)], [bad(6), (after(5), -2)], [bad(6), (after(5), 10)],
            [bad(6), (after(5), 0)], [bad(4), (at.fragment(1), ABSENT)], [bad(4), (at.fragment(1), -2)],
            [bad(4), (at.fragment(1), 4), (at.fragment(0), 4)]):
        rec.check(changed_words(words, changes), bases)


def order_of_numbers(rec):
    rec.note("several faults at once: the lower number first")
    words, bases = encode(sample())
    at = Layout.of(words)
    bad = with_word(words, at.call(5) + CALL.next, 1)
    rec.check(bad, bases)
    bad = with_word(bad, at.call(8) + CALL.qual, 5)
    rec.check(bad, bases)
    rec.check(bad, with_word(bases, 9, 65 + 32))
    bad = with_word(bad, at.variant(3) + VARIANT.pos0, 1)
    rec.check(bad, with_word(bases, 0, 97))
    rec.check(with_word(bad, HEAD.cutoff, 5), bases)


def accepted(rec):
    rec.note("accepted: the sample, other numberings of its records, the ends of every range")
    words, bases = encode(sample())
    rec.check(words, bases)
    rec.check(*encode(sample(), [2, 5, 8, 1, 3, 4, 6, 7]))
    rec.check(*encode(sample(), [8, 2, 5, 7, 4, 1, 6, 3]))
    rec.check(*encode(Case([], [Fragment(1, [], False)], 0), idle={1: NO_RECORD}, used=0))
    wide = Case([Variant(0, 0, (0, 0), [base * MAX_LENGTH for base in "ACG"]),
                 Variant(2147483647, 2147483647, (2, 2), ["A", "A", "A"])],
                [Fragment(1, [Call(0, 2, LOWEST, LOWEST), Call(1, 2, 0, 0)])], LOWEST)
    rec.check(*encode(wide))


def spread(positions, depths=None):
    depths = depths or [0] * len(positions)
    return Case([Variant(p, d, (0, 1), ["A", "C"]) for p, d in zip(positions, depths)], [], 0)


def filters(rec):
    rec.note("var_filter: density_count 2, three in reach mark none, four mark all")
    nan, inf = float("nan"), float("inf")
    big = 4294967295
    three, four = encode(spread([5, 6, 7])), encode(spread([5, 6, 7, 8]))
    rec.filter(*three, [50.0] * 3, 20.0, 10, 2, 100, 3)
    rec.filter(*four, [50.0] * 4, 20.0, 10, 2, 100, 4)
    rec.note("the edge of the reach, weak ones between, equality with density_qual, overlapping stretches")
    rec.filter(*four, [50.0] * 4, 20.0, 3, 2, 100, 4)
    rec.filter(*four, [50.0] * 4, 20.0, 2, 2, 100, 4)
    seven = encode(spread([5, 6, 7, 8, 9, 10, 30], [0, 5, 6, 7, 0, 0, 9]))
    rec.filter(*seven, [50.0, 1.0, 50.0, 1.0, 50.0, 50.0, 50.0], 50.0, 5, 2, 6, 7)
    rec.filter(*seven, [50.0, 1.0, 50.0, 1.0, 50.0, 50.0, 50.0], 50.0, 5, 3, 5, 9)
    rec.filter(*seven, [1.0, 50.0, 50.0, 50.0, 1.0, 50.0, 50.0], 49.5, 2, 1, 0, 7)
    rec.filter(*seven, [50.0] * 7, 50.0, 0, 0, big, 7)
    rec.filter(*encode(spread([4, 4, 4])), [1.0] * 3, 1.0, 0, 1, 0, 3)
    rec.note("NaN and infinite qualities are not below; limits are any u32; the case's dp counts for depth")
    rec.filter(*four, [nan, inf, -inf, nan], 20.0, 10, 1, 100, 4)
    far = encode(spread([0, 2147483646, 2147483647], [2147483647, 0, 1]))
    rec.filter(*far, [0.0] * 3, -1.0, big, 1, 2147483646, 3)
    rec.filter(*far, [0.0] * 3, -1.0, 2147483648, big, 2147483648, 3)
    rec.note("N = 0; longer slices; numbers 10 and 11 and their order")
    rec.filter(*NOTHING, [], 0.0, 0, 0, 0, 0)
    rec.filter(*NOTHING, [1.0], 0.0, 0, 0, 0, 2)
    rec.filter(*four, [50.0] * 6, 20.0, 10, 2, 100, 9)
    rec.filter(*four, [50.0] * 3, 20.0, 10, 2, 100, 4)
    rec.filter(*four, [50.0] * 4, 20.0, 10, 2, 100, 3)
    rec.filter(*four, [], inf, 10, 2, 100, 0)
    for odd in (nan, inf, -inf):
        rec.filter(*four, [50.0] * 4, odd, 10, 2, 100, 4)
    words, bases = four
    rec.filter(words[:-1], bases, [], nan, 0, 0, 0, 2)


def damaged(rec, rng, count):
    rec.note("random small cases, whole and damaged")
    for i in range(count):
        case = random_case(rng)
        words, bases = encode(case, **random_records(rng, case))
        for _ in range(i % 3):
            if words and rng.random() < 0.9:
                at = rng.randrange(len(words))
                near = [x for x in (words[at] + 1, words[at] - 1) if abs(x) < 2**31]
                values = near + [0, 1, -1, 2, MAX_ALLELES, MAX_LENGTH + 1, LOWEST - 1]
                words = with_word(words, at, rng.choice(values))
            elif bases:
                bases = with_word(bases, rng.randrange(len(bases)), rng.randrange(256))
        rec.check(words, bases)


def random_filters(rec, rng, count):
    rec.note("random filters")
    for _ in range(count):
        case = random_case(rng, 14)
        n = len(case.variants)
        quals = [rng.choice([1.0, 19.5, 20.0, 20.5, 500.0]) for _ in range(n)]
        rec.filter(*encode(case), quals, 20.0, rng.randrange(12), rng.randrange(4), rng.choice([0, 2, 3, 8]),
                   n + rng.randrange(2))


def alone(alleles, genotype=(0, 0), reads=(), cutoff=-2000):
    """One variant, and reads of one call each: (allele, qual, one_minus_qual, strand)."""
    return Case([Variant(7, 3, genotype, alleles)], [Fragment(s, [Call(0, a, q, o)]) for a, q, o, s in reads], cutoff)


def priors(rec, rng):
    rec.note("priors: sample (g); AC/AG and AC/CA; A/A; one allele of two bases; indels; then refusals 6 and 10")
    for alleles in (["A", "G"], ["AC", "AG"], ["AC", "CA"], ["A", "A"], ["AC"], ["C", "CA", "T"], ["GTT", "G", "GTTT"],
                    ["ACGT", "ACGA", "ACCT"], ["A", "C", "T"], ["G", "A", "GA"], ["CT", "C", "CG"], ["TT", "TA", "AT"]):
        rec.priors(*encode(alone(alleles)), RATES, rooms("priors", 1))
    words, bases = encode(sample())
    full = rooms("priors", 4)
    rec.priors(words, bases, [-90000, -60000, -120001, -70001, -1000, -7777], rooms("priors", 4, more=[4]))
    for i in range(6):
        for bad in (0, LOWEST - 1, 5):
            rec.priors(words, bases, RATES[:i] + [bad] + RATES[i + 1:], full)
    for first in ([-8192] * 4, [-8193] * 4, [-1] * 4, [-4096, -4097, LOWEST, LOWEST], [-4096, -4096, LOWEST, LOWEST]):
        rec.priors(words, bases, first + [-1, LOWEST], full)
    rec.priors(words, bases, RATES, rooms("priors", 4, more=[-1]))
    rec.priors(words, bases, [0] * 6, [0])
    rec.priors(*NOTHING, RATES, [0])
    rec.priors(words[:-1], bases, [0] * 6, [0])
    for _ in range(25):
        case = random_case(rng)
        rates = [-rng.randint(20000, -LOWEST) for _ in range(4)] + [-rng.randint(1, -LOWEST) for _ in range(2)]
        rec.priors(*encode(case), rates, rooms("priors", len(case.variants)))


# A variant's alleles, those that its reads show equally often, the most reads of each before gq by longshot's rule, in steps,
# jumps to 500.0, and the reads' qualities.
JUMPS = [(["A", "G"], [1], 31, (-5796, -1700)), (["A", "G"], [0, 1], 21, (-13607, -622)),
         (["A", "C", "T"], [1, 2], 22, (-13607, -622))]


def nohap(rec, rng):
    rec.note("nohap: one allele (qual 0.0, gq 500.0), ties, strands, equality at the cutoff, refusals")
    match, miss = -1700, -5796
    one = rooms("nohap", 1)
    rec.nohap(*encode(alone(["A"])), RATES, one)
    rec.nohap(*encode(alone(["A", "G"], (0, 1), [(1, miss, match, 0)])), RATES, one)
    both = [(1, miss, match, s % 2) for s in range(30)] + [(0, miss, match, 1)] * 30
    rec.nohap(*encode(alone(["A", "G"], (0, 1), both)), RATES, rooms("nohap", 1, more=(1, 1, 2)))
    edge = [(1, -2000, match, 0), (1, -2001, match, 1), (0, 0, -9, 0)]
    rec.nohap(*encode(alone(["A", "G"], (0, 0), edge)), RATES, one)
    rec.nohap(*encode(alone(["A", "A", "A"], (0, 0), [(2, LOWEST, 0, 0)] * 9)), RATES, one)
    words, bases = encode(sample())
    for more in ((0, 0, 0), (-1, 0, 0), (0, -1, 0), (0, 0, -1)):
        rec.nohap(words, bases, RATES, rooms("nohap", 4, more=more))
    rec.nohap(words, bases, RATES, (0, 0, 0))
    rec.nohap(words, bases, RATES[:5] + [0], (0, 0, 0))
    rec.nohap(*NOTHING, RATES, (1, 1, 0))
    rec.note("nohap: three variants, each twice: by longshot's rule, in steps, gq is 34.7 the first time, and 500.0 with one "
             "read more of each allele shown (docs/DIFFERENCES.md)")
    for alleles, shown, most, (miss, match) in JUMPS:
        for count in (most, most + 1):
            rec.nohap(*encode(alone(alleles, (0, 1), [(a, miss, match, 0) for a in shown] * count)), RATES, one)
    for _ in range(25):
        case = random_case(rng)
        n = len(case.variants)
        rates = [-rng.randint(20000, -LOWEST) for _ in range(4)] + [-rng.randrange(1, 30000) for _ in range(2)]
        rec.nohap(*encode(case, **random_records(rng, case)), rates, rooms("nohap", n))


def phase(rec, rng):
    rec.note("phase: each byte orders every variant; names over all variants of a set; refusals 7 and 10")
    words, bases = encode(sample())
    full = rooms("phase", 4)
    rec.phase(words, bases, [48, 49, 48, 49], [0, 0, 1, 1], full)
    rec.phase(words, bases, [49, 48, 45, 0], [3, 3, 3, -1], rooms("phase", 4, more=(1, 1, 2)))
    rec.phase(words, bases, [45, 49, 49, 48], [2, 2, -2147483648, 0], full)
    two = encode(Case([Variant(3, 0, (1, 0), ["A", "C"]), Variant(9, 0, (2, 1), ["A", "C", "GG"]),
                       Variant(9, 0, (0, 1), ["A", "CC"])], [], 0))
    for byte in (48, 49, 50):
        rec.phase(*two, [byte] * 3, [2, 1, 2], rooms("phase", 3))
    rec.phase(words, bases, [48] * 3, [0] * 4, full)
    rec.phase(words, bases, [48] * 4, [0] * 5, full)
    rec.phase(words, bases, [48] * 4, [0, 4, 9, 0], full)
    for more in ((-1, 0, 0), (-1, -1, 0), (0, 0, -1)):
        rec.phase(words, bases, [48] * 4, [0, 1, 2, 3], rooms("phase", 4, more=more))
    rec.phase(*NOTHING, [], [], (0, 1, 2))
    for _ in range(25):
        case = random_case(rng)
        n = len(case.variants)
        phase, sets = [rng.choice([48, 49, 45]) for _ in range(n)], [rng.randrange(-1, n) for _ in range(n)]
        rec.phase(*encode(case), phase, sets, rooms("phase", n))


def flist(rec, rng):
    rec.note("flist: the sample of document 01, blocks, skipped fragments, reverse strands, refusal 10")
    snv = [Variant(i, 0, (0, 1), ["A", "G", "CC"]) for i in range(12)]
    line = Case(snv, [Fragment(0, [Call(0, 1, -13607, 0), Call(1, 0, -13607, 0), Call(3, 1, -13607, 0)])], -2000)
    rec.flist(*encode(line), 0, 19)
    rec.flist(*encode(line), 0, 24)
    rec.flist(*encode(line), 1, 18)
    many = Case(snv, [Fragment(1, [Call(9, 2, LOWEST, 0)]), Fragment(0, []),
                      Fragment(1, [Call(8, 1, -2001, 0), Call(9, 2, -2000, 0), Call(10, 0, -5000, 0)]),
                      Fragment(0, [Call(v, v % 3, -2001 - 1361 * v, 0) for v in range(12)])], -2000)
    for single in (0, 1):
        rec.flist(*encode(many), single, 120)
    rec.flist(*encode(sample()), 1, 60)
    rec.flist(*NOTHING, 0, 0)
    for _ in range(25):
        case = random_case(rng)
        rec.flist(*encode(case, **random_records(rng, case)), rng.randrange(2), 200)


def orders(rec, rng):
    rec.note("orders: seed 0 and others, several orders, refusal 8")
    words, bases = encode(sample())
    rec.orders(words, bases, 0, 12)
    rec.orders(words, bases, 18446744073709551615, 4)
    for room in (0, 3, 5, 13):
        rec.orders(words, bases, 1, room)
    rec.orders(*NOTHING, 5, 0)
    rec.orders(*NOTHING, 5, 1)
    for n in (1, 2, 3, 17):
        rec.orders(*encode(spread(list(range(n)))), rng.randrange(2**64), 3 * n)


def sample_runs(rec):
    rec.note("run: samples (h) to (k); one more than the limit needs, and exactly as many")
    read = {a: (a, -5796, -1700, 0) for a in (0, 1)}
    snv = ["A", "G"]
    one = encode(alone(snv, (0, 1), [read[1]]))
    for limit in (10, 2, 1):
        rec.run(*one, RATES, [48], [0], [0], limit, rooms("run", 1, 1))
    for count in (112, 113):
        for byte in (48, 49):
            both = alone(snv, (0, 1), [read[0]] * count + [read[1]] * count)
            rec.run(*encode(both), RATES, [byte], [0], [0], 1000000, rooms("run", 1, 2 * count))
    rec.run(*NOTHING, RATES, [], [], [], 1, rooms("run", 0))
    unread = encode(Case([], [Fragment(0, []), Fragment(1, [])], 0))
    rec.run(*unread, RATES, [], [], [], 3, rooms("run", 0, 2, more=(1, 1, 2, 1, 1)))


def refused_runs(rec):
    rec.note("run: refusals 6 to 10, alone and together")
    words, bases = encode(sample())
    full = rooms("run", 4, 5)
    order = [0, 1, 2, 3]
    good = [words, bases, RATES, [48, 49, 48, 49], [0, 0, 1, 1], order, 5, full]
    rec.run(*good)

    def changed(parts, i, value):
        return parts[:i] + [value] + parts[i + 1:]

    for limit in (0, 1000001, 4294967295, 1, 2):
        rec.run(*changed(good, 6, limit))
    for bad in ([], [0, 1, 2], [0, 1, 2, 3, 0], [0, 1, 2, 2], order + [3, 2, 1, 4], order + order + [1, 0, 3, 3]):
        rec.run(*changed(good, 5, bad))
    rec.run(*changed(good, 3, [48] * 3))
    rec.run(*changed(good, 4, [0, 0, 4, 1]))
    rec.run(*changed(good, 2, RATES[:3] + [0] + RATES[4:]))
    for i, room in enumerate(full):
        rec.run(*changed(good, 7, changed(full, i, room - 1)))
    rec.run(*NOTHING, RATES, [], [], [0], 1, rooms("run", 0))
    bad = changed(good, 7, [full[0] - 1, full[1] - 1, 0, full[3] - 1, full[4]])
    for i, value in ((6, 0), (5, [0, 0, 1, 2]), (4, [0, 9, 0, 0]), (2, [0] * 6), (1, bases[1:])):
        rec.run(*bad)
        bad = changed(bad, i, value)
    rec.run(*bad)


def random_runs(rec, rng):
    rec.note("random small runs: ties, unphased mixes, several orders, short limits")
    for _ in range(60):
        case = random_case(rng, 7)
        n, f = len(case.variants), len(case.fragments)
        if rng.random() < 0.5:
            for x in case.fragments:
                for c in x.calls:
                    c.qual, c.one_minus_qual = rng.choice([(-5796, -1700), (-5796, -1700), (-4096, -4096)])
        m = rng.randint(1, 3)
        lists = [v for _ in range(m) for v in rng.sample(range(n), n)] if n else []
        phase, sets = [rng.choice([48, 49, 45]) for _ in range(n)], [rng.randrange(-1, n) for _ in range(n)]
        data, limit = encode(case, **random_records(rng, case)), rng.choice([1, 2, 50])
        rec.run(*data, RATES, phase, sets, lists, limit, rooms("run", n, f, more=[rng.randrange(2)]))
    rec.note("reads that disagree: several sweeps, the later ones by other orders, settled and not")
    for _ in range(25):
        rec.entries += tangled(rng).requests(["run"])


def runs(rec, rng):
    sample_runs(rec)
    refused_runs(rec)
    random_runs(rec, rng)


# ---- Arrivals and departures.

LATE_PHASE = [48, 49, 48, 49]


def late_sample(unused=7):
    """The variants of the sample; fragments 1 and 4 absent, 2 without calls; the records 4 and 1 free, so many unused."""
    variants = sample().variants
    variants[1] = Variant(10, 0, (2, 0), ["C", "T", "G"])
    fragments = [
        Fragment(0, [Call(0, 1, -5796, -1700), Call(1, 2, -9000, -40), Call(3, 0, -2000, -1)]),
        Fragment(1, [], False),
        Fragment(0, []),
        Fragment(1, [Call(0, 0, -9000, -40), Call(2, 1, -2001, -3)]),
        Fragment(1, [], False),
    ]
    idle = {r: NO_RECORD for r in [1, 4] + list(range(8, 8 + unused))}
    return encode(Case(variants, fragments, -2000), idle=idle, used=7, free=[4, 1])


def late_standing(extra=0, unused=7):
    words, bases = late_sample(unused)
    haplotypes = start_haplotypes(check(words, bases), LATE_PHASE)
    return fresh(words, bases, RATES, LATE_PHASE, haplotypes, extra)


# Reads to arrive: three calls with one ambiguous, two, one, none.
LONG = Fragment(0, [Call(0, 0, -5796, -1700), Call(1, 1, -2000, 0), Call(2, 0, LOWEST, LOWEST)])
SHORT = Fragment(1, [Call(0, 1, -9000, -40), Call(1, 0, -2001, 0)])
SINGLE, EMPTY = Fragment(1, [Call(3, 0, -13607, -12)]), Fragment(0, [])


def follow(rec, standing, steps):
    """Records each step on what the last one left; a step makes a request of what stands."""
    for step in steps:
        request = step(standing)
        rec.entries.append(request)
        standing = standing.after(request)
    return standing


def arrival(f, fragment):
    return lambda standing: standing.arrive(f, fragment)


def departure(f):
    return lambda standing: standing.depart(f)


def late_lists(rec, rng):
    rec.note("arrivals and departures from fresh values, each on what the last one left")
    follow(rec, late_standing(), [
        arrival(1, LONG), departure(0), arrival(0, SHORT), departure(1), arrival(1, EMPTY), departure(1), departure(2),
        arrival(4, SINGLE), arrival(2, SINGLE), departure(3), departure(0), departure(4), departure(2)])
    rec.note("little room, over and over: the last free and unused records are taken, one call more is refused, none is not")
    left = follow(rec, late_standing(unused=1), [arrival(1, LONG)])
    rec.entries += [left.arrive(4, SINGLE), left.arrive(4, EMPTY)]
    left = follow(rec, left, [
        departure(3), arrival(3, SHORT), departure(1), arrival(4, SHORT), departure(0), arrival(1, LONG)])
    rec.entries += [left.arrive(0, SHORT), left.arrive(0, SINGLE)]
    rec.note("slices that are longer, with values past their needs that are out of range")
    follow(rec, late_standing(3), [arrival(4, LONG), departure(3), arrival(3, LONG)])
    rec.note("what is left goes through the other operations; absent fragments have likelihoods 0 and 0")
    left = follow(rec, late_standing(), [departure(3), arrival(1, LONG), departure(0)])
    n, f = left.words[HEAD.n], left.words[HEAD.f]
    rec.check(left.words, left.bases)
    rec.nohap(left.words, left.bases, RATES, rooms("nohap", n))
    rec.flist(left.words, left.bases, 1, 60)
    parts = [RATES, LATE_PHASE, [0] * n, list(range(n)), 50]
    rec.run(left.words, left.bases, *parts, rooms("run", n, f))
    after_run(rec, left, parts)
    rec.note("random lists")
    for _ in range(8):
        rec.entries += Trial(rng, random_case(rng, 7)).updates(5) + tangled(rng).updates(5)


def after_run(rec, standing, parts):
    rec.note("from the haplotypes, likelihoods and end total of a run, and the counts as they stand")
    n, f = standing.words[HEAD.n], standing.words[HEAD.f]
    fields, slices = Request("run", standing.words, standing.bases, parts, rooms("run", n, f)).result()
    swept = Standing(standing.words, standing.bases, RATES, LATE_PHASE, slices[0], slices[1], standing.counts, fields[3])
    follow(rec, swept, [arrival(0, SHORT), departure(1), arrival(3, SINGLE), departure(0)])


def late_parts(word):
    """The parts of an accepted request: read 1 arrives, or read 3 departs."""
    standing = late_standing()
    return (standing.arrive(1, LONG) if word == "arrive" else standing.depart(3)).parts


def with_parts(parts, changes):
    """The parts with each change: a part, a place in it (None for all of it) and the value."""
    parts = [list(x) if isinstance(x, list) else x for x in parts]
    for part, place, value in changes:
        if place is None:
            parts[part] = value
        else:
            parts[part][place] = value
    return parts


def refuse(rec, word, *changes, words=None, bases=None):
    data = late_sample()
    rec.add(word, words or data[0], data[1] if bases is None else bases, with_parts(late_parts(word), changes))


def lent_faults(rec):
    rec.note("refusals that arrivals and departures share: 1 to 5, haplotypes under 2, 7, 10")
    words, bases = late_sample()
    at, part = Layout.of(words), late_parts("depart")
    bad = [(HEAD.used, 15), (at.variant(2) + VARIANT.dp, -1), (at.call(7) + CALL.qual, 1),
           (at.fragment(4) + FRAGMENT.strand, 4), (at.call(1) + CALL.next, 4)]
    short = [(i, None, part[i][:-1]) for i in (LatePart.HAPLOTYPES, LatePart.LIKELIHOODS, LatePart.COUNTS)]
    for word in LATE:
        for i in range(len(bad)):
            refuse(rec, word, words=changed_words(words, bad[i:]))
        refuse(rec, word, bases=with_word(bases, 3, 78))
        refuse(rec, word, (LatePart.HAPLOTYPES, 7, 1), words=with_word(words, at.variant(2) + VARIANT.dp, -1))
        refuse(rec, word, (LatePart.HAPLOTYPES, 1, 2), words=with_word(words, at.variant(2) + VARIANT.dp, -1))
        for place, value in [(0, 2), (1, 255), (2, 3), (5, 2), (7, 1)]:
            refuse(rec, word, (LatePart.HAPLOTYPES, place, value))
        refuse(rec, word, (LatePart.HAPLOTYPES, None, part[LatePart.HAPLOTYPES][:2] + [3]), *short[1:])
        refuse(rec, word, (LatePart.PHASE, None, LATE_PHASE[1:]), (LatePart.HAPLOTYPES, None, []))
        refuse(rec, word, (LatePart.PHASE, None, LATE_PHASE + [48]))
        for count in (1, 2, 3):
            for chosen in itertools.combinations(short, count):
                refuse(rec, word, *chosen, (LatePart.TOTAL, None, 1))


def range_faults(rec):
    rec.note("10, place 0: the total, a likelihood or a count as lent; the ends of their ranges are accepted")
    for word in LATE:
        for value in (LOWEST_LENT - 1, 1, -2**63, 2**63 - 1):
            refuse(rec, word, (LatePart.TOTAL, None, value))
            refuse(rec, word, (LatePart.LIKELIHOODS, 2, value))
        for place in (0, 9, 39):
            for value in (-1, MAX_COUNT + 1, 2147483647):
                refuse(rec, word, (LatePart.COUNTS, place, value))
        refuse(rec, word, (LatePart.LIKELIHOODS, 0, LOWEST_LENT), (LatePart.LIKELIHOODS, 3, LOWEST_LENT),
               (LatePart.COUNTS, 2, MAX_COUNT))
    rec.note("10, place 0, of what would be written")
    refuse(rec, "arrive", (LatePart.COUNTS, 0, MAX_COUNT))
    refuse(rec, "arrive", (LatePart.COUNTS, COUNTED.forward, MAX_COUNT))
    refuse(rec, "arrive", (LatePart.COUNTS, COUNTED.words + COUNTED.ambiguous, MAX_COUNT))
    refuse(rec, "arrive", (LatePart.COUNTS, COUNTED.reverse, MAX_COUNT))
    refuse(rec, "arrive", (LatePart.TOTAL, None, LOWEST_LENT))
    refuse(rec, "arrive", (LatePart.TOTAL, None, LOWEST_LENT), (LatePart.CALLS, None, []))
    refuse(rec, "depart", (LatePart.COUNTS, 0, 0))
    refuse(rec, "depart", (LatePart.COUNTS, COUNTED.reverse, 0))
    refuse(rec, "depart", (LatePart.COUNTS, COUNTED.forward, 0))
    refuse(rec, "depart", (LatePart.TOTAL, None, 0))
    refuse(rec, "depart", (LatePart.TOTAL, None, LOWEST_LENT))
    rec.note("a departure takes off what is lent, whatever the calls say")
    lent = [(LatePart.LIKELIHOODS, PAIR * 3, -100000), (LatePart.LIKELIHOODS, PAIR * 3 + 1, -99000)]
    for total in (-200000, -96000, LOWEST_LENT):
        refuse(rec, "depart", *lent, (LatePart.TOTAL, None, total))
    rec.note("what is lent at an absent number is written over")
    refuse(rec, "arrive", (LatePart.LIKELIHOODS, PAIR, -1), (LatePart.LIKELIHOODS, PAIR + 1, LOWEST_LENT))


def arriving_faults(rec):
    rec.note("an arriving call out of range (4), not rising (5, its index); a broken length, a strand (5, whole calls)")
    words = ARRIVING.words
    qual, one_minus_qual, allele = ARRIVING.qual, ARRIVING.one_minus_qual, ARRIVING.allele
    for place, value in [(0, -1), (2 * words, 4), (allele, 2), (words + allele, 3), (2 * words + allele, -1),
                         (qual, LOWEST - 1), (words + qual, 1), (one_minus_qual, 1),
                         (2 * words + one_minus_qual, LOWEST - 1)]:
        refuse(rec, "arrive", (LatePart.CALLS, place, value))
    for place, value in [(words, 0), (2 * words, 1), (2 * words, 0), (0, 1)]:
        refuse(rec, "arrive", (LatePart.CALLS, place, value))
    calls = late_parts("arrive")[LatePart.CALLS]
    for length in (1, 3, 5, 11):
        refuse(rec, "arrive", (LatePart.CALLS, None, calls[:length]))
        refuse(rec, "arrive", (LatePart.CALLS, None, calls[:length]), (LatePart.STRAND, None, 4))
    refuse(rec, "arrive", (LatePart.CALLS, None, calls + [-1]))
    refuse(rec, "arrive", (LatePart.CALLS, None, []), (LatePart.STRAND, None, -1))
    for strand in (-1, 4, 5, 2147483647, -2147483648):
        refuse(rec, "arrive", (LatePart.STRAND, None, strand))
    refuse(rec, "arrive", (LatePart.CALLS, None, calls[:9]), (LatePart.CALLS, words, 0), (LatePart.STRAND, None, 4))
    refuse(rec, "arrive", (LatePart.CALLS, 2 * words + qual, 1), (LatePart.CALLS, words, 0))


def number_faults(rec):
    rec.note("13: the arriving fragment present, the departing one absent, no such fragment; 14: too few records")
    calls = [x for v in range(4) for x in (v, 0, -5796, -1700)]
    for f in (0, 2, 3, 5, 4294967295):
        refuse(rec, "arrive", (LatePart.NUMBER, None, f))
    for f in (1, 4, 5, 4294967295):
        refuse(rec, "depart", (LatePart.NUMBER, None, f))
    for unused in (2, 1, 0):
        refuse(rec, "arrive", (LatePart.CALLS, None, calls), words=late_sample(unused)[0])
    refuse(rec, "arrive", words=late_sample(1)[0])
    refuse(rec, "arrive", (LatePart.CALLS, None, []), words=late_sample(0)[0])
    nothing = [[], [], [], [], 0]
    for number in (0, 1):
        rec.add("arrive", *NOTHING, nothing + [number, 0, []])
        rec.add("depart", *NOTHING, nothing + [number])
    empty = HEAD.make(f=1) + FRAGMENT.make(first=ABSENT)
    rec.add("arrive", empty, [], [[], [], [0, -5], [], LOWEST_LENT, 0, 1, []])
    rec.add("depart", empty, [], [[], [], [0, -5], [], LOWEST_LENT, 0])
    rec.note("several faults at once, in their order: ranges before, 4, 5, 13, 14, ranges after")
    faults = [(LatePart.TOTAL, None, 1), (LatePart.CALLS, 2 * ARRIVING.words + ARRIVING.qual, 1),
              (LatePart.CALLS, ARRIVING.words, 0), (LatePart.STRAND, None, 4), (LatePart.NUMBER, None, 0),
              (LatePart.COUNTS, 0, MAX_COUNT)]
    full = late_sample(0)[0]
    for i in range(len(faults)):
        refuse(rec, "arrive", *faults[i:], words=full)
    refuse(rec, "arrive", words=full)
    refuse(rec, "depart", (LatePart.NUMBER, None, 1), (LatePart.COUNTS, 0, 0), (LatePart.TOTAL, None, 0))
    refuse(rec, "depart", (LatePart.NUMBER, None, 1), (LatePart.COUNTS, 0, -1))


def late(rec, rng):
    late_lists(rec, rng)
    for part in (lent_faults, range_faults, arriving_faults, number_faults):
        part(rec)


# ---- Muted reads, beside their voting twins.


def with_mute(case, numbers):
    """The case with these fragments muted."""
    fragments = [muted(x) if f in numbers else x for f, x in enumerate(case.fragments)]
    return Case(case.variants, fragments, case.cutoff)


def muted_strands(rec):
    rec.note("muted: strands 2 and 3 are accepted, of a read with calls, without, and of an absent one; 4, -1, .. not")
    words, bases = late_sample()
    at, strand = Layout.of(words), FRAGMENT.strand
    for f in (0, 2, 4):
        for value in [*STRANDS, -1, len(STRANDS), 2147483647, -2147483648]:
            rec.check(with_word(words, at.fragment(f) + strand, value), bases)
    rec.note("muted: the ranges of its calls (4), their rising and its chain (5) are checked as ever")
    quiet = with_word(words, at.fragment(0) + strand, MUTED_FORWARD)
    first = quiet[at.fragment(0) + FRAGMENT.first]
    for place, value in [(CALL.qual, 1), (CALL.one_minus_qual, LOWEST - 1), (CALL.allele, 2), (CALL.variant, 1),
                         (CALL.next, 4)]:
        rec.check(with_word(quiet, at.call(first) + place, value), bases)


def quiet_case():
    """Three heterozygous variants; reads 0, 1 and 2 link them in one way, 3 and 4 in another, read 5 has one call. One call
    is at the cutoff."""
    variants = [Variant(10, 0, (0, 1), ["A", "G"]), Variant(20, 4, (0, 1), ["C", "T"]),
                Variant(30, 9, (1, 0), ["G", "A", "T"])]
    alleles = [[1, 1, 1], [0, 0, 0], [1, 1], [1, 0, 1], [0, 1, 2]]
    fragments = [Fragment(f % 2, [Call(v, a, -30000 - 100 * f, -40) for v, a in enumerate(own)])
                 for f, own in enumerate(alleles)]
    fragments[1].calls[2].qual = -2000
    return Case(variants, fragments + [Fragment(1, [Call(1, 1, -13607, -12)])], -2000)


# The muted reads of the quiet case, one list after the other; rates at which a read tells.
QUIET = [(), (0,), (3,), (3, 4), (0, 2, 5), range(6)]
COMMON = [-8193] * 4 + [-1, -1]


def muted_answers(rec):
    cases = [encode(with_mute(quiet_case(), numbers)) for numbers in QUIET]
    rec.note("none muted, then one, some, all. nohap: their calls are ambiguous and do not score, and depth counts them")
    for data in cases:
        rec.nohap(*data, COMMON, rooms("nohap", 3))
    rec.note("flist, without and with single reads: a muted read has no line, and the ids count the written ones")
    for single, data in itertools.product((0, 1), cases):
        rec.flist(*data, single, 120)
    rec.note("run: a muted read's likelihoods are 0, and it has no part in scores and totals")
    for data in cases:
        rec.run(*data, COMMON, [48, 49, 48], [0] * 3, [0, 1, 2, 2, 0, 1], 50, rooms("run", 3, 6))


def muted_twins(rec):
    rec.note("two reads that disagree, one of them muted, and both: nohap and run")
    for strands in [(0, 1), (2, 1), (0, 3), (2, 3), (3, 2), (1, 2), (3, 0)]:
        data = encode(alone(["A", "G"], (0, 1), [(a, -90000, -1, strand) for a, strand in zip((1, 0), strands)]))
        rec.nohap(*data, RATES, rooms("nohap", 1))
        rec.run(*data, RATES, [48], [0], [0], 10, rooms("run", 1, 2))
    rec.note("sample (j), 113 reads of A and of G, with a read of G muted, then one of A")
    both = alone(["A", "G"], (0, 1), [(a, -5796, -1700, 0) for a in (0, 1) for _ in range(113)])
    for f in (225, 0):
        rec.run(*encode(with_mute(both, [f])), RATES, [48], [0], [0], 10, rooms("run", 1, 226))


def muted_lists(rec):
    rec.note("muted reads arrive, beside their voting twins: ambiguous counts, likelihoods 0, the total as it was")
    standing = late_standing()
    for f, read in [(1, LONG), (4, SHORT), (4, SINGLE), (1, EMPTY)]:
        rec.entries += [standing.arrive(f, read), standing.arrive(f, muted(read))]
    rec.note("they come and go; a departed one's strand stays, and a voting read takes its number, and the other way round")
    left = follow(rec, standing, [
        arrival(1, muted(LONG)), arrival(4, muted(SHORT)), departure(1), arrival(1, LONG), departure(4), departure(0),
        arrival(0, muted(SHORT)), arrival(4, muted(EMPTY)), departure(3), departure(4), arrival(3, muted(SINGLE))])
    after_muted(rec, left)
    rec.note("all reads are muted; then one of them votes again")
    words, bases = late_sample()
    words, at = list(words), Layout.of(words)
    for f in range(at.f):
        words[at.fragment(f) + FRAGMENT.strand] += MUTED_FORWARD
    standing = fresh(words, bases, RATES, LATE_PHASE, standing.haplotypes)
    left = follow(rec, standing, [departure(0), arrival(0, muted(LONG)), arrival(4, muted(SHORT)), departure(3)])
    after_muted(rec, left)
    follow(rec, left, [departure(0), arrival(0, LONG), departure(4), arrival(1, SHORT)])


def after_muted(rec, left):
    rec.note("what is left, through check, nohap, flist and run")
    n, f = left.words[HEAD.n], left.words[HEAD.f]
    rec.check(left.words, left.bases)
    rec.nohap(left.words, left.bases, RATES, rooms("nohap", n))
    rec.flist(left.words, left.bases, 1, 60)
    rec.run(left.words, left.bases, RATES, LATE_PHASE, [0] * n, list(range(n)), 50, rooms("run", n, f))


def muted_faults(rec):
    rec.note("a muted arrival is refused as any other: 4, 5, 13, 14; at an absent number of any strand it is not")
    words, bases = late_sample()
    at, strand = Layout.of(words), FRAGMENT.strand
    place = ARRIVING.words + ARRIVING.qual
    for mute in (MUTED_FORWARD, MUTED_REVERSE):
        quiet = (LatePart.STRAND, None, mute)
        for value in (1, LOWEST - 1, LOWEST):
            refuse(rec, "arrive", quiet, (LatePart.CALLS, place, value))
        refuse(rec, "arrive", quiet, (LatePart.CALLS, place + 1, 1))
        refuse(rec, "arrive", quiet, (LatePart.CALLS, ARRIVING.words, 0))
        refuse(rec, "arrive", quiet, (LatePart.CALLS, None, [0] * 3))
        refuse(rec, "arrive", quiet, (LatePart.NUMBER, None, 3))
        refuse(rec, "arrive", quiet, words=late_sample(0)[0])
        for own in STRANDS:
            refuse(rec, "arrive", quiet, words=with_word(words, at.fragment(1) + strand, own))
    rec.note("10, place 0, of what would be written: a muted read's calls count as ambiguous and nowhere else")
    standing = late_standing()
    for read in (LONG, muted(LONG)):
        arrived = standing.arrive(1, read)
        gone = standing.after(arrived).depart(1)
        for count in (COUNTED.counts, COUNTED.forward, COUNTED.ambiguous):
            rec.add("arrive", words, bases, with_parts(arrived.parts, [(LatePart.COUNTS, count, MAX_COUNT)]))
            rec.add("depart", gone.words, bases, with_parts(gone.parts, [(LatePart.COUNTS, count, 0)]))
        rec.add("arrive", words, bases, with_parts(arrived.parts, [(LatePart.TOTAL, None, LOWEST_LENT)]))
    rec.note("a muted read's departure, too, takes off what is lent")
    for two in ([-100000, -99000], [0, LOWEST_LENT]):
        lent = [(LatePart.LIKELIHOODS, PAIR + h, x) for h, x in enumerate(two)]
        rec.add("depart", gone.words, bases, with_parts(gone.parts, lent))


def muted_reads(rec, _rng):
    for part in (muted_strands, muted_answers, muted_twins, muted_lists, muted_faults):
        part(rec)


# The requests that the program has; a later operation joins the list with its library function.
LATER = [priors, orders, phase, flist, nohap, runs, late, muted_reads]


def recorded():
    """The whole list."""
    rec, rng = Record(), random.Random(1)
    for part in (accepted, heads, variants, alleles, calls, chains, idle_records, free_chains, past_faults,
                 order_of_numbers, filters):
        part(rec)
    damaged(rec, rng, 150)
    random_filters(rec, rng, 60)
    for part in LATER:
        part(rec, rng)
    return rec.entries


def answers(requests):
    """The documents' answers, by the oracle where it has one and the request is accepted, else by the model; both must
    agree."""
    by_model = [request.answer() for request in requests]
    accepted = [i for i, answer in enumerate(by_model) if answer.startswith("done")]
    by_oracle, asked = ask_oracle(["target/oracle/oracle"], [requests[i] for i in accepted])
    for i, answer in zip(accepted, by_oracle):
        if answer != by_model[i]:
            sys.exit("the oracle and the model differ at:\n" + requests[i].text())
    return by_model, asked


def main():
    entries = recorded()
    requests = [e for e in entries if isinstance(e, Request)]
    replies, asked = answers(requests)
    text = HEADER % (len(requests), asked) + "".join(e.text() if isinstance(e, Request) else e for e in entries)
    text += UNREADABLE[0]
    with open("crates/condorbed/stdin", "w") as out:
        out.write(text + UNREADABLE[1])
    with open("crates/condorbed/stdout", "w") as out:
        out.write("".join(replies) + "unreadable %d 5 number\n" % (1 + text.count("\n")))
    print("%d requests, %d answered by the oracle" % (len(requests), asked))


if __name__ == "__main__":
    main()
