#!/usr/bin/env python3
"""Writes the samples: samples/tree.txt, a run on a tree of twenty variants and sixty reads, with comments, and its answer
samples/tree.answer; and those of tools/samples.py.

Run at the repository's root, after oracle/build: python3 tools/tree.py
The tree is made up: two haplotypes, reads drawn from either with errors, a phase with two faults. The oracle and the
model must give the same answers. tools/test_condorbed.py --renew then writes samples/expected.
"""
import math
import random
import sys

import samples
from layout import CALL, FRAGMENT, HEAD, VARIANT, needs
from model import Call, Case, Fragment, Variant, encode, sweep_orders
from protocol import Request, ask_oracle, plain_text

# Position, alleles, the tree's pair, the genotype and the phase that the run is given, the phase set; then what it is.
ROWS = [
    (10412, "C T", (0, 1), (0, 1), "0", 0, ""),
    (10977, "G A", (1, 0), (0, 1), "1", 0, ""),
    (11508, "A G", (0, 1), (0, 1), "0", 0, ""),
    (11730, "T TA", (0, 1), (0, 1), "-", -1, "an insertion: never phased"),
    (12266, "T C", (1, 0), (0, 1), "0", 0, "given in the wrong phase"),
    (12841, "G T", (0, 0), (0, 1), "1", 0, "reads disagree with the alternative: homozygous reference"),
    (13302, "A C", (0, 1), (0, 1), "0", 0, ""),
    (13977, "C T", (1, 1), (1, 1), "-", -1, "homozygous alternative"),
    (14520, "G A", (1, 0), (0, 1), "1", 0, ""),
    (15018, "T C G", (1, 2), (1, 2), "0", 0, "two alternatives"),
    (15533, "A G", (0, 1), (0, 1), "-", -1, "left unphased"),
    (16214, "C A", (0, 1), (0, 1), "0", 0, ""),
    (16790, "T C", (1, 0), (0, 1), "1", 0, ""),
    (17345, "AC AG", (0, 1), (0, 1), "-", -1, "two bases: never phased"),
    (17902, "G A", (0, 1), (0, 1), "1", 0, "given in the wrong phase"),
    (18466, "C T", (1, 0), (0, 1), "1", 0, ""),
    (19051, "A T", (0, 0), (0, 0), "-", -1, "no alternative here"),
    (19620, "TGG T", (0, 1), (0, 1), "-", -1, "a deletion: never phased"),
    (20188, "G C", (0, 1), (0, 1), "0", 0, ""),
    (43870, "A G", (0, 1), (0, 1), "1", 19, "far from the others: (0, 1) and (1, 0) tie, and the first is taken"),
]

RATES = [-44916, -40820, -58523, -54427, -4096, -8192]
CUTOFF = -9511
LINKED, ALONE = 50, 10
SEED = 391


def steps(probability):
    return round(4096 * math.log2(probability))


def call(rng, variant, row, haplotype):
    """A call of the haplotype's allele, or of another one with the error that its quality says."""
    quality = rng.choice([5, 12, 14, 15, 16, 18, 20])
    error = 10 ** (-quality / 10)
    allele, others = row[2][haplotype], [a for a in range(len(row[1].split())) if a != row[2][haplotype]]
    if rng.random() < error:
        allele = rng.choice(others)
    return Call(variant, allele, steps(error), steps(1 - error))


def reads(rng):
    """Reads over several of the first variants, then reads of the last one alone, as many of either allele."""
    out = []
    for _ in range(LINKED):
        first = rng.randrange(-3, len(ROWS) - 2)
        stretch = range(max(first, 0), min(first + rng.choice([4, 5, 6, 7]), len(ROWS) - 1))
        haplotype, strand = rng.randrange(2), rng.randrange(2)
        out.append(Fragment(strand, [call(rng, v, ROWS[v], haplotype) for v in stretch if rng.random() < 0.95]))
    error = 10**-1.5
    last = len(ROWS) - 1
    out += [Fragment(i // 2 % 2, [Call(last, i % 2, steps(error), steps(1 - error))]) for i in range(ALONE)]
    return out


def tree(seed):
    fragments = reads(random.Random(seed))
    depth = [sum(c.variant == v for f in fragments for c in f.calls) for v in range(len(ROWS))]
    variants = [Variant(row[0], depth[v], row[3], row[1].split()) for v, row in enumerate(ROWS)]
    return Case(variants, fragments, CUTOFF)


def request(case):
    words, bases = encode(case)
    n, f = len(case.variants), len(case.fragments)
    orders = sweep_orders(words, bases, 0, [0] * (3 * n))[1][0]
    parts = [RATES, [ord(row[4]) for row in ROWS], [row[5] for row in ROWS], orders, 1000]
    return Request("run", words, bases, parts, needs("run", n, f))


def words_text(case, words):
    """The words with a line each for the head, a variant, a fragment's first call and strand, and a call record."""
    at = iter(words)

    def record(kind):
        return plain_text(next(at) for _ in range(kind.words))

    lines = ["# the words: how many; then the head: variants, fragments, call records, cutoff, call records used, the first",
             "# free one (0: none)",
             "# (the cutoff is an error probability of 0.2, Phred 6.99; a call is used if its qual is below it)",
             "%d  %s" % (len(words), record(HEAD)),
             "# each variant: pos0, depth, genotype (2), alleles, their lengths (3)"]
    for row in ROWS:
        note = " (%s)" % row[6] if row[6] else ""
        lines.append("%-28s # %s%s" % (record(VARIANT), row[1].replace(" ", "/"), note))
    lines.append("# each read: its first call record, its strand (0 forward, 1 reverse; 2 and 3 the same, muted)")
    lines += [record(FRAGMENT) for _ in case.fragments]
    lines.append("# each call record: variant, allele, qual, one_minus_qual (steps, 4096 to a doubling), next record")
    for i, fragment in enumerate(case.fragments):
        lines.append("# read %d" % i)
        lines += [record(CALL) for _ in fragment.calls]
    return lines


def text(case, asked):
    rates, phase, sets, orders, limit = asked.parts
    n = len(case.variants)
    lines = ["# A tree to name: twenty variants, sixty reads. Written by tools/tree.py; edit it as you like.",
             "# A request is a word and its parts; a slice is its length, then its elements.", "run"]
    lines += words_text(case, asked.words)
    lines += ["# the alleles' bases (A 65, C 67, G 71, T 84)", "%d  %s" % (len(asked.bases), plain_text(asked.bases)),
              "# rates in steps: hom_snv 0.0005, het_snv 0.001, hom_indel 0.00005, het_indel 0.0001; ts 1/2, tv 1/4",
              plain_text(rates), "# the given phase: a byte per variant ('0' 48, '1' 49, '-' 45), then its set or -1",
              "%d  %s" % (n, plain_text(phase)), "%d  %s" % (n, plain_text(sets)),
              "# the orders of the sweeps: three, as the request `orders` gives them for seed 0", str(len(orders))]
    lines += [plain_text(orders[i:i + n]) for i in range(0, len(orders), n)]
    lines += ["# at most so many sweeps", str(limit),
              "# room for haplotypes, likelihoods, posteriors, qualities and genotype qualities",
              plain_text(asked.rooms)]
    return "\n".join(lines) + "\n"


def main():
    case = tree(SEED)
    asked = request(case)
    with open("samples/tree.txt", "w") as out:
        out.write(text(case, asked))
    with open("samples/tree.answer", "w") as out:
        out.write(asked.answer())
    accepted = [request for request in [asked] + samples.write() if request.refusal() is None]
    if ask_oracle(["target/oracle/oracle"], accepted)[0] != [request.answer() for request in accepted]:
        sys.exit("the oracle and the model differ")


if __name__ == "__main__":
    main()
