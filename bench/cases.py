#!/usr/bin/env python3
"""Writes the benchmark's cases: bench/cases.py FOLDER, a file with one `run` request for each; prints the files' names.

A case is a simulated sample: two true haplotypes, reads of a stretch of one of them with errors, and a given phase that is
right at nine variants of ten. No read is muted. A seed fixes each. Orders are document 01's own from seed 0.
"""
import math
import os
import random
import sys

ROOT = os.path.join(os.path.dirname(os.path.abspath(__file__)), "..")
sys.path.insert(0, os.path.join(ROOT, "tools"))

from layout import needs
from model import Call, Case, Fragment, Variant, encode
from protocol import Request

RATES = [-45000, -40000, -57000, -53000, -2400, -6500]
CUTOFF = -4096
ORDERS, LIMIT = 8, 1000000
DOUBLING = 4096

# name: variants, reads, calls per read, share of variants with three alleles, share of wrong calls
CASES = {
    "16-variants": (16, 64, 4, 0.2, 0.05),
    "64-variants": (64, 256, 4, 0.2, 0.05),
    "256-variants": (256, 1024, 4, 0.2, 0.05),
    "deep": (64, 4096, 4, 0.2, 0.05),
    "long-reads": (1024, 256, 64, 0.2, 0.05),
    "all-k-2": (1024, 4096, 4, 0.0, 0.05),
    "all-k-3": (1024, 4096, 4, 1.0, 0.05),
    "many-errors": (1024, 4096, 4, 0.2, 0.3),
    "largest": (1024, 4096, 4, 0.2, 0.05),
}


def steps(p):
    """The steps of a probability."""
    return round(DOUBLING * math.log2(p))


def qualities(rng):
    """The two qualities of a call, of Phred 5 to 30; one call of thirty is too bad to be usable."""
    p = 0.6 if rng.random() < 1 / 30 else 10 ** (-rng.uniform(5, 30) / 10)
    return steps(p), steps(1 - p)


def variant(rng, v, truth, k):
    """The variant, its genotype right at nine variants of ten."""
    genotype = tuple(sorted(truth)) if rng.random() < 0.9 else (rng.randrange(k), rng.randrange(k))
    return Variant(100 * v, 30, genotype, rng.sample("ACGT", k))


def read(rng, truths, counts, length, errors):
    """A read of one haplotype."""
    haplotype, first, calls = rng.randrange(2), rng.randrange(len(truths) - length + 1), []
    for v in range(first, first + length):
        allele = truths[v][haplotype]
        if rng.random() < errors:
            allele = (allele + rng.randrange(1, counts[v])) % counts[v]
        calls.append(Call(v, allele, *qualities(rng)))
    return Fragment(rng.randrange(2), calls)


def phase_byte(rng, truth):
    """The order of the true pair, wrong at one variant of ten; one variant of twenty has no phase."""
    if rng.random() < 0.05:
        return ord("-")
    return ord("0") if (truth[0] < truth[1]) != (rng.random() < 0.1) else ord("1")


def request(rng, n, f, length, threes, errors):
    counts = [3 if rng.random() < threes else 2 for _ in range(n)]
    truths = [rng.sample(range(k), 2) if rng.random() < 0.9 else [rng.randrange(k)] * 2 for k in counts]
    variants = [variant(rng, v, truth, k) for v, (truth, k) in enumerate(zip(truths, counts))]
    reads = [read(rng, truths, counts, length, errors) for _ in range(f)]
    words, bases = encode(Case(variants, reads, CUTOFF))
    phase = [phase_byte(rng, truth) for truth in truths]
    orders = Request("orders", words, bases, [0], [n * ORDERS]).result()[1][0]
    return Request("run", words, bases, [RATES, phase, [0] * n, orders, LIMIT], needs("run", n, f))


def main():
    folder = sys.argv[1]
    os.makedirs(folder, exist_ok=True)
    for name, parts in CASES.items():
        file = os.path.join(folder, name + ".txt")
        with open(file, "w") as out:
            out.write(request(random.Random(name), *parts).text())
        print(file)


if __name__ == "__main__":
    main()
