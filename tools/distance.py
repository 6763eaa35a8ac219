#!/usr/bin/env python3
"""How far the step arithmetic of document 01, section 1, is from real logarithms. Run at the repository's root.

The table is read from crates/steps/specs/Table.antt, which the crate's proofs hold to its rule. Real values are not rounded to whole steps.
"""

import decimal
import math
import re

STEPS = 4096
LOWEST = 57344


def knots():
    """T[0] to T[1664]."""
    with open("crates/steps/specs/Table.antt", encoding="utf-8") as spec:
        text = spec.read()
    return [int(n) for n in re.findall(r"\d+", text.split("knots =")[1].split("[]")[0])]


T = knots()


def addend(d):
    """A(d)"""
    if d >= 53248:
        return 0
    k, r = divmod(d, 32)
    return T[k] - (T[k] - T[k + 1]) * r // 32


def add_exp(a, b):
    """ln_add_exp of two finite ones."""
    return max(a, b) + addend(abs(a - b))


def one_minus(p):
    """ln_one_minus_exp of p < 0: the greatest q <= 0 with ln_add_exp(p, q) <= 0."""
    low, high = 0, LOWEST
    while low < high:
        middle = (low + high) // 2
        if add_exp(p, -middle) <= 0:
            high = middle
        else:
            low = middle + 1
    return -low


def real_addend(d):
    """4096 log2(1 + 2^(-d/4096))"""
    return STEPS * math.log1p(2.0 ** (-d / STEPS)) / math.log(2)


def real_one_minus(p):
    """4096 log2(1 - 2^(p/4096))"""
    return STEPS * math.log(-math.expm1(p / STEPS * math.log(2))) / math.log(2)


def farthest(name, places, ours, real):
    """Print the largest distance over the places, and the first place that has it."""
    distance, at = max(((abs(ours(x) - real(x)), -i, x) for i, x in enumerate(places)))[::2]
    print("%s: %.6f steps at %d (%d, real value %.6f)" % (name, distance, at, ours(at), real(at)))


def phred():
    """The largest relative distance of Phred from -10 log10 of the probability, which is worked out to 50 digits."""
    decimal.getcontext().prec = 50
    unit = 10 * decimal.Decimal(2).log10() / STEPS
    scale = (3.010299956639812 / 1048576) * 256
    worst, at = 0, 0
    for n in range(1, 680001):
        exact = n * unit
        relative = abs(decimal.Decimal(n * scale) - exact) / exact
        if relative > worst:
            worst, at = relative, n
    print("Phred, p in -1..-680000: relative distance %.3e at p = %d (%r, real value %.17g)" % (worst, -at, at * scale, at * unit))


def main():
    farthest("A(d), d in 0..53248", range(53249), addend, real_addend)
    farthest("ln_one_minus_exp, p in -4096..-262144", range(-4096, -262145, -1), one_minus, real_one_minus)
    farthest("ln_one_minus_exp, p in -1..-262144", range(-1, -262145, -1), one_minus, real_one_minus)
    farthest("ln_one_minus_exp, p in -64..-262144", range(-64, -262145, -1), one_minus, real_one_minus)
    for p in (-1, -2, -4, -16, -64, -256, -1024):
        print("ln_one_minus_exp(%d): %d, real value %.3f" % (p, one_minus(p), real_one_minus(p)))
    phred()


if __name__ == "__main__":
    main()
