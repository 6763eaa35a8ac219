#!/usr/bin/env python3
"""Write the knots of document 01, section 1: crates/steps/specs/Table.antt, crates/steps/src/knots.rt, and e(k) of each in
crates/steps/specs/Inner/Table.antt.

Run at the repository's root. e(k) is the greatest e with e^128 * 2^k <= 2^5120; T[k] is the greatest t
with 2^(t + 163840) <= (2^40 + e(k))^4096.
"""

import textwrap

LAST = 1664

SPEC = """-- Written by tools/knots.py. The knots T[0] to T[1664] of document 01, section 1. `Knots.antt` has their rule. Assumes nothing.
use Rattle.std.specs.Prelude.{ℕ, List, [], ◌∷◌}

unfoldable pub knots : List ℕ
knots =
    %s ∷ []
"""

ROOTS = """-- Written by tools/knots.py. e(k) for each knot T[k], the witness of its rule. Assumes nothing.
use Rattle.std.specs.Prelude.{ℕ, List, [], ◌∷◌}

unfoldable pub roots : List ℕ
roots =
    %s ∷ []
"""

CODE = """// Written by tools/knots.py. The knots T[0] to T[1664] of document 01, section 1.
pub static KNOTS: [u16; 1665] = [
%s];
"""


def root(k):
    """e(k), by halving."""
    low, high = 0, 2**40 + 1
    while high - low > 1:
        middle = (low + high) // 2
        if middle**128 << k <= 2**5120:
            low = middle
        else:
            high = middle
    return low


def knot(e):
    """T[k], from e(k)."""
    return ((2**40 + e) ** 4096).bit_length() - 1 - 163840


def rows(numbers, width):
    """The numbers of a list, so many to a line."""
    words = [str(n) for n in numbers]
    lines = [" ∷ ".join(words[i : i + width]) for i in range(0, len(words), width)]
    return " ∷\n    ".join(lines)


def filled(numbers):
    """The lines of a table's elements, as rt fmt lays them out."""
    text = ", ".join(str(n) for n in numbers) + ","
    return textwrap.fill(text, 99, initial_indent="    ", subsequent_indent="    ") + "\n"


def table():
    """The roots and the knots."""
    roots = [root(k) for k in range(LAST + 1)]
    return roots, [knot(e) for e in roots]


def main():
    roots, knots = table()
    with open("crates/steps/specs/Table.antt", "w", encoding="utf-8") as spec:
        spec.write(SPEC % rows(knots, 16))
    with open("crates/steps/specs/Inner/Table.antt", "w", encoding="utf-8") as spec:
        spec.write(ROOTS % rows(roots, 8))
    with open("crates/steps/src/knots.rt", "w", encoding="utf-8") as code:
        code.write(CODE % filled(knots))


if __name__ == "__main__":
    main()
