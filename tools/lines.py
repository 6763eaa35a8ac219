#!/usr/bin/env python3
"""Write crates/steps/src/lines.rt: the straight lines of ln(1 + exp(d)), as crates/steps/specs/Inner/Lines.antt defines them.

Run as python3 tools/lines.py at the repository's root; tools/knots.py stands beside it.
"""

from knots import table

# From here on the knots are 0.
FLAT = 1604

CODE = """// The lines of specs/Inner/Lines.antt, base and slope of each: below zero, from zero on, far above, far below.
pub static LINES: [(u32, u32); %d] = [
%s];
"""


def main():
    knots = table()[1]
    fall = [knots[k] - knots[k + 1] for k in range(FLAT)]
    base = [32 * knots[k] + 31 + 32 * k * fall[k] for k in range(FLAT)]
    pieces = [(base[k], fall[k]) for k in reversed(range(FLAT))]
    pieces += [(base[k], 32 - fall[k]) for k in range(FLAT)]
    pieces += [(0, 32), (0, 0)]
    with open("crates/steps/src/lines.rt", "w", encoding="utf-8") as code:
        code.write(CODE % (len(pieces), "".join("    (%d, %d),\n" % piece for piece in pieces)))


if __name__ == "__main__":
    main()
