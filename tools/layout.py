"""The layout of a case (document 01, section 2, as amended by requests 1, 3 and 5) and of the slices that the operations
write, with its limits.

No other script has the offset of a field, the stride of a record or a limit: a change of the layout is a change here.
Run by itself it prints the same as a C header, for bench/limit.c: python3 tools/layout.py > FILE
"""
from types import SimpleNamespace

MAX_VARIANTS, MAX_FRAGMENTS, MAX_CALLS = 1024, 4096, 16384
MAX_ALLELES, MAX_LENGTH = 3, 64
# Of the cutoff, of both qualities and of the rates.
LOWEST = -262144
# The first call of an absent fragment.
ABSENT = -1
# The strands of a fragment. A muted one is on file and does not vote.
FORWARD, REVERSE, MUTED_FORWARD, MUTED_REVERSE = STRANDS = range(4)
# Of a total or a likelihood that is lent, and of a count.
LOWEST_LENT, MAX_COUNT = -2**40, 4096


class Record:
    """A kind of record, made of its fields in order, each with its number of words. A field's name is then its offset,
    and `words` is the stride."""

    def __init__(self, **widths):
        self.widths, self.words = widths, 0
        for name, width in widths.items():
            setattr(self, name, self.words)
            self.words += width

    def make(self, **values):
        """The words of a record. A field of several words takes a list; words that are not given are 0."""
        words = [0] * self.words
        for name, value in values.items():
            given = value if isinstance(value, list) else [value]
            assert len(given) <= self.widths[name]
            at = getattr(self, name)
            words[at:at + len(given)] = given
        return words

    def read(self, words, at):
        """The fields of the record at this place, by name; a field of several words is a list."""
        values = {}
        for name, width in self.widths.items():
            start = at + getattr(self, name)
            values[name] = words[start] if width == 1 else words[start:start + width]
        return SimpleNamespace(**values)


HEAD = Record(n=1, f=1, c=1, cutoff=1, used=1, free=1)
VARIANT = Record(pos0=1, dp=1, genotype=2, k=1, lengths=MAX_ALLELES)
FRAGMENT = Record(first=1, strand=1)
# A call as an arrival gives it; its record has one word more.
ARRIVING = Record(variant=1, allele=1, qual=1, one_minus_qual=1)
CALL = Record(**ARRIVING.widths, next=1)

# What is written: 2 haplotype alleles per variant and 2 likelihoods per fragment; tables of all pairs, one per variant;
# the counts of a variant, which arrivals and departures update; and these within the record of the calling without
# haplotypes, one per variant.
PAIR, TABLE = 2, MAX_ALLELES**2
COUNTED = Record(counts=MAX_ALLELES, forward=MAX_ALLELES, reverse=MAX_ALLELES, ambiguous=1)
CALLED = Record(genotype=2, **COUNTED.widths, depth=1)


class Layout:
    """Where each record of a case starts. A field stands at its record's start plus its offset: call(r) + CALL.next."""

    def __init__(self, n, f, c):
        self.n, self.f, self.c = n, f, c

    @staticmethod
    def of(words):
        """The layout that the head gives."""
        head = HEAD.read(words, 0)
        return Layout(head.n, head.f, head.c)

    def total(self):
        return self.call(self.c + 1)

    def variant(self, v):
        return HEAD.words + VARIANT.words * v

    def fragment(self, f):
        return self.variant(self.n) + FRAGMENT.words * f

    def call(self, r):
        """Records are numbered from 1."""
        return self.fragment(self.f) + CALL.words * (r - 1)


def needs(word, n, f):
    """The elements that a request with n variants and f fragments needs in each output slice, an arrival or departure in
    its haplotypes, likelihoods and counts; those of `flist` and `orders` depend on more."""
    late = [PAIR * n, PAIR * f, COUNTED.words * n]
    return {
        "check": [], "priors": [TABLE * n], "nohap": [CALLED.words * n, n, n], "phase": [PAIR * n, n, n],
        "run": [PAIR * n, PAIR * f, TABLE * n, n, n], "filter": [n], "arrive": late, "depart": late, "afresh": late[1:],
    }[word]


HEADER = """/* Written by tools/layout.py: words of each record, offsets of its fields, limits; then what is written per variant. */
%s
enum { MAX_VARIANTS = %d, MAX_FRAGMENTS = %d, MAX_CALLS = %d, MAX_ALLELES = %d, MAX_LENGTH = %d, LOWEST = %d };
enum { ABSENT = %d, MUTED_FORWARD = %d, MUTED_REVERSE = %d };
enum { PAIR = %d, TABLE = %d };
"""


def record_header(name, record):
    """The words of a record and its fields' offsets, with the record's first letter before each."""
    fields = ["%s_%s = %d" % (name[0], field.upper(), getattr(record, field)) for field in record.widths]
    return "enum { %s = %d, %s };" % (name, record.words, ", ".join(fields))


def main():
    records = {"HEAD": HEAD, "VARIANT": VARIANT, "FRAGMENT": FRAGMENT, "CALL": CALL}
    print(HEADER % ("\n".join(record_header(*pair) for pair in records.items()), MAX_VARIANTS, MAX_FRAGMENTS, MAX_CALLS,
                    MAX_ALLELES, MAX_LENGTH, LOWEST, ABSENT, MUTED_FORWARD, MUTED_REVERSE, PAIR, TABLE), end="")


if __name__ == "__main__":
    main()
