"""The texts of samples/requests.txt and samples/filter.txt, which tools/tree.py writes: every request once, with comments.

A text is made of requests; each part of a request has a line of its own, with a comment where it is first seen.
"""
from cases import fresh
from layout import CALL, FRAGMENT, HEAD, VARIANT, Layout, needs
from model import Call, Case, Fragment, Variant, check, encode, start_haplotypes
from protocol import Request, plain_text, slice_text

INTRODUCTION = "# A request is a word and its parts; a slice is its length, then its elements.\n"
RATES = [-44916, -40820, -58522, -54426, -4096, -8192]
PHASE = [48, 49]


def two_variants(absent=0, free=0, unused=0):
    """The worked case of docs/FORMAT.md, with so many absent fragments, free and unused records besides."""
    variants = [Variant(99, 12, (0, 1), ["A", "G"]), Variant(149, 11, (0, 1), ["C", "T"])]
    reads = [Fragment(1, [Call(0, 1, -27213, -59), Call(1, 0, -13607, -623)])]
    reads += [Fragment(0, [], present=False)] * absent
    return encode(Case(variants, reads, -9525), idle={3 + i: CALL.make() for i in range(free + unused)}, used=2 + free)


def records(words):
    """The words record by record: for each kind a comment and the records' texts."""
    at = Layout.of(words)

    def text(kind, start):
        return plain_text(words[start:start + kind.words])

    return [
        ("head: variants, fragments, call records, cutoff, call records used, the first free one (0: none)",
         [text(HEAD, 0)]),
        ("each variant: pos0, depth, genotype (2), alleles, their lengths (3)",
         [text(VARIANT, at.variant(v)) for v in range(at.n)]),
        ("each read: its first call record (-1: absent), its strand (0 forward, 1 reverse; 2 and 3 the same, muted)",
         [text(FRAGMENT, at.fragment(f)) for f in range(at.f)]),
        ("each call record: variant, allele, qual, one_minus_qual, next record (of a free one only next counts)",
         [text(CALL, at.call(r)) for r in range(1, at.c + 1)])]


def spelled(words):
    """The words with a line for each record, and comments."""
    lines = []
    for comment, texts in records(words):
        if texts:
            lines += ["# " + comment] + ["    " + text for text in texts]
    return ["# the words: how many", str(len(words))] + lines


def joined(words):
    """The words in one line."""
    texts = [text for _, own in records(words) for text in own]
    return ["  ".join([str(len(words))] + texts)]


def text(request, comments=(), spell=False, front=""):
    """A request with a comment in front, comments for its parts by their numbers, and its case spelled out."""
    lines = spelled(request.words) if spell else joined(request.words)
    lines += ["# the alleles' bases, A 65, C 67, G 71, T 84"] * spell + [slice_text(request.bases)]
    for i, part in enumerate(request.text().splitlines()[3:]):
        lines += ["# " + own for own in [dict(comments).get(i)] if own] + [part]
    return "%s%s\n%s\n" % (front and "# %s\n" % front, request.word, "\n".join("  " + line for line in lines))


def every_request():
    """The requests of samples/requests.txt, each with the arguments of its text."""
    data, (n, f) = two_variants(), (2, 1)
    rates = {0: "rates: hom_snv 0.0005, het_snv 0.001, hom_indel 0.00005, het_indel 0.0001; ts 1/2, tv 1/4"}
    qualities = {0: "qualities 60.0 and 60.0, as 64-bit patterns",
                 1: "density_qual 50.0, density_dist 30, density_count 0, max_depth 11",
                 2: "room for two filter bytes"}
    phase = {0: "the phase: '0' and '1'; then the sets", 2: "room for haplotypes, phased, names"}
    run = {1: "the phase, the sets", 3: "one order: variant 1, then 0; at most 1000 sweeps",
           5: "room for haplotypes, likelihoods, posteriors, qualities and genotype qualities"}
    return [
        (Request("check", *data), {"spell": True}),
        (Request("priors", *data, [RATES], needs("priors", n, f)),
         {"comments": {**rates, 1: "room for nine priors for each variant"}}),
        (Request("nohap", *data, [RATES], needs("nohap", n, f)),
         {"comments": {1: "room for 13 numbers for each variant, for qualities and genotype qualities"}}),
        (Request("phase", *data, [PHASE, [0, 0]], needs("phase", n, f)), {"comments": phase}),
        (Request("run", *data, [RATES, PHASE, [0, 0], [1, 0], 1000], needs("run", n, f)), {"comments": run}),
        (Request("flist", *data, [0], [20]), {"comments": {0: "single_reads, and room for 20 bytes"}}),
        (Request("filter", *data, [[60.0, 60.0], 50.0, 30, 0, 11], [n]), {"comments": qualities}),
        (Request("orders", *data, [7], [3 * n]), {"comments": {0: "seed 7, and room for three orders"}}),
    ] + late_requests() + [
        (Request("nohap", *data, [RATES], [25, 2, 2]),
         {"front": "The worked case without haplotypes, but room for 25 numbers where 26 are needed: refused."})]


def late_requests():
    """A read arrives at a case with room for it; then it departs, from what the arrival left."""
    words, bases = two_variants(absent=1, free=1, unused=1)
    haplotypes = start_haplotypes(check(words, bases), PHASE)
    before = fresh(words, bases, RATES, PHASE, haplotypes)
    arrival = before.arrive(1, Fragment(0, [Call(0, 0, -27213, -59), Call(1, 0, -9525, -1315)]))
    departure = before.after(arrival).depart(1)
    comments = {0: "the phase; the haplotypes that the sample has", 2: "two likelihoods for each read",
                3: "ten counts for each variant: alleles (3), forward (3), reverse (3), ambiguous"}
    total = "the total, the read's number"
    return [
        (arrival, {"front": "A read arrives late: read 1 is absent, record 3 is free and record 4 unused.", "spell": True,
                   "comments": {**comments, 4: total + ", its strand", 5: "its calls, four words each"}}),
        (departure, {"front": "The same read leaves again, and its records are free; the words and values are those that "
                              "its arrival left.",
                     "comments": {4: total}})]


def close_variants():
    """The requests of samples/filter.txt."""
    rows = [(100, 31, (0, 1), "AG"), (110, 28, (0, 1), "CT"), (120, 90, (1, 1), "AC"), (130, 30, (0, 1), "GT")]
    data = encode(Case([Variant(*row[:3], list(row[3])) for row in rows], [], -2000))
    comments = {0: "qualities 60.0, 49.5, 60.0, 50.0, as 64-bit patterns",
                1: "density_qual 50.0, density_dist 30, density_count 1, max_depth 80", 2: "room for four filter bytes"}
    return [(Request("check", *data), {"spell": True}),
            (Request("filter", *data, [[60.0, 49.5, 60.0, 50.0], 50.0, 30, 1, 80], [4]), {"comments": comments})]


FILES = {
    "samples/requests.txt": ("Every request once, on the worked case of docs/FORMAT.md: two variants and one read.",
                             every_request),
    "samples/filter.txt": ("Four variants of a tree, close together, and no reads yet.", close_variants),
}


def write():
    """Writes the samples; their requests."""
    out = []
    for name, (about, made) in FILES.items():
        entries = made()
        with open(name, "w") as file:
            file.write("\n".join(["# %s\n%s" % (about, INTRODUCTION)] + [text(r, **more) for r, more in entries]))
        out += [request for request, _ in entries]
    return out
