"""The program's answers in words and tables, for ./condorbed --explain; its requests and limits, for --help."""
import itertools
import re

from layout import (ARRIVING, CALL, CALLED, COUNTED, FRAGMENT, HEAD, LOWEST, LOWEST_LENT, MAX_ALLELES, MAX_CALLS,
                    MAX_COUNT, MAX_FRAGMENTS, MAX_LENGTH, MAX_VARIANTS, PAIR, TABLE, VARIANT, Layout, needs)
from model import check, free_and_unused, number, pairs, phred
from protocol import LATE, OUTPUTS, PARTS, LatePart, Request, plain_text

REQUESTS = {
    "check": "see whether a case is within the rules",
    "priors": "the prior of each pair of alleles at each variant",
    "nohap": "call each variant by itself, without haplotypes",
    "phase": "haplotypes, phased variants and names of phase sets, from a given phase",
    "run": "one round of calling with haplotypes",
    "flist": "the fragment lines that HapCUT2 reads",
    "filter": "mark the variants that are too dense or too deep",
    "orders": "orders of the variants for `run`, from a seed",
    "arrive": "a read that comes late: the case and its values with the read",
    "depart": "a read that leaves: the case and its values without it",
}

# The output slices of each request; of an arrival or departure those that can be too short.
SLICES = {
    "check": (), "priors": ("priors",), "nohap": ("variants", "quals", "gqs"),
    "phase": ("haplotypes", "phased", "names"), "run": ("haplotypes", "likelihoods", "posteriors", "quals", "gqs"),
    "flist": ("buffer",), "filter": ("filters",), "orders": ("orders",),
    "arrive": ("haplotypes", "likelihoods", "counts"), "depart": ("haplotypes", "likelihoods", "counts"),
}

RATES = ("hom_snv", "het_snv", "hom_indel", "het_indel", "ts", "tv")
MAX_SWEEPS = 1000000


# ---- For --help.

# The program's arrays hold the largest need and this many elements more; those of the orders and the fragment lines
# have a size of their own.
SPARE, MOST_ORDERS, MOST_LINES = 16, 65536, 10 * MAX_FRAGMENTS + 8 * MAX_CALLS


def help_parts():
    """The requests, the limits of a case and those of the program, as lines of text."""
    most = dict(zip(SLICES["run"], needs("run", MAX_VARIANTS, MAX_FRAGMENTS)))
    words = Layout(MAX_VARIANTS, MAX_FRAGMENTS, MAX_CALLS).total()
    case = [("variants", MAX_VARIANTS), ("fragments", MAX_FRAGMENTS), ("call records", MAX_CALLS),
            ("alleles of a variant", MAX_ALLELES), ("bases of an allele", MAX_LENGTH)]
    arrays = [
        ("words", words + SPARE), ("bases", MAX_ALLELES * MAX_LENGTH * MAX_VARIANTS + SPARE),
        ("phase, sets, quals, gqs, phased, names, filters", most["quals"] + SPARE), ("orders", MOST_ORDERS),
        ("priors, posteriors", most["posteriors"] + SPARE), ("variants", CALLED.words * MAX_VARIANTS + SPARE),
        ("haplotypes", most["haplotypes"] + SPARE), ("likelihoods", most["likelihoods"] + SPARE),
        ("counts", COUNTED.words * MAX_VARIANTS + SPARE), ("calls", ARRIVING.words * MAX_VARIANTS + SPARE),
        ("buffer", MOST_LINES + SPARE)]
    return (
        "\n".join("  %-8s %s" % pair for pair in REQUESTS.items()),
        "\n".join("  %-48s %9s" % (name, format(size, ",")) for name, size in case),
        "\n".join("  %-48s %9s" % (name, format(size, ",")) for name, size in arrays))


# ---- Reading requests. The program has read them before, so that no fault is met here.


class Reader:
    """The requests of a text, one after the other; `line` is that of the latest request's word."""

    def __init__(self, text):
        self.text, self.at, self.line = text, 0, 1
        found = re.finditer(r"#[^\n]*|[^ \t\r\n]+", text)
        self.tokens = (token for token in found if not token[0].startswith("#"))

    def integer(self):
        return int(next(self.tokens)[0])

    def integers(self, count):
        return [self.integer() for _ in range(count)]

    def slice(self):
        return self.integers(self.integer())

    def part(self, form):
        """A part of one of the forms in PARTS."""
        return {
            "plain": lambda: self.integers(len(RATES)), "slice": self.slice, "lent": self.slice, "number": self.integer,
            "quality": lambda: number(self.integer()), "qualities": lambda: [number(x) for x in self.slice()],
        }[form]()

    def request(self):
        token = next(self.tokens)
        self.line += self.text.count("\n", self.at, token.start())
        self.at, word = token.start(), token[0]
        words, bases = self.slice(), self.slice()
        parts = [self.part(form) for form in PARTS[word]]
        return Request(word, words, bases, parts, self.integers(len(OUTPUTS[word])))


# ---- Tables.


def table(head, rows):
    """Lines with a column for each name of the head; columns of numbers stand to the right."""
    columns = [[str(cell) for cell in column] for column in zip(head, *rows)]
    shaped = []
    for column in columns:
        width = max(map(len, column))
        right = all(re.fullmatch(r"-?[\d.]*|nan|-?inf", cell) for cell in column[1:])
        shaped.append([cell.rjust(width) if right else cell.ljust(width) for cell in column])
    return ["  ".join(cells).rstrip() for cells in zip(*shaped)]


def joined(*parts):
    """Rows side by side."""
    return [sum(cells, []) for cells in zip(*parts)]


def variant_table(case, head, *parts):
    """A table with a row for each variant: what it is, then the parts' rows. Positions count from 1, as the names of
    phase sets do."""
    what = [[v, x.pos0 + 1, "/".join(x.alleles)] for v, x in enumerate(case.variants)]
    return ["Variants count from 0, positions from 1 (pos0 plus 1)."] + table(
        ["variant", "position", "alleles"] + head, joined(what, *parts))


def pair_cells(variant, pair, phased=False):
    """A pair in numbers and in letters, with the mark between that VCF has."""
    mark = "|" if phased else "/"
    return [mark.join(map(str, pair)), mark.join(variant.alleles[a] for a in pair)]


PHASE = ["pair", "letters", "phased", "phase set"]


def phase_cells(case, haplotypes, phased, names):
    """Under PHASE, a row for each variant."""
    rows = []
    for v, variant in enumerate(case.variants):
        cells = pair_cells(variant, haplotypes[PAIR * v:PAIR * (v + 1)], phased[v])
        rows.append(cells + ["yes" if phased[v] else "no", names[v] or "-"])
    return rows


def decimals(patterns):
    """A cell for each f64."""
    return [["%.1f" % number(x)] for x in patterns]


def count(n, name):
    return "%d %s%s" % (n, name, "" if n == 1 else "s")


def given(request):
    """The phase and the sets of a request."""
    return request.parts[PARTS[request.word].index("slice"):][:2]


# ---- The answers. Each function takes the request, its case, the fields after `done` and the output slices.


def told_check(_request, _case, _fields, _slices):
    return ["The case is within the rules."]


def told_priors(_request, case, _fields, slices):
    rows = []
    for v, x in enumerate(case.variants):
        rows.append(["  ".join("%d/%d %d" % (*pair, p) for pair, p in zip(pairs(x), slices[0][TABLE * v:]))])
    return ["Priors are in steps, one for each pair."] + variant_table(case, ["priors"], rows)


COUNTS = ["calls", "forward", "reverse", "ambiguous"]
ABOUT_COUNTS = "Calls are usable calls, a number for each allele; forward and reverse are those of them on each strand."
ABOUT_MUTED = " All calls of a muted read are ambiguous."


def muted(case):
    """The muted reads that are on file."""
    return [x for x in case.fragments if x.present and not x.votes()]


def about_counts(*cases):
    return ABOUT_COUNTS + ABOUT_MUTED * any(map(muted, cases))


def count_cells(variant, x):
    """Under COUNTS, the cells of a variant's counts."""
    k = len(variant.alleles)
    return [",".join(map(str, of[:k])) for of in (x.counts, x.forward, x.reverse)] + [x.ambiguous]


def told_nohap(_request, case, _fields, slices):
    rows = []
    for v, variant in enumerate(case.variants):
        x = CALLED.read(slices[0], CALLED.words * v)
        rows.append(pair_cells(variant, x.genotype) + count_cells(variant, x) + [x.depth])
    head = ["genotype", "letters"] + COUNTS + ["depth", "qual", "gq"]
    return [about_counts(case)] + variant_table(case, head, rows, decimals(slices[1]), decimals(slices[2]))


def told_phase(_request, case, _fields, slices):
    return variant_table(case, PHASE, phase_cells(case, *slices))


def told_run(request, case, fields, slices):
    sweeps, settled, start, end, source = fields
    ending = {"settled": "and settled: the last one changed no pair",
              "unsettled": "the most that its limit allows, and did not settle: the last one still changed a pair"}
    haplotypes, _, _, quals, gqs = slices
    rooms = needs("phase", len(case.variants), 0)
    _, phased, names = Request("phase", request.words, request.bases, given(request), rooms).result()[1]
    rows = phase_cells(case, haplotypes, phased, names)
    return [
        "The run made %s%s %s." % (count(int(sweeps), "sweep"), "," * (settled == "unsettled"), ending[settled]),
        "Phased total: %s steps at the start, %s at the end. Source's total at the end: %s." % (start, end, source),
    ] + variant_table(case, PHASE + ["qual", "gq"], rows, decimals(quals), decimals(gqs))


def told_flist(_request, _case, fields, slices):
    size, lines = map(int, fields)
    text = bytes(slices[0][:size]).decode("ascii")
    return ["%s in %s; a byte 0 ends each:" % (count(lines, "line"), count(size, "byte"))] + [
        "  " + line for line in text.split("\0")[:-1]]


FILTERS = ("passed", "too dense", "too deep", "too dense and too deep")


def told_filter(request, case, _fields, slices):
    quals, least, distance, most, depth = request.parts
    rows = [["%.1f" % quals[v], x.dp, FILTERS[slices[0][v]]] for v, x in enumerate(case.variants)]
    return [
        "Strong: qual %.1f or more. Too deep: dp above %d." % (least, depth),
        "Too dense: from a strong variant to the last strong one at most %d positions after it, if there are more than "
        "%d such ones." % (distance, most),
    ] + variant_table(case, ["qual", "dp", "filter"], rows)


def told_orders(_request, case, _fields, slices):
    n = len(case.variants)
    return ["order %d: %s" % (m, plain_text(slices[0][n * m:n * (m + 1)])) for m in range(len(slices[0]) // max(n, 1))]


def told_late(request, case, fields, slices):
    """After an arrival or a departure; the case is the one before."""
    (words, likelihoods, counts), f = slices, request.parts[LatePart.NUMBER]
    at, two, free = Layout.of(words), likelihoods[PAIR * f:PAIR * (f + 1)], len(free_and_unused(words)[0])
    after = check(words, request.bases)
    own = after.fragments[f]
    quiet = "" if own.votes() else ", muted,"
    happened = "left; its number can be taken again" if not own.present else "arrived%s with %s, first record %d" % (
        quiet, count(len(own.calls), "call"), words[at.fragment(f) + FRAGMENT.first])
    rows = [count_cells(x, COUNTED.read(counts, COUNTED.words * v)) for v, x in enumerate(case.variants)]
    return [
        "Fragment %d %s. Call records used: %d of %d, %d of them free." % (f, happened, words[HEAD.used], at.c, free),
        "Its likelihoods are %d and %d. Phased total: %s steps. The sample is now %s." % (*two, *fields[::-1]),
        about_counts(case, after)] + variant_table(case, COUNTS, rows)


TOLD = {"check": told_check, "priors": told_priors, "nohap": told_nohap, "phase": told_phase, "run": told_run,
        "flist": told_flist, "filter": told_filter, "orders": told_orders, "arrive": told_late, "depart": told_late}


# ---- Refusals. Each function takes the request and the place: what is wrong there, and what is expected.


def head_ranges(words):
    """Each word of the head: what it is, its lowest and its highest value."""
    return {
        HEAD.n: ("N, the number of variants,", 0, MAX_VARIANTS), HEAD.f: ("F, the number of fragments,", 0, MAX_FRAGMENTS),
        HEAD.c: ("C, the number of call records,", 0, MAX_CALLS), HEAD.cutoff: ("the cutoff", LOWEST, 0),
        HEAD.used: ("the number of call records used", 0, words[HEAD.c]),
        HEAD.free: ("the first free call record, or 0,", 0, words[HEAD.used]),
    }


def wrong_head(request, place):
    size = len(request.words)
    if size < HEAD.words:
        return "`words` has %s; the head alone has %d" % (count(size, "element"), HEAD.words)
    if place < HEAD.words:
        name, low, high = head_ranges(request.words)[place]
        return "word %d of the head is %d: %s must be in %d..%d" % (place, request.words[place], name, low, high)
    at = Layout.of(request.words)
    return "`words` has %s: with N = %d, F = %d and C = %d it must have %d" % (
        count(size, "element"), at.n, at.f, at.c, at.total())


def record(request, kind, start):
    """A record's own words, as the end of a sentence."""
    return "Its words are " + plain_text(request.words[start:start + kind.words])


def wrong_variant(request, place):
    own = record(request, VARIANT, Layout.of(request.words).variant(place))
    if request.word in LATE:
        lent = request.parts[LatePart.HAPLOTYPES][PAIR * place:PAIR * (place + 1)]
        own += ". Its haplotypes, which must be below k, are " + plain_text(lent)
    return ("variant %d is out of range: pos0 must be 0 or more and not below that of the variant before, dp 0 or "
            "more, both genotype alleles in 0..k-1, k in 1..%d, the lengths of its k alleles in 1..%d and those past "
            "them 0. %s" % (place, MAX_ALLELES, MAX_LENGTH, own))


def wrong_bases(request, place):
    at = Layout.of(request.words)
    if place < at.n:
        return "variant %d has a byte in its alleles other than 65 (A), 67 (C), 71 (G) and 84 (T)" % place
    total = sum(sum(VARIANT.read(request.words, at.variant(v)).lengths) for v in range(at.n))
    return "`bases` has %s: it must have %d, the sum of all allele lengths" % (count(len(request.bases), "byte"), total)


def arriving(request):
    """Whether the fault is one of the arriving calls: the case itself is within the rules."""
    return request.word == "arrive" and Request("check", request.words, request.bases).refusal() is None


def wrong_call(request, place):
    at, late = Layout.of(request.words), arriving(request)
    calls = request.parts[LatePart.CALLS] if late else request.words
    kind, start = (ARRIVING, ARRIVING.words * place) if late else (CALL, at.call(place))
    return ("%s %d is out of range: its variant must be below %d, its allele below that variant's k, both qualities in "
            "%d..0. Its words are %s" % ("arriving call" if late else "call record", place, at.n, LOWEST,
                                         plain_text(calls[start:start + kind.words])))


EXPECTED_STRAND = "0 (forward), 1 (reverse), 2 (muted forward) or 3 (muted reverse)"


def wrong_fragment(request, place):
    if arriving(request):
        return wrong_arrival(request, place)
    at, used = Layout.of(request.words), request.words[HEAD.used]
    if place == at.f:
        return wrong_free(request.words[HEAD.free], used)
    own = record(request, FRAGMENT, at.fragment(place))
    return ("fragment %d is wrong: its first record must be -1, if it is absent, or in 0..%d, the records used, and its "
            "strand %s; along its chain each next must be in 0..%d, and the variants must rise; no record may be an "
            "earlier fragment's. %s" % (place, used, EXPECTED_STRAND, used, own))


def wrong_free(first, used):
    return ("the free chain is wrong, which starts at record %d (0: there is none): each next in it must be in 0..%d, and no "
            "record of it may come twice or be a fragment's; each of the records 1..%d must be in a fragment's chain or in "
            "this one" % (first, used, used))


def wrong_arrival(request, place):
    words, strand = len(request.parts[LatePart.CALLS]), request.parts[LatePart.STRAND]
    if place < words // ARRIVING.words:
        return "the variant of arriving call %d does not rise over that of the call before" % place
    return "the arrival has %s and the strand %d: it must have %d words for each call, and the strand %s" % (
        count(words, "word"), strand, ARRIVING.words, EXPECTED_STRAND)


def wrong_rates(request, place):
    rates = request.parts[0]
    if place == len(RATES):
        return "the first four rates are too high: as probabilities they must add up to less than 1"
    return "rate %d, %s, is %d: it must be in %d..-1" % (place, RATES[place], rates[place], LOWEST)


def wrong_phase(request, place):
    (phase, sets), n = given(request), Layout.of(request.words).n
    if request.word in LATE:
        return "`phase` has %s: it must have %d, one for each variant" % (count(len(phase), "element"), n)
    if place == n:
        return "`phase` has %s and `sets` %d: each must have %d, one for each variant" % (
            count(len(phase), "element"), len(sets), n)
    return "the set of variant %d is %d: it must be below %d, or negative for none" % (place, sets[place], n)


def wrong_orders(request, place):
    n = Layout.of(request.words).n
    size = request.rooms[0] if request.word == "orders" else len(request.parts[3])
    if size == 0 or n == 0 or size % n:
        return "`orders` has %s: it must have a multiple of %d, one order or more (none if there are no variants)" % (
            count(size, "element"), n)
    return "order %d is no permutation: it must name each of the variants 0..%d once" % (place, n - 1)


def wrong_limit(_request, place):
    return "the limit is %d: it must be in 1..%d" % (place, MAX_SWEEPS)


def wrong_room(request, place):
    at = Layout.of(request.words)
    late = map(len, request.parts[LatePart.HAPLOTYPES:LatePart.TOTAL]) if request.word in LATE else []
    rooms = dict(zip(SLICES[request.word], [*late, *request.rooms]))
    if request.word in LATE and place == 0:
        return ("a value is out of range, as it was lent or as it would be written: the total and the likelihoods must "
                "be in %d..0, the counts in 0..%d" % (LOWEST_LENT, MAX_COUNT))
    need = {"buffer": place} if request.word == "flist" else dict(
        zip(SLICES[request.word], needs(request.word, at.n, at.f)))
    if request.word == "filter":
        rooms["quals"], need["quals"] = len(request.parts[0]), at.n
    short = ["`%s` has room for %d" % (name, rooms[name]) for name in rooms if rooms[name] < need[name] == place]
    return "a slice is too short: %s; it must have %s or more" % (" and ".join(short), count(place, "element"))


def wrong_density(request, _place):
    return "density_qual is %s: it must be finite" % request.parts[1]


def wrong_sum(_request, place):
    return "the posteriors of variant %d do not add up; this is proved never to happen" % place


def wrong_number(request, place):
    f = Layout.of(request.words).f
    if place >= f:
        return "there is no fragment %d: the fragments are those below %d" % (place, f)
    return "fragment %d is %s" % (place, "present: an absent one can arrive" if request.word == "arrive" else
                                  "absent: a present one can depart")


def no_records(request, place):
    free, unused = map(len, free_and_unused(request.words))
    return "the arrival has %s and there are %d free and %d unused records" % (count(place, "call"), free, unused)


WRONG = {1: wrong_head, 2: wrong_variant, 3: wrong_bases, 4: wrong_call, 5: wrong_fragment, 6: wrong_rates,
         7: wrong_phase, 8: wrong_orders, 9: wrong_limit, 10: wrong_room, 11: wrong_density, 12: wrong_sum,
         13: wrong_number, 14: no_records}


def refused(request, refusal, place):
    return ["refused %d %d: %s." % (refusal, place, WRONG[refusal](request, place))]


# ---- What cannot be read.

REASONS = {
    "request": "is no word of a request; the words are " + ", ".join(REQUESTS),
    "number": "is no whole number, or one that does not fit its type",
    "length": "is the length of a slice that the program cannot hold; ./condorbed --help lists the limits",
    "end": "is missing: the input ends within the request",
}


def shown(text, line, start):
    """The line around the place where a token starts, and a mark below the token."""
    first = text.rfind("\n", 0, start) + 1
    left = max(first, start - 60)
    part = re.sub(r"[^ -~]", "?", re.sub(r"[\t\r]", " ", text[left:left + 100].partition("\n")[0]))
    front = "  line %d: %s" % (line, "... " if left > first else "")
    return [(front + part).rstrip(), " " * (len(front) + start - left) + "^"]


def unreadable(reader, first):
    line, token, reason = int(first[1]), int(first[2]), first[3]
    found = next(itertools.islice(reader.tokens, token - 1, None), None)
    start = found.start() if found else len(reader.text)
    return ["%s: token %d of the request, in line %d, %s." % (" ".join(first), token, line, REASONS[reason])] + shown(
        reader.text, line, start)


# ---- All of it.


def heading(text):
    return [text, "-" * len(text)]


def about(case):
    calls = sum(len(fragment.calls) for fragment in case.fragments)
    absent = sum(not fragment.present for fragment in case.fragments)
    apart = ", ".join("%d %s" % pair for pair in [(absent, "absent"), (len(muted(case)), "muted")] if pair[0])
    return "%s, %s%s, %s; cutoff %d steps (Phred %.1f)" % (
        count(len(case.variants), "variant"), count(len(case.fragments), "fragment"), " (%s)" % apart if apart else "",
        count(calls, "call"), case.cutoff, phred(case.cutoff))


def told(request, first, slices):
    if first[0] == "refused":
        return refused(request, int(first[1]), int(first[2]))
    case = check(request.words, request.bases)
    return [about(case)] + TOLD[request.word](request, case, first[1:], slices)


def explanation(text, answers):
    """The program's answers to the requests of a text, as lines for people."""
    reader, lines = Reader(text), iter(answers.splitlines())
    if not answers:
        yield "There is no request in the input."
    for i, line in enumerate(lines, 1):
        first = line.split()
        if i > 1:
            yield ""
        if first[0] == "unreadable":
            yield from heading("Request %d" % i)
            yield from unreadable(reader, first)
            return
        request = reader.request()
        slices = [[int(x) for x in next(lines).split()] for _ in request.befores()]
        yield from heading("Request %d, line %d: %s (%s)" % (i, reader.line, request.word, REQUESTS[request.word]))
        yield from told(request, first, slices)
