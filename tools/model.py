"""An independent model of documents 01 and 02 in Python, for recorded answers and comparisons.

It is written from the documents and not from the Rattle code: a case as words and bases in, an answer
or a refusal with its number and place out. Whole numbers are exact; qualities are written as 64-bit patterns.

Each operation is a function of the request's parts and its output slices before; it gives the returned fields and the
output slices afterwards, or raises Refused. A slice that is lent to be read and written is both a part and an output
slice. Where the answer is much work, `accept_...` is its part that refuses.
"""
import math
import struct

import knots
from layout import (ABSENT, ARRIVING, CALL, CALLED, COUNTED, FORWARD, FRAGMENT, HEAD, LOWEST, LOWEST_LENT, MAX_ALLELES,
                    MAX_CALLS, MAX_COUNT, MAX_FRAGMENTS, MAX_LENGTH, MAX_VARIANTS, PAIR, REVERSE, STRANDS, TABLE, VARIANT,
                    Layout, needs)


class Refused(Exception):
    """A refusal: its number and its place."""

    def __init__(self, number, place):
        super().__init__(number, place)
        self.number, self.place = number, place


class Variant:
    def __init__(self, pos0, dp, genotype, alleles):
        self.pos0, self.dp, self.genotype, self.alleles = pos0, dp, tuple(genotype), list(alleles)


class Call:
    def __init__(self, variant, allele, qual, one_minus_qual):
        self.variant, self.allele, self.qual, self.one_minus_qual = variant, allele, qual, one_minus_qual


class Fragment:
    """An absent fragment has a strand and no calls."""

    def __init__(self, strand, calls, present=True):
        self.strand, self.calls, self.present = strand, list(calls), present

    def votes(self):
        """Request 5: whether it is not muted."""
        return self.strand in (FORWARD, REVERSE)

    def reverse(self):
        """Whether it is on the reverse strand, muted or not."""
        return self.strand % 2 == REVERSE


class Case:
    def __init__(self, variants, fragments, cutoff):
        self.variants, self.fragments, self.cutoff = list(variants), list(fragments), cutoff

    def usable(self, fragment, call):
        """01, section 2, as amended by request 5."""
        return fragment.votes() and call.qual < self.cutoff

    def usable_calls(self, fragment):
        return [call for call in fragment.calls if self.usable(fragment, call)]


def encode(case, numbering=None, idle=None, used=None, free=None):
    """Words and bases of a case. numbering: for each call, fragment after fragment, its record number; in order where it
    is left out. idle: the words of the other records, by their numbers; the next of a free one is made to fit. used: all
    records where it is left out. free: the free records in their order; the used idle ones where it is left out."""
    calls, idle = [(f, i) for f, x in enumerate(case.fragments) for i in range(len(x.calls))], idle or {}
    c = len(calls) + len(idle)
    used = c if used is None else used
    free = [r for r in sorted(idle) if r <= used] if free is None else free
    number = dict(zip(calls, numbering or [r for r in range(1, c + 1) if r not in idle]))
    words = HEAD.make(n=len(case.variants), f=len(case.fragments), c=c, cutoff=case.cutoff, used=used,
                      free=(free + [0])[0])
    for v in case.variants:
        words += VARIANT.make(pos0=v.pos0, dp=v.dp, genotype=list(v.genotype), k=len(v.alleles),
                              lengths=[len(a) for a in v.alleles])
    for f, x in enumerate(case.fragments):
        words += FRAGMENT.make(first=number.get((f, 0), 0) if x.present else ABSENT, strand=x.strand)
    records = {r: list(own) for r, own in idle.items()}
    for r, following in zip(free, free[1:] + [0]):
        records[r][CALL.next] = following
    for f, i in calls:
        x, following = case.fragments[f].calls[i], number.get((f, i + 1), 0)
        records[number[f, i]] = CALL.make(variant=x.variant, allele=x.allele, qual=x.qual,
                                          one_minus_qual=x.one_minus_qual, next=following)
    words += [word for r in range(1, c + 1) for word in records[r]]
    return words, [ord(c) for v in case.variants for a in v.alleles for c in a]


def check_head(words):
    """Number 1: the layout, and the head."""
    if len(words) < HEAD.words:
        raise Refused(1, 0)
    ranges = [(HEAD.n, 0, MAX_VARIANTS), (HEAD.f, 0, MAX_FRAGMENTS), (HEAD.c, 0, MAX_CALLS), (HEAD.cutoff, LOWEST, 0),
              (HEAD.used, 0, words[HEAD.c]), (HEAD.free, 0, words[HEAD.used])]
    for place, low, high in ranges:
        if not low <= words[place] <= high:
            raise Refused(1, place)
    at = Layout.of(words)
    if len(words) != at.total():
        raise Refused(1, HEAD.words)
    return at, HEAD.read(words, 0)


def check_variants(at, words, haplotypes):
    """Number 2: the records, and the haplotypes where they are lent as input."""
    before = 0
    for v in range(at.n):
        x = VARIANT.read(words, at.variant(v))
        if x.pos0 < 0 or x.pos0 < before or x.dp < 0 or not 1 <= x.k <= MAX_ALLELES:
            raise Refused(2, v)
        if not all(0 <= a < x.k for a in list(x.genotype) + list(haplotypes[PAIR * v:PAIR * (v + 1)])):
            raise Refused(2, v)
        for j, length in enumerate(x.lengths):
            if not (1 <= length <= MAX_LENGTH if j < x.k else length == 0):
                raise Refused(2, v)
        before = x.pos0


def check_alleles(at, words, bases):
    """Number 3: each variant's alleles."""
    lengths = [VARIANT.read(words, at.variant(v)).lengths for v in range(at.n)]
    if len(bases) != sum(map(sum, lengths)):
        raise Refused(3, at.n)
    start, alleles = 0, []
    for v in range(at.n):
        mine = []
        for length in lengths[v]:
            mine.append(bases[start:start + length])
            start += length
        if any(x not in b"ACGT" for a in mine for x in a):
            raise Refused(3, v)
        alleles.append([bytes(a).decode() for a in mine if a])
    return alleles


def reached(at, words, used):
    """The records that some fragment reaches by following first and next through 1..used, whatever else is wrong."""
    found = set()
    for f in range(at.f):
        r = words[at.fragment(f) + FRAGMENT.first]
        while 1 <= r <= used and r not in found:
            found.add(r)
            r = words[at.call(r) + CALL.next]
    return found


def in_range(call, alleles):
    """Whether a call's variant, allele and qualities are within their ranges; alleles are those of each variant."""
    return (0 <= call.variant < len(alleles) and 0 <= call.allele < len(alleles[call.variant])
            and LOWEST <= call.qual <= 0 and LOWEST <= call.one_minus_qual <= 0)


def check_calls(at, words, used, alleles):
    """Number 4: the lowest reached record that is out of range."""
    for r in sorted(reached(at, words, used)):
        if not in_range(CALL.read(words, at.call(r)), alleles):
            raise Refused(4, r)


def check_fragments(at, words, used, taken):
    """Number 5, place the fragment: the fragments. The records of their chains join those taken."""
    fragments = []
    for f in range(at.f):
        fragment, calls = FRAGMENT.read(words, at.fragment(f)), []
        present, r = fragment.first != ABSENT, fragment.first
        if fragment.strand not in STRANDS:
            raise Refused(5, f)
        while present and r != 0:
            if not 1 <= r <= used or r in taken:
                raise Refused(5, f)
            x = CALL.read(words, at.call(r))
            if calls and not calls[-1].variant < x.variant:
                raise Refused(5, f)
            taken.add(r)
            calls.append(Call(x.variant, x.allele, x.qual, x.one_minus_qual))
            r = x.next
        fragments.append(Fragment(fragment.strand, calls, present))
    return fragments


def check_free(at, words, head, taken):
    """Number 5, place F: the free chain, and that each used record lies in a chain. Of a free record only next counts."""
    r = head.free
    while r != 0:
        if not 1 <= r <= head.used or r in taken:
            raise Refused(5, at.f)
        taken.add(r)
        r = words[at.call(r) + CALL.next]
    if taken != set(range(1, head.used + 1)):
        raise Refused(5, at.f)


def check(words, bases, haplotypes=()):
    """01, section 2 and the table of refusals, numbers 1 to 5, as amended by requests 1, 3 and 5: the case, or Refused.
    Haplotypes are those lent as input."""
    at, head = check_head(words)
    check_variants(at, words, haplotypes)
    alleles = check_alleles(at, words, bases)
    check_calls(at, words, head.used, alleles)
    taken = set()
    fragments = check_fragments(at, words, head.used, taken)
    check_free(at, words, head, taken)
    variants = []
    for v in range(at.n):
        x = VARIANT.read(words, at.variant(v))
        variants.append(Variant(x.pos0, x.dp, x.genotype, alleles[v]))
    return Case(variants, fragments, head.cutoff)


def pattern(x):
    """An f64's 64-bit pattern; a NaN's is the one that the program prints."""
    return 0x7FF8000000000000 if math.isnan(x) else struct.unpack("<Q", struct.pack("<d", x))[0]


def number(bits):
    """The f64 of a 64-bit pattern."""
    return struct.unpack("<d", struct.pack("<Q", bits))[0]


def need(counts, slices):
    """01, number 10: the elements needed in each slice; the smallest count that a slice falls short of."""
    short = [count for count, s in zip(counts, slices) if len(s) < count]
    if short:
        raise Refused(10, min(short))


def written(values, before):
    """A slice afterwards: the values, and what lies past them unchanged."""
    return values + list(before[len(values):])


def check_case(words, bases):
    check(words, bases)
    return [], []


def var_filter(words, bases, quals, density_qual, density_dist, density_count, max_depth, filters):
    """01, section 7: the filter bytes afterwards."""
    case = check(words, bases)
    n = len(case.variants)
    need([n] + needs("filter", n, 0), [quals, filters])
    if not math.isfinite(density_qual):
        raise Refused(11, 0)
    strong = [not quals[v] < density_qual for v in range(n)]
    pos0 = [v.pos0 for v in case.variants]
    out = [0] * n
    for i in range(n):
        if not strong[i]:
            continue
        count = 0
        for j in range(i + 1, n):
            if strong[j] and pos0[j] - pos0[i] <= density_dist:
                count += 1
                if count > density_count:
                    for v in range(i, j + 1):
                        out[v] |= 1
    for v in range(n):
        if case.variants[v].dp > max_depth:
            out[v] |= 2
    return [], [written(out, filters)]


# ---- 01, section 1: steps. None is the mark, probability zero.


_T = []


def addend(d):
    """A(d)."""
    if not _T:
        _T.extend(knots.table()[1])
    if d >= 53248:
        return 0
    k, r = divmod(d, 32)
    return _T[k] - (_T[k] - _T[k + 1]) * r // 32


def ln_add_exp(a, b):
    if a is None or b is None:
        return b if a is None else a
    return max(a, b) + addend(abs(a - b))


def ln_sum_exp(values):
    total = None
    for x in values:
        total = ln_add_exp(total, x)
    return total


def ln_one_minus_exp(p):
    """The greatest q <= 0 with ln_add_exp(p, q) <= 0; of 0 the mark."""
    if p == 0:
        return None
    if p is None:
        return 0
    low, high = -65536, 1
    while high - low > 1:
        middle = (low + high) // 2
        if ln_add_exp(p, middle) <= 0:
            low = middle
        else:
            high = middle
    return low


MAX_VCF_QUAL = 500.0


def phred(p):
    return MAX_VCF_QUAL if p is None else float(-p) * ((3.010299956639812 / 1048576) * 256)


def capped_phred(p):
    return min(phred(p), MAX_VCF_QUAL)


def quality_byte(p):
    return 33 + sum(1 for w in range(1, 94) if w <= phred(p))


# ---- 01, section 3: priors. Rates: hom_snv, het_snv, hom_indel, het_indel, ts, tv.

HALF, QUARTER = -4096, -8192


def check_rates(rates):
    for i, rate in enumerate(rates):
        if not LOWEST <= rate <= -1:
            raise Refused(6, i)
    if not ln_sum_exp(rates[:4]) < 0:
        raise Refused(6, 6)


def _letter(rates, same, snv, indel, base, letter):
    if letter in "DI":
        return indel + HALF + QUARTER
    if letter == base:
        return same
    transition = base + letter in ("AG", "GA", "CT", "TC")
    return snv + (rates[4] if transition else rates[5])


def diploid(rates, base, first, second):
    hom_snv, het_snv, hom_indel, het_indel = rates[:4]
    if first == second:
        return _letter(rates, ln_one_minus_exp(ln_sum_exp(rates[:4])), hom_snv, hom_indel, base, first)
    same = ln_one_minus_exp(het_snv + het_indel)
    return sum(_letter(rates, same, het_snv, het_indel, base, x) for x in (first, second))


def _compared(reference, allele, base):
    if len(allele) != len(reference):
        return base, "I" if len(allele) > len(reference) else "D"
    if allele[0] != base:
        return base, allele[0]
    stop = next((i for i in range(len(allele)) if allele[i] != reference[i]), len(allele) - 1)
    return reference[stop], allele[stop]


def get_prior(rates, variant, i, j):
    reference = variant.alleles[0]
    base, first = _compared(reference, variant.alleles[i], reference[0])
    base, second = _compared(reference, variant.alleles[j], base)
    return diploid(rates, base, first, second) + (HALF if first != second else 0)


def pairs(variant):
    k = len(variant.alleles)
    return [(i, j) for i in range(k) for j in range(k)]


def nine(values):
    """A table's places: the values of the pairs, then zeros."""
    return values + [0] * (TABLE - len(values))


def genotype_priors(words, bases, rates, priors):
    """01, section 3: the priors' slice afterwards."""
    case = check(words, bases)
    check_rates(rates)
    need(needs("priors", len(case.variants), 0), [priors])
    out = [x for v in case.variants for x in nine([get_prior(rates, v, i, j) for i, j in pairs(v)])]
    return [], [written(out, priors)]


# ---- 01, section 4, as amended by request 4: posteriors.


def normalize(variant, scores):
    """Scores of the pairs in row-major order, less the sum of row sums."""
    k = len(variant.alleles)
    total = ln_sum_exp([ln_sum_exp(scores[k * i:k * i + k]) for i in range(k)])
    return [x - total for x in scores]


def max_genotype(variant, posts, phased):
    """The called pair: the first row-major maximum (strict >)."""
    k = len(variant.alleles)
    best, top = None, None
    for i, j in pairs(variant):
        score = posts[k * i + j]
        if not phased and i != j:
            score = ln_add_exp(score, posts[k * j + i])
        if top is None or score > top:
            best, top = (i, j), score
    return best


def qualities(variant, posts, called):
    """The patterns of qual, Phred of pair (0, 0), and gq, Phred of the sum over pairs other than the called one and its
    mirror: 01, section 4, as amended by request 4, and section 7."""
    k = len(variant.alleles)
    others = [posts[k * i + j] for i, j in pairs(variant) if called not in ((i, j), (j, i))]
    return pattern(capped_phred(posts[0])), pattern(capped_phred(ln_sum_exp(others)))


def calls_at(case, v):
    return [(f, c) for f in case.fragments for c in f.calls if c.variant == v]


def call_without_haplotypes(call, i, j):
    matches = (i == call.allele) + (j == call.allele)
    if matches == 2:
        return call.one_minus_qual
    if matches == 0:
        return call.qual
    return ln_add_exp(call.qual + HALF, call.one_minus_qual + HALF)


def accept_no_haplotypes(words, bases, rates, variants, quals, gqs):
    case = check(words, bases)
    check_rates(rates)
    need(needs("nohap", len(case.variants), 0), [variants, quals, gqs])
    return case


def counted(case, v):
    """The counts of a variant: usable calls by allele, those on each strand, ambiguous calls (a muted fragment's are)."""
    here = calls_at(case, v)
    used = [(f, c) for f, c in here if case.usable(f, c)]
    forward, reverse = ([sum(1 for f, c in used if (f.reverse(), c.allele) == (side, a)) for a in range(MAX_ALLELES)]
                        for side in (False, True))
    return COUNTED.make(counts=[x + y for x, y in zip(forward, reverse)], forward=forward, reverse=reverse,
                        ambiguous=len(here) - len(used))


def call_genotypes_no_haplotypes(words, bases, rates, variants, quals, gqs):
    """01, section 4, as amended by request 4: the three slices afterwards (qualities as patterns)."""
    case = accept_no_haplotypes(words, bases, rates, variants, quals, gqs)
    out, both = [], []
    for v, variant in enumerate(case.variants):
        here = calls_at(case, v)
        used = [(f, c) for f, c in here if case.usable(f, c)]
        scores = [get_prior(rates, variant, i, j) + sum(call_without_haplotypes(c, i, j) for _, c in used)
                  for i, j in pairs(variant)]
        posts = normalize(variant, scores)
        called = max_genotype(variant, posts, False)
        counts = COUNTED.read(counted(case, v), 0)
        out += CALLED.make(genotype=list(called), depth=max(variant.dp, len(here)), **vars(counts))
        both.append(qualities(variant, posts, called))
    return [], [written(out, variants), written([q for q, _ in both], quals), written([g for _, g in both], gqs)]


# ---- 01, section 5: the given phase.


def phase_rule(variant):
    """The phased rule without the byte."""
    a = variant.alleles
    return len(a) >= 2 and variant.genotype[0] != variant.genotype[1] and len(a[0]) == 1 and len(a[1]) == 1


def phased_flags(case, phase):
    return [phase_rule(v) and b in (48, 49) for v, b in zip(case.variants, phase)]


def check_length(case, *slices):
    """Number 7: one element for each variant."""
    if any(len(x) != len(case.variants) for x in slices):
        raise Refused(7, len(case.variants))


def check_phase(case, phase, sets):
    check_length(case, phase, sets)
    for v, name in enumerate(sets):
        if name >= len(case.variants):
            raise Refused(7, v)


def start_haplotypes(case, phase):
    out = []
    for variant, byte in zip(case.variants, phase):
        low, high = sorted(variant.genotype)
        out += {48: [low, high], 49: [high, low]}.get(byte, list(variant.genotype))
    return out


def given_phase(words, bases, phase, sets, haplotypes, phased, names):
    case = check(words, bases)
    check_phase(case, phase, sets)
    n = len(case.variants)
    need(needs("phase", n, 0), [haplotypes, phased, names])
    flags = [int(flag) for flag in phased_flags(case, phase)]
    name = []
    for v in range(n):
        if sets[v] < 0 or phase[v] not in (48, 49):
            name.append(0)
        else:
            name.append(min(case.variants[u].pos0 for u in range(n) if sets[u] == sets[v]) + 1)
    return [], [written(start_haplotypes(case, phase), haplotypes), written(flags, phased), written(name, names)]


# ---- 01, section 6: sweeps.


def check_orders(n, orders):
    if n == 0:
        if orders:
            raise Refused(8, 0)
        return [[]]
    if not orders or len(orders) % n:
        raise Refused(8, 0)
    out = [orders[i:i + n] for i in range(0, len(orders), n)]
    for i, order in enumerate(out):
        if sorted(order) != list(range(n)):
            raise Refused(8, i)
    return out


def pair_at(haps, v):
    return tuple(haps[PAIR * v:PAIR * (v + 1)])


def with_pair(haps, v, pair):
    """The haplotypes with another pair at v."""
    return haps[:PAIR * v] + list(pair) + haps[PAIR * (v + 1):]


def likelihood(calls, alleles, counts):
    """Of these usable calls on the haplotype with these alleles, over the variants that count."""
    return sum(c.one_minus_qual if c.allele == alleles[c.variant] else c.qual for c in calls if counts(c.variant))


def likelihoods_of(calls, haps, counts):
    return [likelihood(calls, haps[h::PAIR], counts) for h in range(PAIR)]


def share(two):
    """What a read with these two likelihoods adds to a total."""
    return ln_add_exp(two[0] + HALF, two[1] + HALF)


class Sweeps:
    """The definitions of section 6 over a case, its priors and its phased flags."""

    def __init__(self, case, rates, phased):
        self.case, self.phased = case, phased
        self.priors = [{(i, j): get_prior(rates, v, i, j) for i, j in pairs(v)} for v in case.variants]
        self.reads = [case.usable_calls(f) for f in case.fragments]

    def in_phase(self, v):
        return self.phased[v]

    def score(self, v, haps, i, j):
        changed = with_pair(haps, v, (i, j))
        total = self.priors[v][i, j]
        for calls in self.reads:
            for c in calls:
                if c.variant == v:
                    total += share(likelihoods_of(calls, changed, lambda w: w == v or self.phased[w]))
        return total

    def total(self, haps, counts):
        priors = sum(self.priors[v][pair_at(haps, v)] for v in range(len(self.priors)) if counts(v))
        return priors + sum(share(likelihoods_of(calls, haps, counts)) for calls in self.reads)

    def likelihoods(self, haps):
        return [x for calls in self.reads for x in likelihoods_of(calls, haps, self.in_phase)]

    def run(self, haps, orders, limit):
        posts = {}
        for s in range(limit):
            before = list(haps)
            for v in orders[s % len(orders)]:
                scores = [self.score(v, haps, i, j) for i, j in pairs(self.case.variants[v])]
                best = scores.index(max(scores))
                k = len(self.case.variants[v].alleles)
                haps = with_pair(haps, v, divmod(best, k))
                posts[v] = normalize(self.case.variants[v], scores)
            if haps == before:
                return s + 1, True, haps, posts
        return limit, False, haps, posts


def accept_with_haplotypes(words, bases, rates, phase, sets, orders, limit, *slices):
    """The case and its list of orders; the slices are haplotypes, likelihoods, posteriors, quals and gqs."""
    case = check(words, bases)
    check_rates(rates)
    check_phase(case, phase, sets)
    n, f = len(case.variants), len(case.fragments)
    lists = check_orders(n, orders)
    if not 1 <= limit <= 1000000:
        raise Refused(9, limit)
    need(needs("run", n, f), slices)
    return case, lists


def final_answers(case, posts):
    """01, section 7: each variant's latest posteriors, 9 per variant, its qual and its gq."""
    post, both = [], []
    for v, variant in enumerate(case.variants):
        post += nine(posts[v])
        both.append(qualities(variant, posts[v], max_genotype(variant, posts[v], True)))
    return post, [q for q, _ in both], [g for _, g in both]


def call_genotypes_with_haplotypes(words, bases, rates, phase, sets, orders, limit, *befores):
    """01, sections 6 and 7: the returned fields and the five slices afterwards (qualities as patterns)."""
    case, lists = accept_with_haplotypes(words, bases, rates, phase, sets, orders, limit, *befores)
    sweeps = Sweeps(case, rates, phased_flags(case, phase))
    start = start_haplotypes(case, phase)
    count, settled, haps, posts = sweeps.run(start, lists, limit)
    fields = [count, "settled" if settled else "unsettled", sweeps.total(start, sweeps.in_phase),
              sweeps.total(haps, sweeps.in_phase), sweeps.total(haps, lambda v: True)]
    afters = [haps, sweeps.likelihoods(haps)] + list(final_answers(case, posts))
    return fields, [written(new, old) for new, old in zip(afters, befores)]


# ---- 01, section 7: fragment lines and orders.


def generate_flist_buffer(words, bases, single_reads, buffer):
    """Bytes and lines written; the buffer afterwards."""
    case = check(words, bases)
    flags = [phase_rule(v) for v in case.variants]
    text, lines = b"", 0
    for fragment in case.fragments:
        calls = [c for c in fragment.calls if flags[c.variant] and case.usable(fragment, c)]
        if not calls or (len(calls) == 1 and not single_reads):
            continue
        blocks = []
        for c in calls:
            if blocks and c.variant == blocks[-1][-1].variant + 1:
                blocks[-1].append(c)
            else:
                blocks.append([c])
        parts = ["%d %d:%s" % (len(blocks), lines, "+" if fragment.reverse() else "-")]
        parts += ["%d %s" % (b[0].variant + 1, "".join(str(c.allele) for c in b)) for b in blocks]
        text += " ".join(parts).encode() + b" " + bytes(quality_byte(c.qual) for c in calls) + b"\0"
        lines += 1
    need([len(text)], [buffer])
    return [len(text), lines], [written(list(text), buffer)]


def splitmix(state):
    """The next state and its output."""
    mask = 2**64 - 1
    state = (state + 0x9E3779B97F4A7C15) & mask
    z = ((state ^ (state >> 30)) * 0xBF58476D1CE4E5B9) & mask
    z = ((z ^ (z >> 27)) * 0x94D049BB133111EB) & mask
    return state, z ^ (z >> 31)


def sweep_orders(words, bases, seed, orders):
    n = len(check(words, bases).variants)
    if (n == 0 and orders) or (n > 0 and (not orders or len(orders) % n)):
        raise Refused(8, 0)
    out, state = [], seed
    for _ in range(len(orders) // n if n else 0):
        order = list(range(n))
        for i in range(n - 1, 0, -1):
            state, z = splitmix(state)
            j = z % (i + 1)
            order[i], order[j] = order[j], order[i]
        out += order
    return [], [out]


# ---- 02, requests 1, 3 and 5: arrivals and departures.


def fresh_values(case, rates, phase, haps):
    """What arrivals and departures update, taken afresh: the likelihoods, the counts and the phased total."""
    sweeps = Sweeps(case, rates, phased_flags(case, phase))
    counts = [x for v in range(len(case.variants)) for x in counted(case, v)]
    return sweeps.likelihoods(haps), counts, sweeps.total(haps, sweeps.in_phase)


def afresh(words, bases, rates, phase, likelihoods, counts):
    """The fresh values of section 5's haplotypes: no operation of the program, but what the oracle tells of a case."""
    case = check(words, bases)
    fresh = fresh_values(case, rates, phase, start_haplotypes(case, phase))
    return [fresh[2]], [written(fresh[0], likelihoods), written(fresh[1], counts)]


def check_values(likelihoods, counts, total):
    """Number 10, place 0: the values that are updated, before or after."""
    if not all(LOWEST_LENT <= x <= 0 for x in likelihoods + [total]) or not all(0 <= x <= MAX_COUNT for x in counts):
        raise Refused(10, 0)


def check_lent(words, bases, phase, haplotypes, likelihoods, counts, total):
    """What arrivals and departures both check of what is lent; the case."""
    case = check(words, bases, haplotypes)
    check_length(case, phase)
    wanted = needs("arrive", len(case.variants), len(case.fragments))
    need(wanted, [haplotypes, likelihoods, counts])
    check_values(list(likelihoods[:wanted[1]]), list(counts[:wanted[2]]), total)
    return case


def arriving(case, strand, words):
    """The fragment that arrives: numbers 4 and 5, place the index of a call, or the number of whole calls."""
    whole = len(words) // ARRIVING.words
    calls = [ARRIVING.read(words, ARRIVING.words * i) for i in range(whole)]
    for i, call in enumerate(calls):
        if not in_range(call, [v.alleles for v in case.variants]):
            raise Refused(4, i)
    for i in range(1, whole):
        if not calls[i - 1].variant < calls[i].variant:
            raise Refused(5, i)
    if len(words) % ARRIVING.words or strand not in STRANDS:
        raise Refused(5, whole)
    return Fragment(strand, [Call(c.variant, c.allele, c.qual, c.one_minus_qual) for c in calls])


def recounted(case, fragment, counts, change):
    """The counts with the calls of a fragment added or taken off."""
    counts = list(counts)
    strand = COUNTED.reverse if fragment.reverse() else COUNTED.forward
    for call in fragment.calls:
        own = (COUNTED.counts + call.allele, strand + call.allele)
        for place in own if case.usable(fragment, call) else [COUNTED.ambiguous]:
            counts[COUNTED.words * call.variant + place] += change
    return counts


def updated(case, f, two, likelihoods, counts, total):
    """The answer with two other likelihoods of fragment f, if all values are in range afterwards; the lent slices
    without the words."""
    likelihoods = likelihoods[:PAIR * f] + two + likelihoods[PAIR * (f + 1):]
    wanted = needs("arrive", len(case.variants), len(case.fragments))
    check_values(likelihoods[:wanted[1]], counts[:wanted[2]], total)
    return ["unsettled", total], [likelihoods, counts]


def chain(words, r):
    """The records of an accepted case from r on, along next."""
    at, out = Layout.of(words), []
    while r > 0:
        out.append(r)
        r = words[at.call(r) + CALL.next]
    return out


def free_and_unused(words):
    """The free records of an accepted case and the unused ones, each in the order in which arrivals take them."""
    head = HEAD.read(words, 0)
    return chain(words, head.free), list(range(head.used + 1, head.c + 1))


def arrive(words, bases, phase, haplotypes, likelihoods, counts, total, f, strand, calls):
    """A fragment comes: its chain in the first free records, then in the next unused ones; likelihoods, counts and total
    with its share."""
    case = check_lent(words, bases, phase, haplotypes, likelihoods, counts, total)
    fragment = arriving(case, strand, calls)
    if f >= len(case.fragments) or case.fragments[f].present:
        raise Refused(13, f)
    at, whole, (free, unused) = Layout.of(words), len(fragment.calls), free_and_unused(words)
    if len(free) + len(unused) < whole:
        raise Refused(14, whole)
    phased = phased_flags(case, phase)
    two = likelihoods_of(case.usable_calls(fragment), haplotypes, lambda v: phased[v])
    fields, lent = updated(case, f, two, list(likelihoods), recounted(case, fragment, counts, 1), total + share(two))
    words, numbers = list(words), (free + unused)[:whole]
    words[HEAD.used] += len(numbers) - len(free[:whole])
    words[HEAD.free] = (free[whole:] + [0])[0]
    words[at.fragment(f):at.fragment(f + 1)] = FRAGMENT.make(first=(numbers + [0])[0], strand=strand)
    for r, following, call in zip(numbers, numbers[1:] + [0], fragment.calls):
        words[at.call(r):at.call(r + 1)] = CALL.make(next=following, **vars(call))
    return fields, [words] + lent


def depart(words, bases, phase, haplotypes, likelihoods, counts, total, f):
    """A fragment goes: what its lent likelihoods added is taken off the total. Its records go before the free ones."""
    case = check_lent(words, bases, phase, haplotypes, likelihoods, counts, total)
    if f >= len(case.fragments) or not case.fragments[f].present:
        raise Refused(13, f)
    off = share(likelihoods[PAIR * f:PAIR * (f + 1)])
    fields, lent = updated(case, f, [0, 0], list(likelihoods), recounted(case, case.fragments[f], counts, -1),
                           total - off)
    words, at = list(words), Layout.of(words)
    own = chain(words, words[at.fragment(f) + FRAGMENT.first])
    if own:
        words[at.call(own[-1]) + CALL.next] = words[HEAD.free]
        words[HEAD.free] = own[0]
    words[at.fragment(f) + FRAGMENT.first] = ABSENT
    return fields, [words] + lent


# Each request's word: its operation, and the part of it that refuses.
OPERATIONS = {
    "check": (check_case, check_case),
    "priors": (genotype_priors, genotype_priors),
    "nohap": (call_genotypes_no_haplotypes, accept_no_haplotypes),
    "phase": (given_phase, given_phase),
    "run": (call_genotypes_with_haplotypes, accept_with_haplotypes),
    "flist": (generate_flist_buffer, generate_flist_buffer),
    "filter": (var_filter, var_filter),
    "orders": (sweep_orders, sweep_orders),
    "arrive": (arrive, arrive),
    "depart": (depart, depart),
    "afresh": (afresh, afresh),
}
