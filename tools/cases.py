"""Cases of every kind, with the parts that the operations take besides, for recorded lists and comparisons.

Everything is drawn from the generator that is handed in, so that a seed fixes it.
"""
import itertools
import random

from layout import (CALL, LOWEST, MAX_ALLELES, MAX_CALLS, MAX_FRAGMENTS, MAX_LENGTH, MAX_VARIANTS, MUTED_FORWARD, STRANDS,
                    needs)
from model import (Call, Case, Fragment, Variant, check, check_rates, encode, free_and_unused, fresh_values,
                   start_haplotypes, Refused)
from protocol import LATE, Request, Update

RATES = [-70000] * 4 + [-4096, -8192]
MATCH, MISS = -1700, -5796
# The bytes that the fragment lines of a case can need.
MOST_LINES = 172032


def random_case(rng, most=6):
    n = rng.randrange(most)
    pos0, variants = 0, []
    for _ in range(n):
        pos0 += rng.choice([0, 1, 1, 2, 7])
        k = rng.randint(1, MAX_ALLELES)
        alleles = ["".join(rng.choice("ACGT") for _ in range(rng.choice([1, 1, 1, 2, 3]))) for _ in range(k)]
        variants.append(Variant(pos0, rng.choice([0, 3, 9]), (rng.randrange(k), rng.randrange(k)), alleles))
    fragments = []
    for _ in range(rng.randrange(most)):
        chosen = sorted(rng.sample(range(n), rng.randint(0, n)))
        fragments.append(Fragment(rng.randrange(2), [
            Call(v, rng.randrange(len(variants[v].alleles)), -rng.choice([0, 1, 1999, 2000, 2001, -LOWEST]),
                 -rng.choice([0, 5, -LOWEST]))
            for v in chosen]))
    return with_muted(rng, with_absent(rng, Case(variants, fragments, -rng.choice([0, 2000, -LOWEST]))))


def with_absent(rng, case):
    """The case with up to two absent fragments among the others, of any strand."""
    fragments = list(case.fragments)
    for _ in range(min(rng.choice([0, 0, 1, 2]), MAX_FRAGMENTS - len(fragments))):
        fragments.insert(rng.randint(0, len(fragments)), Fragment(rng.choice(STRANDS), [], present=False))
    return Case(case.variants, fragments, case.cutoff)


def muted(fragment):
    """The fragment on file without a vote."""
    return Fragment(MUTED_FORWARD + fragment.strand % 2, fragment.calls, fragment.present)


# The share of cases in which fragments may be muted, the chance of each fragment there, and the share of arriving reads that
# are muted. A third of all cases so lose a usable call.
WITH_MUTED, CHANCES, ARRIVE_MUTED = 0.65, [0.25, 0.5, 0.5, 1], 0.25


def with_muted(rng, case):
    """The case, mostly with some or all of its fragments muted."""
    chance = rng.choice(CHANCES) if rng.random() < WITH_MUTED else 0
    fragments = [muted(x) if rng.random() < chance else x for x in case.fragments]
    return Case(case.variants, fragments, case.cutoff)


def silenced(case):
    """Whether a muted fragment has a call that would be usable if it voted."""
    return any(call.qual < case.cutoff for x in case.fragments if not x.votes() for call in x.calls)


def random_words(rng):
    """The words of a free or unused record: nothing looks at them, but for a free one's next."""
    return [rng.choice([0, 1, 2, -1, 5, LOWEST - 1, 2147483647, -2147483648]) for _ in range(CALL.words)]


# How many records are free, and how many unused: a number of either is drawn. Room for lists of arrivals and departures:
# ample, and so little that they go over the same records again and again.
ROOM, NO_ROOM = [(0, 0, 1, 5), (0, 1, 3, 8)], [(0,), (0,)]
AMPLE, LITTLE = [(0, 0, 1, 5), (0, 2, 8, 30)], [(0, 1, 3), (0, 0, 1, 2)]


def random_records(rng, case, room=ROOM):
    """How the records of a case lie, for `encode`: chains among one another, each forwards, backwards or in any order,
    free records between them in any order, and an unused tail."""
    calls = sum(len(f.calls) for f in case.fragments)
    used = min(calls + rng.choice(room[0]), MAX_CALLS)
    places, numbering = iter(rng.sample(range(1, used + 1), calls)), []
    for f in case.fragments:
        own = list(itertools.islice(places, len(f.calls)))
        numbering += rng.choice([own, sorted(own), sorted(own, reverse=True)])
    c, taken = min(used + rng.choice(room[1]), MAX_CALLS), set(numbering)
    idle = {r: random_words(rng) for r in range(1, c + 1) if r not in taken}
    free = [r for r in idle if r <= used]
    return {"numbering": numbering, "idle": idle, "used": used, "free": rng.sample(free, len(free))}


# ---- Variants, reads and rates.


def random_alleles(rng, k):
    """k alleles: mostly single bases, all different; else any bases, indels, several bases with a common start, or all
    the same."""
    kind = rng.random()
    if kind < 0.6:
        return rng.sample("ACGT", k)
    if kind < 0.7:
        return [rng.choice("ACGT")] * k
    lengths = [rng.choice([1, 1, 2, 3]) for _ in range(k)] if kind < 0.9 else [rng.choice([2, 3, MAX_LENGTH])] * k
    start = rng.choice(["", "A", "AC"])
    return [(start + "".join(rng.choices("ACGT", k=length)))[:length] for length in lengths]


def random_variant(rng, pos0, k=None):
    k = k or rng.choice([1, 2, 2, 2, 3])
    genotype = (rng.randrange(k), rng.randrange(k))
    return Variant(pos0, rng.choice([0, 3, 9, 31, 2147483647]), genotype, random_alleles(rng, k))


def random_positions(rng, n):
    pos0, out = rng.choice([0, 5, 2147483647 - 7 * n]), []
    for _ in range(n):
        out.append(pos0)
        pos0 += rng.choice([0, 1, 1, 2, 7])
    return out


def random_qualities(rng, cutoff):
    """A way to draw the two qualities of a call: those of the samples, equal ones, the ends and the cutoff, any."""
    kind = rng.random()
    if kind < 0.3:
        pairs = [(MISS, MATCH)]
    elif kind < 0.5:
        pairs = [(MISS, MATCH), (MISS, MATCH), (-4096, -4096)]
    elif kind < 0.7:
        near = [q for q in (cutoff - 1, cutoff, cutoff + 1, 0, LOWEST) if LOWEST <= q <= 0]
        pairs = [(q, o) for q in near for o in (0, -1, -5, LOWEST)]
    elif kind < 0.9:
        pairs = [(-1361 * q, -(20000 >> min(q, 20))) for q in range(2, 60)]
    else:
        return lambda: (rng.randint(LOWEST, 0), rng.randint(LOWEST, 0))
    return lambda: rng.choice(pairs)


def random_read(rng, variants, quality, places):
    calls = [Call(v, rng.randrange(len(variants[v].alleles)), *quality()) for v in places]
    return Fragment(rng.randrange(2), calls)


def random_places(rng, n):
    """The variants that a read calls: a stretch of them, with gaps, or none."""
    if n == 0 or rng.random() < 0.1:
        return []
    first = rng.randrange(n)
    return [v for v in range(first, min(n, first + rng.choice([1, 2, 3, 8]))) if rng.random() < 0.9]


def mirror(read):
    """The read with alleles 0 and 1 exchanged."""
    return Fragment(read.strand, [Call(c.variant, (1, 0, 2)[c.allele], c.qual, c.one_minus_qual) for c in read.calls])


def tree(rng, n, f, ties=False):
    """n variants and f reads; for ties every variant has two alleles or more, and half of the reads mirror the rest."""
    variants = [random_variant(rng, p, rng.choice([2, 2, 3]) if ties else None) for p in random_positions(rng, n)]
    cutoff = rng.choice([0, -1, -2000, -2000, -2000, LOWEST, -rng.randint(0, -LOWEST)])
    quality = random_qualities(rng, cutoff)
    reads = [random_read(rng, variants, quality, random_places(rng, n)) for _ in range(f // 2 if ties else f)]
    if ties:
        reads += [mirror(read) for read in reads]
    return Case(variants, reads, cutoff)


def random_rates(rng):
    """Accepted rates: the samples', the ends, or any."""
    while True:
        kind = rng.random()
        if kind < 0.5:
            return RATES
        if kind < 0.6:
            rates = [-8193] * 4 + [-1, LOWEST]
        elif kind < 0.8:
            rates = [-rng.randint(8193, 120000) for _ in range(4)] + [-rng.randint(1, 20000) for _ in range(2)]
        else:
            rates = [-rng.randint(1, -LOWEST) for _ in range(6)]
        try:
            check_rates(rates)
            return rates
        except Refused:
            continue


# ---- Arrivals and departures.


class Standing:
    """A case with the values that arrivals and departures update, as they stand."""

    def __init__(self, words, bases, rates, phase, haplotypes, likelihoods, counts, total):
        self.words, self.bases, self.rates, self.phase, self.haplotypes = words, bases, rates, phase, haplotypes
        self.likelihoods, self.counts, self.total = likelihoods, counts, total

    def request(self, word, *more):
        parts = [self.phase, self.haplotypes, self.likelihoods, self.counts, self.total] + list(more)
        return Update(word, self.words, self.bases, parts, self.rates)

    def arrive(self, f, fragment):
        calls = [x for c in fragment.calls for x in (c.variant, c.allele, c.qual, c.one_minus_qual)]
        return self.request("arrive", f, fragment.strand, calls)

    def depart(self, f):
        return self.request("depart", f)

    def after(self, request):
        """What stands after an accepted arrival or departure."""
        (_, total), (words, likelihoods, counts) = request.result()
        return Standing(words, self.bases, self.rates, self.phase, self.haplotypes, likelihoods, counts, total)


def fresh(words, bases, rates, phase, haplotypes, extra=0):
    """The values taken afresh; each slice has so many elements past its need, of values that are out of range there."""
    likelihoods, counts, total = fresh_values(check(words, bases), rates, phase, haplotypes)
    return Standing(words, bases, rates, phase, haplotypes + [255] * extra, likelihoods + [1] * extra,
                    counts + [-1] * extra, total)


def updates(rng, standing, count):
    """Up to so many accepted arrivals and departures, each on what the last one left."""
    out = []
    for _ in range(count):
        request = random_update(rng, standing)
        if request is not None:
            out.append(request)
            standing = standing.after(request)
    return out


def random_update(rng, standing):
    """An accepted arrival or departure; None where there are no fragments. Some arrivals take all records that are left,
    some are muted."""
    case, left = check(standing.words, standing.bases), sum(map(len, free_and_unused(standing.words)))
    absent = [f for f, x in enumerate(case.fragments) if not x.present]
    present = [f for f, x in enumerate(case.fragments) if x.present]
    if absent and (not present or rng.random() < 0.6):
        n = len(case.variants)
        places = sorted(rng.sample(range(n), left)) if left <= n and rng.random() < 0.3 else random_places(rng, n)[:left]
        read = random_read(rng, case.variants, random_qualities(rng, case.cutoff), places)
        return standing.arrive(rng.choice(absent), muted(read) if rng.random() < ARRIVE_MUTED else read)
    return standing.depart(rng.choice(present)) if present else None


# ---- Trials: a case and the parts of every operation.


class Trial:
    """A case, and the parts of every operation on it; `places` is the seed of its records' places (None: in order), `room`
    says how many more records there are, orders are a list of orders, `extra` is the room that every output slice has past
    its need, `late` the seed of its arrivals and departures."""

    def __init__(self, rng, case, phase=None):
        n = len(case.variants)
        self.case = with_muted(rng, with_absent(rng, case))
        self.places, self.room = rng.getrandbits(64) if rng.random() < 0.5 else None, ROOM
        self.rates = random_rates(rng)
        self.phase = phase or [rng.choice([48, 49, 48, 49, 45, 0]) for _ in range(n)]
        self.sets = [rng.randrange(-1, n) for _ in range(n)]
        self.orders = [rng.sample(range(n), n) for _ in range(rng.choice([1, 1, 2, 3]))]
        self.limit = rng.choice([1, 2, 3, 50, 1000000])
        self.quals = [rng.choice([1.0, 19.5, 20.0, 20.5, 500.0, float("inf"), float("nan")]) for _ in range(n)]
        self.density = [rng.choice([20.0, 20.0, 1e-310, -0.0]), rng.choice([0, 1, 3, 12, 4294967295]),
                        rng.choice([0, 1, 2, 3, 4294967295]), rng.choice([0, 3, 8, 2147483646, 4294967295])]
        self.single_reads, self.seed = rng.randrange(2), rng.choice([0, rng.getrandbits(64)])
        self.extra = rng.choice([0, 0, 0, 1, 16])
        self.late = rng.getrandbits(64)

    def parts(self, word):
        orders = [v for order in self.orders for v in order]
        return {
            "check": [], "priors": [self.rates], "nohap": [self.rates], "phase": [self.phase, self.sets],
            "run": [self.rates, self.phase, self.sets, orders, self.limit], "flist": [self.single_reads],
            "filter": [self.quals] + self.density, "orders": [self.seed], "afresh": [self.rates, self.phase],
        }[word]

    def rooms(self, word):
        n, f = len(self.case.variants), len(self.case.fragments)
        if word == "orders":
            return [n * len(self.orders)]
        if word == "flist":
            lines = sum(14 + 8 * len(x.calls) for x in self.case.fragments)
            return [min(lines, MOST_LINES) + self.extra]
        return [need + self.extra for need in needs(word, n, f)]

    def encoded(self):
        """The words and bases of the case."""
        placed = {} if self.places is None else random_records(random.Random(self.places), self.case, self.room)
        return encode(self.case, **placed)

    def requests(self, words):
        """The requests of these words; an arrival or a departure is left out where there is none among the first."""
        data, out = self.encoded(), []
        for word in words:
            if word in LATE:
                out += [request for request in self.updates(4) if request.word == word][:1]
            else:
                out.append(Request(word, *data, self.parts(word), self.rooms(word)))
        return out

    def updates(self, count, room=None):
        """Up to so many arrivals and departures, each on what the last one left, on a case with this room or any."""
        rng = random.Random(self.late)
        words, bases = encode(self.case, **random_records(rng, self.case, room or rng.choice([AMPLE, LITTLE])))
        haplotypes = start_haplotypes(self.case, self.phase)
        if rng.random() < 0.3:
            haplotypes = [rng.randrange(len(v.alleles)) for v in self.case.variants for _ in range(2)]
        return updates(rng, fresh(words, bases, self.rates, self.phase, haplotypes, self.extra), count)

    def reference(self):
        """The run by document 01's own orders: as many of them as sweeps are allowed."""
        words, bases = self.encoded()
        count = min(self.limit, 12)
        orders = Request("orders", words, bases, [0], [len(self.case.variants) * count]).result()[1][0]
        return Request("run", words, bases, [self.rates, self.phase, self.sets, orders, count], self.rooms("run"))


def shapes():
    """Every shape of at most two variants (alleles, phase byte) and three reads (which variants each calls)."""
    for n in range(3):
        for variants in itertools.product(itertools.product(range(1, MAX_ALLELES + 1), (48, 49, 45)), repeat=n):
            subsets = [[v for v in range(n) if bits >> v & 1] for bits in range(2**n)]
            for f in range(4):
                for places in itertools.product(subsets, repeat=f):
                    yield variants, places


def shaped(rng, shape):
    """A trial of a shape."""
    kinds, places = shape
    variants = [random_variant(rng, p, k) for p, (k, _) in zip(random_positions(rng, len(kinds)), kinds)]
    cutoff = rng.choice([0, -2000, -2000, LOWEST])
    quality = random_qualities(rng, cutoff)
    reads = [random_read(rng, variants, quality, p) for p in places]
    return Trial(rng, Case(variants, reads, cutoff), [byte for _, byte in kinds])


def deep(rng):
    """One variant under many reads, as in samples (i) and (j)."""
    variant = Variant(7, 3, rng.choice([(0, 1), (1, 0), (0, 0)]), ["A", "G"])
    counts = [rng.choice([0, 1, 60, 112, 113, 200]) for _ in range(2)]
    reads = [Fragment(rng.randrange(2), [Call(0, a, MISS, MATCH)]) for a in (0, 1) for _ in range(counts[a])]
    return Trial(rng, Case([variant], reads, -2000))


def tangled(rng):
    """Heterozygous single bases, long reads that disagree and common variants: several sweeps, by several orders."""
    n = rng.randint(4, 12)
    variants = [random_variant(rng, 10 * v) for v in range(n)]
    for variant in variants:
        if rng.random() < 0.9:
            variant.alleles, variant.genotype = rng.sample("ACGT", rng.choice([2, 2, 3])), rng.choice([(0, 1), (1, 0)])
    qualities = rng.choice([[(MISS, MATCH)], [(-9000, -40), (MISS, MATCH)], [(-20000, -10), (-9000, -300), (-6000, 0)]])
    places = [sorted(rng.sample(range(n), min(n, rng.choice([2, 3, 5, 8])))) for _ in range(rng.randint(n, 3 * n))]
    reads = [random_read(rng, variants, lambda: rng.choice(qualities), p) for p in places]
    trial = Trial(rng, Case(variants, reads, -2000), [rng.choice([48, 49, 48, 49, 48, 49, 45]) for _ in range(n)])
    common = [[-8193] * 4 + [-1, -1], [-12000, -8500, -40000, -40000, -1, -1], [-20000] * 4 + [-1000, -3000]]
    trial.rates = rng.choice(common)
    trial.orders = [rng.sample(range(n), n) for _ in range(rng.choice([1, 2, 3]))]
    trial.limit = rng.choice([1, 2, 3, 4, 1000000, 1000000])
    return trial


def random_trial(rng, large):
    """A trial of any size; without `large` a small one."""
    kind = rng.random()
    if rng.random() < 0.15:
        return tangled(rng)
    if kind < 0.3:
        return Trial(rng, tree(rng, rng.randint(1, 6), 2 * rng.randint(0, 5), ties=True))
    if large and kind < 0.3005:
        return Trial(rng, tree(rng, rng.randint(100, 400), rng.randint(100, 1000)))
    if large and kind < 0.31:
        return Trial(rng, tree(rng, rng.randint(10, 40), rng.randint(10, 100)))
    if kind < 0.315:
        return deep(rng)
    return Trial(rng, tree(rng, rng.randint(0, 7), rng.randint(0, 10)))


def largest(rng):
    """N, F and C at their limits: all reads of one length, positions that rise by one, few reads with a tie."""
    n, length = MAX_VARIANTS, MAX_CALLS // MAX_FRAGMENTS
    variants = [random_variant(rng, v) for v in range(n)]
    quality = random_qualities(rng, -2000)
    firsts = (rng.randrange(n - length + 1) for _ in range(MAX_FRAGMENTS))
    reads = [random_read(rng, variants, quality, range(v, v + length)) for v in firsts]
    trial = Trial(rng, Case(variants, reads, -2000))
    trial.limit, trial.orders, trial.extra = 1000000, [rng.sample(range(n), n) for _ in range(3)], 16
    return trial


def largest_updates(rng, count):
    """Arrivals and departures on a case with N, F and C at their limits, some fragments absent, some records free and some
    unused."""
    trial = largest(rng)
    gone = set(rng.sample(range(MAX_FRAGMENTS), 64))
    fragments = [Fragment(x.strand, [], False) if f in gone else x for f, x in enumerate(trial.case.fragments)]
    case, left = Case(trial.case.variants, fragments, trial.case.cutoff), 64 * (MAX_CALLS // MAX_FRAGMENTS)
    data = encode(case, **random_records(rng, case, [(5, left // 2), (left,)]))
    haplotypes = start_haplotypes(case, trial.phase)
    return updates(rng, fresh(*data, trial.rates, trial.phase, haplotypes), count)
