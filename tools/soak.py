#!/usr/bin/env python3
"""A soak of the library: random arrivals and departures on one case at full size, each against a model that keeps up.

tools/soak.py [SEED] [STEPS] [OPTIONS], by default 1 and 100000. It needs gcc and target/staticlib/libexports.a, which
`tools/build library` writes. After every step the answer and all lent slices are compared with those of the class Kept,
which updates its own. At the start, at every 1,000th step and at the end also: each lent element by itself; likelihoods,
counts and total against those that tools/model.py takes afresh from the words; the library's check of the case; and a
walk that must find each used record once, in a fragment's chain or in the free chain. The first difference ends the run
with status 1, the step, the operation and the place; so does a line of the table of what happened that is still 0 after
100,000 steps. Else the last line is `STEPS steps, 0 differ`.

  --every COUNT  steps from one such thorough comparison to the next
  --model        tools/model.py in the library's place: needs no library, but some minutes for 1,000 steps
"""
import argparse
import collections
import ctypes
import pathlib
import random
import re
import subprocess
import sys
import time

import knots
import model
from cases import RATES, random_positions, random_qualities, random_variant
from layout import (ABSENT, ARRIVING, CALL, COUNTED, FORWARD, FRAGMENT, HEAD, LOWEST, MAX_CALLS, MAX_FRAGMENTS,
                    MAX_VARIANTS, MUTED_FORWARD, MUTED_REVERSE, PAIR, REVERSE, STRANDS, VARIANT, Layout, Record)

ROOT = pathlib.Path(__file__).resolve().parent.parent
HEADER = ROOT / "capi" / "condorbed.h"
ARCHIVE = ROOT / "target" / "staticlib" / "libexports.a"
SHARED = ROOT / "target" / "soak" / "libexports.so"
AT = Layout(MAX_VARIANTS, MAX_FRAGMENTS, MAX_CALLS)
# The slices that are lent, in the order of the parameters.
SLICES = ("words", "bases", "phase", "haplotypes", "likelihoods", "counts")


def answered(number=0, place=0, total=0):
    """The answer to an arrival or a departure: done, or refused."""
    return {"number": number, "place": place, "settled": False, "total": total}


def declared(text):
    """Names and types of a struct's fields or a function's parameters."""
    parts = [part.split()[-2:] for part in re.split("[;,]", text) if part.strip()]
    types = [getattr(ctypes, "c_" + re.sub(r"(?<=\d)_t", "", kind)) for kind, _ in parts]
    return [(name, ctypes.POINTER(kind) if "*" in name else kind) for (_, name), kind in zip(parts, types)]


class Library:
    """The functions of the library, as its header declares them."""

    def __init__(self):
        if not ARCHIVE.exists():
            sys.exit("%s is not there: `tools/build library` writes it" % ARCHIVE.relative_to(ROOT))
        SHARED.parent.mkdir(parents=True, exist_ok=True)
        whole = ["-Wl,--whole-archive", ARCHIVE, "-Wl,--no-whole-archive"]
        subprocess.run(["gcc", "-shared", "-o", SHARED] + whole, check=True)
        shared, self.functions = ctypes.CDLL(str(SHARED)), {}
        header = re.sub(r"/\*.*?\*/", "", HEADER.read_text(encoding="utf-8"), flags=re.S)
        for answer, name, parameters in re.findall(r"(\w+) condorbed_(check_case|arrive|depart)\((.*?)\);", header, re.S):
            fields = re.search(r"typedef struct \{([^}]*)\} %s;" % answer, header).group(1)
            function = self.functions[name] = shared["condorbed_" + name]
            function.restype = type(answer, (ctypes.Structure,), {"_fields_": declared(fields)})
            function.argtypes = [kind for _, kind in declared(parameters)]

    def call(self, name, *given):
        """The answer's fields by name. A slice is handed over with its length."""
        answer = self.functions[name](*[x for g in given for x in ((g, len(g)) if isinstance(g, ctypes.Array) else (g,))])
        return {field: getattr(answer, field) for field, _ in answer._fields_}


class Model:
    """The same by tools/model.py."""

    def call(self, name, *given):
        try:
            operation = model.OPERATIONS[name.replace("_case", "")][0]
            fields, after = operation(*[list(x) if isinstance(x, ctypes.Array) else x for x in given])
        except model.Refused as refusal:
            return answered(*refusal.args)
        for i, values in zip((0, 4, 5), after):
            given[i][:] = values
        return answered(total=fields[1]) if fields else {"number": 0}


# ---- The model. The values taken afresh share the layout and the knots with it, no more.

# Records used at the start, and how many of them are free; elements past the need of a slice that may have more.
CUTOFF, HALF, USED, FREE, PAST = -2000, -4096, 1024, 300, 8
# Words that are out of range in one place or another.
ODD = [0, 1, 2, -1, 5, MAX_VARIANTS, LOWEST - 1, 2**31 - 1, -2**31]
# What happens: the lines of the table. An arrival with calls is one of the second to fourth, some also of the two after.
# Of the muted reads those that would have usable calls.
NO_ROOM, MUTED_CAME, MUTED_WENT = "14: fewer records than calls", "a muted read arrived", "a muted read departed"
AT_MUTED = "arrived at a muted one's number"
KINDS = ("arrived without calls", "arrived on free records", "arrived on unused records", "arrived on both",
         "took just the free chain", "took all that was left", "departed", "departed without calls",
         MUTED_CAME, MUTED_WENT, AT_MUTED,
         "4: a call is out of range", "5: calls do not rise", "5: broken length", "5: no such strand",
         "13: arriving at a present one", "13: arriving at no number", "13: departing from an absent one",
         "13: departing from no number", NO_ROOM)
KNOTS = knots.table()[1]
ADDENDS = [KNOTS[k] - (KNOTS[k] - KNOTS[k + 1]) * r // 32 for k in range(knots.LAST) for r in range(32)]


def share(a, b):
    """What a read with these two likelihoods adds to the total."""
    return max(a, b) + HALF + (ADDENDS[abs(a - b)] if abs(a - b) < len(ADDENDS) else 0)


def elements(kind, values):
    return (kind * len(values))(*values)


def muted(strand):
    return strand in (MUTED_FORWARD, MUTED_REVERSE)


def usable(strand, call):
    """Whether a call of a read on this strand is usable."""
    return not muted(strand) and call.qual < CUTOFF


def silenced(strand, calls):
    """Whether a muted read has a call that would be usable if it voted."""
    return muted(strand) and any(usable(FORWARD, call) for call in calls)


class Kept:
    """The case, its values, and where its records are. A step costs as much as its calls, and nothing is read back from
    the library. The operations give the answers that are expected."""

    def __init__(self, rng):
        self.tally, self.total, self.used = collections.Counter(), 0, USED
        self.free = collections.deque(rng.sample(range(1, USED + 1), USED))
        self.chains, self.present, self.absent = [None] * AT.f, [], list(range(AT.f))
        self.variants = [random_variant(rng, pos0) for pos0 in random_positions(rng, AT.n)]
        self.without_reads(rng)
        self.phased = [v.genotype[0] != v.genotype[1] and [len(a) for a in v.alleles[:2]] == [1, 1] and byte in b"01"
                       for v, byte in zip(self.variants, self.phase)]
        while len(self.free) > FREE:
            self.arrive(rng.choice(self.absent), random_strand(rng), random_calls(rng, self, rng.randint(0, 12)))
        self.likelihoods[:-PAST], self.counts[:-PAST], self.total = afresh(self.slices())
        self.tally.clear()

    def without_reads(self, rng):
        """The slices: a free chain in any order; anything in its records' other words and in unused ones."""
        fragments = [model.Fragment(random_strand(rng), [], present=False) for _ in range(AT.f)]
        words, bases = model.encode(model.Case(self.variants, fragments, CUTOFF), used=USED, free=list(self.free),
                                    idle={r: rng.choices(ODD, k=CALL.words) for r in range(1, AT.c + 1)})
        haplotypes = [rng.randrange(len(v.alleles)) for v in self.variants for _ in range(PAIR)]
        self.words, self.bases = elements(ctypes.c_int32, words), elements(ctypes.c_uint8, bases)
        self.phase = elements(ctypes.c_uint8, rng.choices(b"0011-", k=AT.n))
        self.haplotypes = elements(ctypes.c_uint8, haplotypes + [255] * PAST)
        self.likelihoods = elements(ctypes.c_int64, [0] * PAIR * AT.f + [1] * PAST)
        self.counts = elements(ctypes.c_int32, [0] * COUNTED.words * AT.n + [-1] * PAST)

    def slices(self):
        return {name: getattr(self, name) for name in SLICES}

    def room(self):
        return len(self.free) + AT.c - self.used

    def refused(self, number, place, kind):
        self.tally["%d: %s" % (number, kind)] += 1
        return answered(number, place)

    def in_range(self, call):
        return (0 <= call.variant < AT.n and 0 <= call.allele < len(self.variants[call.variant].alleles)
                and LOWEST <= call.qual <= 0 and LOWEST <= call.one_minus_qual <= 0)

    def fault(self, f, strand, given, calls):
        """Why an arrival is refused: number, place and kind."""
        ranges = [i for i, call in enumerate(calls) if not self.in_range(call)]
        if ranges:
            return 4, ranges[0], "a call is out of range"
        falls = [i for i in range(1, len(calls)) if calls[i].variant <= calls[i - 1].variant]
        if falls:
            return 5, falls[0], "calls do not rise"
        if len(given) % ARRIVING.words or strand not in STRANDS:
            return 5, len(calls), "broken length" if len(given) % ARRIVING.words else "no such strand"
        if f >= AT.f or self.chains[f] is not None:
            return 13, f, "arriving at no number" if f >= AT.f else "arriving at a present one"
        return (14, len(calls), "fewer records than calls") if self.room() < len(calls) else None

    def arrive(self, f, strand, given):
        calls = [ARRIVING.read(given, ARRIVING.words * i) for i in range(len(given) // ARRIVING.words)]
        fault = self.fault(f, strand, given, calls)
        if fault:
            return self.refused(*fault)
        self.absent.remove(f)
        self.present.append(f)
        self.tally[AT_MUTED] += muted(self.strand(f))
        self.tally[MUTED_CAME] += silenced(strand, calls)
        self.link(f, strand, calls, self.taken(len(calls)))
        self.count(strand, calls, 1)
        self.likelihoods[PAIR * f:PAIR * (f + 1)] = two = self.likelihoods_of(strand, calls)
        self.total += share(*two)
        return answered(total=self.total)

    def taken(self, size):
        """The records for so many calls: from the front of the free chain, then unused ones."""
        free = min(size, len(self.free))
        source = "on both" if 0 < free < size else "on free records" if free else "on unused records"
        self.tally["arrived " + (source if size else "without calls")] += 1
        self.tally["took just the free chain"] += 0 < size == len(self.free)
        self.tally["took all that was left"] += 0 < size == self.room()
        records = [self.free.popleft() for _ in range(free)] + list(range(self.used + 1, self.used + size - free + 1))
        self.used += size - free
        return records

    def link(self, f, strand, calls, records):
        words = self.words
        for r, following, call in zip(records, records[1:] + [0], calls):
            words[AT.call(r):AT.call(r + 1)] = CALL.make(next=following, **vars(call))
        words[AT.fragment(f):AT.fragment(f + 1)] = FRAGMENT.make(first=(records + [0])[0], strand=strand)
        words[HEAD.used], words[HEAD.free] = self.used, self.free[0] if self.free else 0
        self.chains[f] = records

    def strand(self, f):
        return self.words[AT.fragment(f) + FRAGMENT.strand]

    def likelihoods_of(self, strand, calls):
        own = [c for c in calls if usable(strand, c) and self.phased[c.variant]]
        return [sum(c.one_minus_qual if c.allele == self.haplotypes[PAIR * c.variant + h] else c.qual for c in own)
                for h in range(PAIR)]

    def count(self, strand, calls, change):
        for call in calls:
            own, stranded = COUNTED.words * call.variant, COUNTED.reverse if strand % 2 == REVERSE else COUNTED.forward
            counted = [COUNTED.counts + call.allele, stranded + call.allele]
            for place in counted if usable(strand, call) else [COUNTED.ambiguous]:
                self.counts[own + place] += change

    def depart(self, f):
        if f >= AT.f or self.chains[f] is None:
            return self.refused(13, f, "departing from no number" if f >= AT.f else "departing from an absent one")
        words, records = self.words, self.chains[f]
        strand, calls = self.strand(f), [CALL.read(words, AT.call(r)) for r in records]
        self.tally["departed" if records else "departed without calls"] += 1
        self.tally[MUTED_WENT] += silenced(strand, calls)
        self.count(strand, calls, -1)
        self.total -= share(*self.likelihoods[PAIR * f:PAIR * (f + 1)])
        self.likelihoods[PAIR * f:PAIR * (f + 1)] = [0] * PAIR
        words[AT.fragment(f) + FRAGMENT.first], self.chains[f] = ABSENT, None
        if records:
            words[AT.call(records[-1]) + CALL.next], words[HEAD.free] = words[HEAD.free], records[0]
            self.free.extendleft(reversed(records))
        self.present.remove(f)
        self.absent.append(f)
        return answered(total=self.total)


# ---- What is compared.

memcmp = ctypes.CDLL(None).memcmp
memcmp.argtypes = [ctypes.c_void_p, ctypes.c_void_p, ctypes.c_size_t]


class Differs(Exception):
    """A place, what stands there and what should."""


def named(name, i):
    """The record and the field at a place of a slice."""
    parts = {"words": [("head", HEAD, 0), ("variant", VARIANT, AT.variant(0)), ("fragment", FRAGMENT, AT.fragment(0)),
                       ("record", CALL, AT.call(1))],
             "likelihoods": [("fragment", Record(likelihoods=PAIR), 0)], "counts": [("variant", COUNTED, 0)]}
    kind, record, start = [x for x in parts.get(name, [("element", Record(value=1), 0)]) if x[2] <= i][-1]
    number, offset = divmod(i - start, record.words)
    number += kind == "record"
    return "%s %d, %s" % (kind, number, [x for x in record.widths if getattr(record, x) <= offset][-1])


def same_elements(name, lent, values, source="not"):
    """Each lent element, one by one."""
    for i, (got, wanted) in enumerate(zip(lent, values)):
        if got != wanted:
            raise Differs("%s[%d] (%s) is %d, %s %d" % (name, i, named(name, i), got, source, wanted))


def same_answer(got, wanted):
    for field, value in got.items():
        if value != wanted[field]:
            raise Differs("the answer's %s is %d, not %d" % (field, value, wanted[field]))


def afresh(slices):
    """Likelihoods, counts and total of the words as they stand."""
    words, bases, phase, haplotypes = (list(slices[name]) for name in SLICES[:4])
    try:
        return model.fresh_values(model.check(words, bases, haplotypes), RATES, phase, haplotypes[:-PAST])
    except model.Refused as refusal:
        raise Differs("tools/model.py refuses the case: %d, place %d" % refusal.args) from None


def walk(words):
    """Each used record is in one chain, once, and no other is in any."""
    met = collections.Counter()
    for r in [words[AT.fragment(f) + FRAGMENT.first] for f in range(AT.f)] + [words[HEAD.free]]:
        while r > 0 and met[r] < 2:
            met[r] += 1
            r = words[AT.call(r) + CALL.next] if r <= words[HEAD.used] else 0
    for r in set(met) | set(range(1, words[HEAD.used] + 1)):
        if met[r] != (r <= words[HEAD.used]):
            raise Differs("record %d is met %d times" % (r, met[r]))


# ---- The operations, in turns of growth and decline.

# A turn's reads have at most so many calls. Turns of long reads are short.
MOST = [8] + [60] * 2 + [600] * 4
# The share of arrivals in growth and of departures in decline; of operations with a fault; of reads that just fit; of muted
# reads.
MORE, FAULTY, EXACT, MUTED = 0.85, 0.08, 0.1, 0.25


def random_strand(rng):
    """Any of the strands; some reads are muted."""
    return rng.choice([MUTED_FORWARD, MUTED_REVERSE] if rng.random() < MUTED else [FORWARD, REVERSE])


def random_calls(rng, kept, size):
    """The words of so many calls, at any variants."""
    quality, words = random_qualities(rng, CUTOFF), []
    for v in sorted(rng.sample(range(AT.n), size)):
        words += [v, rng.randrange(len(kept.variants[v].alleles)), *quality()]
    return words


def with_fault(rng, kept, f, strand, calls):
    """An arrival that is mostly refused: another word in a call, calls again, a cut, another strand or number."""
    some = rng.randrange(len(calls) + 1)
    return rng.choice([
        (f, strand, calls[:some] + [rng.choice(ODD)] + calls[some + 1:]),
        (f, strand, calls[:some - some % ARRIVING.words] + calls),
        (f, strand, calls[:some]),
        (f, rng.choice([-1, len(STRANDS), 2**31 - 1]), calls),
        (rng.choice([AT.f, 2**32 - 1] + kept.present[-2:]), strand, calls)])


def random_operation(rng, kept, arrivals, most):
    """An arrival or a departure. Now and then a read has about as many calls as there are free records, or records left."""
    faulty, exact = rng.random() < FAULTY, rng.choice([len(kept.free), kept.room()]) + rng.choice([0, 0, 1, 4])
    if rng.random() >= arrivals:
        wrong = kept.absent[:1] + kept.absent[-1:] + [AT.f, 2**32 - 1]
        return "depart", (rng.choice(wrong if faulty else kept.present or wrong),)
    calls = random_calls(rng, kept, exact if exact <= AT.n and rng.random() < EXACT else rng.randint(0, most))
    arrival = rng.choice(kept.absent or kept.present), random_strand(rng), calls
    for _ in range(rng.randint(1, 2) if faulty else 0):
        arrival = with_fault(rng, kept, *arrival)
    return "arrive", arrival


def operations(rng, kept, steps):
    """Growth goes on up to a limit, which rises so that unused records last for a third of the steps; then until some
    arrivals find too few records; or until all fragments are present. Decline goes on until hardly any is."""
    grows, few, most, limit, refused = False, 0, MOST[0], 0, 0
    for step in range(steps):
        if grows and (not kept.absent or AT.c - kept.room() >= limit or kept.tally[NO_ROOM] >= refused):
            grows, few = False, rng.randint(0, 20)
        elif not grows and len(kept.present) <= few:
            grows, most, limit = True, rng.choice(MOST), USED + 3 * AT.c * step // steps
            refused = kept.tally[NO_ROOM] + rng.randint(1, 40)
        yield random_operation(rng, kept, MORE if grows else 1 - MORE, most)


def same_step(library, kept, lent, name, given):
    """One operation, by the library and by the model."""
    more = [elements(ctypes.c_int32, x) if isinstance(x, list) else x for x in given]
    answer = library.call(name, *lent.values(), kept.total, *more)
    same_answer(answer, getattr(kept, name)(*given))
    for own, values in kept.slices().items():
        if memcmp(lent[own], values, ctypes.sizeof(values)):
            same_elements(own, lent[own], values)
    if name == "arrive":
        same_elements("calls", more[-1], given[-1])


def same_throughout(library, kept, lent):
    for name, values in kept.slices().items():
        same_elements(name, lent[name], values)
    walk(list(lent["words"]))
    head = {"number": 0, "place": 0, **vars(HEAD.read(lent["words"], 0))}
    same_answer(library.call("check_case", lent["words"], lent["bases"]), head)
    likelihoods, counts, total = afresh(lent)
    same_elements("likelihoods", lent["likelihoods"], likelihoods, "afresh")
    same_elements("counts", lent["counts"], counts, "afresh")
    same_elements("total", [kept.total], [total], "afresh")


def run(library, rng, steps, every):
    """What happened; a difference ends the script."""
    kept, what = Kept(rng), "the start"
    lent = {name: type(values).from_buffer_copy(values) for name, values in kept.slices().items()}
    try:
        same_throughout(library, kept, lent)
        for step, (name, given) in enumerate(operations(rng, kept, steps), 1):
            what = "step %d, %s %s" % (step, name, str(given)[:200])
            same_step(library, kept, lent, name, given)
            if step % every == 0 or step == steps:
                same_throughout(library, kept, lent)
    except Differs as difference:
        sys.exit("%s: %s" % (what, difference))
    return kept.tally


def main():
    options = argparse.ArgumentParser(description=__doc__, formatter_class=argparse.RawDescriptionHelpFormatter)
    options.add_argument("seed", type=int, nargs="?", default=1)
    options.add_argument("steps", type=int, nargs="?", default=100000)
    options.add_argument("--every", type=int, default=1000)
    options.add_argument("--model", action="store_true")
    given, start = options.parse_args(), time.monotonic()
    tally = run(Model() if given.model else Library(), random.Random(given.seed), given.steps, given.every)
    for kind in KINDS:
        print("%8d  %s" % (tally[kind], kind))
    print("%.0f s" % (time.monotonic() - start))
    never = [kind for kind in KINDS if not tally[kind]]
    if never and given.steps >= options.get_default("steps"):
        sys.exit("never happened: " + "; ".join(never))
    print("%d steps, 0 differ" % given.steps)


if __name__ == "__main__":
    main()
