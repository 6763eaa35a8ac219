"""Damage to accepted requests, so that every refusal of the documents turns up, alone and with others."""
import copy

from layout import (ARRIVING, CALL, FRAGMENT, HEAD, LOWEST, LOWEST_LENT, MAX_ALLELES, MAX_COUNT, MAX_LENGTH,
                    MAX_VARIANTS, MUTED_REVERSE, STRANDS, VARIANT, Layout)
from model import free_and_unused
from protocol import LatePart, Request

LARGEST = 2147483647
BAD_WORDS = [0, 1, -1, 2, MAX_ALLELES, MAX_ALLELES + 1, MAX_LENGTH + 1, MAX_VARIANTS + 1, LOWEST - 1, LARGEST,
             -LARGEST - 1]
BAD_STRANDS = [-1, len(STRANDS), len(STRANDS) + 1, LARGEST, -LARGEST - 1]


def set_word(rng, request, at):
    """Another value in this word: one next to it, or one at the end of some range."""
    if 0 <= at < len(request.words):
        before = request.words[at]
        request.words[at] = rng.choice([x for x in (before + 1, before - 1) if abs(x) < 2**31] + BAD_WORDS)


def layout(request):
    return Layout.of(request.words) if len(request.words) >= HEAD.words else Layout(0, 0, 0)


def head(rng, request):
    set_word(rng, request, rng.randrange(HEAD.words))


def variant(rng, request):
    at = layout(request)
    if at.n > 0:
        set_word(rng, request, at.variant(rng.randrange(at.n)) + rng.randrange(VARIANT.words))


def fragment(rng, request):
    at = layout(request)
    if at.f > 0:
        set_word(rng, request, at.fragment(rng.randrange(at.f)) + rng.randrange(FRAGMENT.words))


def strand(rng, request):
    """A strand that the layout lacks, of a present or an absent fragment; now and then the last one that it has."""
    at = layout(request)
    place = at.fragment(rng.randrange(at.f)) + FRAGMENT.strand if at.f > 0 else -1
    if 0 <= place < len(request.words):
        request.words[place] = rng.choice(BAD_STRANDS + [MUTED_REVERSE])


def call(rng, request):
    at = layout(request)
    if at.c > 0:
        set_word(rng, request, at.call(rng.randint(1, at.c)) + rng.randrange(CALL.words))


def past(at):
    """The number after the last record, where a word holds it."""
    return min(at.c + 1, LARGEST)


def link(rng, request):
    """A first or a next that names some other record: shared, free, in the tail, not rising; or none: -2, -1."""
    at = layout(request)
    if at.c <= 0 or at.f <= 0:
        return
    places = [at.call(rng.randint(1, at.c)) + CALL.next, at.fragment(rng.randrange(at.f)) + FRAGMENT.first]
    place = rng.choice(places)
    if 0 <= place < len(request.words):
        request.words[place] = rng.choice([-2, -1] + [rng.randint(0, past(at)) for _ in range(8)])


def used(rng, request):
    """Another number of used records: chains run into the tail, or used records lie in no chain."""
    at = layout(request)
    if len(request.words) >= HEAD.words:
        request.words[HEAD.used] = rng.choice([-1, past(at), at.c, 0, rng.randint(0, max(at.c, 0))])


def free(rng, request):
    """Another first free record: none, a later one, one of a fragment, or out of range."""
    if len(request.words) >= HEAD.words:
        most = request.words[HEAD.used]
        request.words[HEAD.free] = rng.choice(
            [-1, 0, min(most + 1, LARGEST)] + [rng.randint(0, max(most, 0)) for _ in range(3)])


def walked(request, place):
    """The records from the first that this word names, along next, as far as they are there and new."""
    at, out = layout(request), []
    r = request.words[place] if 0 <= place < len(request.words) else 0
    while 1 <= r <= at.c and r not in out and 0 <= at.call(r) <= len(request.words) - CALL.words:
        out.append(r)
        r = request.words[at.call(r) + CALL.next]
    return out


def any_chain(rng, request):
    """The word that names the first record of a fragment's chain; now and then that of the free chain."""
    at = layout(request)
    return HEAD.free if at.f <= 0 or rng.random() < 0.4 else at.fragment(rng.randrange(at.f)) + FRAGMENT.first


def cycle(rng, request):
    """A chain whose end leads back into it, or to a value that is out of range."""
    own, at = walked(request, any_chain(rng, request)), layout(request)
    if own:
        request.words[at.call(own[-1]) + CALL.next] = rng.choice([own[0], rng.choice(own), -1, past(at)])


def free_link(rng, request):
    """A next within the free chain: cut off, back, into another chain or the tail, out of range."""
    own, at = walked(request, HEAD.free), layout(request)
    if own:
        others = [rng.randint(1, past(at)) for _ in range(3)]
        request.words[at.call(rng.choice(own)) + CALL.next] = rng.choice([0, own[0], -1, -LARGEST - 1] + others)


def into_free(rng, request):
    """A fragment's chain that goes on at a free record; most of these get words that fit."""
    place, at = any_chain(rng, request), layout(request)
    taken = walked(request, HEAD.free)
    if place == HEAD.free or not taken or not 0 <= place < len(request.words):
        return
    own, r = walked(request, place), rng.choice([taken[-1], rng.choice(taken)])
    request.words[at.call(own[-1]) + CALL.next if own else place] = r
    if rng.random() < 0.7:
        variants = [request.words[at.call(x) + CALL.variant] for x in own[-1:]]
        call = ARRIVING.make(variant=min(variants[0] + 1, LARGEST) if variants else 0)
        request.words[at.call(r):at.call(r) + ARRIVING.words] = call


def length(rng, values, added):
    """One element fewer or more."""
    if values and rng.random() < 0.5:
        values.pop()
    else:
        values.append(added)


def words(rng, request):
    length(rng, request.words, 0)
    if rng.random() < 0.2:
        del request.words[rng.randrange(HEAD.words + 2):]


def bases(rng, request):
    if rng.random() < 0.3 or not request.bases:
        length(rng, request.bases, 65)
    else:
        request.bases[rng.randrange(len(request.bases))] = rng.choice([0, 64, 66, 78, 97, 255])


def rates(rng, request):
    values = request.parts[0]
    if rng.random() < 0.3:
        values[:4] = rng.choice([[-8192] * 4, [-1] * 4, [-4096, -4096, LOWEST, LOWEST], [-8193] * 4])
    else:
        values[rng.randrange(6)] = rng.choice([0, 1, LOWEST - 1, 2147483647, -2147483648])


def given_phase(rng, request):
    bytes_, sets = request.parts[-2:] if request.word == "phase" else request.parts[1:3]
    if rng.random() < 0.4 or not sets:
        length(rng, rng.choice([bytes_, sets]), 0)
    else:
        sets[rng.randrange(len(sets))] = len(sets) + rng.choice([-1, 0, 1, 7, 2000000000])


def orders(rng, request):
    values = request.parts[3]
    if rng.random() < 0.3 or not values:
        length(rng, values, 0)
    elif rng.random() < 0.2:
        values.clear()
    else:
        values[rng.randrange(len(values))] = rng.choice([0, 1, len(request.parts[1]), 4294967295])


def limit(rng, request):
    request.parts[4] = rng.choice([0, 1000001, 4294967295, 1000000, 1])


def room(rng, request):
    """An output slice that is too short, by one or altogether."""
    if request.rooms:
        i = rng.randrange(len(request.rooms))
        request.rooms[i] = rng.choice([0, max(0, request.rooms[i] - rng.choice([1, 2, 17]))])


def line_room(rng, request):
    """Exactly the bytes that the lines need, or one fewer."""
    if request.refusal() is None:
        size = request.result()[0][0]
        request.rooms[0] = max(0, size - rng.randrange(2))


def order_room(rng, request):
    request.rooms[0] = max(0, request.rooms[0] + rng.choice([-1, 1, 2]))


def qualities(rng, request):
    length(rng, request.parts[0], 1.0)


def density_qual(rng, request):
    request.parts[1] = rng.choice([float("nan"), float("inf"), float("-inf")])


# ---- Parts of an arrival or a departure.


def late_phase(rng, request):
    length(rng, request.parts[LatePart.PHASE], 48)


def late_slice(rng, request):
    """Haplotypes, likelihoods or counts that are too short, by one or more."""
    values = request.parts[rng.choice([LatePart.HAPLOTYPES, LatePart.LIKELIHOODS, LatePart.COUNTS])]
    del values[max(0, len(values) - rng.choice([1, 2, 17])):]


def late_value(rng, request):
    """A haplotype, likelihood, count or total out of its range or at its end."""
    place, values = rng.choice([
        (LatePart.HAPLOTYPES, [0, 1, 2, MAX_ALLELES, 255]), (LatePart.LIKELIHOODS, [1, 0, LOWEST_LENT, LOWEST_LENT - 1]),
        (LatePart.COUNTS, [-1, 0, MAX_COUNT, MAX_COUNT + 1]), (LatePart.TOTAL, [1, 0, LOWEST_LENT, LOWEST_LENT - 1])])
    if place == LatePart.TOTAL:
        request.parts[LatePart.TOTAL] = rng.choice(values)
    elif request.parts[place]:
        request.parts[place][rng.randrange(len(request.parts[place]))] = rng.choice(values)


def late_number(rng, request):
    """Another fragment: present, absent or none."""
    request.parts[LatePart.NUMBER] = rng.choice([rng.randint(0, max(layout(request).f, 0)), 4294967295])


def late_strand(rng, request):
    request.parts[LatePart.STRAND] = rng.choice(BAD_STRANDS)


def arriving_call(rng, request):
    """A word of an arriving call, or their length."""
    calls = request.parts[LatePart.CALLS]
    if calls and rng.random() < 0.7:
        at = rng.randrange(len(calls))
        calls[at] = rng.choice([calls[at] + 1, calls[at] - 1, 0, -1, 1, MAX_ALLELES, LOWEST, LOWEST - 1])
    else:
        length(rng, calls, 0)


def more_calls(rng, request):
    """More arriving calls than records are left, or one that does not rise."""
    calls = request.parts[LatePart.CALLS]
    calls += calls[-ARRIVING.words:] if len(calls) >= ARRIVING.words else [0] * ARRIVING.words
    if rng.random() < 0.7:
        calls[-ARRIVING.words] += 1


def all_records(rng, request):
    """As many arriving calls as records are free or unused, or one more; there must be as many variants."""
    if Request("check", request.words, request.bases).refusal() is None:
        count = sum(map(len, free_and_unused(request.words))) + rng.randrange(2)
        if count <= layout(request).n:
            request.parts[LatePart.CALLS] = [x for v in range(count) for x in ARRIVING.make(variant=v)]


LATE = [late_phase, late_slice, late_value, late_value, late_number, late_number]

CASE = [head, variant, variant, fragment, strand, call, call, link, link, used, free, cycle, free_link, into_free, words,
        bases]
DAMAGES = {
    "check": CASE, "priors": [rates, room], "nohap": [rates, room, room], "phase": [given_phase, given_phase, room],
    "run": [rates, given_phase, orders, limit, room], "flist": [room, line_room, line_room],
    "filter": [qualities, density_qual, room], "orders": [order_room],
    "arrive": LATE + [late_strand, arriving_call, arriving_call, more_calls] + 3 * [all_records],
    "depart": LATE,
}


def damaged(rng, request):
    """A copy of the request with one to three faults; now and then it is still accepted."""
    parts = copy.deepcopy([request.words, request.bases, request.parts, request.rooms])
    out = Request(request.word, *parts)
    for _ in range(rng.choice([1, 1, 1, 2, 3])):
        own = rng.random() < 0.6
        rng.choice(DAMAGES[out.word] if own else CASE)(rng, out)
    return out
