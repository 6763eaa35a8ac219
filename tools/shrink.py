"""Makes a trial smaller as long as it still shows a difference."""
import copy

from cases import NO_ROOM
from model import Case, Fragment

GROUP = 16
MOST_GROUPS = 2000


def without_variants(trial, gone):
    """These variants, their calls, phase, sets and places in the orders go; later ones move up."""
    def kept(values):
        return [x for v, x in enumerate(values) if v not in gone]
    place = {v: i for i, v in enumerate(kept(range(len(trial.phase))))}
    trial.phase, trial.quals = kept(trial.phase), kept(trial.quals)
    trial.sets = [min(s, len(place) - 1) for s in kept(trial.sets)]
    trial.orders = [[place[v] for v in order if v in place] for order in trial.orders]
    reads = trial.case.fragments
    fragments = [Fragment(f.strand, [copy.copy(c) for c in f.calls if c.variant in place], f.present) for f in reads]
    for call in (c for f in fragments for c in f.calls):
        call.variant = place[call.variant]
    trial.case = Case(kept(trial.case.variants), fragments, trial.case.cutoff)


def without_fragments(trial, gone):
    fragments = [f for i, f in enumerate(trial.case.fragments) if i not in gone]
    trial.case = Case(trial.case.variants, fragments, trial.case.cutoff)


def without_calls(trial, gone):
    """These calls, counted over all fragments, go."""
    fragments, first = [], 0
    for f in trial.case.fragments:
        fragments.append(Fragment(f.strand, [c for i, c in enumerate(f.calls, first) if i not in gone], f.present))
        first += len(f.calls)
    trial.case = Case(trial.case.variants, fragments, trial.case.cutoff)


def without_orders(trial, gone):
    trial.orders = [order for i, order in enumerate(trial.orders) if i not in gone] or trial.orders[:1]


def in_order(trial, _):
    """The records lie in order; none is free or unused."""
    trial.places = None


def without_room(trial, _):
    """No record is free or unused."""
    trial.room = NO_ROOM


def plain(trial, _):
    trial.extra = 0


def steps(trial):
    """The steps that make a trial smaller, the larger ones first: halves, quarters and so on of each kind of part."""
    calls = sum(len(f.calls) for f in trial.case.fragments)
    parts = [(without_variants, len(trial.case.variants)), (without_fragments, len(trial.case.fragments)),
             (without_calls, calls), (without_orders, len(trial.orders) - 1)]
    if trial.places is not None:
        yield in_order, ()
        if trial.room != NO_ROOM:
            yield without_room, ()
    if trial.extra:
        yield plain, ()
    size = max(count for _, count in parts)
    while size > 0:
        for step, count in parts:
            for first in range(0, count if size <= count else 0, size):
                yield step, range(first, min(first + size, count))
        size //= 2


def smaller(trial, step, gone):
    out = copy.copy(trial)
    step(out, gone)
    return out


def first_smaller(trial, word, differs):
    """The first smaller trial that still shows the difference; None where there is none."""
    listed = list(steps(trial))
    for start in range(0, min(len(listed), GROUP * MOST_GROUPS), GROUP):
        candidates = [smaller(trial, *step) for step in listed[start:start + GROUP]]
        found = differs([c.requests([word])[0] for c in candidates])
        if True in found:
            return candidates[found.index(True)]
    return None


def smallest(trial, word, differs):
    """The request of a trial from which no single step can be taken; `differs` says of each request whether it still
    shows the difference."""
    while trial is not None:
        best, trial = trial, first_smaller(trial, word, differs)
    return best.requests([word])[0]
