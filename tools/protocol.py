"""The request stream as text: a request, and the documents' answer to it by tools/model.py."""
import subprocess

import model
from layout import FRAGMENT, PAIR, Layout, needs
from model import Refused, pattern

# The form of each request's parts between the bases and the rooms, in order. A slice that is `lent` is read and written;
# where there is one, the words are lent too.
PARTS = {
    "check": (),
    "priors": ("plain",),
    "nohap": ("plain",),
    "phase": ("slice", "slice"),
    "run": ("plain", "slice", "slice", "slice", "number"),
    "flist": ("number",),
    "filter": ("qualities", "quality", "number", "number", "number"),
    "orders": ("number",),
    "arrive": ("slice", "slice", "lent", "lent", "number", "number", "number", "slice"),
    "depart": ("slice", "slice", "lent", "lent", "number", "number"),
    "afresh": ("plain", "slice"),
}

# The element types of each request's output slices.
OUTPUTS = {
    "check": (),
    "priors": ("i64",),
    "nohap": ("i32", "f64", "f64"),
    "phase": ("u8", "u8", "u32"),
    "run": ("u8", "i64", "i64", "f64", "f64"),
    "flist": ("u8",),
    "filter": ("u8",),
    "orders": ("u32",),
    "arrive": (),
    "depart": (),
    "afresh": ("i64", "i32"),
}

# The output slice of a request, by its place, that longshot defines in another way: gq without haplotypes (request 4).
LEFT_OUT = {"nohap": 2}

# The operations that longshot has, and so the oracle; `afresh` is the oracle's alone.
OF_THE_SOURCE = ("priors", "nohap", "phase", "run", "flist", "filter", "afresh")
OF_THE_PROGRAM = tuple(word for word in OUTPUTS if word != "afresh")
LATE = ("arrive", "depart")


class LatePart:
    """The places of an arrival's parts; a departure has those before the strand."""

    PHASE, HAPLOTYPES, LIKELIHOODS, COUNTS, TOTAL, NUMBER, STRAND, CALLS = range(8)


FILL = {"u8": 170, "i32": 77, "u32": 77, "i64": 77, "f64": pattern(77.0)}


def plain_text(values):
    return " ".join(map(str, values))


def slice_text(values):
    return plain_text([len(values)] + list(values))


FORMS = {
    "plain": plain_text,
    "slice": slice_text,
    "lent": slice_text,
    "number": str,
    "quality": lambda x: str(pattern(x)),
    "qualities": lambda values: slice_text([pattern(x) for x in values]),
}

NUMBERS = ("number", "quality")


class Request:
    """A request: its word, the case's words and bases, its other parts (f64 values as floats), and for each output
    slice its length."""

    def __init__(self, word, words, bases, parts=(), rooms=()):
        self.word, self.words, self.bases, self.parts, self.rooms = word, words, bases, list(parts), list(rooms)

    def text(self):
        """The request; numbers that follow one another share a line."""
        lines, before = [self.word, slice_text(self.words), slice_text(self.bases)], None
        for form, x in zip(PARTS[self.word], self.parts):
            if before in NUMBERS and form in NUMBERS:
                lines[-1] += " " + FORMS[form](x)
            else:
                lines.append(FORMS[form](x))
            before = form
        return "\n".join(lines + [str(room) for room in self.rooms]) + "\n"

    def filled(self):
        """The output slices before, but for those that are lent."""
        return [[FILL[kind]] * room for kind, room in zip(OUTPUTS[self.word], self.rooms)]

    def befores(self):
        """All slices that the answer shows, as they were."""
        lent = [x for form, x in zip(PARTS[self.word], self.parts) if form == "lent"]
        return ([self.words] + lent if lent else []) + self.filled()

    def lines(self):
        """How many lines an answer has."""
        return 1 + len(self.befores())

    def result(self):
        """The fields and the slices afterwards, by tools/model.py; the request is an accepted one."""
        return model.OPERATIONS[self.word][0](self.words, self.bases, *self.parts, *self.filled())

    def refusal(self):
        """The refusal; None where the request is accepted."""
        try:
            model.OPERATIONS[self.word][1](self.words, self.bases, *self.parts, *self.filled())
            return None
        except Refused as refusal:
            return refusal

    def refused(self, refusal):
        """The answer with this refusal."""
        return answer_text("refused %d %d" % (refusal.number, refusal.place), self.befores())

    def answer(self):
        """The answer by tools/model.py."""
        try:
            fields, afters = self.result()
        except Refused as refusal:
            return self.refused(refusal)
        return done_text(fields, afters)

    def question(self):
        """What the oracle is asked for the answer to this request; None where it has none."""
        return self if self.word in OF_THE_SOURCE else None

    def told(self, reply):
        """The answer, from the oracle's reply to the question. A slice of the reply that is left out is the model's."""
        lines = reply.splitlines(keepends=True)
        if self.word in LEFT_OUT and reply.endswith("\n") and len(lines) == self.lines():
            place = 1 + LEFT_OUT[self.word]
            lines[place] = self.answer().splitlines(keepends=True)[place]
        return "".join(lines)

    def by_definition(self):
        """The answer by tools/model.py where there is no question."""
        return self.answer()


class Update(Request):
    """An arrival or departure on fresh values, the total under these rates. So the values that it leaves are those of the
    case that it leaves, taken afresh."""

    def __init__(self, word, words, bases, parts, rates):
        super().__init__(word, words, bases, parts)
        self.rates = rates

    def left(self):
        """The words that it leaves."""
        return self.result()[1][0]

    def before(self):
        """The strand that stands at its number before it."""
        return self.words[Layout.of(self.words).fragment(self.parts[LatePart.NUMBER]) + FRAGMENT.strand]

    def strand(self):
        """The strand of the read that arrives or departs."""
        return self.parts[LatePart.STRAND] if self.word == "arrive" else self.before()

    def question(self):
        """The oracle knows section 5's haplotypes alone."""
        at, (phase, haplotypes) = Layout.of(self.words), self.parts[:2]
        if haplotypes[:PAIR * at.n] != model.start_haplotypes(model.check(self.words, self.bases), phase):
            return None
        return Request("afresh", self.left(), self.bases, [self.rates, phase], needs("afresh", at.n, at.f))

    def told(self, reply):
        first, *fresh = reply.splitlines() or [""]
        return self.afresh(first.split()[1:], [line.split() for line in fresh])

    def by_definition(self):
        """The answer with the model's fresh values."""
        case, (phase, haplotypes) = model.check(self.left(), self.bases), self.parts[:2]
        *fresh, total = model.fresh_values(case, self.rates, phase, haplotypes)
        return self.afresh([total], fresh)

    def afresh(self, total, fresh):
        afters = [new + old[len(new):] for new, old in zip(fresh, self.befores()[1:])]
        return done_text(["unsettled"] + total, [self.left()] + afters)


def answer_text(first, outputs):
    return "\n".join([first] + [plain_text(o) for o in outputs]) + "\n"


def done_text(fields, afters):
    return answer_text(plain_text(["done"] + fields), afters)


def ask(command, requests):
    """A program's answers to the requests, in order. Where it ends within a request, what it wrote is the answer, and
    the rest is asked anew."""
    answers = []
    while len(answers) < len(requests):
        text = "".join(request.text() for request in requests[len(answers):])
        done = subprocess.run(command, input=text.encode(), stdout=subprocess.PIPE, check=False)
        lines, start = done.stdout.decode().splitlines(keepends=True), 0
        for request in requests[len(answers):]:
            answers.append("".join(lines[start:start + request.lines()]))
            start += request.lines()
            if start > len(lines) or answers[-1].startswith("unreadable"):
                break
    return answers


def ask_oracle(command, requests):
    """The answers to accepted requests: the oracle's, else the model's; and how many are the oracle's."""
    questions = [request.question() for request in requests]
    replies = iter(ask(command, [question for question in questions if question]))
    answers = [request.told(next(replies)) if question else request.by_definition()
               for request, question in zip(requests, questions)]
    return answers, sum(question is not None for question in questions)
