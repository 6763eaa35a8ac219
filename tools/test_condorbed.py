#!/usr/bin/env python3
"""Tests the command ./condorbed with the built program: python3 tools/test_condorbed.py [--renew]

It proves nothing: `rt` is kept out of its reach, or a stand-in takes its place. With --renew the explanations of the
samples are written to samples/expected anew; read the difference before it is committed.
"""
import difflib
import os
import pathlib
import shutil
import subprocess
import sys
import tempfile

import unreadable
from explain import REQUESTS
from layout import CALL, FRAGMENT, HEAD, LOWEST_LENT, VARIANT, Layout, needs
from model import Call, Case, Fragment, Variant, encode
from protocol import LatePart, Request

ROOT = pathlib.Path(__file__).resolve().parent.parent
PROGRAM = ROOT / "target" / "bin" / "condorbed"
SAMPLES = sorted((ROOT / "samples").glob("*.txt"))
EXPECTED = ROOT / "samples" / "expected"
NO_RT = "/var/empty"

failures, passed = [], 0


def expect(name, got, wanted):
    """Counts a test: the two must be the same."""
    global passed
    if got == wanted:
        passed += 1
        return
    failures.append(name)
    print("FAILED: " + name)
    lines = [str(value).splitlines() for value in (wanted, got)]
    print("\n".join(difflib.unified_diff(*lines, "expected", "got", lineterm="")))


def expect_in(name, text, *parts):
    """Counts a test: the text must have each of the parts."""
    missing = [part for part in parts if part not in text]
    expect(name, "%s\nwithout: %s" % (text, missing) if missing else "", "")


def command(*words, text=b"", root=ROOT, path=NO_RT):
    """Runs the script, from another folder; what it wrote, what it said and its status."""
    done = subprocess.run([sys.executable, str(root / "condorbed"), *words], input=text, capture_output=True, cwd="/",
                          env={**os.environ, "PATH": path}, check=False)
    return done.stdout.decode(), done.stderr.decode(), done.returncode


# ---- Samples.


def own_answer(text):
    return subprocess.run([str(PROGRAM)], input=text, capture_output=True, check=True).stdout.decode()


def test_samples():
    for file in SAMPLES:
        text = file.read_bytes()
        expect("stream of " + file.name, command(str(file)), (own_answer(text), "", 0))
        expect("stream of %s from standard input" % file.name, command("-", text=text), (own_answer(text), "", 0))
        told, said, status = command("--explain", str(file))
        expect("explanation of " + file.name, told, (EXPECTED / file.name).read_text())
        expect("status of the explanation of " + file.name, (said, status), ("", 0))
    tree = ROOT / "samples" / "tree.txt"
    expect("no file is samples/tree.txt", command(), command(str(tree)))
    expect("no file is samples/tree.txt, explained", command("--explain"), command("--explain", str(tree)))


def test_run_as_phase():
    """The names of phase sets in a run are those that the program gives for `phase`."""
    phase, sets, rooms = [48, 49], [1, 1], needs("phase", 2, 1)
    names = own_answer(Request("phase", *CASE, [phase, sets], rooms).text().encode()).split("\n")[3].split()
    told = command("--explain", "-", text=request("run", phase=phase, sets=sets).text().encode())[0]
    rows = [line.split() for line in told.splitlines()[-2:]]
    expect("phase sets of a run", [row[6] for row in rows], names)


# ---- Refusals, from one small case: the worked one of docs/FORMAT.md.

CASE = encode(Case([Variant(99, 12, (0, 1), ["A", "G"]), Variant(149, 11, (0, 1), ["C", "T"])],
                   [Fragment(1, [Call(0, 1, -27213, -59), Call(1, 0, -13607, -623)])], -9525))
RATES = [-44916, -40820, -58522, -54426, -4096, -8192]


def request(word, words=None, bases=None, rates=RATES, phase=(48, 49), sets=(0, 0), orders=(1, 0), limit=1000,
            density_qual=50.0, quals=(60.0, 60.0), rooms=None):
    """A request on the case, with some of its parts exchanged; `words` gives single words by their place."""
    own = list(CASE[0])
    for place, value in (words or {}).items():
        own[place] = value
    parts = {"check": [], "priors": [rates], "nohap": [rates], "phase": [phase, sets],
             "run": [rates, phase, sets, orders, limit], "flist": [0], "filter": [quals, density_qual, 30, 1, 80],
             "orders": [0]}[word]
    return Request(word, own, bases or CASE[1], parts, rooms if rooms is not None else needs(word, 2, 1))


AT = Layout.of(CASE[0])

# An arrival on a case without values to update but the total: fragment 0 is present, 1 is absent, one record is unused.
LATE = Case([Variant(99, 12, (0, 1), ["A", "G"])], [Fragment(0, []), Fragment(1, [], False)], -9525)
LATE_CASE = encode(LATE, idle={1: CALL.make()}, used=0)
LATE_PARTS = [[48], [0, 1], [0] * 4, [0] * 10, -49012, 1, 1, [0, 1, -27213, -59]]


def late(word, **changed):
    """An arrival or a departure on that case, with some of its parts exchanged, by their names in LatePart."""
    parts = list(LATE_PARTS)
    for name, value in changed.items():
        parts[getattr(LatePart, name)] = value
    return Request(word, *LATE_CASE, parts[:LatePart.STRAND] if word == "depart" else parts)


# The arrival where there is no record.
FULL = Request("arrive", *encode(LATE), LATE_PARTS)

# A request, its refusal, and what the explanation says of the place and of what is expected there.
REFUSALS = [
    (request("check", {HEAD.n: 2000}), "refused 1 0", ["word 0 of the head is 2000", "number of variants", "0..1024"]),
    (request("check", {HEAD.cutoff: 1}), "refused 1 3", ["word 3 of the head is 1", "the cutoff", "-262144..0"]),
    (request("check", {HEAD.used: 3}), "refused 1 4", ["word 4 of the head is 3", "call records used", "0..2"]),
    (request("check", {HEAD.free: 3}), "refused 1 5", ["word 5 of the head is 3", "the first free call record", "0..2"]),
    (request("check", {HEAD.c: 3}), "refused 1 6", ["`words` has 34 elements", "C = 3", "must have 39"]),
    (Request("check", [2, 1], []), "refused 1 0", ["`words` has 2 elements", "the head alone has 6"]),
    (request("check", {AT.variant(0) + VARIANT.k: 4}), "refused 2 0", [
        "variant 0 is out of range", "k in 1..3", "99 12 0 1 4 1 1 0"]),
    (request("check", {AT.variant(1) + VARIANT.pos0: 98}), "refused 2 1", [
        "variant 1 is out of range", "not below that of the variant before"]),
    (late("depart", HAPLOTYPES=[0, 2]), "refused 2 0", ["which must be below k, are 0 2"]),
    (request("check", bases=[65, 71, 67]), "refused 3 2", ["`bases` has 3 bytes", "must have 4"]),
    (request("check", bases=[65, 71, 67, 85]), "refused 3 1", ["variant 1 has a byte", "other than 65 (A)"]),
    (request("check", {AT.call(2) + CALL.variant: 2}), "refused 4 2", [
        "call record 2 is out of range", "its variant must be below 2", "its allele below that variant's k",
        "both qualities in -262144..0", "Its words are 2 0 -13607 -623 0"]),
    (late("arrive", CALLS=[0, 2, -27213, -59]), "refused 4 0", [
        "arriving call 0 is out of range", "its variant must be below 1", "Its words are 0 2 -27213 -59"]),
    (request("check", {AT.fragment(0) + FRAGMENT.strand: 4}), "refused 5 0", [
        "fragment 0 is wrong", "its strand 0 (forward)", "or 3 (muted reverse)", "Its words are 1 4"]),
    (request("check", {AT.fragment(0) + FRAGMENT.strand: -1}), "refused 5 0", ["fragment 0 is wrong", "Its words are 1 -1"]),
    (request("check", {AT.fragment(0) + FRAGMENT.first: -2}), "refused 5 0", ["-1, if it is absent, or in 0..2"]),
    (request("check", {AT.call(2) + CALL.next: 1}), "refused 5 0", ["each next must be in 0..2, and the variants must rise"]),
    (request("check", {HEAD.free: 2}), "refused 5 1", [
        "the free chain is wrong, which starts at record 2", "no record of it may come twice or be a fragment's"]),
    (request("check", {AT.fragment(0) + FRAGMENT.first: -1}), "refused 5 1", [
        "starts at record 0 (0: there is none)", "each of the records 1..2 must be in a fragment's chain or in this one"]),
    (late("arrive", CALLS=[0, 1, -27213, -59] * 2), "refused 5 1", ["arriving call 1 does not rise"]),
    (late("arrive", STRAND=4), "refused 5 1", [
        "the arrival has 4 words and the strand 4", "and the strand 0 (forward), 1 (reverse), 2 (muted forward)"]),
    (late("arrive", STRAND=2, CALLS=[0, 1, 1, -59]), "refused 4 0", ["arriving call 0 is out of range"]),
    (late("arrive", CALLS=[0, 1, -27213]), "refused 5 0", ["the arrival has 3 words", "4 words for each call"]),
    (request("priors", rates=RATES[:5] + [0]), "refused 6 5", ["rate 5, tv, is 0", "-262144..-1"]),
    (request("priors", rates=[-1] * 6), "refused 6 6", ["the first four rates are too high", "less than 1"]),
    (request("phase", sets=[0, 2]), "refused 7 1", ["the set of variant 1 is 2", "below 2, or negative"]),
    (request("run", phase=[48]), "refused 7 2", ["`phase` has 1 element and `sets` 2", "each must have 2"]),
    (late("depart", PHASE=[]), "refused 7 1", ["`phase` has 0 elements: it must have 1"]),
    (request("run", orders=[0, 1, 1, 1]), "refused 8 1", ["order 1 is no permutation", "variants 0..1 once"]),
    (request("run", orders=[0]), "refused 8 0", ["`orders` has 1 element", "a multiple of 2"]),
    (request("orders", rooms=[3]), "refused 8 0", ["`orders` has 3 elements", "a multiple of 2"]),
    (request("run", limit=0), "refused 9 0", ["the limit is 0", "1..1000000"]),
    (request("run", rooms=[4, 2, 17, 2, 2]), "refused 10 18", ["`posteriors` has room for 17", "18 elements or more"]),
    (request("flist", rooms=[13]), "refused 10 14", ["`buffer` has room for 13", "14 elements or more"]),
    (request("filter", quals=[60.0]), "refused 10 2", ["`quals` has room for 1", "2 elements or more"]),
    (late("arrive", COUNTS=[0] * 9), "refused 10 10", ["`counts` has room for 9", "10 elements or more"]),
    (late("depart", LIKELIHOODS=[0] * 3, NUMBER=0), "refused 10 4", ["`likelihoods` has room for 3"]),
    (late("arrive", TOTAL=1), "refused 10 0", ["a value is out of range", "as it would be written", "in 0..4096"]),
    (late("arrive", TOTAL=LOWEST_LENT), "refused 10 0", ["in -1099511627776..0"]),
    (request("filter", density_qual=float("inf")), "refused 11 0", ["density_qual is inf", "must be finite"]),
    (late("arrive", NUMBER=0), "refused 13 0", ["fragment 0 is present", "an absent one can arrive"]),
    (late("depart"), "refused 13 1", ["fragment 1 is absent", "a present one can depart"]),
    (late("depart", NUMBER=2), "refused 13 2", ["there is no fragment 2", "those below 2"]),
    (FULL, "refused 14 1", ["the arrival has 1 call and there are 0 free and 0 unused records"]),
]


def test_refusals():
    for asked, refusal, words in REFUSALS:
        told, _, status = command("--explain", "-", text=asked.text().encode())
        expect_in("%s of %s" % (refusal, asked.word), told, "Request 1, line 1: " + asked.word, refusal + ": ", *words)
        expect("status of " + refusal, status, 0)
    numbers = {int(refusal.split()[1]) for _, refusal, _ in REFUSALS}
    expect("every number is refused once, but for 12", numbers, set(range(1, 15)) - {12})


def test_unsettled():
    told = command("--explain", "-", text=request("run", limit=1).text().encode())[0]
    expect_in("an unsettled run", told, "The run made 1 sweep, the most that its limit allows, and did not settle")


def test_late():
    """An arrival and the departure of the same read, which gives back the values before the arrival and frees its record;
    the next arrival takes it."""
    told = command("--explain", "-", text=late("arrive").text().encode())[0]
    expect_in("an arrival", told, "1 variant, 2 fragments (1 absent), 0 calls",
              "Fragment 1 arrived with 1 call, first record 1. Call records used: 1 of 1, 0 of them free.",
              "Its likelihoods are -27213 and -59. Phased total: -53108 steps. The sample is now unsettled.")
    expect("the counts of an arrival", told.splitlines()[-1].split(), ["0", "100", "A/G", "0,1", "0,0", "0,1", "0"])
    back = following("depart", late("arrive"))
    told = command("--explain", "-", text=back.text().encode())[0]
    expect_in("a departure", told, "1 variant, 2 fragments, 1 call", "Fragment 1 left; its number can be taken again.",
              "Call records used: 1 of 1, 1 of them free.", "Its likelihoods are 0 and 0. Phased total: -49012 steps.")
    told = command("--explain", "-", text=following("arrive", back).text().encode())[0]
    expect_in("an arrival in a free record", told, "1 variant, 2 fragments (1 absent), 0 calls",
              "Fragment 1 arrived with 1 call, first record 1. Call records used: 1 of 1, 0 of them free.")


def test_muted():
    """A muted read on file, and one that arrives and departs."""
    told = command("--explain", "-", text=request("nohap", {AT.fragment(0) + FRAGMENT.strand: 3}).text().encode())[0]
    expect_in("a muted read", told, "2 variants, 1 fragment (1 muted), 2 calls", "All calls of a muted read are ambiguous.")
    counts = [line.split()[5:9] for line in told.splitlines()[-2:]]
    expect("the counts with a muted read", counts, [["0,0", "0,0", "0,0", "1"]] * 2)
    told = command("--explain", "-", text=late("arrive", STRAND=3).text().encode())[0]
    expect_in("a muted arrival", told, "1 variant, 2 fragments (1 absent), 0 calls",
              "Fragment 1 arrived, muted, with 1 call, first record 1.",
              "Its likelihoods are 0 and 0. Phased total: -49012 steps.", "All calls of a muted read are ambiguous.")
    expect("the counts of a muted arrival", told.splitlines()[-1].split(), ["0", "100", "A/G", "0,0", "0,0", "0,0", "1"])
    told = command("--explain", "-", text=following("depart", late("arrive", STRAND=3)).text().encode())[0]
    expect_in("a muted departure", told, "1 variant, 2 fragments (1 muted), 1 call", "Fragment 1 left",
              "Phased total: -49012 steps.")
    expect("the counts of a muted departure", told.splitlines()[-1].split(), ["0", "100", "A/G", "0,0", "0,0", "0,0", "0"])


def following(word, asked):
    """An arrival or a departure of the same read, on what the program left after one."""
    first, *lent = own_answer(asked.text().encode()).splitlines()
    words, likelihoods, counts = [[int(x) for x in line.split()] for line in lent]
    parts = LATE_PARTS[:2] + [likelihoods, counts, int(first.split()[2])] + LATE_PARTS[LatePart.NUMBER:]
    return Request(word, words, LATE_CASE[1], parts[:LatePart.STRAND] if word == "depart" else parts)


# ---- Unreadable inputs: a text, its answer, what is said, the input's line and the mark below the token.

UNREADABLE = [
    ("\n chekc 1\n", "unreadable 2 1 request",
     "token 1 of the request, in line 2, is no word of a request; the words are check, priors",
     "  line 2:  chekc 1\n           ^\n"),
    ("check 6 0 0\n0 zero 0", "unreadable 2 6 number", "is no whole number", "  line 2: 0 zero 0\n            ^\n"),
    ("check 98327 " + "1 " * 99, "unreadable 1 2 length", "cannot hold", "  line 1: check 98327 1 1"),
    ("check 6 0 # x\n0 0\n", "unreadable 3 6 end", "is missing: the input ends", "  line 3:\n          ^\n"),
    ("check 99 " + "1 " * 80 + "y", "unreadable 1 83 number", "is no whole number", "  line 1: ... 1 1 1"),
]


def test_unreadable():
    for text, answer, words, line in UNREADABLE:
        text = unreadable.CHECKED.rstrip() + " " + text
        line = line.replace("line 1: check", "line 1: " + unreadable.CHECKED.rstrip() + " check")
        told, _, status = command("--explain", "-", text=text.encode())
        expect_in(answer, told, "Request 1, line 1: check", "within the rules", "Request 2", answer + ": ", words, line)
        expect("status of " + answer, status, 2)
        told, said, status = command("-", text=text.encode())
        expect("stream of " + answer, (told, status), ("done\n%s\n" % answer, 2))
        expect_in("what is said of " + answer, said, "the input is unreadable; `./condorbed --explain -`")
    expect("no request", command("-"), ("", "", 0))
    expect("no request, explained", command("--explain", "-"), ("There is no request in the input.\n", "", 0))


# ---- Help, and other failures.


def test_help():
    told, said, status = command("--help")
    expect("status of --help", (said, status), ("", 0))
    expect_in("--help names every request", told, *["\n  %-8s " % word for word in REQUESTS])
    limits = [most for _, most in unreadable.READ] + [most for _, most, _ in unreadable.WRITTEN]
    expect_in("--help has every limit", told, *[" %s\n" % format(most, ",") for most in limits])
    expect_in("--help names the options", told, "--explain", "--help", "FILE", "Exit status")


def test_faults():
    said = "condorbed: cannot read /no/such/file: No such file or directory\n"
    expect("no file", command("/no/such/file"), ("", said, 1))
    expect("an unknown option", command("--what")[2], 1)


# ---- Proving and building, with a stand-in for `rt` in a copy of the repository's files.

STAND_IN = """#!/bin/sh
case "$1 ${PWD##*/}" in
"lib steps") echo "logic=proved functions=1" ;;
"run condorbed")
    [ %d = 1 ] || { echo "fn condorbed::main: not proved"; exit 1; }
    /bin/mkdir -p out && /bin/cp %s out/condorbed ;;
*) exit 2 ;;
esac
"""


def copied(folder):
    """A repository of two crates with the script."""
    root = pathlib.Path(folder)
    shutil.copy(ROOT / "condorbed", root)
    shutil.copytree(ROOT / "tools", root / "tools", ignore=shutil.ignore_patterns("__pycache__"))
    shutil.copytree(ROOT / "samples", root / "samples")
    (root / "crates.txt").write_text("# crates\ncondorbed: steps itoa\nexports staticlib: steps\nsteps:\n")
    for name in ("steps", "condorbed"):
        (root / "crates" / name / "src").mkdir(parents=True)
        (root / "crates" / name / "src" / "lib.rt").write_text("")
    return root


def stand_in(root, good):
    (root / "bin").mkdir(exist_ok=True)
    (root / "bin" / "rt").write_text(STAND_IN % (good, PROGRAM))
    (root / "bin" / "rt").chmod(0o755)


def build(root, path=None):
    return command(str(root / "samples" / "filter.txt"), root=root, path=path or str(root / "bin"))


def test_build():
    wanted = own_answer((ROOT / "samples" / "filter.txt").read_bytes())
    with tempfile.TemporaryDirectory() as folder:
        root = copied(folder)
        told, said, status = build(root, NO_RT)
        expect("status without rt", (told, status), ("", 1))
        expect_in("what is said without rt", said, "there is no program yet", "`rt` is not found", "START-HERE.md")
        stand_in(root, False)
        told, said, status = build(root)
        expect("status of a failed proof", (told, status), ("", 1))
        expect_in("what is said of a failed proof", said, "condorbed NOT PROVED (exit 1, 0 s): target/log/condorbed.out",
                  "the check failed", "target/log/NAME.out")
        stand_in(root, True)
        told, said, status = build(root)
        expect("answers after the first build", (told, status), (wanted, 0))
        expect_in("progress", said, "there is no program yet: proving 2 crates", "some 6 to 10 minutes",
                  "1 of 2 crates, 0 min 00 s: steps proved (0 s)", "2 of 2 crates", "proved and built")
        expect("the second use goes straight on", build(root, NO_RT), (wanted, "", 0))
        test_stale(root, wanted)


def test_stale(root, wanted):
    """A source file that is newer, and a check that failed."""
    source, program = root / "crates" / "steps" / "src" / "lib.rt", root / "target" / "bin" / "condorbed"
    later = program.stat().st_mtime + 1
    os.utime(source, (later, later))
    stand_in(root, False)
    expect_in("a newer source file", build(root)[1], "crates/steps/src/lib.rt is newer than the program")
    os.utime(source, (1, 1))
    told, said, status = build(root)
    expect("status after a failed check", (told, status), ("", 1))
    expect_in("what is said after a failed check", said, "the last check of the program failed or was stopped")
    stand_in(root, True)
    expect("answers after a good check", build(root)[::2], (wanted, 0))


TESTS = [test_samples, test_run_as_phase, test_refusals, test_unsettled, test_late, test_muted, test_unreadable, test_help,
         test_faults, test_build]


def renew():
    EXPECTED.mkdir(exist_ok=True)
    for file in SAMPLES:
        (EXPECTED / file.name).write_text(command("--explain", str(file))[0])


def main():
    _, said, status = command(str(SAMPLES[0]))
    if status != 0:
        print("tools/test_condorbed.py needs the built program: run ./condorbed first.\n" + said, end="")
        sys.exit(1)
    if sys.argv[1:] == ["--renew"]:
        renew()
    for test in TESTS:
        test()
    print("%d passed, %d failed" % (passed, len(failures)))
    sys.exit(1 if failures else 0)


if __name__ == "__main__":
    main()
