#!/usr/bin/env python3
"""Replays inputs that the program cannot read, and slices as long as its arrays and one longer.

Run at the repository's root, after tools/build program: python3 tools/unreadable.py
Each answer is written here from the protocol's text; a difference ends the script with status 1.
"""
import subprocess
import sys

CHECKED = "check 6 0 0 0 0 0 0 0\n"

# An input, and the whole of what the program writes.
INPUTS = [
    # an unknown word: alone, with no line feed, one letter off, a request's word in capitals, too long
    ("what 1 2\n", "unreadable 1 1 request"),
    ("what", "unreadable 1 1 request"),
    ("chec 6 0 0 0 0 0 0 0\n", "unreadable 1 1 request"),
    ("afresh 0 0", "unreadable 1 1 request"),
    ("CHECK", "unreadable 1 1 request"),
    ("checkcheckcheck", "unreadable 1 1 request"),
    # a number that is none, or does not fit its type: i32, u8, u32, u64, single_reads, a pattern, a length
    ("check 1 x 0", "unreadable 1 3 number"),
    ("check 1 +1 0", "unreadable 1 3 number"),
    ("check 1 - 0", "unreadable 1 3 number"),
    ("check 1 1#2 0", "unreadable 1 3 number"),
    ("check 1 2147483648 0", "unreadable 1 3 number"),
    ("check 1 -2147483649 0", "unreadable 1 3 number"),
    ("check 0 2 255 256", "unreadable 1 5 number"),
    ("filter 0 0 0 0 4294967296", "unreadable 1 6 number"),
    ("orders 0 0 18446744073709551616 0", "unreadable 1 4 number"),
    ("flist 0 0 2 0", "unreadable 1 4 number"),
    ("filter 0 0 0 -1", "unreadable 1 5 number"),
    ("check -1", "unreadable 1 2 number"),
    ("check 18446744073709551616", "unreadable 1 2 number"),
    # those of an arrival: a haplotype, a likelihood, a count, the total, the number, the strand, a word of a call
    ("arrive 0 0 0 1 256", "unreadable 1 6 number"),
    ("arrive 0 0 0 0 2 -9223372036854775808 9223372036854775808", "unreadable 1 8 number"),
    ("arrive 0 0 0 0 0 1 2147483648", "unreadable 1 8 number"),
    ("depart 0 0 0 0 0 0 -9223372036854775809 0", "unreadable 1 8 number"),
    ("depart 0 0 0 0 0 0 9223372036854775807 4294967296", "unreadable 1 9 number"),
    ("depart 0 0 0 0 0 0 0 -1", "unreadable 1 9 number"),
    ("arrive 0 0 0 0 0 0 0 0 2147483648 0", "unreadable 1 10 number"),
    ("arrive 0 0 0 0 0 0 0 0 0 1 -2147483649", "unreadable 1 12 number"),
    # the first fault counts, and nothing after it
    ("check 1 x y", "unreadable 1 3 number"),
    ("check 99999999 x", "unreadable 1 2 length"),
    ("check 1 x 0\n" + CHECKED, "unreadable 1 3 number"),
    # later lines: line feeds, carriage returns, comments, tabs; a request's tokens are counted anew
    ("\n\n  what", "unreadable 3 1 request"),
    ("# a\n\t# b # c\r\n\ncheck # d\n1\r\n\tx\n", "unreadable 6 3 number"),
    ("check\r1\rx\r0", "unreadable 1 3 number"),
    ("check 6 0\n0 0 0\nx 0 0", "unreadable 3 7 number"),
    # after an answered request
    (CHECKED + CHECKED + "what", "done\ndone\nunreadable 3 1 request"),
    (CHECKED + "check 0 0\ncheck\n1 x", "done\nrefused 1 0\nunreadable 4 3 number"),
    (CHECKED * 2 + "orders 6 0 0 0 0 0 0 0 1 65537", "done\ndone\nunreadable 3 11 length"),
    # the input ends within a request: behind its word, in a slice, in front of a part, in a comment
    ("check", "unreadable 1 2 end"),
    ("check\n", "unreadable 2 2 end"),
    ("check 6 0 0", "unreadable 1 5 end"),
    ("check 6\n0 0\n", "unreadable 3 5 end"),
    ("check 6 0 0 0 0 0 0\n# no bases", "unreadable 2 9 end"),
    ("priors 0 0 -1 -1 -1\n-1 -1", "unreadable 2 9 end"),
    (CHECKED + "run 6 0 0 0 0 0 0 0\n-1 -1 -1 -1 -1 -1\n0 0 0 1\n0 0 0 0", "done\nunreadable 5 24 end"),
    ("depart 0 0 0 0 0 0 0", "unreadable 1 9 end"),
    ("arrive 0 0 0 0 0 0 0 0 0", "unreadable 1 11 end"),
    # no fault: nothing, comments alone, a last token with no line feed
    ("", ""),
    ("# nothing\n \r\n\t# at all", ""),
    ("check 0 0", "refused 1 0"),
    ("depart 1 7 0 0 0 1 -9223372036854775808 1 -5 9223372036854775807 4294967295",
     "refused 1 0\n7\n-9223372036854775808\n-5"),
    ("arrive 0 0 0 0 0 2 5 6 0 0 -2147483648 0", "refused 1 0\n\n\n5 6"),
]

# The elements that each slice's array holds, with the request up to its length; inputs, then outputs.
RATES = " -1 -1 -1 -1 -1 -1"
READ = [("check", 98326), ("check 0", 196624), ("phase 0 0", 1040), ("phase 0 0 0", 1040), ("filter 0 0", 1040),
        ("run 0 0" + RATES + " 0 0", 65536), ("arrive 0 0", 1040), ("arrive 0 0 0", 2064), ("arrive 0 0 0 0", 8208),
        ("arrive 0 0 0 0 0", 10256), ("arrive 0 0 0 0 0 0 0 0 0", 4112), ("depart", 98326), ("depart 0 0 0", 2064),
        ("depart 0 0 0 0", 8208), ("depart 0 0 0 0 0", 10256)]
WRITTEN = [("priors 0 0" + RATES, 9232, 1), ("nohap 0 0" + RATES, 13328, 3), ("nohap 0 0" + RATES + " 0", 1040, 2),
           ("nohap 0 0" + RATES + " 0 0", 1040, 1), ("phase 0 0 0 0", 2064, 3), ("phase 0 0 0 0 0", 1040, 2),
           ("phase 0 0 0 0 0 0", 1040, 1), ("run 0 0" + RATES + " 0 0 0 1", 2064, 5),
           ("run 0 0" + RATES + " 0 0 0 1 0", 8208, 4), ("run 0 0" + RATES + " 0 0 0 1 0 0", 9232, 3),
           ("run 0 0" + RATES + " 0 0 0 1 0 0 0", 1040, 2), ("run 0 0" + RATES + " 0 0 0 1 0 0 0 0", 1040, 1),
           ("flist 0 0 0", 172048, 1), ("filter 0 0 0 0 0 0 0", 1040, 1), ("orders 0 0 1", 65536, 1)]


def written(text):
    """What the program writes."""
    done = subprocess.run(["target/bin/condorbed"], input=text.encode(), stdout=subprocess.PIPE, check=True)
    return done.stdout.decode()


def faults():
    """The inputs with another answer than theirs, and the answer."""
    asked = [(text, answer + "\n" if answer else "") for text, answer in INPUTS]
    for front, most in READ:
        at = len(front.split()) + 1
        asked.append(("%s %d" % (front, most), "unreadable 1 %d end\n" % (at + 1)))
        asked.append(("%s %d" % (front, most + 1), "unreadable 1 %d length\n" % at))
    for front, most, _ in WRITTEN:
        asked.append(("%s %d" % (front, most + 1), "unreadable 1 %d length\n" % (len(front.split()) + 1)))
    for text, answer in asked:
        if written(text) != answer:
            yield text, written(text)
    for front, most, slices in WRITTEN:
        text = "%s %d" % (front, most) + " 0" * (slices - 1)
        lines = written(text).split("\n")
        if lines[0] != "refused 1 0" or most not in [len(line.split()) for line in lines]:
            yield text, lines[0]


def main():
    found = list(faults())
    for text, answer in found:
        print("%r: %r" % (text, answer))
    print("%d inputs, %d with another answer" % (len(INPUTS) + 2 * len(READ) + 2 * len(WRITTEN), len(found)))
    sys.exit(1 if found else 0)


if __name__ == "__main__":
    main()
