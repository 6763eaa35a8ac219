#!/usr/bin/env python3
"""Prints A(d) of document 01, section 1, as a C header for bench/limit.c: python3 tools/addends.py > FILE"""
from model import addend

# From here on A(d) is 0.
FAR = 53248

HEADER = """/* Written by tools/addends.py: A(d) of document 01 for d from 0 to FAR, from where on it is 0. */
#include <stdint.h>
#define FAR %d
static const uint16_t ADDENDS[FAR + 1] = {
%s
};
"""


def main():
    print(HEADER % (FAR, ",\n".join(str(addend(d)) for d in range(FAR + 1))), end="")


if __name__ == "__main__":
    main()
