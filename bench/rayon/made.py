#!/usr/bin/env python3
"""Writes what the forty tasks read beside numbers: bench/rayon/made.py FOLDER. `words` has 10^6 words of 50,000 kinds, kind k as often as 1/(k + 10), ten a
line; `others` has 10^6 words that all differ; `orders` has 10^6 lines `ID CUSTOMER COUNTRY AMOUNT`."""

import bisect
import itertools
import pathlib
import random
import sys

COUNT, KINDS, CUSTOMERS = 1_000_000, 50_000, 100_000
COUNTRIES = "DE FR PL IT ES SE NO AT CH NL BE DK FI PT IE CZ SK HU GR RO".split()
LETTERS = "abcdefghijklmnopqrstuvwxyz"


def lines(words):
    return "".join(" ".join(words[at : at + 10]) + "\n" for at in range(0, len(words), 10))


def main():
    folder, dice = pathlib.Path(sys.argv[1]), random.Random(20261201)
    kinds = set()
    while len(kinds) < KINDS:
        kinds.add("".join(dice.choices(LETTERS, k=dice.randint(3, 12))))
    kinds = sorted(kinds)
    dice.shuffle(kinds)
    shares = list(itertools.accumulate(1 / (kind + 10) for kind in range(KINDS)))
    words = [kinds[bisect.bisect(shares, dice.random() * shares[-1], hi=KINDS - 1)] for _ in range(COUNT)]
    (folder / "words").write_text(lines(words))
    (folder / "others").write_text(lines([f"w{place * 0x9E3779B1 % 2**32:x}" for place in range(COUNT)]))
    rows = (f"{at} {dice.randrange(CUSTOMERS)} {dice.choice(COUNTRIES)} {dice.randint(1, 9999)}\n" for at in range(COUNT))
    (folder / "orders").write_text("".join(rows))


main()
