#!/usr/bin/env python3
"""Writes made-up descriptions in many townships for COPY: `postgresql.py PART PARTS COUNT TOWNSHIPS`. Each line
contains the number of a township, from 0, and a description. PART is which of PARTS equal parts is written, from 0."""
import pathlib
import random
import sys

sys.path.append(str(pathlib.Path(__file__).resolve().parent.parent / "examples"))
import made_up


def main():
    part, parts, count, townships = map(int, sys.argv[1:])
    chance = random.Random(part)
    lines = []
    for _ in range(part * count // parts, (part + 1) * count // parts):
        lines.append(f"{chance.randrange(townships)}\t{made_up.one_description(chance)}\n")
        if len(lines) == 10_000:
            sys.stdout.writelines(lines)
            lines.clear()
    sys.stdout.writelines(lines)


main()
