#!/usr/bin/env python3
"""Writes binary values that may be anything, for COPY: `hostile.py FOLDER COUNT SAMPLES`.

SAMPLES is a file of values, one a line: the name of its type, and its binary form in hexadecimal digits. Each
file in the folder is a value as COPY reads it, made from one of these from a seed: cut off, longer, with some bits
turned, with some bytes replaced, with parts of another value, or random bytes. Prints an SQL script that copies
each file into the table `received_TYPE`.
"""
import pathlib
import random
import struct
import sys

SIGNATURE = b"PGCOPY\n\xff\r\n\0" + struct.pack(">ii", 0, 0)
END = struct.pack(">h", -1)


def copied(value):
    """The file of one row with one value."""
    return SIGNATURE + struct.pack(">hi", 1, len(value)) + value + END


def cut(chance, value, _):
    return value[: chance.randrange(len(value) + 1)]


def longer(chance, value, _):
    return value + chance.randbytes(chance.choice((1, 2, 40, 5000)))


def turned(chance, value, _):
    bits = bytearray(value)
    for _ in range(chance.choice((1, 1, 2, 8))):
        at = chance.randrange(len(bits))
        bits[at] ^= 1 << chance.randrange(8)
    return bytes(bits)


def replaced(chance, value, _):
    some = bytearray(value)
    for _ in range(chance.choice((1, 2, 5))):
        some[chance.randrange(len(some))] = chance.choice((0, 1, 2, 5, 6, 127, 128, 255))
    return bytes(some)


def crossed(chance, value, other):
    return value[: chance.randrange(len(value) + 1)] + other[chance.randrange(len(other) + 1) :]


def scattered(chance, value, _):
    return value[:1] + chance.randbytes(chance.choice((0, 1, 9, 12, 192, 340, 345, 4653)))


WAYS = (cut, longer, turned, turned, replaced, replaced, crossed, scattered)


def main():
    folder, count = pathlib.Path(sys.argv[1]), int(sys.argv[2])
    samples = [line.split() for line in pathlib.Path(sys.argv[3]).read_text().splitlines()]
    chance = random.Random(46)
    values = {kind: [bytes.fromhex(digits) for name, digits in samples if name == kind] for kind, _ in samples}
    for number in range(count):
        kind = chance.choice(sorted(values))
        value = chance.choice(WAYS)(chance, chance.choice(values[kind]), chance.choice(values[kind]))
        path = folder / f"{number}.copy"
        path.write_bytes(copied(value))
        print(f"\\copy received_{kind} from '{path}' with (format binary)")


main()
