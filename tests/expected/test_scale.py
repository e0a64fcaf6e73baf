#!/usr/bin/env python3
"""What test_scale prints: the values and the sheets of drawn scale cells."""
import os
import struct
import sys

sys.path.insert(0, os.path.join(os.path.dirname(os.path.abspath(__file__)), ".."))
import exact  # noqa: E402
import generator  # noqa: E402
from printing import checksum  # noqa: E402

NET, WEIGHED = 1, 2
UNITS = (0, 1, 10000, 10001)
STEPS = (0, 1, 360, 361)


def pattern(value):
    """The 64 bits of a Python float."""
    return struct.unpack("<Q", struct.pack("<d", value))[0]


LIMIT = pattern(1048576.0) - 2
LARGEST = pattern(2000.5) - 2
INFINITY, NAN = 2047 << 52, (2047 << 52) + (1 << 51)


def fraction(draws):
    return draws.draw(2 ** 26) * 2 ** 26 + draws.draw(2 ** 26)


def any_of(draws, exponents):
    """A double of a drawn exponent field."""
    exponent = draws.draw(exponents)
    return (exponent << 52) + fraction(draws)


def size(draws, kind):
    """The bits of a size."""
    if kind == 0:
        return any_of(draws, 2047)
    if kind == 1:
        return any_of(draws, 3)
    if kind == 2:
        return pattern(draws.draw(2 ** 24) / 8)
    if kind == 3:
        return pattern(draws.draw(8192) / 2)
    if kind == 4:
        return LIMIT + draws.draw(5)
    if kind == 5:
        return LARGEST + draws.draw(5)
    if kind == 9:
        return pattern(draws.draw(32768) / 8)
    return {6: 0, 7: INFINITY, 8: NAN}[kind]


def reading(draws):
    kind, sign = draws.draw(10), draws.draw(2)
    return size(draws, kind) + (sign << 63)


def unit(draws):
    kind, i = draws.draw(6), draws.draw(4)
    if kind == 3:
        return draws.draw(40) + 1
    if kind == 4:
        return draws.draw(10003)
    return {0: 1, 1: 2, 2: 10, 5: UNITS[i]}[kind]


def cell(draws):
    kind = draws.draw(8)
    first, second = reading(draws), reading(draws)
    return (0 if kind == 0 else NET if kind < 5 else WEIGHED), first, second, unit(draws)


def columns_of(draws):
    kind, n, most = draws.draw(4), draws.draw(5) + 1, draws.draw(20)
    return 1 if kind else n if most else 64


def steps_of(draws):
    kind, i, n = draws.draw(4), draws.draw(4), draws.draw(360) + 1
    return n if kind else STEPS[i]


def tolerance_of(draws):
    kind, n = draws.draw(8), draws.draw(1000)
    return {0: 1024000000, 1: 1024000001}.get(kind, n)


def one(draws, number):
    columns = columns_of(draws)
    boats = 1 if draws.draw(16) else 0
    book = exact.make_book([[0] * columns], boats=boats)
    cells = [cell(draws) if i < columns else (0, 0, 0, 0) for i in range(64)]
    steps, tolerance = steps_of(draws), tolerance_of(draws)
    refusal, values = exact.sheet_values(book, cells)
    bits = [value % 65536 for value in values]
    first = " ".join(str(x) for x in bits[:5])
    text = "case %d\nvalues %d %s %d\n" % (number, refusal, first, checksum(bits))
    refusal, sheet = exact.scale_sheet(book, cells, steps, tolerance)
    return text + "sheet %d %d %d\n" % (refusal, len(sheet), checksum(sheet + bytes(144 - len(sheet))))


def main():
    draws = generator.Draws(21)
    sys.stdout.write("".join(one(draws, number) for number in range(3000)))


main()
