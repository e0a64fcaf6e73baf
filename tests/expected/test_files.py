#!/usr/bin/env python3
"""The lines that the test program test_files must print: each case by its name, with the refusal that exact.py gives.

usage: python3 tests/expected/test_files.py > crates/test_files/stdout
"""
import os
import struct
import sys

sys.path.insert(0, os.path.join(os.path.dirname(os.path.abspath(__file__)), ".."))
from exact import book_refusal, files_refusal, make_book, make_sheet, sheet_refusal

ARRAY = 40001
VALUES = (-32768, -2001, -2000, -1, 2000, 2001, 32767)


def ending(file, trailer, length, value):
    """The last `length` bytes of `file` behind zeros; `value` is (bytes before the trailer, number)."""
    whole = bytearray(ARRAY - len(file)) + bytearray(file)
    if value is not None:
        before, number = value
        struct.pack_into("<h", whole, ARRAY - trailer - before, number)
    return bytes(whole[ARRAY - length:])


def book(boats, columns, size, length=None, back=None, letters=b"WBK1", value=None):
    """A fleet book whose body is `size` bytes of zeros."""
    file = make_book([[0] * (size // 2)], back=back, boats=boats, columns=columns, letters=letters)
    return ending(file, 12, len(file) if length is None else length, value)


def sheet(columns, size, length=None, back=None, steps=9, tolerance=1, letters=b"WSH1", value=None):
    """A sheet whose body is `size` bytes of zeros."""
    file = make_sheet([0] * (size // 2), steps, tolerance, back=back, columns=columns, letters=letters)
    return ending(file, 16, len(file) if length is None else length, value)


def factored(factors=(1, 1, 1), columns=3, length=None, back=None, letters=b"WSH2", value=None, **fields):
    """A sheet with factors, of which these are the last, and values of 0."""
    factors = [0] * (columns - len(factors)) + list(factors)
    file = make_sheet([0] * columns, fields.get("steps", 9), fields.get("tolerance", 1), back=back, letters=letters, factors=factors)
    return ending(file, 16, len(file) if length is None else length, value)


def letters_off(letters):
    """The letters, then with one of the four places off by one, place by place; each with its number."""
    number, = struct.unpack("<I", letters)
    for more in (0, 1, 256, 65536, 16777216):
        yield number + more, struct.pack("<I", number + more)


def book_cases():
    for n in (0, 11, 12, 13, 14, 40000, 40001):
        yield f"book length {n}", book(1, 1, 2, length=n)
    for number, letters in letters_off(b"WBK1"):
        yield f"book letters {number}", book(3, 2, 12, letters=letters)
    for n in (0, 1, 256, 257):
        yield f"book boats {n}", book(n, 1, 2 * n)
    for n in (0, 1, 64, 65):
        yield f"book columns {n}", book(1, n, 2 * n)
    yield "book of 256 boats and 64 columns", book(256, 64, 32768)
    yield "book of 65535 boats", book(65535, 1, 2)
    yield "book of 65535 columns", book(1, 65535, 2)
    for back in (0, 11, 12, 13, 12 + 256, 12 + 65536, 12 + 16777216, 4294967295):
        yield f"book back {back}", book(3, 2, 12, back=back)
    yield "book body short by a byte", book(3, 2, 12, length=23)
    yield "book body to the first byte", book(3, 2, 12, length=24)
    yield "book body behind a byte", book(3, 2, 12, length=25)
    for place, length, before in (("first value", 24, 12), ("middle value", 24, 8), ("last value", 24, 2),
                                  ("front just before the body", 26, 14), ("front at the first byte", 40000, 39988)):
        for v in VALUES:
            yield f"book {place} {v % 65536}", book(3, 2, 12, length=length, value=(before, v))
    bad = bytes(4)
    yield "book length and letters", book(3, 2, 12, length=40001, letters=bad)
    yield "book letters and boats", book(0, 2, 0, letters=bad)
    yield "book boats and columns", book(0, 0, 0)
    yield "book boats and back", book(257, 2, 12)
    yield "book columns and back", book(3, 65, 12)
    yield "book back and value", book(3, 2, 12, back=14, value=(2, 2001))
    yield "book letters and value", book(3, 2, 12, letters=bad, value=(2, 2001))


def sheet_cases():
    for n in (0, 15, 16, 21, 22, 40000, 40001):
        yield f"sheet length {n}", sheet(3, 6, length=n), 3
    yield "sheet of no columns for none", sheet(0, 0), 0
    for number, letters in letters_off(b"WSH1"):
        yield f"sheet letters {number}", sheet(3, 6, letters=letters), 3
    for n in (2, 3, 4, 65539):
        yield f"sheet for columns {n}", sheet(3, 6), n
    for n in (0, 1, 360, 361, 65535):
        yield f"sheet steps {n}", sheet(3, 6, steps=n), 3
    for n in (0, 1024000000, 1024000001, 4294967295):
        yield f"sheet tolerance {n}", sheet(3, 6, tolerance=n), 3
    for n in (64, 65):
        yield f"sheet of {n} columns for {n}", sheet(n, 2 * n), n
    for back in (0, 5, 6, 7, 6 + 256, 6 + 65536, 6 + 16777216, 4294967295):
        yield f"sheet back {back}", sheet(3, 6, back=back), 3
    yield "sheet body short by a byte", sheet(3, 6, length=21), 3
    yield "sheet body to the first byte", sheet(3, 6, length=22), 3
    yield "sheet body behind a byte", sheet(3, 6, length=23), 3
    for place, length, before in (("first value", 22, 6), ("middle value", 22, 4), ("last value", 22, 2),
                                  ("front just before the body", 24, 8), ("front at the first byte", 40000, 39984)):
        for v in VALUES:
            yield f"sheet {place} {v % 65536}", sheet(3, 6, length=length, value=(before, v)), 3
    bad = bytes(4)
    yield "sheet length and letters", sheet(3, 6, length=40001, letters=bad), 3
    yield "sheet letters and columns", sheet(2, 4, letters=bad), 3
    yield "sheet columns and steps", sheet(2, 4, steps=0), 3
    yield "sheet columns and back", sheet(2, 6), 3
    yield "sheet steps and tolerance", sheet(3, 6, steps=361, tolerance=1024000001), 3
    yield "sheet tolerance and back", sheet(3, 6, tolerance=1024000001, back=7), 3
    yield "sheet back and value", sheet(3, 6, back=8, value=(2, 2001)), 3
    yield "sheet steps and value", sheet(3, 6, steps=0, value=(2, 2001)), 3


def factored_cases():
    for n in (15, 16, 24, 25, 26, 40000, 40001):
        yield f"sheet with factors length {n}", factored(length=n), 3
    for letters in (843600726, 843600728, 860377943, 826823511):
        yield f"sheet with factors letters {letters}", factored(letters=struct.pack("<I", letters)), 3
    for n in (2, 4):
        yield f"sheet with factors for columns {n}", factored(), n
    for n in (0, 361):
        yield f"sheet with factors steps {n}", factored(steps=n), 3
    yield "sheet with factors tolerance 1024000001", factored(tolerance=1024000001), 3
    for back in (0, 6, 8, 9, 10, 12, 9 + 256, 9 + 16777216):
        yield f"sheet with factors back {back}", factored(back=back, length=40000 if back > 12 else max(back, 9) + 16), 3
    for place, length, before in (("first value", 25, 9), ("middle value", 25, 7), ("last value", 25, 5), ("front just before the body", 27, 11)):
        for v in VALUES:
            yield f"sheet with factors {place} {v % 65536}", factored(length=length, value=(before, v)), 3


def factor_cases():
    for factors in ((0, 0, 0), (1, 0, 0), (0, 0, 1), (0, 63, 0), (64, 0, 0), (21, 21, 22), (65, 0, 0), (0, 64, 1), (22, 21, 22),
                    (128, 64, 64), (255, 1, 1), (255, 255, 255)):
        yield "sheet factors %d %d %d" % factors, factored(factors), 3
    for n in (0, 1, 64, 65):
        yield f"sheet factor {n} of one column", factored((n,), 1), 1
    for total, factors in ((64, (0, 0, 64)), (65, (1, 0, 64)), (0, (0, 0, 0))):
        yield f"sheet factors of 64 columns total {total}", factored(factors, 64), 64
    yield "sheet factors of no columns for none", factored((), 0), 0
    yield "sheet back and factors", factored((0, 0, 0), back=10, length=26), 3
    yield "sheet value and factors", factored((0, 0, 0), value=(9, 2001)), 3


def both_cases():
    good = book(3, 2, 12)
    yield "both accepted", good, sheet(2, 4)
    yield "both empty", b"", b""
    yield "book accepted, sheet empty", good, b""
    yield "book value out, sheet short", book(3, 2, 12, value=(2, 2001)), sheet(2, 4, length=15)
    yield "book boats out, sheet steps out", book(0, 2, 0), sheet(2, 4, steps=0)
    yield "book accepted, sheet letters", good, sheet(2, 4, letters=bytes(4))
    yield "book accepted, sheet of 3 columns", good, sheet(3, 6)
    yield "book accepted, sheet steps out", good, sheet(2, 4, steps=361)
    yield "book accepted, sheet tolerance out", good, sheet(2, 4, tolerance=1024000001)
    yield "book accepted, sheet back out", good, sheet(2, 4, back=5)
    yield "book accepted, sheet value out", good, sheet(2, 4, value=(2, 2001))
    yield "book accepted, sheet with factors", good, factored((1, 1), 2)
    yield "book accepted, sheet factors out", good, factored((0, 0), 2)
    yield "book value out, sheet factors out", book(3, 2, 12, value=(2, 2001)), factored((0, 0), 2)


def main():
    for name, file in book_cases():
        print(f"{name}: {book_refusal(file)}")
    for name, file, columns in (*sheet_cases(), *factored_cases(), *factor_cases()):
        print(f"{name}: {sheet_refusal(file, columns)}")
    for name, fleet, asked in both_cases():
        print(f"{name}: {files_refusal(fleet, asked)}")


if __name__ == "__main__":
    main()
