#!/usr/bin/env python3
"""Checks of the reference implementation tests/exact.py.

Run as  python3 tests/test_exact.py .  The expected numbers are written by
hand here.  It ends with one line that gives the number of checks and exit
code 0, or prints what differs and ends with exit code 1.
"""

import math
import os
import random
import struct
import subprocess
import sys
import tempfile
from fractions import Fraction
from itertools import accumulate

HERE = os.path.dirname(os.path.abspath(__file__))
sys.path.insert(0, HERE)

import exact  # noqa: E402
import generator  # noqa: E402
import make_data  # noqa: E402
import printing  # noqa: E402
from exact import make_book, make_card, make_sheet  # noqa: E402

checks = 0
differences = 0


def agree(label, got, wanted):
    """Count one check; print it if the two differ."""
    global checks, differences
    checks += 1
    if got != wanted:
        differences += 1
        print("%s:\n  got    %r\n  wanted %r" % (label, got, wanted))


P = [(0, 0), (4, 0), (0, 4)]
LINE = [(-2000,), (2000,)]

# name, rows, target, tolerance, steps, verdict, t, shares, E, G, carried
MARKED = [
    ("a", P, (1, 1), 1, 9, 1, 3, [3, 1, 2], 8, 56, None),
    ("b", P, (1, 1), 1, 3, 1, 3, [3, 1, 2], 8, 56, None),
    ("c", P, (1, 1), 1, 2, 3, 2, [0, 1, 2], 26, 44, 17),
    ("d", P, (5, 5), 1, 9, 2, 1, [0, 1, 0], 26, 16, -6),
    ("e", [(0, 0)], (3, 4), 25, 1, 1, 1, [1], 25, 0, None),
    ("f", [(0, 0)], (3, 4), 24, 1, 2, 1, [1], 25, 0, 25),
    ("g", [(0, 0), (0, 0)], (0, 0), 0, 1, 1, 1, [1, 0], 0, 0, None),
    ("h", LINE, (2000,), 0, 1, 1, 1, [0, 1], 0, 0, None),
    ("i", LINE, (0,), 0, 2, 3, 2, [2, 1], 4000000, 16000000, 4000000),
]

LISTING_A = (b"fleet 3 2\n"
             b"sheet 1 9\n"
             b"within 3 6\n"
             b"distance 8\n"
             b"gap 56\n"
             b"boat 0 3\n"
             b"boat 1 1\n"
             b"boat 2 2\n")

# The card of case a, byte for byte.
CARD_A = bytes.fromhex(
    "0000 0300  0100 0100  0200 0200"      # boats 0, 1, 2 with shares 3, 1, 2
    "0c000000 0100 0300 01000000"          # back, verdict, steps used, tolerance
    "0800000000000000 3800000000000000"    # E, G
    "0300 0200 57434432".replace(" ", ""))  # boats, columns, WCD2

BOOK_A = make_book(P)
SHEET_A = make_sheet((1, 1), 9, 1)


def marked_sheets():
    """The nine accepted marked sheets through every call, and the refused one."""
    for name, rows, target, tolerance, steps, verdict, t, shares, e, g, carried in MARKED:
        book, sheet = make_book(rows), make_sheet(target, steps, tolerance)
        wanted = exact.Answer(t, t * (t + 1) // 2, e, g, verdict, carried)
        agree("case %s files" % name, exact.files_refusal(book, sheet), 0)
        agree("case %s search" % name, exact.search(book, sheet, [7] * (len(rows) + 2)),
              (0, wanted, shares + [7, 7]))
        refusal, answer, size, buffer = exact.write_card(book, sheet, b"\xaa" * 60)
        agree("case %s writer" % name, (refusal, answer), (0, wanted))
        agree("case %s card size" % name, size, 36 + 4 * sum(1 for s in shares if s))
        agree("case %s bytes past the card" % name, buffer[size:], b"\xaa" * (60 - size))
        card = buffer[:size]
        agree("case %s card" % name, card, make_card(
            [(boat, s) for boat, s in enumerate(shares) if s], verdict, t, tolerance,
            e, g, len(rows), len(target)))
        for front in (b"", b"front text", b"WCD2" * 20):
            agree("case %s check" % name,
                  exact.check_card(book, sheet, front + card, [9] * (len(rows) + 1)),
                  (0, wanted, shares + [9]))
        agree("case %s listings" % name, exact.card_listing(book, sheet, card),
              exact.listing(book, sheet))
    agree("case a listing", exact.listing(BOOK_A, SHEET_A), LISTING_A)
    agree("case a card bytes", exact.write_card(BOOK_A, SHEET_A, bytes(48))[3], CARD_A)
    agree("case d listing", exact.listing(make_book(P), make_sheet((5, 5), 9, 1)),
          b"fleet 3 2\nsheet 1 9\nbeyond 1 1\ndistance 26\ngap 16\nboat 1 1\n")
    agree("case i listing", exact.listing(make_book(LINE), make_sheet((0,), 2, 0)),
          b"fleet 2 1\nsheet 0 2\nspent 2 3\ndistance 4000000\ngap 16000000\n"
          b"boat 0 2\nboat 1 1\n")
    agree("case j", exact.listing(BOOK_A, make_sheet((1, 1), 0, 1)), b"refused 14\n")


def readers():
    """The readers give back what the builders were given; front text is not read."""
    book = make_book([(-2000, 2000, -1), (0, 1, 258)])
    agree("book bytes", book, bytes.fromhex("30f8d007ffff000001000201"
                                            "0c000000" "0200" "0300") + b"WBK1")
    agree("book rows", exact.read_book(book), [[-2000, 2000, -1], [0, 1, 258]])
    sheet = make_sheet((-3, 4, 5), 360, 1024000000)
    agree("sheet bytes", sheet, bytes.fromhex("fdff04000500" "06000000" "0300" "6801"
                                              "0000093d") + b"WSH1")
    agree("sheet fields", exact.read_sheet(sheet), ([-3, 4, 5], 360, 1024000000, [1, 1, 1]))
    factored = make_sheet((-3, 4, 5), 360, 1024000000, factors=(0, 7, 255))
    agree("factored sheet bytes", factored, bytes.fromhex("fdff04000500" "0007ff" "09000000" "0300" "6801"
                                                          "0000093d") + b"WSH2")
    agree("factored sheet fields", exact.read_sheet(factored), ([-3, 4, 5], 360, 1024000000, [0, 7, 255]))
    for front in (b"x", b"\xff" * 31, book, sheet):
        agree("book front text", exact.read_book(front + book), exact.read_book(book))
        agree("sheet front text", exact.read_sheet(front + sheet), exact.read_sheet(sheet))
        agree("factored sheet front text", exact.read_sheet(front + factored), exact.read_sheet(factored))
        agree("listing front text", exact.listing(front + BOOK_A, front + SHEET_A), LISTING_A)


def book_and_sheet_refusals():
    """Each refusal of a book or a sheet beside its nearest neighbours."""
    full = 40000 - len(BOOK_A)
    cut = make_book(P)[1:]          # the body lacks its first byte
    zeros = [(0,) * 64]
    books = [
        ("empty", b"", 1),
        ("11 bytes", BOOK_A[-11:], 1),
        ("12 bytes, no body", BOOK_A[-12:], 5),
        ("12 bytes of zeros", bytes(12), 2),
        ("smallest", make_book([(5,)]), 0),
        ("smallest less its first byte", make_book([(5,)])[1:], 5),
        ("40,000 bytes", make_book(P, front=b"f" * full), 0),
        ("40,001 bytes", make_book(P, front=b"f" * (full + 1)), 1),
        ("letters", make_book(P, letters=b"WBK2"), 2),
        ("small letters", make_book(P, letters=b"wbk1"), 2),
        ("a sheet's letters", make_book(P, letters=b"WSH1"), 2),
        ("0 boats", make_book([], columns=2), 3),
        ("1 boat", make_book([(1, 2)]), 0),
        ("256 boats", make_book([(1,)] * 256), 0),
        ("257 boats", make_book([(1,)] * 257), 3),
        ("65,535 boats", make_book(P, boats=65535), 3),
        ("0 columns", make_book([(), ()]), 4),
        ("1 column", make_book([(1,), (2,)]), 0),
        ("64 columns", make_book(zeros * 2), 0),
        ("65 columns", make_book([(0,) * 65]), 4),
        ("256 boats of 64 columns", make_book(zeros * 256), 0),
        ("back 0", make_book(P, back=0), 5),
        ("back one less", make_book(P, back=11), 5),
        ("back one more", make_book(P, front=b"x", back=13), 5),
        ("back a row less", make_book(P, back=8), 5),
        ("back greatest", make_book(P, back=0xFFFFFFFF), 5),
        ("back before the first byte", cut, 5),
        ("one byte of front text", b"x" + cut, 0),
        ("more boats than rows", make_book(P, boats=4), 5),
        ("more boats, back to match", make_book(P, boats=4, back=16), 5),
        ("value 2,000", make_book([(2000, -2000)]), 0),
        ("first value 2,001", make_book([(2001, 0)]), 6),
        ("last value 2,001", make_book(P[:2] + [(0, 2001)]), 6),
        ("value -2,001", make_book([(0, -2001)]), 6),
        ("value 32,767", make_book([(0, 32767)]), 6),
        ("value -32,768", make_book([(0, -32768)]), 6),
        ("value out of range in front text", make_book([(0, 0)], front=b"\xff\x7f" * 4), 0),
    ]
    for label, book, wanted in books:
        agree("book, " + label, exact.book_refusal(book), wanted)
        if wanted:
            agree("listing, book, " + label, exact.listing(book, SHEET_A),
                  b"refused %d\n" % wanted)

    full = 40000 - len(SHEET_A)
    sheets = [
        ("empty", b"", 2, 11),
        ("15 bytes", SHEET_A[-15:], 2, 11),
        ("16 bytes, no body", SHEET_A[-16:], 2, 16),
        ("16 bytes of zeros", bytes(16), 2, 12),
        ("smallest", make_sheet((1,), 1, 0), 1, 0),
        ("40,000 bytes", make_sheet((1, 1), 9, 1, front=b"f" * full), 2, 0),
        ("40,001 bytes", make_sheet((1, 1), 9, 1, front=b"f" * (full + 1)), 2, 11),
        ("letters", make_sheet((1, 1), 9, 1, letters=b"WSH3"), 2, 12),
        ("letters before the first edition", make_sheet((1, 1), 9, 1, letters=b"WSH0"), 2, 12),
        ("letters of the other edition", make_sheet((1, 1), 9, 1, letters=b"WSH2"), 2, 16),
        ("a book's letters", make_sheet((1, 1), 9, 1, letters=b"WBK1"), 2, 12),
        ("one column less", make_sheet((1,), 9, 1), 2, 13),
        ("one column more", make_sheet((1, 1, 1), 9, 1), 2, 13),
        ("same columns", make_sheet((1, 1, 1), 9, 1), 3, 0),
        ("64 columns", make_sheet((0,) * 64, 9, 1), 64, 0),
        ("0 steps", make_sheet((1, 1), 0, 1), 2, 14),
        ("1 step", make_sheet((1, 1), 1, 1), 2, 0),
        ("360 steps", make_sheet((1, 1), 360, 1), 2, 0),
        ("361 steps", make_sheet((1, 1), 361, 1), 2, 14),
        ("65,535 steps", make_sheet((1, 1), 65535, 1), 2, 14),
        ("tolerance 0", make_sheet((1, 1), 9, 0), 2, 0),
        ("greatest tolerance", make_sheet((1, 1), 9, 1024000000), 2, 0),
        ("tolerance one more", make_sheet((1, 1), 9, 1024000001), 2, 15),
        ("tolerance of all bits", make_sheet((1, 1), 9, 0xFFFFFFFF), 2, 15),
        ("back 0", make_sheet((1, 1), 9, 1, back=0), 2, 16),
        ("back one less", make_sheet((1, 1), 9, 1, back=3), 2, 16),
        ("back one more", make_sheet((1, 1), 9, 1, front=b"x", back=5), 2, 16),
        ("back greatest", make_sheet((1, 1), 9, 1, back=0xFFFFFFFF), 2, 16),
        ("back before the first byte", SHEET_A[1:], 2, 16),
        ("one byte of front text", b"x" + SHEET_A, 2, 0),
        ("value 2,000", make_sheet((2000, -2000), 9, 1), 2, 0),
        ("value 2,001", make_sheet((2001, 0), 9, 1), 2, 17),
        ("last value 2,001", make_sheet((0, 2001), 9, 1), 2, 17),
        ("value -2,001", make_sheet((0, -2001), 9, 1), 2, 17),
        ("value out of range in front text",
         make_sheet((0, 0), 9, 1, front=b"\xff\x7f" * 4), 2, 0),
        ("no columns for none", make_sheet((), 9, 1), 0, 46),
        ("65 columns for 65", make_sheet((0,) * 65, 9, 1), 65, 46),
    ]
    # Sheets with factors; a good one is `factored()`.
    def factored(target=(1, 1), steps=9, tolerance=1, factors=(3, 5), **fields):
        return make_sheet(target, steps, tolerance, factors=factors, **fields)

    full = 40000 - len(factored())
    sheets += [
        ("factors", factored(), 2, 0),
        ("factors, 15 bytes", factored()[-15:], 2, 11),
        ("factors, 16 bytes, no body", factored()[-16:], 2, 16),
        ("factors, smallest", make_sheet((1,), 1, 0, factors=(1,)), 1, 0),
        ("factors, 40,000 bytes", factored(front=b"f" * full), 2, 0),
        ("factors, 40,001 bytes", factored(front=b"f" * (full + 1)), 2, 11),
        ("factors, letters of the other edition", factored(letters=b"WSH1"), 2, 16),
        ("factors read as front text", factored(letters=b"WSH1", back=4), 2, 0),
        ("factors, one column less", factored(columns=1), 2, 13),
        ("factors, 0 steps", factored(steps=0), 2, 14),
        ("factors, tolerance one more", factored(tolerance=1024000001), 2, 15),
        ("factors, back 2 * columns", factored(back=4), 2, 16),
        ("factors, back one less", factored(back=5), 2, 16),
        ("factors, back one more", factored(back=7, front=b"x"), 2, 16),
        ("factors, back 4 * columns", factored(back=8, front=b"xx"), 2, 16),
        ("factors, back before the first byte", factored()[1:], 2, 16),
        ("factors, one byte of front text", b"x" + factored(), 2, 0),
        ("factors, value 2,001", factored(target=(1, 2001)), 2, 17),
        ("factors, first value -2,001", factored(target=(-2001, 1)), 2, 17),
        ("factors that would be values out of range", factored(factors=(0x3f, 0x00)), 2, 0),
        ("factors of total 0", factored(factors=(0, 0)), 2, 46),
        ("factors of total 1", factored(factors=(0, 1)), 2, 0),
        ("factors 1 and 0", factored(factors=(1, 0)), 2, 0),
        ("factors of total 64", factored(factors=(31, 33)), 2, 0),
        ("factors 0 and 64", factored(factors=(0, 64)), 2, 0),
        ("factors of total 65", factored(factors=(32, 33)), 2, 46),
        ("factors 65 and 0", factored(factors=(65, 0)), 2, 46),
        ("factors of total 256", factored(factors=(128, 128)), 2, 46),
        ("factors of total 257", factored(factors=(255, 2)), 2, 46),
        ("factors 255", factored(factors=(255, 255)), 2, 46),
        ("one column, factor 0", factored((1,), factors=(0,)), 1, 46),
        ("one column, factor 64", factored((1,), factors=(64,)), 1, 0),
        ("one column, factor 65", factored((1,), factors=(65,)), 1, 46),
        ("64 columns, factors 1", factored((0,) * 64, factors=(1,) * 64), 64, 0),
        ("64 columns, one factor 2", factored((0,) * 64, factors=(1,) * 63 + (2,)), 64, 46),
        ("64 columns, all on the last", factored((0,) * 64, factors=(0,) * 63 + (64,)), 64, 0),
        ("64 columns, factors 255", factored((0,) * 64, factors=(255,) * 64), 64, 46),
        ("64 columns, factors 0", factored((0,) * 64, factors=(0,) * 64), 64, 46),
    ]
    for label, sheet, columns, wanted in sheets:
        agree("sheet, " + label, exact.sheet_refusal(sheet, columns), wanted)
        if wanted and columns == 2:
            agree("listing, sheet, " + label, exact.listing(BOOK_A, sheet),
                  b"refused %d\n" % wanted)


def lent_lists():
    """Refusals 21 and 22; lent lists and buffers that must stay as they were."""
    slots = [5, 6]
    agree("2 slots", exact.search(BOOK_A, SHEET_A, slots), (21, None, [5, 6]))
    agree("no slots", exact.search(BOOK_A, SHEET_A, []), (21, None, []))
    agree("3 slots", exact.search(BOOK_A, SHEET_A, [5, 6, 7])[::2], (0, [3, 1, 2]))
    agree("5 slots", exact.search(BOOK_A, SHEET_A, [5, 6, 7, 8, 9])[::2],
          (0, [3, 1, 2, 8, 9]))
    agree("the given list itself", slots, [5, 6])
    agree("refused search keeps its slots",
          exact.search(BOOK_A, make_sheet((1, 1), 0, 1), [5, 6, 7]), (14, None, [5, 6, 7]))
    agree("check with 2 slots", exact.check_card(BOOK_A, SHEET_A, CARD_A, [5, 6]),
          (21, None, [5, 6]))
    agree("buffer of 47", exact.write_card(BOOK_A, SHEET_A, b"b" * 47),
          (22, None, 0, b"b" * 47))
    agree("empty buffer", exact.write_card(BOOK_A, SHEET_A, b""), (22, None, 0, b""))
    agree("buffer of 48", exact.write_card(BOOK_A, SHEET_A, b"b" * 48)[2:], (48, CARD_A))
    agree("buffer of 50", exact.write_card(BOOK_A, SHEET_A, b"b" * 50)[2:],
          (48, CARD_A + b"bb"))
    agree("refused writer keeps its buffer",
          exact.write_card(b"", SHEET_A, b"b" * 50), (1, None, 0, b"b" * 50))


# The fields of the true card of case a, for the faulty ones.
FIELDS_A = dict(entries=[(0, 3), (1, 1), (2, 2)], verdict=1, steps=3, tolerance=1,
                distance=8, gap=56, boats=3, columns=2)


def near_card(**changes):
    """The card of case a with some fields changed."""
    fields = dict(FIELDS_A)
    fields.update(changes)
    return make_card(**fields)


def card_refusals():
    """Each refusal of a card beside its nearest neighbours."""
    full = 40000 - len(CARD_A)
    cards = [
        ("true", near_card(), 0),
        ("empty", b"", 31),
        ("35 bytes", CARD_A[-35:], 31),
        ("36 bytes, no body", CARD_A[-36:], 35),
        ("36 bytes of zeros", bytes(36), 32),
        ("40,000 bytes", near_card(front=b"f" * full), 0),
        ("40,001 bytes", near_card(front=b"f" * (full + 1)), 31),
        ("letters", near_card(letters=b"WCD3"), 32),
        ("letters before the first edition", near_card(letters=b"WCD0"), 32),
        ("one boat more", near_card(boats=4), 33),
        ("one boat less", near_card(boats=2), 33),
        ("one column more", near_card(columns=3), 33),
        ("one column less", near_card(columns=1), 33),
        ("verdict 0", near_card(verdict=0), 34),
        ("verdict 4", near_card(verdict=4), 34),
        ("steps used 0", near_card(steps=0), 34),
        ("steps used 10 of 9", near_card(steps=10), 34),
        ("steps used 9 of 9", near_card(steps=9), 37),
        ("back 0", near_card(back=0), 35),
        ("back 11", near_card(back=11), 35),
        ("back 13", near_card(front=b"xxxx", back=13), 35),
        ("back 16, above 4 * boats", near_card(front=b"xxxx", back=16), 35),
        ("back greatest multiple of 4", near_card(back=0xFFFFFFFC), 35),
        ("back before the first byte", CARD_A[1:], 35),
        ("one byte of front text", b"x" + CARD_A, 0),
        ("back 8, an entry less", near_card(back=8), 37),
        ("boats in another order", near_card(entries=[(0, 3), (2, 2), (1, 1)]), 36),
        ("a boat twice", near_card(entries=[(0, 3), (1, 1), (1, 2)]), 36),
        ("boat 3 of 3", near_card(entries=[(0, 3), (1, 1), (3, 2)]), 36),
        ("boat 65,535", near_card(entries=[(0, 3), (1, 1), (65535, 2)]), 36),
        ("a share of 0", near_card(entries=[(0, 4), (1, 0), (2, 2)]), 36),
        ("total one more", near_card(entries=[(0, 4), (1, 1), (2, 2)]), 37),
        ("total one less", near_card(entries=[(0, 3), (1, 1), (2, 1)]), 37),
        ("total right by 16 bits", near_card(entries=[(0, 3), (1, 65535), (2, 4)]), 37),
        ("shares exchanged", near_card(entries=[(0, 1), (1, 3), (2, 2)]), 38),
        # Shares 3 2 1 also give E = 8 and G = 56: true, though no search ends there.
        ("boats 1 and 2 exchanged", near_card(entries=[(0, 3), (1, 2), (2, 1)]), 0),
        # Three boats in two steps with the right total of 3; E is 2 and G is 8 there.
        ("more boats than steps used",
         near_card(entries=[(0, 1), (1, 1), (2, 1)], steps=2, distance=2, gap=8), 37),
        ("the same shares doubled in three steps",
         near_card(entries=[(0, 2), (1, 2), (2, 2)], steps=3, distance=8, gap=32), 0),
        ("E one more", near_card(distance=9), 38),
        ("E one less", near_card(distance=7), 38),
        ("G one more", near_card(gap=57), 38),
        ("G one less", near_card(gap=55), 38),
        ("G of all bits", near_card(gap=0xFFFFFFFFFFFFFFFF), 38),
        ("Beyond for Within", near_card(verdict=2), 38),
        ("Spent for Within", near_card(verdict=3), 38),
        ("tolerance 0", near_card(tolerance=0), 39),
        ("tolerance 2", near_card(tolerance=2), 39),
        ("tolerance above every limit", near_card(tolerance=0xFFFFFFFF), 39),
    ]
    for label, card, wanted in cards:
        refusal, answer, slots = exact.check_card(BOOK_A, SHEET_A, card, [4] * 5)
        agree("card, " + label, refusal, wanted)
        if wanted:
            agree("card, %s, nothing given back" % label, (answer, slots), (None, [4] * 5))
            agree("card, %s, listing" % label, exact.card_listing(BOOK_A, SHEET_A, card),
                  b"refused %d\n" % wanted)
        else:
            agree("card, %s, later slots" % label, slots[3:], [4, 4])

    # The verdict is judged at the sheet's tolerance and the sheet's steps.
    spent = make_card([(1, 1), (2, 2)], 3, 2, 1, 26, 44, 3, 2)
    for steps, wanted in ((1, 34), (2, 0), (3, 38)):
        agree("Spent 2 under %d steps" % steps,
              exact.check_card(BOOK_A, make_sheet((1, 1), steps, 1), spent, [0] * 3)[0], wanted)
    # E = 26 and W^2 = 9: above 2 * 9, so Spent is true; not above 3 * 9.
    agree("Spent where Within is due",
          exact.check_card(BOOK_A, make_sheet((1, 1), 2, 3), spent, [0] * 3)[0], 38)
    agree("Spent, other tolerance",
          exact.check_card(BOOK_A, make_sheet((1, 1), 2, 2), spent, [0] * 3)[0], 39)
    agree("Within at a lower tolerance of the sheet",
          exact.check_card(BOOK_A, make_sheet((1, 1), 9, 0), CARD_A, [0] * 3)[0], 38)
    # E = 8 and W^2 = 36, so Within is true from a tolerance of 1 upwards.
    agree("Within at a higher tolerance of the sheet",
          exact.check_card(BOOK_A, make_sheet((1, 1), 9, 2), CARD_A, [0] * 3)[0], 39)
    # E = 170, G = 32, W^2 = 9. The former test: the floor is 106, beyond 11 * 9 = 99, not beyond 12 * 9 = 108.
    # The sharper: (170 - 32)^2 = 19044, above 12 * 9 * 170 = 18360, not above 13 * 9 * 170 = 19890.
    for letters, cases in ((b"WCD1", ((1, 0), (11, 39), (12, 38))), (b"WCD2", ((1, 0), (11, 39), (12, 39), (13, 38)))):
        beyond = make_card([(1, 1), (2, 2)], 2, 2, 1, 170, 32, 3, 2, letters=letters)
        for tolerance, wanted in cases:
            agree("%s Beyond at tolerance %d" % (letters, tolerance),
                  exact.check_card(BOOK_A, make_sheet((5, 5), 9, tolerance), beyond, [0] * 3)[0],
                  wanted)
    # Beyond comes before Spent at the last step.
    agree("Spent where Beyond is due",
          exact.check_card(BOOK_A, make_sheet((5, 5), 2, 1),
                           make_card([(1, 1), (2, 2)], 3, 2, 1, 170, 32, 3, 2), [0] * 3)[0], 38)
    # E equal to the tolerance is Within; a floor equal to it is not Beyond.
    one, point = make_book([(0, 0)]), (3, 4)
    for tolerance, verdict in ((24, 2), (25, 1), (26, 1)):
        agree("one boat at tolerance %d" % tolerance,
              exact.search(one, make_sheet(point, 5, tolerance), [0])[1].verdict, verdict)
    # Step 1 picks (4, 0); r = (-5, -9), E = 106, G = 16 and the floor is 74.
    # (106 - 16)^2 = 8100, above 76 * 106 = 8056, not above 77 * 106 = 8162.
    for tolerance, verdict, carried in ((73, 2, 74), (74, 2, 74), (76, 2, 74), (77, 3, 29)):
        agree("floor 74 at tolerance %d" % tolerance,
              exact.search(BOOK_A, make_sheet((9, 9), 1, tolerance), [0] * 3),
              (0, exact.Answer(1, 1, 106, 16, verdict, carried), [0, 1, 0]))


def two_tests():
    """The two tests of Beyond, at their borders and against each other."""
    # d, g, tolerance, former, sharper
    for d, g, tolerance, former, sharper in (
            (25, 0, 24, True, True), (25, 0, 25, False, False),
            (26, 16, 1, False, True), (26, 16, 3, False, True), (26, 16, 4, False, False),
            # (4 - 2)^2 is 1 * 4; one more on either side.
            (4, 2, 1, False, False), (5, 2, 1, False, True), (4, 2, 0, False, True), (4, 3, 0, False, True),
            (4, 4, 0, False, False), (4, 5, 0, False, False), (4, 9, 0, False, False),
            (9, 4, 1, False, True), (10, 4, 1, True, True),
            # (d - g)^2 is 2^70, which is 1024 d: the low 64 bits of both are 0.
            (2 ** 60, 2 ** 60 - 2 ** 35, 1024, False, False), (2 ** 60, 2 ** 60 - 2 ** 35, 1023, False, True),
            (Fraction(26, 9), Fraction(16, 9), 0, False, True)):
        agree("former test %s %s %s" % (d, g, tolerance), exact.former_test(d, g, tolerance), former)
        agree("sharper test %s %s %s" % (d, g, tolerance), exact.sharper_test(d, g, tolerance), sharper)
    # The sharper test holds wherever the former does.
    for d in range(14):
        for g in range(14):
            for tolerance in range(14):
                agree("tests %d %d %d" % (d, g, tolerance),
                      exact.former_test(d, g, tolerance) <= exact.sharper_test(d, g, tolerance), True)


def editions():
    """A run by the former test, and cards of both editions of both runs."""
    book, sheet = make_book(P), make_sheet((5, 5), 9, 1)
    answer, shares = exact.run(P, (5, 5), 9, 1, test=exact.former_test)
    agree("former run", (answer, shares), (exact.Answer(2, 3, 170, 32, 2, 106), [0, 1, 2]))
    # The sharper verdict of the first step is not due by the former test, which goes on; the second step's is by both.
    for letters, first, second in ((b"WCD1", 38, 0), (b"WCD2", 0, 0)):
        agree("%s, first step" % letters, exact.check_card(
            book, sheet, make_card([(1, 1)], 2, 1, 1, 26, 16, 3, 2, letters=letters), [0] * 3)[0], first)
        agree("%s, second step" % letters, exact.check_card(
            book, sheet, exact.card_bytes(answer, shares, 1, 3, 2, letters), [0] * 3)[0], second)
    # At a sheet of one step the former test ends Spent there, and the sharper Beyond.
    one = make_sheet((5, 5), 1, 1)
    for letters, verdict, wanted in ((b"WCD1", 3, 0), (b"WCD1", 2, 38), (b"WCD2", 3, 38), (b"WCD2", 2, 0)):
        agree("%s, verdict %d" % (letters, verdict), exact.check_card(
            book, one, make_card([(1, 1)], verdict, 1, 1, 26, 16, 3, 2, letters=letters), [0] * 3)[0], wanted)
    # No run by the sharper test is longer, and it is Beyond wherever the former is.
    draw = random.Random(27)
    for number in range(200):
        rows = [[draw.randint(-9, 9) for _ in range(3)] for _ in range(draw.randint(1, 6))]
        case = rows, [draw.randint(-15, 15) for _ in range(3)], draw.randint(1, 12), draw.randint(0, 60)
        sharper, former = exact.run(*case)[0], exact.run(*case, test=exact.former_test)[0]
        agree("run %d, steps" % number, sharper.steps <= former.steps, True)
        agree("run %d, Beyond" % number, former.verdict != exact.BEYOND or sharper.verdict == exact.BEYOND, True)


def filed_before():
    """The cards of crates/test_edition/data are those of runs by the former test and tie rule, byte for byte."""
    for name, (_, book, sheet) in make_data.FILED_BEFORE.items():
        rows, (target, steps, tolerance, factors) = exact.read_book(book), exact.read_sheet(sheet)
        answer, shares = exact.run(rows, target, steps, tolerance, factors, exact.former_test, exact.former_vertex)
        card = printing.data_file("test_edition", name + ".wcd")
        agree("card %s" % name, card, exact.card_bytes(answer, shares, tolerance, len(rows), len(target), b"WCD1"))
        agree("card %s checked" % name, exact.check_card(book, sheet, card, [0] * len(rows)), (0, answer, shares))


def two_faults():
    """With two faults the one that is checked first is given back, whatever the pair."""
    long_front = b"f" * 40000
    book_faults = {
        1: dict(front=long_front), 2: dict(letters=b"XXXX"), 3: dict(boats=0),
        4: dict(columns=65), 5: dict(back=1), 6: dict(rows=[(0, 0), (4, 0), (0, -2001)])}
    sheet_faults = {
        11: dict(front=long_front), 12: dict(letters=b"XXXX"), 13: dict(columns=3),
        14: dict(steps=361), 15: dict(tolerance=1024000001), 16: dict(back=5),
        17: dict(target=(1, 2001)), 46: dict(factors=(0, 0))}
    card_faults = {
        31: dict(front=long_front), 32: dict(letters=b"XXXX"), 33: dict(boats=4),
        34: dict(verdict=7), 35: dict(back=6), 36: dict(entries=[(0, 3), (1, 1), (9, 2)]),
        38: dict(distance=9), 39: dict(tolerance=2)}

    def build(faults):
        book, sheet, card = dict(rows=P), dict(target=(1, 1), steps=9, tolerance=1), {}
        slots = 3
        for fault in faults:
            if fault == 21:
                slots = 2
            elif fault == 37:
                # Added to the entries there are, so that it joins with fault 36.
                entries = list(card.get("entries", FIELDS_A["entries"]))
                entries[0] = (0, 30)
                card["entries"] = entries
            else:
                book.update(book_faults.get(fault, {}))
                sheet.update(sheet_faults.get(fault, {}))
                card.update(card_faults.get(fault, {}))
        return make_book(**book), make_sheet(**sheet), near_card(**card), [8] * slots

    # In the order of the card check: 46 is the last of the sheet's.
    files = list(book_faults) + list(sheet_faults)
    numbers = files + [21] + sorted([37] + list(card_faults))
    for i, first in enumerate(numbers):
        for other in numbers[i:]:
            book, sheet, card, slots = build(sorted({first, other}))
            agree("check, faults %d and %d" % (first, other),
                  exact.check_card(book, sheet, card, slots), (first, None, slots))
            if first in files + [21]:
                agree("search, faults %d and %d" % (first, other),
                      exact.search(book, sheet, slots), (first, None, slots))
            if first in files:
                agree("writer, faults %d and %d" % (first, other),
                      exact.write_card(book, sheet, b""), (first, None, 0, b""))


def plain_measure(rows, shares, target, factors=None):
    """Squared distance and duality gap straight from their definitions."""
    total, f = sum(shares), factors or [1] * len(target)
    x = [sum(Fraction(s, total) * row[j] for s, row in zip(shares, rows))
         for j in range(len(target))]
    slope = [a - u for a, u in zip(x, target)]
    distance = sum(f[j] * a * a for j, a in enumerate(slope))
    gap = max(sum(f[j] * slope[j] * (x[j] - row[j]) for j in range(len(f))) for row in rows)
    return distance, gap


def random_books():
    """Runs on random books against properties every run must have."""
    draw = random.Random(20240611)
    verdicts = {1: 0, 2: 0, 3: 0}
    for number in range(150):
        boats, columns = draw.randint(1, 8), draw.randint(1, 5)
        reach = draw.choice((2, 10, 2000))
        rows = [[draw.randint(-reach, reach) for _ in range(columns)] for _ in range(boats)]
        target = [draw.randint(-reach, reach) for _ in range(columns)]
        if draw.random() < 0.5:
            # A target among the rows, so that not every one is beyond.
            target = [sum(column) // boats for column in zip(*rows)]
        steps, tolerance = draw.randint(1, 20), draw.choice((0, 1, reach, reach * reach // 4))
        label = "random book %d" % number
        t, weights, point, distance, gap, verdict = exact.frank_wolfe(
            rows, target, steps, tolerance)
        answer, shares = exact.run(rows, target, steps, tolerance)
        verdicts[verdict] += 1
        agree(label + ", weights total 1", sum(weights), 1)
        agree(label + ", point of the weights", point,
              [sum(w * row[j] for w, row in zip(weights, rows)) for j in range(columns)])
        agree(label + ", shares total W", sum(shares), answer.weight)
        agree(label + ", distance and gap", (distance, gap), plain_measure(rows, shares, target))
        agree(label + ", gap not negative", gap >= 0, True)
        square = answer.weight ** 2
        agree(label + ", E and G", (Fraction(answer.distance, square),
                                    Fraction(answer.gap, square)), (distance, gap))
        # The squared distance is above that of any mixture by at most
        # 4 D^2 / (t + 2), and by at most twice the gap.
        spread = max(sum((a - b) ** 2 for a, b in zip(v, w)) for v in rows for w in rows)
        others = [[int(i == j) for i in range(boats)] for j in range(boats)]
        others.append([draw.randint(1, 9) for _ in range(boats)])
        best = min(plain_measure(rows, other, target)[0] for other in others)
        agree(label + ", bound", distance - best <= Fraction(4 * spread, t + 2), True)
        agree(label + ", gap bound", distance - best <= 2 * gap, True)
        # One step less ends as Spent, and the last step gave its t shares to one boat.
        if t > 1:
            before, fewer = exact.run(rows, target, t - 1, tolerance)
            agree(label + ", one step less", (before.steps, before.verdict), (t - 1, 3))
            change = sorted(a - b for a, b in zip(shares, fewer))
            agree(label + ", last step", change, [0] * (boats - 1) + [t])
        # The card round trip, with and without front text.
        book, sheet = make_book(rows), make_sheet(target, steps, tolerance)
        refusal, written, size, buffer = exact.write_card(book, sheet, bytes(100))
        agree(label + ", writer", (refusal, written), (0, answer))
        for front in (b"", b"front"):
            agree(label + ", check", exact.check_card(book, sheet, front + buffer[:size],
                                                      [0] * boats), (0, answer, shares))
    agree("every verdict among the random books", min(verdicts.values()) > 5, True)


# ---- columns that count more

# name, rows, target, factors, tolerance, steps, verdict, t, shares, E, G, carried; r is y - W u, and r' has each column times its factor.
FACTORED = [
    # Step 1 from r = (-1, -1), r' = (-1, -2): the scores are 0, -4, -8, and boat 2 is picked where factors 1 1 have a tie and take boat 1.
    # Then r = (-1, 3), r' = (-1, 6), scores 0, -4, 24: boat 1 gets 2. y = (8, 4), r = (5, 1), r' = (5, 2): E = 25 + 2, and
    # G = 5 * 8 + 2 * 4 - 3 * 0, the least score 0 at boat 0. Tolerance 1: 27 - 9 are short.
    ("k", P, (1, 1), (1, 2), 1, 2, 3, 2, [0, 2, 1], 27, 48, 18),
    # E is the tolerance times 9.
    ("l", P, (1, 1), (1, 2), 3, 9, 1, 2, [0, 2, 1], 27, 48, None),
    # The rows differ in a column that does not count: D^2 is 0, every score is equal and boat 0 is picked. r = (-3, -1), r' = (-3, 0).
    ("m", [(0, 0), (0, 4)], (3, 1), (1, 0), 8, 5, 2, 1, [1, 0], 9, 0, 9),
    ("n", [(0, 0), (0, 4)], (3, 1), (1, 0), 9, 5, 1, 1, [1, 0], 9, 0, None),
    # One column has all 64. r' = (-64, 0), scores 0, -256, 0: boat 1; E = 64 * 9. Then r' = (192, 0), scores 0, 768, 0: boat 0 gets 2.
    # y = (4, 0), r = (1, -3), E = 64, which is above 7 * 9 and not above 8 * 9; G = 64 * 4.
    ("o", P, (1, 1), (64, 0), 8, 2, 1, 2, [2, 1, 0], 64, 256, None),
    ("p", P, (1, 1), (64, 0), 7, 2, 3, 2, [2, 1, 0], 64, 256, 1),
    # Every factor 1: sheet a.
    ("q", P, (1, 1), (1, 1), 1, 9, 1, 3, [3, 1, 2], 8, 56, None),
    # The greatest squared distance, 64 * 4000^2, in one column.
    ("r", [(2000,)], (-2000,), (64,), 1024000000, 1, 1, 1, [1], 1024000000, 0, None),
    ("s", [(2000,)], (-2000,), (64,), 1023999999, 1, 2, 1, [1], 1024000000, 0, 1024000000),
]


def factored_sheets():
    """The sheets worked out above through every call."""
    for name, rows, target, factors, tolerance, steps, verdict, t, shares, e, g, carried in FACTORED:
        book, sheet = make_book(rows), make_sheet(target, steps, tolerance, factors=factors)
        wanted = exact.Answer(t, t * (t + 1) // 2, e, g, verdict, carried)
        agree("case %s search" % name, exact.search(book, sheet, [7] * (len(rows) + 2)), (0, wanted, shares + [7, 7]))
        refusal, answer, size, buffer = exact.write_card(book, sheet, b"\xaa" * 60)
        agree("case %s writer" % name, (refusal, answer), (0, wanted))
        card = make_card([(boat, s) for boat, s in enumerate(shares) if s], verdict, t, tolerance, e, g, len(rows), len(target))
        agree("case %s card" % name, buffer, card.ljust(60, b"\xaa"))
        agree("case %s check" % name, exact.check_card(book, sheet, b"front" + card, [9] * len(rows)), (0, wanted, shares))
        agree("case %s listings" % name, exact.card_listing(book, sheet, card), exact.listing(book, sheet))
    agree("case k listing", exact.listing(make_book(P), make_sheet((1, 1), 2, 1, factors=(1, 2))),
          b"fleet 3 2\nsheet 1 2\nspent 2 3\ndistance 27\ngap 48\nboat 1 2\nboat 2 1\n")
    agree("without factors boat 1 is picked first", exact.search(make_book(P), make_sheet((1, 1), 2, 1), [0] * 3)[1:],
          (exact.Answer(2, 3, 26, 44, 3, 17), [0, 1, 2]))
    rows = [(0, 0), (0, 4)]
    agree("D^2 of m", (exact.squared_diameter(rows, (1, 0)), exact.squared_diameter(rows), exact.squared_diameter(rows, (0, 3))), (0, 16, 48))
    agree("D^2 of P", [exact.squared_diameter(P, f) for f in (None, (1, 2), (64, 0), (1, 0))], [32, 48, 1024, 16])
    for factors, wanted in (((0, 0), 46), ((1, 0), 0), ((64, 1), 46), ((64, 0), 0)):
        agree("factors %r" % (factors,), exact.search(make_book(P), make_sheet((1, 1), 9, 100, factors=factors), [0] * 3)[0], wanted)


def factored_cards():
    """Cards that are true by one set of factors, judged by others."""
    book = make_book(P)
    plain, double, first = (make_sheet((1, 1), 2, 1, factors=factors) for factors in (None, (1, 2), (64, 0)))
    ones = make_sheet((1, 1), 2, 1, factors=(1, 1))
    card_c = make_card([(1, 1), (2, 2)], 3, 2, 1, 26, 44, 3, 2)
    card_k = make_card([(1, 2), (2, 1)], 3, 2, 1, 27, 48, 3, 2)
    for label, card, wanted in (("c", card_c, (0, 38, 38, 0)), ("k", card_k, (38, 0, 38, 38))):
        got = tuple(exact.check_card(book, sheet, card, [0] * 3)[0] for sheet in (plain, double, first, ones))
        agree("card %s by the factors 1 1, 1 2, 64 0, and 1 1 again" % label, got, wanted)
    # Shares 0 1 2: y = (4, 8), r = (1, 5). By the factors 1 2 that is E = 1 + 50 and r' = (1, 10), G = 4 + 80 - 0.
    agree("c's shares by the factors 1 2", exact.check_card(book, double, make_card([(1, 1), (2, 2)], 3, 2, 1, 51, 84, 3, 2), [0] * 3)[0], 0)
    # E by the factors and G without them, and the other way round.
    for e, g in ((27, 44), (26, 48), (29, 48), (27, 50)):
        agree("E %d and G %d" % (e, g), exact.check_card(book, double, make_card([(1, 2), (2, 1)], 3, 2, 1, e, g, 3, 2), [0] * 3)[0], 38)
    # A column in which all boats and the target agree may have any factor.
    book = make_book([(0, 5), (4, 5)])
    card = make_card([(0, 2), (1, 1)], 1, 2, 1, 1, 4, 2, 2)
    for factors, wanted in ((None, 0), ((1, 0), 0), ((1, 63), 0), ((1, 64), 46), ((2, 1), 38)):
        agree("card by %r" % (factors,), exact.check_card(book, make_sheet((1, 5), 9, 1, factors=factors), card, [0] * 2)[0], wanted)
    # The better of two: 2 0 1 has r = (-3, 1), 2 1 0 has r = (1, -3), equal by the factors 1 1.
    book = make_book(P)
    for factors, better in (((1, 1), 1), ((1, 2), 1), ((2, 1), 2), ((0, 1), 1), ((1, 0), 2)):
        sheet = make_sheet((1, 1), 9, 1000, factors=factors)
        one, other = exact.true_card(book, sheet, [2, 0, 1], 2), exact.true_card(book, sheet, [2, 1, 0], 2)
        agree("better by %r" % (factors,), exact.better_card(book, sheet, one, other)[:2], (0, better))


def drawn_factors(draw, columns):
    """Factors of total 1 to 64, zeros among them."""
    while True:
        factors = [draw.choice((0, 1, 1, 2, draw.randint(0, 64 // columns))) for _ in range(columns)]
        if 1 <= sum(factors) <= 64:
            return factors


def often(row, factors):
    """The values of a row, each as often as its factor says."""
    return [value for value, factor in zip(row, factors) for _ in range(factor)]


def factored_books():
    """Drawn runs with factors: straight from the definitions, as columns that stand so often, and by the bounds."""
    draw = random.Random(25)
    changed = 0
    for number in range(300):
        boats, columns, reach = draw.randint(1, 7), draw.randint(1, 5), draw.choice((2, 10, 2000))
        rows = [[draw.randint(-reach, reach) for _ in range(columns)] for _ in range(boats)]
        target = [draw.randint(-reach, reach) for _ in range(columns)]
        if draw.random() < 0.5:
            target = [sum(column) // boats for column in zip(*rows)]
        steps, tolerance, factors = draw.randint(1, 15), draw.choice((0, 1, reach, reach * reach)), drawn_factors(draw, columns)
        label = "factored book %d" % number
        answer, shares = exact.run(rows, target, steps, tolerance, factors)
        square = answer.weight ** 2
        distance, gap = plain_measure(rows, shares, target, factors)
        agree(label + ", E and G", (answer.distance, answer.gap), (distance * square, gap * square))
        # The same search of columns that stand as often as their factors say.
        repeated = [often(row, factors) for row in rows]
        agree(label + ", columns repeated", exact.run(repeated, often(target, factors), steps, tolerance), (answer, shares))
        agree(label + ", D^2", exact.squared_diameter(rows, factors), exact.squared_diameter(repeated))
        changed += shares != exact.run(rows, target, steps, tolerance)[1]
        best = min(plain_measure(rows, [int(i == j) for i in range(boats)], target, factors)[0] for j in range(boats))
        spread = exact.squared_diameter(rows, factors)
        agree(label + ", bounds", distance - best <= min(Fraction(4 * spread, answer.steps + 2), 2 * gap), True)
        # Some step's gap is small by the factored D^2, and every gap is 0 where that is.
        gaps = exact.gaps_of(rows, target, steps + 1, factors)
        agree(label + ", small gap", min(4 * (steps + 3) * gap for gap in gaps) <= 27 * spread and (spread > 0 or not any(gaps)), True)
        # A sheet WSH2 of the factor 1 is the sheet WSH1.
        book, plain, ones = make_book(rows), make_sheet(target, steps, tolerance), make_sheet(target, steps, tolerance, factors=[1] * columns)
        agree(label + ", factors 1", exact.write_card(book, ones, bytes(80)), exact.write_card(book, plain, bytes(80)))
        sheet = make_sheet(target, steps, tolerance, factors=factors)
        card = exact.true_card(book, sheet, shares, answer.steps)
        agree(label + ", card", (card, exact.check_card(book, sheet, card, [0] * boats)),
              (exact.card_bytes(answer, shares, tolerance, boats, columns), (0, answer, shares)))
    agree("factors change the shares often", changed > 100, True)


def none(factors):
    return [1] * len(factors)


def squared(factors):
    return [factor * factor for factor in factors]


def of_the_next_column(factors):
    return factors[1:] + factors[:1]


def as_they_are(factors):
    return factors


# Wrong ways to take the factors in E, in the scores and in G, each of which changes many of the drawn searches.
WRONG_FACTORS = [(none, none, none), (squared, squared, squared), (as_they_are, none, as_they_are), (as_they_are, none, none),
                 (none, as_they_are, as_they_are), (as_they_are, as_they_are, none), (none, none, as_they_are), (of_the_next_column,) * 3]


def wrongly_shared(rows, target, steps, factors, ways):
    """Shares, E and G after so many steps, in whole numbers, with the factors taken in these ways in E, in the scores and in G."""
    in_e, in_scores, in_g = (way(factors) for way in ways)

    def inner(factors, left, right):
        return sum(f * a * b for f, a, b in zip(factors, left, right))

    shares, slope = [0] * len(rows), [a - u for a, u in zip(rows[0], target)]
    for k in range(1, steps + 1):
        scores = [inner(in_scores, slope, row) for row in rows]
        shares[first_that_holds([i for i, score in enumerate(scores) if score == min(scores)], shares, None)] += k
        w = k * (k + 1) // 2
        y = [sum(s * row[j] for s, row in zip(shares, rows)) for j in range(len(target))]
        slope = [a - w * u for a, u in zip(y, target)]
    return shares, inner(in_e, slope, slope), max(inner(in_g, slope, [a - w * v for a, v in zip(y, row)]) for row in rows)


def drawn_sheets_with_factors():
    """Sheets with factors drawn as test_factor draws them tell the factors from wrong ones; and what draw_factors gives meets the limits."""
    draws = generator.Draws(25)
    totals, differ = [], [0] * len(WRONG_FACTORS)
    for number in range(400):
        plan = generator.draw_plan(draws)
        start, book = generator.draw_book(draws, plan)
        plain = generator.draw_sheet(draws, plan, book, start, 0)
        sheet = generator.factored_sheet(plain, generator.draw_factors(draws, plan.columns))
        refusal, answer, shares = exact.search(book, sheet, [0] * plan.boats)
        rows, (target, _, _, factors) = exact.read_book(book), exact.read_sheet(sheet)
        totals.append(sum(factors))
        agree("drawn factors %d" % number, refusal, 0 if 1 <= sum(factors) <= 64 else 46)
        if not refusal:
            right = shares, answer.distance, answer.gap
            agree("drawn factors %d, in whole numbers" % number, right, wrongly_shared(rows, target, answer.steps, factors, (as_they_are,) * 3))
            for i, ways in enumerate(WRONG_FACTORS):
                differ[i] += right != wrongly_shared(rows, target, answer.steps, factors, ways)
    agree("totals at the limits", [totals.count(n) >= 5 for n in (0, 1, 63, 64, 65)], [True] * 5)
    agree("wrong factors change enough", [n >= 40 for n in differ], [True] * len(differ))


# ---- our own share table

# name, rows, target, factors, table, tolerance, steps, verdict, t, W, shares, E, G, carried; r is y - W u
TABLED = [
    # r = (-1, -1), scores 0, -4, -4: boat 1 gets 1. r = (3, -1), scores 0, 12, -4: boat 2 gets 1. y = (4, 4), r = (2, 2), scores 0, 8, 8:
    # boat 0 gets 1. Then W = 3, y = (4, 4), r = (1, 1): E = 2, and G = 8 - 3 * 0. The table ends the run, 6 steps before the sheet would.
    ("1 each", P, (1, 1), None, [1, 1, 1], 0, 9, 3, 3, 3, [1, 1, 1], 2, 8, 2),
    # The greatest shares. Boat 1 gets 2: y = (8, 0), r = (6, -2), E = 40, scores 0, 24, -8, G = 48 + 16. Boat 2 gets 3: W = 5, y = (8, 12),
    # r = (3, 7), E = 9 + 49, scores 0, 12, 28, G = 24 + 84. The limit is 25, and 58 - 25 are short.
    ("greatest", P, (1, 1), None, [2, 3], 1, 9, 3, 2, 5, [0, 2, 3], 58, 108, 33),
    # Falling shares: boat 1 gets 2 as before, boat 2 gets 1. W = 3, y = (8, 4), r = (5, 1), E = 26, scores 0, 20, 4, G = 40 + 4. 26 is within
    # 3 * 9, and above 2 * 9.
    ("falling", P, (1, 1), None, [2, 1, 1], 3, 9, 1, 2, 3, [0, 2, 1], 26, 44, None),
    ("falling, spent", P, (1, 1), None, [2, 1, 1], 2, 2, 3, 2, 3, [0, 2, 1], 26, 44, 8),
    # One share, of 2: r = (-5, -5), scores 0, -20, -20: boat 1. y = (8, 0), r = (-2, -10), E = 104, scores 0, -8, -40, G = -16 + 80. The limit is 4:
    # 40 * 40 > 4 * 104, and the floor is 104 - 128.
    ("one share", P, (5, 5), None, [2], 1, 9, 2, 1, 2, [0, 2, 0], 104, 64, -24),
    # Factors 1 2. r' = (-1, -2), scores 0, -4, -8: boat 2 gets 2. r = (-2, 6), r' = (-2, 12), scores 0, -8, 48: boat 1 gets 1. W = 3, y = (4, 8),
    # r = (1, 5), r' = (1, 10): E = 1 + 50, G = 4 + 80 - 0.
    ("factored", P, (1, 1), (1, 2), [2, 1], 1, 9, 3, 2, 3, [0, 1, 2], 51, 84, 42),
    # Counted shares are the fixed ones: sheets a and c, the second cut off by the table.
    ("a", P, (1, 1), None, [1, 2, 3], 1, 9, 1, 3, 6, [3, 1, 2], 8, 56, None),
    ("c", P, (1, 1), None, [1, 2], 1, 9, 3, 2, 3, [0, 1, 2], 26, 44, 17),
]

COUNTED = list(range(1, 361))

# A table and the number that refuses it.
TABLES = [
    ([], 49), ([1] * 360, 0), ([1] * 361, 49), ([0] * 361, 49),
    ([0], 50), ([1, 0], 50), ([1] * 359 + [0], 50), ([2], 0), ([3], 50), ([65535], 50),
    # 4 is at most 6; 9 is above 8, and at most 10; 16 is above 12, and at most 18; 25 is above 20.
    ([1, 2], 0), ([1, 3], 50), ([1, 1, 3], 0), ([2, 3], 0), ([2, 4], 50), ([2, 3, 4], 0), ([2, 3, 5], 50),
    # The totals are 64,980 and 64,981; 65,340 and 64,979.
    (COUNTED, 0), ([2] + COUNTED[1:], 51), ([k + 1 for k in COUNTED], 51), ([k + 1 for k in COUNTED[:359]], 0),
    # A share that is too great in a total that is, too.
    ([2] + COUNTED[1:359] + [361], 50), ([2] + COUNTED[1:359] + [0], 50),
]


def tabled_sheets():
    """The runs worked out above through every call, the tables' refusals, and where they stand in the order."""
    for name, rows, target, factors, table, tolerance, steps, verdict, t, w, shares, e, g, carried in TABLED:
        book, sheet = make_book(rows), make_sheet(target, steps, tolerance, factors=factors)
        wanted = exact.Answer(t, w, e, g, verdict, carried)
        agree("table, %s, search" % name, exact.search(book, sheet, [7] * 5, table), (0, wanted, shares + [7, 7]))
        card = make_card([(boat, s) for boat, s in enumerate(shares) if s], verdict, t, tolerance, e, g, len(rows), len(target))
        agree("table, %s, writer" % name, exact.write_card(book, sheet, b"w" * 60, table), (0, wanted, len(card), card.ljust(60, b"w")))
        agree("table, %s, check" % name, exact.check_card(book, sheet, b"front" + card, [7] * 4, table), (0, wanted, shares + [7]))
        agree("table, %s, made anew" % name, exact.true_card(book, sheet, shares, t, table=table), card)
    for table, refusal in TABLES:
        label = "table of %d, first %s" % (len(table), table[:3])
        agree(label, exact.table_refusal(table), refusal)
        agree(label + ", search", exact.search(BOOK_A, SHEET_A, [7] * 3, table)[0], refusal)
        agree(label + ", writer", exact.write_card(BOOK_A, SHEET_A, bytes(60), table)[0], refusal)
        # Ahead of the book's numbers, and of the share list's.
        agree(label + ", no book", exact.search(b"", b"", [], table), (refusal or 1, None, []))
        agree(label + ", no card", exact.check_card(b"", b"", b"", [], table)[0], refusal or 1)
        agree(label + ", no room", exact.write_card(BOOK_A, SHEET_A, b"", table), (refusal or 22, None, 0, b""))
    for steps in (0, 361):
        agree("%d steps with a table of 2" % steps, exact.search(BOOK_A, make_sheet((1, 1), steps, 1), [7] * 3, [1, 2])[0], 14)


def tabled_cards():
    """Cards under the table that made them, under others and under none."""
    book, sheet = make_book(P), make_sheet((1, 1), 9, 0)

    def numbers(card, tables):
        return [exact.check_card(book, sheet, card, [7] * 3, table)[0] for table in tables]

    # Spent after 3 steps with 3 shares: steps that the table does not have, another total, and steps that are left.
    card = make_card([(0, 1), (1, 1), (2, 1)], 3, 3, 0, 2, 8, 3, 2)
    tables = [[1, 1, 1], None, [1, 1], [1, 1, 2], [1, 1, 1, 1], [1, 2, 1], [0], []]
    agree("card of 1 1 1", numbers(card, tables), [0, 37, 34, 37, 38, 37, 50, 49])
    agree("by a sheet of 3 steps", exact.check_card(book, make_sheet((1, 1), 3, 0), card, [7] * 3, [1, 1, 1, 1])[0], 0)
    agree("by a sheet of 2 steps", exact.check_card(book, make_sheet((1, 1), 2, 0), card, [7] * 3, [1, 1, 1])[0], 34)
    agree("another E", exact.check_card(book, sheet, make_card([(0, 1), (1, 1), (2, 1)], 3, 3, 0, 3, 8, 3, 2), [7] * 3, [1, 1, 1])[0], 38)
    agree("another tolerance", exact.check_card(book, sheet, make_card([(0, 1), (1, 1), (2, 1)], 3, 3, 1, 2, 8, 3, 2), [7] * 3, [1, 1, 1])[0], 39)
    # Sheet a's card, Within after 3 steps with 6 shares, is as true under every table whose first three shares total 6.
    sheet = SHEET_A
    agree("card a", numbers(CARD_A, [None, [1, 2, 3], [2, 2, 2], [2, 3, 1, 1], [2, 2, 1], [1, 2]]), [0, 0, 0, 0, 37, 34])
    # More boats than steps; a share that no step of the table gives is not asked about.
    card = exact.true_card(book, make_sheet((1, 1), 9, 100), [1, 1, 1], 2, table=[2, 1])
    agree("3 boats after 2 steps", exact.check_card(book, make_sheet((1, 1), 9, 100), card, [7] * 3, [2, 1])[0], 37)
    # Cards WCD1 are judged by the former test under a table, too: E 104, G 64, 4 is not below 104 - 128.
    for letters, verdict in ((b"WCD1", 3), (b"WCD2", 2)):
        sheet = make_sheet((5, 5), 9, 1)
        card = make_card([(1, 2)], verdict, 1, 1, 104, 64, 3, 2, letters=letters)
        agree("the test of %s" % letters, numbers(card, [[2], [2, 1], None]), [0, 38 if verdict == 3 else 0, 37])


def drawn_table(draw, most):
    """A table of 1 to `most` shares that is accepted."""
    table, total = [], 0
    for _ in range(draw.randint(1, most)):
        border = max(k for k in range(1, 100) if k * k <= 2 * (total + k))
        table.append(draw.choice((1, border, draw.randint(1, border))))
        total += table[-1]
    return table


def tabled_books():
    """Drawn runs with tables: straight from the definitions, by the bounds, and with the fixed shares as a table."""
    draw = random.Random(28)
    verdicts, nearest = {1: 0, 2: 0, 3: 0}, 0
    for number in range(300):
        boats, columns, reach = draw.randint(1, 7), draw.randint(1, 4), draw.choice((2, 10, 2000))
        rows = [[draw.randint(-reach, reach) for _ in range(columns)] for _ in range(boats)]
        target = [sum(column) // boats for column in zip(*rows)] if draw.random() < 0.6 else [draw.randint(-reach, reach) for _ in range(columns)]
        steps, tolerance, factors = draw.randint(1, 15), draw.choice((0, 0, 1, reach)), draw.choice((None, drawn_factors(draw, columns)))
        table = drawn_table(draw, 15)
        label = "tabled book %d" % number
        agree(label + ", accepted", exact.table_refusal(table), 0)
        answer, shares = exact.run(rows, target, steps, tolerance, factors, table=table)
        verdicts[answer.verdict] += 1
        t, w = answer.steps, answer.weight
        agree(label + ", W", (w, sum(shares)), (sum(table[:t]), w))
        agree(label + ", boats", sum(map(bool, shares)) <= t <= min(steps, len(table)), True)
        distance, gap = plain_measure(rows, shares, target, factors)
        agree(label + ", E and G", (answer.distance, answer.gap), (distance * w * w, gap * w * w))
        # No mixture is nearer by more than 2 D^2 t / W, nor by more than twice the gap; a long run comes near the nearest.
        bound = exact.step_bound(t, exact.squared_diameter(rows, factors), table)
        agree(label + ", the bound", bound, Fraction(2 * exact.squared_diameter(rows, factors) * t, w))
        others = [plain_measure(rows, [int(i == j) for i in range(boats)], target, factors)[0] for j in range(boats)]
        long_run = exact.measures(rows, target, 40, factors)[-1][0]
        best = min(others + [long_run])
        nearest += best == long_run
        agree(label + ", bounds", distance - best <= min(bound, 2 * gap), True)
        if answer.verdict == 3:
            agree(label + ", spent", (t, best >= tolerance - bound), (min(steps, len(table)), True))
        # One share less, or one step less, ends as Spent; the last step gave its share to one boat.
        if t > 1:
            before, fewer = exact.run(rows, target, steps, tolerance, factors, table=table[:t - 1])
            agree(label + ", one share less", (before.steps, before.verdict), (t - 1, 3))
            agree(label + ", one step less", exact.run(rows, target, t - 1, tolerance, factors, table=table), (before, fewer))
            agree(label + ", last step", sorted(a - b for a, b in zip(shares, fewer)), [0] * (boats - 1) + [table[t - 1]])
        # Shares past the last step are not looked at, and counted shares that are enough are the fixed ones.
        if len(table) > t:
            agree(label + ", other shares behind", exact.run(rows, target, steps, tolerance, factors, table=table[:t] + [1] * (len(table) - t)), (answer, shares))
        agree(label + ", counted", exact.run(rows, target, steps, tolerance, factors, table=COUNTED[:steps + number % 2]),
              exact.run(rows, target, steps, tolerance, factors))
        book, sheet = make_book(rows), make_sheet(target, steps, tolerance, factors=factors)
        refusal, written, size, buffer = exact.write_card(book, sheet, bytes(80), table)
        agree(label + ", card", exact.check_card(book, sheet, b"front" + buffer[:size], [0] * boats, table), (0, answer, shares))
    agree("every verdict with tables", min(verdicts.values()) > 5, True)
    agree("long runs come nearest often", nearest > 50, True)


# Wrong ways to take a table, each of which changes many of the drawn searches: the share of step k (from 1), and the steps that may be taken.
WRONG_TABLES = [
    (lambda table, k: (table + [0])[k], min),                        # the next share
    (lambda table, k: k, min),                                       # the fixed one
    (lambda table, k: table[min(k, len(table)) - 1], lambda a, b: a),  # the last share again past the end
    (lambda table, k: table[-k], min),                               # from the end
    (lambda table, k: 1, min),                                       # 1 each
    (lambda table, k: table[k - 1], lambda a, b: min(a, b - 1) or 1),  # one share left over
]


def by_shares(rows, target, factors, steps, tolerance, share):
    """Steps, shares and E of a run in whole numbers that gives share(k) in step k, up to the first verdict."""
    shares, slope, w = [0] * len(rows), [a - u for a, u in zip(rows[0], target)], 0
    for k in range(1, steps + 1):
        scores = [sum(f * a * b for f, a, b in zip(factors, slope, row)) for row in rows]
        shares[first_that_holds([i for i, score in enumerate(scores) if score == min(scores)], shares, None)] += share(k)
        w += share(k)
        y = [sum(s * row[j] for s, row in zip(shares, rows)) for j in range(len(target))]
        slope = [a - w * u for a, u in zip(y, target)]
        e = sum(f * a * a for f, a in zip(factors, slope))
        g = max(sum(f * a * (b - w * v) for f, a, b, v in zip(factors, slope, y, row)) for row in rows)
        if e <= tolerance * w * w or e > g and (e - g) ** 2 > tolerance * w * w * e:
            break
    return k, shares, e, g


def drawn_sheets_with_tables():
    """Tables drawn as test_factor draws them tell a table from wrong ones; and what draw_table gives meets the limits."""
    draws, draw = generator.Draws(25), random.Random(8)
    met, differ = [], [0] * len(WRONG_TABLES)
    for number in range(600):
        table = generator.draw_table(draws, 20)
        refusal = exact.table_refusal(table)
        met.append((refusal, len(table)))
        if refusal:
            continue
        at_border = [k * k <= 2 * w < (k + 1) ** 2 - 2 for k, w in zip(table, accumulate(table))]
        met.append(("border", all(at_border) and len(table) > 1))
        boats, columns = draw.randint(2, 6), draw.randint(1, 3)
        rows = [[draw.randint(-20, 20) for _ in range(columns)] for _ in range(boats)]
        target, factors, steps = [sum(column) // boats for column in zip(*rows)], [1] * columns, draw.randint(1, 12)
        answer, shares = exact.run(rows, target, steps, 0, factors, table=table)
        right = answer.steps, shares, answer.distance, answer.gap
        agree("drawn table %d, in whole numbers" % number, right,
              by_shares(rows, target, factors, min(steps, len(table)), 0, lambda k: table[k - 1]))
        for i, (share, allowed) in enumerate(WRONG_TABLES):
            differ[i] += right != by_shares(rows, target, factors, allowed(steps, len(table)), 0, lambda k: share(table, k))
    for outcome in ((49, 0), (49, 361), (50, 360), (51, 360), (0, 360), (0, 359), (0, 1), ("border", True)):
        agree("drawn tables meet %s" % (outcome,), met.count(outcome) >= 3, True)
    agree("wrong tables change enough", [n >= 40 for n in differ], [True] * len(differ))


# ---- a released set

# name, rows, target, factors, table, released boats, tolerance, steps, verdict, t, W, shares, E, G, carried; r is y - W u
RELEASED = [
    # Boats 1 and 2. The start is boat 1: r = (3, -1), scores 12, -4: boat 2 gets 1, where the whole book starts at boat 0 and takes boat 1. Then
    # r = (-1, 3), E = 10, scores -4, 12, G = 12 + 4. Boat 1 gets 2: W = 3, y = (8, 4), r = (5, 1), E = 26, scores 20, 4: G = 44 - 3 * 4, where boat 0
    # with the score 0 would make it 44.
    ("two of three", P, (1, 1), None, None, (1, 2), 1, 2, 3, 2, 3, [0, 2, 1], 26, 32, 17),
    # Boat 0 alone: r = (-1, -1), E = 2, G = 0, and 2 * 2 > 1 * 2. The whole book is Within.
    ("the first", P, (1, 1), None, None, (0,), 1, 9, 2, 1, 1, [1, 0, 0], 2, 0, 2),
    # Boat 2 alone: r = (-1, 3).
    ("the last", P, (1, 1), None, None, (2,), 10, 9, 1, 1, 1, [0, 0, 1], 10, 0, None),
    # With a table: boat 2 gets 2, W = 2, y = (0, 8), r = (-2, 6), scores -8, 24. Boat 1 gets 1: W = 3, y = (4, 8), r = (1, 5), E = 26, scores 4, 20,
    # G = 44 - 3 * 4.
    ("with a table", P, (1, 1), None, [2, 1], (1, 2), 2, 9, 3, 2, 3, [0, 1, 2], 26, 32, 8),
    # With the factors 1 2: r' = (-1, -2), scores 0, -4: boat 1. r = (3, -1), r' = (3, -2), E = 11, scores 0, 12, G = 12. Boat 0 gets 2: W = 3,
    # y = (4, 0), r = (1, -3), r' = (1, -6), E = 19, scores 0, 4, G = 4. The limit is 9: 15 * 15 > 9 * 19, and the floor is 19 - 8.
    ("with factors", P, (1, 1), (1, 2), None, (0, 1), 1, 2, 2, 2, 3, [2, 1, 0], 19, 4, 11),
    # All boats: sheet a.
    ("all", P, (1, 1), None, None, (0, 1, 2), 1, 9, 1, 3, 6, [3, 1, 2], 8, 56, None),
    # Boat 9 is bit 1 of byte 1; of equal rows the lowest that is released.
    ("bit 1 of byte 1", [(i,) for i in range(10)], (9,), None, None, (9,), 0, 9, 1, 1, 1, [0] * 9 + [1], 0, 0, None),
    ("equal rows", [(5,)] * 10, (5,), None, None, (3, 8), 0, 9, 1, 1, 1, [0, 0, 0, 1, 0, 0, 0, 0, 0, 0], 0, 0, None),
]


def released_sheets():
    """The runs worked out above through every call, the set's bytes, 52 and where it stands in the order, and 36."""
    for name, rows, target, factors, table, boats, tolerance, steps, verdict, t, w, shares, e, g, carried in RELEASED:
        book, sheet, released = make_book(rows), make_sheet(target, steps, tolerance, factors=factors), exact.make_set(boats)
        wanted = exact.Answer(t, w, e, g, verdict, carried)
        agree("set, %s, search" % name, exact.search(book, sheet, [7] * 12, table, released), (0, wanted, shares + [7] * (12 - len(rows))))
        card = make_card([(boat, s) for boat, s in enumerate(shares) if s], verdict, t, tolerance, e, g, len(rows), len(target))
        agree("set, %s, writer" % name, exact.write_card(book, sheet, b"w" * 60, table, released), (0, wanted, len(card), card.ljust(60, b"w")))
        agree("set, %s, check" % name, exact.check_card(book, sheet, b"front" + card, [7] * len(rows), table, released), (0, wanted, shares))
        agree("set, %s, made anew" % name, exact.true_card(book, sheet, shares, t, table=table, released=released), card)
    agree("bytes of sets", (exact.make_set((0, 9, 255)), exact.released_boats(exact.make_set((0, 9, 255)), 3)),
          (bytes([1, 2] + [0] * 29 + [128]), [0, 9, 255]))
    for boats, refusal in (((), 52), ((0,), 0), ((2,), 0), ((3,), 52), ((0, 1, 2), 0), ((0, 1, 2, 3), 52), ((0, 8), 52), ((255,), 52), (range(256), 52)):
        released, label = exact.make_set(boats), "set %s" % list(boats)[:4]
        agree(label, exact.set_refusal(released, 3), refusal)
        agree(label + ", search", exact.search(BOOK_A, make_sheet((1, 1), 9, 100), [7] * 3, None, released)[0], refusal)
        # After the table's and the book's numbers; before the sheet's, the share list's, the buffer's and the card's.
        agree(label + ", no book", exact.search(b"", b"", [], None, released)[0], 1)
        agree(label + ", no table", exact.search(BOOK_A, b"", [], [], released)[0], 49)
        agree(label + ", no sheet", exact.search(BOOK_A, b"", [], None, released), (refusal or 11, None, []))
        agree(label + ", no room", exact.write_card(BOOK_A, make_sheet((1, 1), 9, 100), b"", None, released)[0], refusal or 22)
        agree(label + ", no slots", exact.check_card(BOOK_A, SHEET_A, b"", [], None, released)[0], refusal or 21)
        agree(label + ", no card", exact.check_card(BOOK_A, SHEET_A, b"", [7] * 3, None, released)[0], refusal or 31)
    agree("256 boats", exact.search(make_book([(0,)] * 256), make_sheet((0,), 1, 0), [7] * 256, None, b"\xff" * 32)[::2], (0, [1] + [0] * 255))
    # Cards under a set: a boat that is not released, G of the whole book, counts of the whole book.
    sheet, two = make_sheet((1, 1), 2, 1), exact.make_set((1, 2))
    for label, card, wanted in (
            ("true", make_card([(1, 2), (2, 1)], 3, 2, 1, 26, 32, 3, 2), 0), ("G of the book", make_card([(1, 2), (2, 1)], 3, 2, 1, 26, 44, 3, 2), 38),
            ("boat 0", make_card([(0, 1), (1, 2)], 3, 2, 1, 26, 32, 3, 2), 36), ("boat 0 and no share", make_card([(0, 0), (1, 3)], 3, 2, 1, 26, 32, 3, 2), 36),
            ("boat 3", make_card([(1, 2), (3, 1)], 3, 2, 1, 26, 32, 3, 2), 36), ("2 boats", make_card([(1, 2), (2, 1)], 3, 2, 1, 26, 32, 2, 2), 33),
            ("numbered anew", make_card([(0, 2), (1, 1)], 3, 2, 1, 26, 32, 3, 2), 36), ("back 12", make_card([(1, 1), (2, 1), (2, 1)], 3, 2, 1, 26, 32, 3, 2), 36),
            ("back 16", make_card([(1, 1), (2, 1), (2, 1), (2, 1)], 3, 2, 1, 26, 32, 3, 2), 35), ("0 shares too few", make_card([(1, 2)], 3, 2, 1, 26, 32, 3, 2), 37)):
        agree("card under two boats, %s" % label, exact.check_card(BOOK_A, sheet, card, [7] * 3, None, two)[0], wanted)
    agree("D^2", [exact.squared_diameter([P[boat] for boat in boats], (1, 2)) for boats in ((0, 1), (0, 1, 2), (2,))], [16, 48, 0])


def released_books():
    """Drawn runs with sets: as the search of a book of the released rows alone, against the bounds, and apart from all other rows."""
    draw = random.Random(29)
    verdicts, changed, unlike, refused = {1: 0, 2: 0, 3: 0}, 0, 0, 0
    for number in range(300):
        boats, columns, reach = draw.choice((1, 3, 6, 12, 20)), draw.randint(1, 4), draw.choice((2, 10, 2000))
        rows = [[draw.randint(-reach, reach) for _ in range(columns)] for _ in range(boats)]
        members = sorted(draw.sample(range(boats), draw.randint(1, boats)))
        released = exact.make_set(members)
        target = [sum(rows[i][j] for i in members) // len(members) for j in range(columns)] if draw.random() < 0.6 else \
            [draw.randint(-reach, reach) for _ in range(columns)]
        steps, tolerance, factors = draw.randint(1, 12), draw.choice((0, 0, 1, reach)), draw.choice((None, drawn_factors(draw, columns)))
        table = draw.choice((None, drawn_table(draw, 12)))
        book, sheet = make_book(rows), make_sheet(target, steps, tolerance, factors=factors)
        label = "book %d with a set" % number
        refusal, answer, slots = exact.search(book, sheet, [7] * (boats + 1), table, released)
        small = make_book([rows[i] for i in members])
        own = exact.search(small, sheet, [7] * len(members), table)
        agree(label + ", the rows alone", (refusal, answer, [slots[i] for i in members]), own)
        agree(label + ", no other boat", [slots[i] for i in range(boats) if i not in members], [0] * (boats - len(members)))
        agree(label + ", later slots", slots[boats:], [7])
        verdicts[answer.verdict] += 1
        unlike += answer != exact.search(book, sheet, [7] * boats, table)[1]
        distance, gap = plain_measure([rows[i] for i in members], own[2], target, factors)
        best = min(plain_measure(rows, [int(i == j) for i in range(boats)], target, factors)[0] for j in members)
        spread = exact.squared_diameter([rows[i] for i in members], factors)
        agree(label + ", bounds", distance - best <= min(exact.step_bound(answer.steps, spread, table), 2 * gap), True)
        # The sheet in its other edition, where it has one, gets the same under every table and set.
        none, _, size, edition = exact.other_edition(sheet, bytes(len(sheet) + 64))
        if not none:
            agree(label + ", the other edition", exact.search(book, edition[:size], [7] * (boats + 1), table, released), (0, answer, slots))
        # All boats released is no set.
        agree(label + ", all", exact.search(book, sheet, [7] * boats, table, exact.make_set(range(boats))), exact.search(book, sheet, [7] * boats, table))
        # Other rows for the other boats: the same answer, slots and card, the same number of a card that is refused.
        others = [row if i in members else [draw.randint(-2000, 2000) for _ in range(columns)] for i, row in enumerate(rows)]
        other = make_book(others, front=b"another")
        changed += others != rows
        agree(label + ", apart, search", exact.search(other, sheet, [7] * (boats + 1), table, released), (refusal, answer, slots))
        refusal, _, size, buffer = written = exact.write_card(book, sheet, b"w" * 100, table, released)
        agree(label + ", apart, writer", exact.write_card(other, sheet, b"w" * 100, table, released), written)
        card = buffer[:size]
        agree(label + ", card", exact.check_card(book, sheet, card, [7] * boats, table, released), (0, answer, slots[:boats]))
        # The card of the whole book may rest on other boats, and is then refused by 36 with either book.
        _, _, size, buffer = exact.write_card(book, sheet, bytes(100), table)
        whole = exact.check_card(book, sheet, buffer[:size], [7] * boats, table, released)
        resting = {boat for boat, _ in struct.iter_unpack("<HH", buffer[:size - 36])}
        agree(label + ", 36", whole[0] == 36, not resting <= set(members))
        refused += whole[0] == 36
        agree(label + ", apart, the whole book's card", exact.check_card(other, sheet, buffer[:size], [7] * boats, table, released), whole)
        for file in (card, card[:-1], make_card([(boats - 1, 1)], 1, 1, tolerance, 0, 0, boats, columns)):
            agree(label + ", apart, check", exact.check_card(other, sheet, file, [7] * boats, table, released),
                  exact.check_card(book, sheet, file, [7] * boats, table, released))
    agree("every verdict with sets", min(verdicts.values()) > 5, True)
    agree("sets change the answer often, other rows were there, and cards rested on them", (unlike > 100, changed > 100, refused > 50), (True, True, True))


# Wrong ways to take a set, each of which changes many of the drawn searches: where to start, whom to score for the pick and for G, and the bits.
def reversed_bits(released):
    return bytes(int("{:08b}".format(byte)[::-1], 2) for byte in released)


def in_sets(rows, target, steps, members, start, scored, in_gap):
    """Shares, E and G after so many steps, in whole numbers, of a search that starts at one boat, picks among some boats and takes G over others."""
    shares, slope, w = [0] * len(rows), [a - u for a, u in zip(rows[start], target)], 0
    for k in range(1, steps + 1):
        scores = {i: sum(a * b for a, b in zip(slope, rows[i])) for i in scored}
        least = min(scores.values())
        shares[first_that_holds([i for i in scored if scores[i] == least], shares, None)] += k
        w += k
        y = [sum(s * row[j] for s, row in zip(shares, rows)) for j in range(len(target))]
        slope = [a - w * u for a, u in zip(y, target)]
    e = sum(a * a for a in slope)
    return shares, e, max(sum(a * (b - w * v) for a, b, v in zip(slope, y, rows[i])) for i in in_gap)


def drawn_sheets_with_sets():
    """Sets drawn as test_factor draws them tell a set from wrong ones; and what draw_set gives meets the limits."""
    draws, draw = generator.Draws(29), random.Random(9)
    met, differ = [], [0] * 5
    for number in range(600):
        boats = (1, 3, 8, 9, 20, 255, 256)[number % 7]
        released = generator.draw_set(draws, boats)
        members = exact.released_boats(released, boats)
        refusal = exact.set_refusal(released, boats)
        met += [(refusal, len(members) == 0), ("one", len(members) == 1), ("all", members == list(range(boats))), ("last", members == [boats - 1])]
        if refusal or boats > 20:
            continue
        columns, every = draw.randint(1, 3), list(range(boats))
        rows = [[draw.randint(-20, 20) for _ in range(columns)] for _ in range(boats)]
        target, steps = [sum(column) // boats for column in zip(*rows)], draw.randint(1, 6)
        _, answer, shares = exact.search(make_book(rows), make_sheet(target, steps, 0), [0] * boats, None, released)
        right, t = (shares, answer.distance, answer.gap), answer.steps
        agree("drawn set %d, in whole numbers" % number, right, in_sets(rows, target, t, members, members[0], members, members))
        ways = [(0, members, members), (members[0], members, every), (members[0], every, members), (0, every, every)]
        for i, (start, scored, in_gap) in enumerate(ways):
            differ[i] += right != in_sets(rows, target, t, members, start, scored, in_gap)
        differ[4] += (0, *right) != (lambda r, a, s: (r, s, a and a.distance, a and a.gap))(
            *exact.search(make_book(rows), make_sheet(target, steps, 0), [0] * boats, None, reversed_bits(released)))
    for outcome in ((52, True), (52, False), (0, False), ("one", True), ("all", True), ("last", True)):
        agree("drawn sets meet %s" % (outcome,), met.count(outcome) >= 10, True)
    agree("wrong sets change enough", [n >= 30 for n in differ], [True] * len(differ))


def ties_and_start():
    """Equal scores take the lowest boat that holds shares; step 1 starts from boat 0's row."""
    # At (0, 0) with target (1, 1), boats 1 and 2 have equal scores.
    agree("tie", exact.run(P, (1, 1), 1, 0)[1], [0, 1, 0])
    # Step 1 picks boat 2; at r = (1, 0) boats 0 and 1 have the score -1 and no
    # shares, and boat 0 is picked; at r = (-1, -2) boats 1 and 2 have the
    # score -1, and boat 2 holds a share. Boat 1 would make it 2 3 1, E = 17.
    answer, shares = exact.run([(-1, -1), (-1, 1), (1, 0)], (0, 0), 3, 0)
    agree("tie, one that holds", (shares, answer.distance, answer.gap), ([2, 0, 4], 8, 32))
    # Steps 1 and 2 pick boats 2 and 0; at r = (0, -5) boats 1 and 2 have the
    # score -10, and boat 2 holds a share. Steps 4 and 5 pick boats 1 and 3. By
    # the lowest number boat 1 gets step 3's, and it ends as 7 3 5 0.
    answer, shares = exact.run([(-1, -2), (-2, 2), (2, 2), (1, -1)], (0, 1), 5, 0)
    agree("tie, more boats", (shares, answer.distance, answer.gap), ([2, 4, 4, 5], 73, 283))
    # Steps 1 to 3 pick boats 1, 0 and 2; at r = (2, 0) boats 0 and 2 have the
    # score 0. Boat 2 has the higher number, more shares and the last step.
    answer, shares = exact.run([(0, 2), (2, -1), (0, -1)], (0, 0), 4, 0)
    agree("tie, two that hold", (shares, answer.distance, answer.gap), ([6, 1, 3], 68, 148))
    # All rows alike: boat 0 takes every step.
    agree("all alike", exact.run([(1, 2)] * 4, (1, 2 + 5), 3, 25)[1], [1, 0, 0, 0])
    # From the row 3 the gradient is 3 - 1 > 0 and boat 1 is picked; from the
    # zero row it would be 0 - 1 < 0 and boat 0 would be picked.
    agree("start", exact.run([(3,), (-3,)], (1,), 1, 0)[1], [0, 1])


def plain_shares(rows, target, steps, choose):
    """Shares after so many steps, in whole numbers; `choose` takes one of equals."""
    shares, last = [0] * len(rows), None
    slope = [a - u for a, u in zip(rows[0], target)]
    for k in range(1, steps + 1):
        scores = [sum(a * b for a, b in zip(slope, row)) for row in rows]
        least = min(scores)
        last = choose([i for i, score in enumerate(scores) if score == least], shares, last)
        shares[last] += k
        slope = [sum(s * row[j] for s, row in zip(shares, rows)) - k * (k + 1) // 2 * u
                 for j, u in enumerate(target)]
    return shares


# Which of equals a step takes, given the shares and the boat picked last: the rule, and four others.


def first_that_holds(equal, shares, last):
    return ([i for i in equal if shares[i]] or equal)[0]


def lowest_number(equal, shares, last):
    return equal[0]


def last_that_holds(equal, shares, last):
    return ([i for i in equal if shares[i]] or equal[:1])[-1]


def picked_last(equal, shares, last):
    return last if last in equal else first_that_holds(equal, shares, last)


def most_shares(equal, shares, last):
    return max(equal, key=lambda i: shares[i])


# Each other rule, and how many of the drawn cases it changes at least.
OTHER_RULES = [(lowest_number, 100), (last_that_holds, 50), (picked_last, 5), (most_shares, 25)]


def drawn_ties():
    """The 1,000 drawn books with mirrored rows of test_random tell the tie rule from others."""
    draws = generator.Draws(6)
    differ = {choose: 0 for choose, _ in OTHER_RULES}
    for number in range(1000):
        rows, target, steps = generator.draw_mirrored(draws)
        answer, shares = exact.run(rows, target, steps, 0)
        agree("mirrored book %d" % number, shares,
              plain_shares(rows, target, answer.steps, first_that_holds))
        for choose in differ:
            differ[choose] += shares != plain_shares(rows, target, answer.steps, choose)
    for choose, least in OTHER_RULES:
        agree("mirrored books changed by %s" % choose.__name__, differ[choose] >= least, True)


def full_size():
    """One run of the greatest size, and the greatest whole numbers."""
    draw = random.Random(5)
    rows = [[draw.randint(-2000, 2000) for _ in range(64)] for _ in range(256)]
    book, sheet = make_book(rows), make_sheet([3] * 64, 360, 0)
    refusal, answer, shares = exact.search(book, sheet, [1] * 257)
    agree("full size", (refusal, answer.steps, answer.weight, answer.verdict, shares[256]),
          (0, 360, 64980, 3, 1))
    square = answer.weight ** 2
    agree("full size, distance and gap",
          (Fraction(answer.distance, square), Fraction(answer.gap, square)),
          plain_measure(rows, shares[:256], [3] * 64))
    card = exact.card_bytes(answer, shares, 0, 256, 64)
    agree("full size card", exact.check_card(book, sheet, card, [1] * 257),
          (0, answer, shares))
    # Squared distance 64 * 4000^2 = 1,024,000,000: the greatest there is.
    far, corner = make_book([(2000,) * 64]), (-2000,) * 64
    agree("greatest tolerance", exact.search(far, make_sheet(corner, 1, 1024000000), [0])[1],
          exact.Answer(1, 1, 1024000000, 0, 1, None))
    agree("one less", exact.search(far, make_sheet(corner, 1, 1023999999), [0])[1],
          exact.Answer(1, 1, 1024000000, 0, 2, 1024000000))


def damaged_files():
    """Random and damaged bytes never raise an error, and the calls agree."""
    draw = random.Random(77)

    def damaged(file):
        file = bytearray(file)
        for _ in range(draw.randint(0, 2)):
            kind = draw.randrange(4)
            if kind == 0 and file:
                content = draw.choice((0, 1, 2, 3, 255, draw.randrange(256)))
                file[draw.randrange(len(file))] = content
            elif kind == 1:
                del file[:draw.randint(0, 3)]
            elif kind == 2 and draw.random() < 0.2:
                del file[draw.randint(0, len(file)):]
            elif kind == 3:
                file[:0] = bytes(draw.randint(0, 5))
        if draw.random() < 0.02:
            return bytes(draw.randrange(256) for _ in range(draw.randint(0, 80)))
        return bytes(file)

    for _ in range(3000):
        sheet = draw.choice((SHEET_A, make_sheet((1, 1), 9, 1, factors=(1, 1)), make_sheet((1, 1), 9, 1, factors=(3, 0))))
        book, sheet, card = damaged(BOOK_A), damaged(sheet), damaged(CARD_A)
        slots = [6] * draw.choice((0, 2, 3, 3, 4))
        try:
            files = exact.files_refusal(book, sheet)
            found = exact.search(book, sheet, slots)
            written = exact.write_card(book, sheet, b"w" * draw.choice((0, 44, 48, 60)))
            checked = exact.check_card(book, sheet, card, slots)
            exact.listing(book, sheet)
            exact.card_listing(book, sheet, card)
            if files:
                agree("damaged files", (found[0], written[0], checked[0]), (files,) * 3)
            for refusal, answer, after in (found, checked):
                if refusal:
                    agree("damaged, kept slots", (answer, after), (None, slots))
                else:
                    boats = len(exact.read_book(book))
                    agree("damaged, total of the slots", sum(after[:boats]), answer.weight)
                    agree("damaged, later slots", after[boats:], slots[boats:])
        except Exception as error:
            agree("damaged files raise", (error, book, sheet, card), None)


def from_a_shell():
    """The listing of two files through the command line."""
    def output(*paths):
        return subprocess.run([sys.executable, os.path.join(HERE, "exact.py")] + list(paths),
                              stdout=subprocess.PIPE).stdout
    with tempfile.TemporaryDirectory() as folder:
        fleet, sheet = os.path.join(folder, "fleet.wbk"), os.path.join(folder, "sheet.wsh")
        with open(fleet, "wb") as file:
            file.write(BOOK_A)
        agree("no sheet", output(fleet, sheet), b"refused 11\n")
        with open(sheet, "wb") as file:
            file.write(SHEET_A)
        agree("two files", output(fleet, sheet), LISTING_A)
        agree("no fleet", output(os.path.join(folder, "none"), sheet), b"refused 1\n")


def whole_numbers():
    """A fraction that is no whole number is an error, not a rounding."""
    agree("whole", exact.whole(Fraction(12, 4)), 3)
    try:
        exact.whole(Fraction(1, 2))
        agree("half", "no error", "an error")
    except ArithmeticError:
        agree("half", "an error", "an error")


# ---- scale cells

def bits(value):
    """The 64 bits of a Python float."""
    return struct.unpack("<Q", struct.pack("<d", value))[0]


INFINITY, NAN = float("inf"), float("nan")
NET, WEIGHED = 1, 2

# kind, first, second, unit, refusal, value
CELLS = [
    (NET, 2.5, 0, 1, 0, 2), (NET, 3.5, 0, 1, 0, 4), (NET, -2.5, 0, 1, 0, -2), (NET, -3.5, 0, 1, 0, -4),
    # 5.5 is 6 kilograms, and 6 / 4 is 2; one rounding of 5.5 / 4 would give 1.
    (NET, 5.5, 0, 4, 0, 2),
    (NET, 15, 0, 10, 0, 2), (NET, 25, 0, 10, 0, 2), (NET, -15, 0, 10, 0, -2), (NET, 35, 0, 10, 0, 4),
    (NET, -0.0, 0, 1, 0, 0), (NET, -0.4, 0, 1, 0, 0), (NET, 0.5, 0, 1, 0, 0), (NET, 5e-324, 0, 1, 0, 0),
    (NET, 0.50000000000000011, 0, 1, 0, 1), (NET, 1.5, 0, 1, 0, 2),
    (WEIGHED, 1000000.1, 999997.6, 1, 0, 2), (WEIGHED, 2.0 ** 53 + 2, 2.0 ** 53 - 1, 1, 0, 3),
    (WEIGHED, 2.0, 5.0, 1, 0, -3), (WEIGHED, 1e300, 1e300, 1, 0, 0), (WEIGHED, 1e300, 1e299, 1, 42, 0),
    (NET, 1048576, 0, 10000, 0, 105), (NET, -1048576, 0, 10000, 0, -105),
    (NET, 1048576.25, 0, 10000, 42, 0), (NET, -1048576.25, 0, 10000, 42, 0),
    (NET, NAN, 0, 1, 42, 0), (NET, INFINITY, 0, 1, 42, 0), (NET, -INFINITY, 0, 1, 42, 0),
    (WEIGHED, INFINITY, INFINITY, 1, 42, 0), (WEIGHED, 1e308, -1e308, 1, 42, 0), (WEIGHED, 1.0, NAN, 1, 42, 0),
    (NET, NAN, 0, 0, 42, 0), (NET, 2e6, 0, 0, 42, 0),
    (NET, 2000.5, 0, 1, 0, 2000), (NET, 2000.5000000001, 0, 1, 43, 0), (NET, -2001, 0, 1, 43, 0),
    (NET, 2000, 0, 1, 0, 2000), (NET, -2000, 0, 1, 0, -2000),
    (NET, 7, 0, 0, 43, 0), (NET, 7, 0, 10000, 0, 0), (NET, 7, 0, 10001, 43, 0), (NET, 7, 0, 4294967295, 43, 0),
    (0, 7, 0, 1, 41, 0), (3, 7, 0, 1, 41, 0), (0, NAN, 0, 0, 41, 0),
]


def scale_cells():
    """Cells one by one, among others, and the sheet that they give."""
    for kind, first, second, unit, refusal, value in CELLS:
        cell = (kind, bits(first), bits(second), unit)
        agree("cell %r %r %r %r" % (kind, first, second, unit), exact.cell_value(cell), (refusal, value))
    # Every pattern with the exponent of the infinities is a reading that is not finite.
    for pattern in (0x7ff0000000000001, 0x7ff8000000000000, 0xfff8000000000001, 0xffffffffffffffff):
        agree("pattern %x" % pattern, exact.cell_value((NET, pattern, 0, 1)), (42, 0))
    book = make_book([(0, 0)])
    seven, eight, none = (NET, bits(7.0), 0, 1), (NET, bits(8.0), 0, 1), (0, 0, 0, 0)
    odd, far = (NET, bits(7.0), 0, 0), (NET, bits(2e6), 0, 1)
    agree("two values", exact.sheet_values(book, [seven, eight] + [none] * 62), (0, [7, 8] + [0] * 62))
    agree("cell by cell", exact.sheet_values(book, [odd, none] + [none] * 62), (43, [0] * 64))
    agree("42 before 41", exact.sheet_values(book, [far, none] + [none] * 62), (42, [0] * 64))
    agree("second cell", exact.sheet_values(book, [seven, none] + [none] * 62), (41, [0] * 64))
    agree("book first", exact.sheet_values(make_book([(2001, 0)]), [none] * 64), (6, [0] * 64))
    cells = [seven, eight] + [none] * 62
    agree("sheet", exact.scale_sheet(book, cells, 9, 1), (0, make_sheet([7, 8], 9, 1)))
    agree("steps 0", exact.scale_sheet(book, cells, 0, 1), (14, b""))
    agree("steps 361", exact.scale_sheet(book, cells, 361, 1024000001), (14, b""))
    agree("tolerance", exact.scale_sheet(book, cells, 360, 1024000001), (15, b""))
    agree("cells before steps", exact.scale_sheet(book, [none] * 64, 0, 1), (41, b""))


def subtractions():
    """The subtraction over fractions is the machine's."""
    draw = random.Random(5)
    for _ in range(2000):
        one = draw.getrandbits(64)
        near = (one + draw.randrange(-3, 4) * 2 ** draw.randrange(60)) % 2 ** 64
        other = near if draw.randrange(2) else draw.getrandbits(64)
        x, y = (struct.unpack("<d", struct.pack("<Q", p))[0] for p in (one, other))
        net = exact.net_of((WEIGHED, one, other, 1))
        agree("%r - %r" % (x, y), net, Fraction(x - y) if math.isfinite(x - y) else None)


def gap_bounds():
    """The gaps of a run that no verdict stops, against D^2; worked by hand."""
    rows, target = [[-3, -1], [0, -1], [-1, -3]], [-1, -2]
    agree("squared diameter", exact.squared_diameter(rows), 9)
    # Step 1 goes to (0, -1), step 2 to (-2, -1); the least of <x - u, v> is at the first row, then at the last.
    agree("two gaps", exact.gaps_of(rows, target, 2), [3, 3])
    agree("two ratios", min(exact.gap_ratios(rows, target, 2)), Fraction(16, 3))
    rows, target = [[0], [1000]], [1]
    ratios = exact.gap_ratios(rows, target, 5)
    agree("the first step is far", (ratios[0], ratios[0] > 27), (Fraction(27972, 1000), True))
    agree("a later step is near", min(ratios) <= 27, True)
    agree("equal rows", (exact.squared_diameter([[5], [5]]), exact.gaps_of([[5], [5]], [7], 3)), (0, [0, 0, 0]))


def better_of_two():
    """The better of two cards: the rows worked out by hand, and the two where 64 bits or doubles decide wrongly."""
    book, sheet = make_book(P), make_sheet((1, 1), steps=9, tolerance=100)
    one = exact.true_card(book, sheet, [1, 0, 0], 1)                      # 2 / 1
    mixed = exact.true_card(book, sheet, [3, 1, 2], 3)                    # 8 / 36
    third = exact.true_card(book, sheet, [0, 1, 2], 2, front=b"front")    # 26 / 9
    equal = exact.true_card(book, sheet, [6, 0, 0], 3, b"xy", b"WCD1")    # 72 / 36, of the edition before
    agree("a greater E, a lesser distance", exact.better_card(book, sheet, one, mixed), (0, 2, 0, 48))
    agree("the other way round", exact.better_card(book, sheet, mixed, one), (0, 1, 0, 48))
    agree("26 / 9 and 2", exact.better_card(book, sheet, third, one), (0, 2, 0, 40))
    agree("2 and 26 / 9", exact.better_card(book, sheet, one, third), (0, 1, 0, 40))
    agree("behind front text", exact.better_card(book, sheet, third, third), (0, 1, 5, 44))
    agree("equal", exact.better_card(book, sheet, one, equal), (0, 1, 0, 40))
    agree("equal, swapped", exact.better_card(book, sheet, equal, one), (0, 1, 2, 40))
    agree("the part", exact.better_part(book, sheet, equal, one), (0, equal[2:]))
    agree("the listing", exact.better_listing(book, sheet, one, mixed), exact.card_listing(book, sheet, mixed))
    letters = one[:-1] + b"9"
    agree("the first's letters, the second short", exact.better_card(book, sheet, letters, one[:30]), (32, 1, 0, 0))
    agree("the second short", exact.better_card(book, sheet, one, one[:30]), (31, 1, 0, 0))
    agree("the sheet first", exact.better_card(book, make_sheet((1, 1), 0, 100), b"", b""), (14, 1, 0, 0))
    agree("a refusal hands back nothing", exact.better_part(book, sheet, one, b""), (31, b""))
    agree("its listing", exact.better_listing(book, sheet, one, b""), b"refused 31\n")

    sheet = make_sheet((5, 5), steps=1, tolerance=1)
    former = make_card([(1, 1)], verdict=3, steps=1, tolerance=1, distance=26, gap=16, boats=3, columns=2, letters=b"WCD1")
    sharper = make_card([(1, 1)], verdict=2, steps=1, tolerance=1, distance=26, gap=16, boats=3, columns=2, letters=b"WCD2")
    agree("true by their letters", tuple(exact.true_card(book, sheet, [0, 1, 0], 1, letters=x) for x in (b"WCD1", b"WCD2")), (former, sharper))
    agree("one of each edition", exact.better_card(book, sheet, former, sharper), (0, 1, 0, 40))
    agree("swapped", exact.better_part(book, sheet, sharper, former), (0, sharper))
    agree("the other's letters", exact.better_card(book, sheet, former, former[:-1] + b"2"), (38, 1, 0, 0))

    book = make_book([[2000] * 64, [-2000] * 64])
    sheet = make_sheet([2000] * 64, steps=360, tolerance=1024000000)
    first = exact.true_card(book, sheet, [19, 64601], 359)
    second = exact.true_card(book, sheet, [20, 64960], 360)
    agree("past 64 bits", exact.better_card(book, sheet, first, second)[:2], (0, 2))
    left, right = 64 * (4000 * 64601) ** 2 * 64980 ** 2, 64 * (4000 * 64960) ** 2 * 64620 ** 2
    agree("its products, and wrapped", (right < left, right % 2 ** 64 < left % 2 ** 64), (True, False))

    book = make_book([[0] * 5] + [[2000 * (i == j) for j in range(5)] for i in range(5)])
    sheet = make_sheet([0] * 5, steps=360, tolerance=1024000000)
    first = exact.true_card(book, sheet, [48855, 16004, 112, 6, 2, 1], 360)
    second = exact.true_card(book, sheet, [48092, 15739, 64, 5, 2, 1], 357)
    agree("past a double", exact.better_card(book, sheet, first, second)[:2], (0, 2))
    left, right = 1024562404000000, 990880988000000
    agree("its products, and as doubles", (left * 63903 ** 2 - right * 64980 ** 2, right / 63903 ** 2 < left / 64980 ** 2), (36000000, False))


def other_editions():
    """Sheets between the two editions: the bytes by hand, every refusal in its order, front text, and the way back."""
    a = bytes.fromhex("01 00 01 00 04 00 00 00 02 00 09 00 01 00 00 00") + b"WSH1"
    up = bytes.fromhex("01 00 01 00 01 01 06 00 00 00 02 00 09 00 01 00 00 00") + b"WSH2"
    agree("up, bytes past the result", exact.other_edition(a, b"7" * 25), (0, 2, 22, up + b"777"))
    agree("down", exact.other_edition(up, b"7" * 20), (0, 1, 20, a))
    agree("no room", exact.other_edition(a, b"7" * 21), (48, 0, 0, b"7" * 21))
    agree("behind front text", exact.other_edition(b"hi" + a, bytes(24)), (0, 2, 24, b"hi" + up))
    agree("front text with letters in it", exact.other_edition(b"WSH2" + up, bytes(24)), (0, 1, 24, b"WSH2" + a))
    for factors, refusal in (([2, 1], 47), ([1, 0], 47), ([64, 1], 46), ([0, 0], 46), ([1, 1], 48)):
        agree("factors %s" % factors, exact.other_edition(make_sheet((1, 1), 9, 1, factors=factors), b""), (refusal, 0, 0, b""))
    for columns, refusal in ((0, 13), (1, 0), (64, 0), (65, 13)):
        agree("%d columns" % columns, exact.other_edition(make_sheet([0] * columns, 9, 1), bytes(300))[0], refusal)
    agree("steps before room", exact.other_edition(make_sheet((1, 1), 0, 1), b"")[0], 14)
    for length, edition, wanted in ((39999, 1, (0, 2, 40000)), (40000, 1, (48, 0, 0)), (40000, 2, (0, 1, 39999)), (40001, 2, (11, 0, 0))):
        sheet = make_sheet((3,), 9, 1, factors=[1] if edition == 2 else None)
        agree("WSH%d of %d bytes" % (edition, length), exact.other_edition(sheet.rjust(length, b"x"), bytes(50000))[:3], wanted)
    agree("lines", (exact.edition_line(a, 22), exact.edition_line(a, 21)), (b"edition 2 22\n", b"refused 48\n"))
    agree("details", [exact.edition_detail(sheet) for sheet in (
        a, make_sheet([0] * 65, 9, 1), make_sheet((1, 1), 9, 1, factors=[1, 3]), a.rjust(39999, b"x"), make_sheet((2001, 0), 9, 1))],
          [b"", b"sheet.wsh has 65 columns, not 1 to 64\n", b"sheet.wsh, column 2: the factor is 3, not 1\n",
           b"other.wsh would have 40001 bytes, more than 40000\n", b""])
    book = make_book(P)
    agree("the same search", exact.search(book, up, [7] * 5), exact.search(book, a, [7] * 5))


def one_book_from_two():
    """One book from two: the rows worked out by hand, the limits, the order of the refusals, and what is left in the buffer."""
    book, line = make_book(P), [[value] for value in range(256)]
    filled = b"#" * 40
    merged = make_book(list(P) + [(1, 1)])
    agree("known and new", exact.merge_books(book, make_book([(4, 0), (1, 1), (1, 1)]), filled), (0, 28, merged + filled[28:]))
    agree("just enough", exact.merge_books(book, make_book([(4, 0), (1, 1), (1, 1)]), filled[:28]), (0, 28, merged))
    agree("a byte too little", exact.merge_books(book, make_book([(4, 0), (1, 1), (1, 1)]), filled[:27]), (57, 0, filled[:27]))
    agree("the first's own equal rows", exact.merge_books(make_book([(0, 0), (0, 0)]), make_book([(0, 0)]), filled)[:2], (0, 20))
    agree("front text goes", exact.merge_books(make_book(P, b"front"), make_book(P, b"more"), filled), (0, 24, book + filled[24:]))
    agree("other columns", exact.merge_books(book, make_book([(1,)]), b""), (55, 0, b""))
    agree("256 boats and a known one", exact.merge_books(make_book(line), make_book([(9,)]), bytes(524)), (0, 524, make_book(line)))
    agree("a new one", exact.merge_books(make_book(line), make_book([(256,)]), bytes(600))[0], 56)
    agree("56 before 57", exact.merge_books(make_book(line), make_book([(256,)]), b"")[0], 56)
    agree("200 and 56", exact.merge_books(make_book(line[:200]), make_book(4 * line[200:]), bytes(600))[:2], (0, 524))
    agree("200 and 57", exact.merge_books(make_book(line[:200]), make_book(4 * (line[200:] + [[256]])), bytes(600))[0], 56)
    agree("the first's number first", exact.merge_books(book[:-1], b"", filled)[0], 2)
    agree("then the second's", exact.merge_books(book, make_book([(0, 2001)]), b"")[0], 6)
    agree("the second's before 55", exact.merge_books(book, make_book([(2001,)]), b"")[0], 6)
    agree("the line", exact.merge_listing(book, make_book([(1, 1)])), b"fleet 4 2\n")
    agree("the line of a refusal", exact.merge_listing(book, b""), b"refused 1\n")


def lines_of_a_queue():
    """Listings of queues on fleet P, worked out by hand: a sheet cut off, one that spent its own steps, verdicts, the order of the refusals."""
    book = make_book(P)
    zero, near, far, short = make_sheet((1, 1), 9, 0), make_sheet((1, 1), 9, 1), make_sheet((5, 5), 9, 1), make_sheet((1, 1), 2, 1)
    agree("three sheets on 7 steps", exact.queue_listing(book, [zero, near, far], 7),
          b"sheet 1 9 3 spent cut 8 56\nsheet 2 9 3 within 8 56\nsheet 3 9 1 beyond 26 16\n")
    agree("a step each", exact.queue_listing(book, [zero, near, far], 3), b"sheet 1 9 1 spent cut 10 16\nsheet 2 9 1 spent cut 10 16\nsheet 3 9 1 beyond 26 16\n")
    agree("its own steps", exact.queue_listing(book, [short], 2), b"sheet 1 2 2 spent 26 44\n")
    agree("one step too few", exact.queue_listing(book, [short], 1), b"sheet 1 2 1 spent cut 10 16\n")
    agree("no sheet", exact.queue_listing(book, [], 1), b"refused 44\n")
    agree("17 sheets, the first empty", exact.queue_listing(book, [b""] + 16 * [near], 0), b"refused 44\n")
    agree("16 sheets on 15 steps, one empty", exact.queue_listing(book, [b""] + 15 * [near], 15), b"refused 45\n")
    agree("5,761 steps", exact.queue_listing(book, [near], 5761), b"refused 45\n")
    agree("the first refused sheet", exact.queue_listing(book, [near, make_sheet((1, 1), 0, 1), b""], 3), b"refused 14\n")
    agree("the book first", exact.queue_listing(book[:-1], [], 0), b"refused 2\n")


def boats_leaned_on():
    """Reports of cards on fleet P at (1, 1), worked out by hand: ties, both sides of 12 and of 64 cards, the order of the refusals."""
    book, sheet = make_book(P), make_sheet((1, 1), 9, 100)
    on_0, on_1, twice_1, two, three = ((sheet, exact.true_card(book, sheet, shares, steps)) for shares, steps in
                                       (((1, 0, 0), 1), ((0, 1, 0), 1), ((0, 3, 0), 2), ((0, 1, 2), 2), ((3, 1, 2), 3)))
    agree("three cards", exact.lean_listing(book, [on_0, two, three]), b"boat 0 2\nboat 1 2\nboat 2 2\ntotal 6\n")
    tied = 6 * [on_0] + 6 * [on_1] + [twice_1]
    agree("13 cards", exact.lean_listing(book, tied), b"boat 0 6\nboat 1 7\ntotal 13\nstretch 1 0\nstretch 2 1\n")
    agree("12 cards", exact.lean_listing(book, tied[:12]), b"boat 0 6\nboat 1 6\ntotal 12\nstretch 1 0\n")
    agree("11 cards", exact.lean_listing(book, tied[:11]), b"boat 0 6\nboat 1 5\ntotal 11\n")
    agree("64 cards", exact.lean_listing(book, 64 * [on_1]).count(b"stretch "), 53)
    agree("no card", exact.lean_listing(book, []), b"refused 58\n")
    agree("65 cards, one damaged", exact.lean_listing(book, [(sheet, b"")] + 64 * [on_0]), b"refused 58\n")
    agree("the book before 58", exact.lean_listing(book[:-1], []), b"refused 2\n")
    agree("a sheet before its card", exact.lean_listing(book, [on_0, (make_sheet((1, 1), 0, 100), b"")]), b"refused 14\n")
    agree("card order", exact.lean_listing(book, [on_0, (sheet, b""), (b"", on_0[1])]), b"refused 31\n")


# rows, target, tolerance, steps, moves, then of the result: verdict, shares, E, G
WORKED = [
    (P, (1, 1), 1, 2, 1000, 3, [0, 1, 2], 26, 44),
    (LINE, (0,), 0, 2, 1000, 3, [2, 1], 4000000, 16000000),
    (P, (1, 1), 1, 1, 1000, 3, [0, 1, 0], 10, 16),
    ([(6,), (-4,)], (4,), 0, 5, 1000, 1, [12, 3], 0, 0),
    ([(1,), (-5,)], (-4,), 0, 2, 1000, 3, [1, 2], 9, 18),
    ([(5,), (-6,)], (4,), 2, 2, 1000, 1, [3, 0], 9, 99),
    ([(-8, 3), (4, -1), (10, 9)], (5, -1), 2, 6, 1, 3, [2, 18, 1], 1845, 2160),
    ([(-8, 3), (4, -1), (10, 9)], (5, -1), 2, 6, 2, 3, [0, 18, 3], 909, 846),
    ([(-8, 3), (4, -1), (10, 9)], (5, -1), 2, 6, 3, 1, [0, 20, 1], 325, 10),
    ([(6, 6), (0, 4), (-2, -4)], (0, 5), 2, 5, 1000, 1, [1, 14, 0], 205, 10),
    ([(1, -2), (3, 0)], (3, -1), 0, 2, 1000, 2, [1, 2], 5, 2),
    ([(-3, -1), (3, -1), (-1, 1)], (-1, 1), 0, 2, 1000, 3, [2, 1, 0], 36, 36),
    ([(-1, 0), (0, 0), (1, 1)], (0, 0), 0, 5, 1000, 3, [2, 11, 2], 4, 4),
    ([(0, 1), (1, -1), (-1, 0)], (1, 0), 0, 2, 1000, 3, [1, 2, 0], 2, None),
]


def worked_over():
    """Spent runs worked over, by hand: halves down, at most what is held, lowest number on ties, no boat joins, no stop at Within."""
    for rows, target, tolerance, steps, moves, verdict, shares, distance, gap in WORKED:
        book, sheet = make_book(rows), make_sheet(target, steps, tolerance)
        refusal, answer, size, output = exact.work_over(book, sheet, moves, bytes(1060))
        label = "worked over %r %r, %d moves" % (rows, target, moves)
        agree(label, (refusal, answer.verdict, answer.distance), (0, verdict, distance))
        if gap is not None:
            agree(label + ": G", answer.gap, gap)
        slots = [7] * len(rows)
        agree(label + ": its card", exact.check_card(book, sheet, output[:size], slots), (0, answer, shares))
    agree("Within is not worked over, before 54", exact.work_over(BOOK_A, SHEET_A, 0, b"")[0], 53)
    for moves, number in ((0, 54), (1001, 54), (1, 22)):
        agree("%d moves" % moves, exact.work_over(BOOK_A, make_sheet((1, 1), 2, 1), moves, b"")[0], number)


def main():
    for part in (marked_sheets, readers, book_and_sheet_refusals, lent_lists, card_refusals,
                 two_tests, editions, filed_before, two_faults, ties_and_start, drawn_ties, random_books, factored_sheets, factored_cards, factored_books,
                 drawn_sheets_with_factors, tabled_sheets, tabled_cards, tabled_books, drawn_sheets_with_tables, released_sheets, released_books,
                 drawn_sheets_with_sets, full_size, damaged_files,
                 from_a_shell, whole_numbers, scale_cells, subtractions, gap_bounds, better_of_two, other_editions, one_book_from_two, lines_of_a_queue, boats_leaned_on, worked_over):
        part()
    if differences:
        print("exact.py: %d of %d checks differ" % (differences, checks))
        return 1
    print("exact.py: %d checks agree" % checks)
    return 0


if __name__ == "__main__":
    sys.exit(main())
