#!/usr/bin/env python3
"""What test_hand_cards prints: cards made by hand for fleet P, equal shares with a change or two."""
import os
import sys

sys.path.insert(0, os.path.join(os.path.dirname(os.path.abspath(__file__)), ".."))
import exact  # noqa: E402
from printing import outcome_lines, slots_line  # noqa: E402

FLEET_P = [[0, 0], [4, 0], [0, 4]]
EQUAL = [(0, 2), (1, 2), (2, 2)]
ONE = [(1, 1)]


def checked(book, sheet, card):
    refusal, answer, slots = exact.check_card(book, sheet, card, [7] * 4)
    return outcome_lines(refusal, answer) + slots_line(slots)


def hand(name, entries=EQUAL, verdict=1, steps=3, tolerance=1, distance=8, gap=32, boats=3, columns=2, back=12,
         letters=b"WCD2", length=48, target=1, sheet_steps=9, sheet_tolerance=1):
    book = exact.make_book(FLEET_P)
    sheet = exact.make_sheet([target, target], sheet_steps, sheet_tolerance)
    card = exact.make_card(entries, verdict, steps, tolerance, distance, gap, boats, columns, back=back, letters=letters)
    return name + "\n" + checked(book, sheet, card[len(card) - length:])


def true_cards():
    yield hand("equal shares")
    yield hand("one share at the only step", ONE, verdict=3, steps=1, distance=10, gap=16, back=4, length=40, sheet_steps=1)
    yield hand("far target", [(1, 3), (2, 3)], verdict=2, distance=648, gap=0, back=8, length=44, target=5)


def trailers():
    for length in (35, 36, 47):
        yield hand("%d bytes" % length, length=length)
    for more in (1, 256, 65536, 16777216):
        yield hand("letters %d" % more, letters=(843334487 + more).to_bytes(4, "little"))
    yield hand("letters before", letters=b"WCD0")
    yield hand("2 boats", boats=2)
    yield hand("4 boats", boats=4)
    yield hand("3 columns", columns=3)
    yield hand("verdict 0", verdict=0)
    yield hand("verdict 4", verdict=4)
    yield hand("steps 0", steps=0)
    yield hand("steps 10", steps=10)
    yield hand("steps 3 of 3", sheet_steps=3)
    yield hand("steps 3 of 2", sheet_steps=2)
    for back in (0, 11, 13):
        yield hand("back %d" % back, back=back)
    yield hand("back 16", [(0, 1), (0, 2), (1, 2), (2, 2)], back=16, length=52)
    yield hand("back 12 of 16", [(7, 9)] + EQUAL, length=52)
    yield hand("back 8", back=8)


def bodies():
    yield hand("boats 1 0 2", [(1, 2), (0, 2), (2, 2)])
    yield hand("boats 0 0 2", [(0, 2), (0, 2), (2, 2)])
    yield hand("boats 0 1 3", [(0, 2), (1, 2), (3, 2)])
    yield hand("shares 0 4 2", [(0, 0), (1, 4), (2, 2)])
    yield hand("shares 2 2 3", [(0, 2), (1, 2), (2, 3)])
    yield hand("shares 1 2 2", [(0, 1), (1, 2), (2, 2)])
    yield hand("three boats in two steps", [(0, 1), (1, 1), (2, 1)], steps=2, distance=2, gap=8)


def numbers():
    yield hand("distance 9", distance=9)
    yield hand("distance 7", distance=7)
    yield hand("gap 33", gap=33)
    yield hand("gap 31", gap=31)
    yield hand("distance and 2^32", distance=8 + 2 ** 32)
    yield hand("verdict 2", verdict=2)
    yield hand("verdict 3", verdict=3)
    yield hand("spent before the last step", ONE, verdict=3, steps=1, distance=10, gap=16, back=4, length=40, sheet_steps=2)
    yield hand("tolerance 0", tolerance=0)
    yield hand("tolerance 2", tolerance=2)
    yield hand("gap 33 and tolerance 2", gap=33, tolerance=2)


def far(name, letters, entries, verdict, steps, distance, gap, target=5, tolerance=1, sheet_steps=9):
    return hand("%s %s" % ({b"WCD1": "former", b"WCD2": "sharper"}[letters], name), entries, verdict, steps, tolerance, distance, gap, back=4 * len(entries),
                letters=letters, length=36 + 4 * len(entries), target=target, sheet_steps=sheet_steps, sheet_tolerance=tolerance)


def editions():
    one, two = b"WCD1", b"WCD2"
    second = [(1, 1), (2, 2)]
    yield hand("former equal shares", letters=one)
    yield far("far target", one, [(1, 3), (2, 3)], 2, 3, 648, 0)
    for letters in (two, one):
        yield far("first step beyond", letters, ONE, 2, 1, 26, 16)
    for letters in (two, one):
        yield far("first step spent of one", letters, ONE, 3, 1, 26, 16, sheet_steps=1)
    for letters in (two, one):
        yield far("second step", letters, second, 2, 2, 170, 32)
    for letters, tolerance in ((one, 11), (one, 12), (two, 12), (two, 13)):
        yield far("tolerance %d" % tolerance, letters, second, 2, 2, 170, 32, tolerance=tolerance)
    zero = [(0, 1)]
    yield far("one off", two, zero, 2, 1, 50, 20, tolerance=17)
    yield far("equality", two, zero, 2, 1, 50, 20, tolerance=18)
    yield far("equality spent of one", two, zero, 3, 1, 50, 20, tolerance=18, sheet_steps=1)
    yield far("distance as the gap", two, zero, 2, 1, 8, 8, 2, 0)
    yield far("distance as the gap spent of one", two, zero, 3, 1, 8, 8, 2, 0, 1)
    yield far("distance below the gap", two, zero, 2, 1, 2, 4, 1)
    yield far("distance below the gap", one, zero, 2, 1, 2, 4, 1)


def main():
    parts = [true_cards(), trailers(), bodies(), numbers(), editions()]
    sys.stdout.write("".join(text for part in parts for text in part))


main()
