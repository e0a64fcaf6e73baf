#!/usr/bin/env python3
"""What test_damage prints: drawn books and sheets, one of the two damaged."""
import os
import sys

sys.path.insert(0, os.path.join(os.path.dirname(os.path.abspath(__file__)), ".."))
import exact  # noqa: E402
import generator  # noqa: E402


def one(draws, number):
    plan = generator.draw_plan(draws)
    rows, book = generator.draw_book(draws, plan)
    tolerance = draws.draw(1000)
    sheet = generator.draw_sheet(draws, plan, book, rows, tolerance)
    if draws.draw(2) == 0:
        book = generator.damage(draws, book)
    else:
        sheet = generator.damage(draws, sheet)
    return b"case %d\n" % number + exact.listing(book, sheet)


def main():
    draws = generator.Draws(7)
    sys.stdout.buffer.write(b"".join(one(draws, number) for number in range(3000)))


main()
