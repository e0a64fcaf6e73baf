#!/usr/bin/env python3
"""How many steps drawn sheets far off take, by the former test of Beyond and by the sharper one.

Prints a table, of which docs/changes.md has the gist: sheets of 360 steps whose target lies outside the hull of the boats, at tolerances
that are a part of the least squared distance that 360 steps reach.
"""
import os
import sys

sys.path.insert(0, os.path.dirname(os.path.abspath(__file__)))
import exact  # noqa: E402
import generator  # noqa: E402

STEPS = 360
PARTS = [(0, 1), (1, 4), (1, 2), (3, 4), (9, 10)]
SIZES = [(10, 4, 20), (30, 12, 20), (60, 20, 20), (256, 64, 5)]


def drawn(draws, boats, columns):
    """Rows of values up to 200, and a target of values up to 120 moved by 60."""
    rows = [generator.draw_row(draws, columns, 200) for _ in range(boats)]
    return rows, [value + 60 for value in generator.draw_row(draws, columns, 120)]


def first(measured, tolerance, test):
    """The first step at which a test holds, all steps where none does."""
    return next((k for k, (d, g) in enumerate(measured, 1) if test(d, g, tolerance)), STEPS)


def main():
    draws = generator.Draws(2)
    print("| boats, columns | sheets | tolerance over least squared distance | steps before | steps after |")
    print("|---|---|---|---|---|")
    for boats, columns, count in SIZES:
        sheets = []
        for _ in range(count):
            measured = list(exact.measures(*drawn(draws, boats, columns), STEPS))
            if exact.sharper_test(*measured[-1], 0):         # else the target may be in the hull
                sheets.append(measured)
        for part, whole in PARTS:
            before = after = 0
            for measured in sheets:
                tolerance = min(d for d, _ in measured) * part // whole
                before += first(measured, tolerance, exact.former_test)
                after += first(measured, tolerance, exact.sharper_test)
            print("| {}, {} | {} | {}/{} | {:,} | {:,} |".format(boats, columns, len(sheets), part, whole, before, after))


main()
