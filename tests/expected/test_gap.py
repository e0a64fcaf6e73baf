#!/usr/bin/env python3
"""What test_gap prints: drawn books followed over fractions, with no regard to verdicts."""
import os
import sys

sys.path.insert(0, os.path.join(os.path.dirname(os.path.abspath(__file__)), ".."))
import exact  # noqa: E402
import generator  # noqa: E402


def draw_plan(draws, number):
    plan = generator.draw_plan(draws)
    plan.steps = draws.draw(39) + 2
    if number % 10 == 3:
        plan.scale = 0
    return plan


def draw_files(draws, number, plan):
    """A book and a sheet; the values of every fifth book are at the limits."""
    start, book = generator.draw_book(draws, plan)
    if number % 5 == 4:
        size = plan.boats * plan.columns
        values = [[2000, -2000][draws.draw(2)] for _ in range(size)]
        book = book[:start] + generator.row_bytes(values) + book[start + 2 * size:]
    return book, generator.draw_sheet(draws, plan, book, start, 0)


def one(draws, number, plan, totals):
    book, sheet = draw_files(draws, number, plan)
    rows = exact.read_book(book)
    target, steps, _, factors = exact.read_sheet(sheet)
    diameter = exact.squared_diameter(rows, factors)
    gaps = exact.gaps_of(rows, target, steps, factors)
    kept = [4 * (steps + 2) * gap <= 27 * diameter for gap in gaps]
    ratios = exact.gap_ratios(rows, target, steps, factors) if diameter else [0] * steps
    thousandths = [ratio * 1000 // 1 for ratio in ratios]
    least = min(thousandths)
    t = thousandths.index(least) + 1
    w = exact.total_of_steps(t)
    totals["books"] += 1
    totals["some"] += any(kept)
    totals["every"] += all(kept)
    totals["ratio"] = max(totals["ratio"], least)
    words = (" every" if all(kept) else "") + ("" if any(kept) else " none")
    print("K %d D2 %d t %d W %d G %d ratio %d%s" % (steps, diameter, t, w, exact.whole(gaps[t - 1] * w * w), least, words))


def main():
    draws = generator.Draws(9)
    totals = {"books": 0, "some": 0, "every": 0, "ratio": 0}
    for number in range(600):
        one(draws, number, draw_plan(draws, number), totals)
    one(draws, 600, generator.Plan(8, 3, 1, 360, 0), totals)
    one(draws, 601, generator.Plan(8, 3, 10, 360, 0), totals)
    print("books %d" % totals["books"])
    print("some step keeps to the bound %d" % totals["some"])
    print("every step does %d" % totals["every"])
    print("greatest ratio %d" % totals["ratio"])


main()
