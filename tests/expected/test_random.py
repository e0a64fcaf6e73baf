#!/usr/bin/env python3
"""What test_random prints: drawn books and sheets, searched over fractions."""
import os
import sys

sys.path.insert(0, os.path.join(os.path.dirname(os.path.abspath(__file__)), ".."))
import exact  # noqa: E402
import generator  # noqa: E402


def beside(x, w, kind):
    """The quotient x / (w * w) - 1, x / (w * w) or one more, none below 0."""
    return max(x // (w * w) % 1000000000 + kind % 3 - 1, 0)


def near(answer, kind):
    """A tolerance near the squared distance of an answer, or near its floor."""
    if kind < 3:
        return beside(answer.distance, answer.weight, kind)
    if answer.distance // 2 < answer.gap:
        return 0
    return beside(answer.distance - 2 * answer.gap, answer.weight, kind)


def tolerance_for(draws, book, sheet):
    kind = draws.draw(8)
    small = draws.draw(10)
    large = draws.draw(2000000)
    if kind == 6:
        return small
    if kind == 7:
        return large
    refusal, answer, _ = exact.search(book, sheet, [0] * 256)
    return small if refusal else near(answer, kind)


def one(draws, number, plan, out):
    rows, book = generator.draw_book(draws, plan)
    sheet = generator.draw_sheet(draws, plan, book, rows, 0)
    tolerance = tolerance_for(draws, book, sheet)
    sheet = sheet[:-8] + tolerance.to_bytes(4, "little") + sheet[-4:]
    report(b"case", number, book, sheet, out)


def report(word, number, book, sheet, out):
    out.append(b"%s %d\n" % (word, number))
    refusal, answer, shares = exact.search(book, sheet, [0] * 256)
    if refusal:
        out.append(exact.refused(refusal))
        return
    if answer.verdict == exact.BEYOND:
        out.append(b"floor %d\n" % answer.carried)
    if answer.verdict == exact.SPENT:
        out.append(b"shortfall %d\n" % answer.carried)
    _, steps, tolerance, _ = exact.read_sheet(sheet)
    out.append(exact.listing_lines(exact.read_book(book), steps, tolerance, answer, shares))


def main():
    draws = generator.Draws(6)
    out = []
    for number in range(3000):
        one(draws, number, generator.draw_plan(draws), out)
    one(draws, 3000, generator.Plan(256, 64, 2000, 40, 3), out)
    one(draws, 3001, generator.Plan(256, 64, 2000, 360, 3), out)
    draws = generator.Draws(6)
    for number in range(1000):
        rows, target, steps = generator.draw_mirrored(draws)
        report(b"mirrored", number, exact.make_book(rows), exact.make_sheet(target, steps, 0), out)
    sys.stdout.buffer.write(b"".join(out))


main()
