#!/usr/bin/env python3
"""What test_edition prints: cards filed before WCD2, and drawn ones at the border of the sharper test."""
import math
import os
import sys

sys.path.insert(0, os.path.join(os.path.dirname(os.path.abspath(__file__)), ".."))
import exact  # noqa: E402
import generator  # noqa: E402
from make_data import FILED_BEFORE  # noqa: E402
from printing import answer_lines, checksum, data_file, outcome_lines, slots_line  # noqa: E402


def checked(book, sheet, card):
    refusal, answer, slots = exact.check_card(book, sheet, card, [7] * 20)
    return outcome_lines(refusal, answer) + slots_line(slots)


def forged(buffer, length, verdict, letter):
    """A card in a buffer with another verdict and another last letter."""
    buffer = generator.with_bytes(buffer, max(length - 32, 0), verdict.to_bytes(2, "little"))
    return generator.with_bytes(buffer, max(length - 1, 0), letter)


def forged_edition(book, sheet, buffer, length, letter):
    """The line of every verdict of one edition, and the buffer with the last."""
    numbers = []
    for verdict in (1, 2, 3):
        buffer = forged(buffer, length, verdict, letter)
        numbers.append(exact.check_card(book, sheet, buffer[:length], [7] * 20)[0])
    return "forged " + " ".join(map(str, numbers)) + "\n", buffer


def forged_editions(book, sheet, buffer, length):
    sharper, buffer = forged_edition(book, sheet, buffer, length, b"2")
    former, buffer = forged_edition(book, sheet, buffer, length, b"1")
    return sharper + former, buffer


def filed_before():
    for name, (_, book, sheet) in FILED_BEFORE.items():
        card = data_file("test_edition", name + ".wcd")
        yield name + "\n" + checked(book, sheet, card) + forged_editions(book, sheet, card, len(card))[0]


def border(book, sheet):
    """The greatest tolerance at which a search ends Beyond: the greatest below (d - g)^2 / d after some step; 0 if there is none."""
    target, steps, _, factors = exact.read_sheet(sheet)
    limits = [math.ceil((d - g) ** 2 / d) - 1 for d, g in exact.measures(exact.read_book(book), target, steps, factors) if d > g]
    return max(limits, default=0)


def run(draws, book, sheet):
    refusal, answer, length, buffer = exact.write_card(book, sheet, bytes([9] * 80))
    text = "refused %d\n" % refusal if refusal else answer_lines(answer) + "bytes %d\n" % length
    text += "sum %d\n" % checksum(buffer) + checked(book, sheet, buffer[:length])
    lines, buffer = forged_editions(book, sheet, buffer, length)
    start, end, buffer = generator.damage_in(draws, buffer, length)
    return text + lines + checked(book, sheet, buffer[start:end])


def one(draws, number):
    plan = generator.draw_plan(draws)
    rows, book = generator.draw_book(draws, plan)
    sheet = generator.draw_sheet(draws, plan, book, rows, 0)
    kind = draws.draw(5)
    tolerance = 0 if kind == 4 else max(border(book, sheet) + kind - 1, 0)
    sheet = sheet[:-8] + tolerance.to_bytes(4, "little") + sheet[-4:]
    return "case %d\ntolerance %d\n" % (number, tolerance) + run(draws, book, sheet)


def main():
    draws = generator.Draws(27)
    sys.stdout.write("".join(filed_before()))
    sys.stdout.write("".join(one(draws, number) for number in range(1000)))


main()
