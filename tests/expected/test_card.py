#!/usr/bin/env python3
"""What test_card prints: cards written, checked, damaged and checked again."""
import os
import sys

sys.path.insert(0, os.path.join(os.path.dirname(os.path.abspath(__file__)), ".."))
import exact  # noqa: E402
import generator  # noqa: E402
from printing import answer_lines, checksum, outcome_lines, slots_line  # noqa: E402


def checked(book, sheet, card):
    refusal, answer, slots = exact.check_card(book, sheet, card, [7] * 10)
    return outcome_lines(refusal, answer) + slots_line(slots)


def run(draws, book, sheet, room):
    buffer = bytes([9] * 80)
    refusal, answer, length, lent = exact.write_card(book, sheet, buffer[:room])
    buffer = lent + buffer[room:]
    text = "refused %d\n" % refusal if refusal else answer_lines(answer) + "bytes %d\n" % length
    text += "sum %d\n" % checksum(buffer)
    text += checked(book, sheet, buffer[:length])
    start, end, buffer = generator.damage_in(draws, buffer, length)
    return text + checked(book, sheet, buffer[start:end])


def one(draws, number):
    plan = generator.draw_plan(draws)
    rows, book = generator.draw_book(draws, plan)
    tolerance = draws.draw(1000)
    sheet = generator.draw_sheet(draws, plan, book, rows, tolerance)
    room = 44 if draws.draw(6) == 0 else 80
    return "case %d\n" % number + run(draws, book, sheet, room)


def main():
    draws = generator.Draws(8)
    sys.stdout.write("".join(one(draws, number) for number in range(2000)))


main()
