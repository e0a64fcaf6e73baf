#!/usr/bin/env python3
"""What test_card_cases prints: cards of the marked sheets, whole and damaged."""
import os
import sys

sys.path.insert(0, os.path.join(os.path.dirname(os.path.abspath(__file__)), ".."))
import exact  # noqa: E402
from printing import answer_lines, checksum, outcome_lines, slots_line  # noqa: E402

FLEET_P = [[0, 0], [4, 0], [0, 4]]
MARKED = [
    ("a", FLEET_P, [1, 1], 9, 1),
    ("b", FLEET_P, [1, 1], 3, 1),
    ("c", FLEET_P, [1, 1], 2, 1),
    ("d", FLEET_P, [5, 5], 9, 1),
    ("e", [[0, 0]], [3, 4], 1, 25),
    ("f", [[0, 0]], [3, 4], 1, 24),
    ("g", [[0, 0], [0, 0]], [0, 0], 1, 0),
    ("h", [[-2000], [2000]], [2000], 1, 0),
    ("i", [[-2000], [2000]], [0], 2, 0),
]


def checked(book, sheet, card):
    refusal, answer, slots = exact.check_card(book, sheet, card, [7] * 4)
    return outcome_lines(refusal, answer) + slots_line(slots)


def written(book, sheet, buffer, room):
    """The lines of a call with the first `room` bytes of a buffer, and the buffer afterwards."""
    refusal, answer, length, lent = exact.write_card(book, sheet, buffer[:room])
    text = "refused %d\n" % refusal if refusal else answer_lines(answer) + "bytes %d\n" % length
    return text, length, lent + buffer[room:]


def roomed(book, sheet, room):
    text, _, buffer = written(book, sheet, bytes([9] * 80), room)
    return "room %d\n%ssum %d\n" % (room, text, checksum(buffer))


def front(book, sheet, card, size):
    file = (bytes([9]) * (size - len(card)) + card)
    return "front up to %d\n" % size + checked(book, sheet, file)


def flips(book, sheet, card):
    for at in range(len(card)):
        numbers = []
        for bit in range(8):
            flipped = bytearray(card)
            flipped[at] ^= 1 << bit
            numbers.append(exact.check_card(book, sheet, bytes(flipped), [7] * 4)[0])
        yield "flip " + " ".join(map(str, numbers)) + "\n"


def marked(name, rows, target, steps, tolerance):
    book = exact.make_book(rows)
    sheet = exact.make_sheet(target, steps, tolerance)
    text, length, buffer = written(book, sheet, bytes([9] * 80), 80)
    card = buffer[:length]
    yield "%s\n%ssum %d\n" % (name, text, checksum(buffer))
    yield checked(book, sheet, card)
    for room in (length - 1, length, 60, 0):
        yield roomed(book, sheet, room)
    for size in (49, 40000, 40001):
        yield front(book, sheet, card, size)
    yield written(book, sheet, bytes(80), length)[0]
    yield from flips(book, sheet, card)


def refused_calls():
    book = exact.make_book(FLEET_P)
    sheet = exact.make_sheet([1, 1], 0, 1)
    yield roomed(book, sheet, 80)
    yield checked(book, sheet, b"")
    sheet = exact.make_sheet([1, 1], 9, 1)
    yield "refused %d\n" % exact.check_card(book, sheet, b"", [7] * 2)[0]
    yield checked(book, sheet, b"")


def main():
    parts = [refused_calls()] + [marked(*case) for case in MARKED]
    sys.stdout.write("".join(text for part in parts for text in part))


main()
