"""Writes what the examples must print, by the reference implementation tests/exact.py and not by the library.

Use, from the repository's root: python3 examples/expected.py >examples/expected.txt
"""
import os
import struct
import sys

sys.path.insert(0, os.path.join(os.path.dirname(os.path.abspath(__file__)), "..", "tests"))
import exact  # noqa: E402

NAMES = {0: "none", **exact.VERDICT_NAMES}


def print_reply(refusal, answer):
    """The fields of a reply, 0 where the call is refused."""
    a = answer or exact.Answer(0, 0, 0, 0, 0, None)
    fields = [
        ("refusal", refusal),
        ("verdict", NAMES[a.verdict]),
        ("steps", a.steps),
        ("weight", a.weight),
        ("distance", a.distance),
        ("gap", a.gap),
        ("floor", a.carried if a.verdict == exact.BEYOND else 0),
        ("shortfall", a.carried if a.verdict == exact.SPENT else 0),
    ]
    for name, value in fields:
        print(name, value)


def bits(value):
    """The 64 bits of a Python float."""
    return struct.unpack("<Q", struct.pack("<d", value))[0]


def print_tabled(book, sheet, table):
    """A search with a table of shares, and its card with the table and without it; an empty table."""
    refusal, answer, slots = exact.search(book, sheet, [7, 7, 7, 7], table)
    print_reply(refusal, answer)
    print("slots", *slots)
    refusal, _, size, buffer = exact.write_card(book, sheet, bytes(1060), table)
    print("refusal %d, bytes %d" % (refusal, size))
    refusal, answer, _ = exact.check_card(book, sheet, buffer[:size], [7] * 4, table)
    print("checked with its table, refusal %d, %s" % (refusal, NAMES[answer.verdict]))
    print("checked without it, refusal %d" % exact.check_card(book, sheet, buffer[:size], [7] * 4)[0])
    print_reply(*exact.search(book, sheet, [7] * 4, [])[:2])


def print_among(book, sheet, released):
    """A search among released boats, its card, the card of the whole book, and a set of no boat."""
    refusal, answer, slots = exact.search(book, sheet, [7, 7, 7, 7], None, released)
    print_reply(refusal, answer)
    print("slots", *slots)
    _, _, size, buffer = exact.write_card(book, sheet, bytes(1060), None, released)
    refusal, answer, _ = exact.check_card(book, sheet, buffer[:size], [7] * 4, None, released)
    print("checked, refusal %d, %s" % (refusal, NAMES[answer.verdict]))
    _, _, size, buffer = exact.write_card(book, sheet, bytes(1060))
    print("the whole book's card, refusal %d" % exact.check_card(book, sheet, buffer[:size], [7] * 4, None, released)[0])
    print("no boat released, refusal %d" % exact.search(book, sheet, [7] * 4, None, exact.make_set([]))[0])


def print_worked(book, sheet, released, factored):
    """A Spent search among released boats worked over, the factored sheet's, no move allowed, and a search that ends Within."""
    refusal, answer, size, buffer = exact.work_over(book, sheet, 10, bytes(1060), released)
    print_reply(refusal, answer)
    print("bytes %d" % size)
    print(buffer[:size].hex())
    refusal, answer, slots = exact.check_card(book, sheet, buffer[:size], [7] * 4, None, released)
    print("checked, refusal %d, %s, slots" % (refusal, NAMES[answer.verdict]), *slots)
    refusal, answer, size, _ = exact.work_over(book, factored, 10, bytes(1060))
    print("factors 1 2, 4 steps, refusal %d, %s, %d %d, bytes %d" % (refusal, NAMES[answer.verdict], answer.distance, answer.gap, size))
    print("no move, refusal %d" % exact.work_over(book, sheet, 0, bytes(1060), released)[0])
    print("the whole book, refusal %d" % exact.work_over(book, sheet, 10, bytes(1060))[0])


def main():
    book = exact.make_book([[0, 0], [4, 0], [0, 4]])
    for words, sheet in (("9 steps", exact.make_sheet([1, 1], 9, 1)), ("0 steps", exact.make_sheet([1, 1], 0, 1)),
                         ("factors 1 2", exact.make_sheet([1, 1], 2, 1, factors=[1, 2]))):
        print("search, " + words)
        refusal, answer, slots = exact.search(book, sheet, [7, 7, 7, 7])
        print_reply(refusal, answer)
        print("slots", *slots)
    sheet = exact.make_sheet([1, 1], 9, 1)
    print("table 2 1 1")
    print_tabled(book, sheet, [2, 1, 1])
    print("released 1 2")
    print_among(book, sheet, exact.make_set([1, 2]))
    print("work over")
    print_worked(book, sheet, exact.make_set([1, 2]), exact.make_sheet([1, 1], 4, 0, factors=[1, 2]))
    print("listing")
    print(exact.listing(book, sheet).decode("ascii"), end="")
    print("card")
    refusal, _, size, buffer = exact.write_card(book, sheet, bytes(1060))
    card = buffer[:size]
    print("refusal %d, bytes %d" % (refusal, size))
    print(card.hex())
    refusal, answer, slots = exact.check_card(book, sheet, card, [7, 7, 7])
    print("checked, refusal %d, %s, slots" % (refusal, NAMES[answer.verdict]), *slots)
    altered = card[:2] + bytes([card[2] + 1]) + card[3:]
    refusal, _, _ = exact.check_card(book, sheet, altered, [7, 7, 7])
    print("checked with one share more, refusal %d" % refusal)
    print("cells")
    none = (0, 0, 0, 0)
    cells = [(2, bits(1000000.1), bits(999975.6), 10), (1, bits(5.5), bits(0.0), 4)] + [none] * 62
    refusal, values = exact.sheet_values(book, cells)
    print("refusal %d, values" % refusal, *values[:2])
    refusal, sheet = exact.scale_sheet(book, cells, 9, 1)
    print("refusal %d, bytes %d" % (refusal, len(sheet)))
    print(sheet.hex())
    refusal, sheet = exact.scale_sheet(book, cells[:1] + [none] * 63, 9, 1)
    print("refusal %d, bytes %d" % (refusal, len(sheet)))
    print("editions")
    refusal, edition, size, other = exact.other_edition(exact.make_sheet([1, 1], 9, 1), bytes(22))
    print("refusal %d, edition %d, bytes %d" % (refusal, edition, size))
    print(other.hex())
    print("refusal %d, edition %d, bytes %d" % exact.other_edition(exact.make_sheet([1, 1], 2, 1, factors=[1, 2]), bytes(22))[:3])
    print("queue")
    sheets = [exact.make_sheet([1, 1], 9, 1), exact.make_sheet([1, 1], 2, 1, factors=[1, 2])]
    for allowance in (4, 1):
        refusal, records, slots = exact.run_queue(book, [len(sheet) for sheet in sheets], b"".join(sheets), allowance, [0] * 512)
        print("refusal", refusal)
        for i, r in enumerate(records or []):
            print("asked %d, used %d, finished %d, %s, %d %d, slots" % (r.asked, r.used, r.finished, NAMES[r.verdict], r.distance, r.gap), *slots[256 * i:256 * i + 3])


main()
