#!/usr/bin/env python3
"""What test_search prints: the marked sheets, without factors and with them, and the limits, searched over fractions."""
import os
import sys

sys.path.insert(0, os.path.join(os.path.dirname(os.path.abspath(__file__)), ".."))
import exact  # noqa: E402
from printing import checksum, outcome_lines, slots_line  # noqa: E402
from make_data import FILES  # noqa: E402

# Book, sheet and length of the share list, in the program's order.
MARKED = [
    ("p", "a", 12), ("p", "b", 12), ("p", "c", 12), ("p", "d", 12), ("e", "e", 12), ("e", "f", 12),
    ("g", "g", 12), ("h", "h", 12), ("h", "i", 12), ("p", "j", 12),
]
FACTORED = [
    ("p", "k", 12), ("p", "l", 12), ("m", "m", 12), ("m", "n", 12), ("p", "o", 12), ("p", "p", 12), ("p", "q", 12), ("r", "r", 12),
    ("r", "s", 12), ("p", "t", 12),
]
LIMITS = [
    ("boats256", "columns1", 256), ("boats257", "columns1", 260), ("columns64", "columns64", 12),
    ("columns65", "columns64", 12), ("h", "steps360", 12), ("h", "steps361", 12), ("h", "h", 12),
    ("value2001", "h", 12), ("low2001", "h", 12), ("h", "value2001", 12), ("h", "tolerance", 12), ("h", "tolerance1", 12),
]
LISTS = [
    ("p", "a", 3), ("p", "a", 2), ("p", "a", 0), ("boats256", "columns1", 255), ("none", "a", 12), ("p", "none", 12),
    ("value2001", "j", 0), ("p", "columns1", 12),
]


def searched(book, sheet, length):
    """The outcome, the first 12 of 260 slots, of which the first `length` were lent, and a sum over all of them."""
    refusal, answer, lent = exact.search(book, sheet, [7] * length)
    slots = lent + [7] * (260 - length)
    return outcome_lines(refusal, answer) + slots_line(slots[:12]) + "sum %d\n" % checksum(slots)


def files(cases):
    for book, sheet, length in cases:
        book, sheet = book + ".wbk", sheet + ".wsh"
        yield "%s %s\n" % (book, sheet)
        yield searched(FILES.get(book, b""), FILES.get(sheet, b""), length)


def with_front(size):
    book, sheet = FILES["p.wbk"], FILES["a.wsh"]
    yield "front up to %d\n" % size
    yield searched(book.rjust(size, b"\0"), sheet, 12)
    yield searched(book, sheet.rjust(size, b"\0"), 12)


def main():
    parts = [files(MARKED), files(FACTORED), files(LIMITS), with_front(40000), with_front(40001), files(LISTS)]
    sys.stdout.write("".join(text for part in parts for text in part))


main()
