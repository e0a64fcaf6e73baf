#!/usr/bin/env python3
"""What test_book prints: the book or the fault of each CSV, then mixbook in one folder after another."""
import os
import sys

sys.path.insert(0, os.path.join(os.path.dirname(os.path.abspath(__file__)), ".."))
import csv_books  # noqa: E402
import csv_reader  # noqa: E402
from printing import checksum  # noqa: E402

OUTPUT = 40000


def made_of(data):
    """The lines of one CSV; a buffer of zeros has the book at its front."""
    fault, line, field, lines, book = csv_books.made(data)
    place = b"line %d\nfield %d\n" % (line, field) if fault else b""
    return b"fault %d\n" % fault + place + lines + b"bytes %d\nsum %d\n" % (len(book), checksum(book.ljust(OUTPUT, b"\0")))


def limits():
    yield made_of(bytes(200000))
    yield made_of(bytes(200001))
    yield csv_books.fault_line(b"", csv_reader.Table(), (csv_reader.ROOM, 0, 0)) + b"sum %d\n" % checksum(b"\1" * 39999)
    # numbers that no fault has, at a boat and a column and without a place
    yield b"fleet.csv line 2, c, b: no fault\nfleet.csv: no fault\n"


def folder(name):
    """mixbook prints the lines of a book that it files; those of a fault go to standard error, and an older book stays."""
    files = csv_books.FOLDERS.get(name, {})
    fault, _, _, lines, book = csv_books.made(files.get("fleet.csv", b""))
    left = files.get("fleet.wbk", b"") if fault else book
    return name.encode() + b"\n" + (b"" if fault else lines) + b"bytes %d\nsum %d\n" % (len(left), checksum(left))


def main():
    found = csv_books.cases()
    # each outcome must be met
    kinds = csv_books.kinds(found)
    missing = [kind for kind in (0, 1, 2, 3, 4, 5, 6, 7, 8, 9, 260, 261) if kind not in kinds]
    fronts = {csv_books.made(data)[3].split()[-1] for data in found if csv_books.made(data)[0] == 0}
    if missing or fronts != {b"csv", b"names", b"nothing"}:
        sys.exit("csv_books.py has no case of: %s %s" % (missing, fronts))
    out = [b"case %d\n" % number + made_of(data) for number, data in enumerate(found)]
    sys.stdout.buffer.write(b"".join([*out, *limits(), *(folder(name) for name in ("", "larger", "faulty", "none"))]))


main()
