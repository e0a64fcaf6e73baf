#!/usr/bin/env python3
"""What test_origin prints: whether each book and each sheet is what the CSVs beside it make."""
import os
import sys

sys.path.insert(0, os.path.join(os.path.dirname(os.path.abspath(__file__)), ".."))
import csv_books  # noqa: E402
import csv_sheets  # noqa: E402
import origins  # noqa: E402


def main():
    found = [(name, csv_books.is_made(fleet, book), csv_sheets.is_made(fleet, data, sheet)) for name, fleet, data, book, sheet in origins.cases()]
    # each outcome must be met among the drawn cases
    if len({(book, sheet) for name, book, sheet in found if name.startswith("drawn")}) != 4:
        sys.exit("origins.py draws no case of some outcome")
    sys.stdout.write("".join("%s\nbook %d\nsheet %d\n" % case for case in found))


main()
