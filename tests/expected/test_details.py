#!/usr/bin/env python3
"""What test_details prints: of each book and sheet the number that refuses them, and for every number below 60 that has one its line."""
import os
import sys

sys.path.insert(0, os.path.join(os.path.dirname(os.path.abspath(__file__)), ".."))
import details  # noqa: E402
import exact  # noqa: E402


def case(number, book, sheet):
    lines = [b"case %d\nrefusal %d\n" % (number, exact.files_refusal(book, sheet))]
    for asked in range(60):
        line = details.detail(book, sheet, asked)
        lines.append(b"of %d\n" % asked + line if line else b"")
    return b"".join(lines)


def main():
    found = details.cases()
    # each refusal of a book or a sheet must be met
    missing = set(range(7)) | set(range(11, 18)) | {46}
    missing -= {exact.files_refusal(book, sheet) for book, sheet in found}
    if missing:
        sys.exit("details.py has no case of: %s" % sorted(missing))
    sys.stdout.buffer.write(b"".join(case(number, book, sheet) for number, (book, sheet) in enumerate(found)))


main()
