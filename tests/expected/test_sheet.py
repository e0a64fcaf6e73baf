#!/usr/bin/env python3
"""What test_sheet prints: the sheet or the fault of each pair of CSVs, then mixsheet in one folder after another, then the way to a card."""
import os
import sys

sys.path.insert(0, os.path.join(os.path.dirname(os.path.abspath(__file__)), ".."))
import csv_books  # noqa: E402
import csv_sheets  # noqa: E402
import exact  # noqa: E402
from printing import checksum  # noqa: E402

OUTPUT = 40000


def made_of(fleet, data):
    """The lines of one pair; a buffer of zeros has the sheet at its front."""
    fault, line, field, lines, sheet = csv_sheets.made(fleet, data)
    place = b"line %d\nfield %d\n" % (line, field) if fault else b""
    return b"fault %d\n" % fault + place + lines + b"bytes %d\nsum %d\n" % (len(sheet), checksum(sheet.ljust(OUTPUT, b"\0")))


def limits():
    fleet = b"a,b\nc,1\n"
    yield made_of(fleet, bytes(39000))
    yield made_of(fleet, bytes(39001))
    yield made_of(bytes(200000), b"")
    yield made_of(bytes(200001), b"")
    yield b"sheet.csv: a buffer of fewer than 40000 bytes\n" + b"sum %d\n" % checksum(b"\1" * 39999)
    # numbers that no fault has, in a row and without a place
    yield b"sheet.csv line 2: no fault\nsheet.csv: no fault\n"


def folder(name):
    """mixsheet prints the lines of a sheet that it files; those of a fault go to standard error, and an older sheet stays."""
    files = csv_sheets.FOLDERS.get(name, {})
    fault, lines, sheet = 1, b"", b""
    if "fleet.csv" in files and "sheet.csv" in files:
        fault, _, _, lines, sheet = csv_sheets.made(files["fleet.csv"], files["sheet.csv"])
    left = files.get("sheet.wsh", b"") if fault else sheet
    return name.encode() + b"\n" + (b"" if fault else lines) + b"bytes %d\nsum %d\n" % (len(left), checksum(left))


def worked(name):
    """mixbook, mixsheet, mixcard and mixcheck in a folder with two spreadsheets."""
    fleet, data = (csv_sheets.FOLDERS[name][file] for file in ("fleet.csv", "sheet.csv"))
    (*_, told, book), (*_, asked, sheet) = csv_books.made(fleet), csv_sheets.made(fleet, data)
    refusal, _, length, card = exact.write_card(book, sheet, bytes(1060))
    assert not refusal
    return name.encode() + b"\n" + told + asked + exact.listing(book, sheet) + exact.card_listing(book, sheet, card[:length])


def main():
    found = csv_sheets.cases()
    # each outcome must be met, in each edition; a sheet is accepted for the fleet's columns
    kinds = csv_sheets.kinds(found)
    missing = [kind for kind in (0, 1, 2, 3, 4, 5, 6, 7, *range(12, 25), 260, 261) if kind not in kinds]
    sheets = [sheet for sheet in (csv_sheets.made(*pair)[4] for pair in found) if sheet]
    refused = [sheet for sheet in sheets if exact.sheet_refusal(sheet, int.from_bytes(sheet[-12:-10], "little"))]
    if missing or refused or {sheet[-4:] for sheet in sheets} != {b"WSH1", b"WSH2"}:
        sys.exit("csv_sheets.py has no case of: %s, or a sheet that is refused: %d" % (missing, len(refused)))
    out = [b"case %d\n" % number + made_of(*pair) for number, pair in enumerate(found)]
    names = ("", "factors", "open", "faulty", "fleet", "alone", "longer", "none")
    sys.stdout.buffer.write(b"".join([*out, *limits(), *(folder(name) for name in names), *(worked(name) for name in ("", "factors", "open"))]))


main()
