"""Books and sheets beside the CSVs that they were made from, or beside others, by tests/csv_books.py and tests/csv_sheets.py: what is told of them, and
the cases of test_origin.

A file of cases has, for each, its name, the CSVs of the fleet and of the sheet, the book and the sheet, each behind 3 bytes of length.
"""
import csv_books
import csv_sheets
import exact
from csv_books import YARD as FLEET
from csv_sheets import FACTORS, SHEET, other
from generator import Draws

OLD_BOOK = b"fleet.csv is not what fleet.wbk was made from: run mixbook\n"
OLD_SHEET = b"sheet.csv is not what sheet.wsh was made from: run mixsheet\n"


def old_book(files):
    """The line about a book. A file without a byte is as none; so is a CSV that cannot be read, for which None stands."""
    data, book = files.get("fleet.csv"), files.get("fleet.wbk")
    return OLD_BOOK if data is not None and book and not csv_books.is_made(data, book) else b""


def old_files(files):
    """The lines about a book and a sheet."""
    data, sheet = files.get("sheet.csv"), files.get("sheet.wsh")
    is_old = data is not None and sheet and not csv_sheets.is_made(files.get("fleet.csv") or b"", data, sheet)
    return old_book(files) + (OLD_SHEET if is_old else b"")


# ---- files that were made, and what becomes of them

def book_of(fleet):
    return csv_books.made(fleet)[4]


def sheet_of(fleet, data):
    return csv_sheets.made(fleet, data)[4]


def converted(sheet):
    """A sheet in its other edition, none where that is refused."""
    _, _, size, written = exact.other_edition(sheet, bytes(csv_books.MOST_FILE))
    return written[:size]


def swapped(data):
    """A CSV with its first two columns exchanged."""
    lines = [line.split(b",") for line in data.split(b"\n")]
    return b"\n".join(b",".join([line[0], line[2], line[1], *line[3:]] if len(line) > 2 else line) for line in lines)


LARGE = csv_books.table_of(100, 60)  # its book has the names alone as front text
CHANGED = FLEET.replace(b"Alka 12,352", b"Alka 12,353")
FAULTY = FLEET.replace(b"Eider II,341", b"Eider II,2500")
ONES = other(b"steps", b"factor" + b",1" * 8 + b"\nsteps")
WITH_FACTORS = other(b"steps", FACTORS + b"steps")
BOOK, ASKED = book_of(FLEET), sheet_of(FLEET, SHEET)


def by_hand():
    """(name, the fleet's CSV, the sheet's, book, sheet)."""
    yield "as made", FLEET, SHEET, BOOK, ASKED
    yield "a value changed", CHANGED, SHEET, BOOK, ASKED
    yield "a name changed", FLEET.replace(b"Jura", b"Yura"), SHEET, BOOK, ASKED
    yield "the fleet's columns exchanged", swapped(FLEET), SHEET, BOOK, ASKED
    yield "the sheet's columns exchanged", FLEET, swapped(SHEET), BOOK, ASKED
    yield "both exchanged", swapped(FLEET), swapped(SHEET), BOOK, ASKED
    yield "a boat more", FLEET + b"Mure,1,2,3,4,5,6,7,8\n", SHEET, BOOK, ASKED
    yield "another target", FLEET, other(b"338", b"339"), BOOK, ASKED
    yield "other steps", FLEET, other(b"360", b"359"), BOOK, ASKED
    yield "the tolerance said otherwise", FLEET, other(b"tolerance each,5", b"tolerance,200"), BOOK, ASKED
    yield "in the other edition", FLEET, SHEET, BOOK, converted(ASKED)
    yield "with factors", FLEET, WITH_FACTORS, BOOK, sheet_of(FLEET, WITH_FACTORS)
    yield "with factors of 1", FLEET, ONES, BOOK, sheet_of(FLEET, ONES)
    yield "with factors of 1, in the other edition", FLEET, ONES, BOOK, converted(sheet_of(FLEET, ONES))
    yield "factors left out", FLEET, SHEET, BOOK, sheet_of(FLEET, WITH_FACTORS)
    yield "the other edition of another", FLEET, SHEET, BOOK, converted(sheet_of(FLEET, other(b"338", b"339")))
    yield "a fleet with a fault", FAULTY, SHEET, BOOK, ASKED
    yield "a fleet with a fault, no file", FAULTY, SHEET, b"", b""
    yield "no fleet", b"", SHEET, b"", ASKED
    yield "no fleet, in the other edition", b"", SHEET, b"", converted(ASKED)
    yield "no fleet, another target", b"", other(b"338", b"339"), b"", ASKED
    yield "no fleet, a damaged sheet", b"", SHEET, b"", ASKED[:-1] + b"3"
    yield "no fleet, a sheet cut short", b"", SHEET, b"", ASKED[len(SHEET):]
    yield "no fleet, no CSV before the sheet", b"", b"", b"", ASKED[len(SHEET):]
    yield "a sheet with a fault", FLEET, other(b"360", b"400"), BOOK, ASKED
    yield "a sheet with a fault, in front of a sheet", FLEET, other(b"360", b"400"), BOOK, other(b"360", b"400") + ASKED[len(SHEET):]
    yield "no front text", FLEET, SHEET, BOOK[len(FLEET):], ASKED[len(SHEET):]
    yield "a byte more", FLEET, SHEET, BOOK + b"x", ASKED + b"x"
    yield "a byte less", FLEET, SHEET, BOOK[:-1], ASKED[:-1]
    yield "a byte in front", FLEET, SHEET, b"x" + BOOK, b"x" + ASKED
    yield "empty files", FLEET, SHEET, b"", b""
    yield "nothing at all", b"", b"", b"", b""
    yield "book and sheet exchanged", FLEET, SHEET, ASKED, BOOK
    yield "the names alone in front", LARGE, b"", book_of(LARGE), b""
    yield "the names alone in front, a value changed", LARGE.replace(b",-2000,", b",-1999,", 1), b"", book_of(LARGE), b""


def too_long():
    """Beside those, CSVs that are too long: in front of a sheet, and behind a book."""
    yield "a sheet's CSV that is too long", b"", SHEET.ljust(39001, b"\n"), b"", SHEET.ljust(39001, b"\n") + ASKED[len(SHEET):]
    yield "a fleet's CSV that is too long", FLEET.ljust(200001, b"\n"), SHEET, BOOK, ASKED
    yield "a fleet's CSV as long as can be", FLEET.ljust(200000, b"\n"), SHEET, book_of(FLEET.ljust(200000, b"\n")), ASKED


def drawn(draws, number):
    """A pair of CSVs and the files of it, or of the pair before some change."""
    fleet, data = csv_sheets.drawn_case(draws)
    book, sheet = book_of(fleet), sheet_of(fleet, data)
    change = draws.draw(8)
    if change == 0:
        sheet = converted(sheet) or sheet
    elif change == 1:
        fleet = csv_sheets.damaged(draws, fleet)
    elif change == 2:
        data = csv_sheets.damaged(draws, data)
    elif change == 3 and book:
        book = csv_sheets.damaged(draws, book)
    elif change == 4 and sheet:
        sheet = csv_sheets.damaged(draws, sheet)
    elif change == 5:
        fleet = b""
    return "drawn %d" % number, fleet, data, book, sheet


def cases():
    draws = Draws(911)
    return [*by_hand(), *(drawn(draws, number) for number in range(160))]


def file_of(found):
    """The bytes of some cases."""
    return b"".join(len(part).to_bytes(3, "little") + part for name, *files in found for part in (name.encode(), *files))
