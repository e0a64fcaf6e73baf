"""What is known of a refusal of a fleet book or a sheet, by tests/exact.py and tests/csv_reader.py, with the cases of test_details.

A file of cases has, for each, the lengths of a book and of a sheet in 3 bytes each, and both files.
"""
import csv_books
import csv_reader
import exact
from generator import filled

MOST_FIELDS = 65


def rows_of(front, boats, columns):
    """The lines with bytes of a CSV that has a row for each boat and a name for each column, as lists of fields; none of another text."""
    text = csv_reader.latin(front)
    lines, _, fault = csv_reader.parsed(text, csv_reader.separator(text))
    rows = [line for line in lines if line not in ([], [""])]
    if fault or any(len(row) > MOST_FIELDS or max(map(len, row)) > csv_reader.MOST_FIELD for row in rows):
        return []
    names = "".join("." if field else " " for field in rows[0]).rstrip() if rows else ""
    return rows if (len(rows), len(names)) == (boats + first_boat(rows), columns + 1) else []


def first_boat(rows):
    """The row of the first boat: after the names, and after the units where there are some."""
    return 2 if len(rows) > 1 and rows[1][0] == "unit" else 1


def called(rows, row, field, word, number):
    """The name in a field, or a word and a number where there is none."""
    name = rows[row][field] if row < len(rows) and field < len(rows[row]) else ""
    return csv_books.shown(name) or "%s %d" % (word, number)


def column(rows, j):
    return called(rows, 0, j + 1, "column", j + 1)


def boat(rows, i):
    return called(rows, i + first_boat(rows), 0, "boat", i + 1)


def first_out(values):
    """The place and the value of the first that is out of range."""
    return next((place, value) for place, value in enumerate(values) if not -2000 <= value <= 2000)


def detail(book, sheet, number):
    """The line, or none where another number or none refuses the files or nothing more is known."""
    if exact.files_refusal(book, sheet) != number or number not in (6, 13, 17):
        return b""
    (back, boats, columns, _), before = exact.split(book, exact.BOOK_TRAILER)
    rows = rows_of(before[:len(before) - back], boats, columns)
    if number == 6:
        place, value = first_out(value for row in exact.read_book(book) for value in row)
        line = "fleet.wbk, %s, %s: %d is not from -2000 to 2000" % (boat(rows, place // columns), column(rows, place % columns), value)
    elif number == 17:
        place, value = first_out(exact.read_sheet(sheet)[0])
        line = "sheet.wsh, %s: %d is not from -2000 to 2000" % (column(rows, place), value)
    else:
        line = "sheet.wsh has %d columns, fleet.wbk %d" % (exact.split(sheet, exact.SHEET_TRAILER)[0][1], columns)
    return line.encode("latin-1") + b"\n"


# ---- cases by hand

YARD = csv_books.YARD
ROWS = csv_reader.fleet(YARD)[0].rows
NO_UNITS = b"\n".join(line for line in YARD.split(b"\n") if not line.startswith(b"unit"))
QUOTED = YARD.replace(b"Eider II", b'"Eider ""II"",\nof 1987"').replace(b"hull weight", b'"hull, bare"')
FRONTS = [
    YARD, csv_books.names_only(YARD), NO_UNITS, csv_books.names_only(NO_UNITS), QUOTED, csv_books.names_only(QUOTED),
    b"", b"Of the yard, in 1998.", b"\n\n", YARD.replace(b",", b";").replace(b"\n", b"\r\n"), b"\xef\xbb\xbf" + YARD, YARD.replace(b"\nunit", b"\n\n\nunit"),
    YARD.replace(b"unit,", b"Unit,"), YARD.replace(b"Eider II", b"unit"), YARD.replace(b"Eider II", b""), YARD.replace(b"hull weight", b""),
    YARD.replace(b"Eider II", b"E" * 200), YARD.replace(b"Eider II", b"E" * 201), YARD.replace(b"Corrie", b"C" * 201), YARD.replace(b"hull weight", b"h" * 201),
    YARD.replace(b"Corrie", b'"Corrie"x'), YARD.replace(b"Corrie", b'"Corrie'), YARD.replace(b"hull weight", b'"hull" weight'),
    YARD.replace(b"hull weight", b"c," * 64 + b"c"), YARD.replace(b"Alka 12", b"Alka 12" + b"," * 70), b"\n".join(YARD.split(b"\n")[:6]), YARD[:YARD.index(b"Eider")],
    YARD.replace(b"Eider II", b"\x01\x1f \x7f\xff"),
]


def with_value(rows, i, j, value):
    return [[value if (a, b) == (i, j) else old for b, old in enumerate(row)] for a, row in enumerate(rows)]


def sheet_of(target, **fields):
    return exact.make_sheet(target, steps=9, tolerance=1, **fields)


TARGET = ROWS[0]


def by_hand():
    """(book, sheet) of each case."""
    sheet = sheet_of(TARGET)
    for front in FRONTS:
        yield exact.make_book(with_value(ROWS, 4, 0, 2500), front), sheet
        yield exact.make_book(ROWS, front), sheet_of([2500, *TARGET[1:]])
    # other places and values
    for i, j in ((0, 0), (0, 7), (1, 0), (11, 0), (11, 7), (7, 3)):
        for value in (2001, -2001, 32767, -32768):
            yield exact.make_book(with_value(ROWS, i, j, value), YARD), sheet
    for j in range(8):
        yield exact.make_book(ROWS, YARD), sheet_of([-2001 if k == j else old for k, old in enumerate(TARGET)])
        yield exact.make_book(ROWS, YARD), sheet_of([-2001 if k >= j else old for k, old in enumerate(TARGET)], factors=[1] * 8)
    # the first of several
    yield exact.make_book([[2001] * 8] * 12, YARD), sheet
    yield exact.make_book(with_value(with_value(ROWS, 5, 1, 3000), 4, 7, -3000), YARD), sheet
    # the sheet's own front text has no names
    yield exact.make_book(ROWS), sheet_of([2500, *TARGET[1:]], front=YARD)
    yield exact.make_book(ROWS, YARD), sheet_of([2500, *TARGET[1:]], front=b"a,b\nc,1\n")
    # other numbers of columns
    for columns in (0, 1, 7, 9, 64, 65535):
        yield exact.make_book(ROWS, YARD), sheet_of(TARGET, columns=columns)
    # accepted, or refused by other numbers, with values out of range besides
    wrong = with_value(ROWS, 4, 0, 2500)
    yield exact.make_book(ROWS, YARD), sheet
    for book in (b"", exact.make_book(wrong)[:11], exact.make_book(wrong).rjust(40001, b"x"), exact.make_book(wrong, letters=b"WBK2"), exact.make_book(wrong, boats=0),
                 exact.make_book(wrong, boats=257), exact.make_book(wrong, boats=65535, columns=65535), exact.make_book(wrong, columns=65), exact.make_book(wrong, back=0)):
        yield book, sheet
    far = [2500, *TARGET[1:]]
    for other in (b"", sheet_of(far)[:15], sheet_of(far).rjust(40001, b"x"), sheet_of(far, letters=b"WSH3"), exact.make_sheet(far, steps=0, tolerance=1),
                  exact.make_sheet(far, steps=9, tolerance=2 ** 31), sheet_of(far, back=0), sheet_of(TARGET, factors=[0] * 8)):
        yield exact.make_book(ROWS, YARD), other
    # the book's refusal before the sheet's
    yield exact.make_book(wrong, YARD), sheet_of(far)
    # the longest files
    full = [[0] * 64 for _ in range(256)]
    yield exact.make_book(with_value(full, 255, 63, -2001), b"x" * (40000 - 2 * 256 * 64 - 12)), sheet_of([0] * 64)
    yield exact.make_book([[0]], b"n,c\nb,1\n".ljust(39986, b"\n")), sheet_of([2001]).rjust(40000, b"x")


# ---- drawn cases: the front texts of test_book

COUNT = 400


def drawn_case(draws):
    front = csv_books.drawn_case(draws)
    boats, columns = 1 + draws.draw(4), 1 + draws.draw(4)
    text = csv_reader.latin(front)
    lines = [line for line in csv_reader.parsed(text, csv_reader.separator(text))[0] if line not in ([], [""])]
    if draws.draw(6) and len(lines) > first_boat(lines) and len(lines[0]) > 1:
        # as many as the front text names
        boats, columns = len(lines) - first_boat(lines), len(lines[0]) - 1

    def values(count, often):
        return [draws.draw(65536) - 32768 if draws.draw(often) == 0 else draws.draw(4001) - 2000 for _ in range(count)]

    rows = [values(columns, 4 if draws.draw(2) else 1000) for _ in range(boats)]
    return exact.make_book(rows, front), sheet_of(values(columns + (draws.draw(6) == 0), 3))


def cases():
    return filled(by_hand(), drawn_case, 31, COUNT)


def file_of(found):
    return b"".join(len(book).to_bytes(3, "little") + len(sheet).to_bytes(3, "little") + book + sheet for book, sheet in found)
