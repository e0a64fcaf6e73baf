"""Names of boats and columns, units, and the new hull's name, displacement and length, from a table in a front text or a CSV beside the
files.

Nothing proves a name. But where a table has values as well they are compared with those of the file, and the names of one with other values are
not used. Where no table serves, boats and columns go by their numbers.
"""
import csv
import io
import re
import unicodedata
from dataclasses import dataclass, field
from fractions import Fraction

# What the first field of a line of a sheet's table may say; any other is the new hull's name.
FACTOR, DISPLACEMENT, LENGTH = "factor", "displacement t", "length m"
WORDS = ("unit", FACTOR, "steps", "tolerance", "tolerance each", DISPLACEMENT, LENGTH)


@dataclass
class Names:
    """What things are called, and where that was read."""

    boats: list
    columns: list
    units: list
    estimated: list              # of each column, whether the sheet's table leaves its value open
    hull: str = "The sheet"
    displacement: object = None  # in tonnes
    length: object = None        # in metres
    sizes: str = ""              # where these two were read
    notes: list = field(default_factory=list)  # sentences: which table was used, or why not
    fronts: list = field(default_factory=list)  # the files whose front text is a table that was used


class NotThis(Exception):
    """Why a table does not name the boats or columns of a file."""


# ---------------------------------------------------------------- tables


def clean(field):
    """The field of a table as a name on one line: characters that control, format or are no text are left out, and each run of white space is one space."""
    text = decoded(field.encode("latin-1"))
    kept = "".join(" " if c.isspace() else c for c in text if c.isspace() or unicodedata.category(c)[0] != "C")
    return " ".join(kept.split())


def decoded(content):
    """UTF-8, else as spreadsheets on Windows write."""
    try:
        return content.decode("utf-8")
    except UnicodeDecodeError:
        return content.decode("cp1252", errors="replace")


def separator_of(text):
    """The comma where the first line with letters has one outside quotes, else the semicolon, else the tab. A quote counts where a field starts."""
    bare = re.sub(r'(?:\A|(?<=[,;\t]))"(?:[^"]|"")*(?:"|\Z)', "", text.lstrip("\r\n"))
    line = re.split(r"[\r\n]", bare, maxsplit=1)[0]
    return next((mark for mark in ",;\t" if mark in line), ",")


def table(content):
    """The lines of a CSV as lists of fields, without empty lines; none where it is no CSV of two lines and more. A letter stands for each byte, since names
    are the same where their bytes are."""
    text = content.removeprefix(b"\xef\xbb\xbf").decode("latin-1")
    try:
        lines = list(csv.reader(io.StringIO(text, newline=""), delimiter=separator_of(text), strict=True))
    except csv.Error:
        return []
    lines = [line for line in lines if any(line)]
    return lines if len(lines) > 1 and len(lines[0]) > 1 else []


def filled(line):
    """The fields of a line but for the empty ones at its end: spreadsheets pad lines, and a book's names are filed with a
    separator behind each."""
    count = len(line)
    while count and not line[count - 1]:
        count -= 1
    return line[:count]


def number(text):
    """The whole number that a field says, None where it says none."""
    found = re.fullmatch(r" *([+-]?[0-9]{1,200}) *", text, re.ASCII)
    return int(found[1]) if found else None


def quantity(text):
    """The number above 0 with at most 6 decimals that a field says, None where it says none."""
    found = re.fullmatch(r" *([0-9]{1,7})(?:[.,]([0-9]{1,6}))? *", text, re.ASCII)
    value = Fraction("%s.%s" % (found[1], found[2] or "0")) if found else None
    return value or None


# ---------------------------------------------------------------- the fleet


def boat_names(lines, rows):
    """The names of the boats: a line a boat, its name alone or with the book's values."""
    if len(lines) != len(rows):
        raise NotThis("it has %d boats and the book %d" % (len(lines), len(rows)))
    for line, row in zip(lines, rows):
        if len(filled(line)) > 1 and [number(cell) for cell in line[1:]] != row:
            raise NotThis("its values of %s are not the book's" % clean(line[0]))
    return [line[0] for line in lines]


def fleet_table(lines, rows):
    """Names of boats and columns, and units."""
    width = len(rows[0])
    columns = lines[0][1:]
    if len(columns) != width:
        raise NotThis("it has %d columns and the book %d" % (len(columns), width))
    units, boats = [""] * width, lines[1:]
    if boats[0][0] == "unit":
        units, boats = (boats[0][1:] + units)[:width], boats[1:]
    return boat_names(boats, rows), columns, units


# ---------------------------------------------------------------- the sheet


@dataclass
class SheetTable:
    """What a sheet's table says beside the values."""

    hull: str
    columns: list
    estimated: list
    displacement: object
    length: object
    unread: list  # the lines of sizes that say no number


def in_order(header, line, columns):
    """The fields of a line in the book's order of columns, matched by name where the book's are known; those that are not there are empty."""
    fields = line[1:] + [""] * (len(header) - len(line) + 1)
    by_name = dict(zip(header, fields))
    if len(by_name) != len(header) or set(by_name) != set(columns):
        raise NotThis("its columns have other names than the book's, or one name twice")
    if len(fields) > len(header):
        raise NotThis("it has more values than columns in the line %s" % clean(line[0]))
    return [by_name[name] for name in columns]


def open_columns(fields, sheet):
    """Which columns the new hull's line leaves open: no value, and the sheet has 0 there and does not count it. All other values must be the sheet's."""
    left_open = [not text and value == 0 and factor == 0 for text, value, factor in zip(fields, sheet.target, sheet.factors)]
    if any(not is_open and number(text) != value for is_open, text, value in zip(left_open, fields, sheet.target)):
        raise NotThis("its values are not the sheet's")
    return left_open


def size_in(rows, word):
    """The quantity of the line of a word, and the line itself where it says something else than one quantity."""
    line = next((row for row in rows if row[0] == word), [word])
    value = quantity(line[1]) if len(line) == 2 else None
    return value, [line] if value is None and len(line) > 1 else []


def sheet_table(lines, sheet, columns):
    """A sheet's table, by the rules of mixsheet. `columns` are the book's names, None where they are not known."""
    header, *rows = [filled(line) for line in lines]
    header, rows = header[1:], [row for row in rows if row]
    if len(header) != len(sheet.target):
        raise NotThis("it has %d columns and the sheet %d" % (len(header), len(sheet.target)))
    hull = next((row for row in rows if row[0] not in WORDS), None)
    if hull is None:
        raise NotThis("it has no line of the new hull")
    named = header if columns is None else columns
    left_open = open_columns(in_order(header, hull, named), sheet) if len(hull) > 1 else [False] * len(header)
    for row in rows:
        if row[0] == FACTOR and [number(cell) for cell in in_order(header, row, named)] != sheet.factors:
            raise NotThis("its factors are not the sheet's")
    (displacement, unread), (length, more) = (size_in(rows, word) for word in (DISPLACEMENT, LENGTH))
    return SheetTable(hull[0], header, left_open, displacement, length, unread + more)


# ---------------------------------------------------------------- both


def first_that_serves(sources, read):
    """What the first table that serves says, and where it stands; and of each before it why it does not."""
    notes = []
    for place, content in sources:
        lines = table(content) if content else []
        if lines:
            try:
                return read(lines), place, notes
            except NotThis as why:
                notes.append("%s is not used for names: %s." % (place[0].upper() + place[1:], why))
    return None, None, notes


def numbered(thing, names):
    """Clean names; one that is empty is the thing's number, from 1 as in what the programs say of a fault."""
    return [clean(name) or "%s %d" % (thing, i) for i, name in enumerate(names, 1)]


def take_fleet(names, book, fleet_csv):
    """Names of boats and columns where there are some: gives back the columns as they are written, None where they are not known."""
    front = ("the front text of fleet.wbk", book.front)
    found, place, notes = first_that_serves([front, ("fleet.csv", fleet_csv)], lambda lines: fleet_table(lines, book.rows))
    names.notes += notes
    if not found:
        return None
    boats, columns, units = found
    names.boats, names.columns, names.units = numbered("boat", boats), numbered("column", columns), [clean(unit) for unit in units]
    names.notes.append("Boats and columns are named by %s." % place)
    names.fronts += ["fleet.wbk"] * (place == front[0])
    return columns


def take_sheet(names, sheet, sheet_csv, columns):
    """The new hull's name and sizes where there are some; the columns' names where the fleet has none."""
    front = ("the front text of sheet.wsh", sheet.front)
    found, place, notes = first_that_serves([front, ("sheet.csv", sheet_csv)], lambda lines: sheet_table(lines, sheet, columns))
    names.notes += notes
    if not found:
        return
    names.hull, names.estimated = clean(found.hull) or names.hull, found.estimated
    names.displacement, names.length, names.sizes = found.displacement, found.length, "by %s" % place
    names.notes.append("The new hull is named by %s." % place)
    names.notes += ["Its line “%s” is not used: “%s” is not one number above 0." % (clean(line[0]), clean(",".join(line[1:]))) for line in found.unread]
    names.fronts += ["sheet.wsh"] * (place == front[0])
    if columns is None:
        names.columns = numbered("column", found.columns)


def names_of(book, sheet, fleet_csv, sheet_csv, displacement=None, length=None):
    """The names for a book and a sheet, from their front texts or else from the CSVs beside them (None where there is none). A displacement or a
    length that is given goes before one of a table."""
    width = len(sheet.target)
    names = Names(numbered("boat", [""] * len(book.rows)), numbered("column", [""] * width), [""] * width, [False] * width)
    take_sheet(names, sheet, sheet_csv, take_fleet(names, book, fleet_csv))
    if displacement or length:
        names.displacement, names.length, names.sizes = displacement or names.displacement, length or names.length, "as given to mixreport"
    return names
