#!/usr/bin/env python3
"""Fleets and sheets given as CSV, read by Python's csv module. Written from docs/guide.md, beside the program and not from it.

`fleet(text)` gives the values of a fleet or its first fault, `sheet(fleet, text)` what a sheet asks for or its first fault. A fault is a kind,
the line and the field (0 is a line's first), as the program names them; the bytes of the text stand for themselves, so that any damage is a text.
"""
import csv
import io
import re

LONG, NAMELESS, COLUMNLESS, MANY, FEW, NOT_WHOLE, OUT_OF_RANGE, BOATS, BOATLESS, STRAY, OPEN = 1, 2, 3, 4, 5, 6, 7, 8, 9, 260, 261
BIG, ROOM = 10, 11
# of a sheet, beside those of a fleet
FLEET, LINES, AGAIN, HULLLESS, STEPLESS, TOLERANCELESS, MISSING, TWICE, UNKNOWN, FLEET_TWICE, FACTORS, TOLERANCE, BEYOND = range(12, 25)

MOST_BYTES, MOST_FIELD, MOST_BOATS, MOST_COLUMNS, MOST_VALUE = 200000, 200, 256, 64, 2000
MOST_SHEET, MOST_LINES, MOST_FACTORS, MOST_TOLERANCE = 39000, 16, 64, 1024000000

csv.field_size_limit(10 ** 9)


class Fault(Exception):
    """The first fault of a text: (kind, line, field)."""


# a field that begins with a quote, up to what ends it, and what is inside; text after a closing quote is passed over
QUOTED = re.compile(r'"([^"]*(?:"[^",;\t\r\n]*"[^"]*)*)(?:"[^",;\t\r\n]*|\Z)')
PLAIN = re.compile(r"[^,;\t\r\n]*")


def separator(text):
    """A comma where the header has one outside quotes, else a semicolon, else a tab. The header is the first line that is not passed over. A quote opens
    only at the start of a field, and each of the three ends one."""
    met, begun, i = set(), False, 0
    while i < len(text):
        quoted = QUOTED.match(text, i)
        field = quoted or PLAIN.match(text, i)
        begun = begun or field.group(1 if quoted else 0) != ""
        i = field.end()
        if text[i:i + 1] in ("\r", "\n"):
            if begun:
                break
        elif i < len(text):
            begun = True
            met.add(text[i])
        i += 1
    return next((mark for mark in ",;\t" if mark in met), ",")


def records(text, mark, strict=True):
    """The lines as lists of fields, by the csv module; one without bytes is an empty list."""
    return csv.reader(io.StringIO(text, newline=""), delimiter=mark, strict=strict)


def parsed(text, mark):
    """(lines, last fields, what is wrong): lines are whole; where a quote is wrong, the fields of the line that it stands in, of which the last is not whole."""
    lines = []
    reader = records(text, mark)
    try:
        for line in reader:
            lines.append(line)
    except csv.Error as error:
        kind = OPEN if "end of data" in str(error) else STRAY
    else:
        return lines, None, 0
    # the longest start of the text that is not wrong in itself, read without strictness: its last line is the one that is wrong
    if kind == OPEN:
        start = text
    else:
        low, high = 0, len(text)
        while low < high:
            middle = (low + high + 1) // 2
            if wrong(text[:middle], mark) == STRAY:
                high = middle - 1
            else:
                low = middle
        start = text[:low]
    rest = list(records(start, mark, strict=False))
    return rest[:-1], rest[-1], kind


def wrong(text, mark):
    try:
        for _ in records(text, mark):
            pass
    except csv.Error as error:
        return OPEN if "end of data" in str(error) else STRAY
    return 0


def number(field):
    """The whole number of a field, or None."""
    found = re.fullmatch(r" *([+-]?[0-9]+) *", field, re.ASCII)
    return int(found.group(1)) if found else None


def shown(field):
    """A name as one line shows it."""
    return "".join(" " if letter < " " else letter for letter in field)


def latin(data):
    """The bytes as letters, one for each, without a byte-order mark."""
    if data[:3] == b"\xef\xbb\xbf":
        data = data[3:]
    return data.decode("latin-1")


class Table:
    def __init__(self):
        self.columns, self.units, self.rows, self.names = [], None, [], []
        self.kind, self.lines = "header", 0

    def field(self, line, index, text, last):
        """One whole field of a line."""
        def refuse(kind):
            raise Fault(kind, line, index)
        if len(text) > MOST_FIELD:
            refuse(LONG)
        most = MOST_COLUMNS if self.kind == "header" else len(self.columns) - 1
        if not last and index >= most:
            refuse(MANY)
        if self.kind == "header":
            if not text:
                refuse(NAMELESS)
        elif index == 0:
            if len(self.rows) >= MOST_BOATS:
                refuse(BOATS)
            if not text:
                refuse(NAMELESS)
        elif self.kind != "units":
            value = number(text)
            if value is None:
                refuse(NOT_WHOLE)
            if abs(value) > MOST_VALUE:
                refuse(OUT_OF_RANGE)
            self.row.append(value)

    def line(self, line, fields, whole=True):
        """A line of fields; one that is not whole ends in a field that is not looked at but for its length."""
        if self.kind != "header":
            self.kind = "boat"
        self.row = []
        for index, text in enumerate(fields):
            last = index == len(fields) - 1
            if last and not whole:
                if len(text) > MOST_FIELD:
                    raise Fault(LONG, line, index)
                return
            self.field(line, index, text, last)
            if index == 0 and not last and self.kind == "boat" and self.lines == 1 and text == "unit":
                self.kind = "units"
        index = len(fields) - 1
        if self.kind == "header":
            if index == 0:
                raise Fault(COLUMNLESS, line, index)
            self.columns, self.kind = fields, "boat"
        elif index != len(self.columns) - 1:
            raise Fault(FEW, line, index)
        elif self.kind == "units":
            self.units = fields
        else:
            self.names.append(fields[0])
            self.rows.append(self.row)
        self.lines += 1


def read(data):
    """(table, fault) of a fleet: what was read of it, and the first fault (kind, line, field) or None."""
    text = latin(data)
    mark = separator(text)
    lines, partial, kind = parsed(text, mark)
    table = Table()
    try:
        for count, fields in enumerate(lines, 1):
            if fields and fields != [""]:
                table.line(count, fields)
        if kind:
            table.line(len(lines) + 1, partial, whole=False)
            raise Fault(kind, len(lines) + 1, len(partial) - 1)
        if not table.rows:
            ended = text[-1:] in ("", "\r", "\n")
            raise Fault(BOATLESS, len(lines) + ended, 0)
    except Fault as fault:
        return table, fault.args
    return table, None


def fleet(data):
    """(table, None) of a fleet without fault, else (None, (kind, line, field))."""
    table, fault = read(data)
    return (None, fault) if fault else (table, None)


# ---- sheets

# the words that a line begins with, and from where to where its numbers go; any other is the name of the hull
WORDS = {"unit": None, "factor": (0, MOST_FACTORS), "steps": (1, 360), "tolerance": (0, MOST_TOLERANCE), "tolerance each": (0, 32000),
         "displacement t": None, "length m": None}
HULL = (-MOST_VALUE, MOST_VALUE)


class SheetFault(Exception):
    """The first fault of a sheet: (kind, line, field) and the line of text that names it."""

    def __init__(self, kind, words, line=0, field=0, names=(), file="sheet.csv"):
        super().__init__(kind, line, field)
        place = file + (" line %d" % line if line else "") + "".join(", " + shown(name) for name in names if name)
        self.text = (place + ": " + words + "\n").encode("latin-1")


def filled(fields):
    """The fields of a line but for the empty ones at its end."""
    count = len(fields)
    while count and not fields[count - 1]:
        count -= 1
    return fields[:count]


def rows_of(text):
    """The lines with bytes, each with its number, and the number of the last line."""
    lines, partial, kind = parsed(text, separator(text))
    for line, fields in enumerate(lines + [partial] * bool(kind), 1):
        for index, field in enumerate(fields):
            if len(field) > MOST_FIELD:
                raise SheetFault(LONG, "a field of more than 200 bytes", line, index)
            if index == MOST_COLUMNS and len(fields) > MOST_COLUMNS + 1:
                raise SheetFault(MANY, "more than 65 fields", line, index)
    if kind:
        words = "a quote that is not closed" if kind == OPEN else "text after a closing quote"
        raise SheetFault(kind, words, len(lines) + 1, len(partial) - 1)
    rows = [(line, filled(fields)) for line, fields in enumerate(lines, 1) if fields and fields != [""]]
    return rows, len(lines) + (text[-1:] in ("", "\r", "\n"))


def column_names(rows, last_line):
    line, fields = rows[0] if rows else (last_line, [])
    if len(fields) < 2:
        raise SheetFault(COLUMNLESS, "no column", line)
    for index, name in enumerate(fields):
        if index and not name:
            raise SheetFault(NAMELESS, "column %d has no name" % index, line, index)
    return fields[1:]


def left_out(rows):
    """The fields with the factor 0, by the last line of factors."""
    fields = next((fields for _, fields in reversed(rows) if fields[:1] == ["factor"]), [])
    return {index for index, text in enumerate(fields) if index and number(text) == 0}


def numbers(line, fields, names, limits, may_be_empty=()):
    """The numbers of a line, one for each name, or one where there is no list of names; 0 for an empty field where that is allowed."""
    count = 1 if names is None else len(names)
    found = []
    for index in range(1, count + 1):
        text = fields[index] if index < len(fields) else ""
        place = (line, index, (fields[0],) if names is None else (fields[0], names[index - 1]))
        if not text and index in may_be_empty:
            found.append(0)
            continue
        if not text:
            raise SheetFault(FEW, "no value", *place)
        value = number(text)
        if value is None:
            raise SheetFault(NOT_WHOLE, shown(text) + " is not a whole number", *place)
        if not limits[0] <= value <= limits[1]:
            raise SheetFault(OUT_OF_RANGE, "%s is not from %d to %d" % (shown(text), *limits), *place)
        found.append(value)
    if len(fields) > count + 1:
        words = "more than one value" if count == 1 else "more than %d values" % count
        raise SheetFault(BEYOND, words, line, count + 1, fields[:1])
    return found


def lines_by_word(rows, names):
    """The numbers of each line by the word that stands for its kind; the hull's by no word."""
    found = {}
    for line, fields in rows:
        if not fields:
            continue
        word = fields[0] if fields[0] in WORDS else ""
        kind = "tolerance" if word == "tolerance each" else word
        if kind in found:
            raise SheetFault(AGAIN, "this line again" if word else "a second hull, or a word that is not known", line, 0, fields[:1])
        if not fields[0]:
            raise SheetFault(NAMELESS, "the hull has no name", line)
        limits = WORDS[word] if word else HULL
        each_column = word in ("", "factor")
        found[kind] = (word, numbers(line, fields, names if each_column else None, limits, () if word else left_out(rows)) if limits else None)
    for kind, fault, words in (("", HULLLESS, "no hull"), ("steps", STEPLESS, 'no line "steps"'), ("tolerance", TOLERANCELESS, 'no line "tolerance"')):
        if kind not in found:
            raise SheetFault(fault, words)
    return found


def places(fleet_names, names):
    """Where each of the fleet's columns stands among those of the sheet."""
    for index, name in enumerate(fleet_names):
        if names.count(name) == 0:
            raise SheetFault(MISSING, 'no column "%s"' % shown(name), 0, index + 1)
        if names.count(name) > 1:
            raise SheetFault(TWICE, 'column "%s" twice' % shown(name), 0, index + 1)
        if name in fleet_names[:index]:
            raise SheetFault(FLEET_TWICE, 'column "%s" twice' % shown(name), 0, index + 1, file="fleet.csv")
    for index, name in enumerate(names):
        if name not in fleet_names:
            raise SheetFault(UNKNOWN, 'column "%s" is not in fleet.csv' % shown(name), 0, index + 1)
    return [names.index(name) for name in fleet_names]


def asked(fleet_data, data):
    """Target in the order of the fleet's columns, factors or None, steps and tolerance; or the first fault is raised."""
    if len(data) > MOST_SHEET:
        raise SheetFault(BIG, "more than 39000 bytes")
    table = fleet(fleet_data)[0] if len(fleet_data) <= MOST_BYTES else None
    if table is None:
        fault = SheetFault(FLEET, "")
        fault.text = b""
        raise fault
    rows, last_line = rows_of(latin(data))
    if len(rows) > MOST_LINES:
        raise SheetFault(LINES, "more than 16 lines", rows[MOST_LINES][0])
    names = column_names(rows, last_line)
    found = lines_by_word(rows[1:], names)
    order = places(table.columns[1:], names)
    factors = [found["factor"][1][place] for place in order] if "factor" in found else None
    total = len(order) if factors is None else sum(factors)
    if not 1 <= total <= MOST_FACTORS:
        raise SheetFault(FACTORS, "the factors do not total 1 to 64")
    word, (tolerance,) = found["tolerance"]
    if word == "tolerance each":
        tolerance = tolerance ** 2 * total
    if tolerance > MOST_TOLERANCE:
        raise SheetFault(TOLERANCE, "a tolerance above 1024000000")
    return [found[""][1][place] for place in order], factors, found["steps"][1][0], tolerance


def sheet(fleet_data, data):
    """((target, factors, steps, tolerance), None, b"") of a sheet without fault, else (None, (kind, line, field), the line that names it).
    A fleet with a fault has no line here: its own is that of the fleet."""
    try:
        return asked(fleet_data, data), None, b""
    except SheetFault as fault:
        return None, fault.args, fault.text
