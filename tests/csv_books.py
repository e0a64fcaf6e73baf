"""The fleet book of a CSV and the line that names a fault, by tests/csv_reader.py, with the cases of test_book.

A file of cases has, for each, its length in 3 bytes and the CSV.
"""
import re

import csv_reader
from csv_reader import shown
from exact import make_book
from generator import filled

MOST_FILE = 40000

# what is wrong, where no number and no name is in it
WORDS = {
    csv_reader.LONG: "a field of more than 200 bytes",
    csv_reader.COLUMNLESS: "no column",
    csv_reader.BOATS: "more than 256 boats",
    csv_reader.BOATLESS: "no boat",
    csv_reader.BIG: "more than 200000 bytes",
    csv_reader.ROOM: "a buffer of fewer than 40000 bytes",
    csv_reader.STRAY: "text after a closing quote",
    csv_reader.OPEN: "a quote that is not closed",
}


def words(kind, field, columns, value):
    if kind == csv_reader.NAMELESS:
        return "the boat has no name" if columns else "column %d has no name" % field
    if kind == csv_reader.MANY:
        return "more than %d values" % columns if columns else "more than 64 columns"
    if kind == csv_reader.FEW:
        return "%d of %d values" % (field, columns)
    if kind == csv_reader.NOT_WHOLE:
        return shown(value) + " is not a whole number"
    if kind == csv_reader.OUT_OF_RANGE:
        return shown(value) + " is not from -2000 to 2000"
    return WORDS[kind]


def fault_line(data, table, fault):
    """The line that names a fault: file, line, boat and column, what is wrong."""
    kind, line, field = fault
    place = "fleet.csv" + (" line %d" % line if line else "")
    columns, value = max(len(table.columns) - 1, 0), ""
    if columns:
        text = csv_reader.latin(data)
        lines, partial, _ = csv_reader.parsed(text, csv_reader.separator(text))
        fields = (lines + [partial or []])[line - 1] if line <= len(lines) + 1 else []
        if field or kind == csv_reader.FEW:
            place += ", " + shown(fields[0])
        if field and kind not in (csv_reader.MANY, csv_reader.FEW):
            place += ", " + shown(table.columns[field])
        if kind in (csv_reader.NOT_WHOLE, csv_reader.OUT_OF_RANGE):
            value = fields[field]
    return (place + ": " + words(kind, field, columns, value) + "\n").encode("latin-1")


def names_only(data):
    """A CSV without byte-order mark and values: of a boat's line its first field with the separator after it, and the end of the line."""
    text = csv_reader.latin(data)
    mark = re.escape(csv_reader.separator(text))
    field = r'(?:"(?:[^"]|"")*"|[^"\r\n%s][^\r\n%s]*|)' % (mark, mark)
    lines = re.compile(r"(%s)((?:%s%s)*)(\r\n|\r|\n|\Z)" % (field, mark, field))
    out, at, count = [], 0, 0
    while at < len(text):
        found = lines.match(text, at)
        first, rest, end = found.groups()
        filled = bool(rest) or first not in ("", '""')
        whole = count == 0 or (count == 1 and first in ("unit", '"unit"') and rest)
        out.append(first + (rest if whole else rest[:1]) + end)
        count += filled
        at = found.end()
    return "".join(out).encode("latin-1")


def front(data, book):
    """The word for the front text of a book, and the text."""
    for word, text in (("csv", data), ("names", names_only(data)), ("nothing", b"")):
        if len(text) + len(book) <= MOST_FILE:
            return word, text
    raise AssertionError


def made(data):
    """(fault, line, field, lines, book): what csv_book gives back and what is said of it."""
    if len(data) > csv_reader.MOST_BYTES:
        fault = (csv_reader.BIG, 0, 0)
        return (*fault, fault_line(b"", csv_reader.Table(), fault), b"")
    table, fault = csv_reader.read(data)
    if fault:
        return (*fault, fault_line(data, table, fault), b"")
    book = make_book(table.rows)
    word, text = front(data, book)
    lines = "fleet %d %d\nfront %s\n" % (len(table.rows), len(table.rows[0]), word)
    return 0, 0, 0, lines.encode(), text + book


def is_made(data, book):
    """Whether a book is the one that a CSV makes; a CSV with a fault makes none."""
    fault, *_, own = made(data)
    return not fault and book == own


# ---- cases by hand

YARD = """boat,hull weight,mach weight,outfit weight,elec weight,aux weight,deck weight,LCG moment,VCG moment
unit,‰ D,‰ D,‰ D,‰ D,‰ D,‰ D,‰ D L,‰ D L
Alka 12,352,171,74,29,41,38,-49,73
Brisling,338,188,66,33,48,52,-61,73
Corrie,331,162,81,31,55,88,-29,80
Dunlin,347,224,59,36,39,21,-78,67
Eider II,341,158,96,38,61,46,-35,74
Fulmar,324,149,72,30,66,121,-15,81
Gannet,356,233,63,41,44,18,-80,67
Hamnavoe,318,144,103,42,72,62,-25,74
Isbjorn,371,167,86,37,58,43,-40,72
Jura,329,196,78,46,63,57,-64,70
Kittiwake,312,139,91,44,77,109,-8,78
Lofoten,343,178,108,52,69,36,-42,71
""".encode()


def table_of(boats, columns, name="b%d", column="c%d", value=lambda i, j: (i * 7 + j * 13) % 4001 - 2000):
    """A CSV of so many boats and columns."""
    lines = [["boat"] + [column % j for j in range(columns)]]
    lines += [[name % i] + [str(value(i, j)) for j in range(columns)] for i in range(boats)]
    return "".join(",".join(line) + "\n" for line in lines).encode()


def of_guide():
    """Beside the cases of test_book, what docs/guide.md says of the place of a fault and of which of two is told."""
    for value in (b'"356" ', b'"356', b"3" * 201):
        yield YARD.replace(b"Gannet,356", b"Gannet," + value)
    yield YARD.replace(b"Lofoten,", b'Lofoten,"')
    yield YARD.replace(b"Lofoten", b'"Lofoten')
    yield YARD.replace(b'boat,', b'"boat ""of 1987"" ,\n",')
    yield YARD.replace(b"boat,", b'"boat" ,')
    yield YARD.replace(b"Gannet,356", b'"Gan\tnet\x01\x7f\xff",3.5')
    # of two faults: the one to the left; too many values before the last of them; too few after those that are there
    yield YARD.replace(b"Gannet,356,233", b"Gannet,2500,x")
    yield YARD.replace(b"Gannet,356,233", b",x,233")
    yield YARD.replace(b"-80,67\n", b"-80,x,1\n")
    yield YARD.replace(b"-80,67\n", b"x,67,1\n")
    yield YARD.replace(b"-80,67\n", b"x\n")
    # padded, a line of separators, units elsewhere
    yield YARD.replace(b"\n", b",\n")
    yield YARD.replace(b"-80,67\n", b"-80,67,\n")
    yield YARD.replace(b"\nGannet", b"\n,,,,,,,,\nGannet")
    yield YARD.replace(b"Gannet,356", b"unit,")
    # where a file without a boat ends
    for end in (b"", b"\n", b"\n\n\n", b"\r\n\r\n"):
        yield b"boat,a,b\nunit,m,m" + end
    # names alone, with empty lines, quotes and units
    yield b'"boat",c\n\n"unit",m\n\n' + b"".join(b'"b %d, ""x""",1\r\n\n' % i for i in range(256)) + b"\n" * 39000


def by_hand():
    yield YARD
    # what goes wrong in a spreadsheet
    yield YARD.replace(b"Eider II,341", b"Eider II,2500")
    yield YARD.replace(b"Eider II,341", b"Eider II,-2001")
    yield YARD.replace(b"Eider II,341", b"Eider II,341.4")
    yield YARD.replace(b",", b";").replace(b"Brisling;338", b"Brisling;338,4")
    yield YARD.replace(b"Brisling,338", b"Brisling,338,4")
    yield YARD.replace(b"Corrie,331,", b"Corrie,,")
    yield YARD.replace(b"Corrie,331,", b"Corrie,n/a,")
    yield YARD.replace(b"Jura,329,", b"Jura,")
    yield YARD.replace(b"Jura,329,", b",329,")
    yield YARD.replace(b"\nLofoten,343,178,108,52,69,36,-42,71", b"\nLofoten")
    yield YARD.replace(b",elec weight,", b",,")
    yield YARD.replace(b"boat,hull", b",hull")
    yield YARD.replace(b"Gannet", b'"Gannet')
    yield YARD.replace(b"Gannet", b'"Gannet" ')
    yield YARD.replace(b"Gannet,356", b'"Gannet\nof 1987",3560')
    yield YARD.replace(b"Gannet,356", b"Gannet,3 56")
    yield YARD.replace(b"Gannet,356", b"Gannet,--56")
    yield YARD.replace(b"Gannet,356", b"Gannet,99999999999999999999999")
    yield YARD.replace(b"Gannet", b"G" * 201)
    yield YARD.replace(b"Gannet", b"G" * 200)
    yield YARD.replace(b"Gannet,356", b"Gannet," + b"3" * 201)
    yield YARD.replace(b"unit,", b"Unit,")
    yield YARD.replace(b"unit,", b"units,")
    yield YARD.replace(b"hull weight,mach weight", b"hull weight")
    yield YARD.split(b"\n")[0]
    yield YARD.split(b"\n")[0] + b"\n"
    yield b"\n".join(YARD.split(b"\n")[:2]) + b"\n"
    yield b"boat\nAlka\n"
    yield b""
    yield b"\n\n\r\n"
    yield b"\xef\xbb\xbf"
    # what is allowed
    yield b"\xef\xbb\xbf" + YARD
    yield YARD.replace(b"\n", b"\r\n")
    yield YARD.replace(b"\n", b"\r")
    yield YARD.replace(b",", b"\t")
    yield YARD + b"\n\n"
    # the separator is the header's, also behind lines that are passed over and with a quote inside a field
    yield b"\n" + YARD.replace(b",", b";")
    yield b'""\r\n\n' + YARD.replace(b",", b"\t")
    yield b"\xef\xbb\xbf\n" + YARD.replace(b",", b";")
    yield YARD.replace(b",", b"\t").replace(b"boat", b'5" boat')
    yield YARD.replace(b"\nDunlin", b"\n\nDunlin")
    yield YARD.replace(b"Gannet,356", b"Gannet, +356 ")
    yield YARD.replace(b"Gannet,356", b'"Gannet ""II"", of 1987","356"')
    yield YARD.replace(b"Gannet", b"unit")
    yield YARD.replace(b"Gannet,356", b"Gannet,-0")
    yield YARD.replace(b"Gannet,356", b"Gannet,0000002000")
    yield b"a,b\nunit,1\n"
    yield b"a,b\nc,1"
    yield b'"a","b, c"\n"d","-2000"\n'
    # limits
    yield table_of(256, 1)
    yield table_of(257, 1)
    yield table_of(1, 64)
    yield table_of(1, 65)
    yield table_of(256, 64)
    yield table_of(256, 64, name="a boat with a name of middle length and number %d")
    yield table_of(200, 60).replace(b"\n", b"\r\n").replace(b"c7,", b'"c ""7""",')
    yield table_of(2, 3, name='"%d, with ""quotes"""', column='"c%d;d"')
    for extra in (0, 1):
        yield fitted(extra)


def fitted(extra):
    """A CSV that with its book has 40,000 bytes, and so many more."""
    size = 40000 - 2 * 200 * 20 - 12 + extra
    plain = table_of(200, 20)
    return plain + b"\n" * (size - len(plain))


# ---- drawn cases

NAMES = ["Alka", "Å", "boat, old", 'the "fast" one', "two\nlines", "unit", "", "x" * 200, "x" * 201, "Ørn\r\n", " a ", ";", "\t", "Ελλη", "+1", "-"]
NUMBERS = ["0", "-0", "+7", "2000", "-2000", "2001", "-2001", " 12", "12 ", "1 2", "1.5", "1,5", "", " ", "+", "1e3", "0x10", "00012", "99999999999", "a"]


def quoted(text, mark, always):
    if always or any(letter in text for letter in '"\r\n' + mark):
        return '"' + text.replace('"', '""') + '"'
    return text


def drawn_case(draws):
    """A small CSV, mostly right, with some names, numbers, line ends and bytes that are not."""
    mark, end = ",;\t"[draws.draw(3)], ["\n", "\r\n", "\r"][draws.draw(3)]
    columns, boats, wild = 1 + draws.draw(4), draws.draw(5), draws.draw(3)

    def name():
        return NAMES[draws.draw(len(NAMES))] if wild and draws.draw(6) == 0 else "n%d" % draws.draw(100)

    def number():
        return NUMBERS[draws.draw(len(NUMBERS))] if wild == 2 and draws.draw(6) == 0 else str(draws.draw(4001) - 2000)

    lines = [[name() for _ in range(columns + 1)]]
    if draws.draw(3) == 0:
        lines.append(["unit"] + [name() for _ in range(columns)])
    for _ in range(boats):
        count = columns + (draws.draw(3) - 1 if wild == 2 and draws.draw(12) == 0 else 0)
        lines.append([name()] + [number() for _ in range(count)])
        if draws.draw(12) == 0:
            lines.append([])
    always = draws.draw(4) == 0
    text = end.join(mark.join(quoted(field, mark, always) for field in line) for line in lines)
    data = (text + ("" if draws.draw(4) == 0 else end)).encode()
    if draws.draw(8) == 0:
        data = b"\xef\xbb\xbf" + data
    if draws.draw(5) == 0 and data:
        at = draws.draw(len(data))
        byte = [34, 10, 13, 44, 0, 200, 239][draws.draw(7)]
        data = [data[:at] + data[at + 1:], data[:at] + bytes([byte]) + data[at:], data[:at]][draws.draw(3)]
    return data


COUNT = 500


def cases():
    return filled(by_hand(), drawn_case, 22, COUNT)


def file_of(found):
    return b"".join(len(data).to_bytes(3, "little") + data for data in found)


def kinds(found):
    """How often each outcome is met."""
    count = {}
    for data in found:
        fault = made(data)[0]
        count[fault] = count.get(fault, 0) + 1
    return count


# ---- folders, by their names. The current folder has no name, and `none` does not stand

FOLDERS = {
    "": {"fleet.csv": YARD},
    "larger": {"fleet.csv": table_of(256, 64), "fleet.wbk": b"an older book"},
    "faulty": {"fleet.csv": YARD.replace(b"Eider II,341", b"Eider II,2500"), "fleet.wbk": b"an older book"},
}
