"""Sheets converted into their other edition, by tests/exact.py, with the cases and folders of test_rewriting.

A file of cases has, for each, how many zeros stand in front of the sheet and the room, 2 bytes each; then the name, the sheet and the
book, each behind 2 bytes of length.
"""
import exact
from exact import make_book, make_sheet
from generator import Draws, draw_front, draw_row
from printing import checksum

P = make_book([[0, 0], [4, 0], [0, 4]])
A = make_sheet([1, 1], steps=9, tolerance=1)
A2 = make_sheet([1, 1], steps=9, tolerance=1, factors=[1, 1])
ROOM = 50000


def by_hand():
    """(name, zeros in front, room, sheet, book)."""
    yield "up", 0, 22, A, P
    yield "up, later bytes", 0, 30, A, b""
    yield "up, a byte short", 0, 21, A, b""
    yield "up, room 0", 0, 0, A, b""
    yield "down", 0, 20, A2, P
    yield "down, a byte short", 0, 19, A2, b""
    yield "behind front text", 0, 24, b"hi" + A, P
    yield "letters in front text", 0, ROOM, b"WSH2WSH1" + A, P
    yield "a sheet in front of a sheet", 0, ROOM, A2 + A2, P
    yield "factors 2 1", 0, ROOM, make_sheet([1, 1], 9, 1, factors=[2, 1]), P
    yield "factors 1 0", 0, 0, make_sheet([1, 1], 9, 1, factors=[1, 0]), P
    yield "factors 0 1", 0, ROOM, make_sheet([1, 1], 9, 1, factors=[0, 1]), P
    yield "factors 64 1", 0, ROOM, make_sheet([1, 1], 9, 1, factors=[64, 1]), P
    yield "factors 0 0", 0, 0, make_sheet([1, 1], 9, 1, factors=[0, 0]), P
    for columns in (0, 1, 64, 65):
        yield "columns %d" % columns, 0, ROOM, make_sheet([-2000] * columns, 1, 1024000000), b""
        yield "columns %d with factors" % columns, 0, ROOM, make_sheet([2000] * columns, 360, 0, factors=[1] * columns), b""
    one, two = make_sheet([3], 9, 1), make_sheet([3], 9, 1, factors=[1])
    for length in (39999, 40000, 40001):
        yield "WSH1 of %d bytes" % length, length - len(one), ROOM, one, b""
        yield "WSH2 of %d bytes" % length, length - len(two), ROOM, two, b""
    yield "the longest, a byte short", 39999 - len(one), 39999, one, b""
    yield "too long and no room", 40000 - len(one), 0, one, b""
    yield "other letters", 0, ROOM, A[:-1] + b"3", b""
    yield "no steps", 0, 0, make_sheet([1, 1], 0, 1), b""
    yield "tolerance", 0, ROOM, make_sheet([1, 1], 1, 1024000001), b""
    yield "back of the other edition", 0, ROOM, make_sheet([1, 1], 9, 1, back=6, front=b"front text"), b""
    yield "value out of range", 0, ROOM, make_sheet([1, 2001], 9, 1, factors=[2, 1]), b""
    yield "empty", 0, ROOM, b"", b""


def drawn(draws, number):
    """A sheet of either edition and a book of its columns, most of them accepted; every sixth factor list has another number."""
    columns = draws.draw(4) + 1
    scale = (1, 10, 300, 2000)[draws.draw(4)]
    book = make_book([draw_row(draws, columns, scale) for _ in range(draws.draw(5) + 1)])
    factors = [1] * columns if draws.draw(2) else None
    if factors and draws.draw(6) == 0:
        factors[draws.draw(columns)] = draws.draw(5)
    front = draw_front(draws, draws.draw(7))
    sheet = make_sheet(draw_row(draws, columns, scale), draws.draw(12) + 1, draws.draw(100), front, factors=factors)
    if draws.draw(12) == 0:
        at = draws.draw(len(sheet))
        sheet = sheet[:at] + bytes([draws.draw(256)]) + sheet[at + 1:]
    room = ROOM if draws.draw(4) else max(len(sheet) + draws.draw(9) - 4, 0)
    return "drawn %d" % number, draws.draw(3), room, sheet, book


def cases():
    draws = Draws(2606)
    return [*by_hand(), *(drawn(draws, number) for number in range(200))]


def file_of(found):
    """The bytes of some cases."""
    def counted(data):
        return len(data).to_bytes(2, "little") + data
    return b"".join(zeros.to_bytes(2, "little") + room.to_bytes(2, "little") + counted(name.encode()) + counted(sheet) + counted(book)
                    for name, zeros, room, sheet, book in found)


def written(name, zeros, room, sheet, book):
    """What test_rewriting writes of a case."""
    sheet = bytes(zeros) + sheet
    refusal, _, length, output = exact.other_edition(sheet, b"\7" * room)
    out = name.encode() + b"\n" + exact.edition_line(sheet, room) + exact.edition_detail(sheet) + b"sum %d\n" % checksum(output.ljust(ROOM, b"\7"))
    if refusal:
        return out
    other = output[:length]
    back = exact.other_edition(other, b"\7" * ROOM)[3]
    assert back[:len(sheet)] == sheet
    out += exact.edition_line(other, ROOM) + b"sum %d\n" % checksum(back)
    return out + exact.listing(book, sheet) + exact.listing(book, other) if book else out


def folder_of(name, sheet=None, other=None):
    files = {"sheet.wsh": sheet, "other.wsh": other}
    return name, {file: data for file, data in files.items() if data is not None}


ONE = make_sheet([3], 9, 1)
FOLDERS = dict([
    folder_of("", A),
    folder_of("down", A2, b"an older sheet"),
    folder_of("front", b"hull 41\n" + A),
    folder_of("longest", ONE.rjust(39999, b"x")),
    folder_of("too_long", ONE.rjust(40000, b"x"), b"an older sheet"),
    folder_of("factor", make_sheet([1, 1], 9, 1, factors=[1, 3]), b"an older sheet"),
    folder_of("columns", make_sheet([0] * 65, 9, 1)),
    folder_of("no_steps", make_sheet([1, 1], 0, 1)),
    ("taken", {"sheet.wsh": A, "other.wsh/inside": b"a folder stands in the place of the sheet\n"}),
])


def filed(files):
    """What mixedition prints, what standard error says of a refusal, and other.wsh afterwards."""
    sheet = files.get("sheet.wsh") or b""
    refusal, _, length, output = exact.other_edition(sheet, bytes(exact.MOST_BYTES))
    if refusal:
        return exact.refused(refusal), exact.edition_detail(sheet) + b"other.wsh is as it was\n", files.get("other.wsh")
    return exact.edition_line(sheet, exact.MOST_BYTES), b"", output[:length]
