"""Queues of sheets on one allowance, written by hand and drawn: sheets of different sizes and front texts, both editions, factors, every
border of the allowance, of the number of sheets, of the lengths and of the slots, refused sheets at every place.

A file of cases has, for each, in 2 bytes each the number of sheets, of slots, the lengths of the book and of the buffer; the allowance in 4
bytes; the first 16 lengths in 4 bytes each; then the book and the buffer. Behind the last case it has the runs of mixqueue: for each the
allowance in 4 bytes, the length of the folder's name in 2, and the name.
"""
import struct

import exact
from generator import Draws

P = [[0, 0], [4, 0], [0, 4]]
COUNT = 240
SLOTS = 4200
FILLED = 7  # every slot before a call

A, C = exact.make_sheet([1, 1], 9, 1), exact.make_sheet([1, 1], 2, 1)
D, Z = exact.make_sheet([5, 5], 9, 1), exact.make_sheet([1, 1], 9, 0)
Z5 = exact.make_sheet([1, 1], 5, 0)
NO_STEPS = exact.make_sheet([1, 1], 0, 1)
FACTORS = exact.make_sheet([1, 1], 20, 0, factors=[3, 1])


def case(sheets, allowance, slots=None, book=None, lengths=None, buffer=None):
    """A queue: the lengths and the buffer are the sheets', the slots as many as are needed, unless others are given."""
    return (exact.make_book(P) if book is None else book, [len(s) for s in sheets] if lengths is None else lengths,
            b"".join(sheets) if buffer is None else buffer, allowance, exact.SLOTS * min(len(sheets), 16) if slots is None else slots)


def by_hand():
    # the marked queues
    for allowance in (3, 6, 7, 5760):
        yield case([Z, A, D], allowance)
    yield case([Z, Z], 5)
    yield case([C], 2)
    yield case([Z5] * 3, 14)
    yield case([Z5] * 3, 15)
    yield case([A, NO_STEPS], 2)
    yield case([A, NO_STEPS], 2, slots=0)
    yield case([NO_STEPS], 0)
    yield case([A, A], 2, lengths=[20, 19])
    yield case([], 1)
    yield case([A] * 17, 17)
    yield case([A, A], 1)
    yield case([A, A], 5761)
    yield case([A, A], 2, slots=511)
    yield case([A], 1, slots=255)
    yield case([Z, A, D], 3, slots=0)
    # the borders
    yield case([Z] * 16, 16)
    yield case([Z] * 16, 15)
    yield case([Z] * 16, 5760)
    yield case([Z] * 16, 16, slots=4096)
    yield case([Z] * 16, 16, slots=4095)
    yield case([A], 1)
    yield case([A], 0)
    yield case([A], 5760)
    yield case([A], 5761)
    yield case([A], 4294967295)
    # lengths whose sum in 32 bits would be that of the buffer
    yield case([A, A], 4, lengths=[2 ** 31 + 20, 2 ** 31 + 20])
    yield case([A] * 16, 16, lengths=[2 ** 28 + 20] * 16)
    yield case([A, A], 4, lengths=[40, 0])
    yield case([A, A], 4, lengths=[0, 40])
    yield case([A, A], 4, buffer=A + A + b"x")
    # the order of the tests
    yield case([NO_STEPS], 0, book=b"")
    yield case([], 0, slots=0)
    yield case([NO_STEPS], 1, slots=0)
    yield case([A, exact.make_sheet([1], 9, 1), NO_STEPS], 3)
    yield case([A, A, exact.make_sheet([1, 1], 9, 1, factors=[0, 0])], 3, slots=100)
    # front text, both editions, factors
    front = exact.make_sheet([1, 1], 9, 1, b"front text of a sheet")
    for allowance in (3, 4, 8, 29, 60):
        yield case([front, FACTORS, exact.make_sheet([3, -2], 30, 2, b"WSH1", factors=[1, 1])], allowance, book=exact.make_book(P, b"front text"))
    # the largest book
    wide = [[(7 * i * (j + 3) + i * i) % 401 - 200 for j in range(64)] for i in range(256)]
    large = [exact.make_sheet([(11 * j + k) % 301 - 150 for j in range(64)], 360, 0) for k in range(3)]
    yield case(large, 9, book=exact.make_book(wide))


def drawn(draws):
    columns, boats = 1 + draws.draw(4), 1 + draws.draw(9)
    rows = [[draws.draw(41) - 20 for _ in range(columns)] for _ in range(boats)]
    book = exact.make_book(rows, bytes(draws.draw(256) for _ in range(draws.draw(3))))
    sheets = []
    for _ in range(1 + draws.draw(16)):
        target = [draws.draw(25) - 12 for _ in range(columns)]
        factors = [None, [1] * columns, [draws.draw(4) for _ in range(columns)], [1 + draws.draw(3) for _ in range(columns)]][draws.draw(4)]
        steps = draws.draw(25) or draws.draw(2)
        sheets.append(exact.make_sheet(target, steps, draws.draw(3) * draws.draw(60), bytes(draws.draw(256) for _ in range(draws.draw(5))), factors=factors))
    if draws.draw(3):
        # most queues have no refused sheet
        sheets = [s for s in sheets if not exact.files_refusal(book, s)] or [exact.make_sheet([0] * columns, 5, 3)]
    n = len(sheets)
    allowance = (n, n + draws.draw(40), n * (1 + draws.draw(20)), 5760, max(n - 1, 0), n * 3 - 1)[draws.draw(6)]
    slots = 256 * n - 1 if draws.draw(10) == 0 else 256 * n + draws.draw(40)
    lengths = [len(s) for s in sheets]
    if draws.draw(15) == 0:
        lengths[draws.draw(n)] += 1
    return case(sheets, allowance, min(slots, SLOTS), book, lengths)


def cases():
    found = list(by_hand())
    draws = Draws(2404)
    while len(found) < COUNT:
        found.append(drawn(draws))
    return found


def file_of(found):
    return b"".join(struct.pack("<HHHHI", len(lengths), slots, len(book), len(buffer), allowance)
                    + struct.pack("<16I", *(lengths + [0] * 16)[:16]) + book + buffer
                    for book, lengths, buffer, allowance, slots in found) \
        + b"".join(struct.pack("<IH", allowance, len(name)) + name.encode() for name, allowance in RUNS)


def kinds(found):
    """How many cases have each refusal, and how many have a sheet that was cut off, or one that finished."""
    counts = {}
    for book, lengths, buffer, allowance, slots in found:
        refusal, records, _ = exact.run_queue(book, lengths, buffer, allowance, [0] * slots)
        counts[refusal] = counts.get(refusal, 0) + 1
        for record in records or []:
            name = "finished" if record.finished else "cut"
            counts[name] = counts.get(name, 0) + 1
    return counts


def folder(sheets, book=exact.make_book(P), without=()):
    """The files of a folder, the sheets numbered from 1."""
    files = {"fleet.wbk": book, **{"sheet%d.wsh" % number: sheet for number, sheet in enumerate(sheets, 1)}}
    return {name: content for name, content in files.items() if name not in without}


FRONT = exact.make_sheet([1, 1], 9, 1, b"front text of a sheet")
EDITIONS = [FRONT, FACTORS, exact.make_sheet([3, -2], 30, 2, b"WSH1", factors=[1, 1]), exact.make_sheet([1, 1], 20, 0, factors=[0, 2])]
SIXTEEN = [[Z, A, D, C, Z5, FRONT, FACTORS][k % 7] for k in range(16)]

# test_queue: folders by their names. The current folder has no name.
FOLDERS = {
    "": folder([Z, A, D]),
    "none": folder([]),
    "one": folder([C]),
    "sixteen": folder(SIXTEEN),
    "seventeen": folder(SIXTEEN + [A]),
    "no_third": folder([Z, A, D, C], without=("sheet3.wsh",)),
    "counted_from_0": dict(folder([A, D]), **{"sheet0.wsh": NO_STEPS}),
    "editions": folder(EDITIONS, exact.make_book(P, b"front text")),
    "second_refused": folder([A, NO_STEPS, b""]),
    "empty": folder([A, b"", NO_STEPS]),
    "seventeenth_empty": folder([A] * 16 + [b""]),
    "book_refused": folder([A, NO_STEPS], exact.make_book(P)[:-1]),
    "book_before_44": folder([], exact.make_book(P)[:-1]),
    "no_book": folder([A], without=("fleet.wbk",)),
    "longest": folder([Z, A.rjust(40000, b"x"), D]),
    "too_long": folder([Z, A.rjust(40001, b"x"), D]),
}

# What mixqueue is run on: a folder and an allowance.
RUNS = [
    ("", 3), ("", 6), ("", 7), ("", 5760), ("", 2), ("", 5761), ("none", 1), ("none", 0), ("one", 1), ("one", 2), ("one", 0), ("sixteen", 16), ("sixteen", 15),
    ("sixteen", 70), ("sixteen", 5760), ("seventeen", 17), ("seventeen", 0), ("no_third", 9), ("counted_from_0", 9), ("editions", 4), ("editions", 41), ("editions", 60),
    ("second_refused", 3), ("second_refused", 2), ("empty", 9), ("seventeenth_empty", 17), ("book_refused", 2), ("book_before_44", 1), ("no_book", 1), ("longest", 7),
    ("too_long", 7), ("one", 4294967295),
]


def sheets_in(files):
    """The sheets of a folder up to one that is not there."""
    sheets = []
    while "sheet%d.wsh" % (len(sheets) + 1) in files:
        sheets.append(files["sheet%d.wsh" % (len(sheets) + 1)])
    return sheets


def printed(files, allowance):
    return exact.queue_listing(files.get("fleet.wbk", b""), sheets_in(files), allowance)
