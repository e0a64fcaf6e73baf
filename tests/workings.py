"""Searches worked over by moves, written by hand and drawn: the marked ones, every border of the moves and of the buffer, factors, released
sets, both editions, front texts, refused files and sets.

A file of cases has, for each, in 2 bytes each the lengths of the book and of the sheet; the moves allowed in 4 bytes; the length of the buffer
in 2 bytes; a byte that is 1 where the call is limited to a set, and one of no meaning; the 32 bytes of the set; then the book and the sheet.
"""
import struct

import exact
from generator import Draws

P = [[0, 0], [4, 0], [0, 4]]
COUNT = 400
ROOM = 1080
FILLED = 9  # every byte of the buffer before a call

# Rows, target, tolerance, steps and moves of the marked searches.
MARKED = [
    (P, [1, 1], 1, 2, (1000, 0, 1, 1001, 4294967295)),
    ([[-2000], [2000]], [0], 0, 2, (1000,)),
    (P, [1, 1], 1, 1, (1000,)),
    ([[6], [-4]], [4], 0, 5, (1000,)),
    ([[1], [-5]], [-4], 0, 2, (1000,)),
    ([[5], [-6]], [4], 2, 2, (1000,)),
    ([[-8, 3], [4, -1], [10, 9]], [5, -1], 2, 6, (1, 2, 3, 4, 1000)),
    ([[6, 6], [0, 4], [-2, -4]], [0, 5], 2, 5, (1, 1000)),
    ([[1, -2], [3, 0]], [3, -1], 0, 2, (1000,)),
    ([[-3, -1], [3, -1], [-1, 1]], [-1, 1], 0, 2, (1000,)),
    ([[-1, 0], [0, 0], [1, 1]], [0, 0], 0, 5, (1, 1000)),
    ([[0, 2], [2, -1], [0, 0]], [0, 1], 0, 5, (1,)),
    ([[0, 1], [1, -1], [-1, 0]], [1, 0], 0, 2, (1000,)),
    # a search that ends Within: 53 before 54
    (P, [1, 1], 1, 9, (1000, 0, 1001)),
]


def case(book, sheet, moves, released=None, room=ROOM):
    return book, sheet, moves, released, room


def by_hand():
    for rows, target, tolerance, steps, allowed in MARKED:
        for moves in allowed:
            yield case(exact.make_book(rows), exact.make_sheet(target, steps, tolerance), moves)
    # with a set, which leaves boats of the book out: those are numbered as in the book on the card
    book, sheet = exact.make_book(P), exact.make_sheet([1, 1], 9, 1)
    for boats in ([1, 2], [0, 1], [0], [2], [0, 1, 2], [], [3], [0, 255]):
        for moves in (1000, 0, 1):
            yield case(book, sheet, moves, exact.make_set(boats))
    # the buffer: one byte too short, of the length of the card, none; after 53 and 54
    size = exact.work_over(book, sheet, 1000, bytes(ROOM), exact.make_set([1, 2]))[2]
    for moves in (1000, 1001):
        for room in (size - 1, size, size + 1, 0):
            yield case(book, sheet, moves, exact.make_set([1, 2]), room)
    yield case(book, sheet, 0, None, 0)
    # a card that is shorter than the run's, since a boat leaves: its own length serves
    left = exact.make_book([[5], [-6]]), exact.make_sheet([4], 2, 2)
    for room in (39, 40, 41, 43, 44):
        yield case(*left, 1000, None, room)
    # the order of the tests: the book, the set, the sheet, the run, the moves, the buffer
    yield case(b"", b"", 0, exact.make_set([]), 0)
    yield case(book, b"", 0, exact.make_set([]), 0)
    yield case(book, b"", 0, exact.make_set([1]), 0)
    yield case(book, exact.make_sheet([1, 1], 9, 1, factors=[0, 0]), 0, None, 0)
    # factors, in both editions, and front text
    for factors in ([1, 1], [1, 2], [3, 1], [0, 1], [63, 1], [64, 0]):
        for moves in (1, 2, 1000):
            yield case(exact.make_book(P, b"front text"), exact.make_sheet([1, 1], 4, 0, b"front text of a sheet", factors=factors), moves)
    # the largest book, and far columns whose best amount is wider than what is held
    wide = [[(7 * i * (j + 3) + i * i) % 401 - 200 for j in range(64)] for i in range(256)]
    large = exact.make_sheet([(11 * j) % 301 - 150 for j in range(64)], 40, 0)
    for released in (None, exact.make_set(range(0, 256, 3))):
        yield case(exact.make_book(wide), large, 30, released)
    yield case(exact.make_book([[2000, 0], [2000, 1]]), exact.make_sheet([-2000, 2000], 5, 0), 1000)
    yield case(exact.make_book([[2000, 1], [2000, 0]]), exact.make_sheet([-2000, 2000], 5, 0), 1000)


def drawn_set(draws, boats):
    """None, or a set that mostly serves a book of so many boats."""
    kind = draws.draw(8)
    if kind < 3:
        return None
    if kind == 3:
        return exact.make_set(range(boats))
    if kind == 4 and draws.draw(3) == 0:
        return exact.make_set([boats + draws.draw(256 - boats)])
    return exact.make_set([i for i in range(boats) if draws.draw(3)])


def drawn(draws):
    columns, boats = 1 + draws.draw(4), 1 + draws.draw(12)
    scale = (1, 2, 10, 40, 2000)[draws.draw(5)]
    rows = [[draws.draw(2 * scale + 1) - scale for _ in range(columns)] for _ in range(boats)]
    for i in range(1, boats):
        if draws.draw(6) == 0:
            rows[i] = rows[draws.draw(i)]
    book = exact.make_book(rows, bytes(draws.draw(256) for _ in range(draws.draw(3))))
    # mostly the middle of three boats, near which a search is often Spent
    three = [rows[draws.draw(boats)] for _ in range(3)]
    target = [sum(column) // 3 for column in zip(*three)] if draws.draw(4) else [draws.draw(2 * scale + 1) - scale for _ in range(columns)]
    factors = [None, [1] * columns, [draws.draw(4) for _ in range(columns)], [1 + draws.draw(3) for _ in range(columns)]][draws.draw(4)]
    steps = 1 + draws.draw((6, 25, 60)[draws.draw(3)])
    tolerance = (0, 0, draws.draw(3), draws.draw(scale + 1) * draws.draw(scale + 1))[draws.draw(4)]
    sheet = exact.make_sheet(target, steps, tolerance, bytes(draws.draw(256) for _ in range(draws.draw(4))), factors=factors)
    moves = (1, 2, 3, 1 + draws.draw(20), 1000, 1000, 1000, 0, 1001)[draws.draw(9)]
    return case(book, sheet, moves, drawn_set(draws, boats), draws.draw(60) if draws.draw(6) == 0 else ROOM - draws.draw(20))


def cases():
    found = list(by_hand())
    draws = Draws(2410)
    while len(found) < COUNT:
        book, sheet, moves, released, room = drawn(draws)
        # most searches that do not end Spent are left out
        if exact.work_over(book, sheet, moves, bytes(room), released)[0] != 53 or draws.draw(8) == 0:
            found.append((book, sheet, moves, released, room))
    return found


def file_of(found):
    return b"".join(struct.pack("<HHIHBB", len(book), len(sheet), moves, room, released is not None, 0) + (bytes(32) if released is None else bytes(released)) + book + sheet
                    for book, sheet, moves, released, room in found)


SPENT = exact.make_book(P, b"fleet"), exact.make_sheet([1, 1], 2, 1, b"sheet")
MORE = exact.make_book([[-8, 3], [4, -1], [10, 9]]), exact.make_sheet([5, -1], 6, 2)
FACTORED = exact.make_book(P), exact.make_sheet([1, 1], 4, 0, factors=[3, 1])


def folder(files, worked=None, without=()):
    """The files of a folder, with an older worked card or none."""
    found = {"fleet.wbk": files[0], "sheet.wsh": files[1], "worked.wcd": worked}
    return {name: content for name, content in found.items() if content is not None and name not in without}


# test_worked: folders by their names, and the moves that mixwork is asked for there. The current folder has no name.
RUNS = {
    "": (1000, folder(SPENT)),
    "older": (1000, folder(SPENT, b"an older card")),
    "one_move": (1, folder(MORE)),
    "two_moves": (2, folder(MORE)),
    "all_moves": (1000, folder(MORE)),
    "factors": (1000, folder(FACTORED)),
    "no_moves": (0, folder(SPENT, b"an older card")),
    "too_many_moves": (1001, folder(SPENT, b"an older card")),
    "within": (1000, folder((SPENT[0], exact.make_sheet([1, 1], 9, 1)), b"an older card")),
    "within_and_no_moves": (0, folder((SPENT[0], exact.make_sheet([1, 1], 9, 1)))),
    "sheet_refused": (0, folder((SPENT[0], exact.make_sheet([1, 1], 0, 1)), b"an older card")),
    "book_refused": (1, folder((SPENT[0][:-1], b""), b"an older card")),
    "no_book": (1, folder(SPENT, without=("fleet.wbk",))),
    "no_sheet": (1, folder(SPENT, without=("sheet.wsh",))),
    "longest_sheet": (1000, folder((SPENT[0], exact.make_sheet([1, 1], 2, 1).rjust(40000, b"x")))),
    "too_long": (1000, folder((SPENT[0], exact.make_sheet([1, 1], 2, 1).rjust(40001, b"x")))),
}
FOLDERS = {name: files for name, (_, files) in RUNS.items()}


def filed(files, moves):
    """What mixwork prints in a folder, and the card that stands there afterwards."""
    book, sheet = files.get("fleet.wbk", b""), files.get("sheet.wsh", b"")
    refusal, _, size, written = exact.work_over(book, sheet, moves, bytes(1060))
    return exact.worked_listing(book, sheet, moves), files.get("worked.wcd", b"") if refusal else written[:size]
