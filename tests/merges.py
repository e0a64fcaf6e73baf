"""Pairs of fleet books, written by hand and drawn, and the folders that mixmerge is run in: many equal rows, rows that differ in one byte,
both sides of 256 boats, buffers of the merged book's length and one byte less, front text, damaged books.

A file of cases has, for each, the lengths of both books and of the buffer in 2 bytes each, then the two books. Behind the last case it has the
names of the folders.
"""
import struct

import exact
from generator import Draws, names

P = [[0, 0], [4, 0], [0, 4]]
COUNT = 400
MOST = 32780
FILLED = 7  # every byte of a buffer before a call


def length_of(first, second):
    """How long the merged book is, 0 where there is none."""
    return exact.merge_books(first, second, bytes(exact.MOST_BYTES))[1]


def rooms(first, second):
    """The case with room to spare, just enough, one byte too little and none."""
    need = length_of(first, second)
    for room in (MOST, need, max(need - 1, 0), 0):
        yield first, second, room


def by_hand():
    book, line = exact.make_book, [[value] for value in range(256)]
    known, new = book(line[:1]), book([[2000]])
    yield from rooms(book(P), book([[4, 0], [1, 1], [1, 1]]))
    yield from rooms(book([[0, 0], [0, 0]]), book([[0, 0]]))
    yield from rooms(book(P, b"front text"), book(P, b"other front text"))
    yield from rooms(book(P), book([[1]]))
    for second in (known, new, book(line[::-1]), book([[2000], [2000], [5]])):
        yield from rooms(book(line, b"front"), second)
    # 200 boats, and 57 or 56 new ones, each several times
    for count in (57, 56):
        yield from rooms(book(line[:200]), book((line[200:] + [[300]])[:count] * 4))
    # 256 equal boats stay; 255 and 1, 255 and 2, 1 and 256
    yield from rooms(book(256 * [[3]]), book([[3]]))
    yield from rooms(book(line[:255]), book(line[255:]))
    yield from rooms(book(line[:255]), book(line[255:] + [[256]]))
    yield from rooms(book([[-1]]), book(line))
    yield from rooms(book([[0]]), book(line))
    # rows that differ in their first or last value alone, in a value's low or high byte alone, or by its sign
    for values in ((1, 257), (1, 2), (-1, -257), (-1, 1), (-1, 255), (2000, -2000)):
        for columns in (1, 2, 5, 64):
            for at in (0, columns - 1):
                rows = [[9] * at + [value] + [9] * (columns - 1 - at) for value in values]
                yield from list(rooms(book(rows[:1]), book(rows)))[:3]
    # the largest books
    wide = [[(7 * i + j) % 4001 - 2000 for j in range(64)] for i in range(256)]
    yield book(wide[:250]), book(wide[6:]), MOST
    yield book(wide[:250]), book(wide[6:]), MOST - 1
    # each refusal of a book, for the first, the second and both; and with other columns
    wrong = [b"", book(P)[:-1], book(P, boats=0), book(P, columns=65), book(P, back=4), book([[0, 0], [0, 2001]])]
    for damaged in wrong:
        yield damaged, book(P), MOST
        yield book(P), damaged, MOST
        yield damaged, new, 0
        yield new, damaged, 0
    for damaged, other in zip(wrong, wrong[1:] + wrong[:1]):
        yield damaged, other, MOST
    yield book(P).rjust(40000, b"x"), book(P), MOST
    yield book(P).rjust(40001, b"x"), book(P), MOST


def drawn(draws):
    """Books of few values, so that many rows are equal; every third with more boats."""
    columns, values = 1 + draws.draw(3), 2 + draws.draw(4)
    most = (12, 12, 170)[draws.draw(3)]
    books = []
    for _ in range(2):
        rows = [[draws.draw(values) - 1 for _ in range(columns)] for _ in range(1 + draws.draw(most))]
        if most > 12:
            rows = [[row[0] + 8 * draws.draw(40)] + row[1:] for row in rows]
        books.append(exact.make_book(rows, bytes(draws.draw(256) for _ in range(draws.draw(4)))))
    need = length_of(*books)
    yield books[0], books[1], (MOST, need, max(need - 1, 0), need + draws.draw(9))[draws.draw(4)]


def cases():
    found = list(by_hand())
    draws = Draws(2611)
    while len(found) < COUNT:
        found.extend(drawn(draws))
    return found


def file_of(found):
    return b"".join(struct.pack("<HHH", len(first), len(second), room) + first + second for first, second, room in found) + names(FOLDERS)


def kinds(found):
    """How many cases have each refusal, and how many drop a row of the second book."""
    counts = {}
    for first, second, room in found:
        refusal, length, _ = exact.merge_books(first, second, bytes(room))
        counts[refusal] = counts.get(refusal, 0) + 1
        if not refusal and length < len(exact.make_book(exact.read_book(first) + exact.read_book(second))):
            counts["dropped"] = counts.get("dropped", 0) + 1
    return counts


YARD = exact.make_book([[2, 3], [5, 1], [2, 3]], b"boat,a,b\nAlka,2,3\nEider,5,1\nJura,2,3\n")
BOUGHT = exact.make_book([[5, 1], [4, 4], [4, 4], [2, 2]], b"the bought yard\n")

# test_merge: folders by their names. The current folder has no name.
FOLDERS = {
    "": {"fleet.wbk": YARD, "bought.wbk": BOUGHT},
    "older": {"fleet.wbk": YARD, "bought.wbk": BOUGHT, "merged.wbk": b"an older book"},
    "other_columns": {"fleet.wbk": YARD, "bought.wbk": exact.make_book([[1]]), "merged.wbk": b"an older book"},
    "too_many": {"fleet.wbk": exact.make_book([[value] for value in range(256)]), "bought.wbk": exact.make_book([[300]])},
    "known": {"fleet.wbk": exact.make_book([[value] for value in range(256)]), "bought.wbk": exact.make_book([[255]])},
    "first_refused": {"fleet.wbk": exact.make_book([[2001]]), "bought.wbk": b"WBK1", "merged.wbk": b"an older book"},
    "second_refused": {"fleet.wbk": YARD, "bought.wbk": BOUGHT[:-1]},
    "no_first": {"bought.wbk": BOUGHT, "merged.wbk": b"an older book"},
    "no_second": {"fleet.wbk": YARD},
    "long": {"fleet.wbk": YARD.rjust(40001, b"x"), "bought.wbk": BOUGHT},
    "merged_a_folder": {"fleet.wbk": YARD, "bought.wbk": BOUGHT, "merged.wbk/inside": b"a folder stands in the place of the book\n"},
}


def filed(files):
    """What mixmerge prints in a folder, and the merged.wbk that it leaves; a folder in its place takes no book and nothing is printed."""
    first, second = files.get("fleet.wbk", b""), files.get("bought.wbk", b"")
    refusal, length, written = exact.merge_books(first, second, bytes(exact.MOST_BYTES))
    if refusal:
        return exact.merge_listing(first, second), files.get("merged.wbk", b"")
    if "merged.wbk/inside" in files:
        return b"", b""
    return exact.merge_listing(first, second), written[:length]
