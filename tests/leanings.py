"""Sets of cards with their sheets, written by hand and drawn, and the folders that leanlist is run in: both sides of 1, 12 and 64 cards, ties,
either edition of cards and sheets, front text, damaged and missing files.

A file of cases has, for each, the length of the book, the number of cards and how many pairs follow, in 2 bytes each, then the book, and for
each pair the lengths of sheet and card in 2 bytes each and both files. Behind the last case it has the names of the folders.
"""
import struct

import exact
from generator import Draws, draw_row, names

P = [[0, 0], [4, 0], [0, 4]]
COUNT = 160
BOOK = exact.make_book(P, b"fleet")
SHEET = exact.make_sheet([1, 1], 9, 100)
FACTORED = exact.make_sheet([1, 1], 9, 100, b"sheet", factors=[2, 1])


def pair(shares, steps, sheet=SHEET, front=b"", letters=b"WCD2"):
    """A sheet and a true card of these shares after so many steps."""
    return sheet, exact.true_card(BOOK, sheet, shares, steps, front, letters)


ON_0, ON_1, TWICE_1 = pair([1, 0, 0], 1), pair([0, 1, 0], 1), pair([0, 3, 0], 2)
MIXED = [pair([1, 0, 0], 1), pair([0, 1, 2], 2), pair([3, 1, 2], 3)]
# cards and sheets of either edition, with front text and without
EDITIONS = [pair([3, 1, 2], 3, sheet, front, letters) for sheet in (SHEET, FACTORED) for front in (b"", b"a longer front text") for letters in (b"WCD1", b"WCD2")]
TIED = 6 * [ON_0] + 6 * [ON_1] + [TWICE_1]
# the boats lead by turns, 7 cards of a kind behind one another
TURNS = [pair(([1, 0, 2], [0, 3, 0], [3, 0, 0], [0, 1, 2])[k // 7 % 4], 2) for k in range(64)]
DAMAGED = SHEET, ON_1[1][:-1] + b"9"
NO_STEPS = exact.make_sheet([1, 1], 0, 100)


def wide():
    """64 cards that rest on all 256 boats: the longest report."""
    book = exact.make_book([[boat] for boat in range(256)])
    sheet = exact.make_sheet([127], 360, exact.MOST_TOLERANCE)
    total = 360 * 361 // 2
    return book, 64 * [(sheet, exact.true_card(book, sheet, [total - 255] + 255 * [1], 360))]


def by_hand():
    """The book, the number of cards, and the pairs that are there to be read."""
    for pairs in (MIXED, TIED, TIED[:12], TIED[:11], TIED[::-1], EDITIONS, TURNS, TURNS[:63], [ON_0], 64 * [ON_1]):
        yield BOOK, len(pairs), pairs
    yield wide()[0], 64, wide()[1]
    for count in (0, 65, 66, 1000):
        yield BOOK, count, []
        yield BOOK[:-1], count, []
    yield b"", 1, [ON_0]
    yield exact.make_book([[0, 2001]]), 2, [DAMAGED, ON_0]
    # the first that is refused, in card order; the sheet before its card
    for pairs in ([ON_0, (NO_STEPS, b"")], [ON_0, (SHEET, b""), (NO_STEPS, ON_0[1])], [DAMAGED, (b"", b"")], [(b"", ON_0[1])], TIED + [DAMAGED], TIED[:12] + [(SHEET, ON_0[1] + b" ")],
                  [(NO_STEPS, DAMAGED[1])], 63 * [ON_0] + [DAMAGED], [(FACTORED, ON_0[1])], [ON_0, (exact.make_sheet([1], 9, 100), ON_0[1])]):
        yield BOOK, len(pairs), pairs


def drawn_shares(draws, boats, steps):
    """Shares that total steps (steps + 1) / 2 on at most so many boats as steps, drawn step by step."""
    shares = [0] * boats
    for step in range(1, steps + 1):
        shares[draws.draw(boats)] += step
    return shares


def drawn(draws):
    boats, columns = 1 + draws.draw(6), 1 + draws.draw(3)
    book = exact.make_book([draw_row(draws, columns, 10) for _ in range(boats)], bytes(draws.draw(256) for _ in range(draws.draw(4))))
    pairs = []
    for _ in range((1, 11, 12, 13, 20, 64)[draws.draw(6)] if draws.draw(2) else 1 + draws.draw(16)):
        factors = [None, [1] * columns, [1 + draws.draw(3) for _ in range(columns)]][draws.draw(3)]
        steps = 1 + draws.draw(4)
        sheet = exact.make_sheet(draw_row(draws, columns, 10), steps, 100 * draws.draw(100), bytes(draws.draw(3)), factors=factors)
        card = exact.true_card(book, sheet, drawn_shares(draws, boats, steps), steps, bytes(draws.draw(3)), (b"WCD1", b"WCD2")[draws.draw(2)])
        pairs.append((sheet, card))
    if draws.draw(3) == 0:
        at = draws.draw(len(pairs))
        sheet, card = pairs[at]
        sheet = sheet[draws.draw(2):-1] if draws.draw(3) == 0 else sheet
        place = draws.draw(len(card))
        pairs[at] = sheet, card[:place] + bytes([draws.draw(256)]) + card[place + 1:]
    return book, len(pairs), pairs


def cases():
    found = list(by_hand())
    draws = Draws(2612)
    while len(found) < COUNT:
        found.append(drawn(draws))
    return found


def file_of(found):
    parts = []
    for book, count, pairs in found:
        parts.append(struct.pack("<HHH", len(book), count, len(pairs)) + book)
        parts.extend(struct.pack("<HH", len(sheet), len(card)) + sheet + card for sheet, card in pairs)
    return b"".join(parts) + names(FOLDERS)


def listed(book, count, pairs):
    """What is printed of so many cards, of which these pairs are there to be read."""
    refusal = exact.lean_refusal(book, count, pairs)
    return exact.refused(refusal) if refusal else exact.lean_listing(book, pairs)


def kinds(found):
    """How many cases have each refusal, and how many have a stretch, or a stretch that ties."""
    counts = {}
    for case in found:
        printed = listed(*case)
        for kind in {printed.split()[1] if printed.startswith(b"refused") else b"accepted", b"stretch" if b"stretch" in printed else b""}:
            counts[kind] = counts.get(kind, 0) + 1
    return counts


def folder(pairs, book=BOOK, without=()):
    """The files of a folder, numbered from 1."""
    files = {"fleet.wbk": book}
    for number, (sheet, card) in enumerate(pairs, 1):
        files["sheet%d.wsh" % number], files["card%d.wcd" % number] = sheet, card
    return {name: content for name, content in files.items() if name not in without}


# test_lean: folders by their names. The current folder has no name.
FOLDERS = {
    "": folder(TIED),
    "none": folder([]),
    "one": folder([TWICE_1]),
    "eleven": folder(TIED[:11]),
    "twelve": folder(TIED[:12]),
    "sixty_four": folder(TURNS),
    "sixty_five": folder(TURNS + [DAMAGED]),
    "damaged_behind": folder(TIED[:12] + [DAMAGED]),
    "no_sheet": folder(MIXED, without=("sheet2.wsh",)),
    "no_card": folder(TIED, without=("card3.wcd",)),
    "editions": folder(EDITIONS),
    "counted_from_0": dict(folder(MIXED), **{"sheet0.wsh": b"", "card0.wcd": b""}),
    "sheet_first": folder([ON_0, (NO_STEPS, b"")]),
    "card_order": folder([ON_0, (SHEET, b""), (NO_STEPS, b"")]),
    "book_refused": folder(MIXED, BOOK[:-1]),
    "book_before_58": folder([], BOOK[:-1]),
    "no_book": folder(MIXED, without=("fleet.wbk",)),
    "long_card": folder([ON_0, (SHEET, ON_1[1].rjust(40001, b"x"))]),
    "longest_card": folder([ON_0, (SHEET, ON_1[1].rjust(40000, b"x"))]),
    "long_sheet": folder([(SHEET.rjust(40001, b"x"), ON_0[1])]),
}


def pairs_in(files):
    """The pairs of a folder: up to a card that is not there; a sheet that is not there is empty."""
    pairs = []
    while "card%d.wcd" % (len(pairs) + 1) in files:
        number = len(pairs) + 1
        pairs.append((files.get("sheet%d.wsh" % number, b""), files["card%d.wcd" % number]))
    return pairs


def printed(files):
    return exact.lean_listing(files.get("fleet.wbk", b""), pairs_in(files))
