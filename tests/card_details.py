"""What is known of a refusal of a card, by tests/exact.py, with the cases of test_card_details.

A file of cases has, for each, the lengths of a book, a sheet and a card in 3 bytes each, and the three files.
"""
import struct

import exact
import generator
from generator import filled

MOST_NAME = 100
# The number of each line, with a word that no other line of it has.
KINDS = {
    31: (b"fewer", b"more"), 32: (b"end in",), 33: (b"boats", b"columns"), 34: (b"verdict", b"steps"), 35: (b"multiple", b"trailer"),
    36: (b"above", b"not in", b"share of 0"), 37: (b"more than its", b"total"), 38: (b"distance", b"gap", b"verdict", b"Spent"), 39: (b"tolerance",),
}


def wrong_entry(entries, boats):
    """The first entry that is out of order, not in the book or without a share: its place from 1, its boat and what is wrong."""
    last = -1
    for place, (boat, share) in enumerate(entries, 1):
        if boat <= last:
            return place, boat, "is not above the boat before it"
        if boat >= boats:
            return place, boat, "is not in fleet.wbk"
        if share == 0:
            return place, boat, "has a share of 0"
        last = boat
    return None


def true_numbers(book, sheet, card, entries):
    """Distance, gap and verdict that are true of the shares; Spent where none is due yet."""
    shares = [dict(entries).get(boat, 0) for boat in range(len(exact.read_book(book)))]
    fields, _ = exact.split(exact.true_card(book, sheet, shares, exact.split(card, exact.CARD_TRAILER)[0][2], letters=card[-4:]), exact.CARD_TRAILER)
    return fields[4], fields[5], fields[1]


def line_of(book, sheet, card, number):
    """The words behind the name."""
    if number == 31:
        return " has %d bytes, fewer than 36" % len(card) if len(card) < 36 else " has more than 40000 bytes"
    if number == 32:
        return " does not end in WCD1 or WCD2"
    rows, (target, asked, tolerance, _) = exact.read_book(book), exact.read_sheet(sheet)
    (back, verdict, steps, own_tolerance, distance, gap, boats, columns, _), before = exact.split(card, exact.CARD_TRAILER)
    if number == 33:
        same = boats == len(rows)
        return " has %d %s, fleet.wbk %d" % ((columns, "columns", len(target)) if same else (boats, "boats", len(rows)))
    if number == 34:
        return " has %d steps, sheet.wsh %d" % (steps, asked) if 1 <= verdict <= 3 else " has the verdict %d, not from 1 to 3" % verdict
    if number == 35:
        most = ", more than the %d bytes before its trailer" % len(before) if back > len(before) else ", not a multiple of 4 from 4 to %d" % (4 * len(rows))
        return " has the back count %d" % back + most
    entries = list(struct.iter_unpack("<HH", before[len(before) - back:]))
    if number == 36:
        return ", entry %d: boat %d %s" % wrong_entry(entries, len(rows))
    if number == 37:
        if len(entries) > steps:
            return " has shares of %d boats, more than its %d steps" % (len(entries), steps)
        return " has shares of total %d, not %d" % (sum(share for _, share in entries), steps * (steps + 1) // 2)
    if number == 39:
        return " has the tolerance %d, sheet.wsh %d" % (own_tolerance, tolerance)
    for word, own, true in zip(("distance", "gap", "verdict"), (distance, gap, verdict), true_numbers(book, sheet, card, entries)):
        if own != true:
            return " has the %s %d, its shares %d" % (word, own, true)
    return " is Spent at step %d, sheet.wsh has %d steps" % (steps, asked)


def refusal_of(book, sheet, card):
    return exact.check_card(book, sheet, card, [0] * 256)[0]


def card_detail(name, book, sheet, card, number):
    """The line, or none where another number or none refuses the card, or the number is of a book or a sheet."""
    if number not in KINDS or refusal_of(book, sheet, card) != number:
        return b""
    return name[:MOST_NAME] + line_of(book, sheet, card, number).encode() + b"\n"


def missing(found):
    """The kinds of lines that no case has."""
    lines = [(refusal_of(*case), card_detail(b"", *case, refusal_of(*case))) for case in found]
    return [(number, word) for number, words in KINDS.items() for word in words if not any(n == number and word in line for n, line in lines)]


# ---- cases by hand: the fleet of test_hand_cards, equal shares with a change or two

FLEET_P = [[0, 0], [4, 0], [0, 4]]
EQUAL = [(0, 2), (1, 2), (2, 2)]
BOOK = exact.make_book(FLEET_P)


def sheet_of(steps=9, tolerance=1, target=1):
    return exact.make_sheet([target, target], steps, tolerance)


def card_of(entries=EQUAL, verdict=1, steps=3, tolerance=1, distance=8, gap=32, boats=3, columns=2, **more):
    return exact.make_card(entries, verdict, steps, tolerance, distance, gap, boats, columns, **more)


def cards():
    true = card_of()
    yield true
    for length in (0, 1, 35, 36, 47):
        yield true[len(true) - length:]
    yield from (true.rjust(length, b"x") for length in (40000, 40001))
    yield from (card_of(letters=letters) for letters in (b"WCD0", b"WCD3", b"WSH1", bytes(4), b"WCD1"))
    yield from (card_of(boats=boats, columns=columns) for boats, columns in ((2, 2), (65535, 2), (0, 0), (3, 3), (3, 0), (4, 1)))
    yield from (card_of(verdict=verdict, steps=steps) for verdict, steps in ((0, 3), (4, 3), (65535, 0), (1, 0), (1, 10), (3, 65535)))
    yield from (card_of(back=back) for back in (0, 4, 8, 11, 13, 16, 24, 65536, 2 ** 32 - 1))
    yield from (card_of(back=back, front=b"text of the yard") for back in (0, 10, 16, 28, 29))
    yield from (card_of(entries, front=b"f") for entries in (
        [(1, 2), (0, 2), (2, 2)], [(0, 2), (0, 2), (2, 2)], [(0, 2), (1, 2), (3, 2)], [(3, 2)], [(65535, 0)], [(0, 0), (1, 4), (2, 2)], [(0, 3), (1, 0), (1, 3)],
        [(2, 3), (2, 0)], [(2, 3), (3, 3)], [(0, 2), (1, 2), (2, 0)]))
    yield from (card_of(entries) for entries in ([(0, 2), (1, 2), (2, 3)], [(0, 1), (1, 2), (2, 2)], [(0, 1)], [(0, 65535), (1, 65535), (2, 65535)]))
    yield card_of([(0, 1), (1, 1), (2, 1)], steps=2, distance=2, gap=8)
    yield card_of([(0, 1), (1, 1)], steps=1)
    yield from (card_of(distance=distance) for distance in (0, 7, 9, 8 + 2 ** 32, 2 ** 64 - 1))
    yield from (card_of(gap=gap, tolerance=tolerance) for gap, tolerance in ((31, 1), (33, 2), (2 ** 63, 1)))
    yield from (card_of(verdict=verdict) for verdict in (2, 3))
    yield card_of([(1, 1)], verdict=3, steps=1, distance=10, gap=16)
    yield from (card_of(tolerance=tolerance) for tolerance in (0, 2, 2 ** 32 - 1))


def by_hand():
    """(book, sheet, card) of each case."""
    for card in cards():
        yield BOOK, sheet_of(), card
    # other sheets, with factors too, and files that are refused
    true = card_of()
    for sheet in (sheet_of(steps=3), sheet_of(steps=2), sheet_of(tolerance=0), sheet_of(target=0), exact.make_sheet([1, 1], 9, 1, factors=[1, 2]),
                  exact.make_sheet([1, 1, 1], 9, 1), sheet_of(steps=0), b""):
        yield BOOK, sheet, true
    for book in (exact.make_book([*FLEET_P, [1, 1]]), exact.make_book([row + [0] for row in FLEET_P]), b"", exact.make_book([[0, 2001], [4, 0], [0, 4]])):
        yield book, sheet_of(), true
    # a full book, and shares of all its boats
    rows = [[i % 7, i // 7] for i in range(256)]
    book, sheet = exact.make_book(rows), exact.make_sheet([3, 3], 360, 0)
    yield book, sheet, card_of([(i, 1) for i in range(256)], boats=256, steps=360)
    yield book, sheet, card_of([(i, 1) for i in range(256)], boats=256, steps=255)
    yield book, sheet, card_of([(i, 1) for i in range(255)] + [(256, 1)], boats=256, steps=360)
    yield book, sheet, exact.true_card(book, sheet, [64980 - 255] + [1] * 255, 360)[:-24] + bytes(8) + exact.true_card(book, sheet, [64980 - 255] + [1] * 255, 360)[-16:]


# ---- drawn cases: cards of a search, with a number changed

COUNT = 400


def changed(draws, number):
    """Another number in the place of this one: near, twice, 0, or any."""
    return (number + 1, abs(number - 1), 2 * number, 0, draws.draw(65536))[draws.draw(5)]


def drawn_case(draws):
    plan = generator.draw_plan(draws)
    rows, book = generator.draw_book(draws, plan)
    sheet = generator.draw_sheet(draws, plan, book, rows, draws.draw(1000))
    if draws.draw(3) == 0:
        sheet = generator.factored_sheet(sheet, [1 + draws.draw(3) for _ in range(plan.columns)])
    _, _, length, buffer = exact.write_card(book, sheet, bytes(1060))
    fields, before = exact.split(buffer[:length], exact.CARD_TRAILER)
    entries = list(struct.iter_unpack("<HH", before[len(before) - fields[0]:]))
    back, verdict, steps, tolerance, distance, gap, boats, columns, letters = fields
    numbers = [verdict, steps, tolerance, distance, gap, boats, columns]
    kind = draws.draw(12)
    if kind < 7:
        numbers[kind] = changed(draws, numbers[kind]) % (65536 if kind in (0, 1, 5, 6) else 2 ** 32)
    elif kind < 9:
        place = draws.draw(len(entries))
        entries[place] = tuple(changed(draws, number) % 65536 if part == kind - 7 else number for part, number in enumerate(entries[place]))
    elif kind == 9:
        entries.append((draws.draw(plan.boats + 1), 1 + draws.draw(3)))
    elif kind == 10:
        back = changed(draws, back)
    front = generator.draw_front(draws, draws.draw(5))
    card = exact.make_card(entries, *numbers, front=front, back=back if kind == 10 else None, letters=letters if draws.draw(10) else b"WCD1")
    return book, sheet, card if draws.draw(20) else card[draws.draw(len(card)):]


def cases():
    return filled(by_hand(), drawn_case, 47, COUNT)


def file_of(found):
    return b"".join(b"".join(len(file).to_bytes(3, "little") for file in case) + b"".join(case) for case in found)
