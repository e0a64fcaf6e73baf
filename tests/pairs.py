"""Pairs of cards for one book and sheet, of either edition, written by hand and drawn: near one another, equal, behind front text, damaged,
with factors.

A file of cases has, for each, the lengths of book, sheet, first and second card in 2 bytes each, then the four files.
"""
import math
import struct

import exact
from generator import Draws, draw_factors

P = [[0, 0], [4, 0], [0, 4]]
MOST = exact.MOST_TOLERANCE
EDITIONS = [b"WCD1", b"WCD2"]


def by_hand():
    """The cards of fleet P at (1,1), whole and damaged, then two pairs that 64 bits or doubles decide wrongly."""
    book, sheet = exact.make_book(P, front=b"fleet"), exact.make_sheet([1, 1], 9, 100, front=b"sheet")
    one = exact.true_card(book, sheet, [1, 0, 0], 1)
    mixed = exact.true_card(book, sheet, [3, 1, 2], 3)
    third = exact.true_card(book, sheet, [0, 1, 2], 2, front=b"front")
    equal = exact.true_card(book, sheet, [6, 0, 0], 3, b"xy", b"WCD1")
    letters = one[:-1] + b"9"
    other_tolerance = exact.make_card([(0, 1)], 1, 1, 99, 2, 8, 3, 2)
    for first, second in ((one, mixed), (mixed, one), (third, one), (one, third), (third, third), (one, equal), (equal, one), (one, one),
                          (letters, one[:30]), (one[:30], letters), (one, one[:30]), (one, letters), (letters, one), (b"", b""),
                          (other_tolerance, one), (one, other_tolerance), (mixed, mixed[1:]), (one + b" ", mixed)):
        yield book, sheet, first, second
    yield book, exact.make_sheet([1, 1], 0, 100), letters, b""
    yield book[:-1], sheet, letters, b""
    yield b"", b"", one, mixed
    # One mixture that the two tests judge otherwise: Spent on a WCD1 card, Beyond on a WCD2 card; with the other's letters it is untrue.
    sheet = exact.make_sheet([5, 5], 1, 1)
    former, sharper = (exact.true_card(book, sheet, [0, 1, 0], 1, letters, letters) for letters in EDITIONS)
    for first, second in ((former, sharper), (sharper, former), (former, former[:-1] + b"2"), (sharper[:-1] + b"1", former)):
        yield book, sheet, first, second

    book = exact.make_book([[2000] * 64, [-2000] * 64])
    sheet = exact.make_sheet([2000] * 64, 360, MOST)
    first, second = exact.true_card(book, sheet, [19, 64601], 359), exact.true_card(book, sheet, [20, 64960], 360)
    yield book, sheet, first, second
    yield book, sheet, second, first
    book, sheet = axes(5, 2000)
    first = exact.true_card(book, sheet, [48855, 16004, 112, 6, 2, 1], 360)
    second = exact.true_card(book, sheet, [48092, 15739, 64, 5, 2, 1], 357)
    yield book, sheet, first, second
    yield book, sheet, second, first


def by_factors():
    """Two mixtures that are as far by the factors 1 1, by factors that prefer one or the other, each card also by another sheet's factors."""
    book = exact.make_book(P)
    for factors in (None, (1, 1), (1, 2), (2, 1), (1, 0), (0, 1), (64, 0), (31, 33)):
        sheet = exact.make_sheet([1, 1], 9, 1000, factors=factors)
        one, other = exact.true_card(book, sheet, [2, 0, 1], 2), exact.true_card(book, sheet, [2, 1, 0], 2, front=b"front")
        yield book, sheet, one, other
        yield book, sheet, other, one
        yield book, exact.make_sheet([1, 1], 9, 1000, factors=(1, 2)), one, other
    yield book, exact.make_sheet([1, 1], 9, 1000, factors=(0, 0)), b"", b""
    yield book, exact.make_sheet([1, 1], 9, 1000, factors=(64, 1)), one, other


def axes(columns, value):
    """A book of the zero row and one boat on each axis, with the target 0: E is value² times the sum of the squared shares on the axes."""
    rows = [[0] * columns] + [[value * (i == j) for j in range(columns)] for i in range(columns)]
    return exact.make_book(rows), exact.make_sheet([0] * columns, 360, MOST)


def squares(total, count):
    """Numbers whose squares have this total, greatest first; None where taking the greatest each time needs more than `count`."""
    found = []
    while total and len(found) < count:
        found.append(math.isqrt(total))
        total -= found[-1] ** 2
    return None if total else found + [0] * (count - len(found))


def close(draws):
    """Shares on five axes after t and u steps whose squared distances differ as little as these steps allow; None where none is found."""
    t, u = 300 + draws.draw(61), 300 + draws.draw(61)
    v, w = exact.total_of_steps(t), exact.total_of_steps(u)
    common = math.gcd(v, w)
    a, b = (v // common) ** 2, (w // common) ** 2
    difference = draws.draw(9) - 4
    if a == 1 or b == 1:
        return None
    total = difference * pow(b, -1, a) % a + a * draws.draw(v * v // (4 * a))
    one, other = squares(total, 5), squares((total * b - difference) // a, 5)
    if not one or not other or sum(one) > v or sum(other) > w:
        return None
    return t, [v - sum(one)] + one, u, [w - sum(other)] + other


def near(draws):
    """Such a pair of cards, each behind some front text."""
    found = None
    while not found:
        found = close(draws)
    t, one, u, other = found
    book, sheet = axes(5, [1, 7, 2000][draws.draw(3)])
    yield book, sheet, drawn_card(draws, book, sheet, one, t), drawn_card(draws, book, sheet, other, u)


def drawn_card(draws, book, sheet, shares, steps):
    front = bytes(draws.draw(256) for _ in range(draws.draw(4)))
    return exact.true_card(book, sheet, shares, steps, front, EDITIONS[draws.draw(len(EDITIONS))])


def proportional(draws):
    """k of v shares on one boat against k w / v of w, the same mixture, or a share beside it; or against any number of shares."""
    columns = 1 + draws.draw(64)
    book = exact.make_book([[2000] * columns, [-2000] * columns])
    sheet = exact.make_sheet([2000] * columns, 360, MOST)
    t, u = 30 + draws.draw(331), 30 + draws.draw(331)
    v, w = exact.total_of_steps(t), exact.total_of_steps(u)
    k = v // math.gcd(v, w) * draws.draw(math.gcd(v, w) + 1)
    beside = min(max(k * w // v + draws.draw(3) - 1, 0), w)
    other = draws.draw(w + 1) if draws.draw(3) == 0 else beside
    yield book, sheet, drawn_card(draws, book, sheet, [v - k, k], t), drawn_card(draws, book, sheet, [w - other, other], u)


def small(draws):
    """Drawn shares of a small drawn book; at a low tolerance a card may be refused."""
    columns, boats = 1 + draws.draw(3), 1 + draws.draw(4)
    book = exact.make_book([[draws.draw(21) - 10 for _ in range(columns)] for _ in range(boats)])
    sheet = exact.make_sheet([draws.draw(21) - 10 for _ in range(columns)], 4 + draws.draw(3), [MOST, 200, 20][draws.draw(3)])
    cards = []
    for _ in range(2):
        steps = 4 + draws.draw(3)
        shares = [0] * boats
        for share in range(1, steps + 1):
            shares[draws.draw(boats)] += share
        cards.append(drawn_card(draws, book, sheet, shares, steps))
    yield book, sheet, cards[0], cards[1]


def factored(draws):
    """Drawn shares of a small drawn book by a sheet with drawn factors."""
    for book, sheet, _, _ in small(draws):
        target, steps, tolerance, _ = exact.read_sheet(sheet)
        sheet = exact.make_sheet(target, steps, tolerance, factors=draw_factors(draws, len(target)))
        cards = []
        for _ in range(2):
            shares = [0] * len(exact.read_book(book))
            for share in range(1, 5):
                shares[draws.draw(len(shares))] += share
            cards.append(drawn_card(draws, book, sheet, shares, 4))
        yield book, sheet, cards[0], cards[1]


def damaged(draws):
    """A small pair with a byte of the first card, the second or both changed, or a card cut."""
    for book, sheet, *cards in small(draws):
        kind = draws.draw(4)
        for i in (0, 1) if kind == 3 else (kind % 2,):
            at, number = draws.draw(len(cards[i])), draws.draw(256)
            cards[i] = cards[i][:at] if draws.draw(8) == 0 else cards[i][:at] + bytes([number]) + cards[i][at + 1:]
        yield book, sheet, cards[0], cards[1]


def cases():
    """All cases, the drawn ones in turn."""
    yield from by_hand()
    draws = Draws(14)
    for _ in range(60):
        for kind in (near, proportional, small, damaged):
            yield from kind(draws)
    yield from by_factors()
    draws = Draws(25)
    for _ in range(80):
        yield from factored(draws)


def file_of(files):
    """The file of these cases."""
    return b"".join(struct.pack("<HHHH", *map(len, case)) + b"".join(case) for case in files)


def counts():
    """How many cases are refused, give the first or the second card, have equal distances, and are decided otherwise by doubles or by
    products that wrap at 64 bits."""
    found = dict.fromkeys(("refused", "first", "second", "equal", "doubles", "wrapped"), 0)
    for book, sheet, first, second in cases():
        refusal, number, _, _ = exact.better_card(book, sheet, first, second)
        if refusal:
            found["refused"] += 1
            continue
        a, b = (exact.check_card(book, sheet, card, [0] * exact.MOST_BOATS)[1] for card in (first, second))
        left, right = b.distance * a.weight ** 2, a.distance * b.weight ** 2
        found["second" if number == 2 else "first"] += 1
        found["equal"] += left == right
        found["doubles"] += (b.distance / b.weight ** 2 < a.distance / a.weight ** 2) != (left < right)
        found["wrapped"] += (left % 2 ** 64 < right % 2 ** 64) != (left < right)
    return found
