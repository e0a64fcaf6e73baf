#!/usr/bin/env python3
"""What test_factor prints: drawn books with three sheets each, one without factors and two with drawn ones, two drawn tables of shares and
two drawn released sets, over fractions."""
import os
import sys

sys.path.insert(0, os.path.join(os.path.dirname(os.path.abspath(__file__)), ".."))
import exact  # noqa: E402
import generator  # noqa: E402
from printing import answer_lines, checksum, outcome_lines, slots_line  # noqa: E402

ROOM = 1060


def with_tolerance(sheet, tolerance):
    return sheet[:-8] + tolerance.to_bytes(4, "little") + sheet[-4:]


def tolerance_for(draws, book, sheet):
    kind = draws.draw(6)
    small = draws.draw(10)
    large = draws.draw(20000000)
    if kind == 3:
        return small
    if kind > 3:
        return large
    refusal, answer, _ = exact.search(book, sheet, [0] * 256)
    if refusal:
        return small
    return max(answer.distance // answer.weight ** 2 % 1000000000 + kind % 3 - 1, 0)


def found(book, sheet):
    """What the verdict of a search carries, and the listing."""
    refusal, answer, _ = exact.search(book, sheet, [7] * 256)
    carried = answer_lines(answer).split("\n", 1)[1] if not refusal else ""
    return carried + exact.listing(book, sheet).decode()


def written(book, sheet, table=None, released=None):
    """The lines of a card's writing, the buffer afterwards, and the card."""
    refusal, answer, length, buffer = exact.write_card(book, sheet, bytes([9] * ROOM), table, released)
    text = "refused %d\n" % refusal if refusal else answer_lines(answer) + "bytes %d\n" % length
    return text, buffer, buffer[:length]


def checked(book, sheets, card):
    numbers = [exact.check_card(book, sheet, card, [7] * 256)[0] for sheet in sheets]
    return "checked %d %d %d\n" % tuple(numbers)


def chosen(book, sheet, first, second):
    return "better %d %d %d %d\n" % exact.better_card(book, sheet, first, second)


def cards(book, plain, sheet, other):
    text, buffer, first = written(book, sheet)
    yield text + "sum %d\n" % checksum(buffer)
    text, _, second = written(book, plain)
    yield text
    yield "".join(checked(book, (plain, sheet, other), card) for card in (first, second))
    yield chosen(book, sheet, first, second) + chosen(book, plain, second, first)


def unread(book, sheet):
    """What the search gives where no table is lent, in short."""
    refusal, answer, _ = exact.search(book, sheet, [7] * 256)
    numbers = (answer.steps, answer.weight, answer.distance) if answer else (0, 0, 0)
    return "unread %d %d %d %d\n" % (refusal, *numbers)


def calls(book, sheet, boats, table=None, released=None):
    """The lines of a search and of its card, and the card."""
    refusal, answer, slots = exact.search(book, sheet, [7] * 256, table, released)
    text, buffer, card = written(book, sheet, table, released)
    return outcome_lines(refusal, answer) + slots_line(slots[:boats + 1]) + text + "sum %d\n" % checksum(buffer), card


def refusal_of(book, sheet, card, table=None, released=None):
    return exact.check_card(book, sheet, card, [7] * 256, table, released)[0]


def lent(book, sheet, boats, table, other):
    """A search and a card under a table; the card checked under it, without its last share, under the other and under none, and
    the card of the search without a table under the table.
    """
    text, card = calls(book, sheet, boats, table)
    yield text + unread(book, sheet)
    numbers = [refusal_of(book, sheet, card, shares) for shares in (table, table[:-1], other, None)]
    yield "under %d %d %d %d %d\n" % (*numbers, refusal_of(book, sheet, written(book, sheet)[2], table))


def among(book, whole, sheet, boats, released, other, table):
    """A search and a card under a set; the card checked under it, under the other and in the whole book under none, and the card of the
    whole book's search under the set.
    """
    text, card = calls(book, sheet, boats, table, released)
    numbers = [refusal_of(book, sheet, card, table, released), refusal_of(book, sheet, card, table, other), refusal_of(whole, sheet, card, table),
               refusal_of(book, sheet, written(whole, sheet, table)[2], table, released)]
    return text + "among %d %d %d %d\n" % tuple(numbers)


def apart(draws, plan, book, rows, sheet, table):
    """A set in a book, and in one with other rows for the boats that are not released, which must make no difference but to another set."""
    released, other = (generator.draw_set(draws, plan.boats) for _ in range(2))
    table = table if draws.draw(2) == 0 else None
    texts = []
    for own in (book, generator.other_book(draws, plan, book, rows, released)):
        texts.append(among(own, book, sheet, plan.boats, released, other, table))
    lines = [text.split("\n") for text in texts]
    unlike = [k for k, (one, two) in enumerate(zip(*lines)) if one != two and not one.startswith("among")]
    numbers = [text[-2].split(" ") for text in lines]
    if unlike or any(numbers[0][i] != numbers[1][i] for i in (1, 3, 4)):
        raise AssertionError("rows that are not released made a difference: %r" % texts)
    return "".join(texts)


def one(draws, number, plan, choices=20):
    rows, book = generator.draw_book(draws, plan)
    plain = generator.draw_sheet(draws, plan, book, rows, 0)
    sheet, other = (generator.factored_sheet(plain, generator.draw_factors(draws, plan.columns)) for _ in range(2))
    tolerance = tolerance_for(draws, book, sheet)
    plain, sheet, other = (with_tolerance(file, tolerance) for file in (plain, sheet, other))
    yield "case %d\n" % number + found(book, sheet)
    yield from cards(book, plain, sheet, other)
    table, wrong = (generator.draw_table(draws, choices) for _ in range(2))
    yield from lent(book, sheet, plan.boats, table, wrong)
    yield apart(draws, plan, book, rows, sheet, table)
    yield found(book, generator.damage(draws, sheet))


# Name, table, the target's value in both columns, steps and tolerance.
COUNTED = list(range(1, 361))
MARKED = [
    ("1 1 1", [1, 1, 1], 1, 9, 0), ("2 3", [2, 3], 1, 9, 1), ("2 1 1", [2, 1, 1], 1, 9, 3), ("2 1 1, 2 steps", [2, 1, 1], 1, 2, 2),
    ("2", [2], 5, 9, 1), ("1 2 3", [1, 2, 3], 1, 9, 1), ("1 2", [1, 2], 1, 9, 1),
    ("of no share", [], 1, 9, 1), ("1 0", [1, 0], 1, 9, 1), ("3", [3], 1, 9, 1), ("1 3", [1, 3], 1, 9, 1), ("1 1 3", [1, 1, 3], 1, 9, 1),
    ("of 360 times 1", [1] * 360, 1, 9, 1), ("of 361 times 1", [1] * 361, 1, 9, 1), ("of 1 to 360", COUNTED, 1, 9, 1),
    ("of 2 and 2 to 360", [2] + COUNTED[1:], 1, 9, 1), ("of 2 to 360", COUNTED[1:], 1, 9, 1), ("of 2 to 361", COUNTED[1:] + [361], 1, 9, 1),
]


# Name, boats, table, steps and tolerance.
SETS = [
    ("boats 1 and 2", (1, 2), None, 2, 1), ("boats 1 and 2, table 2 1", (1, 2), [2, 1], 9, 2), ("boat 0", (0,), None, 9, 1), ("boat 2", (2,), None, 9, 10),
    ("all boats", (0, 1, 2), None, 9, 1), ("no boat", (), None, 9, 1), ("boats 2 and 3", (2, 3), None, 9, 1), ("boat 8", (8,), None, 9, 1),
    ("boat 255", (255,), None, 9, 1),
]


def marked():
    book = exact.make_book([(0, 0), (4, 0), (0, 4)])
    for name, table, value, steps, tolerance in MARKED:
        yield "table %s\n" % name
        yield from lent(book, exact.make_sheet((value, value), steps, tolerance), 3, table, [1, 2, 3])


def marked_sets():
    book = exact.make_book([(0, 0), (4, 0), (0, 4)])
    for name, boats, table, steps, tolerance in SETS:
        yield name + "\n" + among(book, book, exact.make_sheet((1, 1), steps, tolerance), 3, exact.make_set(boats), None, table)


def main():
    draws = generator.Draws(25)
    out = [*marked(), *marked_sets()]
    for number in range(700):
        out += one(draws, number, generator.draw_plan(draws))
    for number in range(30):
        out += one(draws, number, generator.Plan(6, 64, 20, 8, 3))
    out += one(draws, 30, generator.Plan(256, 64, 2000, 12, 3))
    for number in range(40):
        boats = draws.draw(32) + 9
        out += one(draws, number, generator.Plan(boats, 2, 200, 9, 2))
    for number in range(6):
        out += one(draws, number, generator.Plan(7, 3, 200, 360, 1), 2)
    sys.stdout.write("".join(out))


main()
