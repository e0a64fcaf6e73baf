#!/usr/bin/env python3
"""Reference implementation of the mixture search over exact fractions.

The tests compare the main program with this file, so it is written on its
own: it takes the published Frank-Wolfe iteration as it stands, over
fractions.Fraction, and turns the fractions into whole numbers only at the end.

The problem: the rows of a fleet book are the vertices, the target of a sheet
is the point u, and f(x) = |x - u|^2 / 2 is minimised over the convex hull of
the rows.  The inner product counts each column as often as its factor says,

    <x, y> = sum over the columns of factor * x * y,     |x|^2 = <x, x>,

and the gradient of f in it is x - u.  With x_0 the row of boat 0 and
k = 0, 1, 2, ...

    s       = a row v where <x_k - u, v> is least: the lowest-numbered of
              those with a weight above 0, else the lowest-numbered
    x_(k+1) = (1 - gamma) x_k + gamma s,   gamma = 2 / (k + 2)

and the weights of the rows move in the same way.  After t steps, with
W = t (t + 1) / 2, the whole numbers of an answer are

    share of a boat = its weight * W           (the shares total W)
    E               = squared distance * W^2   (squared distance |x_t - u|^2)
    G               = duality gap * W^2        (greatest <x_t - u, x_t - v>)

With d the squared distance and g the duality gap, the verdict after a step is
Within where d is at most the tolerance, else Beyond where d > g and
(d - g)^2 > tolerance * d, else Spent at the last step.  Cards of the edition
WCD1 were judged by the former test of Beyond, d - 2 g > tolerance.

A caller of the search, of the card writer and of the card check may lend a
table of shares, one a step.  With the shares a_1, a_2, ... and their running
totals W_t = a_1 + ... + a_t, step t moves by gamma = a_t / W_t, and W_t is the
W of the answer and of refusal 37.  The steps that may be taken are then the
lesser of the sheet's and the number of shares: so for Spent, 34 and 38.

The same three calls may be given a released set, 32 bytes: bit b of byte k,
b = 0 the lowest, is for boat 8 k + b.  Only the released boats are then
searched: x_0 is the row of the lowest of them, and the rows v of the scores, of
the gap and of D^2 are theirs.  Shares, slots and cards number the boats as the
book does, and the share of every other boat is 0.

The three files.  All numbers are little-endian; a value is a signed 16-bit
number, every other field is unsigned.  Each file is front text (never read),
then the body, then the trailer.  "back" is the size of the body in bytes.

    fleet book  body: rows, boat 0 first, 2 bytes a value
                trailer, 12 bytes: back 4, boats 2, columns 2, "WBK1"
    sheet       body: the target, 2 bytes a value, then the factors of the
                columns, 1 byte each
                trailer, 16 bytes: back 4, columns 2, steps 2, tolerance 4,
                "WSH2"; the edition "WSH1" has no factors, and each is 1
    card        body: boat 2, share 2 for each boat with a share above zero,
                boats ascending
                trailer, 36 bytes: back 4, verdict 2, steps used 2,
                tolerance 4, E 8, G 8, boats 2, columns 2, "WCD2";
                the edition before ends in "WCD1"

Scale cells, which give the values of a sheet: a cell is (kind, first, second,
unit), the kind 1 for a net and 2 for a gross and a tare, any other for a cell
that was not weighed.  A reading is the 64-bit pattern of a double.  Gross less
tare is rounded once, as IEEE 754 subtraction is; the net's exact value is
rounded to whole kilograms, those over the unit to the value, halves to even.

The better of two cards for one book and sheet is the one whose squared
distance is the lesser fraction, of equal ones the first; what is handed back
is its body and trailer, without front text.

One book from two has the rows of the first, equal ones too, then each row of
the second that equals no row before it, and no front text.

A report of 1 to 64 cards, each with its sheet: for each boat that a card rests
on, ascending, how many do; the entries in the bodies of all cards; and for
each 12 cards in a row the boat that most of them rest on, of several the one
with the lowest number.

A refusal is a number; 0 stands for accepted.  The first that applies, in the
call's own order, is the one given back: in number order, but a sheet made of
cells has 41 to 43, cell by cell, right after 6 and before 14 and 15, 46 is
the last of a sheet's own, right after 17, 49 to 51 come before all others, and
52 right after 6.

     1  book shorter than 12 or longer than 40,000 bytes
     2  letters not WBK1
     3  boats outside 1 to 256
     4  columns outside 1 to 64
     5  back not 2 * boats * columns, or reaching before the first byte
     6  a value outside -2,000 to 2,000
    11  sheet shorter than 16 or longer than 40,000 bytes
    12  letters not WSH1 or WSH2
    13  columns not those of the book
    14  steps outside 1 to 360
    15  tolerance above 1,024,000,000
    16  back not 2 * columns (WSH2: 3 * columns), or reaching before the first
        byte
    17  a value outside -2,000 to 2,000
    21  share list shorter than the number of boats
    22  card buffer shorter than the card
    31  card shorter than 36 or longer than 40,000 bytes
    32  letters not WCD1 or WCD2
    33  boats or columns not those of the book
    34  verdict outside 1 to 3, or steps used 0 or above those that may be taken
    35  back 0, no multiple of 4, above 4 * boats, or before the first byte
    36  boats not strictly ascending, a boat not in the book or not released, or
        a share of 0
    37  more boats than steps used, or shares not totalling W
    38  E, G or the verdict not true of the shares, by the test of the letters
    39  tolerance not that of the sheet
    41  cell not weighed
    42  a reading not finite, or a net beyond 1,048,576 kilograms either way
    43  unit outside 1 to 10,000, or a value outside -2,000 to 2,000
    46  factors that total 0 or more than 64
    47  of a conversion into WSH1: a factor other than 1
    48  of a conversion: output shorter than the result, or a result longer
        than 40,000 bytes
    49  of a lent table: no share or more than 360
    50  of a lent table: a share that is 0, or whose square is above twice the
        running total with it
    51  of a lent table: a total above 64,980
    52  a released set that is empty or names a boat the book does not have
    55  columns of two books that differ
    56  a merged book of more than 256 boats
    57  book buffer shorter than the merged book
    58  cards of a report outside 1 to 64; right after 6, before any sheet or
        card is read

Use from a shell:  python3 tests/exact.py FLEET SHEET
"""

from __future__ import annotations

import struct
import sys
from dataclasses import dataclass
from fractions import Fraction
from itertools import accumulate, count, islice
from math import ceil, gcd
from operator import mul

MOST_BYTES = 40000
MOST_BOATS = 256
MOST_COLUMNS = 64
MOST_VALUE = 2000
MOST_STEPS = 360
MOST_TOLERANCE = 1024000000
MOST_FACTORS = 64
MOST_TOTAL = 64980
MOST_CARDS = 64
STRETCH = 12
MOST_SHEETS = 16
SLOTS = 256  # of a share list, for each sheet of a queue
MOST_KILOGRAMS = 1048576
MOST_UNIT = 10000

WITHIN, BEYOND, SPENT = 1, 2, 3
VERDICT_NAMES = {WITHIN: "within", BEYOND: "beyond", SPENT: "spent"}

# Trailer layouts, in the order of the fields given at the top of the file.
BOOK_TRAILER = struct.Struct("<IHH4s")
SHEET_TRAILER = struct.Struct("<IHHI4s")
CARD_TRAILER = struct.Struct("<IHHIQQHH4s")

# Bytes of a sheet's body for each column, by its letters.
SHEET_EDITIONS = {b"WSH1": 2, b"WSH2": 3}


@dataclass(frozen=True)
class Answer:
    """What a search or an accepted card gives back."""

    steps: int      # t, the steps taken
    weight: int     # W = t (t + 1) / 2, or the running total of a lent table
    distance: int   # E, the squared distance times W^2
    gap: int        # G, the duality gap times W^2
    verdict: int    # 1 Within, 2 Beyond, 3 Spent
    carried: int | None  # Within: None; Beyond: E - 2G; Spent: E - tolerance * W^2


# ---------------------------------------------------------------- the files


def split(file, layout):
    """The fields of the trailer, and the bytes that stand before the trailer."""
    before = len(file) - layout.size
    return layout.unpack(file[before:]), file[:before]


def body_of(before, back):
    """The last `back` bytes before a trailer."""
    return before[len(before) - back:]


def values_of(body):
    """The signed 16-bit values of these bytes."""
    return [value for (value,) in struct.iter_unpack("<h", body)]


def sheet_body(before, columns, letters):
    """Target and factors of a sheet; WSH1 has the factor 1 for every column."""
    body = body_of(before, SHEET_EDITIONS[letters] * columns)
    target, factors = values_of(body[:2 * columns]), list(body[2 * columns:])
    return target, factors if letters == b"WSH2" else [1] * columns


def out_of_range(values):
    """True if some value is outside -2,000 to 2,000."""
    return any(value < -MOST_VALUE or value > MOST_VALUE for value in values)


def book_refusal(book: bytes) -> int:
    """The refusal of a fleet book, 0 if it is accepted."""
    if len(book) < BOOK_TRAILER.size or len(book) > MOST_BYTES:
        return 1
    (back, boats, columns, letters), before = split(book, BOOK_TRAILER)
    if letters != b"WBK1":
        return 2
    if boats < 1 or boats > MOST_BOATS:
        return 3
    if columns < 1 or columns > MOST_COLUMNS:
        return 4
    if back != 2 * boats * columns or back > len(before):
        return 5
    if out_of_range(values_of(body_of(before, back))):
        return 6
    return 0


def sheet_refusal(sheet: bytes, columns: int) -> int:
    """The refusal of a sheet for a book of so many columns, 0 if accepted."""
    return sheet_refusal_in(sheet, columns, columns)


def sheet_refusal_in(sheet: bytes, least: int, most: int) -> int:
    """The refusal of a sheet that is to have `least` to `most` columns, 0 if accepted."""
    if len(sheet) < SHEET_TRAILER.size or len(sheet) > MOST_BYTES:
        return 11
    (back, own_columns, steps, tolerance, letters), before = split(sheet, SHEET_TRAILER)
    if letters not in SHEET_EDITIONS:
        return 12
    if own_columns < least or own_columns > most:
        return 13
    if steps < 1 or steps > MOST_STEPS:
        return 14
    if tolerance > MOST_TOLERANCE:
        return 15
    if back != SHEET_EDITIONS[letters] * own_columns or back > len(before):
        return 16
    target, factors = sheet_body(before, own_columns, letters)
    if out_of_range(target):
        return 17
    if sum(factors) < 1 or sum(factors) > MOST_FACTORS:
        return 46
    return 0


def table_refusal(table) -> int:
    """The refusal of a table of shares, 0 if it is accepted or none is lent."""
    if table is None:
        return 0
    if len(table) < 1 or len(table) > MOST_STEPS:
        return 49
    if any(share == 0 or share ** 2 > 2 * total for share, total in zip(table, accumulate(table))):
        return 50
    if sum(table) > MOST_TOTAL:
        return 51
    return 0


def released_boats(released, boats):
    """The numbers of the boats that may be used, ascending; all where no set is given."""
    if released is None:
        return list(range(boats))
    return [8 * k + b for k, byte in enumerate(released) for b in range(8) if byte >> b & 1]


def set_refusal(released, boats) -> int:
    """The refusal of a released set for a book of so many boats, 0 if it is accepted or none is given."""
    members = released_boats(released, boats)
    return 52 if not members or members[-1] >= boats else 0


def files_refusal(book: bytes, sheet: bytes, table=None, released=None) -> int:
    """The refusal of a table, a book, a released set and a sheet together, in this order."""
    refusal = table_refusal(table) or book_refusal(book)
    if refusal:
        return refusal
    (_, boats, columns, _), _ = split(book, BOOK_TRAILER)
    return set_refusal(released, boats) or sheet_refusal(sheet, columns)


def read_book(book: bytes) -> list[list[int]]:
    """The rows of an accepted fleet book, boat 0 first."""
    (back, boats, columns, _), before = split(book, BOOK_TRAILER)
    values = values_of(body_of(before, back))
    return [values[i * columns:(i + 1) * columns] for i in range(boats)]


def read_sheet(sheet: bytes) -> tuple[list[int], int, int, list[int]]:
    """Target, steps, tolerance and factors of an accepted sheet."""
    (_, columns, steps, tolerance, letters), before = split(sheet, SHEET_TRAILER)
    target, factors = sheet_body(before, columns, letters)
    return target, steps, tolerance, factors


# --------------------------------------------------------------- the method


def over_common_denominator(values):
    """Whole numerators of the fractions over their least common denominator."""
    denominator = 1
    for value in values:
        denominator = denominator * value.denominator // gcd(denominator, value.denominator)
    return [v.numerator * (denominator // v.denominator) for v in values], denominator


def dot(left, right):
    """Sum of the products of two lists of whole numbers."""
    return sum(map(mul, left, right))


def factors_or_ones(factors, columns):
    """The factors; where none are given, as on a sheet WSH1, 1 for each column."""
    return [1] * columns if factors is None else list(factors)


def measure(point, rows, target, factors=None):
    """Squared distance and duality gap of a point, and its minimizers.

    The minimizers are the rows v where <x - u, v> is least, by number.

    The gradient x - u is put over one common denominator so that the inner
    products with all rows are sums of whole numbers, and its columns are
    multiplied by their factors once.  This only saves time: the values are
    those of the fractions.
    """
    gradient = [x - u for x, u in zip(point, target)]
    slope, d = over_common_denominator(gradient)     # gradient = slope / d
    factored = list(map(mul, factors_or_ones(factors, len(target)), slope))
    scores = [dot(factored, row) for row in rows]    # <x - u, v> = score / d
    least = min(scores)
    minimizers = [i for i, score in enumerate(scores) if score == least]
    # The target is whole, so d is a common denominator of the point as well.
    place = [x.numerator * (d // x.denominator) for x in point]
    squared_distance = Fraction(dot(factored, slope), d * d)
    # The greatest <x - u, x - v> is <x - u, x> less the least <x - u, v>.
    duality_gap = Fraction(dot(factored, place), d * d) - Fraction(least, d)
    return squared_distance, duality_gap, minimizers


def next_vertex(minimizers, weights):
    """The first minimizer with a weight above 0, else the first."""
    active = [i for i in minimizers if weights[i] > 0]
    return (active or minimizers)[0]


def former_vertex(minimizers, weights):
    """The first minimizer, which runs took before."""
    return minimizers[0]


def former_test(squared_distance, duality_gap, tolerance):
    """The former test of Beyond."""
    return squared_distance - 2 * duality_gap > tolerance


def sharper_test(squared_distance, duality_gap, tolerance):
    """The sharper test of Beyond."""
    return (squared_distance > duality_gap
            and (squared_distance - duality_gap) ** 2 > tolerance * squared_distance)


# What says Beyond, by the letters of a card.
TESTS = {b"WCD1": former_test, b"WCD2": sharper_test}


def judge(squared_distance, duality_gap, tolerance, step, steps, test=sharper_test):
    """The verdict after a step, 0 if the search goes on."""
    if squared_distance <= tolerance:
        return WITHIN
    if test(squared_distance, duality_gap, tolerance):
        return BEYOND
    if step == steps:
        return SPENT
    return 0


def step_sizes(table=None):
    """gamma of each step: 2 / (k + 2) for k = 0, 1, 2, ..., or the share of a lent table over its running total."""
    if table is None:
        return (Fraction(2, k + 2) for k in count())
    return (Fraction(share, total) for share, total in zip(table, accumulate(table)))


def iterates(rows, target, factors=None, choose=next_vertex, table=None):
    """The published iteration: the number of steps, weights, point, squared
    distance and duality gap after each; all but the first are fractions.
    """
    point = [Fraction(value) for value in rows[0]]
    weights = [Fraction(0)] * len(rows)
    weights[0] = Fraction(1)
    _, _, minimizers = measure(point, rows, target, factors)
    for k, gamma in enumerate(step_sizes(table), 1):
        vertex = choose(minimizers, weights)
        rest = 1 - gamma
        point = [rest * x + gamma * s for x, s in zip(point, rows[vertex])]
        # Multiplying a weight of 0 is left out; it stays 0.
        weights = [rest * w if w else w for w in weights]
        weights[vertex] += gamma
        squared_distance, duality_gap, minimizers = measure(point, rows, target, factors)
        yield k, weights, point, squared_distance, duality_gap


def steps_allowed(steps, table=None):
    """The steps that may be taken: those asked for, or the number of shares of a lent table if that is less."""
    return steps if table is None else min(steps, len(table))


def frank_wolfe(rows, target, steps, tolerance, factors=None, test=sharper_test, choose=next_vertex, table=None):
    """The published iteration, judged after each step, up to the first verdict,
    which is given back behind the rest.
    """
    most = steps_allowed(steps, table)
    for k, weights, point, squared_distance, duality_gap in iterates(rows, target, factors, choose, table):
        verdict = judge(squared_distance, duality_gap, tolerance, k, most, test)
        if verdict:
            return k, weights, point, squared_distance, duality_gap, verdict


def squared_diameter(rows, factors=None):
    """D^2, the greatest squared distance between two rows."""
    factors = factors_or_ones(factors, len(rows[0]))
    return max(sum(f * (x - y) ** 2 for f, x, y in zip(factors, one, other)) for one in rows for other in rows)


def measures(rows, target, steps, factors=None):
    """Squared distance and duality gap after 1, 2, ..., `steps` steps, with no regard to verdicts."""
    return [(distance, gap) for _, _, _, distance, gap in islice(iterates(rows, target, factors), steps)]


def gaps_of(rows, target, steps, factors=None):
    """The duality gaps of these."""
    return [gap for _, gap in measures(rows, target, steps, factors)]


def gap_ratios(rows, target, steps, factors=None):
    """4 (K + 2) times each of these gaps, over D^2; K is `steps`, and D^2 is not 0."""
    diameter = squared_diameter(rows, factors)
    return [4 * (steps + 2) * gap / diameter for gap in gaps_of(rows, target, steps, factors)]


def whole(value):
    """The whole number a fraction is equal to; an error if there is none."""
    if value.denominator != 1:
        raise ArithmeticError("not a whole number: %s" % value)
    return value.numerator


def total_of_steps(t, table=None):
    """W after t steps."""
    return t * (t + 1) // 2 if table is None else sum(table[:t])


def step_bound(t, diameter, table=None):
    """By how much at most, after t steps, a mixture's squared distance is below the run's: 4 D^2 / (t + 2), or 2 D^2 t / W with a lent table."""
    if table is None:
        return Fraction(4 * diameter, t + 2)
    return Fraction(2 * diameter * t, total_of_steps(t, table))


def answer_of(t, squared_distance, duality_gap, verdict, tolerance, table=None):
    """The answer in whole numbers from the fractions after t steps."""
    w = total_of_steps(t, table)
    distance = whole(squared_distance * w * w)
    gap = whole(duality_gap * w * w)
    carried = None
    if verdict == BEYOND:
        carried = distance - 2 * gap
    elif verdict == SPENT:
        carried = distance - tolerance * w * w
    return Answer(t, w, distance, gap, verdict, carried)


def run(rows, target, steps, tolerance, factors=None, test=sharper_test, choose=next_vertex, table=None):
    """Answer and shares of one search."""
    t, weights, _, squared_distance, duality_gap, verdict = frank_wolfe(
        rows, target, steps, tolerance, factors, test, choose, table)
    answer = answer_of(t, squared_distance, duality_gap, verdict, tolerance, table)
    return answer, [whole(weight * answer.weight) for weight in weights]


def run_of(rows, sheet, table=None, released=None):
    """Answer and shares, one a boat of the book, of the search among the released boats."""
    members = released_boats(released, len(rows))
    answer, found = run([rows[boat] for boat in members], *read_sheet(sheet), table=table)
    shares = dict(zip(members, found))
    return answer, [shares.get(boat, 0) for boat in range(len(rows))]


# ---------------------------------------------------------------- the calls


def search(book: bytes, sheet: bytes, slots: list[int], table=None, released=None):
    """Refusal, answer (None if refused) and the share list afterwards."""
    refusal = files_refusal(book, sheet, table, released)
    if refusal:
        return refusal, None, list(slots)
    rows = read_book(book)
    if len(slots) < len(rows):
        return 21, None, list(slots)
    answer, shares = run_of(rows, sheet, table, released)
    return 0, answer, shares + list(slots[len(rows):])


def write_card(book: bytes, sheet: bytes, buffer: bytes, table=None, released=None):
    """Refusal, answer, number of bytes written and the buffer afterwards."""
    refusal = files_refusal(book, sheet, table, released)
    if refusal:
        return refusal, None, 0, bytes(buffer)
    rows = read_book(book)
    target, _, tolerance, _ = read_sheet(sheet)
    answer, shares = run_of(rows, sheet, table, released)
    card = card_bytes(answer, shares, tolerance, len(rows), len(target))
    if len(buffer) < len(card):
        return 22, None, 0, bytes(buffer)
    return 0, answer, len(card), card + bytes(buffer[len(card):])


def check_card(book: bytes, sheet: bytes, card: bytes, slots: list[int], table=None, released=None):
    """Refusal, the card's answer and the share list afterwards.

    The point is formed anew from the card's shares; no search is made.
    """
    refusal = files_refusal(book, sheet, table, released)
    if refusal:
        return refusal, None, list(slots)
    rows = read_book(book)
    if len(slots) < len(rows):
        return 21, None, list(slots)
    refusal, answer, shares = judge_card(rows, *read_sheet(sheet), card, table, released)
    if refusal:
        return refusal, None, list(slots)
    return 0, answer, shares + list(slots[len(rows):])


def judge_card(rows, target, steps, tolerance, factors, card, table=None, released=None):
    """Checks 31 to 39: refusal, answer and shares of a card."""
    most = steps_allowed(steps, table)
    members = released_boats(released, len(rows))
    if len(card) < CARD_TRAILER.size or len(card) > MOST_BYTES:
        return 31, None, None
    fields, before = split(card, CARD_TRAILER)
    back, verdict, t, own_tolerance, distance, gap, boats, columns, letters = fields
    if letters not in TESTS:
        return 32, None, None
    if boats != len(rows) or columns != len(target):
        return 33, None, None
    if verdict not in VERDICT_NAMES or t < 1 or t > most:
        return 34, None, None
    if back == 0 or back % 4 or back > 4 * boats or back > len(before):
        return 35, None, None
    entries = list(struct.iter_unpack("<HH", before[len(before) - back:]))
    last = -1
    for boat, share in entries:
        if boat <= last or boat not in members or share == 0:
            return 36, None, None
        last = boat
    w = total_of_steps(t, table)
    if len(entries) > t or sum(share for _, share in entries) != w:
        return 37, None, None
    # The point is the mean of the rows with the weights share / W.
    point = [Fraction(0)] * columns
    for boat, share in entries:
        weight = Fraction(share, w)
        point = [x + weight * value for x, value in zip(point, rows[boat])]
    squared_distance, duality_gap, _ = measure(point, [rows[boat] for boat in members], target, factors)
    # 0 where no verdict is due yet; it then differs from every card's verdict.
    true_verdict = judge(squared_distance, duality_gap, tolerance, t, most, TESTS[letters])
    if (squared_distance * w * w != distance or duality_gap * w * w != gap
            or true_verdict != verdict):
        return 38, None, None
    if own_tolerance != tolerance:
        return 39, None, None
    shares = [0] * boats
    for boat, share in entries:
        shares[boat] = share
    return 0, answer_of(t, squared_distance, duality_gap, verdict, tolerance, table), shares


def card_bytes(answer: Answer, shares: list[int], tolerance: int,
               boats: int, columns: int, letters: bytes = b"WCD2") -> bytes:
    """The card of an answer, without front text."""
    entries = [(boat, share) for boat, share in enumerate(shares[:boats]) if share]
    return make_card(entries, answer.verdict, answer.steps, tolerance,
                     answer.distance, answer.gap, boats, columns, letters=letters)


def better_card(book: bytes, sheet: bytes, first: bytes, second: bytes):
    """Refusal, and the part that is handed back: card 1 or 2, offset, length.

    The first card is checked before the second; a refusal names an empty part
    of the first.
    """
    distances = []
    for card in (first, second):
        refusal, answer, _ = check_card(book, sheet, card, [0] * MOST_BOATS)
        if refusal:
            return refusal, 1, 0, 0
        distances.append(Fraction(answer.distance, answer.weight ** 2))
    number = 2 if distances[1] < distances[0] else 1
    card = (first, second)[number - 1]
    (back, *_), before = split(card, CARD_TRAILER)
    return 0, number, len(before) - back, back + CARD_TRAILER.size


def better_part(book: bytes, sheet: bytes, first: bytes, second: bytes):
    """Refusal and the bytes that are handed back."""
    refusal, number, offset, length = better_card(book, sheet, first, second)
    return refusal, (first, second)[number - 1][offset:offset + length]


# ------------------------------------------------------- one book from two


def merge_books(first: bytes, second: bytes, buffer: bytes):
    """Refusal, the bytes written, and the buffer afterwards."""
    for book in (first, second):
        refusal = book_refusal(book)
        if refusal:
            return refusal, 0, buffer
    merged, others = read_book(first), read_book(second)
    if len(merged[0]) != len(others[0]):
        return 55, 0, buffer
    for row in others:
        if row not in merged:
            merged.append(row)
    if len(merged) > MOST_BOATS:
        return 56, 0, buffer
    book = make_book(merged)
    if len(buffer) < len(book):
        return 57, 0, buffer
    return 0, len(book), book + buffer[len(book):]


@dataclass(frozen=True)
class SheetRecord:
    """What a queue says of one sheet. The length is given, the rest written."""
    length: int
    asked: int = 0
    used: int = 0
    finished: bool = False
    distance: int = 0
    gap: int = 0
    verdict: int = 0


def queue_refusal(book: bytes, lengths, sheets: bytes, allowance: int, slots: int):
    """The number that refuses a queue, or 0, the sheets, and how many of them are accepted ahead of the one that refuses it."""
    refusal = book_refusal(book)
    if refusal:
        return refusal, [], 0
    if not 1 <= len(lengths) <= MOST_SHEETS or sum(lengths) != len(sheets):
        return 44, [], 0
    if allowance < len(lengths) or allowance > MOST_SHEETS * MOST_STEPS:
        return 45, [], 0
    parts, at = [], 0
    for length in lengths:
        parts.append(sheets[at:at + length])
        at += length
    for accepted, part in enumerate(parts):
        refusal = sheet_refusal(part, len(read_book(book)[0]))
        if refusal:
            return refusal, [], accepted
    return (21 if slots < SLOTS * len(parts) else 0), parts, len(parts)


def run_queue(book: bytes, lengths, sheets: bytes, allowance: int, slots: list[int]):
    """Refusal, the records (None if refused) and the share list afterwards. In each round every unfinished sheet, in queue order, takes
    one step of the published iteration, until all have a verdict or the allowance is gone.
    """
    refusal, parts, _ = queue_refusal(book, lengths, sheets, allowance, len(slots))
    if refusal:
        return refusal, None, list(slots)
    rows, wanted = read_book(book), [read_sheet(part) for part in parts]
    runs = [iterates(rows, target, factors) for target, _, _, factors in wanted]
    verdicts, last, left = [0] * len(parts), [None] * len(parts), allowance
    while left and not all(verdicts):
        for i, (_, steps, tolerance, _) in enumerate(wanted):
            if left and not verdicts[i]:
                last[i] = next(runs[i])
                left -= 1
                k, _, _, squared_distance, duality_gap = last[i]
                verdicts[i] = judge(squared_distance, duality_gap, tolerance, k, steps)
    records, shares = [], list(slots)
    for i, (_, steps, tolerance, _) in enumerate(wanted):
        k, weights, _, squared_distance, duality_gap = last[i]
        answer = answer_of(k, squared_distance, duality_gap, verdicts[i] or SPENT, tolerance)
        records.append(SheetRecord(lengths[i], steps, k, bool(verdicts[i]), answer.distance, answer.gap, answer.verdict))
        shares[SLOTS * i:SLOTS * i + len(rows)] = [whole(weight * answer.weight) for weight in weights]
    return 0, records, shares


VERDICT_WORDS = {WITHIN: b"within", BEYOND: b"beyond", SPENT: b"spent"}


def queue_listing(book: bytes, sheets, allowance: int) -> bytes:
    """A line a sheet of a queue that has slots enough, or the one line of its refusal."""
    refusal, records, _ = run_queue(book, [len(sheet) for sheet in sheets], b"".join(sheets), allowance, [0] * (SLOTS * MOST_SHEETS))
    if refusal:
        return refused(refusal)
    return b"".join(b"sheet %d %d %d %s %d %d\n" % (number, record.asked, record.used, VERDICT_WORDS[record.verdict] + (b"" if record.finished else b" cut"),
                                                    record.distance, record.gap) for number, record in enumerate(records, 1))


def merge_listing(first: bytes, second: bytes) -> bytes:
    """The line of one book from two: boats and columns, or the number that refuses; a buffer of 40,000 bytes serves."""
    refusal, length, written = merge_books(first, second, bytes(MOST_BYTES))
    if refusal:
        return refused(refusal)
    rows = read_book(written[:length])
    return b"fleet %d %d\n" % (len(rows), len(rows[0]))


# ------------------------------------------------- the boats cards rest on


def lean_refusal(book: bytes, count: int, pairs) -> int:
    """The refusal of a report of `count` cards: the book's, 58, then of each sheet and its card, in card order."""
    refusal = book_refusal(book)
    if refusal:
        return refusal
    if count < 1 or count > MOST_CARDS:
        return 58
    for sheet, card in pairs:
        refusal, _, _ = check_card(book, sheet, card, [0] * MOST_BOATS)
        if refusal:
            return refusal
    return 0


def body_boats(card: bytes):
    """The boats of the entries in a card's body."""
    (back, *_), before = split(card, CARD_TRAILER)
    return [boat for boat, _ in struct.iter_unpack("<HH", before[len(before) - back:])]


def lean_listing(book: bytes, pairs) -> bytes:
    """The report of the cards of some pairs of a sheet and a card, or the one line of its refusal."""
    refusal = lean_refusal(book, len(pairs), pairs)
    if refusal:
        return refused(refusal)
    bodies = [body_boats(card) for _, card in pairs]
    boats = range(len(read_book(book)))
    lines = []
    for boat in boats:
        cards = sum(boat in body for body in bodies)
        if cards:
            lines.append(b"boat %d %d\n" % (boat, cards))
    lines.append(b"total %d\n" % sum(map(len, bodies)))
    for first in range(len(bodies) - STRETCH + 1):
        entries = sum(bodies[first:first + STRETCH], [])
        lines.append(b"stretch %d %d\n" % (first + 1, max(boats, key=lambda boat: (entries.count(boat), -boat))))
    return b"".join(lines)
# ---------------------------------------------------------- working over


def best_move(rows, target, shares, factors=None):
    """The boat that gives, the boat that takes, and the best number of shares as a fraction.

    Both hold shares.  m shares of N that go from v to s move the point x by
    m / N (s - v), which brings it nearest to u where m / N is
    <x - u, v - s> / |v - s|^2.
    """
    factors = factors_or_ones(factors, len(target))
    total = sum(shares)
    point = [Fraction(sum(map(mul, shares, column)), total) for column in zip(*rows)]
    gradient = [f * (x - u) for f, x, u in zip(factors, point, target)]
    holding = [i for i, share in enumerate(shares) if share]
    score = {i: sum(map(mul, gradient, rows[i])) for i in holding}
    giver = max(holding, key=lambda i: (score[i], -i))
    taker = min(holding, key=lambda i: (score[i], i))
    if score[giver] == score[taker]:
        return giver, taker, Fraction(0)
    apart = sum(f * (v - s) ** 2 for f, v, s in zip(factors, rows[giver], rows[taker]))
    return giver, taker, total * (score[giver] - score[taker]) / apart


def moved_shares(rows, target, shares, moves, factors=None):
    """The shares after at most so many moves, and how many are made."""
    shares = list(shares)
    for made in range(moves):
        giver, taker, best = best_move(rows, target, shares, factors)
        amount = min(shares[giver], ceil(best - Fraction(1, 2)))
        if amount == 0:
            return shares, made
        shares[giver] -= amount
        shares[taker] += amount
    return shares, moves


def work_over(book: bytes, sheet: bytes, moves: int, buffer: bytes, released=None):
    """Refusal, answer, number of bytes written and the buffer afterwards."""
    def refused(number):
        return number, None, 0, bytes(buffer)

    refusal = files_refusal(book, sheet, released=released)
    if refusal:
        return refused(refusal)
    rows = read_book(book)
    target, steps, tolerance, factors = read_sheet(sheet)
    used = released_boats(released, len(rows))
    own = [rows[i] for i in used]
    run_answer, run_shares = run(own, target, steps, tolerance, factors)
    if run_answer.verdict != SPENT:
        return refused(53)
    if not 1 <= moves <= 1000:
        return refused(54)
    shares, _ = moved_shares(own, target, run_shares, moves, factors)
    point = [Fraction(sum(map(mul, shares, column)), sum(shares)) for column in zip(*own)]
    squared_distance, duality_gap, _ = measure(point, own, target, factors)
    verdict = judge(squared_distance, duality_gap, tolerance, steps, steps)
    answer = answer_of(steps, squared_distance, duality_gap, verdict, tolerance)
    slots = [0] * len(rows)
    for boat, share in zip(used, shares):
        slots[boat] = share
    card = card_bytes(answer, slots, tolerance, len(rows), len(target))
    if len(buffer) < len(card):
        return refused(22)
    return 0, answer, len(card), card + bytes(buffer[len(card):])


# ---------------------------------------------------------- the scale cells


def double(pattern: int):
    """The exact value of a double by its 64 bits, None if it is not finite."""
    exponent, fraction = pattern >> 52 & 2047, pattern & 2 ** 52 - 1
    if exponent == 2047:
        return None
    if exponent == 0:
        size = Fraction(fraction, 2 ** 1074)
    else:
        size = (2 ** 52 + fraction) * Fraction(2) ** (exponent - 1075)
    return -size if pattern >> 63 else size


def nearest_double(value: Fraction):
    """The double nearest to a fraction, None if it is not finite."""
    last = abs(value.numerator).bit_length() - value.denominator.bit_length() - 53
    if abs(value) >= Fraction(2) ** (last + 53):
        last += 1
    place = Fraction(2) ** max(last, -1074)      # what the last of 53 binary digits counts
    rounded = round(value / place) * place       # a Fraction is rounded halves to even
    return rounded if abs(rounded) < Fraction(2) ** 1024 else None


def net_of(cell):
    """The net of a weighed cell, None if it or a reading is not finite."""
    kind, first, second, _ = cell
    gross = double(first)
    if kind == 1:
        return gross
    tare = double(second)
    if gross is None or tare is None:
        return None
    return nearest_double(gross - tare)


def cell_value(cell):
    """Refusal and value of a cell."""
    kind, _, _, unit = cell
    if kind not in (1, 2):
        return 41, 0
    net = net_of(cell)
    if net is None or abs(net) > MOST_KILOGRAMS:
        return 42, 0
    if unit < 1 or unit > MOST_UNIT:
        return 43, 0
    value = round(Fraction(round(net), unit))
    if out_of_range([value]):
        return 43, 0
    return 0, value


def sheet_values(book: bytes, cells):
    """Refusal and the 64 values of 64 cells, those of the book's columns read."""
    refusal = book_refusal(book)
    if refusal:
        return refusal, [0] * MOST_COLUMNS
    (_, _, columns, _), _ = split(book, BOOK_TRAILER)
    values = []
    for cell in cells[:columns]:
        refusal, value = cell_value(cell)
        if refusal:
            return refusal, [0] * MOST_COLUMNS
        values.append(value)
    return 0, values + [0] * (MOST_COLUMNS - columns)


def scale_sheet(book: bytes, cells, steps: int, tolerance: int):
    """Refusal and the bytes of the sheet that cells, steps and a tolerance give."""
    refusal, values = sheet_values(book, cells)
    if refusal:
        return refusal, b""
    if steps < 1 or steps > MOST_STEPS:
        return 14, b""
    if tolerance > MOST_TOLERANCE:
        return 15, b""
    (_, _, columns, _), _ = split(book, BOOK_TRAILER)
    return 0, make_sheet(values[:columns], steps, tolerance)


# ------------------------------------------------------ the other edition


def other_edition(sheet: bytes, buffer: bytes):
    """A sheet in its other edition, put at the front of a buffer: refusal, edition, bytes written, the buffer afterwards."""
    refusal = sheet_refusal_in(sheet, 1, MOST_COLUMNS)
    if refusal:
        return refusal, 0, 0, buffer
    target, steps, tolerance, factors = read_sheet(sheet)
    if set(factors) != {1}:
        return 47, 0, 0, buffer
    (back, _, _, _, letters), before = split(sheet, SHEET_TRAILER)
    front, edition = before[:len(before) - back], 2 if letters == b"WSH1" else 1
    made = make_sheet(target, steps, tolerance, front, factors=factors if edition == 2 else None)
    if len(buffer) < len(made) or MOST_BYTES < len(made):
        return 48, 0, 0, buffer
    return 0, edition, len(made), made + buffer[len(made):]


def edition_line(sheet: bytes, room: int) -> bytes:
    """The line of a conversion into an output of so many bytes."""
    refusal, edition, length, _ = other_edition(sheet, bytes(room))
    return refused(refusal) if refusal else b"edition %d %d\n" % (edition, length)


def edition_detail(sheet: bytes) -> bytes:
    """What is known of the refusal of a conversion into 40,000 bytes, in one line."""
    refusal = other_edition(sheet, bytes(MOST_BYTES))[0]
    if refusal == 13:
        return b"sheet.wsh has %d columns, not 1 to 64\n" % split(sheet, SHEET_TRAILER)[0][1]
    if refusal == 47:
        column, factor = next((i, f) for i, f in enumerate(read_sheet(sheet)[3], 1) if f != 1)
        return b"sheet.wsh, column %d: the factor is %d, not 1\n" % (column, factor)
    if refusal == 48:
        return b"other.wsh would have %d bytes, more than 40000\n" % (len(sheet) + len(read_sheet(sheet)[0]))
    return b""


# -------------------------------------------------------------- the listing


def listing_lines(rows, steps, tolerance, answer, shares):
    """The listing of an answer as bytes."""
    lines = [
        "fleet %d %d" % (len(rows), len(rows[0])),
        "sheet %d %d" % (tolerance, steps),
        "%s %d %d" % (VERDICT_NAMES[answer.verdict], answer.steps, answer.weight),
        "distance %d" % answer.distance,
        "gap %d" % answer.gap,
    ]
    for boat in range(len(rows)):
        if shares[boat]:
            lines.append("boat %d %d" % (boat, shares[boat]))
    return "".join(line + "\n" for line in lines).encode("ascii")


def refused(refusal):
    """The listing of a refusal."""
    return b"refused %d\n" % refusal


def listing(book: bytes, sheet: bytes) -> bytes:
    """The listing of a search, or the one line of its refusal."""
    refusal, answer, shares = search(book, sheet, [0] * MOST_BOATS)
    if refusal:
        return refused(refusal)
    _, steps, tolerance, _ = read_sheet(sheet)
    return listing_lines(read_book(book), steps, tolerance, answer, shares)


def worked_listing(book: bytes, sheet: bytes, moves: int) -> bytes:
    """The listing of a search that is worked over with all boats, or the one line of its refusal."""
    refusal, answer, size, written = work_over(book, sheet, moves, bytes(1060))
    if refusal:
        return refused(refusal)
    shares = check_card(book, sheet, written[:size], [0] * MOST_BOATS)[2]
    _, steps, tolerance, _ = read_sheet(sheet)
    return listing_lines(read_book(book), steps, tolerance, answer, shares)


def card_listing(book: bytes, sheet: bytes, card: bytes) -> bytes:
    """The listing of a card's answer, or the one line of its refusal."""
    refusal, answer, shares = check_card(book, sheet, card, [0] * MOST_BOATS)
    if refusal:
        return refused(refusal)
    _, steps, tolerance, _ = read_sheet(sheet)
    return listing_lines(read_book(book), steps, tolerance, answer, shares)


def better_listing(book: bytes, sheet: bytes, first: bytes, second: bytes) -> bytes:
    """The listing of the better of two cards, or the one line of the refusal."""
    refusal, part = better_part(book, sheet, first, second)
    return refused(refusal) if refusal else card_listing(book, sheet, part)


# ------------------------------------------------------- builders for tests
#
# Fields left at None follow from the body; any field may be given another
# content to make a faulty file.  Nothing here is checked.


def make_book(rows, front: bytes = b"", back=None, boats=None, columns=None,
              letters: bytes = b"WBK1") -> bytes:
    """A fleet book of the given rows."""
    body = b"".join(struct.pack("<h", value) for row in rows for value in row)
    return front + body + BOOK_TRAILER.pack(
        len(body) if back is None else back,
        len(rows) if boats is None else boats,
        (len(rows[0]) if rows else 0) if columns is None else columns,
        letters)


def make_sheet(target, steps: int, tolerance: int, front: bytes = b"", back=None,
               columns=None, letters=None, factors=None) -> bytes:
    """A sheet of the given target, steps and tolerance: WSH2 where factors are given, else WSH1."""
    body = b"".join(struct.pack("<h", value) for value in target) + bytes(factors or [])
    if letters is None:
        letters = b"WSH1" if factors is None else b"WSH2"
    return front + body + SHEET_TRAILER.pack(
        len(body) if back is None else back,
        len(target) if columns is None else columns,
        steps, tolerance, letters)


def make_set(boats) -> bytes:
    """The released set of these boats."""
    released = bytearray(32)
    for boat in boats:
        released[boat // 8] |= 1 << boat % 8
    return bytes(released)


def make_card(entries, verdict: int, steps: int, tolerance: int, distance: int,
              gap: int, boats: int, columns: int, front: bytes = b"", back=None,
              letters: bytes = b"WCD2") -> bytes:
    """A card; entries are the pairs (boat, share) of its body."""
    body = b"".join(struct.pack("<HH", boat, share) for boat, share in entries)
    return front + body + CARD_TRAILER.pack(
        len(body) if back is None else back,
        verdict, steps, tolerance, distance, gap, boats, columns, letters)


def true_card(book: bytes, sheet: bytes, shares, steps: int, front: bytes = b"",
              letters: bytes = b"WCD2", table=None, released=None) -> bytes:
    """The card of these shares with the E, G and verdict that are true of them by the test of the letters; Spent where none is due yet."""
    rows = read_book(book)
    members = released_boats(released, len(rows))
    target, asked, tolerance, factors = read_sheet(sheet)
    w, most = total_of_steps(steps, table), steps_allowed(asked, table)
    point = [Fraction(dot(shares, column), w) for column in zip(*rows)]
    squared_distance, duality_gap, _ = measure(point, [rows[boat] for boat in members], target, factors)
    verdict = judge(squared_distance, duality_gap, tolerance, steps, most, TESTS[letters]) or SPENT
    answer = answer_of(steps, squared_distance, duality_gap, verdict, tolerance, table)
    entries = [(boat, share) for boat, share in enumerate(shares) if share]
    return make_card(entries, verdict, steps, tolerance, answer.distance, answer.gap,
                     len(rows), len(target), front=front, letters=letters)


# ------------------------------------------------------------ from a shell


def read_file(path):
    """The bytes of a file; none if it can't be opened."""
    try:
        with open(path, "rb") as file:
            return file.read()
    except OSError:
        return b""


def main(arguments):
    if len(arguments) != 2:
        sys.stderr.write("use: python3 tests/exact.py FLEET SHEET\n")
        return 2
    sys.stdout.buffer.write(listing(read_file(arguments[0]), read_file(arguments[1])))
    return 0


if __name__ == "__main__":
    sys.exit(main(sys.argv[1:]))
