"""Every figure of a report, computed anew from the three files as exact fractions."""
from dataclasses import dataclass
from fractions import Fraction
from operator import mul

from editions import BEYOND, SPENT, VERDICT_WORDS, WITHIN, Unreadable


@dataclass(frozen=True)
class Column:
    """What a report says of one column."""

    sheet: int
    factor: int
    mixture: Fraction
    difference: Fraction  # the mixture less the sheet
    part: Fraction        # of the squared distance; 0 where that is 0
    least: int            # of the fleet
    most: int

    @property
    def outside(self):
        """Whether the sheet lies outside what the fleet has."""
        return not self.least <= self.sheet <= self.most


@dataclass(frozen=True)
class Figures:
    """What a report says of a card."""

    shares: list        # one a boat
    weight: int         # W
    distance: int       # E
    gap: int            # G
    verdict: int
    squared: Fraction   # the squared distance, E / W²
    floor: Fraction     # no mixture's squared distance is below it, by the gap
    diameter: object    # D², None where the shares are not those that the card's steps give
    slack: object       # by the steps, how far a squared distance is above the least at most, None as before
    count: int          # the total of the factors, by which a root mean square goes
    columns: list
    alone: list         # the squared distance of each boat by itself
    nearest: int        # the boat of least squared distance, the first of several

    @property
    def by_steps(self):
        """What no mixture's squared distance is below by the steps, 0 where they say nothing."""
        return Fraction(0) if self.slack is None else max(Fraction(0), self.squared - self.slack)


def inner(factors, left, right):
    """The inner product by which distances go."""
    return sum(map(mul, map(mul, factors, left), right))


def less(left, right):
    return [a - b for a, b in zip(left, right)]


def squared_distance(factors, left, right):
    gap = less(left, right)
    return inner(factors, gap, gap)


def judged(edition, e, g, limit, last):
    """The verdict of E and G at tolerance × W² by a card's edition, 0 where there is none before the last step."""
    if e <= limit:
        return WITHIN
    if edition.beyond(e, g, limit):
        return BEYOND
    return SPENT if last else 0


def first_least(scores, allowed):
    """The lowest-numbered boat of least score, among those of least score that are allowed where there are any."""
    least = min(scores)
    boats = [i for i, score in enumerate(scores) if score == least]
    return next((i for i in boats if allowed[i]), boats[0])


def followed(rows, target, factors, steps, prefer_holding):
    """The shares after so many steps of the method. Among boats of least score the lowest-numbered is picked, or with `prefer_holding` the
    lowest-numbered of those that hold shares already."""
    shares = [0] * len(rows)
    products = {}

    def moves(boat):
        """What one share of a boat adds to the score of each boat."""
        if boat not in products:
            direction = list(map(mul, factors, less(rows[boat], target)))
            products[boat] = [sum(map(mul, direction, row)) for row in rows]
        return products[boat]

    scores = moves(0)
    for k in range(1, steps + 1):
        pick = first_least(scores, [prefer_holding and share for share in shares])
        shares[pick] += k
        start = [0] * len(rows) if k == 1 else scores
        scores = [score + k * move for score, move in zip(start, moves(pick))]
    return shares


def is_searched(rows, target, factors, steps, shares):
    """Whether shares are those that so many steps of the method give, by either way to pick among equal scores."""
    return any(followed(rows, target, factors, steps, prefer) == shares for prefer in (False, True))


def diameter(rows, factors):
    """The largest squared distance between two boats."""
    return max(squared_distance(factors, a, b) for i, a in enumerate(rows) for b in rows[:i + 1])


def step_bound(rows, sheet, steps, shares):
    """D² and 4 D² / (t + 2) where the shares are those of so many steps of the method, else None twice."""
    if not is_searched(rows, sheet.target, sheet.factors, steps, shares):
        return None, None
    widest = diameter(rows, sheet.factors)
    return widest, Fraction(4 * widest, steps + 2)


def shares_of(book, sheet, card):
    """The card's shares, one a boat, and their total."""
    columns = len(book.rows[0])
    if len(sheet.target) != columns or (card.boats, card.columns) != (len(book.rows), columns):
        raise Unreadable("the three files are not of one book")
    if any(boat >= card.boats for boat, _ in card.pairs):
        raise Unreadable("card.wcd: a boat is not in the book")
    shares = [0] * card.boats
    for boat, share in card.pairs:
        shares[boat] += share
    if sum(shares) != card.steps * (card.steps + 1) // 2 or not sum(shares):
        raise Unreadable("card.wcd: its shares do not total t (t + 1) / 2")
    return shares, sum(shares)


def column_figures(j, book, sheet, total, w, e):
    """Column j; total is the sum of share × value in it."""
    found = [row[j] for row in book.rows]
    residual = total - w * sheet.target[j]
    part = Fraction(sheet.factors[j] * residual * residual, e) if e else Fraction(0)
    return Column(sheet.target[j], sheet.factors[j], Fraction(total, w), Fraction(residual, w), part, min(found), max(found))


def figures_of(book, sheet, card):
    """All figures. What the card states of distance, gap, verdict and tolerance must be true of its shares."""
    shares, w = shares_of(book, sheet, card)
    totals = [sum(map(mul, shares, column)) for column in zip(*book.rows)]
    residual = [total - w * value for total, value in zip(totals, sheet.target)]
    e = inner(sheet.factors, residual, residual)
    g = max(inner(sheet.factors, residual, less(totals, [w * value for value in row])) for row in book.rows)
    verdict = judged(card.edition, e, g, sheet.tolerance * w * w, card.steps == sheet.steps)
    if (e, g, verdict, sheet.tolerance) != (card.distance, card.gap, card.verdict, card.tolerance):
        raise Unreadable("card.wcd: its distance, gap, verdict or tolerance is not that of its shares")
    alone = [squared_distance(sheet.factors, row, sheet.target) for row in book.rows]
    widest, slack = step_bound(book.rows, sheet, card.steps, shares)
    return Figures(shares, w, e, g, verdict, Fraction(e, w * w), card.edition.floor(e, g, w), widest, slack, sum(sheet.factors),
                   [column_figures(j, book, sheet, total, w, e) for j, total in enumerate(totals)], alone, alone.index(min(alone)))


def listing(book, sheet, card, found):
    """The lines that `mixcheck` must have printed."""
    lines = ["fleet %d %d" % (len(book.rows), len(sheet.target)), "sheet %d %d" % (sheet.tolerance, sheet.steps),
             "%s %d %d" % (VERDICT_WORDS[found.verdict], card.steps, found.weight), "distance %d" % found.distance, "gap %d" % found.gap]
    lines += ["boat %d %d" % (boat, share) for boat, share in enumerate(found.shares) if share]
    return "".join(line + "\n" for line in lines)
