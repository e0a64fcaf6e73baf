"""The three files byte by byte, and what their editions differ in. An edition is known by its letters and stands in one table here.

The files come from `mixcheck`, which has accepted them; what is tested here again keeps a report from reading past a file's parts.
docs/formats.md and docs/card.md describe the same bytes.
"""
import struct
from dataclasses import dataclass
from fractions import Fraction

WITHIN, BEYOND, SPENT = 1, 2, 3
VERDICT_WORDS = {WITHIN: "within", BEYOND: "beyond", SPENT: "spent"}

BOOK_TRAILER = struct.Struct("<IHH4s")
SHEET_TRAILER = struct.Struct("<IHHI4s")
CARD_TRAILER = struct.Struct("<IHHIQQHH4s")


class Unreadable(Exception):
    """A file that this report cannot read, with what is wrong."""


# ---------------------------------------------------------------- books and sheets


@dataclass(frozen=True)
class BookEdition:
    """What a book's letters say."""

    layout: str  # the bytes, in words


BOOKS = {
    b"WBK1": BookEdition("the rows, the one that is listed as boat 0 first, 2 bytes a value (signed), then 12 bytes: bytes of the rows (4), boats (2), columns (2), WBK1"),
}


@dataclass(frozen=True)
class SheetEdition:
    """What a sheet's letters say."""

    factor_bytes: int  # of a column, after the values; where there are none every factor is 1
    layout: str


SHEET_END = "then 16 bytes: bytes before them that count (4), columns (2), steps (2), tolerance (4), "
SHEETS = {
    b"WSH1": SheetEdition(0, "the target, 2 bytes a value (signed), " + SHEET_END + "WSH1"),
    b"WSH2": SheetEdition(1, "the target, 2 bytes a value (signed), a byte a column for its factor, " + SHEET_END + "WSH2"),
}


# ---------------------------------------------------------------- cards


def former_beyond(e, g, limit):
    """Whether a card is Beyond; `limit` is tolerance × W²."""
    return e - 2 * g > limit


def former_floor(e, g, w):
    """What no mixture's squared distance is below."""
    return max(Fraction(0), Fraction(e - 2 * g, w * w))


def sharper_beyond(e, g, limit):
    return e > g and (e - g) ** 2 > limit * e


def sharper_floor(e, g, w):
    return Fraction((e - g) ** 2, w * w * e) if e > g else Fraction(0)


@dataclass(frozen=True)
class CardEdition:
    """What a card's letters say."""

    beyond: object  # of E, G and tolerance × W²: whether the card is Beyond
    floor: object   # of E, G and W: what no mixture's squared distance is below
    bound: str      # the floor in words
    why: tuple      # why it is one: the last lines of an argument that begins with what E and G are
    layout: str


FORMER_WHY = ("With d = p - m, |p - u|² = E / W² + 2 <m - u, d> + |d|², and |d|² ≥ 0.",
              "Here <m - u, d> = - <r, W (m - p)> / W² ≥ - G / W². So |p - u|² ≥ (E - 2 G) / W².")
SHARPER_WHY = ("So <r, W (p - u)> = <r, r> - <r, W (m - p)> ≥ E - G.",
               "By Cauchy-Schwarz it is ≤ √E W |p - u|. So where E > G, |p - u|² ≥ (E - G)² / (W² E).")
CARD_BYTES = ("boat (2, counted from 0 as in the listing) and share (2) for each boat with shares, then 36 bytes: bytes of these pairs (4), verdict (2; 1 within, 2 beyond, 3 spent), "
              "steps t (2), tolerance (4), E (8), G (8), boats (2), columns (2), ")
CARDS = {
    b"WCD1": CardEdition(former_beyond, former_floor, "(E - 2 G) / W²", FORMER_WHY, CARD_BYTES + "WCD1"),
    b"WCD2": CardEdition(sharper_beyond, sharper_floor, "(E - G)² / (W² E) where E is above G, else 0", SHARPER_WHY, CARD_BYTES + "WCD2"),
}


# ---------------------------------------------------------------- reading


@dataclass(frozen=True)
class Book:
    edition: BookEdition
    letters: str
    front: bytes
    rows: list


@dataclass(frozen=True)
class Sheet:
    edition: SheetEdition
    letters: str
    front: bytes
    target: list
    factors: list
    steps: int
    tolerance: int


@dataclass(frozen=True)
class Card:
    edition: CardEdition
    letters: str
    front: bytes
    pairs: list  # boat and share
    verdict: int
    steps: int
    tolerance: int
    distance: int
    gap: int
    boats: int
    columns: int


def parts(name, content, trailer, editions):
    """Front text, body, the trailer's fields but the first and the last, edition and letters."""
    if len(content) < trailer.size:
        raise Unreadable("%s is too short" % name)
    back, *fields, letters = trailer.unpack(content[-trailer.size:])
    if letters not in editions:
        raise Unreadable("%s: this report knows %s, not the letters %r" % (name, " and ".join(k.decode() for k in editions), letters))
    start = len(content) - trailer.size - back
    if start < 0:
        raise Unreadable("%s: its parts do not fit" % name)
    return content[:start], content[start:start + back], fields, editions[letters], letters.decode()


def values(body):
    """Signed values of 2 bytes."""
    return [value for (value,) in struct.iter_unpack("<h", body)]


def read_book(name, content):
    front, body, (boats, columns), edition, letters = parts(name, content, BOOK_TRAILER, BOOKS)
    if boats < 1 or columns < 1 or len(body) != 2 * boats * columns:
        raise Unreadable("%s: its parts do not fit" % name)
    flat = values(body)
    return Book(edition, letters, front, [flat[i * columns:(i + 1) * columns] for i in range(boats)])


def read_sheet(name, content):
    front, body, (columns, steps, tolerance), edition, letters = parts(name, content, SHEET_TRAILER, SHEETS)
    if len(body) != (2 + edition.factor_bytes) * columns:
        raise Unreadable("%s: its parts do not fit" % name)
    factors = list(body[2 * columns:]) if edition.factor_bytes else [1] * columns
    return Sheet(edition, letters, front, values(body[:2 * columns]), factors, steps, tolerance)


def read_card(name, content):
    front, body, fields, edition, letters = parts(name, content, CARD_TRAILER, CARDS)
    if len(body) % 4:
        raise Unreadable("%s: its parts do not fit" % name)
    return Card(edition, letters, front, list(struct.iter_unpack("<HH", body)), *fields)
