#!/usr/bin/env python3
"""Write the files that the programs and test programs are run on, crates/NAME/data.

The cards of crates/test_edition/data are not written here: the program filed them before WCD2, and they are kept as they are.
"""
import os
import sys

HERE = os.path.dirname(os.path.abspath(__file__))
sys.path.insert(0, HERE)
from exact import make_book, make_card, make_sheet, true_card, write_card  # noqa: E402
from generator import Draws, draw_row  # noqa: E402
import card_details  # noqa: E402
import csv_books  # noqa: E402
import csv_sheets  # noqa: E402
import details  # noqa: E402
import leanings  # noqa: E402
import merges  # noqa: E402
import origins  # noqa: E402
import queues  # noqa: E402
import pairs  # noqa: E402
import sheet_editions  # noqa: E402
import workings  # noqa: E402

CRATES = os.path.join(HERE, "..", "crates")

P = [[0, 0], [4, 0], [0, 4]]
LINE = [[-2000], [2000]]

# test_search: the marked sheets and the limits of the files.
FILES = {
    "p.wbk": make_book(P),
    "a.wsh": make_sheet([1, 1], steps=9, tolerance=1),
    "b.wsh": make_sheet([1, 1], steps=3, tolerance=1),
    "c.wsh": make_sheet([1, 1], steps=2, tolerance=1),
    "d.wsh": make_sheet([5, 5], steps=9, tolerance=1),
    "e.wbk": make_book([[0, 0]]),
    "e.wsh": make_sheet([3, 4], steps=1, tolerance=25),
    "f.wsh": make_sheet([3, 4], steps=1, tolerance=24),
    "g.wbk": make_book([[0, 0], [0, 0]]),
    "g.wsh": make_sheet([0, 0], steps=1, tolerance=0),
    "h.wbk": make_book(LINE),
    "h.wsh": make_sheet([2000], steps=1, tolerance=0),
    "i.wsh": make_sheet([0], steps=2, tolerance=0),
    "j.wsh": make_sheet([1, 1], steps=0, tolerance=1),
    "k.wsh": make_sheet([1, 1], steps=2, tolerance=1, factors=[1, 2]),
    "l.wsh": make_sheet([1, 1], steps=9, tolerance=3, factors=[1, 2]),
    "m.wbk": make_book([[0, 0], [0, 4]]),
    "m.wsh": make_sheet([3, 1], steps=5, tolerance=8, factors=[1, 0]),
    "n.wsh": make_sheet([3, 1], steps=5, tolerance=9, factors=[1, 0]),
    "o.wsh": make_sheet([1, 1], steps=2, tolerance=8, factors=[64, 0]),
    "p.wsh": make_sheet([1, 1], steps=2, tolerance=7, factors=[64, 0]),
    "q.wsh": make_sheet([1, 1], steps=9, tolerance=1, factors=[1, 1]),
    "r.wbk": make_book([[2000]]),
    "r.wsh": make_sheet([-2000], steps=1, tolerance=1024000000, factors=[64]),
    "s.wsh": make_sheet([-2000], steps=1, tolerance=1023999999, factors=[64]),
    "t.wsh": make_sheet([1, 1], steps=9, tolerance=1, factors=[0, 0]),
    "boats256.wbk": make_book([[i - 128] for i in range(256)]),
    "boats257.wbk": make_book([[i - 128] for i in range(257)]),
    "columns1.wsh": make_sheet([3], steps=5, tolerance=0),
    "columns64.wbk": make_book([list(range(64)), list(range(64, 0, -1))]),
    "columns64.wsh": make_sheet([32] * 64, steps=7, tolerance=0),
    "columns65.wbk": make_book([list(range(65)), list(range(65, 0, -1))]),
    "steps360.wsh": make_sheet([1], steps=360, tolerance=0),
    "steps361.wsh": make_sheet([1], steps=361, tolerance=0),
    "value2001.wbk": make_book([[-2000], [2001]]),
    "low2001.wbk": make_book([[-2001], [2000]]),
    "value2001.wsh": make_sheet([-2001], steps=1, tolerance=0),
    "tolerance.wsh": make_sheet([0], steps=1, tolerance=1024000000),
    "tolerance1.wsh": make_sheet([0], steps=1, tolerance=1024000001),
}


def searched_card(book, sheet):
    """The card of a search."""
    _, _, length, written = write_card(book, sheet, bytes(1060))
    return written[:length]


def folder(book=None, sheet=None, card=None, first=None, second=None, better=None):
    """The files of a folder, under the names that the programs read and write."""
    files = {"fleet.wbk": book, "sheet.wsh": sheet, "card.wcd": card, "first.wcd": first, "second.wcd": second, "better.wcd": better}
    return {name: content for name, content in files.items() if content is not None}


BOOK = FILES["p.wbk"]
SHEET = FILES["a.wsh"]
CARD = searched_card(BOOK, SHEET)
# Two shares of each boat, which is true of BOOK and SHEET and which no search finds.
HAND_CARD = make_card([(0, 2), (1, 2), (2, 2)], verdict=1, steps=3, tolerance=1, distance=8, gap=32, boats=3, columns=2)
# One share more than 3 steps have.
WRONG_CARD = make_card([(0, 2), (1, 2), (2, 3)], verdict=1, steps=3, tolerance=1, distance=8, gap=32, boats=3, columns=2)
LARGER = make_book([[(i * i * 37 + j * 101 + i * j * 7) % 331 - 165 for j in range(5)] for i in range(12)], front=b"twelve boats\n")
LARGER_SHEET = make_sheet([3, -20, 15, 0, 40], steps=40, tolerance=9, front=b"five columns\n")

# Two cards of PAIR_SHEET: boat 0 alone, of squared distance 2, and HAND_CARD's shares, of 2 / 9, though its E is the greater. Three
# steps on boat 0, on a card of the edition before, are as near as one.
PAIR_SHEET = make_sheet([1, 1], steps=9, tolerance=100)
FARTHER = true_card(BOOK, PAIR_SHEET, [1, 0, 0], 1)
NEARER = true_card(BOOK, PAIR_SHEET, [2, 2, 2], 3, front=b"front text")
AS_FAR = true_card(BOOK, PAIR_SHEET, [6, 0, 0], 3, b"more front text", b"WCD1")

# Two cards of one sheet whose factors decide: shares 2 0 1 lie 3 off in the first column, 2 1 0 in the second, which counts half as much.
FACTOR_SHEET = make_sheet([1, 1], steps=9, tolerance=1000, factors=[2, 1], front=b"with factors")
FIRST_OFF = true_card(BOOK, FACTOR_SHEET, [2, 0, 1], 2)
SECOND_OFF = true_card(BOOK, FACTOR_SHEET, [2, 1, 0], 2, front=b"front text")

# test_program: folders by their names. The current folder has no name. In `long` each file is replaced by longer ones.
FOLDERS = {
    "": folder(BOOK, SHEET),
    "larger": folder(LARGER, LARGER_SHEET),
    "beyond": folder(BOOK, FILES["d.wsh"], b"an older card"),
    "spent": folder(BOOK, FILES["c.wsh"], b"front text" + searched_card(BOOK, FILES["c.wsh"])),
    "by_hand": folder(BOOK, SHEET, HAND_CARD),
    "other_tolerance": folder(BOOK, make_sheet([1, 1], steps=9, tolerance=2), CARD),
    "other_target": folder(BOOK, make_sheet([1, 2], steps=9, tolerance=1), CARD),
    "book_refused": folder(make_book([[0, 0], [2001, 0], [0, 4]]), SHEET, CARD),
    "sheet_refused": folder(BOOK, FILES["j.wsh"], CARD),
    "card_refused": folder(BOOK, SHEET, WRONG_CARD),
    "no_book": folder(None, SHEET, CARD),
    "no_sheet": folder(BOOK, None, CARD),
    "card_a_folder": {**folder(BOOK, SHEET), "card.wcd/inside": b"a folder stands in the place of the card\n"},
    "long": folder(BOOK, SHEET),
    "pair_second": folder(BOOK, PAIR_SHEET, None, FARTHER, NEARER, b"an older card"),
    "pair_first": folder(BOOK, PAIR_SHEET, None, NEARER, FARTHER),
    "pair_equal": folder(BOOK, PAIR_SHEET, None, AS_FAR, FARTHER),
    "pair_first_damaged": folder(BOOK, PAIR_SHEET, None, FARTHER[:-1] + b"9", NEARER[:-37], b"an older card"),
    "pair_second_damaged": folder(BOOK, PAIR_SHEET, None, FARTHER, NEARER[:-37]),
    "pair_sheet_refused": folder(BOOK, FILES["j.wsh"], None, FARTHER, NEARER),
    "pair_no_second": folder(BOOK, PAIR_SHEET, None, FARTHER),
    "factored": folder(BOOK, FILES["k.wsh"], searched_card(BOOK, FILES["k.wsh"])),
    "other_factors": folder(BOOK, FILES["k.wsh"], searched_card(BOOK, FILES["c.wsh"])),
    "factors_of_another": folder(BOOK, FILES["c.wsh"], searched_card(BOOK, FILES["k.wsh"])),
    "factors_refused": folder(BOOK, FILES["t.wsh"], CARD),
    "pair_factors": folder(BOOK, FACTOR_SHEET, None, FIRST_OFF, SECOND_OFF),
    "pair_better_a_folder": {**folder(BOOK, PAIR_SHEET, None, FARTHER, NEARER), "better.wcd/inside": b"a folder stands in the place of the card\n"},
}

# test_edition: books and sheets whose cards were filed before WCD2, by the names of the cards. The far targets are ones at which the
# former test needs more steps than the sharper, or never ends Beyond. In the last a tie went to the lowest number.
DRAWS = Draws(31)
FAR = make_book([draw_row(DRAWS, 16, 20) for _ in range(20)], front=b"twenty boats\n")
FAR_TARGET = [value + 4 for value in draw_row(DRAWS, 16, 8)]
FILED_BEFORE = {
    "a": ("p.wbk", BOOK, SHEET), "b": ("p.wbk", BOOK, FILES["b.wsh"]), "c": ("p.wbk", BOOK, FILES["c.wsh"]),
    "d": ("p.wbk", BOOK, FILES["d.wsh"]), "e": ("e.wbk", FILES["e.wbk"], FILES["e.wsh"]),
    "f": ("e.wbk", FILES["e.wbk"], FILES["f.wsh"]), "g": ("g.wbk", FILES["g.wbk"], FILES["g.wsh"]),
    "h": ("h.wbk", FILES["h.wbk"], FILES["h.wsh"]), "i": ("h.wbk", FILES["h.wbk"], FILES["i.wsh"]),
    "larger": ("larger.wbk", LARGER, LARGER_SHEET),
    "far": ("far.wbk", FAR, make_sheet(FAR_TARGET, steps=90, tolerance=60)),
    "short": ("far.wbk", FAR, make_sheet(FAR_TARGET, steps=12, tolerance=60)),
    "tie": ("tie.wbk", make_book([[-1, -1], [-1, 1], [1, 0]]), make_sheet([0, 0], steps=3, tolerance=0)),
}

# The programs, each in a folder of its own, so that one that does another's work prints something else.
PROGRAMS = {
    "mixlist": folder(LARGER, LARGER_SHEET),
    "mixcard": folder(BOOK, FILES["d.wsh"], b"an older card"),
    "mixcheck": folder(BOOK, SHEET, HAND_CARD),
    "mixbetter": folder(BOOK, PAIR_SHEET, None, FARTHER, NEARER, b"an older card"),
    "mixbook": {"fleet.csv": csv_books.YARD, "fleet.wbk": b"an older book"},
    "mixmerge": merges.FOLDERS["older"],
    "leanlist": leanings.FOLDERS[""],
    "mixqueue": queues.FOLDERS[""],
    "mixwork": workings.FOLDERS["all_moves"],
    "mixsheet": {"fleet.csv": csv_books.YARD, "sheet.csv": csv_sheets.SHEET, "sheet.wsh": b"an older sheet"},
    "mixedition": {"sheet.wsh": b"hull 41\n" + make_sheet([1, 2, 3], steps=9, tolerance=1, factors=[1, 1, 1]), "other.wsh": b"an older sheet"},
}


def write(crate, name, content):
    path = os.path.join(CRATES, crate, "data", name)
    os.makedirs(os.path.dirname(path), exist_ok=True)
    with open(path, "wb") as file:
        file.write(content)


def main():
    data = {"test_search": FILES, "test_better": {"pairs.dat": pairs.file_of(pairs.cases())}, **PROGRAMS}
    data["test_edition"] = {name: content for card, (book, rows, sheet) in FILED_BEFORE.items()
                            for name, content in ((book, rows), (card + ".wsh", sheet))}
    for crate, cases in (("test_book", csv_books), ("test_sheet", csv_sheets), ("test_rewriting", sheet_editions), ("test_merge", merges), ("test_lean", leanings), ("test_queue", queues), ("test_worked", workings)):
        data[crate] = {os.path.join(name, file): content for name, files in cases.FOLDERS.items() for file, content in files.items()}
        data[crate]["cases.dat"] = cases.file_of(cases.cases())
    data["test_origin"] = {"cases.dat": origins.file_of(origins.cases())}
    data["test_details"] = {"cases.dat": details.file_of(details.cases())}
    data["test_card_details"] = {"cases.dat": card_details.file_of(card_details.cases())}
    data["test_program"] = {os.path.join(name, file): content for name, files in FOLDERS.items() for file, content in files.items()}
    for crate, files in data.items():
        for name, content in files.items():
            write(crate, name, content)


if __name__ == "__main__":
    main()
