#!/usr/bin/env python3
"""Checks of the report, report/mixreport: its figures, its names, its picture, its page, and that a card that is not true gets no report.

Use: python3 tests/test_report.py           runs the checks; exit code 1 where one fails
     python3 tests/test_report.py --write   stores examples/yard's three files, docs/hull-41.svg and the report on docs/report.md anew

The expected figures are worked out by hand. No program is built when the gate runs this, so a mixcheck made of the reference
implementation tests/exact.py stands for the program; tests/run_programs.py runs the report with the program itself.
"""
import csv
import importlib.machinery
import importlib.util
import os
import random
import re
import subprocess
import sys
import tempfile
import time
import unicodedata
import xml.etree.ElementTree as ElementTree
from fractions import Fraction

HERE = os.path.dirname(os.path.abspath(__file__))
ROOT = os.path.dirname(HERE)
PROGRAM = os.path.join(ROOT, "report", "mixreport")
YARD = os.path.join(ROOT, "examples", "yard")
sys.dont_write_bytecode = True
sys.path[:0] = [HERE, os.path.join(ROOT, "report")]
import csv_books  # noqa: E402
import csv_sheets  # noqa: E402
import exact  # noqa: E402
import origins  # noqa: E402
import decimals  # noqa: E402
import names  # noqa: E402
import page  # noqa: E402
import picture  # noqa: E402
import test_exact  # noqa: E402
import text  # noqa: E402
import words  # noqa: E402
from test_exact import agree  # noqa: E402

LOADER = importlib.machinery.SourceFileLoader("mixreport", PROGRAM)
mixreport = importlib.util.module_from_spec(importlib.util.spec_from_loader("mixreport", LOADER))
LOADER.exec_module(mixreport)

DATE, FILED = "2026-11-16", "2026-10-30"


# ---------------------------------------------------------------- cards by hand

P = [[0, 0], [4, 0], [0, 4]]
LINE = [[-2000], [2000]]
WORDS = {1: "within", 2: "beyond", 3: "spent"}


def hand_listing(rows, tolerance, steps, verdict, t, shares, e, g):
    lines = ["fleet %d %d" % (len(rows), len(rows[0])), "sheet %d %d" % (tolerance, steps),
             "%s %d %d" % (WORDS[verdict], t, sum(shares)), "distance %d" % e, "gap %d" % g]
    return "\n".join(lines + ["boat %d %d" % pair for pair in enumerate(shares) if pair[1]]) + "\n"


def hand_files(rows, target, tolerance, steps, verdict, t, shares, e, g, card=b"WCD1", factors=None, fronts=(b"", b"")):
    """The three files of a card."""
    sheet = exact.make_sheet(target, steps, tolerance, front=fronts[1], factors=factors)
    pairs = [pair for pair in enumerate(shares) if pair[1]]
    return {"fleet.wbk": exact.make_book(rows, front=fronts[0]), "sheet.wsh": sheet,
            "card.wcd": exact.make_card(pairs, verdict, t, tolerance, e, g, len(rows), len(target), letters=card)}


def hand_report(*case, tables=(None, None), **more):
    rows, _, *numbers = case
    return mixreport.report_of(hand_files(*case, **more), hand_listing(rows, *numbers), tables, DATE)


# The marked sheets, d and i by either edition of a card; a card that no search finds; sheets with factors, of which m and its neighbours have one
# of 0; and two steps of which the second has all scores 0, so that the boat picked is the lowest, or the one that holds shares. Given are rows, target, tolerance, steps,
# verdict, t, shares, E, G, and the letters and factors where they are others.
CASES = {
    "a": ((P, [1, 1], 1, 9, 1, 3, [3, 1, 2], 8, 56), {}),
    "b": ((P, [1, 1], 1, 3, 1, 3, [3, 1, 2], 8, 56), {}),
    "c": ((P, [1, 1], 1, 2, 3, 2, [0, 1, 2], 26, 44), {}),
    "d": ((P, [5, 5], 1, 9, 2, 2, [0, 1, 2], 170, 32), {}),
    "d, WCD2": ((P, [5, 5], 1, 9, 2, 1, [0, 1, 0], 26, 16), {"card": b"WCD2"}),
    "e": (([[0, 0]], [3, 4], 25, 1, 1, 1, [1], 25, 0), {}),
    "f": (([[0, 0]], [3, 4], 24, 1, 2, 1, [1], 25, 0), {}),
    "g": (([[0, 0], [0, 0]], [0, 0], 0, 1, 1, 1, [1, 0], 0, 0), {}),
    "h": ((LINE, [2000], 0, 1, 1, 1, [0, 1], 0, 0), {}),
    "i": ((LINE, [0], 0, 2, 3, 2, [2, 1], 4000000, 16000000), {}),
    "i, WCD2": ((LINE, [0], 0, 2, 3, 2, [2, 1], 4000000, 16000000), {"card": b"WCD2"}),
    "by hand": ((P, [1, 1], 1, 9, 1, 3, [2, 2, 2], 8, 32), {}),
    "factors": ((P, [1, 1], 1, 9, 1, 3, [3, 1, 2], 12, 96), {"factors": [2, 1]}),
    "k": ((P, [1, 1], 1, 2, 3, 2, [0, 2, 1], 27, 48), {"factors": [1, 2]}),
    "m": (([[0, 0], [0, 4]], [3, 1], 8, 5, 2, 1, [1, 0], 9, 0), {"factors": [1, 0]}),
    "m, outside": (([[0, 0], [0, 4]], [3, 9], 8, 5, 2, 1, [1, 0], 9, 0), {"factors": [1, 0]}),
    # Step 1: r' = (0, -4, 0), scores 0 and -16. Step 2: r = (4, 0, -9), scores 0 and 16. Then r = (4, -8, -27), E = 16 + 64, the scores are 0 and -16,
    # G = -16 + 48, and (80 - 32)² = 2304 is above 3 * 9 * 80 = 2160.
    "inside": (([[0, 0, 0], [4, 4, 0]], [0, 4, 9], 3, 9, 2, 2, [2, 1], 80, 32), {"card": b"WCD2", "factors": [1, 1, 0]}),
    "lowest": (([[-1], [0]], [0], 1, 9, 1, 2, [2, 1], 4, 4), {}),
    "holding": (([[-1], [0]], [0], 1, 9, 1, 2, [0, 3], 0, 0), {}),
}

# What is printed, worked by hand: asked for, this mixture and no mixture below as distance, squared, each column; nearer by at most, and that in
# each column; the columns' mixture, difference and part in per cent; the nearest boat and its distance; D² and 4 D² / (t + 2).
A = ("1.00 1.00 0.71", "0.47 0.22 0.33", "0.00 0.00 0.00", "0.48 0.34", "0.67 -0.33 50.0", "1.33 +0.33 50.0", "0 1.41", "32 25.60")
PRINTED = {
    "a": A,
    "b": A,
    "c": ("1.00 1.00 0.71", "1.70 2.89 1.20", "0.00 0.00 0.00", "1.70 1.21", "1.33 +0.33 3.8", "2.67 +1.67 96.2", "0 1.41", "32 32.00"),
    "d": ("1.00 1.00 0.71", "4.35 18.89 3.07", "3.43 11.77 2.42", "0.92 0.65", "1.33 -3.67 71.2", "2.67 -2.33 28.8", "1 5.10", "32 32.00"),
    "d, WCD2": ("1.00 1.00 0.71", "5.10 26.00 3.61", "1.96 3.84 1.38", "3.14 2.22", "4.00 -1.00 3.8", "0.00 -5.00 96.2", "1 5.10", "32 42.67"),
    "e": ("5.00 25.00 3.54", "5.00 25.00 3.54", "5.00 25.00 3.53", "0.00 0.00", "0.00 -3.00 36.0", "0.00 -4.00 64.0", "0 5.00", "0 0.00"),
    "f": ("4.90 24.00 3.46", "5.00 25.00 3.54", "5.00 25.00 3.53", "0.00 0.00", "0.00 -3.00 36.0", "0.00 -4.00 64.0", "0 5.00", "0 0.00"),
    "g": ("0.00 0.00 0.00", "0.00 0.00 0.00", "0.00 0.00 0.00", "0.00 0.00", "0.00 0.00 0.0", "0.00 0.00 0.0", "0 0.00", "0 0.00"),
    "h": ("0.00 0.00 0.00", "0.00 0.00 0.00", "0.00 0.00 0.00", "0.00 0.00", "2000.00 0.00 0.0", "1 0.00", "16000000 21333333.34"),
    "i": ("0.00 0.00 0.00", "666.67 444444.44 666.67", "0.00 0.00 0.00", "666.67 666.67", "-666.67 -666.67 100.0", "0 2000.00",
          "16000000 16000000.00"),
    "by hand": ("1.00 1.00 0.71", "0.47 0.22 0.33", "0.00 0.00 0.00", "0.48 0.34", "1.33 +0.33 50.0", "1.33 +0.33 50.0", "0 1.41", "none"),
    # E / W² is 3, the factors total 3, and D² is 16 + 2 * 16; of boat 0 alone 1 + 2.
    "k": ("1.00 1.00 0.58", "1.73 3.00 1.00", "0.00 0.00 0.00", "1.74 1.00", "2.67 +1.67 92.6", "1.33 +0.33 7.4", "0 1.73", "48 48.00"),
    "m": ("2.83 8.00 2.83", "3.00 9.00 3.00", "3.00 9.00 3.00", "0.00 0.00", "0.00 -3.00 100.0", "0.00 -1.00 0.0", "0 3.00", "0 0.00"),
    "m, outside": ("2.83 8.00 2.83", "3.00 9.00 3.00", "3.00 9.00 3.00", "0.00 0.00", "0.00 -3.00 100.0", "0.00 -9.00 0.0", "0 3.00", "0 0.00"),
    # 80 / 9, and no mixture below 2304 / 720 = 3.2; D² is 32 and 4 * 32 / 4.
    "inside": ("1.73 3.00 1.22", "2.98 8.89 2.11", "1.78 3.20 1.26", "1.20 0.85", "1.33 +1.33 20.0", "1.33 -2.67 80.0", "0.00 -9.00 0.0", "0 4.00", "32 32.00"),
    "lowest": ("1.00 1.00 1.00", "0.67 0.44 0.67", "0.00 0.00 0.00", "0.67 0.67", "-0.67 -0.67 100.0", "1 0.00", "1 1.00"),
    "holding": ("1.00 1.00 1.00", "0.00 0.00 0.00", "0.00 0.00 0.00", "0.00 0.00", "0.00 0.00 0.0", "1 0.00", "1 1.00"),
    "factors": ("1.00 1.00 0.58", "0.58 0.33 0.33", "0.00 0.00 0.00", "0.58 0.34", "0.67 -0.33 66.7", "1.33 +0.33 33.3", "0 1.73", "48 38.40"),
}
PRINTED["i, WCD2"] = PRINTED["i"]


def printed(report):
    """What a report prints of its distances, columns, nearest boat and steps."""
    f, table = report.figures, words.column_table(report)
    rows = [" ".join(row[1:]) for row in words.distance_table(report).rows]
    said = words.nearer_sentence(report).text + " ".join(getattr(block, "text", "") for block in words.bound_sentences(report))
    rows.append(" ".join(re.search(r"by at most ([0-9.]+), on average over the columns by at most ([0-9.]+)\.", said).groups()))
    rows += [" ".join(row[table.head.index(name)] for name in ("mixture", "difference", "% of squared")) for row in table.rows]
    rows.append("%s %s" % re.search(r"\(listed as boat (\d+)\), at a distance of ([0-9.]+);", words.nearest_sentence(report).text).groups())
    found = re.search(r"4 D² / \(t \+ 2\) = ([0-9.]+) above the least; D² = (\d+) ", said)
    agree("steps known", found is not None, f.slack is not None)
    return tuple(rows + ["%s %s" % (found[2], found[1]) if found else "none"])


def marked_sheets():
    for name, (case, more) in CASES.items():
        report = hand_report(*case, **more)
        agree("sheet " + name, printed(report), PRINTED[name])
        shares = case[6]
        agree("shares " + name, {row[0]: row[2] for row in words.boat_table(report).rows}, {"boat %d" % i: str(s) for i, s in enumerate(shares) if s})
        outside = [j for j, value in enumerate(case[1]) if not min(row[j] for row in case[0]) <= value <= max(row[j] for row in case[0])]
        agree("outside " + name, [j for j, c in enumerate(report.figures.columns) if c.outside], outside)


SENTENCES = [
    ("a", "WITHIN: this mixture is near enough."),
    ("a", "after 3 of the 9 steps"),
    ("b", "after all 3 steps"),
    ("c", "SPENT: neither was shown."),
    ("c", "ask for more steps, up to 360, or ask with another tolerance: this mixture meets 3."),
    ("d", "BEYOND: no mixture of these boats"),
    ("d", "outside the fleet in column 1, column 2"),
    ("m, outside", "outside the fleet in column 1, where"),
    ("inside", "In each column that counts by itself the sheet lies within the fleet"),
    ("e", "after the one step"),
    ("g", "meets the sheet exactly"),
    ("by hand", "not those that so many steps of the search give"),
]


def sentences():
    """The verdict, and what to do next."""
    for name, wanted in SENTENCES:
        case, more = CASES[name]
        said = " ".join(block.text for block in words.verdict_sentences(hand_report(*case, **more)))
        agree("sentence of %s: %s" % (name, wanted), wanted in said, True)
    # 2000 × (32489 - 32491) = -4000, and no more steps may be asked for.
    last = hand_report(LINE, [0], 0, 360, 3, 360, [32491, 32489], 16000000, 16000000 + 64980 * 8000000)
    agree("at 360 steps", words.verdict_sentences(last)[2].text, "Next: ask with another tolerance: this mixture meets 1.")


# ---------------------------------------------------------------- the worked example

# Displacement in tonnes and length in metres.
SIZES = (Fraction("29.4"), Fraction("17.6"))
# The letters that mixcard writes.
CARD_LETTERS = b"WCD2"
# Shares of 210 after 20 steps; and 210 times what the mixture has less the sheet, column by column, by adding share × value up by hand.
SHARES = [11, 0, 0, 18, 0, 0, 27, 24, 42, 0, 63, 25]
RESIDUAL = [195, 1651, 874, -3682, 901, 583, 253, -233]
YARD_E = 195 ** 2 + 1651 ** 2 + 874 ** 2 + 3682 ** 2 + 901 ** 2 + 583 ** 2 + 253 ** 2 + 233 ** 2
# The residual times the sheet, and times each boat's row, column by column: of the sheet, and of Hamnavoe, which has the least.
YARD_SHEET_SCORE = 65910 + 269113 + 71668 - 217238 + 52258 + 32648 - 9867 - 17242
YARD_LEAST_SCORE = 62010 + 237744 + 90022 - 154644 + 64872 + 36146 - 6325 - 17242
YARD_SCORES = [338548, 353598, 363541, 368540, 327023, 368988, 372490, YARD_LEAST_SCORE, 337423, 344043, 320581, 319679]
# G is the largest <r, y - W v>, and y is r + W u: 18354814 + 210 × (247250 - 312583).
YARD_G = 4634884
YARD_COLUMNS = [
    "hull weight|‰ D|338|338.93|+0.93|0.2|312|371|",
    "mach weight|‰ D|163|170.86|+7.86|14.9|139|233|MORE",
    "outfit weight|‰ D|82|86.16|+4.16|4.2|59|108|",
    "elec weight|‰ D|59|41.47|-17.53|73.9|29|52|OUTSIDE, MORE",
    "aux weight|‰ D|58|62.29|+4.29|4.4|39|77|",
    "deck weight|‰ D|56|58.78|+2.78|1.9|18|121|",
    "LCG moment|‰ D L|-39|-37.80|+1.20|0.3|-80|-8|",
    "VCG moment|‰ D L|74|72.89|-1.11|0.3|67|81|",
]
# A thousandth of 29.4 t is 29.4 kg and the mixture has 210 shares, so that a residual of 1 is 29.4 / 210 = 0.14 kg: 195 are 27.3 kg, and 9937.2 + 27.3 is a
# half. The weights of the sheet total 756, their residuals 522. A thousandth of D L is 0.51744 t m. The levers are -39 / 756 and (-39 × 210 + 253) /
# (756 × 210 + 522) = -7937 / 159282 of 17.6 m, and 74 / 756 and 15307 / 159282.
YARD_SIZES = [
    "hull weight|9937 kg|9964 kg|+27 kg",
    "mach weight|4792 kg|5023 kg|+231 kg",
    "outfit weight|2411 kg|2533 kg|+122 kg",
    "elec weight|1735 kg|1219 kg|-515 kg",
    "aux weight|1705 kg|1831 kg|+126 kg",
    "deck weight|1646 kg|1728 kg|+82 kg",
    "total|22226 kg|22299 kg|+73 kg",
    "LCG moment|-20.18 t m|-19.56 t m|+0.62 t m",
    "VCG moment|38.29 t m|37.72 t m|-0.57 t m",
    "LCG|-0.908 m|-0.877 m|+0.031 m",
    "VCG|1.723 m|1.691 m|-0.031 m",
]
YARD_BOATS = ["boat 10|Kittiwake|63|30.0|75.53", "boat 8|Isbjorn|42|20.0|42.18", "boat 6|Gannet|27|12.9|96.33", "boat 11|Lofoten|25|11.9|38.91",
              "boat 7|Hamnavoe|24|11.4|43.81", "boat 3|Dunlin|18|8.6|89.53", "boat 0|Alka 12|11|5.2|44.02"]
YARD_NAMES = "Alka 12,Brisling,Corrie,Dunlin,Eider II,Fulmar,Gannet,Hamnavoe,Isbjorn,Jura,Kittiwake,Lofoten".split(",")
YARD_WHY = {b"WCD1": ["With d = p - m, |p - u|² = E / W² + 2 <m - u, d> + |d|², and |d|² ≥ 0.",
                      "Here <m - u, d> = - <r, W (m - p)> / W² ≥ - G / W². So |p - u|² ≥ (E - 2 G) / W²."],
            b"WCD2": ["So <r, W (p - u)> = <r, r> - <r, W (m - p)> ≥ E - G.",
                      "By Cauchy-Schwarz it is ≤ √E W |p - u|. So where E > G, |p - u|² ≥ (E - G)² / (W² E)."]}
YARD_DISTANCES = {b"WCD1": ["asked for, at most|14.14|200.00|5.00", "this mixture|20.40|416.21|7.21", "no mixture is below|14.35|206.01|5.07"],
                  b"WCD2": ["asked for, at most|14.14|200.00|5.00", "this mixture|20.40|416.21|7.21", "no mixture is below|15.24|232.54|5.39"]}


def read(*path):
    with open(os.path.join(ROOT, *path), "rb") as file:
        return file.read()


def yard_case():
    """The worked example: rows and target from its CSVs, the rest by hand."""
    fleet, sheet = (list(csv.reader(read("examples", "yard", name).decode("utf-8").splitlines())) for name in ("fleet.csv", "sheet.csv"))
    rows = [[int(cell) for cell in line[1:]] for line in fleet[2:]]
    return rows, [int(cell) for cell in sheet[1][1:]], 200, 360, 2, 20, SHARES, YARD_E, YARD_G


def yard_files(card=CARD_LETTERS):
    return hand_files(*yard_case(), card=card, fronts=(read("examples", "yard", "fleet.csv"), read("examples", "yard", "sheet.csv")))


def yard_report(card=CARD_LETTERS):
    rows, _, *numbers = yard_case()
    return mixreport.report_of(yard_files(card), hand_listing(rows, *numbers), (None, None), DATE, *SIZES, filed=FILED)


def joined(table):
    return ["|".join(row) for row in table.rows]


# Gannet and Kittiwake are the farthest apart: 44² + 94² + 28² + 3² + 33² + 91² + 72² + 11² = 26240, and 4 × 26240 / 22 = 4770.90...
YARD_SENTENCES = ["The nearest single boat is Eider II (listed as boat 4), at a distance of 28.21; it holds no shares.", "D² = 26240 ", "= 4770.91 above",
                  "outside the fleet in elec weight,", "1 ‰ D is 29.400 kg; 1 ‰ D L is 0.517 t m", "after 20 of the 360 steps",
                  "The tolerance is 5.00 on average", "2 columns are off by more, marked MORE below: mach weight, elec weight.",
                  "card.wcd was last changed on 2026-10-30,", "the table in front of fleet.wbk and sheet.wsh,"]


def worked_example():
    rows, target, *_ = yard_case()
    agree("residual by hand", [sum(s * row[j] for s, row in zip(SHARES, rows)) - 210 * u for j, u in enumerate(target)], RESIDUAL)
    agree("scores by hand", [sum(r * x for r, x in zip(RESIDUAL, row)) for row in (target, *rows)], [YARD_SHEET_SCORE, *YARD_SCORES])
    agree("gap by hand", (YARD_E + 210 * (YARD_SHEET_SCORE - YARD_LEAST_SCORE), min(YARD_SCORES)), (YARD_G, YARD_LEAST_SCORE))
    for letters in (b"WCD1", b"WCD2"):
        report = yard_report(letters)
        agree("columns", joined(words.column_table(report)), YARD_COLUMNS)
        agree("boats", joined(words.boat_table(report)), YARD_BOATS)
        agree("kilograms and metres", joined(words.size_table(report)), YARD_SIZES)
        agree("why", [line for block in words.bound_sentences(report) if isinstance(block, words.Lines) for line in block.lines][3:], YARD_WHY[letters])
        (rows_table,) = words.row_blocks(report)
        shares = [str(share or "") for share in SHARES]
        agree("the fleet's rows", joined(rows_table), ["|".join(["", "the sheet", "", *map(str, target)])] + [
            "|".join(["boat %d" % i, name, shares[i], *map(str, row)]) for i, (name, row) in enumerate(zip(YARD_NAMES, rows))])
        agree("distances", joined(words.distance_table(report)), YARD_DISTANCES[letters])
        said = " ".join(block.text for block in words.blocks(report) if isinstance(block, words.Paragraph))
        for wanted in YARD_SENTENCES:
            agree("worked example: " + wanted, wanted in said, True)


def other_factors():
    """The worked example by other factors, as docs/factors.md has it, is what the reference finds."""
    rows, target, *_ = yard_case()
    found = []
    for factor in (1, 0, 9):
        factors = [factor if j == 3 else 1 for j in range(8)]
        tolerance = 25 * sum(factors)
        answer, shares = exact.run(rows, target, 360, tolerance, factors)
        off = [Fraction(sum(s * row[j] for s, row in zip(shares, rows)), answer.weight) - target[j] for j in (3, 1)]
        found.append("| %d, 1 | 5² × %d = %d | %s %d | %s | %s | %s |" % (
            factor, sum(factors), tolerance, WORDS[answer.verdict].capitalize(), answer.steps,
            decimals.decimal(Fraction(answer.distance, answer.weight ** 2)), *(decimals.decimal(x, sign=True) for x in off)))
    page_rows = re.findall(r"(?m)^\| \d, 1 \| .*$", read("docs", "factors.md").decode("utf-8"))
    agree("the worked example by other factors", page_rows, found)


NEARER = {
    # of boat 0 alone 1 + 1 = 2, of the mixture 26 / 9; of boat 1 alone 0, of the mixture 4 / 9
    "c": "WARNING: one boat by itself is nearer than this mixture: boat 1, at a distance of 1.41 where the mixture is at 1.70.",
    "i": None,
    "e": None,
    "lowest": "WARNING: one boat by itself is nearer than this mixture: boat 2, at a distance of 0.00 where the mixture is at 0.67.",
}
# What is off by more than the root of tolerance / columns, or of tolerance / total of the factors.
MORE = {
    "a": [],
    "c": [2],        # 1/9 and 25/9 against 1/2
    "d": [1, 2],
    "e": [2],        # 9 and 16 against 12.5
    "f": [2],
    "k": [1],        # 25/9 and 1/9 against 1/3
    "m": [1],        # 9 against 8, and the other does not count
    "factors": [],   # 1/9 twice against 1/3
    "inside": [1, 2],  # 16/9, 64/9 against 3/2, and the third does not count
    "g": [],
}


def warnings():
    """A single boat that is nearer, and columns that are off by more than the tolerance is on average."""
    for name, wanted in NEARER.items():
        said = [block.text for block in words.nearest_warning(hand_report(*CASES[name][0], **CASES[name][1]))]
        agree("nearer: " + name, said, [wanted] if wanted else [])
    for name, wanted in MORE.items():
        report = hand_report(*CASES[name][0], **CASES[name][1])
        agree("off by more: " + name, words.columns_that(report, words.is_more), ["column %d" % j for j in wanted])
        table = words.column_table(report)
        noted = [row[0] for row in table.rows if "MORE" in row[table.head.index("note")]] if "note" in table.head else []
        agree("marked: " + name, noted, ["column %d" % j for j in wanted])
        said = words.more_sentence(report).text
        agree("said: " + name, "No column is off by more." in said, not wanted)
        agree("the tolerance: " + name, said.startswith("The tolerance is %s on average" % PRINTED[name][0].split()[2]), True)


OPEN_FLEET = "boat,hull,elec,trim\nunit,‰ D,‰ D,‰ D L\nTern,10,4,0\nAuk,20,8,6\n"
OPEN_SHEET = "boat,elec,trim,hull\nHull 9,,3,15\nfactor,0,1,1\nsteps,9\ntolerance each,1\ndisplacement t,20\nlength m,10\n"


def estimates():
    """A column that the sheet leaves open: its factor is 0 and its field empty. Two of three shares are Auk's after two steps of any search of it: by hand
    shares of 1 and 2 give 50/3, 20/3 and 4, so r is 5 and 3, E = 34, and G = <r, y> - 3 <r, Tern> = 5 × 50 + 3 × 12 - 3 × 50 = 136."""
    case = ([[10, 4, 0], [20, 8, 6]], [15, 0, 3], 2, 2, 3, 2, [1, 2], 34, 136)
    fronts = (OPEN_FLEET.encode(), OPEN_SHEET.encode())
    report = hand_report(*case, factors=[1, 0, 1], fronts=fronts)
    agree("estimated", (report.names.hull, report.names.estimated), ("Hull 9", [False, True, False]))
    blocks = list(words.estimate_blocks(report))
    # 20/3 thousandths of 20 t are 133.3 kg
    agree("estimates", joined(blocks[1]), ["elec|‰ D|6.67|133 kg|4|8"])
    table = words.column_table(report)
    agree("an estimate is no difference", joined(table)[1], "elec|‰ D|0||6.67||0.0|4|8|ESTIMATE")
    # 15 × 20 and 50/3 × 20 kg; 70/3 × 20 in all; 3 and 4 of 0.2 t m; 4 / (70/3) of 10 m
    agree("estimates in kilograms", joined(words.size_table(report)),
          ["hull|300 kg|333 kg|+33 kg", "elec||133 kg|", "total||467 kg|", "trim|0.60 t m|0.80 t m|+0.20 t m", "trim over the total||1.714 m|"])
    agree("no estimates", list(words.estimate_blocks(yard_report())), [])
    svg = check_picture("an estimate", picture.pictures(report)[0], 3, 2)
    middle = next(node.get("d") for node in svg.iter(SVG + "path") if node.get("class") == "zero")
    stands = [node.get("cx") == middle[1:].split(" ")[0] for node in svg.iter(SVG + "circle") if node.get("class") == "mix"]
    agree("an estimate stands in the middle", stands[:3], [False, True, False])
    texts = [node.text for node in svg.iter(SVG + "text")]
    agree("an estimate in the picture", ["≈ 6.67" in texts, "133 kg" in texts, "≈" in texts], [True, True, True])
    for label, target, factors in (("a factor of 1", [15, 0, 3], [1, 1, 1]), ("a value", [15, 6, 3], [1, 0, 1])):
        rows = [[10, 4, 0], [20, 8, 6]]
        files = hand_files(rows, target, 2, 2, 3, 2, [1, 2], 34, 136, factors=factors, fronts=fronts)
        book, sheet = mixreport.read_book("book", files["fleet.wbk"]), mixreport.read_sheet("sheet", files["sheet.wsh"])
        agree("not left open, " + label, names.names_of(book, sheet, None, None).hull, "The sheet")
    with_value = hand_report(*case, factors=[1, 0, 1], fronts=(fronts[0], fronts[1].replace(b"9,,3", b"9,0,3")))
    agree("a value that is given is no estimate", (with_value.names.hull, any(with_value.names.estimated)), ("Hull 9", False))
    # the sheets that mixsheet makes of these tables: the one above, and Hull 41 with its electrical weight left open, which is 1158 / 28 of 29.4 kg by docs/guide.md
    made = csv_sheets.made(OPEN_FLEET.encode(), OPEN_SHEET.encode())[4]
    agree("mixsheet leaves it open", (made.startswith(OPEN_SHEET.encode()), exact.read_sheet(made)[0]), (True, [15, 0, 3]))
    book, sheet = csv_books.made(csv_sheets.FLEET)[4], csv_sheets.made(csv_sheets.FLEET, csv_sheets.OPEN)[4]
    card = exact.write_card(book, sheet, bytes(1060))
    files = {"fleet.wbk": book, "sheet.wsh": sheet, "card.wcd": card[3][:card[2]]}
    report = mixreport.report_of(files, exact.card_listing(book, sheet, files["card.wcd"]).decode(), (None, None), DATE, *SIZES, filed=FILED)
    agree("Hull 41 with an estimate", joined(list(words.estimate_blocks(report))[1]), ["elec weight|‰ D|41.36|1216 kg|29|52"])


def stored():
    """What stands in the repository is what is made today."""
    for name, content in yard_files().items():
        agree("examples/yard/" + name, read("examples", "yard", name), content)
    report = yard_report()
    agree("docs/hull-41.svg", read("docs", "hull-41.svg").decode("utf-8"), picture.pictures(report)[0])
    agree("the report on docs/report.md", block_of_page(read("docs", "report.md").decode("utf-8"))[1], indented(text.text_of(report)))


def indented(lines):
    return "".join("    " + line + "\n" if line else "\n" for line in lines.splitlines())


def block_of_page(text_of_page):
    """The page before, in and after the report that it shows: from its heading to the next line that is not indented."""
    found = re.search(r"(?m)^    Hull 41 as a mixture of 7 of 12 boats\n(?:    .*\n|\n(?=(?:\n)*    ))*", text_of_page)
    return text_of_page[:found.start()], found[0], text_of_page[found.end():]


def write():
    for name, content in yard_files().items():
        with open(os.path.join(YARD, name), "wb") as file:
            file.write(content)
    report = yard_report()
    before, _, after = block_of_page(read("docs", "report.md").decode("utf-8"))
    for name, content in (("hull-41.svg", picture.pictures(report)[0]), ("report.md", before + indented(text.text_of(report)) + after)):
        with open(os.path.join(ROOT, "docs", name), "w", encoding="utf-8") as file:
            file.write(content)


# ---------------------------------------------------------------- numbers and names


WAYS = (decimals.NEAREST, decimals.DOWN, decimals.UP)


def rounding():
    """Nearest, down and up, of fractions and of roots."""
    third = Fraction(1, 3)
    agree("thirds", [decimals.decimal(2 * third, 2, way) for way in WAYS], ["0.67", "0.66", "0.67"])
    agree("below zero", [decimals.decimal(-third, 1, way) for way in WAYS], ["-0.3", "-0.4", "-0.3"])
    agree("sign", [decimals.decimal(x, 0, sign=True) for x in (Fraction(7), Fraction(0), Fraction(-7))], ["+7", "0", "-7"])
    agree("roots of 2", [decimals.root(2, 3, way) for way in WAYS], ["1.414", "1.414", "1.415"])
    agree("root of 9/4", [decimals.root(Fraction(9, 4), 1, way) for way in WAYS], ["1.5", "1.5", "1.5"])
    agree("root of 3", decimals.root(3, 2), "1.73")
    pairs = ((25, 16), (3, 2), (3, 3))
    agree("difference of roots", [decimals.root_difference(*pair) for pair in pairs], ["1.00", "0.32", "0.00"])


FLEET = "boat,length,beam\nunit,m,m\nTern,0,0\n\"Gull, the \"\"old\"\"\",4,0\nAuk,0,4\n"
SHEET = "boat,beam,length\nHull 7,1,1\nsteps,9\ntolerance,1\n"
SERVE = {
    "commas": FLEET,
    "CR LF": FLEET.replace("\n", "\r\n"),
    "empty lines": FLEET + "\n\n",
    "spaces and plus": FLEET.replace(",4,0", ", +4 , 0"),
    "semicolons": FLEET.replace(",", ";").replace("Gull;", "Gull,"),
    "tabs": FLEET.replace(",", "\t").replace("Gull\t", "Gull,"),
    "names alone": re.sub(r",-?[0-9]+", "", FLEET),
    "names alone, as mixbook files them": csv_books.names_only(FLEET.encode()).decode(),
}
DO_NOT_SERVE = {
    "none": b"",
    "no table": b"twelve boats\n",
    "other values": FLEET.replace("4,0", "4,1").encode(),
    "a boat less": FLEET[:-8].encode(),
    "a column more": FLEET.replace("beam", "beam,draught").encode(),
    "an open quote": FLEET.encode() + b'"',
    "bytes": bytes(range(256)),
}


def names_for(fleet=b"", sheet=b"", fleet_reader=None, sheet_csv=None, target=(1, 1), factors=None, **sizes):
    """The names of a book of P and a sheet with these front texts and CSVs."""
    files = hand_files(P, list(target), 1, 9, 1, 3, [3, 1, 2], 8, 56, fronts=(fleet, sheet), factors=factors)
    book, sheet = mixreport.read_book("book", files["fleet.wbk"]), mixreport.read_sheet("sheet", files["sheet.wsh"])
    return names.names_of(book, sheet, fleet_reader, sheet_csv, **sizes)


def names_of_things():
    gull = ["Tern", 'Gull, the "old"', "Auk"]
    for label, fleet in SERVE.items():
        for content in (fleet.encode(), b"\xef\xbb\xbf" + fleet.encode()):
            found = names_for(content)
            agree("names, " + label, (found.boats, found.columns, found.units), (gull, ["length", "beam"], ["m", "m"]))
    numbers = (["boat 1", "boat 2", "boat 3"], ["column 1", "column 2"], ["", ""])
    for label, content in DO_NOT_SERVE.items():
        found = names_for(content)
        agree("by number, " + label, (found.boats, found.columns, found.units), numbers)
    book = mixreport.read_book("book", csv_books.made(csv_books.table_of(256, 64))[4])
    sheet = mixreport.read_sheet("sheet", exact.make_sheet([0] * 64, 9, 1))
    found = names.names_of(book, sheet, None, None)
    agree("the names of a large book", (found.boats, found.columns), (["b%d" % i for i in range(256)], ["c%d" % j for j in range(64)]))
    agree("why not", names_for(DO_NOT_SERVE["other values"]).notes,
          ["The front text of fleet.wbk is not used for names: its values of Gull, the \"old\" are not the book's."])
    agree("from the CSV", names_for(b"text\n", b"", FLEET.encode(), SHEET.encode()).boats, gull)
    agree("front text first", names_for(FLEET.encode(), b"", FLEET.replace("Auk", "Puffin").encode()).boats, gull)
    agree("another alphabet", names_for(FLEET.replace("Tern", "Крачка").encode()).boats[0], "Крачка")
    agree("Windows", names_for(FLEET.replace("Tern", "Sjöfågel").encode("cp1252")).boats[0], "Sjöfågel")
    agree("controls", names_for(FLEET.replace("Tern", "\"T\x1b[31me\u202ern\n\x00\t x\"").encode()).boats[0], "T[31mern x")


def names_of_sheets():
    both = names_for(FLEET.encode(), SHEET.encode())
    agree("by name, in another order", both.hull, "Hull 7")
    agree("other order, other values", names_for(FLEET.encode(), SHEET.encode(), target=(1, 2)).hull, "The sheet")
    agree("matched by name", names_for(FLEET.encode(), SHEET.replace("1,1", "2,1").encode(), target=(1, 2)).hull, "Hull 7")
    agree("unknown column", names_for(FLEET.encode(), SHEET.replace("beam", "draught").encode()).hull, "The sheet")
    agree("columns by the sheet", names_for(b"", SHEET.encode()).columns, ["beam", "length"])
    weighed = (SHEET + "factor,2,1\n").encode()
    for factors, hull in (((1, 2), "Hull 7"), ((2, 1), "The sheet"), ((1, 1), "The sheet"), (None, "The sheet")):
        agree("factors %r" % (factors,), names_for(FLEET.encode(), weighed, factors=factors).hull, hull)
    agree("factors of 1", names_for(FLEET.encode(), weighed.replace(b"2,1", b"1,1")).hull, "Hull 7")
    agree("why not, factors", names_for(FLEET.encode(), weighed).notes[1:],
          ["The front text of sheet.wsh is not used for names: its factors are not the sheet's."])
    agree("factors in no order", names_for(FLEET.encode(), (SHEET + "factor,2\n").encode(), factors=(1, 2)).hull, "The sheet")
    sizes = names_for(FLEET.encode(), (SHEET + "displacement t,29.4\nlength m,\"17,6\"\n").encode())
    agree("sizes", (sizes.displacement, sizes.length, sizes.sizes), (Fraction(147, 5), Fraction(88, 5), "by the front text of sheet.wsh"))
    given = names_for(FLEET.encode(), (SHEET + "displacement t,29.4\nlength m,9\n").encode(), length=Fraction(7))
    agree("sizes given", (given.displacement, given.length, given.sizes), (Fraction(147, 5), 7, "as given to mixreport"))
    for wrong in ("0", "-3", "29.4 t", "1e3", "27,8", "27,", ",27"):
        found = names_for(FLEET.encode(), (SHEET + "displacement t,%s\n" % wrong).encode())
        agree("no size: " + wrong, found.displacement, Fraction(27) if wrong == "27," else None)
        said = "Its line “displacement t” is not used: “%s” is not one number above 0." % wrong
        agree("why no size: " + wrong, found.notes[2:], [] if wrong == "27," else [said])
    agree("no size, nothing said", names_for(FLEET.encode(), (SHEET + "displacement t,\n").encode()).notes[2:], [])
    agree("capitals", names_for(FLEET.encode(), (SHEET + "Displacement t,20\n").encode()).displacement, None)
    decimal_comma = SHEET.replace(",", ";") + "displacement t;27,8\n"
    agree("a decimal comma", names_for(FLEET.encode(), decimal_comma.encode()).displacement, Fraction(139, 5))


SAME_SHEETS = {
    "a unit line first": SHEET.replace("Hull", "unit,m,m\nHull"),
    "a unit line with more": SHEET.replace("Hull", "unit,m,m,and,more\nHull"),
    "padded": "".join(line + ",,,\n" for line in SHEET.splitlines()),
    "padded, a unit line first": "".join(line + ",,\n" for line in SHEET.replace("Hull", "unit\nHull").splitlines()),
    "lines of separators": SHEET.replace("Hull", ",,,\nHull"),
    "the hull last": "\n".join(SHEET.splitlines()[:1] + SHEET.splitlines()[:0:-1]) + "\n",
    "empty lines first": "\n\r\n" + SHEET,
    "semicolons": SHEET.replace(",", ";"),
    "tabs": SHEET.replace(",", "\t"),
    "zeros": SHEET.replace("7,1,", "7, +0000000000001 ,"),
}


def names_by_rules():
    """A sheet's table is read by the rules of mixsheet: what that accepts has the hull's name and its sizes here."""
    for label, sheet in SAME_SHEETS.items():
        sizes = "displacement t,29.4\nlength m,17.6\n"
        for mark in ";\t":
            sizes = sizes.replace(",", mark) if mark in sheet else sizes
        content = (sheet + sizes).encode()
        agree("mixsheet accepts " + label, csv_sheets.made(FLEET.encode(), content)[0], 0)
        found = names_for(FLEET.encode(), content)
        agree("read as mixsheet does, " + label, (found.hull, found.displacement, found.length), ("Hull 7", Fraction(147, 5), Fraction(88, 5)))
    agree("more values than columns", names_for(FLEET.encode(), SHEET.replace("7,1,1", "7,1,1,1").encode()).hull, "The sheet")
    spaced = FLEET.replace("beam", "beam "), SHEET.replace("beam", "beam ")
    agree("a name with a space", names_for(*(one.encode() for one in spaced)).columns, ["length", "beam"])
    agree("names are letter for letter", names_for(spaced[0].encode(), SHEET.encode()).hull, "The sheet")
    quote = FLEET.replace("boat,", '5" boat,').replace(",", "\t").replace("Gull\t", "Gull,")
    agree("a quote inside a field", names_for(quote.encode()).boats[0], "Tern")
    agree("an empty line before semicolons", names_for(("\n" + SERVE["semicolons"]).encode()).boats[0], "Tern")
    front = [names_for(FLEET.encode(), SHEET.encode()).fronts, names_for(b"", b"", FLEET.encode(), SHEET.encode()).fronts]
    agree("front texts", front, [["fleet.wbk", "sheet.wsh"], []])


def accepted_sheets():
    """Of every sheet of the tests of mixsheet that is accepted the report has the hull's name: the pairs drawn and by hand."""
    count = 0
    for fleet, data in csv_sheets.all_cases():
        fault, _, _, _, made = csv_sheets.made(fleet, data)
        if not fault:
            book, sheet = mixreport.read_book("book", csv_books.made(fleet)[4]), mixreport.read_sheet("sheet", made)
            found = names.names_of(book, sheet, None, None)
            agree("the names of an accepted sheet %r" % data[:60], found.notes[-1].startswith("The new hull is named by the front text of sheet.wsh")
                  or found.notes[-1].startswith("Its line"), True)
            count += 1
    agree("accepted sheets", count > 200, True)


# ---------------------------------------------------------------- pictures

SVG = "{http://www.w3.org/2000/svg}"


def quoted(line):
    return ",".join('"%s"' % str(cell).replace('"', '""') for cell in line) + "\n"


def drawn_card(rows, target, shares):
    """E, G and the least tolerance that the shares are Within."""
    w = sum(shares)
    total = [sum(share * row[j] for share, row in zip(shares, rows)) for j in range(len(target))]
    residual = [y - w * u for y, u in zip(total, target)]
    e = sum(r * r for r in residual)
    g = max(sum(r * (y - w * v) for r, y, v in zip(residual, total, row)) for row in rows)
    return e, g, -(-e // (w * w))


def drawn_report(columns, boats=9, spread=300, seed=1, name="%d", hull="Hull"):
    """A report of drawn values and shares; the sheet lies outside the fleet in one column."""
    draw = random.Random(seed)
    rows = [[draw.randint(-spread, spread) for _ in range(columns)] for _ in range(boats)]
    target = [draw.randint(-spread // 3, spread // 3) for _ in range(columns)]
    target[-1] = spread + 20
    shares = [20, 0, 1, 30, 0, 0, 5, 10, 12][:boats]
    e, g, tolerance = drawn_card(rows, target, shares)
    header = ["boat"] + [name % j for j in range(columns)]
    fleet = quoted(header) + quoted(["unit"] + ["‰ D" if j % 2 else "‰ D L" for j in range(columns)])
    fleet += "".join(quoted(["Boat <%d> & \"sons\"" % i] + row) for i, row in enumerate(rows))
    sheet = quoted(header) + quoted([hull] + target) + "displacement t,812.5\nlength m,61\n"
    return hand_report(rows, target, tolerance, 12, 1, 12, shares, e, g, fronts=(fleet.encode(), sheet.encode()))


def letters_width(content, size, bold):
    """How wide a text is at most, roughly: by the widths of a wide typeface."""
    wide = sum(1.0 if c in "MW%…‰" or unicodedata.east_asian_width(c) in "WF" else 0.4 if c in " .,ilj" else 0.64 for c in content)
    return wide * size * (1.1 if bold else 1)


def text_boxes(svg):
    """Left, top, right and bottom of each text."""
    for node in svg.iter(SVG + "text"):
        kinds = node.get("class", "").split()
        size = 16 if "head" in kinds else 12
        content = (node.text or "") + "".join(child.tail or "" for child in node)
        width = letters_width(content, size, "head" in kinds or "out" in kinds)
        x, y = float(node.get("x")), float(node.get("y"))
        left = x - width if "end" in kinds else x - width / 2 if "mid" in kinds else x
        yield left, y - 0.8 * size, left + width, y + 0.25 * size, content


def mark_boxes(svg):
    """Left, top, right and bottom of each mark that belongs into the frame; those of the legend stand below it."""
    for node in svg.iter():
        kind = node.get("class")
        if kind in ("range", "band"):
            x, y, width, height = (float(node.get(name)) for name in ("x", "y", "width", "height"))
            yield kind, x, y, x + width, y + height
        elif kind == "mix":
            x, y, r = (float(node.get(name)) for name in ("cx", "cy", "r"))
            yield kind, x - r, y - r, x + r, y + r
        elif kind == "tick":
            x, y, height = map(float, re.fullmatch(r"M([\d.]+) ([\d.]+)v(\d+)", node.get("d")).groups())
            half = float(node.get("stroke-width")) / 2
            yield kind, x - half, y, x + half, y + height
        elif kind == "off":
            x, y, end = map(float, re.fullmatch(r"M([\d.]+) ([\d.]+)H([\d.]+)", node.get("d")).groups())
            yield kind, min(x, end), y - 1.5, max(x, end), y + 1.5


def frame_of(svg):
    frame = next(node for node in svg.iter(SVG + "rect") if node.get("class") == "frame")
    x, y, width, height = (float(frame.get(name)) for name in ("x", "y", "width", "height"))
    return x, y, x + width, y + height


def overlap(a, b):
    return a[0] < b[2] and b[0] < a[2] and a[1] < b[3] and b[1] < a[3]


def check_picture(label, source, rows, holding):
    """A picture: it parses, its marks lie inside the frame, its texts inside the picture and beside one another."""
    svg = ElementTree.fromstring(source)
    _, _, width, height = map(float, svg.get("viewBox").split())
    frame = frame_of(svg)
    marks = [box for box in mark_boxes(svg) if box[2] < frame[3]]
    counts = [sum(1 for box in marks if box[0] == kind) for kind in ("band", "range", "tick", "mix", "off")]
    agree(label + ", marks", counts, [1, rows, rows * holding, rows, rows])
    outside = [box for box in marks if box[1] < frame[0] or box[2] < frame[1] or box[3] > frame[2] or box[4] > frame[3]]
    agree(label + ", marks outside the frame", outside, [])
    texts = list(text_boxes(svg))
    agree(label + ", texts outside", [box for box in texts if box[0] < 0 or box[1] < 0 or box[2] > width or box[3] > height], [])
    agree(label + ", texts that meet", [(a, b) for i, a in enumerate(texts) for b in texts[:i] if overlap(a, b)], [])
    inside = [box for box in texts if overlap(box, frame)]
    agree(label + ", texts in the frame", inside, [])
    return svg


LONG = "the weight of the machinery with all that belongs to it, as far as known, %d"


def picture_cases():
    for columns in (1, 8, 30, 32, 33, 64):
        for label, name, hull in (("short", "c%d", "Hull 9"), ("long", LONG, "Hull " + 40 * "MW"), ("wide", 12 * "船" + "%d", 60 * "船")):
            report = drawn_report(columns, name=name, hull=hull)
            drawn = picture.pictures(report)
            agree("pictures of %d columns" % columns, len(drawn), -(-columns // 32))
            for k, source in enumerate(drawn):
                rows = min(32, columns - 32 * k)
                svg = check_picture("%d columns, %s, %d" % (columns, label, k), source, rows, sum(1 for share in report.figures.shares if share))
                if label == "long":
                    titles = [node.findtext(SVG + "title") or "" for node in svg.iter(SVG + "text")]
                    agree("full names", sum(1 for j in range(32 * k, 32 * k + rows) if any(title.endswith(LONG % j) for title in titles)), rows)


EXTREMES = {
    "widest": ((LINE, [0], 0, 2, 3, 2, [2, 1], 4000000, 16000000), {}),
    "all alike": (([[0, 0], [0, 0]], [0, 0], 0, 1, 1, 1, [1, 0], 0, 0), {}),
    "tolerance": ((P, [1, 1], 1024000000, 9, 1, 1, [0, 1, 0], 10, 16), {}),
    "farthest sheet": (([[-2000]], [2000], 0, 1, 2, 1, [1], 16000000, 0), {}),
    "factors": CASES["factors"],
    "factor 0": CASES["m, outside"],
}


def extreme_pictures():
    """The widest values, all boats alike and equal to the sheet, a tolerance past the frame, the sheet farthest from the fleet, factors."""
    for label, (case, more) in EXTREMES.items():
        source = picture.pictures(hand_report(*case, **more))[0]
        check_picture(label, source, len(case[1]), sum(1 for share in case[6] if share))
        agree("past the frame: " + label, "past the frame" in source, label == "tolerance")
        agree("the legend of factors: " + label, ">× n<" in source, label in ("factors", "factor 0"))
    drawn = [picture.pictures(hand_report(*CASES[name][0], **CASES[name][1]))[0] for name in ("factors", "m, outside")]
    agree("the factor at its column", [">column 1 × 2<" in drawn[0], "* column 2 × 0<" in drawn[1]], [True, True])


def near(got, wanted):
    return len(got) == len(wanted) and all(abs(a - b) < 0.2 for a, b in zip(got, wanted))


def places():
    """Where marks stand, read off by the axis' own labels: the mixture, the boats of it, the fleet's range, the tolerance."""
    rows, target, *_ = yard_case()
    svg = ElementTree.fromstring(picture.pictures(yard_report())[0])
    axis = {0 if node.text == "sheet" else int(node.text): float(node.get("x")) for node in svg.iter(SVG + "text")
            if node.get("class") == "mid" and re.fullmatch(r"sheet|[+-]\d+", node.text)}
    low, high = min(axis), max(axis)
    unit = (axis[high] - axis[low]) / (high - low)

    def value(x):
        return (x - axis[low]) / unit + low

    agree("axis", near([value(axis[mark]) for mark in axis], list(axis)) and unit > 0, True)
    boxes = [box for box in mark_boxes(svg) if box[2] < frame_of(svg)[3]]
    middle = {kind: [value((box[1] + box[3]) / 2) for box in boxes if box[0] == kind] for kind in ("mix", "tick")}
    agree("the mixture's places", near(middle["mix"], [r / 210 for r in RESIDUAL]), True)
    agree("the boats' places", near(middle["tick"], [row[j] - u for j, u in enumerate(target) for s, row in zip(SHARES, rows) if s]), True)
    ranges = [(value(box[1]), value(box[3])) for box in boxes if box[0] == "range"]
    wanted = [(min(row[j] for row in rows) - u, max(row[j] for row in rows) - u) for j, u in enumerate(target)]
    agree("ranges", all(near(a, b) for a, b in zip(ranges, wanted)), True)
    band = next(box for box in boxes if box[0] == "band")
    agree("tolerance", near([value(band[1]), value(band[3])], [-5, 5]), True)
    widths = [float(node.get("stroke-width")) for node in svg.iter(SVG + "path") if node.get("class") == "tick"][:7]
    agree("wider for more shares", sorted(range(7), key=lambda i: widths[i]), sorted(range(7), key=lambda i: [s for s in SHARES if s][i]))
    bold = [node.text for node in svg.iter(SVG + "text") if "out" in node.get("class", "").split()]
    agree("outside the fleet, and off by more than on average", bold, ["+7.86", "* elec weight", "-17.53", "*", "+0"])


# ---------------------------------------------------------------- the page


def pages():
    """A page is one whole: it parses, has no script, fetches nothing, and names its files."""
    reports = [drawn_report(columns, name=name) for columns, name in ((1, "%d"), (30, "a <b> & \"c\" ]]> %d"), (64, LONG))]
    for report in reports + [yard_report(), hand_report(*CASES["a"][0])]:
        source, plain = page.page_of(report), text.text_of(report)
        tree = ElementTree.fromstring(source)
        tags = {node.tag.split("}")[-1] for node in tree.iter()}
        agree("tags", tags & {"script", "link", "img", "iframe", "object", "embed", "base", "form", "a"}, set())
        agree("attributes", {name for node in tree.iter() for name in node.attrib} & {"src", "href", "onload", "style", "action"}, set())
        agree("fetched", re.findall(r"https?:(?!//www\.w3\.org/2000/svg\")|url\(|@import", source), [])
        agree("pictures", len(list(tree.iter(SVG + "svg"))), -(-len(report.figures.columns) // 32))
        for name, content in report.files.items():
            line = "%s +%d +W.... +%s" % (re.escape(name), len(content), sha256(content))
            agree("named in the text", len(re.findall(line, plain)), 1)
            agree("named on the page", sha256(content) in source and ">%d<" % len(content) in source, True)
        for said in ("docs/formats.md", "docs/card.md", DATE, "mixcheck", "not checked"):
            agree("said: " + said, said in source and said in " ".join(plain.split()), True)


def sha256(content):
    """By another program than the report's."""
    return subprocess.run(["sha256sum"], input=content, stdout=subprocess.PIPE, check=True).stdout.split()[0].decode()


# ---------------------------------------------------------------- runs

STANDS_FOR_MIXCHECK = """#!%s
import os
import sys
sys.path.insert(0, %r)
import exact
import origins
sys.stderr.buffer.write(origins.old_files({name: exact.read_file(name) for name in os.listdir(".")}))
sys.stdout.buffer.write(exact.card_listing(*(exact.read_file(name) for name in ("fleet.wbk", "sheet.wsh", "card.wcd"))))
""" % (sys.executable, HERE)
PRINTS = "#!%s\nprint(%%r, end='')\n" % sys.executable


def run(files, mixcheck, *arguments):
    """Exit code, standard output, standard error and the folder afterwards; the program given is what is run as mixcheck."""
    with tempfile.TemporaryDirectory() as folder, tempfile.TemporaryDirectory() as other:
        program = os.path.join(other, "mixcheck")
        with open(program, "w", encoding="utf-8") as file:
            file.write(mixcheck)
        os.chmod(program, 0o755)
        for name, content in files.items():
            with open(os.path.join(folder, name), "wb") as file:
                file.write(content)
            noon = time.mktime(time.strptime(FILED + " 12", "%Y-%m-%d %H"))
            os.utime(os.path.join(folder, name), (noon, noon))
        done = subprocess.run([sys.executable, PROGRAM, "--mixcheck", program, "--date", DATE, *arguments, folder],
                              stdout=subprocess.PIPE, stderr=subprocess.PIPE, check=False)
        left = {name: exact.read_file(os.path.join(folder, name)) for name in os.listdir(folder)}
        return done.returncode, done.stdout.decode().replace(folder, "FOLDER"), done.stderr.decode(), left


def runs():
    files = yard_files(b"WCD1")
    true = exact.card_listing(*files.values()).decode()
    code, out, err, left = run(files, STANDS_FOR_MIXCHECK, "--displacement", "29.4", "--length", "17.6")
    agree("a report", (code, out, err), (0, "FOLDER/report.txt\nFOLDER/report.html\n", ""))
    agree("its files", sorted(left), sorted([*files, *mixreport.REPORTS]))
    report = mixreport.report_of(files, true, (None, None), DATE, *SIZES, filed=FILED)
    agree("what is written", [left[name].decode() for name in mixreport.REPORTS], [text.text_of(report), page.page_of(report)])
    factored, other = hand_files(*CASES["k"][0], card=b"WCD2", factors=[1, 2]), hand_files(*CASES["c"][0], card=b"WCD2")
    code, out, err, left = run(factored, STANDS_FOR_MIXCHECK)
    agree("a report with factors", (code, err, "The factors total 3." in " ".join(left["report.txt"].decode().split())), (0, "", True))
    code, out, err, left = run(dict(factored, **{"sheet.wsh": other["sheet.wsh"]}), STANDS_FOR_MIXCHECK)
    agree("by other factors", (code, out, sorted(left)), (1, "refused 38\n", sorted(factored)))
    for label, fleet in (("old files", origins.CHANGED), ("a CSV that is too long", bytes(2000000))):
        code, out, err, left = run(dict(files, **{"fleet.csv": fleet, "sheet.csv": b"another"}), STANDS_FOR_MIXCHECK)
        agree(label, (code, err.encode(), "report.txt" in left), (0, origins.OLD_BOOK + origins.OLD_SHEET, True))
    tampered = dict(files, **{"card.wcd": files["card.wcd"][:2] + b"\x0c" + files["card.wcd"][3:]})
    without = {name: files[name] for name in ("fleet.wbk", "sheet.wsh")}
    for label, these, mixcheck, line, said in (
            ("a share more", tampered, STANDS_FOR_MIXCHECK, "refused 37\n", "the card is refused"),
            ("no card", without, STANDS_FOR_MIXCHECK, "refused 31\n", "the card is refused"),
            ("an older report", dict(tampered, **{"report.html": b"older"}), STANDS_FOR_MIXCHECK, "refused 37\n", "report.html is as it was"),
            ("a mixcheck that accepts everything", tampered, PRINTS % true, "", "do not total"),
            ("another gap", files, PRINTS % true.replace("gap 4", "gap 5"), "", "other figures"),
            ("no listing", files, PRINTS % "", "", "other figures"),
            ("no program", files, "", "", "could not be run")):
        code, out, err, left = run(these, mixcheck)
        agree("no report: " + label, (code, out, said in err, left), (1 if line else 2, line, True, these))
    for wrong in (["--other"], ["--length", "0"], ["--date", "today"]):
        code, out, err, left = run(files, STANDS_FOR_MIXCHECK, *wrong)
        agree("usage: " + wrong[0], (code, out, err.startswith("usage: mixreport"), left), (2, "", True, files))


def outcome(files, checked):
    """The line that mixcheck printed where there is no report for that, 'other' for another reason, None for a report."""
    try:
        mixreport.report_of(files, checked, (None, None), DATE)
        return None
    except mixreport.NoReport as fault:
        return fault.line or "other"


def tampering():
    """Each byte of a card changed: no report by the reference's line, nor where mixcheck is replaced by one that accepts everything."""
    for case, more in (CASES["a"], CASES["c"], CASES["d"]):
        files = hand_files(*case, **more)
        true, card = hand_listing(case[0], *case[2:]), files["card.wcd"]
        agree("true", outcome(files, true), None)
        for at in range(len(card)):
            for change in (1, 2, 128):
                changed = card[:at] + bytes([card[at] ^ change]) + card[at + 1:]
                damaged = dict(files, **{"card.wcd": changed})
                line = exact.card_listing(*damaged.values()).decode()
                known = changed[-4:] in (b"WCD1", b"WCD2")
                agree("damage is refused", line.startswith("refused") or known, True)
                if line.startswith("refused"):
                    agree("byte %d of a card" % at, outcome(damaged, line), line)
                if not known or at < len(card) - 4:
                    agree("byte %d of a card, accepted" % at, outcome(damaged, true), "other")


    early = (P, [1, 1], 1, 3, 3, 2, [0, 1, 2], 26, 44)
    agree("Spent before the last step", outcome(hand_files(*early), hand_listing(P, *early[2:])), "other")


def main(arguments):
    if arguments == ["--write"]:
        write()
        return 0
    for part in (rounding, marked_sheets, sentences, warnings, worked_example, other_factors, estimates, stored, names_of_things, names_of_sheets,
                 names_by_rules, accepted_sheets, picture_cases, extreme_pictures, places, pages, runs, tampering):
        part()
    if test_exact.differences:
        print("report: %d of %d checks differ" % (test_exact.differences, test_exact.checks))
        return 1
    print("report: %d checks agree" % test_exact.checks)
    return 0


if __name__ == "__main__":
    sys.exit(main(sys.argv[1:]))
