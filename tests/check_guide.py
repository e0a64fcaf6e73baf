#!/usr/bin/env python3
"""See that docs/guide.md says what the reference gives: the table of tolerances for examples/yard, that of thousandths, the lines of faults, what mixbook, mixsheet,
mixcard, leanlist and mixqueue print, and that the book and the sheet of examples/yard are those of its CSVs."""
import os
import re
import sys
from fractions import Fraction

HERE = os.path.dirname(os.path.abspath(__file__))
sys.path.insert(0, HERE)
import csv_books  # noqa: E402
import csv_sheets  # noqa: E402
import exact  # noqa: E402
import leanings  # noqa: E402
import origins  # noqa: E402
import queues  # noqa: E402

ROOT = os.path.join(HERE, "..")
YARD = os.path.join(ROOT, "examples", "yard")


def block(text):
    """Lines as a page shows them."""
    return "\n\n" + "".join("    " + line + "\n" for line in text.decode().splitlines()) + "\n"


def tolerances(guide, book, target):
    """The rows of the table, and those that are wrong: verdict and squared distance of a search of 360 steps with each tolerance."""
    rows = re.findall(r"(?m)^\| ([0-9]+) \| ([a-z]+ [0-9]+) \| ([0-9.]+) \|$", guide)
    wrong = []
    for tolerance, verdict, distance in rows:
        lines = exact.listing(book, exact.make_sheet(target, steps=360, tolerance=int(tolerance))).decode().split("\n")
        weight, squared = int(lines[2].split()[2]), int(lines[3].split()[1])
        if not lines[2].startswith(verdict + " ") or "%.2f" % (squared / weight ** 2) != distance:
            wrong.append("tolerance " + tolerance)
    return rows, wrong


def fault_lines(guide):
    """The lines of faults on the page, and those that no case has."""
    said = {csv_books.made(case)[3] for case in [*csv_books.by_hand(), *csv_books.of_guide(), bytes(200001)]}
    said |= {csv_sheets.printed(*pair) for pair in [*csv_sheets.by_hand(), *csv_sheets.of_guide()]}
    said |= {name + b": not found in this folder" for name in (b"fleet.csv", b"sheet.csv")}
    said = {line.decode("latin-1").strip() for line in [*said, origins.OLD_BOOK, origins.OLD_SHEET]}
    lines = re.findall(r"`((?:fleet|sheet)\.csv[ :][^`]*)`", guide)
    return lines, [line for line in lines if line not in said]


def examples(guide, fleet, data, book, sheet):
    """What is wrong with the worked example: files, what the programs print of them, and the same with other factors."""
    factors = re.search(r"(?m)^    (factor,.*)$", guide)[1].encode() + b"\n"
    other = csv_sheets.made(fleet, data + factors)[4]
    made, asked = csv_books.made(fleet), csv_sheets.made(fleet, data)
    figures = []
    for one in (sheet, other):
        lines = exact.listing(book, one).decode().split("\n")
        weight, squared = int(lines[2].split()[2]), int(lines[3].split()[1])
        figures.append("%d / %d² = %.2f" % (squared, weight, squared / weight ** 2))
    wrong = [name for name, right in (("the book of examples/yard", made[4] == book), ("the sheet of examples/yard", asked[4] == sheet)) if not right]
    wrong += ["the lines of a program: %r" % text for text in (made[3], asked[3], exact.listing(book, sheet), exact.listing(book, other), data, leanings.printed(leanings.FOLDERS[""]), queues.printed(queues.FOLDERS[""], 7))
              if block(text) not in guide]
    return wrong + [figure for figure in figures if figure not in guide] + estimate(guide, fleet, data, book, other)


def estimate(guide, fleet, data, book, other):
    """What is wrong with the example of a value that is left open: its lines, the search, and what the mixture has there."""
    hull, factors = re.search(r"(?m)^    (.*,,.*)\n    (factor,.*)$", guide).groups()
    lines = data.decode().splitlines()
    sheet = csv_sheets.made(fleet, "\n".join([lines[0], hull, *lines[2:], factors, ""]).encode())[4]
    given, left = lines[1].split(","), hull.split(",")
    place = left.index("")
    wrong = [] if given[:place] + [""] + given[place + 1:] == left and sheet else ["the line of a value left open"]
    if exact.listing(book, sheet) != exact.listing(book, other):
        wrong.append("a value left open changes the search")
    shares = [line.split()[1:] for line in exact.listing(book, sheet).decode().splitlines() if line.startswith("boat ")]
    values = [(int(share), int(fleet.decode().splitlines()[2 + int(boat)].split(",")[place])) for boat, share in shares]
    total, weight = sum(a * b for a, b in values), sum(a for a, _ in values)
    said = ("%d / %d = %.2f thousandths" % (total, weight, total / weight), "(%s) / %d = %d / %d" % (" + ".join("%d × %d" % pair for pair in values), weight, total, weight))
    return wrong + ["not on the page: " + text for text in said if text not in guide]


def thousandths(guide, fleet):
    """The rows of the table from kilograms and metres to thousandths, and those that are wrong: each quotient, its rounding, and the values of the fleet."""
    displacement, length = (Fraction(text) for text in re.search(r"with D = ([0-9.]+) t and L = ([0-9.]+) m", guide).groups())
    weights = re.findall(r"(?m)^\| ([^|]+) \| ([0-9,]+) kg \| ([0-9]+) / ([0-9.]+) = ([0-9.]+) \| (-?[0-9]+) \|$", guide)
    moments = re.findall(r"(?m)^\| ([^|]+) \| ([0-9.]+) t at (-?[0-9.]+) m \| 1000 × (-?[0-9.]+) / ([0-9.]+) = (-?[0-9.]+) \| (-?[0-9]+) \|$", guide)
    total = sum(int(row[2]) for row in weights)
    wrong = []
    for name, shown, kilograms, tonnes, quotient, value in weights:
        exactly = Fraction(kilograms) / displacement
        if (shown.replace(",", ""), Fraction(tonnes), quotient, int(value)) != (kilograms, displacement, "%.2f" % exactly, round(exactly)):
            wrong.append("thousandths of " + name)
    for name, weight, lever, moment, product, quotient, value in moments:
        exactly = 1000 * Fraction(weight) * Fraction(lever) / (displacement * length)
        if (Fraction(weight), moment, Fraction(product), quotient, int(value)) != (
                Fraction(total, 1000), "%.3f" % (Fraction(weight) * Fraction(lever)), displacement * length, "%.2f" % exactly, round(exactly)):
            wrong.append("thousandths of " + name)
    lines = [line.split(",") for line in fleet.decode().splitlines()]
    boat = next(line for line in lines if line[0] == re.search(r"For ([^,]+), with D = ", guide)[1])
    if [(row[0], row[-1]) for row in [*weights, *moments]] != list(zip(lines[0][1:], boat[1:])):
        wrong.append("thousandths: the values are not those of examples/yard")
    said = ("D × L = %.2f t m" % (displacement * length), "total %s kg" % format(total, ","), "here %.1f kg" % (displacement / 2))
    return [*weights, *moments], wrong + ["not on the page: " + text for text in said if text not in guide]


def main():
    with open(os.path.join(ROOT, "docs", "guide.md"), encoding="utf-8") as file:
        guide = file.read()
    fleet, data, book, sheet = (exact.read_file(os.path.join(YARD, name)) for name in ("fleet.csv", "sheet.csv", "fleet.wbk", "sheet.wsh"))
    rows, wrong = tolerances(guide, book, exact.read_sheet(sheet)[0])
    lines, unsaid = fault_lines(guide)
    values, other = thousandths(guide, fleet)
    faults = wrong + unsaid + other + examples(guide, fleet, data, book, sheet)
    for fault in faults:
        print("docs/guide.md: " + fault)
    print("guide: %d tolerances, %d lines, %d values, faults: %d" % (len(rows), len(lines), len(values), len(faults)))
    return 1 if faults or len(rows) < 5 or len(lines) < 30 or len(values) < 8 else 0


if __name__ == "__main__":
    sys.exit(main())
