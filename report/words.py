"""What a report says, as blocks that the text and the page put into their forms."""
import hashlib
from dataclasses import dataclass
from fractions import Fraction

from decimals import DOWN, NEAREST, UP, decimal, root, root_difference
from editions import BEYOND, VERDICT_WORDS, WITHIN

MOST_STEPS = 360


@dataclass(frozen=True)
class Heading:
    text: str


@dataclass(frozen=True)
class Paragraph:
    text: str
    strong: bool = False


@dataclass(frozen=True)
class Table:
    """Columns in `left` are words, the others numbers; those in `code` are in letters of one width."""

    head: list
    rows: list
    left: tuple
    code: tuple = ()


@dataclass(frozen=True)
class Lines:
    """Lines that stay as they are."""

    lines: list


@dataclass(frozen=True)
class Pictures:
    """Where the page has its pictures; the text has none."""


@dataclass(frozen=True)
class Report:
    """What a report is made of."""

    files: dict    # the bytes of the three files by name
    book: object
    sheet: object
    card: object
    figures: object
    names: object
    listing: str
    date: str
    filed: str = ""  # the day on which the card's file was last changed, where it is known


def title(report):
    holding = sum(1 for share in report.figures.shares if share)
    return "%s as a mixture of %d of %s" % (report.names.hull, holding, counted(len(report.book.rows), "boat"))


def counted(n, thing):
    return "%d %s%s" % (n, thing, "" if n == 1 else "s")


# ---------------------------------------------------------------- what a column is


def is_estimate(report, j):
    """Whether the sheet's table leaves column j open, so that the mixture's value is an estimate."""
    return report.names.estimated[j]


def is_outside(report, j):
    """Whether the sheet asks for a value outside what the fleet has."""
    return report.figures.columns[j].outside and not is_estimate(report, j)


def limit(report):
    """The tolerance as a mean square over the columns, by their factors."""
    return Fraction(report.sheet.tolerance, report.figures.count)


def is_more(report, j):
    """Whether column j counts and is off by more than the tolerance is on average."""
    c = report.figures.columns[j]
    return c.factor > 0 and c.difference ** 2 > limit(report)


def columns_that(report, test):
    """The names of the columns of which a test holds."""
    return [name for j, name in enumerate(report.names.columns) if test(report, j)]


# ---------------------------------------------------------------- the verdict


def outside_sentence(report):
    """Which columns of the sheet, of those that count, no mixture can reach."""
    columns = report.figures.columns
    names = columns_that(report, lambda report, j: columns[j].factor and is_outside(report, j))
    if not names:
        counting = "" if all(column.factor for column in columns) else " that counts"
        return "In each column%s by itself the sheet lies within the fleet; what no mixture meets is the columns together." % counting
    return "The sheet lies outside the fleet in %s, where no mixture can reach it." % ", ".join(names)


def steps_sentence(report):
    """How the steps were used."""
    t, most = report.card.steps, report.sheet.steps
    if report.figures.slack is None:
        return ("The card states %d of %s; its shares are not those that so many steps of the search give, so it was made in another way. "
                "What stands here of its distances holds all the same." % (t, counted(most, "step")))
    if t == most:
        return "These are the shares after %s that the sheet allows." % ("the one step" if t == 1 else "all %d steps" % t)
    return "These are the shares after %d of the %d steps that the sheet allows; what further steps would give was not looked at." % (t, most)


def spent_advice(report):
    enough = -(-report.figures.distance // report.figures.weight ** 2)
    more = "ask for more steps, up to %d, or " % MOST_STEPS if report.sheet.steps < MOST_STEPS else ""
    return "Next: %sask with another tolerance: this mixture meets %d." % (more, enough)


def verdict_sentences(report):
    """The verdict in words, what it means, and what to do next."""
    f, asked = report.figures, report.sheet.tolerance
    if f.verdict == WITHIN:
        lead = "WITHIN: this mixture is near enough."
        meaning = "Its squared distance is at most the %d that the sheet asks for." % asked
        advice = "Next: take the boats and shares below as the estimate. For a nearer mixture search again with a lower tolerance."
        if not f.distance:
            advice = "Next: take the boats and shares below as the estimate. It meets the sheet exactly."
    elif f.verdict == BEYOND:
        lead = "BEYOND: no mixture of these boats is near enough."
        meaning = "The squared distance of every mixture is above the %d that the sheet asks for. %s" % (asked, outside_sentence(report))
        advice = ("Next: more steps cannot help. Ask for less (another target or a higher tolerance) or add a boat to the book. "
                  "To look for the nearest mixture search again with a higher tolerance: the run then goes on.")
    else:
        lead = "SPENT: neither was shown."
        meaning = "This mixture's squared distance is above the %d that the sheet asks for; whether every mixture's is was not shown." % asked
        advice = spent_advice(report)
    return [Paragraph(lead, strong=True), Paragraph(meaning), Paragraph(advice), Paragraph(steps_sentence(report))]


# ---------------------------------------------------------------- distances


def best_floor(figures):
    """The larger of what the gap and the steps say that no mixture is below."""
    return max(figures.floor, figures.by_steps)


def distance_row(name, squared, count, way):
    return [name, root(squared, 2, way), decimal(squared, 2, way), root(squared / count, 2, way)]


def nearest_warning(report):
    """Where a single boat is nearer than the mixture: a run stops at its first verdict, and before its last step it may be so."""
    f = report.figures
    if f.alone[f.nearest] < f.squared:
        yield Paragraph("WARNING: one boat by itself is nearer than this mixture: %s, at a distance of %s where the mixture is at %s." % (
            report.names.boats[f.nearest], root(f.alone[f.nearest]), root(f.squared)), strong=True)


def distance_table(report):
    f = report.figures
    rows = [distance_row("asked for, at most", Fraction(report.sheet.tolerance), f.count, NEAREST),
            distance_row("this mixture", f.squared, f.count, NEAREST),
            distance_row("no mixture is below", best_floor(f), f.count, DOWN)]
    return Table(["", "distance", "squared", "on average"], rows, (0,))


def nearer_sentence(report):
    """How much nearer another mixture could come."""
    f, floor = report.figures, best_floor(report.figures)
    return Paragraph("So another mixture is nearer by at most %s, on average over the columns by at most %s." % (
        root_difference(f.squared, floor), root_difference(f.squared / f.count, floor / f.count)))


def more_sentence(report):
    """Which columns are off by more than the tolerance is on average."""
    names = columns_that(report, is_more)
    said = "No column is off by more."
    if names:
        said = "%s off by more, marked MORE below: %s." % ("1 column is" if len(names) == 1 else "%d columns are" % len(names), ", ".join(names))
    return Paragraph("The tolerance is %s on average over the columns (root mean square), not in each of them: a column may be off by more where others "
                     "are off by less. %s" % (root(limit(report)), said))


def bound_sentences(report):
    """What a distance is, and what no mixture is below, by the gap and by the steps."""
    f, edition = report.figures, report.card.edition
    weighed = "each column counted as often as its factor says, " if report.sheet.edition.factor_bytes else ""
    yield Paragraph("A distance is the root of the sum over the columns of the squared differences, %sin the columns' own units. "
                    "“On average” is the root mean square: a difference of that size in every column gives the distance." % weighed)
    yield Paragraph("By the gap no squared distance is below %s, which is %s with E = %d, G = %d and W² = %d. Why:" % (
        decimal(f.floor, 2, DOWN), edition.bound, f.distance, f.gap, f.weight ** 2))
    times = "factor × a × b" if report.sheet.edition.factor_bytes else "a × b"
    yield Lines(["<a, b> is the sum of %s over the columns, |a|² is <a, a>; u is the sheet, m the mixture." % times,
                 "With r = W (m - u), E = <r, r>, so that the squared distance |m - u|² is E / W².",
                 "G is the largest <r, W (m - v)> of the boats v. A mixture p is a mean of boats, so <r, W (m - p)> ≤ G.",
                 *edition.why])
    if f.slack is not None:
        yield Paragraph("By the steps none is below %s: these are the shares of %s of the search, whose squared distance is at most "
                        "4 D² / (t + 2) = %s above the least; D² = %d is the largest squared distance between two boats." % (
                            decimal(f.by_steps, 2, DOWN), counted(report.card.steps, "step"), decimal(f.slack, 2, UP), f.diameter))


# ---------------------------------------------------------------- boats


def boat_table(report):
    f, names = report.figures, report.names.boats
    order = sorted((i for i, share in enumerate(f.shares) if share), key=lambda i: (-f.shares[i], i))
    percent = [decimal(Fraction(100 * share, f.weight), 1) for share in f.shares]
    rows = [["boat %d" % i, names[i], str(f.shares[i]), percent[i], root(f.alone[i])] for i in order]
    return Table(["listed as", "boat", "shares of %d" % f.weight, "per cent", "its own distance"], rows, (0, 1))


def nearest_sentence(report):
    f, i = report.figures, report.figures.nearest
    holds = "shares" if f.shares[i] else "no shares"
    idle = sum(1 for share in f.shares if not share)
    rest = {0: "Every boat of the book holds shares.", 1: "The other boat holds none."}.get(idle, "The other %d boats hold none." % idle)
    return Paragraph("In each column the mixture is the mean of these boats by their shares. %s The nearest single boat is %s (listed as boat %d), "
                     "at a distance of %s; it holds %s. The listing counts boats from 0." % (rest, report.names.boats[i], i, root(f.alone[i]), holds))


# ---------------------------------------------------------------- columns


WEIGHT, MOMENT = "‰D", "‰DL"


def squeezed(unit):
    """A unit without what may stand between its letters."""
    return "".join(c for c in unit if c not in " ·×*.")


def scale_of(unit, names):
    """What one of a column's units is: so many of a larger unit, its name, and the decimals to print; None where it is not known."""
    if squeezed(unit) == WEIGHT and names.displacement:
        return names.displacement, "kg", 0
    if squeezed(unit) == MOMENT and names.displacement and names.length:
        return names.displacement * names.length / 1000, "t m", 2
    return None


def real(value, unit, names, sign=True):
    """A value or a difference in kilograms or tonne metres, empty where displacement or length is not known."""
    scale = scale_of(unit, names)
    return "%s %s" % (decimal(value * scale[0], scale[2], sign=sign), scale[1]) if scale else ""


def note(report, j):
    """What is to be noted of column j."""
    marks = (("ESTIMATE", is_estimate), ("OUTSIDE", is_outside), ("MORE", is_more))
    return ", ".join(word for word, test in marks if test(report, j))


def column_cells(report, j):
    """Head and cell of each part that is said of column j."""
    c, names = report.figures.columns[j], report.names
    asked = ["", ""] if is_estimate(report, j) else [str(c.sheet), decimal(c.difference, sign=True)]
    cells = [("column", names.columns[j]), ("unit", names.units[j]), ("factor", str(c.factor)), ("sheet", asked[0]),
             ("mixture", decimal(c.mixture)), ("difference", asked[1]),
             ("% of squared", decimal(100 * c.part, 1)), ("fleet from", str(c.least)), ("to", str(c.most)), ("note", note(report, j))]
    shown = {"unit": any(names.units), "factor": bool(report.sheet.edition.factor_bytes),
             "note": any(note(report, i) for i in range(len(names.columns)))}
    return [(head, cell) for head, cell in cells if shown.get(head, True)]


def column_table(report):
    cells = [column_cells(report, j) for j in range(len(report.figures.columns))]
    head = [name for name, _ in cells[0]]
    words = ("column", "unit", "note")
    return Table(head, [[cell for _, cell in row] for row in cells], tuple(i for i, name in enumerate(head) if name in words))


NOTES = (("ESTIMATE", is_estimate, "the sheet leaves this column open, and what the mixture has there is the estimate"),
         ("OUTSIDE", is_outside, "the sheet is below the least or above the largest of the fleet, where no mixture can reach it"),
         ("MORE", is_more, "off by more than the tolerance is on average"))


def column_sentences(report):
    """What the table of the columns says."""
    yield Paragraph("Difference is the mixture less the sheet; “% of squared” is the column's part of the squared distance; the fleet's range is "
                    "over all boats of the book, with shares or without.")
    said = ["%s: %s." % (word, meaning) for word, test, meaning in NOTES if columns_that(report, test)]
    if said:
        yield Paragraph(" ".join(said))
    if report.sheet.edition.factor_bytes:
        yield Paragraph("The sheet has a factor for each column: its squared difference counts so many times, and one with the factor 0 does not count. "
                        "The factors total %d." % report.figures.count)


# ---------------------------------------------------------------- kilograms and metres


def size_row(name, asked, found, factor, unit, places):
    """A row of the sheet, the mixture and their difference, each times a factor; where the sheet leaves it open the mixture alone."""
    cells = [asked, found, None if asked is None else found - asked]
    return [name] + ["" if cell is None else "%s %s" % (decimal(cell * factor, places, sign=k == 2), unit) for k, cell in enumerate(cells)]


def total_of(report, wanted):
    """The total of the columns in these units, of the sheet (None where one is left open) and of the mixture."""
    chosen = [j for j, unit in enumerate(report.names.units) if squeezed(unit) == wanted]
    columns = report.figures.columns
    asked = None if any(is_estimate(report, j) for j in chosen) else sum(columns[j].sheet for j in chosen)
    return asked, sum(columns[j].mixture for j in chosen), len(chosen)


def lever_name(column):
    """What a moment over a weight is called: LCG of an LCG moment."""
    return column[:-len(" moment")] if column.endswith(" moment") else column + " over the total"


def lever_rows(report):
    """For each moment the lever: the moment over the total of the weights."""
    asked, found, count = total_of(report, WEIGHT)
    length = report.names.length
    for j, unit in enumerate(report.names.units):
        if squeezed(unit) == MOMENT and length and count and found > 0:
            c = report.figures.columns[j]
            known = asked is not None and asked > 0 and not is_estimate(report, j)
            yield size_row(lever_name(report.names.columns[j]), Fraction(c.sheet, asked) if known else None, c.mixture / found, length, "m", 3)


def size_table(report):
    """Weights in kilograms with their total, moments in tonne metres, and their levers in metres."""
    names, rows = report.names, {WEIGHT: [], MOMENT: []}
    for j, unit in enumerate(names.units):
        scale, c = scale_of(unit, names), report.figures.columns[j]
        if scale:
            asked = None if is_estimate(report, j) else c.sheet
            rows[squeezed(unit)].append(size_row(names.columns[j], asked, c.mixture, *scale))
    asked, found, count = total_of(report, WEIGHT)
    total = [size_row("total", asked, found, names.displacement, "kg", 0)] if count > 1 else []
    return Table(["", "sheet", "mixture", "difference"], rows[WEIGHT] + total + rows[MOMENT] + list(lever_rows(report)), (0,))


def size_blocks(report):
    """The columns in kilograms and metres, where displacement and length are known."""
    names = report.names
    scales = {unit: scale_of(unit, names) for unit in names.units if scale_of(unit, names)}
    if not scales:
        return
    yield Heading("In kilograms and metres")
    yield size_table(report)
    said = "; ".join("1 %s is %s %s" % (unit, decimal(scale[0], 3), scale[1]) for unit, scale in scales.items())
    length = ", length %s m" % decimal(names.length) if names.length else ""
    yield Paragraph("%s (displacement %s t%s, %s)." % (said, decimal(names.displacement), length, names.sizes))
    if list(lever_rows(report)):
        yield Paragraph("A lever in metres is the moment over the total of the weights here: it is the centre of gravity where the moments are those of these "
                        "weights. Datum and sign are those of the yard's fleet.")


def estimate_blocks(report):
    """What the mixture has in the columns that the sheet leaves open."""
    chosen = [j for j in range(len(report.names.columns)) if is_estimate(report, j)]
    if not chosen:
        return
    names, columns = report.names, report.figures.columns
    yield Heading("Estimates")
    rows = [[names.columns[j], names.units[j], decimal(columns[j].mixture), real(columns[j].mixture, names.units[j], names, sign=False),
             str(columns[j].least), str(columns[j].most)] for j in chosen]
    yield Table(["column", "unit", "estimate", "that is", "fleet from", "to"], rows, (0, 1))
    yield Paragraph("The sheet leaves these open. They took no part in the search, so no figure here says how good they are; the fleet's range shows how far "
                    "boats differ.")


# ---------------------------------------------------------------- the fleet's rows

TABLE_COLUMNS = 8  # of the fleet in one table, so that it fits a page


def row_blocks(report):
    """The sheet and the rows of the book, of which everything else can be worked out again."""
    f, names, rows = report.figures, report.names, report.book.rows
    for first in range(0, len(names.columns), TABLE_COLUMNS):
        part = range(first, min(first + TABLE_COLUMNS, len(names.columns)))
        lines = [["", "the sheet", ""] + ["" if is_estimate(report, j) else str(f.columns[j].sheet) for j in part]]
        lines += [["boat %d" % i, names.boats[i], str(f.shares[i]) if f.shares[i] else ""] + [str(row[j]) for j in part] for i, row in enumerate(rows)]
        yield Table(["listed as", "boat", "shares"] + [names.columns[j] for j in part], lines, (0, 1))


# ---------------------------------------------------------------- files


def file_table(report):
    letters = {"fleet.wbk": report.book.letters, "sheet.wsh": report.sheet.letters, "card.wcd": report.card.letters}
    rows = [[name, str(len(content)), letters[name], hashlib.sha256(content).hexdigest()] for name, content in report.files.items()]
    return Table(["file", "bytes", "letters", "SHA-256"], rows, (0, 2, 3), (3,))


def file_blocks(report):
    """What was reported on, what its bytes are, and how to check it again."""
    yield file_table(report)
    if report.filed:
        yield Paragraph("card.wcd was last changed on %s, as the file system says; a copy may say another day." % report.filed)
    if report.names.fronts:
        yield Paragraph("An editor for text shows the table in front of %s, as it was written." % " and ".join(report.names.fronts))
    yield Paragraph("A file may start with text that does not count. What counts stands at its end, numbers with their lowest byte first:")
    for name, file in (("fleet.wbk", report.book), ("sheet.wsh", report.sheet), ("card.wcd", report.card)):
        yield Paragraph("%s: %s." % (name, file.edition.layout))
    yield Paragraph("W = t (t + 1) / 2 is the total of the shares, the squared distance is E / W², the gap G / W². The pages docs/formats.md and "
                    "docs/card.md of Dofitrano say more; its program mixcheck, whose check is proved, run in a folder with the three files prints:")
    yield Lines(report.listing.splitlines())
    yield Paragraph("sha256sum gives the checksums. This report was made on %s by Dofitrano's mixreport, which is not proved: it ran "
                    "mixcheck, computed every figure anew and compared distance, gap, verdict and shares before it wrote anything." % report.date)


# ---------------------------------------------------------------- the whole


def trust_sentence(report):
    """What was checked and what not."""
    named = report.names.notes or ["No table of names was found: boats and columns go by their numbers, the first being 1."]
    return Paragraph("mixcheck accepts this card for its book and sheet, and every figure here was computed anew from the three files. %s "
                     "Names and units are not checked." % " ".join(named))


def subtitle(report):
    """The verdict and the distances on one line."""
    f = report.figures
    return "%s at step %d of %d; on average over the columns %s, asked %s, no mixture below %s" % (
        VERDICT_WORDS[f.verdict], report.card.steps, report.sheet.steps, root(f.squared / f.count),
        root(limit(report)), root(best_floor(f) / f.count, 2, DOWN))


def blocks(report):
    """All that a report says, in its order."""
    yield from verdict_sentences(report)
    yield from nearest_warning(report)
    yield trust_sentence(report)
    yield from estimate_blocks(report)
    yield Heading("How near")
    yield distance_table(report)
    yield nearer_sentence(report)
    yield more_sentence(report)
    yield Pictures()
    yield Heading("Boats")
    yield boat_table(report)
    yield nearest_sentence(report)
    yield Heading("Columns")
    yield column_table(report)
    yield from column_sentences(report)
    yield from size_blocks(report)
    yield Heading("What the distances and bounds are")
    yield from bound_sentences(report)
    yield Heading("The fleet's rows")
    yield from row_blocks(report)
    yield Heading("The files, and how to check this again")
    yield from file_blocks(report)
