"""The picture of a report: one row a column, all on one axis, the value less the sheet.

A row has the fleet's range, a tick for each boat of the mixture (wider for more shares) and the mixture itself; a band over all rows is the
tolerance as a root mean square. A column that the sheet leaves open is drawn about the mixture's value, which is its estimate. What tells the marks apart is their shape and how dark they are, so that it reads in black and white. More than 32
columns make several pictures with the same axis, so that each fits a printed page.
"""
import unicodedata
from fractions import Fraction
from html import escape

from decimals import decimal, root
from words import is_estimate, is_more, is_outside, limit, real, subtitle, title

MOST_ROWS = 32
WIDTH, MARGIN = 900, 16
NAME_RIGHT, NAME_WIDTH = 196, 180
LEFT, RIGHT, INSET = 208, 620, 8      # the frame, and how far from its sides marks may stand
SHEET_RIGHT, DIFFERENCE_RIGHT, REAL_RIGHT = 676, 762, 884
TOP, ROW, BAR, TICK = 88, 24, 12, 16  # the rows: where they start, their height, that of a range and of a tick
LEGEND = 22                           # the height of a line of the legend
SIZE = 12                             # of the type

STYLE = """text{font-family:"DejaVu Sans",Verdana,Arial,sans-serif;font-size:12px;fill:#222}
.head{font-size:16px;font-weight:bold}.out{font-weight:bold}.end{text-anchor:end}.mid{text-anchor:middle}
.frame{fill:none;stroke:#666}.grid{stroke:#ccc}.zero{stroke:#222}.band{fill:#e2efdc}.edge{stroke:#4d6b48;stroke-dasharray:5 4}
.range{fill:#d3dae2;stroke:#98a3ae}.tick{stroke:#1f4e79;stroke-opacity:.85}
.off{stroke:#a3201a;stroke-width:3}.mix{fill:#a3201a;stroke:#fff;stroke-width:1.5}"""


# ---------------------------------------------------------------- type


def letter_width(c):
    """The width of a letter over the size of the type, by a wide common typeface."""
    if unicodedata.combining(c):
        return 0
    if c == "‰":
        return 1.35
    if c in "mwMW@%…—" or c > "\u02ff":
        return 1.1
    if c in " iljtfr.,:;'|!()[]-":
        return 0.42
    return 0.85 if c.isupper() or c in "+×" else 0.65


def text_width(text, size=SIZE, bold=False):
    return sum(map(letter_width, text)) * size * (1.12 if bold else 1)


def cut(text, room, size=SIZE, bold=False):
    """A text, or as much of its start as there is room for, with dots."""
    if text_width(text, size, bold) <= room:
        return text
    while text and text_width(text + "…", size, bold) > room:
        text = text[:-1]
    return text.rstrip() + "…"


def label(x, y, text, kind="", full=None):
    """A text; where it is cut, the full one is its title."""
    more = "<title>%s</title>" % escape(full) if full not in (None, text) else ""
    return '<text x="%s" y="%s"%s>%s%s</text>' % (x, y, ' class="%s"' % kind if kind else "", more, escape(text))


# ---------------------------------------------------------------- the axis


def zero(report, j):
    """The value of column j that stands in the middle: the sheet's, or the mixture's where the sheet leaves it open."""
    c = report.figures.columns[j]
    return c.mixture if is_estimate(report, j) else c.sheet


class Axis:
    """The value less the sheet, from the fleet's least to its largest over all columns, in round steps."""

    def __init__(self, report):
        columns = list(enumerate(report.figures.columns))
        least = min(min(c.least - zero(report, j) for j, c in columns), 0)
        most = max(max(c.most - zero(report, j) for j, c in columns), 0)
        self.step = next(step for step in round_steps() if (most - least) / step <= 7)
        self.low = least // self.step * self.step
        self.high = -(-most // self.step) * self.step
        if self.low == self.high:
            self.low, self.high = -self.step, self.step

    def at(self, value):
        """Where a value stands, from the frame's left to its right."""
        span = RIGHT - LEFT - 2 * INSET
        return float(round(LEFT + INSET + Fraction(value - self.low) * span / (self.high - self.low), 1))

    def marks(self):
        return range(self.low, self.high + 1, self.step)


def round_steps():
    """1, 2, 5, 10, 20, 50, .."""
    power = 1
    while True:
        yield from (power, 2 * power, 5 * power)
        power *= 10


def band(axis, width):
    """The edges of the tolerance band as they stand in the frame, None for one that lies outside it."""
    low, high = -width, width
    return (axis.at(low) if low >= axis.low else None), (axis.at(high) if high <= axis.high else None)


# ---------------------------------------------------------------- the parts


def band_parts(axis, width, top, bottom):
    low, high = band(axis, width)
    left, right = LEFT if low is None else low, RIGHT if high is None else high
    yield '<rect class="band" x="%s" y="%s" width="%s" height="%s"/>' % (left, top, round(right - left, 1), bottom - top)
    for x in (low, high):
        if x is not None:
            yield '<path class="edge" d="M%s %sV%s"/>' % (x, top, bottom)


def axis_parts(axis, top, bottom):
    for value in axis.marks():
        x = axis.at(value)
        yield '<path class="%s" d="M%s %sV%s"/>' % ("grid" if value else "zero", x, top, bottom)
        yield label(x, bottom + 16, "%+d" % value if value else "sheet", "mid")
    yield '<rect class="frame" x="%s" y="%s" width="%s" height="%s"/>' % (LEFT, top, RIGHT - LEFT, bottom - top)


def tick_parts(report, axis, j, y):
    """A tick for each boat of the mixture, wider for more shares."""
    f = report.figures
    for i, share in enumerate(f.shares):
        if share:
            part = Fraction(share, f.weight)
            said = "%s: %d, %s %%" % (report.names.boats[i], report.book.rows[i][j], decimal(100 * part, 1))
            yield '<path class="tick" stroke-width="%s" d="M%s %sv%d"><title>%s</title></path>' % (
                decimal(1 + 8 * part, 2), axis.at(report.book.rows[i][j] - zero(report, j)), y - TICK // 2, TICK, escape(said))


def name_part(report, j, y):
    """The column's name, with a star and bold where the sheet lies outside the fleet, and with its factor where it is not 1."""
    c, full = report.figures.columns[j], report.names.columns[j]
    outside = is_outside(report, j)
    before, behind = "* " if outside else "", "" if c.factor == 1 else " × %d" % c.factor
    room = NAME_WIDTH - text_width(before + behind, SIZE, outside)
    return label(NAME_RIGHT, y + 4, before + cut(full, room, SIZE, outside) + behind, "end out" if outside else "end", before + full + behind)


def number_parts(report, j, y):
    """The column's numbers at the right: bold where it is off by more than the tolerance is on average. An estimate has its value alone."""
    c, unit, more = report.figures.columns[j], report.names.units[j], is_more(report, j)
    if is_estimate(report, j):
        yield label(DIFFERENCE_RIGHT, y + 4, "≈ " + decimal(c.mixture), "end")
        said = real(c.mixture, unit, report.names, sign=False)
    else:
        yield label(SHEET_RIGHT, y + 4, str(c.sheet), "end")
        yield label(DIFFERENCE_RIGHT, y + 4, decimal(c.difference, sign=True), "end out" if more else "end")
        said = real(c.difference, unit, report.names)
    if said and text_width(said) <= REAL_RIGHT - DIFFERENCE_RIGHT - 8:
        yield label(REAL_RIGHT, y + 4, said, "end")


def row_parts(report, axis, j, y):
    c = report.figures.columns[j]
    yield name_part(report, j, y)
    middle = zero(report, j)
    left, right = axis.at(c.least - middle), axis.at(c.most - middle)
    yield '<rect class="range" x="%s" y="%s" width="%s" height="%d"/>' % (left, y - BAR // 2, round(right - left, 1), BAR)
    yield from tick_parts(report, axis, j, y)
    x = axis.at(c.mixture - middle)
    yield '<path class="off" d="M%s %sH%s"/>' % (axis.at(0), y, x)
    yield '<circle class="mix" cx="%s" cy="%s" r="5"><title>%s</title></circle>' % (x, y, escape("the mixture: " + decimal(c.mixture)))
    yield from number_parts(report, j, y)


def legend_lines(report):
    """The lines of the legend that stand there where they are needed: the sign with the end or the start where it stands, and what it means."""
    columns = range(len(report.figures.columns))
    if any(is_outside(report, j) for j in columns):
        yield "*", "out", "bold: here the sheet lies outside what the fleet has, and no mixture reaches it"
    if any(is_more(report, j) for j in columns):
        yield "+0", "out", "a bold difference: off by more than the tolerance is on average"
    if any(is_estimate(report, j) for j in columns):
        yield "≈", "", "an estimate: the sheet leaves the column open, and its row is drawn about the mixture"
    if any(c.factor != 1 for c in report.figures.columns):
        yield "× n", "", "behind a name: the column counts n times in the distance; without it, once"


def legend_parts(report, axis, width, y):
    """What the marks are, in two columns, then line by line."""
    outside = ", past the frame" if band(axis, width) == (None, None) else ""
    yield '<circle class="mix" cx="28" cy="%s" r="5"/>' % (y - 4) + label(46, y, "the mixture, joined to the sheet")
    yield '<rect class="range" x="330" y="%s" width="26" height="%d"/>' % (y - 10, BAR) + label(364, y, "all boats of the book, least to largest")
    y += LEGEND
    yield '<path class="tick" stroke-width="3" d="M28 %sv%d"/>' % (y - 12, TICK) + label(46, y, "a boat of it, wider for more shares")
    yield '<rect class="band" x="330" y="%s" width="26" height="%d"/><path class="edge" d="M330 %sv%dM356 %sv%d"/>' % (
        y - 10, BAR, y - 10, BAR, y - 10, BAR) + label(364, y, "tolerance: %s on average (root mean square)%s" % (root(width * width), outside))
    for sign, kind, meaning in legend_lines(report):
        y += LEGEND
        yield label(40, y, sign, ("end " + kind).strip()) + label(46, y, meaning)


def picture(report, axis, first, last, part):
    """The picture of the columns from first to before last; `part` says which of several it is."""
    bottom = TOP + (last - first) * ROW
    height = bottom + 90 + LEGEND * len(list(legend_lines(report)))
    width = band_limit(report)
    heading = title(report)
    parts = ['<svg xmlns="http://www.w3.org/2000/svg" viewBox="0 0 %d %d" width="%d" height="%d" role="img" aria-label="%s">' % (
        WIDTH, height, WIDTH, height, escape(heading + part))]
    parts += ["<style>%s</style>" % STYLE, '<rect width="%d" height="%d" fill="#fff"/>' % (WIDTH, height)]
    room = WIDTH - 2 * MARGIN - text_width(part, 16, True)
    parts.append(label(MARGIN, 28, cut(heading, room, 16, True) + part, "head", heading + part))
    parts.append(label(MARGIN, 50, subtitle(report)))
    parts += [label(SHEET_RIGHT, TOP - 10, "sheet", "end"), label(REAL_RIGHT, TOP - 10, "the mixture less the sheet", "end")]
    parts += band_parts(axis, width, TOP, bottom)
    parts += axis_parts(axis, TOP, bottom)
    for j in range(first, last):
        parts += row_parts(report, axis, j, TOP + (j - first) * ROW + ROW // 2)
    parts.append(label((LEFT + RIGHT) // 2, bottom + 34, "value less the sheet, in the columns' units", "mid"))
    parts += legend_parts(report, axis, width, bottom + 62)
    return "\n".join(parts + ["</svg>"]) + "\n"


def band_limit(report):
    """The tolerance as a root mean square, to three decimals."""
    return Fraction(root(limit(report), 3))


def pictures(report):
    """The pictures of a report, each as an SVG text."""
    columns = len(report.figures.columns)
    axis = Axis(report)
    starts = range(0, columns, MOST_ROWS)
    return [picture(report, axis, first, min(first + MOST_ROWS, columns), ", part %d of %d" % (k, len(starts)) if len(starts) > 1 else "")
            for k, first in enumerate(starts, 1)]
