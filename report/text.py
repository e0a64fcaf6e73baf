"""A report as plain text."""
import textwrap
import unicodedata

from words import Heading, Lines, Paragraph, Table, blocks, title

WIDTH = 110


def width(text):
    """How many columns of a terminal a text takes."""
    return sum(0 if unicodedata.combining(c) else 2 if unicodedata.east_asian_width(c) in "WF" else 1 for c in text)


def padded(text, columns, left):
    space = " " * (columns - width(text))
    return text + space if left else space + text


def table_lines(table):
    lines = [table.head] + table.rows if any(table.head) else table.rows
    columns = [max(width(line[i]) for line in lines) for i in range(len(table.head))]
    return ["  ".join(padded(cell, columns[i], i in table.left) for i, cell in enumerate(line)).rstrip() for line in lines]


def block_lines(block):
    """The lines of a block, an empty one behind them; none of the pictures."""
    if isinstance(block, Heading):
        return [block.text, "-" * width(block.text)]
    if isinstance(block, Paragraph):
        return textwrap.wrap(block.text, WIDTH) + [""]
    if isinstance(block, Table):
        return table_lines(block) + [""]
    if isinstance(block, Lines):
        return ["    " + line for line in block.lines] + [""]
    return []


def text_of(report):
    heading = title(report)
    lines = [heading, "=" * width(heading), ""]
    for block in blocks(report):
        lines += block_lines(block)
    return "\n".join(lines).rstrip("\n") + "\n"
