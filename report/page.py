"""A report as one page: its own style, the pictures within it, no script, nothing fetched. It is well-formed XML as well."""
from html import escape

from picture import pictures
from words import Heading, Lines, Paragraph, Table, blocks, title

STYLE = """:root{color-scheme:light}
body{font:15px/1.45 "DejaVu Sans",Verdana,Arial,sans-serif;color:#222;background:#fff;max-width:64em;margin:1.5em auto;padding:0 1em}
h1{font-size:1.5em;margin:0 0 .6em}h1,p{overflow-wrap:anywhere}h2{font-size:1.15em;margin:1.6em 0 .5em;border-bottom:1px solid #999;break-after:avoid}
p{margin:.5em 0;max-width:48em}.verdict{border:2px solid #222;padding:.4em .8em;font-weight:bold;font-size:1.1em;display:inline-block}
.wide{overflow-x:auto;margin:.6em 0}table{border-collapse:collapse;font-size:.92em}
th,td{padding:.2em .6em;border-bottom:1px solid #bbb;text-align:right;font-variant-numeric:tabular-nums;white-space:nowrap;vertical-align:top}
th{border-bottom:2px solid #555}.left{text-align:left}.long{white-space:normal;overflow-wrap:anywhere;min-width:14em}
.code{font-family:"DejaVu Sans Mono",monospace;font-size:.85em}pre{margin:.6em 0 .6em 1.5em;white-space:pre-wrap}
svg{display:block;max-width:100%;min-width:700px;height:auto}tr,svg{break-inside:avoid}thead{display:table-header-group}
@media print{@page{size:A4;margin:14mm}body{font-size:9.5pt;max-width:none;margin:0;padding:0}p{max-width:none}
.wide{overflow:visible}svg{min-width:0;width:100%}table{font-size:8.5pt}th,td{padding:.15em .4em}
th{white-space:normal}.long{min-width:5em}}"""


LONG = 24  # letters of a cell, from which on it may take several lines


def cell(table, i, tag, text):
    """Cell i of a row of a table."""
    kinds = [kind for kind, is_so in (("left", i in table.left), ("code", i in table.code and tag == "td"),
                                      ("long", len(text) > LONG and i not in table.code)) if is_so]
    return "<%s%s>%s</%s>" % (tag, ' class="%s"' % " ".join(kinds) if kinds else "", escape(text), tag)


def table_part(table):
    def row(tag, cells):
        return "<tr>%s</tr>" % "".join(cell(table, i, tag, text) for i, text in enumerate(cells))
    body = "\n".join(row("td", cells) for cells in table.rows)
    return '<div class="wide"><table>\n<thead>%s</thead>\n<tbody>\n%s\n</tbody></table></div>' % (row("th", table.head), body)


def block_part(block, report):
    """A block on the page; what is none of these is where the pictures stand."""
    if isinstance(block, Heading):
        return "<h2>%s</h2>" % escape(block.text)
    if isinstance(block, Paragraph):
        return "<p%s>%s</p>" % (' class="verdict"' if block.strong else "", escape(block.text))
    if isinstance(block, Table):
        return table_part(block)
    if isinstance(block, Lines):
        return "<pre>%s</pre>" % escape("\n".join(block.lines))
    return "<h2>Picture</h2>\n" + "\n".join('<div class="wide">\n%s</div>' % svg for svg in pictures(report))


def page_of(report):
    heading = escape(title(report))
    parts = ["<!DOCTYPE html>", '<html lang="en"><head><meta charset="utf-8"/><meta name="viewport" content="width=device-width"/>',
             "<title>%s</title>" % heading, "<style>\n%s\n</style></head><body>" % STYLE, "<h1>%s</h1>" % heading]
    parts += [block_part(block, report) for block in blocks(report)]
    return "\n".join(parts + ["</body></html>"]) + "\n"
