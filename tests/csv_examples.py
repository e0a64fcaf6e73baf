#!/usr/bin/env python3
"""Texts whose tokens are theorems: crates/csv_examples/proofs/Examples.antt, made here, with the fields that Python's csv module reads.

Without arguments it sees that the file is what it makes; with --write it writes it.
"""
import os
import sys

sys.path.insert(0, os.path.dirname(os.path.abspath(__file__)))
import csv_reader  # noqa: E402

PATH = os.path.join(os.path.dirname(os.path.abspath(__file__)), "..", "crates", "csv_examples", "proofs", "Examples.antt")

FIELD, LINE, END = 256, 257, 258

# a name for each, and the text
TEXTS = {
    "plain": b"boat,hull\nAlka,352\n",
    "no_line_end": b"boat,hull\nAlka,352",
    "carriage_returns": b"boat,hull\r\nAlka,352\r\n",
    "returns_alone": b"boat,hull\rAlka,352\r",
    "semicolons": b"boat;hull\nAlka;352\n",
    "tabs": b"boat\thull\nAlka\t352\n",
    "comma_before_semicolon": b"boat;hull,mach\n",
    "quoted_separator": b'"boat; any",hull\n',
    "comma_in_quotes": b'"weight, kg";hull\n',
    "doubled_quote": b'"5"" pump",""""\n',
    "line_in_quotes": b'"Alka\nII",1\n',
    "quote_inside": b'5" pump,1\n',
    "empty_fields": b',,\n"",\n',
    "blank_lines": b"a\n\nb\n\n",
    "blank_first_line": b"\nboat;a\n",
    "empty_quotes_first": b'""\r\nboat\ta\n',
    "quote_inside_tabs": b'5" boat\ta\n',
    "comma_in_later_quotes": b'boat;"a, m"\n',
    "mark": b"\xef\xbb\xbfboat,hull\n",
    "mark_and_quotes": b'\xef\xbb\xbf"boat, any";hull\n',
    "other_letters": "Å,Ø\n".encode(),
    "empty": b"",
}

HEAD = """-- Texts and their tokens, of which those that say nothing are left out: the fields are those that Python's csv module reads.
-- Made by tests/csv_examples.py.
use Rattle.std.proofs.Common.{refl}
use Rattle.std.specs.Prelude.{◌≡◌, cond, List, [], ◌∷◌, ℕ, eqb}
use Rattle.csv_bytes.specs.Tokens.{tokens, separator_from, separator, csv_tokens}

said : List ℕ → List ℕ
said [] = []
said (k ∷ ks) = cond (eqb k 259) (said ks) (k ∷ said ks)
"""


def fields(data):
    """The tokens of the fields that the csv module reads."""
    text = csv_reader.latin(data)
    lines, _, kind = csv_reader.parsed(text, csv_reader.separator(text))
    assert not kind
    out = []
    for line in lines:
        for field in line or [""]:
            out += [ord(letter) for letter in field] + [FIELD]
        out[-1] = LINE
    if text[-1:] in ("\r", "\n", ""):
        return out + [END]
    return out[:-1] + [END]


def listed(numbers):
    return "".join("%d ∷ " % n for n in numbers) + "[]"


def made():
    out = HEAD
    for name, data in TEXTS.items():
        out += "\n%s : said (csv_tokens %s) ≡ %s\n" % (name, "(%s)" % listed(data) if data else "[]", listed(fields(data)))
        out += "unfolding said tokens separator_from separator csv_tokens\n%s = refl\n" % name
    return out


def main(arguments):
    if arguments == ["--write"]:
        with open(PATH, "w", encoding="utf-8") as file:
            file.write(made())
        return 0
    with open(PATH, encoding="utf-8") as file:
        same = file.read() == made()
    print("csv examples: %d, %s" % (len(TEXTS), "as the csv module reads them" if same else "not what tests/csv_examples.py makes"))
    return 0 if same else 1


if __name__ == "__main__":
    sys.exit(main(sys.argv[1:]))
