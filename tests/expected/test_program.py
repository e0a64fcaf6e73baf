#!/usr/bin/env python3
"""What test_program prints: the four programs in one folder after another, each as the reference has it."""
import os
import sys

sys.path.insert(0, os.path.join(os.path.dirname(os.path.abspath(__file__)), ".."))
import exact  # noqa: E402
from make_data import FOLDERS  # noqa: E402
from printing import checksum  # noqa: E402

# In the program's order. The folder `none` does not stand in data/.
NAMES = ["larger", "beyond", "spent", "by_hand", "other_tolerance", "other_target", "book_refused", "sheet_refused", "card_refused",
         "no_book", "no_sheet", "card_a_folder", "none", "pair_second", "pair_first", "pair_equal", "pair_first_damaged",
         "pair_second_damaged", "pair_sheet_refused", "pair_no_second", "pair_better_a_folder", "factored", "other_factors",
         "factors_of_another", "factors_refused", "pair_factors"]


def contents(files, cards=("card.wcd",)):
    """Book, sheet and cards: a file that is missing, or a folder in its place, counts as empty."""
    return [files.get(name, b"") for name in ("fleet.wbk", "sheet.wsh", *cards)]


def left(files, name):
    """The lines of the card that stands in the folder."""
    card = files.get(name, b"")
    return b"bytes %d\nsum %d\n" % (len(card), checksum(card))


def mixcard(files):
    """What is printed. The card stands in the folder afterwards, unless the search is refused or another folder is in the way."""
    book, sheet, _ = contents(files)
    refusal, _, length, written = exact.write_card(book, sheet, bytes(1060))
    if not refusal:
        if any(name.startswith("card.wcd/") for name in files):
            return b""
        files["card.wcd"] = written[:length]
    return exact.listing(book, sheet)


def mixbetter(files):
    """The same of the better of two cards."""
    four = contents(files, ("first.wcd", "second.wcd"))
    refusal, part = exact.better_part(*four)
    if not refusal:
        if any(name.startswith("better.wcd/") for name in files):
            return b""
        files["better.wcd"] = part
    return exact.better_listing(*four)


def programs(title, files):
    """The five runs in a folder, of which the third may change the card and the last files the better of two."""
    yield title + b"\nmixlist\n" + exact.listing(*contents(files)[:2])
    yield b"mixcheck\n" + exact.card_listing(*contents(files))
    yield b"mixcard\n" + mixcard(files)
    yield left(files, "card.wcd")
    yield b"mixcheck\n" + exact.card_listing(*contents(files))
    yield b"mixbetter\n" + mixbetter(files) + left(files, "better.wcd")


def long(name, length):
    """The same in the folder `long`, once a file of it is that of the current folder, which ends at 40,000 bytes, or has a zero behind it."""
    files = FOLDERS["long"]
    files[name] = FOLDERS[""][name].rjust(40000, b"\0").ljust(length, b"\0")
    return programs(b"%s %d" % (name.encode(), length), files)


def every_folder():
    yield from programs(b"the current folder", FOLDERS[""])
    for name in NAMES:
        yield from programs(name.encode(), FOLDERS.get(name, {}))
    for name, lengths in (("card.wcd", (40000, 40001)), ("sheet.wsh", (40001, 40000)), ("fleet.wbk", (40001, 40000))):
        for length in lengths:
            yield from long(name, length)


sys.stdout.buffer.write(b"".join(every_folder()))
