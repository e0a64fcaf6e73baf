#!/usr/bin/env python3
"""Run the built programs in folders of their own, and compare what they print and leave with the reference.

Use: python3 tests/run_programs.py target/bin [NAME..]
Runs the programs that are named, all where none is, and report/mixreport with mixcheck. Where none is named all are run once more as tools/install
puts them into a folder, with their exit statuses. A program that is not built, or that nothing here tries, counts as a failed run. The last line
says how many runs passed.
"""
import concurrent.futures
import os
import re
import shutil
import subprocess
import sys
import tempfile

HERE = os.path.dirname(os.path.abspath(__file__))
sys.path.insert(0, HERE)
import card_details  # noqa: E402
import csv_books  # noqa: E402
import csv_sheets  # noqa: E402
import details  # noqa: E402
import exact  # noqa: E402
import leanings  # noqa: E402
import merges  # noqa: E402
import origins  # noqa: E402
import queues  # noqa: E402
import sheet_editions  # noqa: E402
import workings  # noqa: E402

P = [[0, 0], [4, 0], [0, 4]]
BOOK = exact.make_book(P)
SHEET = exact.make_sheet([1, 1], steps=9, tolerance=1)
SPENT = exact.make_sheet([1, 1], steps=2, tolerance=1)
NO_STEPS = exact.make_sheet([1, 1], steps=0, tolerance=1)
FACTORS = exact.make_sheet([1, 1], steps=2, tolerance=1, factors=[1, 2])
NO_FACTORS = exact.make_sheet([1, 1], steps=2, tolerance=1, factors=[0, 0])
NAMED = b"boat,length,beam\nAlka 12,0,0\n\"Eider, II\",4,2500\nJura,0,4\n"
WRONG_BOOK = exact.make_book([[0, 0], [4, 2500], [0, 4]], NAMED)
FOLDER = None  # stands for a folder in the place of a file
MIXREPORT = os.path.join(HERE, "..", "report", "mixreport")
INSTALL, PROGRAMS = (os.path.join(HERE, "..", "tools", name) for name in ("install", "programs"))

# Name, and the files of the folder.
FILES = [
    ("case a", {"fleet.wbk": BOOK, "sheet.wsh": SHEET}),
    ("spent", {"fleet.wbk": BOOK, "sheet.wsh": SPENT}),
    ("empty folder", {}),
    ("no sheet", {"fleet.wbk": BOOK}),
    ("no book", {"sheet.wsh": SHEET}),
    ("no steps", {"fleet.wbk": BOOK, "sheet.wsh": NO_STEPS}),
    ("factors", {"fleet.wbk": BOOK, "sheet.wsh": FACTORS}),
    ("factors of total 0", {"fleet.wbk": BOOK, "sheet.wsh": NO_FACTORS}),
    ("book of 40,000 bytes", {"fleet.wbk": BOOK.rjust(40000, b"x"), "sheet.wsh": SHEET}),
    ("book of 40,001 bytes", {"fleet.wbk": BOOK.rjust(40001, b"x"), "sheet.wsh": SHEET}),
    ("book of 90,000 bytes", {"fleet.wbk": BOOK.rjust(40000, b"x") + BOOK.rjust(50000, b"x"), "sheet.wsh": SHEET}),
    ("book cut at 40,001 bytes", {"fleet.wbk": BOOK.rjust(40001, b"x") + b"x", "sheet.wsh": SHEET}),
    ("sheet of 40,001 bytes", {"fleet.wbk": BOOK, "sheet.wsh": SHEET.rjust(40001, b"x")}),
    ("book a folder", {"fleet.wbk": FOLDER, "sheet.wsh": SHEET}),
    ("sheet a folder", {"fleet.wbk": BOOK, "sheet.wsh": FOLDER}),
    ("value of the book out of range", {"fleet.wbk": WRONG_BOOK, "sheet.wsh": SHEET}),
    ("value of a book without names out of range", {"fleet.wbk": exact.make_book([[0, 0], [4, 2500], [0, 4]]), "sheet.wsh": SHEET}),
    ("value of the sheet out of range", {"fleet.wbk": exact.make_book(P, NAMED), "sheet.wsh": exact.make_sheet([1, -2001], steps=9, tolerance=1)}),
    ("other columns", {"fleet.wbk": exact.make_book(P, NAMED), "sheet.wsh": exact.make_sheet([1], steps=9, tolerance=1)}),
    ("value out of range, no sheet", {"fleet.wbk": WRONG_BOOK}),
]


def old_folders():
    """Folders with CSVs beside the files, old ones and others: of origins.py, where no byte stands for a file that is not there, then some with a folder
    in the place of a CSV, and with an empty one."""
    for name, *files in [*origins.by_hand(), *origins.too_long()]:
        yield name, {file: data for file, data in zip(("fleet.csv", "sheet.csv", "fleet.wbk", "sheet.wsh"), files) if data}
    changed = {"fleet.wbk": origins.BOOK, "sheet.wsh": origins.ASKED, "fleet.csv": origins.CHANGED, "sheet.csv": origins.WITH_FACTORS}
    yield "both changed", changed
    for file in ("fleet.csv", "sheet.csv"):
        yield "both changed, no " + file, {name: data for name, data in changed.items() if name != file}
        yield "both changed, %s a folder" % file, dict(changed, **{file: FOLDER})
        yield "both changed, %s empty" % file, dict(changed, **{file: b""})
    for file in ("fleet.wbk", "sheet.wsh"):
        yield "both changed, %s a folder" % file, dict(changed, **{file: FOLDER})


FILES += old_folders()


def content(files, name):
    """A file as the programs count it: one that is missing or cannot be read is empty."""
    return files.get(name) or b""


def put(folder, files):
    """Puts files into a folder."""
    for name, data in files.items():
        path = os.path.join(folder, name)
        if data is FOLDER:
            os.mkdir(path)
        else:
            with open(path, "wb") as file:
                file.write(data)


def contents(folder):
    """The files of a folder, and those of its folders that have some."""
    left = {}
    for name in os.listdir(folder):
        path = os.path.join(folder, name)
        left[name] = contents(path) or FOLDER if os.path.isdir(path) else exact.read_file(path)
    return left


def is_installed(program):
    """Whether a program stands where tools/install puts it, so that it has an exit status."""
    return os.path.isdir(os.path.join(os.path.dirname(program), "..", "libexec"))


def status_of(program, out, err):
    """The exit status by what was printed: a built program has none."""
    if program == MIXREPORT or is_installed(program):
        if err.startswith(b"usage: ") or err.endswith((b": could not be written\n", b": could not be written whole\n")):
            return 2
        return 1 if not out or out.startswith(b"refused ") else 0
    return 0


def run(program, files, read_only=False, arguments=(), folders=None, output=subprocess.PIPE):
    """Standard output, standard error and the files of the folder afterwards; nothing of these where the exit status is wrong."""
    folder = tempfile.mkdtemp()
    try:
        put(folder, files)
        for name, inside in (folders or {}).items():
            os.mkdir(os.path.join(folder, name))
            put(os.path.join(folder, name), inside)
        command = [os.path.abspath(program), *arguments]
        if read_only:
            command = ["sh", "-c", "ulimit -f 0; trap '' XFSZ; exec \"$0\" \"$@\"", *command]
        done = subprocess.run(command, cwd=folder, stdout=output, stderr=subprocess.PIPE, check=False)
        if done.returncode != status_of(program, done.stdout, done.stderr):
            print("%s: status %d" % (program, done.returncode))
            return None, None, {}
        return done.stdout, done.stderr, contents(folder)
    finally:
        shutil.rmtree(folder)


class Runs:
    """Counts of what passed and failed."""

    def __init__(self):
        self.passed = 0
        self.failed = 0

    def expect(self, name, right):
        if right:
            self.passed += 1
        else:
            self.failed += 1
            print("FAILED: " + name)


# The files that each program reads, in its order, and the one that it files.
READ = {
    "mixlist": ("fleet.wbk", "sheet.wsh"),
    "mixcard": ("fleet.wbk", "sheet.wsh"),
    "mixcheck": ("fleet.wbk", "sheet.wsh", "card.wcd"),
    "mixbetter": ("fleet.wbk", "sheet.wsh", "first.wcd", "second.wcd"),
    "mixbook": ("fleet.csv",),
    "mixsheet": ("fleet.csv", "sheet.csv"),
    "mixedition": ("sheet.wsh",),
    "mixmerge": ("fleet.wbk", "bought.wbk"),
    "leanlist": ("fleet.wbk",),
    "mixqueue": ("fleet.wbk",),
    "mixwork": ("fleet.wbk", "sheet.wsh"),
}
# The number that comes before the folder, as the usage names it and as it is tried, where a program takes one.
NUMBERS = {"mixqueue": (b"ALLOWANCE", 9), "mixwork": (b"MOVES", 9)}
# What standard error says of files that were not made from the CSVs beside them, by the programs that look at them.
OLD = {"mixlist": origins.old_files, "mixcard": origins.old_files, "mixcheck": origins.old_files, "mixwork": origins.old_files, "mixsheet": origins.old_book}
FILED = {"mixbook": "fleet.wbk", "mixsheet": "sheet.wsh", "mixcard": "card.wcd", "mixbetter": "better.wcd", "mixedition": "other.wsh", "mixmerge": "merged.wbk", "mixwork": "worked.wcd"}


def cards_in(files):
    """How many cards can be opened before one that cannot, 65 where there are more."""
    return next(count for count in range(66) if count == 65 or "card%d.wcd" % (count + 1) not in files)


def lean_told(files, folder=""):
    """What standard error says of the files of leanlist: those that it cannot read, and the one that is refused."""
    lines = []

    def say(name, fault):
        lines.append((folder + name).encode() + b": " + fault + b"\n")

    def read(name):
        if name not in files:
            say(name, b"not found in this folder")
        elif files[name] is FOLDER:
            say(name, b"could not be read whole")
        return content(files, name)

    book, count = read("fleet.wbk"), cards_in(files)
    refusal = exact.lean_refusal(book, count, [])
    if refusal == 58:
        say(*(("card65.wcd", b"there are more than 64 cards") if count else ("card1.wcd", b"could not be opened")))
    elif refusal:
        say("fleet.wbk", b"this book is refused")
    else:
        for number in range(1, count + 1):
            sheet, card = read("sheet%d.wsh" % number), read("card%d.wcd" % number)
            refusal = exact.check_card(book, sheet, card, [0] * 256)[0]
            if refusal:
                say(*(("card%d.wcd" % number, b"this card is refused") if 31 <= refusal <= 39 else ("sheet%d.wsh" % number, b"this sheet is refused")))
                break
    return b"".join(lines)


def sheets_in(files):
    """How many sheets can be opened before one that cannot, 17 where there are more."""
    return next(count for count in range(18) if count == 17 or "sheet%d.wsh" % (count + 1) not in files)


def queue_told(files, allowance, folder=""):
    """What standard error says of the files of mixqueue: those that it cannot read, and what is refused."""
    lines = []

    def say(name, fault):
        lines.append(name + b": " + fault + b"\n")

    def read(name):
        if name not in files:
            say((folder + name).encode(), b"not found in this folder")
        elif files[name] is FOLDER:
            say((folder + name).encode(), b"could not be read whole")
        return content(files, name)[:40001]

    book, count = read("fleet.wbk"), sheets_in(files)
    sheets = [read("sheet%d.wsh" % number) for number in range(1, count + 1)]
    refusal = exact.queue_refusal(book, list(map(len, sheets)), b"".join(sheets), allowance, 4096)[0]
    place = folder.encode()
    if 1 <= refusal <= 6:
        say(place + b"fleet.wbk", b"this book is refused")
    elif refusal == 44:
        say(*((place + b"sheet17.wsh", b"there are more than 16 sheets") if count else (place + b"sheet1.wsh", b"could not be opened")))
    elif refusal == 45:
        say(b"ALLOWANCE", b"not from the number of sheets to 5760")
    elif refusal:
        first = next(number for number, sheet in enumerate(sheets, 1) if exact.files_refusal(book, sheet))
        say(place + b"sheet%d.wsh" % first, b"this sheet is refused")
    return b"".join(lines)


def card_told(files, names):
    """What standard error says of the first of these cards that is refused."""
    for name in names:
        book, sheet, card = (content(files, file) for file in ("fleet.wbk", "sheet.wsh", name))
        refusal = card_details.refusal_of(book, sheet, card)
        if refusal:
            return card_details.card_detail(name.encode(), book, sheet, card, refusal)
    return b""


# What mixwork says of a refusal that is not of the files.
WORKING = {53: b"sheet.wsh: the search does not end Spent, so nothing is worked over\n", 54: b"MOVES: not from 1 to 1000\n"}


def told(program, files, refused=False, folder=""):
    """What standard error says of files that are not there or cannot be read, of a refusal, or of its number, and of an older file that stays."""
    if program == "leanlist":
        return lean_told(files, folder)
    if program == "mixqueue":
        return queue_told(files, NUMBERS[program][1], folder)
    lines = []
    for name in READ[program]:
        if name not in files:
            lines.append((folder + name).encode() + b": not found in this folder\n")
        elif files[name] is FOLDER:
            lines.append((folder + name).encode() + b": could not be read whole\n")
    if program in OLD:
        lines.append(OLD[program](files))
    if program == "mixmerge":
        wrong = [name for name in READ[program] if exact.book_refusal(content(files, name))]
        lines.extend((folder + name).encode() + b": this book is refused\n" for name in wrong[:1])
    elif "fleet.wbk" in READ[program]:
        book, sheet = content(files, "fleet.wbk"), content(files, "sheet.wsh")
        lines.append(details.detail(book, sheet, exact.files_refusal(book, sheet)))
        lines.append(card_told(files, [name for name in READ[program] if name.endswith(".wcd")]))
    if program == "mixwork":
        lines.append(WORKING.get(refused, b""))
    if refused and program in FILED:
        lines.append((folder + FILED[program]).encode() + b" is as it was\n")
    return b"".join(lines)


def number_of(name):
    """The arguments that come before the folder."""
    return (str(NUMBERS[name][1]),) if name in NUMBERS else ()


def check_output(program, files, runs):
    """Standard output takes no byte: standard error says so, and what is filed is filed all the same."""
    name = os.path.basename(program)
    number = number_of(name)
    with open("/dev/full", "wb") as full:
        _, err, left = run(program, files, arguments=number, output=full)
    runs.expect("%s, no standard output" % name,
                (err, left) == (told(name, files) + b"standard output: could not be written whole\n", run(program, files, arguments=number)[2]))


def check_mixlist(program, runs):
    for name, files in FILES:
        out, err, left = run(program, files)
        runs.expect("mixlist, " + name,
                    out == exact.listing(content(files, "fleet.wbk"), content(files, "sheet.wsh"))
                    and err == told("mixlist", files) and left == files)


def check_mixcard(program, runs):
    for name, files in FILES:
        for older in (None, b"older card"):
            before = dict(files) if older is None else dict(files, **{"card.wcd": older})
            book, sheet = content(files, "fleet.wbk"), content(files, "sheet.wsh")
            refusal, _, length, written = exact.write_card(book, sheet, bytes(1060))
            after = dict(before)
            faults = told("mixcard", files, refusal != 0)
            if not refusal:
                after["card.wcd"] = written[:length]
            out, err, left = run(program, before)
            runs.expect("mixcard, %s, %s" % (name, older), (out, err, left) == (exact.listing(book, sheet), faults, after))
    # The file system takes no byte: an older card stays, and no other file is left.
    before = {"fleet.wbk": BOOK, "sheet.wsh": SHEET, "card.wcd": b"older card"}
    out, err, left = run(program, before, read_only=True)
    runs.expect("mixcard, no room", (out, err, left) == (b"", b"card.wcd: could not be written\n", before))
    # A folder stands in the card's place.
    before = {"fleet.wbk": BOOK, "sheet.wsh": SHEET, "card.wcd": FOLDER}
    out, err, left = run(program, before)
    runs.expect("mixcard, card a folder", (out, err, left) == (b"", b"card.wcd: could not be written\n", before))


def card_folders(names):
    """Those folders of FILES with cards, true ones and others: a name, the files and what mixcheck must print."""
    _, answer, length, written = exact.write_card(BOOK, SHEET, bytes(1060))
    card = written[:length]
    cards = [("its card", card), ("front text", b"front" + card), ("none", None), ("empty", b""), ("a folder", FOLDER),
             ("another share", bytes([0, 0, 2]) + card[3:]), ("40,001 bytes", card.rjust(40001, b"x"))]
    for name in names:
        files = dict(FILES)[name]
        _, _, length, written = exact.write_card(content(files, "fleet.wbk"), content(files, "sheet.wsh"), bytes(1060))
        for card_name, filed in cards + [("its search's", written[:length])]:
            before = dict(files)
            if card_name != "none":
                before["card.wcd"] = filed
            listing = exact.card_listing(*(content(before, file) for file in ("fleet.wbk", "sheet.wsh", "card.wcd")))
            yield "%s, %s" % (name, card_name), before, listing


def check_mixcheck(program, runs):
    for name, before, listing in card_folders([name for name, _ in FILES]):
        out, err, left = run(program, before)
        runs.expect("mixcheck, " + name, (out, err, left) == (listing, told("mixcheck", before), before))
    # each line about a card
    for number, card in enumerate(card_details.cards()):
        before = {"fleet.wbk": card_details.BOOK, "sheet.wsh": card_details.sheet_of(), "card.wcd": card}
        out, err, left = run(program, before)
        runs.expect("mixcheck, card %d" % number, (out, err, left) == (exact.card_listing(*before.values()), told("mixcheck", before), before))


def check_report(program, runs):
    """The report with the program: a refused card gives its line and no file, a true one the two reports with the listing in them."""
    report, arguments = MIXREPORT, ("--mixcheck", os.path.abspath(program))
    if is_installed(program):
        report, arguments = os.path.join(os.path.dirname(program), "mixreport"), ()
    for name, before, listing in card_folders(("case a", "factors", "no book", "book of 40,001 bytes", "both changed", "both changed, no sheet.csv", "in the other edition")):
        out, err, left = run(report, before, arguments=arguments)
        runs.expect("mixreport, old files, " + name, b"".join(line for line in err.splitlines(True) if b"was made from" in line) == origins.old_files(before))
        reports = [left.pop(report, None) for report in ("report.txt", "report.html")]
        if listing.startswith(b"refused"):
            runs.expect("mixreport, " + name, (out, left, reports) == (listing, before, [None, None]) and card_told(before, ["card.wcd"]) in err)
        else:
            lines = b"".join(b"    " + line + b"\n" for line in listing.splitlines())
            right = None not in reports and lines in reports[0] and b"<pre>" + listing.strip() + b"</pre>" in reports[1]
            runs.expect("mixreport, " + name, right and left == before and len(out.splitlines()) == 2)


def check_mixbetter(program, runs):
    sheet = exact.make_sheet([1, 1], steps=9, tolerance=100)
    farther = exact.true_card(BOOK, sheet, [1, 0, 0], 1)
    nearer = exact.true_card(BOOK, sheet, [2, 2, 2], 3, front=b"front")
    cards = [("farther", farther), ("nearer", nearer), ("none", None), ("empty", b""), ("a folder", FOLDER),
             ("40,000 bytes", nearer.rjust(40000, b"x")), ("40,001 bytes", nearer.rjust(40001, b"x")), ("cut", nearer[:-1])]
    for name, book in (("its book", BOOK), ("no book", b""), ("book of 40,001 bytes", BOOK.rjust(40001, b"x")), ("a value out of range", WRONG_BOOK)):
        for first_name, first in cards:
            for second_name, second in cards:
                before = {"fleet.wbk": book, "sheet.wsh": sheet, "better.wcd": b"older card"}
                before.update({file: card for file, card_name, card in (("first.wcd", first_name, first), ("second.wcd", second_name, second))
                               if card_name != "none"})
                four = [content(before, file) for file in ("fleet.wbk", "sheet.wsh", "first.wcd", "second.wcd")]
                refusal, part = exact.better_part(*four)
                faults = told("mixbetter", before, refusal != 0)
                after = before if refusal else dict(before, **{"better.wcd": part})
                runs.expect("mixbetter, %s, %s, %s" % (name, first_name, second_name),
                            run(program, before) == (exact.better_listing(*four), faults, after))
    # each number that refuses a card, of the first card and of the second
    by_number = {card_details.refusal_of(BOOK, SHEET, card): card for card in card_details.cards()}
    runs.expect("mixbetter, a card of each number", set(card_details.KINDS) <= set(by_number))
    for number, card in by_number.items():
        for names in (("first.wcd", "second.wcd"), ("second.wcd", "first.wcd")):
            before = dict(zip(names, (card, by_number[0])), **{"fleet.wbk": BOOK, "sheet.wsh": SHEET})
            four = [before[file] for file in READ["mixbetter"]]
            refusal, part = exact.better_part(*four)
            after = before if refusal else dict(before, **{"better.wcd": part})
            runs.expect("mixbetter, %s by %d" % (names[0], number),
                        run(program, before) == (exact.better_listing(*four), told("mixbetter", before, refusal != 0), after))
    # The file system takes no byte, and a folder in the card's place: an older card stays, and no other file is left.
    files = {"fleet.wbk": BOOK, "sheet.wsh": sheet, "first.wcd": farther, "second.wcd": nearer}
    for name, older, read_only in (("no room", b"older card", True), ("card a folder", FOLDER, False)):
        before = dict(files, **{"better.wcd": older})
        runs.expect("mixbetter, " + name, run(program, before, read_only) == (b"", b"better.wcd: could not be written\n", before))


BOOK_KEPT, SHEET_KEPT = b"fleet.wbk is as it was\n", b"sheet.wsh is as it was\n"


def check_mixbook(program, runs):
    """The spreadsheets written by hand, with an older book or none, then files that are too long or folders."""
    for number, data in enumerate([*csv_books.by_hand(), *csv_books.of_guide()]):
        for older in (None, b"older book"):
            before = {"fleet.csv": data} if older is None else {"fleet.csv": data, "fleet.wbk": older}
            fault, _, _, lines, book = csv_books.made(data)
            after = before if fault else dict(before, **{"fleet.wbk": book})
            out, err, left = run(program, before)
            runs.expect("mixbook, case %d, %s" % (number, older), (out, err, left) == ((b"", lines + BOOK_KEPT, after) if fault else (lines, b"", after)))
    long = csv_books.YARD.ljust(200001, b"\n")
    for name, before, fault in (("200,001 bytes", {"fleet.csv": long}, b"fleet.csv: more than 200000 bytes\n" + BOOK_KEPT),
                                ("300,000 bytes", {"fleet.csv": long.ljust(300000, b"\n")}, b"fleet.csv: more than 200000 bytes\n" + BOOK_KEPT),
                                ("no CSV", {"fleet.wbk": BOOK}, told("mixbook", {}, True)),
                                ("CSV a folder", {"fleet.csv": FOLDER}, told("mixbook", {"fleet.csv": FOLDER}, True))):
        runs.expect("mixbook, " + name, run(program, before) == (b"", fault, before))
    before = {"fleet.csv": csv_books.YARD, "fleet.wbk": b"older book"}
    runs.expect("mixbook, no room", run(program, before, read_only=True) == (b"", b"fleet.wbk: could not be written\n", before))
    before = {"fleet.csv": csv_books.YARD, "fleet.wbk": FOLDER}
    runs.expect("mixbook, book a folder", run(program, before) == (b"", b"fleet.wbk: could not be written\n", before))


def check_mixsheet(program, runs):
    """The spreadsheets written by hand and drawn, with an older sheet or none, then files that are too long, missing or folders."""
    for number, (fleet, data) in enumerate([*csv_sheets.all_cases(), *csv_sheets.of_guide()]):
        before = {"fleet.csv": fleet, "sheet.csv": data}
        if number % 2:
            before["sheet.wsh"] = b"older sheet"
        lines, sheet = csv_sheets.printed(fleet, data), csv_sheets.made(fleet, data)[4]
        after = dict(before, **{"sheet.wsh": sheet}) if sheet else before
        runs.expect("mixsheet, case %d" % number, run(program, before) == ((lines, b"", after) if sheet else (b"", lines + SHEET_KEPT, before)))
    fleet, data = {"fleet.csv": csv_sheets.FLEET}, {"sheet.csv": csv_sheets.SHEET}
    long = dict(fleet, **{"sheet.csv": csv_sheets.SHEET.ljust(100000, b"\n")})
    runs.expect("mixsheet, 100,000 bytes", run(program, long) == (b"", b"sheet.csv: more than 39000 bytes\n" + SHEET_KEPT, long))
    for name, before in (("no fleet", data), ("no sheet", fleet), ("no CSV", {}), ("fleet a folder", dict(data, **{"fleet.csv": FOLDER})),
                         ("sheet a folder", dict(fleet, **{"sheet.csv": FOLDER})), ("both folders", {"fleet.csv": FOLDER, "sheet.csv": FOLDER})):
        for book in (None, BOOK):
            before = before if book is None else dict(before, **{"fleet.wbk": book})
            runs.expect("mixsheet, %s, %s" % (name, book), run(program, before) == (b"", told("mixsheet", before, True), before))
    for name, before in old_folders():
        if before.get("fleet.csv") is not None and before.get("sheet.csv") is not None:
            lines, sheet = csv_sheets.printed(before["fleet.csv"], before["sheet.csv"]), csv_sheets.made(before["fleet.csv"], before["sheet.csv"])[4]
            expected = (lines, told("mixsheet", before), dict(before, **{"sheet.wsh": sheet})) if sheet else (b"", told("mixsheet", before) + lines + SHEET_KEPT, before)
            if before.get("sheet.wsh", b"") is not FOLDER:
                runs.expect("mixsheet, " + name, run(program, before) == expected)
    for name, older, read_only in (("no room", b"older sheet", True), ("sheet.wsh a folder", FOLDER, False)):
        before = dict(fleet, **data, **{"sheet.wsh": older})
        runs.expect("mixsheet, " + name, run(program, before, read_only) == (b"", b"sheet.wsh: could not be written\n", before))


def check_mixedition(program, runs):
    """The sheets of test_rewriting, with an older other.wsh or none, then sheets that are too long, missing or folders."""
    sheets = [(name, bytes(zeros) + sheet) for name, zeros, _, sheet, _ in sheet_editions.cases()]
    for number, (name, sheet) in enumerate([*sheets, ("90,000 bytes", SHEET.rjust(90000, b"x"))]):
        before = {"sheet.wsh": sheet, "other.wsh": b"older sheet"} if number % 2 else {"sheet.wsh": sheet}
        line, fault, left = sheet_editions.filed(before)
        after = before if left is None else dict(before, **{"other.wsh": left})
        runs.expect("mixedition, " + name, run(program, before) == (line, fault, after))
    for name, before in (("no sheet", {"other.wsh": b"older sheet"}), ("sheet a folder", {"sheet.wsh": FOLDER})):
        runs.expect("mixedition, " + name, run(program, before) == (b"refused 11\n", told("mixedition", before, True), before))
    for name, older, read_only in (("no room", b"older sheet", True), ("other.wsh a folder", FOLDER, False)):
        before = {"sheet.wsh": SHEET, "other.wsh": older}
        runs.expect("mixedition, " + name, run(program, before, read_only) == (b"", b"other.wsh: could not be written\n", before))


def check_mixmerge(program, runs):
    """Pairs of books, whole, damaged, too long, missing or folders, with an older merged book or none."""
    books = [("a book", BOOK), ("behind front text", exact.make_book([[4, 0], [1, 1], [1, 1]], b"front")), ("none", None), ("empty", b""), ("a folder", FOLDER),
             ("40,000 bytes", BOOK.rjust(40000, b"x")), ("40,001 bytes", BOOK.rjust(40001, b"x")), ("cut", BOOK[:-1]), ("other columns", exact.make_book([[1]])),
             ("a value out of range", WRONG_BOOK), ("200 boats", exact.make_book([[value, 0] for value in range(200)])), ("200 others", exact.make_book([[value, 1] for value in range(200)]))]
    for first_name, first in books:
        for second_name, second in books:
            for older in (None, b"older book"):
                before = {file: data for file, data, name in (("fleet.wbk", first, first_name), ("bought.wbk", second, second_name)) if name != "none"}
                if older is not None:
                    before["merged.wbk"] = older
                refusal, length, written = exact.merge_books(content(before, "fleet.wbk"), content(before, "bought.wbk"), bytes(40000))
                after = before if refusal else dict(before, **{"merged.wbk": written[:length]})
                listing = exact.merge_listing(content(before, "fleet.wbk"), content(before, "bought.wbk"))
                runs.expect("mixmerge, %s, %s, %s" % (first_name, second_name, older),
                            run(program, before) == (listing, told("mixmerge", before, refusal != 0), after))
    for name, older, read_only in (("no room", b"older book", True), ("merged.wbk a folder", FOLDER, False)):
        before = {"fleet.wbk": BOOK, "bought.wbk": merges.BOUGHT, "merged.wbk": older}
        runs.expect("mixmerge, " + name, run(program, before, read_only) == (b"", b"merged.wbk: could not be written\n", before))


def check_leanlist(program, runs):
    """The folders of test_lean, then more than 65 cards, and files that are missing, empty or folders, among few cards and behind 12."""
    folders = dict(leanings.FOLDERS, **{"70 cards": leanings.folder(leanings.TURNS + 6 * [leanings.ON_0]), "no file": {},
                                        "65 cards, the first damaged": leanings.folder([leanings.DAMAGED] + leanings.TURNS)})
    for count in (1, 3, 13):
        files = leanings.folder(leanings.TIED[:count])
        for name in files:
            if name == "fleet.wbk" or name.startswith(("sheet1.", "card1.", "sheet3.", "card3.", "sheet13.", "card13.")):
                for fault, data in (("empty", b""), ("a folder", FOLDER), ("cut", files[name][:-1]), ("a byte more", files[name] + b"x")):
                    folders["%d cards, %s %s" % (count, name, fault)] = dict(files, **{name: data})
                folders["%d cards, no %s" % (count, name)] = {other: data for other, data in files.items() if other != name}
    for name, files in folders.items():
        pairs = [(content(files, "sheet%d.wsh" % number), content(files, "card%d.wcd" % number)) for number in range(1, cards_in(files) + 1)]
        runs.expect("leanlist, " + name, run(program, files) == (exact.lean_listing(content(files, "fleet.wbk"), pairs), lean_told(files), files))


def check_mixqueue(program, runs):
    """The folders of test_queue, then files that are missing, empty, cut or folders, on allowances at every border."""
    tried = [(name or "three sheets", queues.FOLDERS[name], allowance) for name, allowance in queues.RUNS]
    tried += [("no file", {}, 1), ("20 sheets", queues.folder([queues.A] * 20), 20), ("17 sheets, the first refused", queues.folder([b""] + [queues.A] * 16), 17)]
    for count in (1, 3, 16):
        files = queues.folder(queues.SIXTEEN[:count])
        for name in files:
            if name in ("fleet.wbk", "sheet1.wsh", "sheet3.wsh", "sheet16.wsh"):
                for fault, data in (("empty", b""), ("a folder", FOLDER), ("cut", files[name][:-1]), ("a byte more", files[name] + b"x"), ("90,000 bytes", files[name].rjust(90000, b"x"))):
                    tried += [("%d sheets, %s %s" % (count, name, fault), dict(files, **{name: data}), allowance) for allowance in (count - 1, count)]
                tried.append(("%d sheets, no %s" % (count, name), {other: data for other, data in files.items() if other != name}, 16))
    for name, files, allowance in tried:
        sheets = [content(files, "sheet%d.wsh" % number)[:40001] for number in range(1, sheets_in(files) + 1)]
        expected = exact.queue_listing(content(files, "fleet.wbk"), sheets, allowance), queue_told(files, allowance), files
        runs.expect("mixqueue %d, %s" % (allowance, name), run(program, files, arguments=(str(allowance),)) == expected)
    files = queues.FOLDERS[""]
    for number in ("7", "07", "0000000007"):
        runs.expect("mixqueue %s" % number, run(program, files, arguments=(number,)) == (queues.printed(files, 7), b"", files))


def check_mixwork(program, runs):
    """The folders of test_worked and of FILES, with an older card or none, then a card that cannot be written."""
    tried = [(name, files, moves) for name, (moves, files) in workings.RUNS.items()]
    tried += [(name, files, moves) for name, files in FILES for moves in (0, 1, 1000, 1001)]
    for name, files, moves in tried:
        for older in (None, b"older card"):
            before = dict(files) if older is None else dict(files, **{"worked.wcd": older})
            book, sheet = content(before, "fleet.wbk"), content(before, "sheet.wsh")
            refusal, _, size, written = exact.work_over(book, sheet, moves, bytes(1060))
            after = before if refusal else dict(before, **{"worked.wcd": written[:size]})
            expected = exact.worked_listing(book, sheet, moves), told("mixwork", before, refusal), after
            runs.expect("mixwork %d, %s, %s" % (moves, name, older), run(program, before, arguments=(str(moves),)) == expected)
    for name, older, read_only in (("no room", b"older card", True), ("card a folder", FOLDER, False)):
        before = {"fleet.wbk": BOOK, "sheet.wsh": SPENT, "worked.wcd": older}
        runs.expect("mixwork, " + name, run(program, before, read_only, arguments=("9",)) == (b"", b"worked.wcd: could not be written\n", before))


CARD = exact.write_card(BOOK, SPENT, bytes(1060))
# files on which every program does its work
ARGUMENT_FILES = {"fleet.csv": b"a,b,c\nd,0,0\ne,4,0\nf,0,4\n", "sheet.csv": b",c,b\nnew,1,1\nsteps,9\ntolerance,1\n",
                  "fleet.wbk": BOOK, "bought.wbk": BOOK, "sheet.wsh": SPENT, "card.wcd": CARD[3][:CARD[2]],
                  "first.wcd": CARD[3][:CARD[2]], "second.wcd": CARD[3][:CARD[2]], "sheet1.wsh": SPENT, "card1.wcd": CARD[3][:CARD[2]]}


def check_arguments(name, program, files, runs):
    """A folder that is named does as the current one; anything else prints the usage and does nothing."""
    number = number_of(name)
    usage = b"usage: %s %s[FOLDER]\n" % (name.encode(), NUMBERS[name][0] + b" " if number else b"")
    wrong = [(*number, *folder) for folder in (("--help",), ("-",), ("",), ("a", "b"), ("x" * 4096,))]
    if number:
        wrong += [(), *((text,) for text in ("", "-", "--help", "x", "-9", "+9", " 9", "9 ", "9.", "0x9", "9a", "4294967296", "9999999999", "00000000009", "18446744073709551625"))]
        wrong += [("there", *number), ("9:",), ("/9",), ("9" * 5000,)]
    for arguments in wrong:
        runs.expect("%s %s" % (name, arguments), run(program, files, arguments=arguments) == (b"", usage, files))
    out, err, left = run(program, files, arguments=number)
    inside = run(program, {}, arguments=(*number, "there"), folders={"there": files})
    runs.expect("%s of a folder" % name, inside[0] == out and inside[1] == err and inside[2] == {"there": left})
    outside = run(program, files, arguments=(*number, "missing"))
    runs.expect("%s of a folder that is missing" % name, outside[1:] == (told(name, {}, True, "missing/"), files))
    # a file in the place of the folder
    inside = run(program, files, arguments=(*number, "sheet.wsh"))
    runs.expect("%s of a file" % name, inside[1:] == (told(name, {}, True, "sheet.wsh/").replace(b"not found in this folder", b"could not be opened"), files))


# What is tried of each program.
CHECKS = {"mixlist": (check_mixlist,), "mixcard": (check_mixcard,), "mixcheck": (check_mixcheck, check_report), "mixbetter": (check_mixbetter,),
          "mixbook": (check_mixbook,), "mixsheet": (check_mixsheet,), "mixedition": (check_mixedition,), "mixmerge": (check_mixmerge,),
          "leanlist": (check_leanlist,), "mixqueue": (check_mixqueue,), "mixwork": (check_mixwork,)}


def check_programs(place, names, runs):
    """All checks of the programs that stand in a folder."""
    for name in names:
        program = os.path.join(place, name)
        if not os.path.exists(program):
            runs.expect("%s is not built" % name, False)
            continue
        if name not in CHECKS:
            runs.expect("%s: nothing here tries it" % name, False)
            continue
        for check in CHECKS[name]:
            check(program, runs)
        check_arguments(name, program, ARGUMENT_FILES, runs)
        if os.path.exists("/dev/full"):
            check_output(program, ARGUMENT_FILES, runs)


# ---- the installed form

FLEET, ASKED = csv_sheets.FLEET, csv_sheets.SHEET
WRONG_FLEET, WRONG_SHEET = FLEET.replace(b"Eider II,341", b"Eider II,2500"), ASKED.replace(b"steps,360", b"steps,400")
YARD = {"fleet.csv": FLEET, "sheet.csv": ASKED}
# A command of the shell, the files, the exit status, and the files that are there afterwards beside them.
STATUSES = [
    ("mixbook", YARD, 0, ["fleet.wbk"]),
    ("mixbook", {"fleet.csv": WRONG_FLEET}, 1, []),
    ("mixbook", {}, 1, []),
    ("mixbook --help", YARD, 2, []),
    ("mixbook a b", YARD, 2, []),
    ("mixbook", {"fleet.csv": FLEET, "fleet.wbk": FOLDER}, 2, []),
    ("mixsheet", {"fleet.csv": FLEET, "sheet.csv": WRONG_SHEET}, 1, []),
    ("mixlist", {"fleet.wbk": BOOK, "sheet.wsh": SHEET}, 0, []),
    ("mixlist", {"fleet.wbk": BOOK}, 1, []),
    ("mixlist >/dev/full", {"fleet.wbk": BOOK, "sheet.wsh": SHEET}, 2, []),
    ("mixlist >&-", {"fleet.wbk": BOOK, "sheet.wsh": SHEET}, 2, []),
    ("mixcard", {"fleet.wbk": BOOK, "sheet.wsh": SHEET}, 0, ["card.wcd"]),
    ("mixcard", {"fleet.wbk": BOOK, "sheet.wsh": NO_STEPS}, 1, []),
    ("mixcard", {"fleet.wbk": BOOK, "sheet.wsh": SHEET, "card.wcd": FOLDER}, 2, []),
    ("mixcheck", {"fleet.wbk": BOOK, "sheet.wsh": SHEET, "card.wcd": b"no card"}, 1, []),
    ("mixbetter", {"fleet.wbk": BOOK, "sheet.wsh": SHEET}, 1, []),
    ("mixmerge", {"fleet.wbk": BOOK, "bought.wbk": merges.BOUGHT}, 0, ["merged.wbk"]),
    ("mixmerge", {"fleet.wbk": BOOK}, 1, []),
    ("mixmerge", {"fleet.wbk": BOOK, "bought.wbk": merges.BOUGHT, "merged.wbk": FOLDER}, 2, []),
    ("leanlist", leanings.FOLDERS[""], 0, []),
    ("leanlist", {"fleet.wbk": BOOK}, 1, []),
    ("leanlist >/dev/full", leanings.FOLDERS[""], 2, []),
    ("mixqueue 7", queues.FOLDERS[""], 0, []),
    ("mixqueue 2", queues.FOLDERS[""], 1, []),
    ("mixqueue", queues.FOLDERS[""], 2, []),
    ("mixqueue 7 >/dev/full", queues.FOLDERS[""], 2, []),
    ("mixwork 9", {"fleet.wbk": BOOK, "sheet.wsh": SPENT}, 0, ["worked.wcd"]),
    ("mixwork 9", {"fleet.wbk": BOOK, "sheet.wsh": SHEET}, 1, []),
    ("mixwork 9", {"fleet.wbk": BOOK, "sheet.wsh": SPENT, "worked.wcd": FOLDER}, 2, []),
    ("mixwork", {"fleet.wbk": BOOK, "sheet.wsh": SPENT}, 2, []),
    ("mixreport", {"fleet.wbk": BOOK, "sheet.wsh": SHEET}, 1, []),
    ("mixreport --other", {"fleet.wbk": BOOK, "sheet.wsh": SHEET}, 2, []),
    ("mixcard && mixreport --mixcheck missing", {"fleet.wbk": BOOK, "sheet.wsh": SHEET}, 2, ["card.wcd"]),
    ("mixcard && mixreport", {"fleet.wbk": BOOK, "sheet.wsh": SHEET}, 0, ["card.wcd", "report.html", "report.txt"]),
    ("mixbook && mixsheet && mixcard", YARD, 0, ["card.wcd", "fleet.wbk", "sheet.wsh"]),
    ("mixbook && mixsheet && mixcard", {"fleet.csv": WRONG_FLEET, "sheet.csv": ASKED}, 1, []),
    ("mixbook && mixsheet && mixcard", {"fleet.csv": FLEET, "sheet.csv": WRONG_SHEET}, 1, ["fleet.wbk"]),
    ("mixbook && mixsheet && mixcard", {"fleet.csv": FLEET}, 1, ["fleet.wbk"]),
    ("mixbook && mixsheet && mixcard", dict(YARD, **{"sheet.wsh": FOLDER}), 2, ["fleet.wbk"]),
    ("mixbook && mixsheet && mixcard", dict(YARD, **{"card.wcd": FOLDER}), 2, ["fleet.wbk", "sheet.wsh"]),
]


def in_shell(command, folder, place):
    """What a shell does of a command in a folder, with the installed programs first on the path."""
    known = dict(os.environ, PATH=place + os.pathsep + os.environ["PATH"])
    known.pop("MIXCHECK", None)
    return subprocess.run(["sh", "-c", command], cwd=folder, env=known, stdout=subprocess.PIPE, stderr=subprocess.PIPE, check=False)


def check_statuses(place, runs):
    for command, files, status, added in STATUSES:
        if "/dev/full" in command and not os.path.exists("/dev/full"):
            continue
        with tempfile.TemporaryDirectory() as folder:
            put(folder, files)
            done = in_shell(command, folder, place)
            runs.expect("status of %s: %d, not %d" % (command, done.returncode, status),
                        (done.returncode, sorted(os.listdir(folder))) == (status, sorted([*files, *added])))


def check_script(place, runs):
    """The script in bin: bytes of a name that are no ASCII, another shell, a link to it, and a program that is not there."""
    name = bytes(range(127, 256))
    data = b'boat,a\n"' + name + b'",1.5\n'
    line = csv_books.made(data)[3] + BOOK_KEPT
    mixbook = os.path.join(place, "mixbook")
    runs.expect("mixbook, all bytes above 126", name in line and run(mixbook, {"fleet.csv": data}) == (b"", line, {"fleet.csv": data}))
    with tempfile.TemporaryDirectory() as folder:
        put(folder, {"fleet.csv": data})
        for shell in filter(shutil.which, ("dash", "bash", "ksh", "busybox")):
            done = subprocess.run([*([shell, "sh"] if shell == "busybox" else [shell]), mixbook], cwd=folder, capture_output=True, check=False)
            runs.expect("mixbook by " + shell, (done.returncode, done.stdout, done.stderr) == (1, b"", line))
        os.symlink(mixbook, os.path.join(folder, "first link"))
        os.symlink("first link", os.path.join(folder, "second"))
        for path in (os.path.join(folder, "second"), "./second"):
            done = subprocess.run([path], cwd=folder, capture_output=True, check=False)
            runs.expect("mixbook by a link", (done.returncode, done.stdout, done.stderr) == (1, b"", line))
        shutil.copy(mixbook, os.path.join(place, "mixnone"))
        done = in_shell("mixnone", folder, place)
        runs.expect("a program that is not there", (done.returncode, done.stdout, b"mixnone" in done.stderr) == (2, b"", True))
        os.unlink(os.path.join(place, "mixnone"))


def check_share(folder, runs):
    """The pages for users are there with what they link to."""
    docs = os.path.join(folder, "share", "dofitrano", "docs")
    for page in ("guide.md", "report.md"):
        text = exact.read_file(os.path.join(docs, page)).decode()
        for link in re.findall(r"\]\(([^)#]+)", text):
            runs.expect("%s: %s is not installed" % (page, link), os.path.exists(os.path.join(docs, link)))


def check_installed(names, runs):
    """Everything once more in the installed form, in a folder with a space in its name."""
    with tempfile.TemporaryDirectory() as folder:
        target = os.path.join(folder, "the yard's")
        for _ in range(2):
            done = subprocess.run([INSTALL, "the yard's"], cwd=folder, stdout=subprocess.PIPE, check=False)
        place = os.path.join(target, "bin")
        runs.expect("install", (done.returncode, done.stdout.decode()) == (0, place + "\n"))
        runs.expect("what is in bin", sorted(os.listdir(place)) == sorted([*names, "mixreport"]))
        moved = os.path.join(folder, "moved to")
        os.rename(target, moved)
        place = os.path.join(moved, "bin")
        check_programs(place, names, runs)
        check_statuses(place, runs)
        check_script(place, runs)
        check_share(moved, runs)
        for arguments in ((), ("a", "b"), ("--help",), ("",)):
            done = subprocess.run([INSTALL, *arguments], cwd=folder, capture_output=True, check=False)
            runs.expect("install %s" % (arguments,), (done.returncode, done.stdout, done.stderr) == (2, b"", b"usage: tools/install FOLDER\n"))
        runs.expect("nothing else is made", os.listdir(folder) == ["moved to"])


def counted(check):
    """How many runs of a check passed and how many failed."""
    runs = Runs()
    check[0](*check[1:], runs)
    sys.stdout.flush()
    return runs.passed, runs.failed


def main(arguments):
    names = subprocess.run([PROGRAMS], stdout=subprocess.PIPE, check=True).stdout.decode().split()
    if not arguments or not set(arguments[1:]) <= set(names):
        sys.stderr.write(__doc__)
        return 2
    # The built and the installed form need nothing of one another, so they are tried side by side.
    checks = [(check_programs, arguments[0], arguments[1:] or names)]
    if not arguments[1:]:
        checks.append((check_installed, names))
    with concurrent.futures.ProcessPoolExecutor(len(checks)) as pool:
        done = list(pool.map(counted, checks))
    passed, failed = (sum(counts) for counts in zip(*done))
    print("%d runs passed, %d failed" % (passed, failed))
    return 1 if failed else 0


if __name__ == "__main__":
    sys.exit(main(sys.argv[1:]))
