"""The library from Python by ctypes: a search and its refusal, a search with factors, one with a table of shares,
one among released boats, a Spent one worked over, a listing, a card written and checked, a sheet of scale cells, a sheet in its other edition.

Files are built in memory.

Use: python3 example.py LIBRARY, the shared object that examples/python/run makes.
"""
import ctypes
import struct
import sys

VERDICT_NAMES = {0: "none", 1: "within", 2: "beyond", 3: "spent"}


class Reply(ctypes.Structure):
    """dofitrano_reply of include/dofitrano.h."""

    _fields_ = [
        ("refusal", ctypes.c_uint32),
        ("verdict", ctypes.c_uint32),
        ("steps", ctypes.c_uint32),
        ("weight", ctypes.c_uint32),
        ("distance", ctypes.c_uint64),
        ("gap", ctypes.c_uint64),
        ("floor", ctypes.c_int64),
        ("shortfall", ctypes.c_uint64),
    ]


class CardReply(ctypes.Structure):
    """dofitrano_card_reply of include/dofitrano.h."""

    _fields_ = [("reply", Reply), ("bytes", ctypes.c_size_t)]


class Values(ctypes.Structure):
    """dofitrano_values of include/dofitrano.h."""

    _fields_ = [("refusal", ctypes.c_uint32), ("values", ctypes.c_int16 * 64)]


class EditionReply(ctypes.Structure):
    """dofitrano_edition_reply of include/dofitrano.h."""
    _fields_ = [("refusal", ctypes.c_uint32), ("edition", ctypes.c_uint32), ("bytes", ctypes.c_size_t)]


class Released(ctypes.Structure):
    """dofitrano_released of include/dofitrano.h."""

    _fields_ = [("limited", ctypes.c_bool), ("boats", ctypes.c_uint8 * 32)]


class SheetRecord(ctypes.Structure):
    _fields_ = [("asked", ctypes.c_uint32), ("used", ctypes.c_uint32), ("finished", ctypes.c_bool), ("distance", ctypes.c_uint64),
                ("gap", ctypes.c_uint64), ("verdict", ctypes.c_uint32), ("length", ctypes.c_uint32)]


class Sheet(ctypes.Structure):
    """dofitrano_sheet of include/dofitrano.h."""

    _fields_ = [("refusal", ctypes.c_uint32), ("length", ctypes.c_size_t), ("bytes", ctypes.c_uint8 * 144)]


NET, WEIGHED = 1, 2
CARD_MOST = 1060
LISTING_MOST = 4096


def load(path):
    """The library, with the types of its functions."""
    library = ctypes.CDLL(path)
    file = [ctypes.c_char_p, ctypes.c_size_t]
    buffer = [ctypes.c_char_p, ctypes.c_size_t]
    shares = [ctypes.POINTER(ctypes.c_uint16), ctypes.c_size_t]
    library.dofitrano_search.restype = Reply
    library.dofitrano_search.argtypes = file + file + shares
    library.dofitrano_write_card.restype = CardReply
    library.dofitrano_write_card.argtypes = file + file + buffer
    library.dofitrano_check_card.restype = Reply
    library.dofitrano_check_card.argtypes = file + file + file + shares
    terms = [Released, ctypes.c_bool, ctypes.POINTER(ctypes.c_uint16), ctypes.c_size_t]
    library.dofitrano_search_with.restype = Reply
    library.dofitrano_search_with.argtypes = file + file + terms + shares
    library.dofitrano_write_card_with.restype = CardReply
    library.dofitrano_write_card_with.argtypes = file + file + terms + buffer
    library.dofitrano_check_card_with.restype = Reply
    library.dofitrano_check_card_with.argtypes = file + file + terms + file + shares
    library.dofitrano_work_over.restype = CardReply
    library.dofitrano_work_over.argtypes = file + file + [Released, ctypes.c_uint32] + buffer
    library.dofitrano_listing.restype = ctypes.c_size_t
    library.dofitrano_listing.argtypes = file + file + buffer
    doubles = [ctypes.POINTER(ctypes.c_double), ctypes.c_size_t]
    cells = file + doubles + doubles + [ctypes.POINTER(ctypes.c_uint32), ctypes.c_size_t]
    library.dofitrano_sheet_values.restype = Values
    library.dofitrano_sheet_values.argtypes = file + cells
    library.dofitrano_scale_sheet.restype = Sheet
    library.dofitrano_scale_sheet.argtypes = file + cells + [ctypes.c_uint32, ctypes.c_uint32]
    library.dofitrano_other_edition.restype = EditionReply
    library.dofitrano_other_edition.argtypes = file + buffer
    library.dofitrano_run_queue.argtypes = [ctypes.POINTER(SheetRecord), ctypes.c_size_t] + file + file + [ctypes.c_uint32] + shares
    library.dofitrano_run_queue.restype = ctypes.c_uint32
    return library


def search(library, book, sheet, slots):
    """The reply of a search, and the slots of the share list afterwards."""
    shares = (ctypes.c_uint16 * len(slots))(*slots)
    reply = library.dofitrano_search(book, len(book), sheet, len(sheet), shares, len(shares))
    return reply, list(shares)


def write_card(library, book, sheet):
    """The reply of the card writer, and the card."""
    output = ctypes.create_string_buffer(CARD_MOST)
    reply = library.dofitrano_write_card(book, len(book), sheet, len(sheet), output, CARD_MOST)
    return reply, output.raw[:reply.bytes]


def check_card(library, book, sheet, card, slots):
    """The reply of the card check, and the slots of the share list afterwards."""
    shares = (ctypes.c_uint16 * len(slots))(*slots)
    reply = library.dofitrano_check_card(book, len(book), sheet, len(sheet), card, len(card), shares, len(shares))
    return reply, list(shares)


def numbers(values):
    """A list of 16-bit numbers as a call takes it, with its length."""
    return (ctypes.c_uint16 * len(values))(*values), len(values)


def released(boats):
    """The set of these boats: bit b of byte k is for boat 8 k + b."""
    bits = bytearray(32)
    for boat in boats:
        bits[boat // 8] |= 1 << boat % 8
    return Released(True, (ctypes.c_uint8 * 32)(*bits))


# No released set: every boat may be used.
EVERY_BOAT = Released(False)


def lend_a_table(library, book, sheet, table):
    """A search with a table of shares, and its card with the table and without it. An empty table is not the same as none."""
    shares, slots = numbers([7, 7, 7, 7])
    print_reply(library.dofitrano_search_with(book, len(book), sheet, len(sheet), EVERY_BOAT, True, *numbers(table), shares, slots))
    print("slots", *shares)
    output = ctypes.create_string_buffer(CARD_MOST)
    written = library.dofitrano_write_card_with(book, len(book), sheet, len(sheet), EVERY_BOAT, True, *numbers(table), output, CARD_MOST)
    print("refusal %d, bytes %d" % (written.reply.refusal, written.bytes))
    card = output.raw[:written.bytes]
    for lent, words in ((True, "with its table, refusal %d, %s"), (False, "without it, refusal %d")):
        reply = library.dofitrano_check_card_with(book, len(book), sheet, len(sheet), EVERY_BOAT, lent, *numbers(table), card, len(card), shares, slots)
        print("checked", words % ((reply.refusal, VERDICT_NAMES[reply.verdict]) if lent else reply.refusal))
    print_reply(library.dofitrano_search_with(book, len(book), sheet, len(sheet), EVERY_BOAT, True, *numbers([]), shares, slots))


def search_among(library, book, sheet, boats):
    """A search among these boats without a table, its card, the card of the whole book, and a set of no boat."""
    terms = (released(boats), False, *numbers([]))
    shares, slots = numbers([7, 7, 7, 7])
    print_reply(library.dofitrano_search_with(book, len(book), sheet, len(sheet), *terms, shares, slots))
    print("slots", *shares)
    output = ctypes.create_string_buffer(CARD_MOST)
    written = library.dofitrano_write_card_with(book, len(book), sheet, len(sheet), *terms, output, CARD_MOST)
    card = output.raw[:written.bytes]
    reply = library.dofitrano_check_card_with(book, len(book), sheet, len(sheet), *terms, card, len(card), shares, slots)
    print("checked, refusal %d, %s" % (reply.refusal, VERDICT_NAMES[reply.verdict]))
    _, card = write_card(library, book, sheet)
    reply = library.dofitrano_check_card_with(book, len(book), sheet, len(sheet), *terms, card, len(card), shares, slots)
    print("the whole book's card, refusal %d" % reply.refusal)
    reply = library.dofitrano_search_with(book, len(book), sheet, len(sheet), released([]), False, *numbers([]), shares, slots)
    print("no boat released, refusal %d" % reply.refusal)


def work_over(library, book, sheet, terms, moves):
    """The reply of a Spent search worked over, and the card of the result."""
    output = ctypes.create_string_buffer(CARD_MOST)
    reply = library.dofitrano_work_over(book, len(book), sheet, len(sheet), terms, moves, output, CARD_MOST)
    return reply, output.raw[:reply.bytes]


def work_over_some(library, book, sheet, boats, factored):
    """A Spent search among these boats worked over, the factored sheet's, no move allowed, and a search that ends Within."""
    worked, card = work_over(library, book, sheet, released(boats), 10)
    print_reply(worked.reply)
    print("bytes %d" % worked.bytes)
    print(card.hex())
    shares, slots = numbers([7, 7, 7, 7])
    reply = library.dofitrano_check_card_with(book, len(book), sheet, len(sheet), released(boats), False, *numbers([]), card, len(card), shares, slots)
    print("checked, refusal %d, %s, slots" % (reply.refusal, VERDICT_NAMES[reply.verdict]), *shares)
    worked, _ = work_over(library, book, factored, EVERY_BOAT, 10)
    reply = worked.reply
    print("factors 1 2, 4 steps, refusal %d, %s, %d %d, bytes %d" % (reply.refusal, VERDICT_NAMES[reply.verdict], reply.distance, reply.gap, worked.bytes))
    print("no move, refusal %d" % work_over(library, book, sheet, released(boats), 0)[0].reply.refusal)
    print("the whole book, refusal %d" % work_over(library, book, sheet, EVERY_BOAT, 10)[0].reply.refusal)


def listing(library, book, sheet):
    """The listing of a search as text. The buffer is long enough for any, so that 0, one too short, is never given back."""
    output = ctypes.create_string_buffer(LISTING_MOST)
    length = library.dofitrano_listing(book, len(book), sheet, len(sheet), output, LISTING_MOST)
    return output.raw[:length].decode("ascii")


def lists_of(cells):
    """Cells (kind, first, second, unit) as the lists that a call takes, each with its length."""
    n = len(cells)
    kinds, first, second, units = zip(*cells)
    doubles = ctypes.c_double * n
    return bytes(kinds), n, doubles(*first), n, doubles(*second), n, (ctypes.c_uint32 * n)(*units), n


def book_of(rows):
    """A fleet book: the rows, then the trailer."""
    body = b"".join(struct.pack("<h", value) for row in rows for value in row)
    return body + struct.pack("<IHH4s", len(body), len(rows), len(rows[0]), b"WBK1")


def sheet_of(target, steps, tolerance, factors=None):
    """A sheet: the target, the factors where there are any, then the trailer."""
    body = b"".join(struct.pack("<h", value) for value in target) + bytes(factors or [])
    return body + struct.pack("<IHHI4s", len(body), len(target), steps, tolerance, b"WSH2" if factors else b"WSH1")


def print_reply(reply):
    for name, _ in Reply._fields_:
        value = getattr(reply, name)
        print(name, VERDICT_NAMES[value] if name == "verdict" else value)


def main(path):
    library = load(path)
    book = book_of([(0, 0), (4, 0), (0, 4)])
    for steps in (9, 0):
        print("search, %d steps" % steps)
        # One slot more than there are boats: the search leaves it alone.
        reply, slots = search(library, book, sheet_of((1, 1), steps, 1), [7, 7, 7, 7])
        print_reply(reply)
        print("slots", *slots)
    # The second column counts twice.
    print("search, factors 1 2")
    reply, slots = search(library, book, sheet_of((1, 1), 2, 1, (1, 2)), [7, 7, 7, 7])
    print_reply(reply)
    print("slots", *slots)
    sheet = sheet_of((1, 1), 9, 1)
    # Later steps count for less: the first gives 2 shares, the others 1 each.
    print("table 2 1 1")
    lend_a_table(library, book, sheet, [2, 1, 1])
    print("released 1 2")
    search_among(library, book, sheet, [1, 2])
    # Up to 10 moves, after 9 steps among boats 1 and 2 and after 4 steps with factors.
    print("work over")
    work_over_some(library, book, sheet, [1, 2], sheet_of((1, 1), 4, 0, (1, 2)))
    print("listing")
    print(listing(library, book, sheet), end="")
    print("card")
    written, card = write_card(library, book, sheet)
    print("refusal %d, bytes %d" % (written.reply.refusal, written.bytes))
    print(card.hex())
    reply, slots = check_card(library, book, sheet, card, [7, 7, 7])
    print("checked, refusal %d, %s, slots" % (reply.refusal, VERDICT_NAMES[reply.verdict]), *slots)
    altered = card[:2] + bytes([card[2] + 1]) + card[3:]
    reply, _ = check_card(library, book, sheet, altered, [7, 7, 7])
    print("checked with one share more, refusal %d" % reply.refusal)
    print("cells")
    # A weighing in units of 10 kilograms and a net in units of 4, then the weighing alone.
    cells = [(WEIGHED, 1000000.1, 999975.6, 10), (NET, 5.5, 0.0, 4)]
    found = library.dofitrano_sheet_values(book, len(book), *lists_of(cells))
    print("refusal %d, values" % found.refusal, *found.values[:2])
    made = library.dofitrano_scale_sheet(book, len(book), *lists_of(cells), 9, 1)
    print("refusal %d, bytes %d" % (made.refusal, made.length))
    print(bytes(made.bytes[:made.length]).hex())
    made = library.dofitrano_scale_sheet(book, len(book), *lists_of(cells[:1]), 9, 1)
    print("refusal %d, bytes %d" % (made.refusal, made.length))
    print("editions")
    # The sheet in its other edition, and one whose factors are not all 1, which has none.
    other = ctypes.create_string_buffer(22)
    for sheet in (sheet_of((1, 1), 9, 1), sheet_of((1, 1), 2, 1, (1, 2))):
        made = library.dofitrano_other_edition(sheet, len(sheet), other, len(other))
        print("refusal %d, edition %d, bytes %d" % (made.refusal, made.edition, made.bytes))
        if made.bytes:
            print(other.raw[:made.bytes].hex())
    print("queue")
    # Two sheets back to back, on an allowance of 4 steps, and on one that is too small.
    sheets = [sheet_of((1, 1), 9, 1), sheet_of((1, 1), 2, 1, (1, 2))]
    queue = (SheetRecord * 2)(*(SheetRecord(length=len(sheet)) for sheet in sheets))
    slots = (ctypes.c_uint16 * 512)()
    for allowance in (4, 1):
        refusal = library.dofitrano_run_queue(queue, 2, book, len(book), b"".join(sheets), sum(map(len, sheets)), allowance, slots, 512)
        print("refusal", refusal)
        for i, r in enumerate(queue if not refusal else ()):
            print("asked %d, used %d, finished %d, %s, %d %d, slots" % (r.asked, r.used, r.finished, VERDICT_NAMES[r.verdict], r.distance, r.gap), *slots[256 * i:256 * i + 3])


if __name__ == "__main__":
    main(sys.argv[1])
