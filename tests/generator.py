"""Drawn fleet books and sheets for the tests, draw for draw as crates/test_samples and crates/test_terms make them."""

SCALES = [1, 2, 10, 200, 2000]
SPECIAL = [0, 1, 2, 3, 5, 8, 10, 64, 65, 256, 360, 361]
LIMITS = [2000, 2001, 63536, 63535]
TOTALS = [64, 64, 1, 63, 65, 0, 64, 255]


def names(folders):
    """The names of folders as a test program reads them: the length of each in 2 bytes, and the name."""
    return b"".join(len(name).to_bytes(2, "little") + name.encode() for name in folders)


class Draws:
    """A linear congruential generator."""

    def __init__(self, seed):
        self.seed = seed

    def draw(self, n):
        """A number below n, 0 where n is 0."""
        self.seed = self.seed % 2147483647 * 48271 % 2147483647
        return self.seed % n if n else 0


class Plan:
    """The sizes of a case."""

    def __init__(self, boats, columns, scale, steps, front):
        self.boats = boats
        self.columns = columns
        self.scale = scale
        self.steps = steps
        self.front = front


def draw_plan(draws):
    boats = draws.draw(8) + 1
    columns = draws.draw(5) + 1
    scale = SCALES[draws.draw(5)]
    steps = draws.draw(12) + 1
    front = draws.draw(4)
    return Plan(boats, columns, scale, steps, front)


def value_bytes(value):
    return (value % 65536).to_bytes(2, "little")


def draw_front(draws, count):
    return bytes(draws.draw(256) for _ in range(count))


def draw_row(draws, columns, scale):
    return [draws.draw(2 * scale + 1) - scale for _ in range(columns)]


def row_bytes(row):
    return b"".join(value_bytes(value) for value in row)


def draw_book(draws, plan):
    """Where the rows of a drawn book start, and the bytes of the book."""
    front = draw_front(draws, plan.front)
    rows = []
    for i in range(plan.boats):
        again = draws.draw(4) == 0
        rows.append(rows[-1] if again and i else draw_row(draws, plan.columns, plan.scale))
    file = front + b"".join(row_bytes(row) for row in rows)
    file += (2 * plan.boats * plan.columns).to_bytes(4, "little")
    file += plan.boats.to_bytes(2, "little")
    file += plan.columns.to_bytes(2, "little")
    return len(front), file + b"WBK1"


def draw_target(draws, plan, book, rows):
    """The bytes of a target: drawn, one boat's row, between two boats, or far out."""
    width = 2 * plan.columns
    kind = draws.draw(4)
    a = rows + width * draws.draw(plan.boats)
    b = rows + width * draws.draw(plan.boats)
    if kind == 0:
        return row_bytes(draw_row(draws, plan.columns, plan.scale))
    if kind == 1:
        return book[a:a + width]
    if kind == 2:
        target = b""
        for j in range(plan.columns):
            x = (int.from_bytes(book[a + 2 * j:a + 2 * j + 2], "little") + 2000) % 65536
            y = (int.from_bytes(book[b + 2 * j:b + 2 * j + 2], "little") + 2000) % 65536
            target += value_bytes((x + y) // 2 - 2000)
        return target
    return row_bytes(draw_row(draws, plan.columns, 2000))


def draw_sheet(draws, plan, book, rows, tolerance):
    """The bytes of a drawn sheet for a book whose rows start at `rows`."""
    file = draw_front(draws, plan.front)
    file += draw_target(draws, plan, book, rows)
    file += (2 * plan.columns).to_bytes(4, "little")
    file += plan.columns.to_bytes(2, "little")
    file += plan.steps.to_bytes(2, "little")
    file += tolerance.to_bytes(4, "little")
    return file + b"WSH1"


def factor(kind, x):
    """A factor from a drawn byte: 1, of a small or a larger range, any byte, or 0."""
    return 1 if kind == 0 else x % {1: 2, 2: 4, 3: 256, 4: 14, 5: 2}.get(kind, 1)


def draw_factors(draws, columns):
    """Factors for so many columns. Half of the kinds bring them to a total of the list, by the factor of one column, where it can be."""
    kind = draws.draw(8)
    chosen = draws.draw(columns)
    total = TOTALS[draws.draw(8)]
    factors = [factor(kind, draws.draw(256)) for _ in range(columns)]
    if kind > 3:
        factors[chosen] = max(total - (sum(factors) - factors[chosen]), 0)
    return factors


def factored_sheet(sheet, factors):
    """The sheet with factors, of tolerance 0, of the values and steps of one without."""
    back = (3 * len(factors)).to_bytes(4, "little")
    return sheet[:-16] + bytes(factors) + back + sheet[-12:-8] + bytes(4) + b"WSH2"


# Numbers of shares of drawn tables, at the limits.
LENGTHS = [360, 359, 361, 0, 1]


def border(past, total):
    """The greatest share that may follow a running total, where `past` is that of the total before: one more where it may be."""
    more = past + 1
    return more if more * more <= 2 * (total + more) else past


def share(kind, i, most, at_place, x):
    """Share i of a drawn table, where `most` is the greatest that may stand there."""
    if at_place and kind == 5:
        return most + 1
    if at_place and kind == 6:
        return 0
    plain = {0: 1, 1: i + 1, 2: i + 1 if i < 4 else max(7 - i, 1), 3: most, 7: 2 if i == 0 else i + 1}
    return plain.get(kind, x % most + 1)


def draw_table(draws, choices):
    """Shares: 1 each, counted, rising and falling, the greatest that are accepted, drawn ones, one share too great or 0, or counted from 2.
    The first of `choices` lengths are at the limits.
    """
    kind = draws.draw(8)
    choice = draws.draw(choices)
    short = draws.draw(14) + 1
    place = draws.draw(short)
    table, most, total = [], 2, 0
    for i in range(LENGTHS[choice] if choice < 5 else short):
        table.append(share(kind, i, most, i == place, draws.draw(360)))
        total += table[-1]
        most = border(most, total)
    return table


def with_bit(byte, bit):
    """The byte with a bit set."""
    return byte if byte >> bit & 1 else byte + (1 << bit)


def draw_set(draws, boats):
    """A released set, 32 bytes: one boat, all, the last, drawn ones, drawn ones with one of the book or with one it does not have, or none."""
    kind = draws.draw(8)
    chosen = draws.draw(boats)
    if kind == 2:
        chosen = boats - 1
    if kind == 5:
        chosen = boats + chosen % 8
    released = []
    for k in range(32):
        inside = 1 << min(max(boats - 8 * k, 0), 8)
        x = draws.draw(256)
        byte = {1: inside - 1, 3: x % inside, 4: x % inside, 5: x % inside, 7: x % inside}.get(kind, 0)
        if kind in (0, 2, 4, 5) and chosen // 8 == k:
            byte = with_bit(byte, chosen % 8)
        released.append(byte)
    return bytes(released)


def other_book(draws, plan, book, rows, released):
    """The book with other rows for the boats that are not released."""
    width = 2 * plan.columns
    for boat in range(plan.boats):
        if not released[boat // 8] >> boat % 8 & 1:
            at = rows + width * boat
            book = with_bytes(book, at, row_bytes(draw_row(draws, plan.columns, plan.scale)))
    return book


def draw_mirrored(draws):
    """A book of small values, about one in three of its rows a row before it with one value negated,
    a target whose first values are 0, and steps: equal scores of different rows are common.
    """
    boats = draws.draw(7) + 6
    columns = draws.draw(2) + 2
    steps = draws.draw(18) + 3
    rows = []
    for i in range(boats):
        if draws.draw(3) == 0 and i:
            row = list(rows[draws.draw(i)])
            column = draws.draw(columns)
            row[column] = -row[column]
        else:
            row = draw_row(draws, columns, 2)
        rows.append(row)
    zeros = draws.draw(columns + 1)
    return rows, [0] * zeros + draw_row(draws, columns - zeros, 2), steps


def with_bytes(buffer, at, new):
    """The buffer with bytes replaced; what would fall past its end is left out."""
    changed = bytearray(buffer)
    for i, x in enumerate(new):
        if at + i < len(changed):
            changed[at + i] = x
    return bytes(changed)


def damage_in(draws, buffer, end):
    """Damage to a file that ends at `end` of a buffer: where it then starts and ends, and the buffer.

    A byte, a number of the trailer, a value, or a cut at either side.
    """
    kind = draws.draw(6)
    place = draws.draw(end)
    near = draws.draw(16)
    x = draws.draw(65536)
    if kind == 4:
        return 0, place, buffer
    if kind == 5:
        return place, end, buffer
    if kind == 0:
        return 0, end, with_bytes(buffer, place, [x % 256])
    if kind == 1:
        return 0, end, with_bytes(buffer, max(end - near - 1, 0), [x % 256])
    if kind == 2:
        return 0, end, with_bytes(buffer, max(end - 2 * near - 4, 0), SPECIAL[x % 12].to_bytes(2, "little"))
    return 0, end, with_bytes(buffer, place, LIMITS[x % 4].to_bytes(2, "little"))


def damage(draws, file):
    """A damaged file."""
    start, end, changed = damage_in(draws, file, len(file))
    return changed[start:end]


def filled(found, drawn_case, seed, count):
    """The cases written by hand, and drawn ones up to `count`."""
    draws, found = Draws(seed), list(found)
    while len(found) < count:
        found.append(drawn_case(draws))
    return found
