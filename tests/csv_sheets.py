"""The sheet of two CSVs and the line that names a fault, by tests/csv_reader.py, with the cases of test_sheet.

A file of cases has, for each, the length of the fleet's CSV in 2 bytes and that CSV, then the same of the sheet's.
"""
import csv_books
import csv_reader
import exact
from csv_books import YARD as FLEET
from csv_books import quoted, table_of
from exact import make_sheet
from generator import filled


def made(fleet, data):
    """(fault, line, field, lines, sheet): what csv_sheet gives back and what is said of it."""
    values, fault, line = csv_reader.sheet(fleet, data)
    if fault:
        return (*fault, line, b"")
    target, factors, steps, tolerance = values
    total = len(target) if factors is None else sum(factors)
    lines = "sheet %d\nfactors %d\nsteps %d\ntolerance %d\nfront csv\n" % (len(target), total, steps, tolerance)
    return 0, 0, 0, lines.encode(), make_sheet(target, steps, tolerance, front=data, factors=factors)


def printed(fleet, data):
    """The lines of a sheet, or the line of its fault; that of a fleet with a fault is the fleet's own."""
    fault, _, _, lines, _ = made(fleet, data)
    return csv_books.made(fleet)[3] if fault == csv_reader.FLEET else lines


def front(sheet):
    """The bytes before the body of a sheet that is not refused."""
    (back, *_), before = exact.split(sheet, exact.SHEET_TRAILER)
    return before[:len(before) - back]


def is_made(fleet, data, sheet):
    """Whether a sheet is the one that two CSVs make, in either edition. A fleet's CSV with a fault, or none, does not tell the order of the
    columns: then whether the sheet's CSV is its front text."""
    fault, *_, own = made(fleet, data)
    if fault == csv_reader.FLEET:
        return not exact.sheet_refusal_in(sheet, 1, exact.MOST_COLUMNS) and front(sheet) == data
    if fault:
        return False
    refusal, _, size, other = exact.other_edition(own, bytes(csv_books.MOST_FILE))
    return sheet == own or (not refusal and sheet == other[:size])


# ---- cases by hand

SHEET = """boat,hull weight,mach weight,outfit weight,elec weight,aux weight,deck weight,LCG moment,VCG moment
Hull 41,338,163,82,59,58,56,-39,74
steps,360
tolerance each,5
""".encode()

FACTORS = b"factor,1,1,1,0,1,1,1,1\n"
NAMES = SHEET.split(b"\n")[0]
# the electrical weight is left open
OPEN = SHEET.replace(b"82,59,", b"82,,") + FACTORS


def other(old, new, data=SHEET):
    assert old in data
    return data.replace(old, new)


def faulty():
    """What goes wrong in a spreadsheet, each with the examples' fleet."""
    yield other(b"Hull 41,338", b"Hull 41,2500")
    yield other(b"Hull 41,338", b"Hull 41,-2001")
    yield other(b"steps", FACTORS.replace(b"r,1", b"r,65") + b"steps")
    yield other(b"steps", FACTORS.replace(b"r,1", b"r,-1") + b"steps")
    yield other(b"steps,360", b"steps,400")
    yield other(b"steps,360", b"steps,0")
    yield other(b"steps,360", b"steps,-5")
    yield other(b"tolerance each,5", b"tolerance,1024000001")
    yield other(b"tolerance each,5", b"tolerance,-1")
    yield other(b"tolerance each,5", b"tolerance each,32001")
    yield other(b"Hull 41;338", b"Hull 41;338,4", SHEET.replace(b",", b";"))
    yield other(b"steps,360", b"steps,many")
    yield other(b"steps,360", b"steps, ")
    yield other(b",-39,74", b",-39")
    yield other(b"338,163,", b"338,,")
    # no value where the factor is not 0, or no number, or where the line is another
    yield other(b"338,163,", b"338,,", OPEN)
    yield other(b",0,", b",1,", OPEN)
    yield other(b",0,", b",,", OPEN)
    yield other(b",0,", b",x,", OPEN)
    yield other(b",0,", b",0.0,", OPEN)
    yield other(FACTORS, b"Factor,1,1,1,0,1,1,1,1\n", OPEN)
    yield other(FACTORS, FACTORS + FACTORS.replace(b"0", b"1"), OPEN)
    yield other(FACTORS, FACTORS.replace(b"0", b"1") + FACTORS, OPEN)
    yield other(b"82,,", b"82, ,", OPEN)
    yield other(b"82,,", b'82," ",', OPEN)
    yield other(b"82,,", b"82,-,", OPEN)
    yield other(b"82,,", b"82,2001,", OPEN)
    yield other(b",74\n", b",74,0\n", OPEN)
    yield other(b"steps,360", b"steps,", other(b"r,1", b"r,0", OPEN))
    yield NAMES + b"\nHull 41\nsteps,360\ntolerance,5\nfactor,0,0,0,0,0,0,0,0\n"
    yield other(b"steps,360", b"steps")
    yield other(b"tolerance each,5", b"tolerance,,5")
    yield other(b"Hull 41,338", b"Hull 41,338,4")
    yield other(b"steps,360", b"steps,360,361")
    yield other(b"steps", FACTORS.replace(b"\n", b",1\n") + b"steps")
    yield other(b"steps,360", b"steps,360\nsteps,360")
    yield other(b"tolerance each,5", b"tolerance each,5\ntolerance,200")
    yield other(b"steps", FACTORS + FACTORS + b"steps")
    yield other(b"steps,360", b"step,360\nsteps,360")
    yield other(b"steps,360", b",360\nsteps,360")
    yield other(b"steps,360", b"unit\nsteps,360\nunit")
    yield other(b"steps,360", b"length m,17.6\nsteps,360\nlength m,17.6")
    yield other(b"Hull 41,", b",")
    yield other(b",elec weight,", b",,")
    yield other(NAMES, b"boat,,,,,,,,")
    yield other(NAMES, b"boat")
    yield b""
    yield b"\n\r\n\n"
    yield b"\xef\xbb\xbf\r"
    yield b",,,\n" + SHEET
    yield other(NAMES, NAMES + b"," * 57)
    yield other(b"steps,360", b"steps,360" + b"," * 64)
    yield other(b"Hull 41", b'"Hull 41')
    yield other(b"Hull 41", b'"Hull 41" ')
    yield other(b"Hull 41", b"H" * 201)
    yield other(b"steps,360", b"steps," + b"0" * 201)
    yield SHEET + b",\n" * 13
    yield SHEET + b"unit,\n\n" * 14
    yield other(b"Hull 41,338,163,82,59,58,56,-39,74\n", b"")
    yield other(b"steps,360\n", b"")
    yield other(b"tolerance each,5\n", b"")
    yield NAMES + b"\n"
    yield b"boat,hull weight,mach weight,outfit weight,elec weight,aux weight,deck weight,LCG moment\n" + other(b",-39,74", b",-39").split(b"\n", 1)[1]
    yield other(b"VCG moment", b"vcg moment")
    yield other(b"VCG moment", b"VCG moment ")
    yield other(b"VCG moment", b"LCG moment")
    yield other(b"LCG moment,VCG moment\n", b"LCG moment,VCG moment,LCG moment\n", other(b",74\n", b",74,0\n"))
    yield other(b"LCG moment,VCG moment\n", b"LCG moment,VCG moment,GM\n", other(b",74\n", b",74,0\n"))
    yield other(b"steps", b"factor,0,0,0,0,0,0,0,0\nsteps")
    yield other(b"steps", b"factor,8,8,8,8,8,8,8,9\nsteps")
    yield other(b"tolerance each,5", b"tolerance each,11314")
    # a name of two lines is shown in one
    yield other(b"Hull 41,338", b'"Hull 41,\nsecond",338.5')
    yield other(b"Hull 41,338", b'"Hull ""41""",338.5')
    yield other(b"steps,360", b'"ste\nps",360\nsteps,360')
    yield SHEET.ljust(39001, b"\n")


def allowed():
    """Sheets that say the same in other ways, and numbers at their limits, each with the examples' fleet."""
    yield SHEET
    yield b"\xef\xbb\xbf" + SHEET
    yield SHEET.replace(b"\n", b"\r\n")
    yield SHEET.replace(b"\n", b"\r")
    yield SHEET.replace(b",", b";")
    yield SHEET.replace(b",", b"\t")
    yield SHEET.replace(b"\n", b",,,\n")
    yield b"\n\n" + SHEET.replace(b"\n", b"\n\n")
    yield other(b"steps", b",,,,\nsteps")
    yield other(b"boat", b"")
    yield other(b"boat", b"steps")
    yield other(b"steps", FACTORS + b"steps")
    yield other(b"steps", b"factor,1,1,1,1,1,1,1,1\nsteps")
    yield other(b"steps", b"factor,57,1,1,1,1,1,1,1\nsteps")
    yield other(b"steps", b"factor,64,0,0,0,0,0,0,0\nsteps")
    yield other(b"steps", b"factor,0,0,0,0,0,-0,0,1\nsteps")
    # a value may be left open where the factor is 0
    yield OPEN
    yield other(b"82,,", b'82,"",', OPEN)
    yield other(b",0,", b", 0 ,", OPEN)
    yield other(b",0,", b",-00,", OPEN)
    yield other(b"Hull 41", FACTORS + b"Hull 41", other(FACTORS, b"", OPEN))
    yield other(b",1,1\n", b",0,0\n", other(b",-39,74", b"", OPEN))
    yield other(b",1,1\n", b",1,0\n", other(b",-39,74\n", b",-39,,,\n", OPEN))
    yield NAMES + b"\nfactor,0,0,0,0,0,0,0,64\nHull 41,,,,,,,,74\nsteps,360\ntolerance,5\n"
    yield other(b"82,,", b"82,0,", OPEN)
    yield other(b"steps", b"unit\nsteps")
    yield other(b"steps", "unit,‰ D,‰ D,‰ D,‰ D,‰ D,‰ D,‰ D L,‰ D L,and more,text\nsteps".encode())
    yield SHEET + b"displacement t,29.4\nlength m,17.6\n"
    yield SHEET + b"displacement t\nlength m,about 17,6\n"
    yield other(b"tolerance each,5", b"tolerance,200")
    yield other(b"tolerance each,5", b"tolerance,1024000000")
    yield other(b"tolerance each,5", b"tolerance,0")
    yield other(b"tolerance each,5", b"tolerance each,11313")
    yield other(b"tolerance each,5", b"tolerance each,32000\nfactor,1,0,0,0,0,0,0,0")
    yield other(b"steps,360", b"steps,1")
    yield other(b"steps,360", b'"steps", +0360 ')
    yield other(b"Hull 41,338", b"Hull 41,-2000")
    yield other(b"Hull 41,338", b"Hull 41,2000")
    yield other(b"Hull 41,338", b'"Hull ""41"", of 1987","338"')
    yield b"\n".join([NAMES] + SHEET.split(b"\n")[3:0:-1]) + b"\n"
    yield b"\n".join(b",".join([fields[0], *reversed(fields[1:])]) if len(fields) > 2 else b",".join(fields)
                     for fields in (line.split(b",") for line in other(b"steps", FACTORS.replace(b"r,1", b"r,7") + b"steps").split(b"\n")))
    yield SHEET + b",\n" * 12
    yield SHEET[:-1]
    yield SHEET.ljust(39000, b"\n")


def of_guide():
    """Beside the cases of test_sheet, what docs/guide.md says of which of two faults is told: pairs of a fleet's CSV and a sheet's."""
    wrong_fleet = FLEET.replace(b"Eider II,341", b"Eider II,2500")
    yield wrong_fleet, SHEET.ljust(39001, b"\n")
    yield wrong_fleet, other(b"Hull 41", b'"Hull 41')
    for data in (
            other(b"steps,360", b"steps,many", SHEET) + b'"',
            other(b"steps,360", b'steps,"360" '),
            other(b"steps,360", b"steps,360" + b"," * 63),
            other(b"steps,360", b"steps,360" + b"," * 64),
            other(b",elec weight,", b",,") + b",\n" * 13,
            other(b",elec weight,", b",,", other(b"steps,360", b"steps,many")),
            other(b"Hull 41,338,163", b"Hull 41,2500,x"),
            other(b"Hull 41,338", b"Hull 41,x,338"),
            SHEET + b"steps,many\n",
            other(b"Hull 41,338", b"Hull 41,x", other(b"VCG moment", b"GM")),
            other(b"steps,360\n", b"", other(b"VCG moment", b"GM")),
            other(b"tolerance each,5\n", b"", other(b"steps,360\n", b"")),
            other(b"hull weight", b"GM", other(b"VCG moment", b"GZ")),
            other(b"VCG moment", b"GM") + b"factor,0,0,0,0,0,0,0,0\n",
            other(b"tolerance each,5", b"tolerance each,32000") + b"factor,9,9,9,9,9,9,9,9\n",
            other(b"Hull 41,338", b'"Hull\t41\n\x01\x7f\xff",x')):
        yield FLEET, data


def sheet_of(names, values, lines=("steps,9", "tolerance,1")):
    return "\n".join([",".join(["", *names]), ",".join(["new", *values]), *lines, ""]).encode()


def by_hand():
    """Pairs of a fleet's CSV and a sheet's."""
    for data in [*faulty(), *allowed()]:
        yield FLEET, data
    # the fleet's own faults come before those of the sheet
    yield FLEET.replace(b"Eider II,341", b"Eider II,2500"), SHEET
    yield FLEET.replace(b"Eider II,341", b"Eider II,2500"), b""
    yield b"", SHEET
    yield FLEET.ljust(200001, b"\n"), SHEET
    yield FLEET.ljust(200001, b"\n"), SHEET.ljust(39001, b"\n")
    yield FLEET.replace(b"LCG moment", b"VCG moment"), SHEET
    yield FLEET.replace(b"LCG moment", b"VCG moment"), other(b"LCG moment,", b"GM,")
    # as many columns as there may be
    names = ["c%d" % j for j in range(64)]
    yield table_of(2, 64), sheet_of(reversed(names), [str(j - 32) for j in range(64)])
    yield table_of(2, 64), sheet_of(names, ["2000"] * 64, ("factor" + ",1" * 64, "tolerance each,4000", "steps,360"))
    yield table_of(2, 64), sheet_of(names, ["0"] * 65)
    yield table_of(2, 64), sheet_of([*names, "c64"], ["0"] * 64)
    yield table_of(2, 63), sheet_of(names[:63], ["0"] * 64)
    yield table_of(2, 1), sheet_of(["c0"], ["1", "2"])
    yield table_of(2, 1), sheet_of(["c0"], ["1"])
    # a column of the name 0 has no factor by it; columns in another order than the fleet's
    yield b"boat,0,b\nB,1,2\n", sheet_of(["0", "b"], ["", "1"])
    yield b"boat,0,b\nB,1,2\n", sheet_of(["b", "0"], ["1", ""], ("factor,1,0", "steps,9", "tolerance,1"))
    yield b"boat,0,b\nB,1,2\n", sheet_of(["b", "0"], ["1", ""], ("factor,0,1", "steps,9", "tolerance,1"))
    yield table_of(2, 64), sheet_of(names, ["7"] + [""] * 63, ("factor,64" + ",0" * 63, "tolerance,4000", "steps,360"))
    long = "".join(chr(97 + j % 26) for j in range(200))
    yield ("boat,%s\nb,1\n" % long).encode(), sheet_of([long], ["1.5"])
    yield ("boat,%s\nb,1\n" % long).encode(), sheet_of([long[:-1] + "?"], ["1"])
    yield ("boat,%s,b\nb,1,2\n" % long).encode(), (",b,%s\n%s,2,%s\nsteps,9\ntolerance,1\n" % (long, long, "9" * 200)).encode()


# ---- drawn cases

WORDS = ["Alka", "Å", "boat, old", 'the "fast" one', "two\nlines", "unit", "steps", "x" * 200, " a ", ";", "\t", "Ελλη", "+1", "船"]
NUMBERS = ["0", "-0", "+7", "2000", "-2000", "2001", "-2001", " 12", "12 ", "1 2", "1.5", "1,5", "", " ", "+", "1e3", "00012", "99999999999", "a",
           "64", "65", "360", "361", "32000", "32001", "1024000000", "1024000001", "-1"]


def drawn_names(draws, count):
    """Names, mostly of different columns."""
    found = []
    while len(found) < count:
        name = WORDS[draws.draw(len(WORDS))] if draws.draw(3) == 0 else "n%d" % draws.draw(100)
        if name not in found or draws.draw(20) == 0:
            found.append(name)
    return found


def shuffled(draws, items):
    rest, found = list(items), []
    while rest:
        found.append(rest.pop(draws.draw(len(rest))))
    return found


def text_of(draws, lines):
    """The bytes of lines, with a drawn separator, line end, quotes and byte-order mark."""
    mark, end = ",;\t"[draws.draw(3)], ["\n", "\r\n", "\r"][draws.draw(3)]
    always = draws.draw(5) == 0
    text = end.join(mark.join(quoted(field, mark, always and field) for field in line) for line in lines)
    data = (text + ("" if draws.draw(4) == 0 else end)).encode()
    return b"\xef\xbb\xbf" + data if draws.draw(8) == 0 else data


def damaged(draws, data):
    """A byte left out or put in, or the end cut off."""
    at = draws.draw(len(data))
    byte = [34, 10, 13, 44, 0, 200, 239][draws.draw(7)]
    return [data[:at] + data[at + 1:], data[:at] + bytes([byte]) + data[at:], data[:at]][draws.draw(3)]


def sheet_lines(draws, names):
    """Lines that ask for something, in any order: mostly right."""
    def number(low, high):
        return str([low, high, low + draws.draw(high - low + 1)][draws.draw(3)])

    rows = [[["new hull", "Ny båt", "Hull 41", 'the "new"\none', "units"][draws.draw(5)]] + [number(-2000, 2000) for _ in names]]
    rows.append(["steps", number(1, 360)])
    if draws.draw(2):
        rows.append(["tolerance", number(0, 1024000000)])
    else:
        rows.append(["tolerance each", str([5, 0, 32000, draws.draw(6000)][draws.draw(4)])])
    if draws.draw(2):
        most = [2, 64 // len(names), 64][draws.draw(3) if draws.draw(3) == 0 else 1]
        rows.append(["factor"] + [str(draws.draw(most + 1) if draws.draw(3) else 0) for _ in names])
        # mostly left open where the factor is 0
        for j, factor in enumerate(rows[-1]):
            if j and draws.draw(3) < (2 if factor == "0" else draws.draw(12) == 0):
                rows[0][j] = ""
    if draws.draw(3) == 0:
        rows.append(["unit"] + [WORDS[draws.draw(len(WORDS))] for _ in range(draws.draw(len(names) + 2))])
    if draws.draw(4) == 0:
        rows += [["displacement t", "29.4"], ["length m", "17,6"]][:1 + draws.draw(2)]
    return shuffled(draws, rows)


def fault_in(draws, names, rows):
    """Something that is wrong, in the names or in a line."""
    row = rows[draws.draw(len(rows))]
    choice = draws.draw(9)
    if choice == 0:
        names[draws.draw(len(names))] = ["", "other", names[0], "N1"][draws.draw(4)]
    elif choice == 1:
        rows.remove(row)
    elif choice == 2:
        rows.insert(draws.draw(len(rows) + 1), list(row))
    elif choice == 3:
        row.append(["0", "", "text"][draws.draw(3)])
    elif choice == 4:
        row.pop()
    elif choice == 5:
        row[0] = ["", "step", "Steps", "tolerance", "factor", "tolerance  each", "x" * 201][draws.draw(7)] if row else ""
    elif choice == 6:
        names.append(["", "other", names[0]][draws.draw(3)])
        for longer in rows:
            if len(longer) == len(names) and len(names) > 2:
                longer.append("1")
    else:
        row[draws.draw(len(row))] = NUMBERS[draws.draw(len(NUMBERS))]


def drawn_case(draws):
    """A fleet and a sheet for it, often with something that is wrong."""
    count = 1 + draws.draw(5)
    names = drawn_names(draws, count)
    boats = [["b%d" % i] + [str(draws.draw(4001) - 2000) for _ in names] for i in range(1 + draws.draw(2))]
    fleet = text_of(draws, [["boat", *names], *boats])
    own = shuffled(draws, names)
    rows = sheet_lines(draws, own)
    if draws.draw(2):
        fault_in(draws, own, rows)
    lines = [["boat", "", "steps"][draws.draw(3):][:1] + own, *rows]
    width = max(len(line) for line in lines) + draws.draw(3)
    if draws.draw(3) == 0:
        lines = [line + [""] * (width - len(line)) for line in lines]
    for _ in range(draws.draw(4) // 2):
        lines.insert(draws.draw(len(lines)) + 1, [[], [""] * 3][draws.draw(2)])
    data = text_of(draws, lines)
    if draws.draw(12) == 0:
        fleet = damaged(draws, fleet)
    if draws.draw(8) == 0:
        data = damaged(draws, data)
    return fleet, data


# so many pairs in the program; all with the built program, in tests/run_programs.py
COUNT, ALL = 600, 620


def all_cases():
    return filled(by_hand(), drawn_case, 41, ALL)


def cases():
    """Those of the program. Left out are the long ones and those of 63 and 64 columns, which take long where each step is checked."""
    return [pair for pair in all_cases() if len(pair[0]) < 30000 and len(pair[1]) < 30000 and b"c60" not in pair[0]][:COUNT]


def file_of(found):
    return b"".join(len(data).to_bytes(2, "little") + data for pair in found for data in pair)


def kinds(found):
    """How often each outcome is met."""
    count = {}
    for fleet, data in found:
        fault = made(fleet, data)[0]
        count[fault] = count.get(fault, 0) + 1
    return count


# ---- folders, by their names. The current folder has no name, and `none` does not stand

FOLDERS = {
    "": {"fleet.csv": FLEET, "sheet.csv": SHEET},
    "factors": {"fleet.csv": FLEET, "sheet.csv": other(b"steps", FACTORS + b"steps"), "sheet.wsh": b"an older sheet"},
    "open": {"fleet.csv": FLEET, "sheet.csv": OPEN, "sheet.wsh": b"an older sheet"},
    "faulty": {"fleet.csv": FLEET, "sheet.csv": other(b"steps,360", b"steps,400"), "sheet.wsh": b"an older sheet"},
    "fleet": {"fleet.csv": FLEET.replace(b"Eider II,341", b"Eider II,2500"), "sheet.csv": SHEET, "sheet.wsh": b"an older sheet"},
    "alone": {"sheet.csv": SHEET, "sheet.wsh": b"an older sheet"},
    "longer": {"fleet.csv": FLEET, "sheet.csv": SHEET.ljust(39001, b"\n"), "sheet.wsh": b"an older sheet"},
}
