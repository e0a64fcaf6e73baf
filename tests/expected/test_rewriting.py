#!/usr/bin/env python3
"""What test_rewriting writes: each sheet in its other edition and back, then mixedition in one folder after another."""
import os
import sys

sys.path.insert(0, os.path.join(os.path.dirname(os.path.abspath(__file__)), ".."))
import exact  # noqa: E402
import sheet_editions  # noqa: E402
from printing import checksum  # noqa: E402


def folder(name):
    """Where a folder stands in the place of other.wsh, nothing is printed and no sheet can be read there."""
    files = sheet_editions.FOLDERS.get(name, {})
    line, _, left = sheet_editions.filed(files)
    if "other.wsh/inside" in files:
        line, left = b"", b""
    return name.encode() + b"\n" + line + b"bytes %d\nsum %d\n" % (len(left or b""), checksum(left or b""))


def main():
    found = sheet_editions.cases()
    # each refusal and both editions must be met, among the drawn ones too
    for part in (found, [case for case in found if case[0].startswith("drawn")]):
        met = {exact.other_edition(bytes(zeros) + sheet, bytes(room))[:2] for _, zeros, room, sheet, _ in part}
        if not {(0, 1), (0, 2), (47, 0), (48, 0)} <= met:
            sys.exit("sheet_editions.py has no case of some outcome: %s" % sorted(met))
    names = ("", "down", "front", "longest", "too_long", "factor", "columns", "no_steps", "taken", "none")
    sys.stdout.buffer.write(b"".join([*(b"case %d\n" % number + sheet_editions.written(*case) for number, case in enumerate(found)), *map(folder, names)]))


main()
