#!/usr/bin/env python3
"""Write the sample fleet book and sheet of this folder: three boats in two columns, and a target between them."""
import os
import sys

HERE = os.path.dirname(os.path.abspath(__file__))
sys.path.insert(0, os.path.join(HERE, "..", "tests"))
import exact  # noqa: E402

ROWS = [[0, 0], [4, 0], [0, 4]]


def write(name, content):
    with open(os.path.join(HERE, name), "wb") as file:
        file.write(content)


if __name__ == "__main__":
    write("fleet.wbk", exact.make_book(ROWS))
    write("sheet.wsh", exact.make_sheet([1, 1], steps=9, tolerance=1))
