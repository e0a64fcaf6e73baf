#!/usr/bin/env python3
"""What test_merge prints: what is given back and left for each pair of books, then mixmerge in one folder after another."""
import os
import sys

sys.path.insert(0, os.path.join(os.path.dirname(os.path.abspath(__file__)), ".."))
import exact  # noqa: E402
import merges  # noqa: E402
from printing import checksum  # noqa: E402


def merged(number, first, second, room):
    """The lines of one case: a buffer has `room` bytes of a longer one, which is checked whole."""
    refusal, length, written = exact.merge_books(first, second, bytes([merges.FILLED]) * room)
    return b"case %d\nrefused %d\nbytes %d\nsum %d\n" % (number, refusal, length, checksum(written.ljust(merges.MOST, bytes([merges.FILLED]))))


def folder(name):
    printed, left = merges.filed(merges.FOLDERS[name])
    return name.encode() + b"\n" + printed + b"bytes %d\nsum %d\n" % (len(left), checksum(left))


def main():
    found = merges.cases()
    # each outcome must be met, and books whose rows are equal
    kinds = merges.kinds(found)
    missing = [kind for kind in (0, 1, 2, 3, 4, 5, 6, 55, 56, 57, "dropped") if kinds.get(kind, 0) < 3]
    if missing:
        sys.exit("merges.py has too few cases of: %s" % missing)
    sys.stdout.buffer.write(b"".join([*(merged(number, *case) for number, case in enumerate(found)), *map(folder, merges.FOLDERS)]))


main()
