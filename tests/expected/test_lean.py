#!/usr/bin/env python3
"""What test_lean prints: the report of each set of cards, then leanlist in one folder after another."""
import os
import sys

sys.path.insert(0, os.path.join(os.path.dirname(os.path.abspath(__file__)), ".."))
import exact  # noqa: E402
import leanings  # noqa: E402


def main():
    found = leanings.cases()
    # each kind of outcome must be met
    kinds = leanings.kinds(found)
    missing = [kind for kind in (b"accepted", b"stretch", b"58", b"12", b"38") if kinds.get(kind, 0) < 3]
    if missing:
        sys.exit("leanings.py has too few cases of: %s" % missing)
    lines = [b"case %d\n" % number + leanings.listed(*case) for number, case in enumerate(found)]
    # a report of cards for which there are too few slots
    lines += [b"too few slots\n", exact.refused(21)]
    lines += [name.encode() + b"\n" + leanings.printed(files) for name, files in leanings.FOLDERS.items()]
    sys.stdout.buffer.write(b"".join(lines))


main()
