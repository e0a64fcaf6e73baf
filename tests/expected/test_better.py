#!/usr/bin/env python3
"""What test_better prints: what is chosen of each pair of cards, as a part and by number, offset and length."""
import os
import sys

sys.path.insert(0, os.path.join(os.path.dirname(os.path.abspath(__file__)), ".."))
import exact  # noqa: E402
import pairs  # noqa: E402
from printing import checksum  # noqa: E402


def chosen(number, case):
    refusal, card, offset, length = exact.better_card(*case)
    part = exact.better_part(*case)[1]
    return "case %d\nnumber %d\nbytes %d\nsum %d\nrefusal %d\ncard %d\noffset %d\nlength %d\n" % (
        number, refusal, len(part), checksum(part), refusal, card, offset, length)


def main():
    # Each outcome must be met, and pairs that doubles or 64 bits decide wrongly.
    missing = [name for name, count in pairs.counts().items() if count < 5]
    if missing:
        sys.exit("pairs.py has too few cases: " + " ".join(missing))
    sys.stdout.write("".join(chosen(number, case) for number, case in enumerate(pairs.cases())))


main()
