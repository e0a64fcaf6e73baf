#!/usr/bin/env python3
"""What test_card_details prints: of each book, sheet and card the number that refuses them, and for every number below 60 that has one its line."""
import os
import sys

sys.path.insert(0, os.path.join(os.path.dirname(os.path.abspath(__file__)), ".."))
import card_details  # noqa: E402

LONG = b"n" * 99 + b"ame.wcd"


def case(number, found):
    lines = [b"case %d\nrefusal %d\n" % (number, card_details.refusal_of(*found))]
    for asked in range(60):
        line = card_details.card_detail(b"card.wcd", *found, asked)
        lines.append(b"of %d\n" % asked + line + card_details.card_detail(LONG, *found, asked) if line else b"")
    return b"".join(lines)


def main():
    found = card_details.cases()
    missing = card_details.missing(found)
    if missing:
        sys.exit("card_details.py has no case of: %s" % missing)
    sys.stdout.buffer.write(b"".join(case(number, files) for number, files in enumerate(found)))


main()
