#!/usr/bin/env python3
"""What test_worked prints: what each call gives back, the number by which the check refuses the card under the same set, and a sum of all bytes
of the buffer; then mixwork in one folder after another, with the card that stands there."""
import os
import sys

sys.path.insert(0, os.path.join(os.path.dirname(os.path.abspath(__file__)), ".."))
import exact  # noqa: E402
import workings  # noqa: E402
from printing import answer_lines, checksum  # noqa: E402

# How often each outcome must be met: refusals, verdicts of results, and results with fewer boats than the run.
WANTED = (1, 11, 22, 46, 52, 53, 54, "within", "beyond", "spent")


def worked(number, book, sheet, moves, released, room):
    """How one case goes, and its lines: the call is lent `room` bytes of a longer buffer, which is summed whole."""
    refusal, answer, size, left = exact.work_over(book, sheet, moves, bytes([workings.FILLED] * room), released)
    text = "case %d\n" % number
    if refusal:
        text += "refused %d\n" % refusal
    else:
        run = exact.search(book, sheet, [0] * 256, None, released)[1]
        if answer.distance > run.distance:
            sys.exit("case %d: a result that is farther than its run" % number)
        text += answer_lines(answer) + "bytes %d\n" % size
        text += "checked %d\n" % exact.check_card(book, sheet, left[:size], [0] * 256, None, released)[0]
    left += bytes([workings.FILLED] * (workings.ROOM - room))
    return refusal or exact.VERDICT_NAMES[answer.verdict], text + "sum %d\n" % checksum(left)


def main():
    found = [worked(number, *case) for number, case in enumerate(workings.cases())]
    kinds = [kind for kind, _ in found]
    missing = [kind for kind in WANTED if kinds.count(kind) < (1 if kind in (1, 11, 46) else 6)]
    if missing:
        sys.exit("workings.py has too few cases of: %s" % missing)
    sys.stdout.write("".join(text for _, text in found))
    for name, (moves, files) in workings.RUNS.items():
        printed, left = workings.filed(files, moves)
        sys.stdout.write("%s\n%sbytes %d\nsum %d\n" % (name, printed.decode(), len(left), checksum(left)))


main()
