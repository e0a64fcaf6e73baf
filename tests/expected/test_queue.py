#!/usr/bin/env python3
"""What test_queue prints: the number that refuses each queue, how many of its sheets are accepted ahead of the one that refuses it, its records, and a sum
of all slots; then mixqueue in one folder after another.
"""
import os
import re
import sys

sys.path.insert(0, os.path.join(os.path.dirname(os.path.abspath(__file__)), ".."))
import exact  # noqa: E402
import queues  # noqa: E402
from printing import checksum  # noqa: E402


def queue(number, book, lengths, buffer, allowance, slots):
    """The lines of one case: the call is lent `slots` slots of a longer list, which is checked whole."""
    refusal, records, left = exact.run_queue(book, lengths, buffer, allowance, [queues.FILLED] * slots)
    accepted = exact.queue_refusal(book, lengths, buffer, allowance, slots)[2]
    lines = ["case %d" % number, "refused %d" % refusal, "accepted %d" % accepted]
    lines += ["record %d %d %d %d %d %d %d" % (r.asked, r.used, r.finished, r.distance, r.gap, r.verdict, r.length) for r in records or []]
    return "\n".join(lines + ["sum %d\n" % checksum(left + [queues.FILLED] * (queues.SLOTS - slots))])


def main():
    found = queues.cases()
    kinds = queues.kinds(found)
    missing = [kind for kind in (0, 14, 21, 44, 45, 46, "cut", "finished") if kinds.get(kind, 0) < 3]
    if missing:
        sys.exit("queues.py has too few cases of: %s" % missing)
    # a queue's sheet has what the sheet run alone has, with its steps set to those that it used
    for book, lengths, buffer, allowance, slots in found:
        refusal, records, left = exact.run_queue(book, lengths, buffer, allowance, [0] * slots)
        at = 0
        for i, record in enumerate(records or []):
            rows, (target, steps, tolerance, factors) = exact.read_book(book), exact.read_sheet(buffer[at:at + record.length])
            answer, shares = exact.run(rows, target, record.used, tolerance, factors)
            at += record.length
            if (answer.steps, answer.distance, answer.gap, answer.verdict) != (record.used, record.distance, record.gap, record.verdict):
                sys.exit("a sheet run alone with its steps set to those that it used has another answer")
            if shares != left[256 * i:256 * i + len(rows)]:
                sys.exit("a sheet run alone with its steps set to those that it used has other shares")
    # each kind of line, and each refusal that a folder can have
    lines = [queues.printed(queues.FOLDERS[name], allowance) for name, allowance in queues.RUNS]
    for pattern in (rb" within \d", rb" beyond \d", rb" spent cut \d", rb" spent \d", rb"refused 2$", rb"refused 11$", rb"refused 14$", rb"refused 44$", rb"refused 45$"):
        if not any(re.search(pattern, line) for line in lines):
            sys.exit("queues.py has no folder for: %s" % pattern)
    sys.stdout.write("".join(queue(number, *case) for number, case in enumerate(found)))
    sys.stdout.write("".join("%s\nallowance %d\n%s" % (name, allowance, line.decode()) for (name, allowance), line in zip(queues.RUNS, lines)))


main()
