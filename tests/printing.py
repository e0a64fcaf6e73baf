"""Answers as the test programs print them (crates/test_printing), and listings of a program's data folder."""
import os

import exact

CRATES = os.path.join(os.path.dirname(os.path.abspath(__file__)), "..", "crates")


def data_file(program, name):
    return exact.read_file(os.path.join(CRATES, program, "data", name))


def checksum(content):
    total = 0
    for x in content:
        total = (total * 257 + x) % 1000003
    return total


def answer_lines(answer):
    text = "%s %d %d %d %d\n" % (
        exact.VERDICT_NAMES[answer.verdict], answer.steps, answer.weight, answer.distance, answer.gap)
    if answer.verdict == exact.BEYOND:
        text += "floor %d\n" % answer.carried
    if answer.verdict == exact.SPENT:
        text += "shortfall %d\n" % answer.carried
    return text


def outcome_lines(refusal, answer):
    return "refused %d\n" % refusal if refusal else answer_lines(answer)


def slots_line(slots):
    return "slots " + " ".join(str(slot) for slot in slots) + "\n"
