#!/usr/bin/env python3
"""Sees that the definitions, the code, the tests, the C header and docs/refusals.md agree on the refusals.

docs/refusals.md has two tables: what each number means and what to do about it, and an index. A row of the index has a number and, each with its
file, the definition that gives it, the function that returns it and a test case. tests/check_names.py sees that these names stand in their
files; here the number must stand in the definition, and the reason that has it in crates/refusals in the function, the contract of the function must write the definition, or one that is made
of it, and the case must be refused by it. The numbers of both tables and of the header are the same. Of a card's numbers, each is given by one line of all the definitions; 36 by two, one for the order of
the boats and one for a boat that is not released.
"""
import glob
import os
import re
import sys

ROOT = os.path.dirname(os.path.dirname(os.path.abspath(__file__)))


def read(path):
    with open(os.path.join(ROOT, path), encoding="utf-8") as file:
        return file.read()


def rows(path, heading):
    """The rows of the table with this heading, {number: cells}."""
    table = read(path).split(heading, 1)[1]
    table = re.match(r".*\n(?:\|.*\n)*", table)[0]
    return {int(cells[0]): cells[1:] for cells in ([c.strip() for c in line.strip("|").split(" | ")] for line in table.splitlines())
            if cells[0].isdigit()}


def part(path, name):
    """The text of a definition, up to an empty line, or of a function, up to its closing brace."""
    found = re.search(r"^(?:(?:unfoldable|abbrev|pub) )*%s :.*\n(?:.+\n)*" % re.escape(name) if path.endswith(".antt") else
                      r"^(?:pub )?fn %s\((?:.*\n)*?\}\n" % re.escape(name), read(path), re.M)
    return re.sub(r"(?://|--).*", "", found[0]) if found else ""


def promised(path, function, definition):
    """Whether the contract of a function writes a definition, or another of the repository that is made of it."""
    clauses = " ".join(re.findall(r"\{(.*)\}", part(path, function).split("\n{\n")[0]))
    if re.search(r"\b%s\b" % re.escape(definition), clauses):
        return True
    return any(re.search(r"\b%s\b" % re.escape(definition), part(specs, word))
               for specs in sorted(glob.glob(os.path.join(ROOT, "crates/*/specs/*.antt"))) for word in set(re.findall(r"[\w']+", clauses)))


def given(number):
    """The lines that give this number where a test fails, in all files of definitions that speak of a refusal."""
    found = []
    for path in sorted(glob.glob(os.path.join(ROOT, "crates/*/specs/*.antt"))):
        if "refusal" in read(path):
            found += re.findall(r"^[^-\n]*\bcond .*\) (?:0 )?%d\b.*" % number, read(path), re.M)
    return found


def refused(path, case, number):
    """Whether what a test program writes has this case with this number, in its line or in the next."""
    return re.search(r"^%s(?:: |\nrefused |\nvalues )%d\b" % (re.escape(case), number), read(path), re.M)


def main():
    faults = []
    index = rows("docs/refusals.md", "| number | definition | code | test |\n")
    meant = rows("docs/refusals.md", "| number | means | what to do |\n")
    enum = re.search(r"enum dofitrano_refusal \{(.*?)\};", read("include/dofitrano.h"), re.S)[1]
    header = {int(number): comment for number, comment in re.findall(r"DOFITRANO_\w+ = (\d+),?[ \t]*(/\*.*?\*/)?", enum) if number != "0"}
    if set(meant) != set(header):
        faults.append("docs/refusals.md and include/dofitrano.h: only one of them has %s" % sorted(set(meant) ^ set(header)))
    faults += ["include/dofitrano.h: %d has no comment" % number for number in header if not header[number]]
    reasons = {int(number): name for name, number in re.findall(r"^    (\w+) = (\d+),$", read("crates/refusals/src/lib.rt"), re.M)}
    if set(meant) != set(reasons):
        faults.append("docs/refusals.md and crates/refusals: only one of them has %s" % sorted(set(meant) ^ set(reasons)))
    numbers = dict(re.findall(r"^number (\w+) = (\d+)$", read("crates/refusals/specs/Numbers.antt"), re.M))
    faults += ["crates/refusals: %s has another number in specs/" % name for number, name in reasons.items() if numbers.get(name) != str(number)]
    differ = set(index) ^ set(meant)
    if differ:
        faults.append("docs/refusals.md: only one of its tables has %s" % sorted(differ))
    for number, cells in sorted(index.items()):
        (definition, d_file), (code, c_file), (case, t_file) = (re.findall(r"`([^`]+)`", cell) for cell in cells[:3])
        for what, ok in (("the definition %s has no such number" % definition, re.search(r"\b%d\b" % number, part(d_file, definition))),
                         ("the function %s does not return it" % code, re.search(r"\bRefusal::%s\b" % reasons.get(number), part(c_file, code))),
                         ("the contract of %s does not write %s" % (code, definition), promised(c_file, code, definition)),
                         ("%s does not have the case `%s` with this number" % (t_file, case), refused(t_file, case, number))):
            if not ok:
                faults.append("docs/refusals.md, %d: %s" % (number, what))
    for number in range(31, 40):
        if len(given(number)) != (2 if number == 36 else 1):
            faults.append("crates/*/specs: %d lines give %d" % (len(given(number)), number))
    for fault in faults:
        print(fault)
    print("refusals: %d, faults: %d" % (len(index), len(faults)))
    return 1 if faults else 0


if __name__ == "__main__":
    sys.exit(main())
