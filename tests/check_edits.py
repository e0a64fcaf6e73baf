#!/usr/bin/env python3
"""See that every edit can be tried, says where it is wrong, and that none is missing.

An edit (a mutation test) is a wrong program or a wrong definition that the checker must refuse. Two tiers stand beside each crate:
crates/NAME/must-fail is tried in each gate, crates/NAME/edits by tools/edits. tests/edits.txt has how many there are of each.

Use: check_edits.py                 compare the tree with tests/edits.txt, and the edits' form
     check_edits.py --write         store the counts
     check_edits.py --refused LOG   see in the output of rt ci that each edit of the gate was refused, and that none was bad
     check_edits.py --reasons LOG   list the edits that by this output of rt ci, rt must-fail or tools/edits were not refused at a fact first: safety,
                                    or what a callee requires, or a name that is missing, or a limit of the prover
"""
import glob
import os
import re
import sys

ROOT = os.path.join(os.path.dirname(os.path.abspath(__file__)), "..")
COUNTS = os.path.join(ROOT, "tests", "edits.txt")
TIERS = ("must-fail", "edits")

# The goals that the checker sets so that code is safe and callees may be called, and what it says of them; and what it says where a name is missing.
SAFETY = re.compile(r"-requires(-\w+)*$|^(overflow|bounds|nonzero|shift|unreachable|float_to_int|range|add|sub|mul|div|rem|neg|cast|shl|shr|array|slice|shared-slice|same-length)\b"
                    r"|^(overflow|bounds|nonzero|shift|range)_|-(less|decreases)$")
SAFE_SAID = re.compile(r"it is not proved that (what `[^`]*` requires|index|the index|.* is below|.* fits|.* is not 0)")
MISSING = re.compile(r"is not in scope|can be named from here|has no field|has no `|was not admitted|\(only ")
REFUSED = re.compile(r"^rt: must-fail (\S+)\.edit: refused, as it must be(.*)$", re.M)


def read(path):
    with open(path, encoding="utf-8") as file:
        return file.read()


def tier(name):
    """The paths of the edits of a tier."""
    return sorted(glob.glob(os.path.join(ROOT, "crates", "*", name, "*.edit")))


def parts(path):
    """Crate and label of an edit."""
    crate = os.path.basename(os.path.dirname(os.path.dirname(path)))
    return crate, os.path.splitext(os.path.basename(path))[0]


def counts():
    """A line for each crate that has edits: its name, those of the gate, those of the long tier."""
    found = {}
    for place, name in enumerate(TIERS):
        for path in tier(name):
            found.setdefault(parts(path)[0], [0, 0])[place] += 1
    return "".join("%s %d %d\n" % (crate, *found[crate]) for crate in sorted(found))


def form_fault(path):
    """What is wrong with the form of an edit, or nothing."""
    crate, _ = parts(path)
    file = old = None
    pairs = comments = 0
    texts = {}
    for line in read(path).splitlines():
        if line.startswith("file: "):
            file = line[6:]
        elif line.startswith("old: "):
            old = line[5:]
        elif line.startswith("new:"):
            if not re.match(r"(src|specs)/", file or "") or old is None:
                return "changes no file of src/ or specs/"
            place = os.path.join(ROOT, "crates", crate, file)
            if file not in texts:
                if not os.path.exists(place):
                    return "names %s, which is not there" % file
                texts[file] = read(place)
            if texts[file].count(old) != 1:
                return "the text that it replaces stands %d times in %s" % (texts[file].count(old), file)
            texts[file] = texts[file].replace(old, line[4:].removeprefix(" "))
            old = None
            pairs += 1
        elif line.strip():
            comments += 1
    if not pairs:
        return "replaces nothing"
    if all(text == read(os.path.join(ROOT, "crates", crate, name)) for name, text in texts.items()):
        return "changes nothing"
    return None if comments else "has no line with the input on which it is wrong"


def check():
    """Compares the tree with what is stored; gives the number of faults."""
    faults = []
    labels = set()
    changes = {}
    for name in TIERS:
        for path in tier(name):
            where = "%s/%s" % parts(path)
            fault = form_fault(path)
            if fault:
                faults.append("%s %s" % (where, fault))
            if where in labels:
                faults.append("%s stands in both tiers" % where)
            labels.add(where)
            change = (parts(path)[0], tuple(line for line in read(path).splitlines() if line.startswith(("file: ", "old: ", "new:"))))
            if change in changes:
                faults.append("%s is the same as %s" % (where, changes[change]))
            changes[change] = where
    if counts() != read(COUNTS):
        faults.append("tests/edits.txt has other counts than the tree (--write stores the tree's)")
    for fault in faults:
        print("edits: " + fault)
    print("edits: %d in the gate, %d in the long tier, faults: %d" % (*(len(tier(name)) for name in TIERS), len(faults)))
    return len(faults)


def refused(log):
    """Sees that each edit of the gate was refused and that rt has no bad one; gives the number of faults."""
    said = read(log)
    tried = [edit for edit, _ in REFUSED.findall(said)]
    wanted = ["%s/%s" % parts(path) for path in tier("must-fail")]
    faults = ["%s was not refused" % edit for edit in sorted(set(wanted) - set(tried))]
    verdict = re.search(r"^rt: ok;.*$", said, re.M)
    bad = re.search(r"must-fail edits: [^;]*?, (\d+) bad", verdict[0]) if verdict else None
    if not verdict:
        faults.append("there is no line rt: ok")
    if bad and int(bad[1]) or re.search(r"^rt: .*: BAD EDIT: ", said, re.M):
        faults.append("rt has %s bad" % (bad[1] if bad else "some"))
    for fault in faults:
        print("edits: %s" % fault)
    print("edits: %d of %d of the gate refused" % (len(set(tried) & set(wanted)), len(wanted)))
    return len(faults)


def reasons(log):
    """Lists the edits that were not refused at a fact first; gives their number."""
    found = REFUSED.findall(read(log))
    without = 0
    for edit, said in found:
        said = said.removeprefix(": ")
        goal = re.search(r"\(`([^`]+)`\)|error: `([^`]+)`", said)
        name = (goal[1] or goal[2]) if goal else ""
        if not said or SAFETY.search(name) or SAFE_SAID.search(said) or MISSING.search(said):
            without += 1
            print("edits: %s: %s" % (edit, said or "no reason is said"))
    print("edits: %d refused, %d not at a fact first" % (len(found), without))
    return without


def main(arguments):
    if len(arguments) == 2 and arguments[0] == "--reasons":
        return 1 if reasons(arguments[1]) else 0
    if arguments == ["--write"]:
        with open(COUNTS, "w", encoding="utf-8") as file:
            file.write(counts())
        return 0
    if len(arguments) == 2 and arguments[0] == "--refused":
        return 1 if refused(arguments[1]) else 0
    if arguments:
        sys.stderr.write(__doc__)
        return 2
    return 1 if check() else 0


if __name__ == "__main__":
    sys.exit(main(sys.argv[1:]))
