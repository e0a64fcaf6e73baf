#!/usr/bin/env python3
"""Sees that the map of the layers and the table of the crates in docs/architecture.md are those of crates.txt.

Every crate stands in one row of the table, under its layer, and below the crates that it uses; a row's last column names only crates that
its crates reach. A line of the map has a layer and the layers below it that its crates use, none too many and none too few.
"""
import os
import re
import sys

ROOT = os.path.dirname(os.path.dirname(os.path.abspath(__file__)))
PAGE = "docs/architecture.md"


def read(path):
    with open(os.path.join(ROOT, path), encoding="utf-8") as file:
        return file.read()


def crates():
    """{crate: the crates of the repository that it names}."""
    lines = [line.split("#", 1)[0] for line in read("crates.txt").splitlines()]
    # a name may have words behind it, as staticlib
    names = {line.split(":")[0].split()[0]: line.split(":")[1].split() for line in lines if ":" in line}
    return {name: [used for used in uses if used in names] for name, uses in names.items()}


def reach(name, uses):
    """The crates that a crate uses, and those that they use."""
    found, left = set(), list(uses[name])
    while left:
        used = left.pop()
        if used not in found:
            found.add(used)
            left += uses[used]
    return found


def table(text):
    """The rows of the table: the layer, the crates, the crates that are said to be used."""
    layer, rows = None, []
    for line in text.split("| crate | holds | uses |\n", 1)[1].splitlines():
        if not line.startswith("|"):
            break
        cells = [cell.strip() for cell in line.strip().strip("|").split("|")]
        heading = re.fullmatch(r"\*\*(.+)\*\*", cells[0])
        if heading:
            layer = heading[1]
        elif "`" in cells[0]:
            rows.append((layer, re.findall(r"`(\w+)`", cells[0]), re.findall(r"`(\w+)`", cells[2])))
    return rows


def layers(text):
    """The map: {layer: the layers that it rests on}, in the order of its lines."""
    block = re.search(r"^    layer +rests on\n((?:    .*\n)+)", text, re.M)[1]
    lines = [re.split(r"  +", line.strip(), maxsplit=1) for line in block.splitlines()]
    return {line[0]: line[1].split(", ") if len(line) > 1 else [] for line in lines}


def main():
    text, uses, faults = read(PAGE), crates(), []
    rows, map_of = table(text), layers(text)
    place = {}
    for number, (layer, names, _) in enumerate(rows):
        for name in names:
            if name in place:
                faults.append("%s: two rows for the crate %s" % (PAGE, name))
            place[name] = (number, layer)
    for name in sorted(set(place) ^ set(uses)):
        faults.append("only one of %s and crates.txt has the crate %s" % (PAGE, name))
    for layer, names, said in rows:
        reached = set(names).union(*(reach(name, uses) for name in names if name in uses))
        faults += ["%s: %s does not use %s" % (PAGE, ", ".join(names), name) for name in said if name not in reached]
    found = {layer: set() for layer in map_of}
    for name in set(place) & set(uses):
        for used in set(uses[name]) & set(place):
            if place[used][0] > place[name][0]:
                faults.append("%s: %s stands above %s, which it uses" % (PAGE, name, used))
            if place[used][1] != place[name][1]:
                found.setdefault(place[name][1], set()).add(place[used][1])
    if [layer for layer in dict.fromkeys(layer for layer, _, _ in rows)] != list(map_of):
        faults.append("%s: the layers of the table are not those of the map, in its order" % PAGE)
    for layer in map_of:
        for other in sorted(found[layer] ^ set(map_of[layer])):
            faults.append("%s, the map: %s %s %s" % (PAGE, layer, "rests on" if other in found[layer] else "does not rest on", other))
    for fault in faults:
        print(fault)
    print("crates: %d, layers: %d, faults: %d" % (len(uses), len(map_of), len(faults)))
    return 1 if faults else 0


if __name__ == "__main__":
    sys.exit(main())
