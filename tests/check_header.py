#!/usr/bin/env python3
"""Compares include/dofitrano.h with the code it declares: functions, the structs they give back, verdict numbers and sizes.

The exported functions say which struct of C stands for which of the code, so a new function or struct needs nothing here. Each hands its
parameters, in their order, to the function of its name in the library behind it and gives what that gives.
The refusal numbers of the header are compared by tests/check_refusals.py.
"""
import os
import re
import sys

ROOT = os.path.dirname(os.path.dirname(os.path.abspath(__file__)))
TYPES = {"u8": "uint8_t", "u16": "uint16_t", "u32": "uint32_t", "u64": "uint64_t", "usize": "size_t", "f64": "double",
         "i8": "int8_t", "i16": "int16_t", "i32": "int32_t", "i64": "int64_t", "bool": "bool"}
# Sizes that the header names, with the file and the text that has each.
SIZES = {"DOFITRANO_CARD_MOST": ("crates/card_listing/src/lib.rt", "pub const MOST_CARD: usize = %d;"),
         "DOFITRANO_BOOK_MOST": ("crates/merged_book/src/lib.rt", "pub const MOST_BYTES: usize = %d;"),
         "DOFITRANO_QUEUE_SLOTS": ("crates/sheet_queue/src/lib.rt", "pub const SLOTS: usize = %d;"),
         "DOFITRANO_SHEET_MOST": ("crates/scale_sheet/src/lib.rt", "pub bytes: [u8; %d]"),
         "DOFITRANO_LISTING_MOST": ("crates/text/src/lib.rt", "pub const MOST_BYTES: usize = %d;")}


def read(path):
    with open(os.path.join(ROOT, path), encoding="utf-8") as file:
        return re.sub(r"/\*.*?\*/|//[^\n]*", "", file.read(), flags=re.S)


HEADER = read("include/dofitrano.h")
PARTS = ("exported_search", "exported_queue", "exported_cards", "exported_files")
EXPORTS = "".join(read("crates/%s_c/src/lib.rt" % part) for part in PARTS)
DEFINED = {name: int(value) for name, value in re.findall(r"#define (DOFITRANO_\w+) (\d+)", HEADER)}
STRUCTS = {}  # a type of the code -> the struct of C that stands for it
faults = []


def c_types(rust):
    """What C has for a type of the code, one or two parameters."""
    slice_of = re.match(r"&(mut )?\[(\w+)\]$", rust)
    if slice_of:
        return [("" if slice_of[1] else "const ") + (TYPES.get(slice_of[2]) or STRUCTS.get(slice_of[2], slice_of[2])) + " *", "size_t"]
    array = re.match(r"\[(\w+); (\d+)\]$", rust)
    if array:
        return ["%s[%s]" % (TYPES[array[1]], array[2])]
    return [TYPES.get(rust) or STRUCTS.get(rust) or rust]


def compare(what, wanted, found):
    if wanted != found:
        faults.append("%s: the code has %s, the header %s" % (what, wanted, found))


def struct(rust, crate, c):
    """Compares a struct of the code with its struct of C, and those inside it."""
    fields = re.search(r"#\[repr\(C\)\]\s*(?:#\[derive\([\w, ]*\)\]\s*)?pub struct %s \{(.*?)\}" % rust, read("crates/%s/src/lib.rt" % crate), re.S)
    declared = re.search(r"typedef struct %s \{(.*?)\} %s;" % (c, c), HEADER, re.S)
    if not fields or not declared:
        faults.append("%s and %s: no struct of this name in the code or in the header" % (rust, c))
        return
    fields = re.findall(r"pub (\w+): ([^,]+),", fields[1])
    declared = re.findall(r"(\w+) (\w+)(?:\[(\w+)\])?;", declared[1])
    compare("%s: fields" % c, len(fields), len(declared))
    for (name, kind), (c_kind, c_name, count) in zip(fields, declared):
        if c_kind.startswith("dofitrano_"):
            STRUCTS[kind] = c_kind
            struct(kind, crate, c_kind)
        count = "[%s]" % DEFINED.get(count, count) if count else ""
        compare("%s: field %s" % (c, c_name), c_types(kind), [c_kind + count])
        if not c_name.startswith(name):  # len may be called length
            faults.append("%s: the field %s stands at the place of %s" % (c, c_name, name))


def contracts(text):
    """{a public function dofitrano_..: what stands between its name and its body, and the body}."""
    found = re.findall(r'^pub (?:extern "C" )?fn (dofitrano_\w+)(\(.*?)^\{\n(.*?)^\}', text, re.M | re.S)
    def plain(part):
        """The words, as they are where the parameters stand on one line."""
        return re.sub(r"\( | ?,? \)(?= ->)", lambda found: found.group().strip(" ,"), " ".join(part.split()), count=2)

    return {name: (plain(head), " ".join(body.split())) for name, head, body in found}


def main():
    homes = {name: crate for crate, names in re.findall(r"^use (\w+)::\{?([\w, ]+)\}?;", EXPORTS, re.M) for name in names.split(", ")}
    functions = re.findall(r'#\[unsafe\(no_mangle\)\]\s*pub extern "C" fn (\w+)\((.*?)\)\s*->\s*(\w+)', EXPORTS, re.S)
    prototypes = {name: (gives, parameters) for gives, name, parameters in re.findall(r"^(\w+) (dofitrano_\w+)\(([^)]*)\);", HEADER, re.M)}
    compare("functions", sorted(name for name, _, _ in functions), sorted(prototypes))
    for name, parameters, gives in functions:
        c_gives, c_parameters = prototypes.get(name, (None, ""))
        if gives in homes and c_gives and gives not in STRUCTS:
            STRUCTS[gives] = c_gives
            struct(gives, homes[gives], c_gives)
        # a list of structs: the pointer at its place in the prototype says which struct of C it is
        for rust, c in zip(re.findall(r"&(?:mut )?\[(\w+)\]", parameters), re.findall(r"(\w+) \*", c_parameters)):
            if rust in homes and rust not in STRUCTS:
                STRUCTS[rust] = c
                struct(rust, homes[rust], c)
        found = [re.sub(r"\w+$", "", p.strip()).strip() for p in c_parameters.split(",")]
        wanted = []
        for kind in re.findall(r"\w+: ([^,]+?)\s*(?:,|$)", parameters):
            if kind in homes and kind not in STRUCTS:  # a struct by value
                STRUCTS[kind] = found[len(wanted)] if len(wanted) < len(found) else kind
                struct(kind, homes[kind], STRUCTS[kind])
            wanted += c_types(kind)
        compare("%s: parameters" % name, wanted, found)
        compare("%s: gives back" % name, c_types(gives), [c_gives])
    for part in PARTS:
        exported, library = (contracts(read("crates/%s/src/lib.rt" % crate)) for crate in (part + "_c", part))
        for name, (head, body) in exported.items():
            handed = "%s::%s(%s)" % (part, name, ", ".join(re.findall(r"(\w+): ", head.split("ensures")[0])))
            compare("%s: its body" % name, body, handed)
            compare("%s: what %s says of it" % (name, part), library.get(name, ("",))[0], head)
    compare("structs", sorted(STRUCTS.values()), sorted(re.findall(r"typedef struct (\w+)", HEADER)))
    verdicts = dict(re.findall(r"^verdict_number \(?(\w+).* = (\d+)$", read("crates/method/specs/Answers.antt"), re.M))
    enum = re.search(r"enum dofitrano_verdict \{(.*?)\}", HEADER, re.S)[1]
    compare("verdicts", verdicts, {name.capitalize(): value for name, value in re.findall(r"DOFITRANO_(\w+) = (\d+)", enum)})
    for name, (path, text) in SIZES.items():
        if text % DEFINED.get(name, -1) not in read(path):
            faults.append("%s is %s, and %s has no `%s`" % (name, DEFINED.get(name), path, text))
    for fault in faults:
        print("include/dofitrano.h: " + fault)
    print("functions of the header: %d, structs: %d, faults: %d" % (len(functions), len(STRUCTS), len(faults)))
    return 1 if faults else 0


if __name__ == "__main__":
    sys.exit(main())
