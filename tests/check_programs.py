#!/usr/bin/env python3
"""See that each program is one call of a function that a test program drives through its folders.

A program is run in one folder, where one that prints a constant text would pass. So its work is a function of a folder's name,
and its main hands that function to the one that calls it on the folder that the argument names, or on the current one, which has no name,
and does nothing else; a number that comes before the folder is passed on.
The programs are those that tools/programs lists, and the tables of README.md and docs/programs.md have a row for each, README.md one for
mixreport too, which is Python. What docs/programs.md says of standard error is said by the code.
"""
import glob
import os
import re
import subprocess
import sys

CRATES = os.path.join(os.path.dirname(os.path.abspath(__file__)), "..", "crates")

# the function of each program, and the call of it in the test program
PROGRAMS = {
    "mixlist": ("search_folder::list_search", "test_program", "folder"),
    "mixcard": ("card_folder::file_card", "test_program", "folder"),
    "mixcheck": ("card_folder::check_card", "test_program", "folder"),
    "mixbetter": ("better_folder::file_better", "test_program", "folder"),
    "mixbook": ("book_folder::file_book", "test_book", "name"),
    "mixmerge": ("merge_folder::file_merged", "test_merge", "name"),
    "leanlist": ("lean_folder::list_boats", "test_lean", "name"),
    "mixqueue": ("queue_folder::list_queue", "test_queue", "name, allowance"),
    "mixwork": ("work_folder::file_worked", "test_worked", "name, moves"),
    "mixsheet": ("sheet_folder::file_sheet", "test_sheet", "name"),
    "mixedition": ("edition_folder::file_other", "test_rewriting", "name"),
}

MAIN = 'fn main(rt: HostRuntime) { arguments::in_folder(&rt, b"%s", %s); }'

# the programs that take a number before the folder, by the word that names it in the usage
NUMBERS = {"mixqueue": "ALLOWANCE", "mixwork": "MOVES"}

MAIN_WITH_NUMBER = 'fn main(rt: HostRuntime) { arguments::in_folder_with(&rt, b"%s", b"%s", %s); }'


def main_of(program, function):
    """The main that a program must have."""
    return MAIN_WITH_NUMBER % (program, NUMBERS[program], function) if program in NUMBERS else MAIN % (program, function)


# what calls that function in the folder that the argument names: no contract says that it does, so their words are compared
CALLS = (
    "pub fn in_folder<F: FnOnce(&HostRuntime, &[u8])>(rt: &HostRuntime, program: &[u8], work: F) requires { F.IsAlwaysCallable work }"
    " { let mut name = [0u8; 4095]; if let Some(len) = folder(rt, program, &mut name) { work(rt, &name[..len]); } }",
    "pub fn in_folder_with<F: FnOnce(&HostRuntime, &[u8], u32)>( rt: &HostRuntime, program: &[u8], word: &[u8], work: F, )"
    " requires { F.IsAlwaysCallable work } { let mut name = [0u8; 4095];"
    " if let Some(asked) = number_and_folder(rt, program, word, &mut name) { work(rt, &name[..asked.len], asked.number); } }",
)


def code(crate, source="main.rt"):
    """The words of a crate's source, without its comments and the line that each crate begins with."""
    with open(os.path.join(CRATES, crate, "src", source), encoding="utf-8") as file:
        return " ".join(word for line in file if not line.startswith(("//", "#![tactic(auto)]")) for word in line.split())


def rows(page):
    """The programs that the table of a page has."""
    with open(os.path.join(CRATES, "..", page), encoding="utf-8") as file:
        table = re.search(r"(?m)^\| program \|.*\n\|[-|]+\n((?:\|.*\n)+)", file.read())[1]
    return re.findall(r"(?m)^\| `(\w+)` \|", table)


def unsaid():
    """The lines on standard error in docs/programs.md with three words or more that no text of the code has. Files, numbers and marks part them."""
    code = ""
    for path in glob.glob(os.path.join(CRATES, "*", "src", "*.rt")):
        with open(path, encoding="utf-8") as file:
            code += " ".join(re.findall(r'b"([^"]*)"', file.read())) + "\n"
    with open(os.path.join(CRATES, "..", "docs", "programs.md"), encoding="utf-8") as file:
        table = re.search(r"(?m)^\| line \| means \|\n\|[-|]+\n((?:\|.*\n)+)", file.read())[1]
    for line in re.findall(r"`([^`]+)`", "".join(row.split("|")[1] for row in table.splitlines())):
        parts = re.split(r"[\w/]+\.(?:wbk|wsh|wcd|csv)|-?\d+|[:,] ", line)
        if not all(part.strip() in code for part in parts if len(part.split()) > 2):
            yield line


def main():
    listed = subprocess.run([os.path.join(CRATES, "..", "tools", "programs")], stdout=subprocess.PIPE, check=True).stdout.decode().split()
    unlike = sorted(set(listed) ^ set(PROGRAMS))
    for program in unlike:
        print("%s: stands either here or among the programs of tools/programs, not in both" % program)
    faults = len(unlike)
    for page, more in (("README.md", ["mixreport"]), ("docs/programs.md", [])):
        for program in sorted(set(rows(page)) ^ set(listed + more)):
            print("%s: only one of %s and tools/programs has it" % (program, page))
            faults += 1
    for line in unsaid():
        print("docs/programs.md: no program says %s" % line)
        faults += 1
    for program, (function, test, argument) in PROGRAMS.items():
        if code(program) != main_of(program, function):
            print("%s: crates/%s/src/main.rt is not one call of %s" % (program, program, function))
            faults += 1
        if "%s(rt, %s);" % (function, argument) not in code(test):
            print("%s: crates/%s/src/main.rt does not call %s" % (program, test, function))
            faults += 1
    for call in CALLS:
        if call not in code("arguments", "lib.rt"):
            print("crates/arguments/src/lib.rt: does not have the words %s" % call)
            faults += 1
    print("programs: %d, faults: %d" % (len(PROGRAMS), faults))
    return 1 if faults else 0


if __name__ == "__main__":
    sys.exit(main())
