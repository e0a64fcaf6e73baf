#!/usr/bin/env python3
"""Lists the entries, and the definitions that the contract of each rests on, and compares the lists with the pages.

An entry is a function that a customer may call with anything; its comment starts with ENTRY. README.md, CONTRIBUTING.md and docs/trust.md
have the list of entries, docs/trust.md also the definitions. A definition counts where the contract or the signature of an entry writes
its name, or where a definition that counts does. A name is followed through the `use` lines of its file. Names of the toolchain's
libraries are listed and not followed. With --write the lists are put into the pages.
"""
import functools
import os
import re
import sys

ROOT = os.path.dirname(os.path.dirname(os.path.abspath(__file__)))
BEGIN = "<!-- made by tests/trust.py --write -->\n"
# The list of entries on a page stands between these.
LIST = re.compile(r"(<!-- the entries, by tests/trust.py --write -->\n).*?(<!-- end of the entries -->\n)", re.S)
LISTED = ("README.md", "CONTRIBUTING.md", "docs/trust.md")

# A signature in specs/, with its depth and its name; and a type in src/.
DECLARES = re.compile(r"^( *)(?:(?:unfoldable|abbrev|pub) )*(?:(?:record|data) )?([^\s(){}:]+)(?: [^:]*)? :")
TYPE = re.compile(r"^(?:#\[repr\(C\)\]\n)?(?:#\[derive\([^\n]*\)\]\n)?pub (?:struct|enum) (\w+) \{\n(?:.*\n)*?\}\n", re.M)


def plain(name):
    """A name as a text writes it: an operator without the marks where its arguments go."""
    return name.strip("◌")


def read(path):
    with open(os.path.join(ROOT, path), encoding="utf-8") as file:
        return file.read()


class File:
    """A file: what it imports (`names`, `aliases`), its `definitions`, each [lines, words], and the names `inside` them."""

    def __init__(self, path):
        self.path, text = path, read(path)
        self.names, self.aliases, self.definitions, self.inside = {}, {}, {}, {}
        if path.endswith(".rt"):
            self.code(text)
        else:
            self.specs(text)

    def use(self, line):
        """Takes in a `use` line."""
        module, names, alias = re.match(r"(?:pub )?(?:ghost )?use ([^\s{};]+?)(?:(?:\.|::)\{(.*)\})?(?: as ([^\s;]+))?;?$", line).groups()
        for name in names.split(", ") if names else []:
            name, _, other = name.partition(" as ")
            self.names[name] = self.names[plain(other or name)] = (module if "." in module else module + "::" + name, name)
        if "::" in module and not names:
            self.names[module.split("::")[-1]] = (module, module.split("::")[-1])
        elif not names:
            self.aliases[alias or module.split(".")[-1]] = module

    def specs(self, text):
        """The definitions of a file in specs/: from a signature to the next at the same depth, without comments."""
        around, name, depth = "", None, 0
        for line in text.splitlines():
            line = re.sub(r"\s*(^|\s)--(\s.*|$)", "", line)
            if not line:
                continue
            found = DECLARES.match(line)
            if line.startswith(("use ", "pub use ")):
                self.use(line)
            elif line.startswith("module _"):
                around, name, depth = line, None, 2
            elif found and (name is None or len(found[1]) <= depth):
                name, depth = found[2], len(found[1])
                self.definitions[name] = [1, (around if depth else "") + " " + line]
                self.inside[plain(name)] = name
            elif name is not None:
                self.definitions[name][0] += 1
                self.definitions[name][1] += "\n" + line
                member = re.match(r" +(?:pub )?([^\s(){}:]+) :", line)
                if member:
                    self.inside.setdefault(member[1], name)

    def code(self, text):
        """The types of a file in src/."""
        for line in text.splitlines():
            if line.startswith(("use ", "ghost use ")):
                self.use(line)
        for found in TYPE.finditer(text):
            body = re.sub(r" *//.*\n|#\[derive.*\n", "", found[0])
            self.definitions[found[1]] = [body.count("\n"), re.sub(r"\w+:", "", body)]


@functools.lru_cache(None)
def load(path):
    return File(path)


def file_of(module):
    """The file of a module of ours, or None for the kit's."""
    found = re.match(r"Rattle\.(\w+)\.specs\.(.*)$|(\w+)::", module)
    if not found or not os.path.isdir(os.path.join(ROOT, "crates", found[1] or found[3])):
        return None
    if found[3] or found[2].startswith("declared"):
        return load("crates/%s/src/lib.rt" % (found[3] or found[1]))
    return load("crates/%s/specs/%s.antt" % (found[1], found[2]))


def used(file, words):
    """What a text of a file names: pairs of a module and a name, and definitions of the file itself."""
    words = re.sub(r"\(([^\s():]+(?: [^\s():]+)*) :", "(:", words)  # the names of parameters
    for word in sorted(set(re.findall(r"&&|\[\]|[^\s(){};,&\[\]]+", words))):
        alias, _, last = word.rpartition(".")
        if alias in file.aliases:
            yield file.aliases[alias], last
            continue
        # what stands before the first dot is a value, whose fields stand behind it
        for name in dict.fromkeys((word, word.split(".")[0])):
            if name in file.names:
                yield file.names[name]
                break
            if name in file.definitions or name in file.inside:
                yield None, name
                break


def reach(file, words):
    """All definitions that a text of a file rests on, {path: {name}}, and the names of the kit, {module: {name}}."""
    ours, kit, todo = {}, {}, [(file, words)]
    while todo:
        file, words = todo.pop()
        for module, name in used(file, words):
            target = file if module is None else file_of(module)
            if target is None:
                kit.setdefault(module, set()).add(name)
                continue
            if module and module.endswith(".TheVariants"):
                name = module.split(".")[-2]
            if name not in target.definitions:
                name = target.inside.get(name, name)
            if name not in target.definitions:
                sys.exit("trust: %s names %s, which %s does not define" % (file.path, name, target.path))
            if name not in ours.setdefault(target.path, set()):
                ours[target.path].add(name)
                todo.append((target, target.definitions[name][1]))
    return ours, kit


def entries():
    """The functions whose comment starts with ENTRY, each with its file and its signature and contract; the crates go by subject, as in the table of
    docs/architecture.md, which check_crates.py holds to crates.txt."""
    rows = read("docs/architecture.md").split("| crate | holds | uses |\n", 1)[1].split("\n\n", 1)[0]
    for crate in [name for row in re.findall(r"^\| (`[^|]*) \|", rows, re.M) for name in re.findall(r"`(\w+)`", row)]:
        path = "crates/%s/src/lib.rt" % crate
        text = read(path) if os.path.isfile(os.path.join(ROOT, path)) else ""
        for name, contract in re.findall(r"^ *// ENTRY\..*\n(?: *(?://|#).*\n)* *pub .*?fn (\w+)(?:<[^>]*>)?(\((?:.*\n)+?) *\{", text, re.M):
            if "requires" in contract:
                sys.exit("trust: the entry %s of %s has a `requires`" % (name, path))
            yield name, load(path), contract


def lines(ours):
    return sum(load(path).definitions[name][0] for path in ours for name in ours[path])


def table(ours):
    rows = "| definitions | lines | file |\n|---|---|---|\n"
    for path in sorted(ours):
        names = " ".join("`%s`" % name for name in sorted(ours[path]))
        rows += "| %s | %d | `%s` |\n" % (names, lines({path: ours[path]}), path)
    return rows


def sizes(ours):
    return "%d | %d | %d |\n" % (len(ours), sum(map(len, ours.values())), lines(ours))


def page():
    """The part of the page that is made here."""
    lists, all_ours, all_kit = "", {}, {}
    sums = "## How much it is\n\n| entry | files | definitions | lines |\n|---|---|---|---|\n"
    for name, source, contract in entries():
        ours, kit = reach(source, contract)
        for whole, part in ((all_ours, ours), (all_kit, kit)):
            for key in part:
                whole.setdefault(key, set()).update(part[key])
        sums += "| `%s` | " % name + sizes(ours)
        lists += "\n## `%s`\n\nThe contract stands in %s.\n\n" % (name, source.path) + table(ours)
    sums += "| all of them | " + sizes(all_ours)
    lists += "\n## Names of the toolchain's libraries\n\nThe definitions above use:\n\n"
    lists += "".join("- %s: %s\n" % (m, " ".join("`%s`" % n for n in sorted(all_kit[m]))) for m in sorted(all_kit))
    rest = {}
    for crate in sorted(os.listdir(os.path.join(ROOT, "crates"))):
        folder = os.path.join(ROOT, "crates", crate, "specs")
        for name in sorted(os.listdir(folder)) if os.path.isdir(folder) else []:
            path = "crates/%s/specs/%s" % (crate, name)
            names = set(load(path).definitions) - all_ours.get(path, set())
            if names:
                rest[path] = names
    lists += "\n## Reached from no entry\n\nContracts of functions inside, statements that are proved beside them, and proofs use these, "
    return sums + lists + "%d lines in %d files:\n\n" % (lines(rest), len(rest)) + table(rest)


def entry_list():
    """The entries, a line for each crate that has some."""
    crates = {}
    for name, source, _ in entries():
        crates.setdefault(source.path.split("/")[1], []).append("`%s`" % name)
    return "".join("- `%s`: %s\n" % (crate, ", ".join(names)) for crate, names in crates.items())


def made_of(path):
    """What a page has to be."""
    text = LIST.sub(lambda found: found[1] + entry_list() + found[2], read(path))
    return text.partition(BEGIN)[0] + BEGIN + page() if BEGIN in text else text


def main(arguments):
    faults = 0
    for path in LISTED:
        made = made_of(path)
        if not LIST.search(made):
            print("%s has no list of the entries" % path)
            faults += 1
        if arguments == ["--write"]:
            with open(os.path.join(ROOT, path), "w", encoding="utf-8") as file:
                file.write(made)
        elif made != read(path):
            print("%s is not what `python3 tests/trust.py --write` makes of it" % path)
            faults += 1
    if faults:
        return 1
    print("entries: %d" % len(list(entries())))
    print("the entries rest on: files %s, definitions %s, lines %s" % re.search(r"all of them" + 3 * r" \| (\d+)", made).groups())
    return 0


if __name__ == "__main__":
    sys.exit(main(sys.argv[1:]))
