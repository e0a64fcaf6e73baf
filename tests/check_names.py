#!/usr/bin/env python3
"""Fails where a page in docs/ names a lemma, a function or a test case that does not stand in the file named behind it, or a page a
file or a heading that is not there.

In a table row of a page, the backquoted words before a path `crates/..` in backquotes are names that this file must declare. A row may
have several such paths; what stands behind the last is free. Links and backquoted paths of README, CONTRIBUTING, docs/ and
tests/README.md must be there; docs/changes.md may name paths that were, and docs/PORT.md, which has what was before the port, names that were too. A link to a heading must find it. The index at the top of
docs/DECISIONS.md and docs/changes.md has a link to each section of the page. In docs/architecture.md a function with a crate in brackets
behind it, `name` (`crate`), must be declared in the code of that crate.
"""

import os
import re
import sys

ROOT = os.path.dirname(os.path.dirname(os.path.abspath(__file__)))
# What declares a name, by the kind of file: a signature `name :`, possibly marked, or a record or data type; a function, type or
# constant of the code; the line of a case in what a test program writes.
DECLARES = {
    ".antt": r"^\s*(?:(?:unfoldable|abbrev|pub|data|record) )*%s(?: .*)? :",
    ".rt": r'^\s*(?:pub )?(?:extern "C" )?(?:fn|struct|enum|const) %s\b',
    "": r"^%s(?:: .*)?$",
}


def rows(page):
    """The table rows of a page that name a file: the line's number, the names and the path."""
    with open(page, encoding="utf-8") as file:
        for number, line in enumerate(file, 1):
            names = []
            for quoted in re.findall(r"`([^`]+)`", line) if line.startswith("|") else []:
                if quoted.startswith("crates/"):
                    yield number, names, quoted
                    names = []
                else:
                    names.append(quoted)


def missing(page):
    """The paths that a page names and that are not there, but for those with a word for any name."""
    with open(os.path.join(ROOT, page), encoding="utf-8") as file:
        text = file.read()
    paths = re.findall(r"`((?:crates|tests|docs|tools|examples|include|compare|bench|report)/[^`\s]*)`", text)
    paths += [os.path.join(os.path.dirname(page), link) for link in re.findall(r"\]\(([^)#:\s]+)(?:#[^)]*)?\)", text)]
    return [path for path in paths if not re.search(r"\b(?:NAME|LABEL|F)\b", path) and not os.path.exists(os.path.join(ROOT, path))]


def read(page):
    with open(os.path.join(ROOT, page), encoding="utf-8") as file:
        return file.read()


def headings(page, level="#+"):
    """The anchors of a page's headings, as GitHub makes them: small letters, a hyphen for each space, other marks left out."""
    return [re.sub(r"[^\w\- ]", "", title.lower()).replace(" ", "-") for title in re.findall(r"(?m)^%s (.+)$" % level, read(page))]


def lost(page):
    """The links of a page to headings that are not there, on another page or on its own."""
    for path, anchor in re.findall(r"\]\(([^)#:\s]*)#([^)\s]+)\)", read(page)):
        target = os.path.normpath(os.path.join(os.path.dirname(page), path)) if path else page
        if os.path.exists(os.path.join(ROOT, target)) and anchor not in headings(target):
            yield "%s#%s" % (path, anchor)


def strangers(page):
    """The functions of a page with a crate in brackets behind them that the code of this crate does not declare."""
    for names, crate in re.findall(r"((?:`[\w:]+` and )?`[\w:]+`) \(`(\w+)`\)", read(page)):
        source = os.path.join(ROOT, "crates", crate, "src")
        files = sorted(os.listdir(source)) if os.path.isdir(source) else []
        code = "".join(read(os.path.join("crates", crate, "src", file)) for file in files)
        for name in re.findall(r"`([^`]+)`", names):
            if not re.search(DECLARES[".rt"] % name.split("::")[-1], code, re.M):
                yield "%s (%s)" % (name, crate)


def main():
    names = faults = 0
    pages = ["README.md", "CONTRIBUTING.md", "tests/README.md"]
    pages += ["docs/" + f for f in sorted(os.listdir(os.path.join(ROOT, "docs"))) if f.endswith(".md")]
    for page in pages:
        for path in missing(page) if page not in ("docs/changes.md", "docs/PORT.md") else []:
            print("%s: there is no %s" % (page, path))
            faults += 1
        for link in lost(page):
            print("%s: there is no heading for the link %s" % (page, link))
            faults += 1
    for page in ("docs/DECISIONS.md", "docs/changes.md"):
        index = read(page).split("\n## ")[0]
        for anchor in headings(page, "##"):
            if "(#%s)" % anchor not in index:
                print("%s: the index has no link to #%s" % (page, anchor))
                faults += 1
    for name in strangers("docs/architecture.md"):
        print("docs/architecture.md: there is no function %s" % name)
        faults += 1
    docs = os.path.join(ROOT, "docs")
    for entry in sorted(os.listdir(docs)):
        if not entry.endswith(".md") or entry == "PORT.md":
            continue
        for number, wanted, path in rows(os.path.join(docs, entry)):
            where = "docs/%s:%d" % (entry, number)
            full = os.path.join(ROOT, path)
            if not os.path.isfile(full):
                print("%s: there is no file %s" % (where, path))
                faults += 1
                continue
            with open(full, encoding="utf-8") as file:
                text = file.read()
            for name in wanted:
                names += 1
                if not re.search(DECLARES[os.path.splitext(path)[1]] % re.escape(name), text, re.M):
                    print("%s: %s does not declare %s" % (where, path, name))
                    faults += 1
    if names == 0:
        print("no page in docs/ names a lemma")
        faults += 1
    print("names on the pages: %d, faults: %d" % (names, faults))
    return 1 if faults else 0


if __name__ == "__main__":
    sys.exit(main())
