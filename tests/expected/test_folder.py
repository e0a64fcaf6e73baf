#!/usr/bin/env python3
"""What test_folder prints: a folder as a table of files, in which a file is replaced whole or not at all."""
import os
import sys

sys.path.insert(0, os.path.join(os.path.dirname(os.path.abspath(__file__)), ".."))
from printing import checksum, data_file  # noqa: E402

MOST = 40001  # the bytes that the program's buffer holds
MOST_OF_A_PATH = 4095

folders = {"", "folder"}
files = {"short": data_file("test_folder", "short"), "folder/inside": data_file("test_folder", "folder/inside")}


def read(name):
    """A file that is missing, or a folder in its place, counts as empty; a longer one fills the buffer."""
    content = files.get(name, b"")[:MOST]
    return "bytes %d\nsum %d\n" % (len(content), checksum(content))


def named(name):
    return name + "\n" + read(name)


def replaced(name, content, title=None, path_length=0):
    """A new file beside it has a path that is 7 bytes longer, and takes the place of a file only."""
    new_path = max(path_length, len(name)) + len(".XXXXXX")
    done = os.path.dirname(name) in folders and name not in folders and new_path <= MOST_OF_A_PATH
    if done:
        files[name] = content
    return "%s\nreplaced %d\n%s" % (title or name, done, read(name))


def empty(folder):
    """Whether nothing is left in a folder: no file of the table, since a new one is renamed or removed."""
    return "empty %d\n" % (not any(os.path.dirname(name) == folder for name in files))


def main():
    out = [named("none"), named("short"), named("folder")]
    out += [replaced("card", content) for content in (b"first", b"second and longer", b"", b"last")]
    out += [replaced("long", b"x" * length) for length in (40000, 40001, 40002)]
    out += [replaced("folder", b"not a folder"), replaced("none/card", b"not written")]
    out += [replaced("folder/inside", b"not written", title="4,095 bytes of path", path_length=MOST_OF_A_PATH)]
    out += [named("folder/inside")]
    folders.add("new")
    out += [replaced("new/card", b"first"), replaced("new/card", b"second")]
    del files["new/card"]
    out += [empty("new")]
    folders.add("new/card")
    out += [replaced("new/card", b"not a folder"), empty("new")]
    sys.stdout.write("".join(out))


main()
