#!/usr/bin/env python3
"""Makes the expected output of every test program again and compares it with the stored one.

Each program crates/NAME with a file `stdout` has a script tests/expected/NAME.py that prints it by
tests/exact.py. With --write the outputs are stored instead of compared.
"""

import os
import subprocess
import sys

ROOT = os.path.dirname(os.path.dirname(os.path.abspath(__file__)))
SCRIPTS = os.path.join(ROOT, "tests", "expected")
CRATES = os.path.join(ROOT, "crates")


def made_by(name):
    script = os.path.join(SCRIPTS, name + ".py")
    return subprocess.run([sys.executable, script], stdout=subprocess.PIPE, check=True).stdout


def main(arguments):
    write = arguments == ["--write"]
    scripts = {f[:-3] for f in os.listdir(SCRIPTS) if f.endswith(".py")} if os.path.isdir(SCRIPTS) else set()
    programs = {c for c in os.listdir(CRATES) if os.path.isfile(os.path.join(CRATES, c, "src", "main.rt"))}
    faults = 0
    for name in sorted(scripts ^ programs):
        print("%s: %s" % (name, "a program without a script in tests/expected" if name in programs else "a script without a program"))
        faults += 1
    for name in sorted(scripts & programs):
        stored = os.path.join(CRATES, name, "stdout")
        made = made_by(name)
        if write:
            with open(stored, "wb") as file:
                file.write(made)
            continue
        try:
            with open(stored, "rb") as file:
                same = file.read() == made
        except OSError:
            same = False
        if not same:
            print("%s: crates/%s/stdout differs from what tests/expected/%s.py makes" % (name, name, name))
            faults += 1
    print("expected outputs: %d, faults: %d" % (len(scripts & programs), faults))
    return 1 if faults else 0


if __name__ == "__main__":
    sys.exit(main(sys.argv[1:]))
