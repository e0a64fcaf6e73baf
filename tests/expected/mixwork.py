#!/usr/bin/env python3
"""What mixwork prints in its folder, with the moves of crates/mixwork/args."""
import os
import sys

HERE = os.path.dirname(os.path.abspath(__file__))
sys.path.insert(0, os.path.join(HERE, ".."))
import exact  # noqa: E402
import workings  # noqa: E402

MOVES = int(exact.read_file(os.path.join(HERE, "..", "..", "crates", "mixwork", "args")))
sys.stdout.buffer.write(workings.filed(workings.FOLDERS["all_moves"], MOVES)[0])
