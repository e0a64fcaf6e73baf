#!/usr/bin/env python3
"""What mixqueue prints in its folder, on the allowance of crates/mixqueue/args."""
import os
import sys

HERE = os.path.dirname(os.path.abspath(__file__))
sys.path.insert(0, os.path.join(HERE, ".."))
import exact  # noqa: E402
import queues  # noqa: E402

ALLOWANCE = int(exact.read_file(os.path.join(HERE, "..", "..", "crates", "mixqueue", "args")))
sys.stdout.buffer.write(queues.printed(queues.FOLDERS[""], ALLOWANCE))
