#!/usr/bin/env python3
"""What mixedition prints in its folder: the edition and the bytes of the other edition of its sheet."""
import os
import sys

sys.path.insert(0, os.path.join(os.path.dirname(os.path.abspath(__file__)), ".."))
import exact  # noqa: E402
from printing import data_file  # noqa: E402

sys.stdout.buffer.write(exact.edition_line(data_file("mixedition", "sheet.wsh"), exact.MOST_BYTES))
