#!/usr/bin/env python3
"""What mixcard prints of the files in its data folder."""
import os
import sys

sys.path.insert(0, os.path.join(os.path.dirname(os.path.abspath(__file__)), ".."))
import exact  # noqa: E402
from printing import data_file  # noqa: E402

sys.stdout.buffer.write(exact.listing(data_file("mixcard", "fleet.wbk"), data_file("mixcard", "sheet.wsh")))
