#!/usr/bin/env python3
"""What mixbetter prints of the files in its data folder."""
import os
import sys

sys.path.insert(0, os.path.join(os.path.dirname(os.path.abspath(__file__)), ".."))
import exact  # noqa: E402
from printing import data_file  # noqa: E402

sys.stdout.buffer.write(exact.better_listing(
    *(data_file("mixbetter", name) for name in ("fleet.wbk", "sheet.wsh", "first.wcd", "second.wcd"))))
