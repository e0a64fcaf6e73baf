#!/usr/bin/env python3
"""What mixcheck prints of the files in its data folder."""
import os
import sys

sys.path.insert(0, os.path.join(os.path.dirname(os.path.abspath(__file__)), ".."))
import exact  # noqa: E402
from printing import data_file  # noqa: E402

sys.stdout.buffer.write(exact.card_listing(
    data_file("mixcheck", "fleet.wbk"), data_file("mixcheck", "sheet.wsh"), data_file("mixcheck", "card.wcd")))
