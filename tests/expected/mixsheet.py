#!/usr/bin/env python3
"""What mixsheet prints in its folder: columns, factors, steps, tolerance and front text of the sheet."""
import os
import sys

sys.path.insert(0, os.path.join(os.path.dirname(os.path.abspath(__file__)), ".."))
import csv_sheets  # noqa: E402

sys.stdout.buffer.write(csv_sheets.made(csv_sheets.FLEET, csv_sheets.SHEET)[3])
