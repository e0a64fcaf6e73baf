#!/usr/bin/env python3
"""What mixbook prints in its folder: boats, columns and front text of the book."""
import os
import sys

sys.path.insert(0, os.path.join(os.path.dirname(os.path.abspath(__file__)), ".."))
import csv_books  # noqa: E402

sys.stdout.buffer.write(csv_books.made(csv_books.YARD)[3])
