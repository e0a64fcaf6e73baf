#!/usr/bin/env python3
"""What mixmerge prints in its folder: boats and columns of the merged book."""
import os
import sys

sys.path.insert(0, os.path.join(os.path.dirname(os.path.abspath(__file__)), ".."))
import merges  # noqa: E402

sys.stdout.buffer.write(merges.filed(merges.FOLDERS["older"])[0])
