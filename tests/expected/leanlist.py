#!/usr/bin/env python3
"""What leanlist prints in its folder."""
import os
import sys

sys.path.insert(0, os.path.join(os.path.dirname(os.path.abspath(__file__)), ".."))
import leanings  # noqa: E402

sys.stdout.buffer.write(leanings.printed(leanings.FOLDERS[""]))
