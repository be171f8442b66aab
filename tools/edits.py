#!/usr/bin/env python3
# Tells must-fail edits that cannot be tried: an `old:` text has to stand just once in its file, as the pairs
# before it left it. `rt ci` lets such an edit pass, though it shows nothing. Run at the top: `python3 tools/edits.py`.
import pathlib
import sys

bad = 0
for edit in sorted(pathlib.Path("crates").glob("*/must-fail/*.edit")):
    text = ""
    old = None
    for line in edit.read_text().splitlines():
        if line.startswith("file: "):
            file = edit.parent.parent / line[len("file: "):]
            text = file.read_text() if file.exists() else ""
        if line.startswith("old: "):
            old = line[len("old: "):]
            times = text.count(old)
            if times != 1:
                bad += 1
                print(f"{edit}: the old text stands {times} times")
        if line.startswith("new: ") and old:
            text = text.replace(old, line[len("new: "):], 1)
print(f"{bad} bad")
sys.exit(bad > 0)
