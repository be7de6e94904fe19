#!/usr/bin/env python3
"""Looks whether each edit of this folder, and each of crates/*/must-fail, still fits the sources; `./test --all` tries the former, and
`./test` the latter. A line for each that doesn't fit.

The last line is `0 passed, M failed`: an edit that fits isn't tried here."""
import sys

sys.dont_write_bytecode = True

from edit import CRATES, Edit, Misfit

failed = 0
for file in sorted([*(CRATES.parent / "edits").glob("*/*.edit"), *CRATES.glob("*/must-fail/*.edit")]):
    is_tried = file.parent.name == "must-fail"
    crate = CRATES / (file.parent.parent.name if is_tried else file.parent.name)
    try:
        Edit(file).texts(crate)
        if not is_tried and (crate / "must-fail" / file.name).exists():
            raise Misfit("its crate has an edit of this name in must-fail")
    except Misfit as why:
        failed += 1
        print(f"{file.relative_to(CRATES.parent)}: {why}")
print(f"0 passed, {failed} failed")
sys.exit(1 if failed else 0)
