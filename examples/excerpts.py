#!/usr/bin/env python3
"""Looks whether the Rust blocks of README are parts of crates/example_cores, and the block after them what that program prints, which the
gate runs. Shows the first line of each block that isn't; the status is then 1."""
import pathlib
import re
import sys

TOP = pathlib.Path(__file__).resolve().parent.parent
CRATE = TOP / "crates/example_cores"
BODY = r"((?:(?!```).*\n)*)```$"


def main():
    page = (TOP / "README.md").read_text(encoding="utf-8")
    program = (CRATE / "src/main.rt").read_text(encoding="utf-8")
    excerpts = re.findall(rf"^```rust\n{BODY}", page, re.M)
    wrong = [excerpt for excerpt in excerpts if excerpt not in program]
    printed = re.search(rf"^```text\n{BODY}", page[page.rindex("```rust") :], re.M)
    if not printed or printed[1] != (CRATE / "stdout").read_text(encoding="utf-8"):
        wrong.append("what the program prints")
    for block in wrong:
        print(f"README: no part of {CRATE.name}: {block.splitlines()[0]}")
    return 1 if wrong or not excerpts else 0


sys.exit(main())
