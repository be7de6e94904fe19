#!/usr/bin/env python3
"""Tries the edits of crates/*/must-fail, as edits/try.py does, and those of edits/definitions, as edits/definitions.py does, side by side, so
that no processor waits for the end of one before the other begins.

    edits/both.py BUILT

BUILT is a copy of the repository that `rt ci` has just proved. The last line is `N passed, M failed`."""
import importlib
import sys

sys.dont_write_bytecode = True

definitions = importlib.import_module("definitions")
tries = importlib.import_module("try")

if __name__ == "__main__":
    sys.exit(tries.run(definitions.jobs(sys.argv[1]), tries.jobs(sys.argv[1])))
