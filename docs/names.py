#!/usr/bin/env python3
"""Compares the public types of one name with the table of docs/glossary.md. A name that two crates give to a type has a
row there, with these crates and the reason, or the word `none`. Types of tests don't count.

  docs/names.py          says which rows are missing or wrong, and which names have no reason;
                         the last line is `N passed, M failed`
  docs/names.py --list   lists the names that stand twice or more, each with the files
"""
import collections
import pathlib
import re
import sys

TOP = pathlib.Path(__file__).resolve().parent.parent
PAGE = TOP / "docs" / "glossary.md"
TYPE = re.compile(r"^pub (?:struct|enum|union|trait|type) ([A-Z]\w*)", re.MULTILINE)
ROW = re.compile(r"^\| `([A-Z]\w*)` \| (`[^|]+`) \| ([^|]+) \|$", re.MULTILINE)


def shared():
    """The names that more than one public type has, each with the files."""
    files = collections.defaultdict(list)
    for path in sorted(TOP.glob("crates/*/src/**/*.rt")):
        file = path.relative_to(TOP)
        if not file.parts[1].startswith("tests_") and path.name != "tests.rt":
            for name in TYPE.findall(path.read_text(encoding="utf-8")):
                files[name].append(file)
    return {name: files[name] for name in sorted(files) if len(files[name]) > 1}


def rows():
    """The rows of the table: by the name, the crates and the reason."""
    found = ROW.findall(PAGE.read_text(encoding="utf-8"))
    return {name: (re.findall(r"`(\w+)`", crates), why.strip()) for name, crates, why in found}


def main():
    found = shared()
    if sys.argv[1:] == ["--list"]:
        for name, files in found.items():
            print(f"{name}: {', '.join(map(str, files))}")
        return 0
    if sys.argv[1:]:
        sys.exit(__doc__)
    told = rows()
    passed = failed = 0
    for name in sorted(found.keys() | told.keys()):
        crates = sorted(file.parts[1] for file in found.get(name, []))
        if crates == sorted(told.get(name, ([], ""))[0]):
            passed += 1
        else:
            failed += 1
            print(f"docs/glossary.md, `{name}`: the types of this name are in {', '.join(crates) or 'no two crates'}")
    unreasoned = [name for name in told if told[name][1] == "none"]
    print("types that share a name for no reason:", ", ".join(unreasoned) or "none")
    print(f"{passed} passed, {failed} failed")
    return 1 if failed else 0


sys.exit(main())
