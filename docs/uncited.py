#!/usr/bin/env python3
"""Looks whether each file of specs/ that no public clause cites says so, and no other: a definition that no public contract rests on
states nothing to a user of the crate, so its readers are told.

    docs/uncited.py

A line for each file that says the wrong thing. The last line is `0 passed, M failed`."""
import pathlib
import re
import sys

sys.dont_write_bytecode = True

from cited import Cited, Sources

TOP = pathlib.Path(__file__).resolve().parent.parent
SAYS = "No public clause cites these"


def names_given(crate):
    """The types and functions that a crate gives to others by name: those of its root, and those that this passes on. A program gives its
    laws to readers alone."""
    roots = [TOP / "crates" / crate / "src" / name for name in ("lib.rt", "main.rt")]
    root = next((root for root in roots if root.exists()), None)
    if root is None:
        return set()
    text = re.sub(r"//[^\n]*", "", root.read_text(encoding="utf-8"))
    passed = " ".join(re.findall(r"(?m)^pub use ([^;]+);", text))
    return set(re.findall(r"\w+", passed)) | set(re.findall(r"(?m)^pub (?:fn|struct|enum|trait|const|type) (\w+)", text))


class PublicCited(Cited):
    """The definitions that public clauses, public traits and the values of public types cite."""

    def needs(self, key):
        """As before, but that a ghost member of a type, which speaks of private fields, is no clause."""
        definition = self.sources.definitions[key]
        text, scope = self.sources.meaning(definition)
        if key[1] == "src" and definition.kind in ("struct", "enum"):
            text = re.sub(r"(?m)^\s+ghost \w+:.*$", "", text)
        return [other for other in self.cited_by(text, scope) if other not in (None, key)]


def cited_files(sources):
    """The files that have a definition which a public clause, a public trait or the value of a public type cites."""
    given = {crate: names_given(crate) for crate in sources.crates}
    cited = PublicCited(sources)
    for (crate, name), function in sources.functions.items():
        is_given = re.match(r"\s*pub ", function.signature) and (function.owner or name) in given[crate]
        if is_given or 'extern "C"' in function.signature:
            cited.add_contract(function, [text for _, _, text in function.clauses])
    for key, definition in sources.definitions.items():
        if key[1] == "src" and key[-1] in given[key[0]] and definition.text[0].startswith("pub "):
            cited.visit(key)
    return {sources.definitions[key].file for key in cited.keys}


def heading(path):
    """The comment with which a file begins, as one line."""
    lines = path.read_text(encoding="utf-8").split("\n")
    end = next((at for at, line in enumerate(lines) if not line.startswith("--")), len(lines))
    return " ".join(line.removeprefix("--").strip() for line in lines[:end])


def main():
    sources = Sources(TOP)
    cited = cited_files(sources)
    wrong = []
    for file in sorted({definition.file for key, definition in sources.definitions.items() if key[1] == "specs"}):
        says = SAYS in heading(TOP / file)
        if says and file in cited:
            wrong.append(f"{file}: a public clause cites a definition of this file, which says that none does")
        elif not says and file not in cited:
            wrong.append(f"{file}: no public clause cites these definitions, which the file doesn't say")
    for line in wrong:
        print(line)
    print(f"0 passed, {len(wrong)} failed")
    return 1 if wrong else 0


if __name__ == "__main__":
    sys.exit(main())
