"""An edit: a file that says which texts of a crate stand in place of which others.

A line `file: src/lib.rt` names the file, and pairs of lines `old: TEXT` and `new: TEXT` what changes in it; each old TEXT is there
once. An edit that `./test` tries says with `# refused by: FUNCTION: CLAUSE` what the prover must refuse it by."""
import pathlib
import re

CRATES = pathlib.Path(__file__).resolve().parent.parent / "crates"


class Misfit(Exception):
    """Why an edit can't be applied."""


class Edit:
    def __init__(self, file):
        self.file = file
        text = file.read_text(encoding="utf-8")
        said = re.search(r"^# refused by: (\S+): (\S+)$", text, re.MULTILINE)
        self.function, self.clause = said.groups() if said else (None, None)
        self.changes = []
        path = old = None
        for line in text.splitlines():
            word, _, rest = line.partition(": ")
            if word == "file":
                path = rest
            elif word == "old":
                old = rest
            elif line.startswith("new:") and old is not None:
                self.changes.append((path, old, rest))
                old = None

    def texts(self, crate):
        """The files of this folder of a crate that the edit changes, with their new texts."""
        texts = {}
        for path, old, new in self.changes:
            if path is None or not (crate / path).is_file():
                raise Misfit(f"there is no file {path}")
            text = texts.get(path) or (crate / path).read_text(encoding="utf-8")
            if text.count(old) != 1:
                raise Misfit(f"this isn't once in its file: {old.strip()}")
            texts[path] = text.replace(old, new)
        return texts

    def apply(self, crate):
        for path, text in self.texts(crate).items():
            (crate / path).write_text(text, encoding="utf-8")
