#!/usr/bin/env python3
"""Runs each row of this folder, and compares its status and all that it prints, byte for byte, and where the row says what
stands on standard error that too. README.md says what a row is.

    rows/check.py [PROGRAM]     PROGRAM is ./mkdemux, if none is given

A line for each row that fails and for each file of rows. The last line is `N passed, M failed`; the status is 1 where one failed."""
import pathlib
import re
import shlex
import subprocess
import sys
import tempfile

ROWS = pathlib.Path(__file__).resolve().parent
PROGRAM = pathlib.Path(sys.argv[1] if len(sys.argv) > 1 else ROWS.parent / "mkdemux").resolve()
ESCAPES = {b"n": b"\n", b"r": b"\r", b"t": b"\t", b"v": b"\v", b"s": b" ", b"\\": b"\\"}


def plain(text):
    """The bytes of a text, with its escapes taken for what they stand for."""
    return re.sub(rb"\\([nrtvs\\])", lambda found: ESCAPES[found[1]], text.encode())


def hexed(text):
    """The bytes of a text of hexadecimal digits: {DIGITS}*N is N times the digits; blanks may part it."""
    return bytes.fromhex(re.sub(r"\{([0-9a-f]*)\}\*(\d+)", lambda found: found[1] * int(found[2]), text))


def meant(text):
    """The bytes that a text stands for: {WORDS}*N is N times the words."""
    *repeated, last = re.split(r"\{([^{}]*)\}\*(\d+)", text)
    pieces = zip(repeated[::3], repeated[1::3], repeated[2::3])
    return b"".join(plain(before) + plain(words) * int(times) for before, words, times in pieces) + plain(last)


def line_of(text):
    """The bytes of a line, which has an end unless a backslash stands there."""
    return meant(text[:-1]) if re.search(r"(?<!\\)(\\\\)*\\$", text) else meant(text) + b"\n"


class Row:
    def __init__(self, name):
        self.name, self.args, self.status, self.is_unread, self.is_end = name, [], 0, False, False
        self.inputs = {"": b""}
        self.outputs = [b""]
        self.told = None

    def add(self, mark, rest):
        """Takes a line that begins with this mark."""
        last = list(self.inputs)[-1]
        if mark == "$":
            self.args = [meant(word) for word in shlex.split(rest)]
        elif mark == "<":
            self.inputs[last] += line_of(rest)
        elif mark == "<x":
            self.inputs[last] += hexed(rest)
        elif mark == "@":
            self.inputs[rest] = b""
        elif mark == ">":
            self.outputs[-1] += line_of(rest)
        elif mark == ">x":
            self.outputs[-1] += hexed(rest)
        elif mark == "!":
            self.told = (self.told or b"") + line_of(rest)
        elif mark == "silent":
            self.told = b""
        elif mark == "or":
            self.outputs.append(b"")
        elif mark == "=":
            self.status = int(rest)
        elif mark == "unread":
            self.is_unread = True
        elif mark == "...":
            self.is_end = True
        else:
            sys.exit(f"rows: {self.name}: no such mark: {mark} {rest}")

    def fault(self, folder):
        """What is wrong with a run of the row in an empty folder, or None."""
        for name, content in self.inputs.items():
            (folder / (name or ".stdin")).write_bytes(content)
        with (folder / ".stdin").open("rb", buffering=0) as stdin:
            ran = subprocess.run([PROGRAM, *self.args], cwd=folder, stdin=stdin, capture_output=True, timeout=120)
            left = stdin.tell()
        if ran.returncode != self.status:
            return f"status {ran.returncode} in place of {self.status}: {ran.stderr.decode(errors='replace')}"
        if not any(ran.stdout.endswith(wanted) if self.is_end else ran.stdout == wanted for wanted in self.outputs):
            return f"it printed\n{ran.stdout.decode(errors='replace')}"
        if self.told is not None and ran.stderr != self.told:
            return f"on standard error it printed\n{ran.stderr.decode(errors='replace')}"
        if self.is_unread and left != 0:
            return f"{left} bytes of standard input were read"
        return None


def rows_of(path):
    rows = []
    for line in path.read_text(encoding="utf-8").splitlines():
        mark, _, rest = line.partition(" ")
        if mark == "row":
            rows.append(Row(rest))
        elif mark and mark != "#":
            rows[-1].add(mark, rest)
    return rows


def main():
    passed = failed = 0
    for path in sorted(ROWS.glob("*.rows")):
        rows = rows_of(path)
        for number, row in enumerate(rows, 1):
            with tempfile.TemporaryDirectory() as folder:
                fault = row.fault(pathlib.Path(folder))
            if fault is None:
                passed += 1
            else:
                failed += 1
                print(f"rows/{path.name}, row {number}, {row.name}: {fault}")
        print(f"rows/{path.name}: {len(rows)} rows")
    print(f"{passed} passed, {failed} failed")
    return 1 if failed else 0


sys.exit(main())
