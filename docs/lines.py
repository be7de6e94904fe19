#!/usr/bin/env python3
"""Compares the lines of crates.txt with the crates that the files of each crate cite. A line names these and no others, since each name
more makes the crate wait for another one's proof.

And says which names stand before their own lines: crates.txt lists the crates from the base up.

  docs/lines.py          says which names a line lacks or needn't have; the last line is `N passed, M failed`
  docs/lines.py --write  writes crates.txt anew
"""
import pathlib
import re
import sys

top = pathlib.Path(__file__).resolve().parent.parent
RUST = re.compile(r"\b([a-z][a-z0-9_]*)::")
MODULE = re.compile(r"^\s*(?:pub )?mod ([a-z][a-z0-9_]*)", re.MULTILINE)
GHOST = re.compile(r"\bRattle\.([a-z][a-z0-9_]*)\.")


def cited(crate):
    """The names that the files of this crate have at the head of a path, but for its own modules."""
    names = set()
    modules = set()
    for part in ("src", "specs", "proofs"):
        for path in sorted((top / "crates" / crate / part).rglob("*")):
            if path.suffix in (".rt", ".antt"):
                text = path.read_text(encoding="utf-8")
                names |= set(RUST.findall(text)) | set(GHOST.findall(text))
                modules |= set(MODULE.findall(text))
    return names - modules


def lines():
    """Each line of crates.txt, and where it is that of a crate, its head and the names after it."""
    for line in (top / "crates.txt").read_text(encoding="utf-8").splitlines():
        head, colon, names = line.partition(":")
        yield line, head if colon and not line.startswith("#") else None, names.split()


def main():
    repository = {head.split()[0] for _, head, _ in lines() if head}
    passed = failed = 0
    written, listed = [], set()
    for line, head, names in lines():
        if head is None:
            written.append(line)
            continue
        crate = head.split()[0]
        early = sorted((set(names) & repository) - listed)
        listed.add(crate)
        if early:
            failed += 1
            print(f"crates.txt, {crate}: names {early}, whose lines come later")
        found = cited(crate)
        lacking = sorted((found & repository) - {crate} - set(names))
        needless = [name for name in names if name not in found]
        written.append(f"{head}: {' '.join(name for name in names if name in found)}".rstrip() if not lacking else line)
        if lacking or needless:
            failed += 1
            print(f"crates.txt, {crate}: lacks {lacking}, needn't have {needless}")
        else:
            passed += 1
    if sys.argv[1:] == ["--write"]:
        (top / "crates.txt").write_text("\n".join(written) + "\n", encoding="utf-8")
    elif sys.argv[1:]:
        sys.exit(__doc__)
    else:
        print(f"{passed} passed, {failed} failed")
        sys.exit(failed > 0)


if __name__ == "__main__":
    main()
