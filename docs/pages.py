#!/usr/bin/env python3
"""Looks at the pages: each link leads to a file, and to a heading of it; each edit that docs/wrong-bodies.md names is there; each crate of
crates.txt is on README and on the map; README has at most 12,000 bytes; and lines of text have at most 120 characters.

    docs/pages.py   says what is wrong, page by page; the last line is `N passed, M failed`, one for each page
"""
import pathlib
import re
import sys

TOP = pathlib.Path(__file__).resolve().parent.parent
PAGES = sorted(page for folder in (".", "*", "examples/*") for page in TOP.glob(f"{folder}/*.md"))
MOST_BYTES = 12_000
MOST_COLUMNS = 120
LINK = re.compile(r"\[[^\]]+\]\(([^)\s]+)\)")
NAMED = re.compile(r"`(?:(edits)/)?(?:([a-z0-9_]+)/)?([a-z0-9_]+)`")


def text_of(page):
    """The page without its blocks of code, so that a line has its number still."""
    inside = False
    lines = []
    for line in page.read_text(encoding="utf-8").split("\n"):
        is_fence = line.lstrip().startswith("```")
        lines.append("" if inside or is_fence else line)
        inside ^= is_fence
    return lines


def headings(page):
    """The names by which a link leads to a heading of the page."""
    for line in text_of(page):
        if found := re.match(r"#+ (.*)", line):
            words = re.sub(r"[`*]|\[([^\]]*)\]\([^)]*\)", r"\1", found[1])
            yield re.sub(r"[^\w\- ]", "", words.lower()).replace(" ", "-")


def wrong_links(page, lines):
    """What the links of the page don't lead to."""
    for target in LINK.findall("\n".join(lines)):
        if "://" in target or target.startswith("mailto:"):
            continue
        file, _, heading = target.partition("#")
        to = (page.parent / file).resolve() if file else page
        if not to.exists():
            yield f"a link to {file}, which isn't there"
        elif heading and heading not in headings(to):
            yield f"a link to {target}, which has no such heading"


def missing_edits(lines):
    """The edits that are named and aren't there. A name without a folder is in that of the name before it."""
    entries = re.split(r"\n(?=- )", "\n".join(lines))
    for entry in entries:
        if not entry.startswith("- "):
            continue
        folder = None
        for edits, crate, name in NAMED.findall(entry):
            if crate:
                folder = TOP / "edits" / crate if edits else TOP / "crates" / crate / "must-fail"
            if folder and (crate or "_" in name) and not (folder / f"{name}.edit").is_file():
                yield f"`{name}` isn't in {folder.relative_to(TOP)}"


def crates():
    """The crates of crates.txt."""
    lines = (TOP / "crates.txt").read_text(encoding="utf-8").splitlines()
    return [line.split(":")[0].split()[0] for line in lines if ":" in line and not line.startswith("#")]


def faults(page):
    """What is wrong with a page."""
    lines = text_of(page)
    for place, line in enumerate(lines, 1):
        if len(line) > MOST_COLUMNS and not line.startswith("|"):
            yield f"line {place} has {len(line)} characters"
    yield from wrong_links(page, lines)
    if page == TOP / "docs/wrong-bodies.md":
        yield from missing_edits(lines)
    if page in (TOP / "README.md", TOP / "docs/map.md"):
        yield from (f"`{crate}` isn't named" for crate in crates() if f"`{crate}`" not in "\n".join(lines))
    if page == TOP / "README.md" and page.stat().st_size > MOST_BYTES:
        yield f"it has {page.stat().st_size} bytes, and may have {MOST_BYTES}"


def main():
    if sys.argv[1:]:
        sys.exit(__doc__)
    failed = 0
    for page in PAGES:
        found = list(faults(page))
        failed += bool(found)
        for fault in found:
            print(f"{page.relative_to(TOP)}: {fault}")
    print(f"{len(PAGES) - failed} passed, {failed} failed")
    return 1 if failed else 0


sys.exit(main())
