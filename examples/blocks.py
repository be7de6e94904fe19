#!/usr/bin/env python3
"""Runs the commands of a page and compares what they print.

    examples/blocks.py PAGE

A block of the page that is marked `sh` is run by the shell at the top of the repository, where the next block is marked
`text` and only blank lines are between the two. What it prints, on standard error too, must be that block. The first line of
each block that prints something else is shown, with what differs; the status is then 1."""
import difflib
import pathlib
import re
import subprocess
import sys

TOP = pathlib.Path(__file__).resolve().parent.parent
BODY = r"((?:(?!```).*\n)*)```$"
BLOCKS = re.compile(rf"^```sh\n{BODY}\n+^```text\n{BODY}", re.M)


def printed(command):
    """What a command prints."""
    shell = ["sh", "-c", command]
    ran = subprocess.run(shell, cwd=TOP, stdin=subprocess.DEVNULL, stdout=subprocess.PIPE, stderr=subprocess.STDOUT)
    return ran.stdout.decode(errors="replace")


def main(page):
    blocks = BLOCKS.findall((TOP / page).read_text(encoding="utf-8"))
    failed = not blocks
    for command, wanted in blocks:
        found = printed(command)
        if found != wanted:
            failed = True
            print(command.splitlines()[0])
            wanted, found = wanted.splitlines(), found.splitlines()
            print(*difflib.unified_diff(wanted, found, page, "printed", lineterm=""), sep="\n")
    return 1 if failed else 0


sys.exit(main(sys.argv[1]))
