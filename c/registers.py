#!/usr/bin/env python3
"""That the archives for kernels use no register for numbers with a point or for vectors, and nothing below the stack pointer, and that each
of their calls begins where a kernel may let a pointer lead: looks at each instruction.

    c/registers.py PROCESSOR OBJDUMP FOLDER..      x86_64 or aarch64; an objdump for it, also the kit's; folders that have archives

A line for each archive; the last line is `N passed, M failed`."""
import collections
import pathlib
import re
import subprocess
import sys

STEP = re.compile(r"^ *[0-9a-f]+:\s+(?:[0-9a-f]{2} |[0-9a-f]{8} )*\s*([a-z]\S*)\s*(.*)$")
HEAD = re.compile(r"^[0-9a-f]+ <(.+)>:$")
NO_TARGET = "calls where no pointer may lead"
# An array's items before an index. In a function that takes a frame they lie in it.
INDEXED = re.compile(r"-0x[0-9a-f]+\(%rsp,")
FRAME = re.compile(r"^sub\S* .*, ?%rsp$")
KINDS = {
    "x86_64": {
        "vector registers": re.compile(r"%(?:[xyz]mm|mm|k)\d"),
        "x87": re.compile(r"^(?:f(?!s\b)|emms|ldmxcsr|stmxcsr)|%st\b"),
        "the red zone": re.compile(r"-0x[0-9a-f]+\(%rsp\)"),
    },
    "aarch64": {
        "vector registers": re.compile(r"\b(?:[vqdshbz](?:[12]?\d|3[01])|p(?:\d|1[0-5]))\b"),
        "below the stack pointer": re.compile(r"\[sp, #-[^\]]*\](?!!)"),
    },
}


def looked_at(archive, tool, kinds):
    """How many instructions the archive has, and how many of each kind, with the first of it."""
    told = subprocess.run([tool, "-d", "--no-show-raw-insn", archive], check=True, capture_output=True, text=True).stdout
    steps, found, first, call, framed = 0, collections.Counter(), {}, None, False
    for line in told.splitlines():
        step = STEP.match(line)
        if head := HEAD.match(line):
            call, framed = head[1] if re.fullmatch(r"mkdemux_\w+", head[1]) else None, False
        if step and call:
            if not re.match(r"endbr64|bti", step[1]):
                found[NO_TARGET] += 1
                first.setdefault(NO_TARGET, call)
            call = None
        if not step:
            continue
        steps += 1
        # (a place that is jumped to may be called d4)
        rest = re.sub(r"\b(?:0x)?[0-9a-f]+ <.*$|<.*>|//.*", "", step[2])
        text = f"{step[1]} {rest}".strip()
        framed = framed or bool(FRAME.match(text))
        for kind, pattern in kinds.items():
            if pattern.search(text) or kind == "the red zone" and not framed and INDEXED.search(text):
                found[kind] += 1
                first.setdefault(kind, text.strip())
    return steps, found, first


def main(processor, tool, *folders):
    passed = failed = 0
    for archive in sorted(path for folder in folders for path in pathlib.Path(folder).glob("libmkdemux*.a")):
        steps, found, first = looked_at(archive, tool, KINDS[processor])
        wrong = bool(found) or steps < 1000
        told = ", ".join(f"{found[kind]} of {kind}" + (f" (first: {first[kind]})" if kind in first else "") for kind in [*KINDS[processor], NO_TARGET])
        print(f"registers, {processor}, {archive.name}: {steps:,} instructions, {told}" + (": FAILED" if wrong else ""))
        failed += wrong
        passed += not wrong
    print(f"{passed} passed, {failed} failed")
    return 1 if failed else 0


if __name__ == "__main__":
    sys.exit(main(*sys.argv[1:]))
