#!/usr/bin/env python3
"""What stack each call of the C libraries takes, by their code: of each function the bytes that it pushes and subtracts, on the longest
way of calls through it. The code calls nothing by a pointer, and no functions call themselves or each other in a circle but those that
TIMES names; either would be a failure. What malloc, realloc, free, memcpy, memmove, memset and memcmp take comes on top.

    c/stack.py PROCESSOR OBJDUMP FOLDER..      x86_64 or aarch64; a GNU objdump for it; folders that have archives

A line for each library; the last line is `N passed, M failed`: a call may take no more than MOST says."""
import collections
import pathlib
import re
import subprocess
import sys

# Bytes that a call may take on x86-64 Linux; all that aren't named take at most 2,048. Elsewhere it may be a quarter more.
MOST = {
    "mkdemux_boot_cores": 3520,
    "mkdemux_boot_limits_cores": 3568,
    "mkdemux_turn": 4032,
    "mkdemux_settle": 3968,
    "mkdemux_predecode": 3648,
    "mkdemux_compile": 720_000,
    "mkdemux_explain": 720_000,
}
OTHERS = 2048
# Functions that call themselves, or each other in a circle, by one of them, and how many of the calls of each are open at a time at
# most. A list that is sorted here has at most 65,536 items. A machine has at most 64 cores. An expression has at most 200 levels of
# what is nested, and at most 8,192 words: each operator of a calculation is one. A map has at least six entries in each of its nodes
# but one, and fewer than 2^32 in all.
TIMES = {
    "std_collections::btree::node::Node::destroy": 13,
    "expr_parse::parser::Parser::term": 201,
    "expr_parse::parser::Parser::calc": 201,
    "expr_parse::parser::Parser::item": 201,
    "expr_lower::constant::constant": 4396,
    "expr_lower::walk::lower_at": 201,
    "core::slice::sort::unstable::quicksort": 32,
    "core::slice::sort::pivot::median_of_medians": 4,
    "mkdemux_cores::settling::fault_of": 65,
    "mkdemux_cores::settling::take_all": 65,
    "mkdemux_cores::naming::name_all": 65,
    "mkdemux_cores::booting::put_all": 65,
}
OUTSIDE = {"malloc", "realloc", "free", "memcpy", "memmove", "memset", "memcmp"}
# What a compiler for aarch64 calls for an atomic step. It takes no stack.
ATOMIC = re.compile(r"^__aarch64_\w+_acq_rel$")

HEAD = re.compile(r"^[0-9a-f]+ <(.+)>:$")
SECTION = re.compile(r"^Disassembly of section (.+):$")
STEP = re.compile(r"^ *[0-9a-f]+:\t(\S+) *(.*)$")
RELOCATION = re.compile(r"^\t+[0-9a-f]+: R_(?:X86_64_(?:PLT32|PC32)|AARCH64_(?:CALL26|JUMP26))\t(.+?)(?:[-+]0x[0-9a-f]+)?$")
# The bytes of a return address that a call puts on the stack.
RETURN = {"x86_64": 8, "aarch64": 0}


class Unclear(Exception):
    """Why the stack of a library can't be told."""


class Function:
    def __init__(self):
        self.frame = 0
        self.calls = set()  # from within its frame
        self.jumps = set()  # once its frame is gone


def written(*command):
    return subprocess.run(command, check=True, capture_output=True, text=True).stdout


def functions_of(archive, processor, objdump):
    """The functions of an archive by their names, and those of sections by the names of these."""
    functions, in_section = collections.defaultdict(Function), {}
    section = name = last = None
    step = {"x86_64": step_of_x86_64, "aarch64": step_of_aarch64}[processor]
    for line in written(objdump, "-dr", "--no-show-raw-insn", archive).splitlines():
        if found := SECTION.match(line):
            section = found[1]
        elif found := HEAD.match(line):
            name, last = found[1], None
            in_section.setdefault(section, name)
            functions[name]
        elif found := RELOCATION.match(line):
            if last:
                last.discard(own)
                last.add(found[1])
        elif found := STEP.match(line):
            last, own = step(functions[name], name, found[1], found[2])
    return functions, in_section


def aim(function, name, rest, is_call):
    """Takes in where a call or a jump leads. The set that it adds to, if it leads to another place than within the function, and what it
    added, which a relocation on the next line takes the place of."""
    target = re.search(r"<(.+?)(?:\+0x[0-9a-f]+)?>$", rest)
    aims = function.calls if is_call else function.jumps
    added = target[1] if target and (target[1] != name or is_call) and target[1] not in aims else None
    if added:
        aims.add(added)
    return aims, added


def step_of_aarch64(function, name, word, rest):
    """Takes an instruction in, as `aim` does if it is a call or a jump."""
    rest = rest.split("//")[0].strip()
    operands = rest.split(", ")
    if word.startswith("st") and (pushed := re.search(r"\[sp, #-(\d+)\]!$", rest)):
        function.frame += int(pushed[1])
    elif word == "sub" and operands[0] == "sp":
        if operands[1] == "x29":
            return None, None  # (back to where the frame was)
        if operands[1] != "sp" or not operands[2].startswith("#"):
            raise Unclear(f"{name} takes a frame of no fixed size")
        function.frame += int(operands[2][1:], 0) << (12 if operands[3:] == ["lsl #12"] else 0)
    elif word not in ("add", "cmp") and operands[0] == "sp" and not (word == "mov" and operands[1] == "x29"):
        raise Unclear(f"{name} changes the stack pointer: {word} {rest}")
    elif word == "blr":
        raise Unclear(f"{name} calls by a pointer")
    elif word == "bl" or word == "b" or word.startswith("b."):
        return aim(function, name, rest, word == "bl")
    return None, None  # (`br`: a table of places within the function)


def step_of_x86_64(function, name, word, rest):
    """Takes an instruction in, as `aim` does if it is a call or a jump."""
    if word == "push":
        function.frame += 8
    elif word == "sub" and rest.endswith(",%rsp"):
        if not rest.startswith("$0x"):
            raise Unclear(f"{name} takes a frame of no fixed size")
        function.frame += int(rest[1:].split(",")[0], 16)
    elif word == "and" and rest.endswith(",%rsp"):
        function.frame += -int(rest[1:].split(",")[0], 16) % 2**64
    elif word.startswith(("call", "jmp")):
        if "*" in rest:
            if word.startswith("call"):
                raise Unclear(f"{name} calls by a pointer")
            return None, None  # (a table of places within the function)
        return aim(function, name, rest, word.startswith("call"))
    return None, None


def circles(functions, in_section):
    """Of each function those that it calls and that call it, directly or by others (R. Tarjan, 1972)."""
    order, low, stack, circle_of = {}, {}, [], {}

    def visit(name):
        order[name] = low[name] = len(order)
        stack.append(name)
        for called in functions[name].calls | functions[name].jumps:
            called = in_section.get(called, called)
            if called in functions and called not in order:
                visit(called)
                low[name] = min(low[name], low[called])
            elif called in functions and called not in circle_of:
                low[name] = min(low[name], order[called])
        if low[name] == order[name]:
            at = stack.index(name)
            circle = frozenset(stack[at:])
            del stack[at:]
            circle_of.update((one, circle) for one in circle)

    for name in list(functions):
        if name not in order:
            visit(name)
    return circle_of


def depths(functions, in_section, address):
    """The bytes below the return address that a function takes at most, by its name; a return address takes some itself."""
    known, circle_of = {}, circles(functions, in_section)

    def times(circle):
        """How many calls of each function of a circle are open at a time."""
        (name, *others) = circle
        if not others and not any(in_section.get(called, called) == name for called in functions[name].calls):
            return 1
        found = [TIMES[one.split("::<")[0]] for one in circle if one.split("::<")[0] in TIMES]
        if not found:
            raise Unclear(f"{' -> '.join(sorted(circle))} is a circle")
        return max(found)

    def depth(name):
        name = in_section.get(name, name)
        if name in OUTSIDE or name not in functions:
            if name not in OUTSIDE and not ATOMIC.match(name):
                raise Unclear(f"{name} isn't in the archive")
            return 0
        circle = circle_of[name]
        if circle not in known:
            open_now = times(circle)
            inner = max((address + depth(called) for one in circle for called in functions[one].calls if in_section.get(called, called) not in circle), default=0)
            after = max((depth(next_one) for one in circle for next_one in functions[one].jumps if in_section.get(next_one, next_one) not in circle), default=0)
            own = open_now * sum(functions[one].frame + address for one in circle) - address
            known[circle] = own + inner if open_now > 1 else max(own + inner, after)
        return known[circle]

    return depth


def most(archive, processor, name):
    """The bytes that a call of an archive may take."""
    bytes = MOST.get(name, OTHERS)
    return bytes if processor == "x86_64" and "kernel" not in archive.parts else bytes * 5 // 4


def main(processor, objdump, *folders):
    sys.setrecursionlimit(10000)
    passed = failed = 0
    for archive in sorted(path for folder in folders for path in pathlib.Path(folder).glob("libmkdemux*.a")):
        try:
            depth = depths(*functions_of(archive, processor, objdump), RETURN[processor])
            names = [line.split()[-1] for line in written(objdump, "-t", archive).splitlines() if re.match(r"\S+ g +F \.text", line)]
            taken = {name: depth(name) for name in names}
        except Unclear as why:
            print(f"stack, {processor}, {archive}: {why}")
            failed += 1
            continue
        above = [f"{name} {bytes} > {most(archive, processor, name)}" for name, bytes in taken.items() if bytes > most(archive, processor, name)]
        order = sorted(taken.items(), key=lambda item: -item[1])
        print(f"stack, {processor}, {archive.parent.name}/{archive.name}: {', '.join(f'{name} {bytes:,}' for name, bytes in order)}" + (f": FAILED: {above}" if above else ""))
        failed += bool(above)
        passed += not above
    print(f"{passed} passed, {failed} failed")
    return 1 if failed else 0


if __name__ == "__main__":
    sys.exit(main(*sys.argv[1:]))
