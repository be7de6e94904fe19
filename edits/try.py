#!/usr/bin/env python3
"""Tries the edits of crates/*/must-fail: with each, the prover must refuse the function that the edit names, by the clause that it names.

    edits/try.py BUILT [CRATE..]

BUILT is a copy of the repository that `rt ci` has just proved; the libraries that the crates use are taken from there.

`rt ci` would prove the whole crate for its edits once more, and again with each. This proves just the functions that edits name, and
all edits of a crate at once: a function's proof rests on the contracts of what it calls and not on the bodies, so no edit changes
what another comes to. What a function calls is proved already: it gets a hole for a proof, by which the prover takes its contract, and
its body is left out, since the prover would follow its borrows all the same. Of two edits in one function, the second is tried after
the first.

The last line is `N passed, M failed`."""
import collections
import concurrent.futures
import os
import pathlib
import re
import shutil
import subprocess
import sys
import tempfile
import time

sys.dont_write_bytecode = True

from edit import CRATES, Edit, Misfit

PARTS = ("src", "specs", "proofs")
# What the prover says of a proof that names what the edit took away. This tells nothing of the goal.
LOST = re.compile(r"has no field|has no `|is not in scope")
# How a function begins, as `rt fmt` writes it.
BEGINS = re.compile(r'( *)(?:pub(?:\([^)]*\))? )?(?:unsafe )?(?:extern "C" )?fn (\w+)')
# What a proof may need: so many run at once as memory has room for.
GIGABYTES_EACH = 4


def below(built):
    """The libraries that each crate uses, and the words of its line before them, by the crate's name."""
    lines = (line.split("#")[0] for line in (built / "crates.txt").read_text(encoding="utf-8").splitlines())
    split = (line.partition(":") for line in lines if ":" in line)
    return {words.split()[0]: (names.split(), words.split()[1:]) for words, _, names in split}


def is_recursive(place):
    """Whether a function whose proof would be at this place is proved with others of a cycle of calls, in a folder beside it."""
    return any(place.name in cycle.name.split("+") for cycle in place.parent.glob("+*"))


def bodies(lines):
    """The functions of a source with these lines, as `rt fmt` writes it, but those of traits and their impls: each one's type, if it
    has one, its name, and from which to which line its body goes."""
    owner, begun = "", None
    for place, line in enumerate(lines):
        if line.startswith(("impl", "trait", "pub trait", "pub(crate) trait")):
            # (methods of `Core<ListLinks>` alone have names of another kind)
            of_type = re.match(r"impl (\w+) \{|impl<.*> (\w+)<\w+(?:, \w+)*> \{", line)
            owner = of_type and (of_type[1] or of_type[2])
        elif line == "}" and begun is None:
            owner = ""
        if begins := BEGINS.match(line):
            begun, indent, name, opened = place, *begins.groups(), None
        if begun is None:
            continue
        if opened is None and (line == f"{indent}{{" or line.endswith(" {") and (place == begun or line.startswith(f"{indent})"))):
            opened = place
        elif line == f"{indent}}}" and opened is not None:
            if owner is not None:
                yield owner, name, opened + 1, place
            begun = None


class Sources:
    """The functions of the crate in a folder that have bodies, by their full names. A method's begins with the module of its type."""

    def __init__(self, folder):
        self.lines, self.functions = {}, {}
        types = {}
        for file in (folder / "src").rglob("*.rt"):
            path = file.relative_to(folder / "src").with_suffix("").parts
            module = "" if path == ("lib",) else "::".join([*path, ""])
            text = file.read_text(encoding="utf-8")
            types |= {name: f"{module}{name}::" for name in re.findall(r"^(?:pub(?:\(.*?\))? )?(?:struct|enum) (\w+)", text, re.MULTILINE)}
            self.lines[file] = (module, text.split("\n"))
        for file, (module, lines) in self.lines.items():
            for owner, name, first, end in bodies(lines):
                self.functions[(types[owner] if owner else module) + name] = (file, first, end)

    def leave_out(self, functions):
        """Leaves out the bodies of these functions."""
        for file, first, end in sorted((self.functions[function] for function in functions), reverse=True):
            self.lines[file][1][first:end] = ["unreachable!()"]
        for file, (_, lines) in self.lines.items():
            file.write_text("\n".join(lines), encoding="utf-8")


def suppose(crate, folder, tried):
    """Has the contracts of all functions but these taken without a proof. Those that call one another are left as they are."""
    sources = Sources(folder)
    others = sources.functions.keys() - set(tried)
    supposed = [function for function in others if not is_recursive(folder / "proofs" / function.replace("::", "/"))]
    sources.leave_out(supposed)
    for function in supposed:
        place = folder / "proofs" / function.replace("::", "/")
        place.mkdir(parents=True, exist_ok=True)
        for file in ("Invariants.antt", "Answers.antt"):
            (place / file).unlink(missing_ok=True)
        statement = f"Rattle.{crate}.proofs.{function.replace('::', '.')}.Statement"
        theorem = f"{place.name}_spec"
        hole = f"use {statement} as stated\n\npub {theorem} : {{M : Type 1}} → stated.statement M\n{theorem} = ?\n"
        (place / "Proof.antt").write_text(hole, encoding="utf-8")


class Prover:
    def __init__(self, built):
        doc = subprocess.run(["rt", "doc"], check=True, capture_output=True, text=True).stdout
        self.kit = pathlib.Path(doc.strip()).parent
        self.built = built.resolve()
        self.below = below(built)

    def words(self, crate):
        """What the prover is told of the crate: its libraries and the program logic, as `rt` tells it."""
        names, kind = self.below[crate]
        own = {name: self.built / "crates" / name / "out/rlib" for name in self.below}
        kits = self.kit / "rlibs"
        words = ["--crate-name", crate, "src/lib.rt", "--extern", f"std={kits}/std.rlib"]
        for name in names:
            words += ["--extern", f"{name}={own.get(name, kits)}/{name}.rlib"]
        for folder in [kits, *own.values()]:
            words += ["-L", f"dependency={folder}"]
        words += ["--antt-project", f"{self.kit}/rattle/logic/antt-project.json", "--logic-built", f"{self.kit}/logic_built"]
        return words + ["--crate-type", "staticlib"] * ("staticlib" in kind)

    def prove(self, crate, folder, functions, kept):
        """What the prover says of these functions of the crate in this folder. It keeps what it proved, for the next call."""
        suppose(crate, folder, functions)
        only = [word for function in sorted(functions) for word in ("--only", function)]
        words = [self.kit / "bin/rattle", "check", *self.words(crate), "--jobs", "1", "--incremental", kept, "--allow-holes", *only]
        return subprocess.run(words, cwd=folder, stdin=subprocess.DEVNULL, stdout=subprocess.PIPE, stderr=subprocess.STDOUT, text=True, errors="replace")


def unproved(crate, said):
    """The goals that the prover didn't prove, by their functions. Those that it looked for itself are noted right before the function's line."""
    goals, noted = collections.defaultdict(list), []
    for line in said.splitlines():
        answered = re.match(r"\./proofs/(\S+)/\w+\.antt:\d+:\d+: error: `([^`]+)`", line)
        searched = re.match(r"note: src/\S+: .*?\(`([^`]+)`\)", line)
        ended = re.match(rf"fn {crate}::(\S+): (no proof|not proved)", line)
        if answered and not LOST.search(line):
            goals[answered[1].replace("/", "::")].append(answered[2])
        elif searched:
            noted.append(searched[1])
        elif ended:
            goals[ended[1]] += noted
            noted = []
    return goals


def is_of(goal, clause):
    """Whether this goal is one of the clause. `returns` is what the function ensures, where the goal names no clause."""
    named = goal.rpartition("-clause-")[2] if "-clause-" in goal else None
    return clause in (goal, named) or clause == "returns" and named is None and goal.startswith("returns")


def judge(edit, crate, ran):
    """Whether the edit is refused as it must be, and a line that says so."""
    label = f"must-fail {crate}/{edit.file.stem}"
    goals = unproved(crate, ran.stdout)[edit.function]
    if ran.returncode == 1 and any(is_of(goal, edit.clause) for goal in goals):
        return True, f"{label}: refused, as it must be, by {edit.clause} of {edit.function}"
    if ran.returncode not in (0, 1) or "only=" not in ran.stdout:
        first = next((line for line in ran.stdout.splitlines() if "error" in line), ran.stdout[:200])
        return False, f"{label}: NOT TRIED: the prover ended with status {ran.returncode}: {first}"
    instead = f", but by {', '.join(goals)}" if goals else ""
    return False, f"{label}: NOT REFUSED by {edit.clause} of {edit.function}{instead}"


def copy(crate, folder):
    for part in PARTS:
        shutil.rmtree(folder / part, ignore_errors=True)
        if (CRATES / crate / part).is_dir():
            shutil.copytree(CRATES / crate / part, folder / part)


def try_together(prover, crate, edits, folder):
    """Tries these edits, but those of a function that another edit is in; gives the results, and the edits that are left."""
    copy(crate, folder)
    tried, left, results = {}, [], []
    for edit in edits:
        try:
            if edit.function not in tried:
                edit.apply(folder)
                tried[edit.function] = edit
            else:
                left.append(edit)
        except Misfit as why:
            if tried:
                left.append(edit)
            else:
                results.append((False, f"must-fail {crate}/{edit.file.stem}: BAD EDIT: {why}"))
    if tried:
        ran = prover.prove(crate, folder, tried, folder.parent / "kept")
        results += [judge(edit, crate, ran) for edit in tried.values()]
    return results, left


def try_all(prover, crate, edits):
    """Tries the edits of a crate, and says how long that took."""
    begin = time.monotonic()
    with tempfile.TemporaryDirectory(prefix="edits-") as room:
        folder = pathlib.Path(room) / "crate"
        folder.mkdir()
        results, left = try_together(prover, crate, edits, folder)
        while left:
            more, left = try_together(prover, crate, left, folder)
            results += more
    print(f"must-fail {crate}: {len(edits)} edits took {time.monotonic() - begin:.0f} s", flush=True)
    return results


def edits_of(crate):
    edits = [Edit(file) for file in sorted((CRATES / crate / "must-fail").glob("*.edit"))]
    unclear = [edit.file for edit in edits if edit.function is None]
    if unclear:
        sys.exit(f"{unclear[0].relative_to(CRATES.parent)} has no line `# refused by: FUNCTION: CLAUSE`")
    return edits


def lanes():
    """How many proofs run at once."""
    free = re.search(r"MemAvailable:\s+(\d+) kB", pathlib.Path("/proc/meminfo").read_text())
    return max(1, min(len(os.sched_getaffinity(0)), int(free[1]) // (GIGABYTES_EACH << 20)))


def size(crate):
    return sum(file.stat().st_size for part in PARTS for file in (CRATES / crate / part).rglob("*") if file.is_file())


def jobs(built, names=()):
    """What is to be done for these crates, or for all: each job with its size. The longest come first."""
    prover = Prover(pathlib.Path(built))
    found = ((crate, edits_of(crate)) for crate in names or prover.below)
    sized = [(size(crate), try_all, prover, crate, edits) for crate, edits in found if edits]
    return sorted(sized, key=lambda job: job[0], reverse=True)


def run(*lists):
    """Does these jobs side by side, begun in this order, and counts what they come to."""
    passed = failed = 0
    with concurrent.futures.ThreadPoolExecutor(lanes()) as pool:
        running = [pool.submit(call, *given) for jobs in lists for _, call, *given in jobs]
        for ended in concurrent.futures.as_completed(running):
            for is_refused, line in ended.result():
                print(line, flush=True)
                passed += is_refused
                failed += not is_refused
    print(f"{passed} passed, {failed} failed")
    return 1 if failed else 0


if __name__ == "__main__":
    sys.exit(run(jobs(sys.argv[1], sys.argv[2:])))
