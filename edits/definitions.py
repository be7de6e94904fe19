#!/usr/bin/env python3
"""Tries the edits of definitions in edits/definitions: each must be refused by an example of the crate definitions_tried.

    edits/definitions.py BUILT [NAME..]

BUILT is a copy of the repository in which the crates are proved; their libraries are taken from there. A NAME is that of an edit:
without one all are tried.

The proofs of a definition's own crate refuse its edit too, as the code does what the definition said. What is asked here is whether
the examples alone refuse it. So the file of definitions is copied into the crate of the examples, with those that cite it, and the
examples speak of the copies. The example must be proved of the copies as they are, and not of the edited ones. Where the proof of an
example uses a lemma of another crate on the definition, it can't be proved of a copy, and no edit may name it.

Several edits are tried in one run of the prover, since it reads the crates below once a run. Each edit has copies, examples and lemmas of
its own, under names that begin with its number, and so has each file as it is. No copy cites another number's.

An edit is a file NAME.definition with a line `# refused by: FUNCTION: CLAUSE`, a line `file: crates/CRATE/specs/FILE.antt`, and pairs
of lines `old: TEXT` and `new: TEXT`.

The last line is `N passed, M failed`."""
import collections
import copy
import importlib
import pathlib
import re
import sys
import tempfile
import time

sys.dont_write_bytecode = True

from edit import CRATES, Edit, Misfit

tries = importlib.import_module("try")
ROOT = CRATES.parent
EXAMPLES = "definitions_tried"
# What the prover says of a declaration that it refuses.
REFUSED = re.compile(r"^\./(proofs/\S+\.antt):\d+:\d+: error: `([^`]+)`")
# A line of a proof file that cites the lemmas of another.
OWN = rf"^use Rattle\.{EXAMPLES}\.proofs\.(\w+)\.\{{(.*)\}}$"
# An example, with the lines of text before it.
EXAMPLE = re.compile(r"(?:^///.*\n)*^pub fn (\w+)\(\)\n(?:^ .*\n)*^\{\}\n", re.MULTILINE)
# So many edits are tried in one run.
MOST_TOGETHER = 9
# What it says of a proof that names what the edit took away. This tells nothing of the example.
LOST = re.compile(r"has no field|has no `|is not in scope")


def module_of(file):
    return f"Rattle.{file.parts[-3]}.specs.{file.stem}"


def specs_below(crates):
    """The files of definitions of these crates, by their modules, with their texts."""
    files = (file for crate in crates for file in (CRATES / crate / "specs").glob("*.antt"))
    return {module_of(file): file.read_text(encoding="utf-8") for file in files if file.stem != "Lib"}


def used(text):
    """The modules of definitions that a text uses."""
    return set(re.findall(r"\buse (Rattle\.\w+\.specs\.\w+)\b", text))


def closed(modules, more_of):
    """These modules, and those that `more_of` gives for them, again and again."""
    found, new = set(), set(modules)
    while new:
        found |= new
        new = set().union(*map(more_of, new)) - found
    return found


def shown_by(crate):
    """The types that other crates can name."""
    text = (CRATES / crate / "src/lib.rt").read_text(encoding="utf-8")
    exports = re.findall(r"^pub use ([^;]+);", text, re.MULTILINE)
    return set(re.findall(r"\w+", " ".join(exports))) | set(re.findall(r"^pub (?:struct|enum|trait|type) (\w+)", text, re.MULTILINE))


def can_be_copied(text):
    """Whether a file of definitions with this text names nothing that only its own crate can name."""
    declared = re.findall(r"\buse Rattle\.(\w+)\.specs\.declared\.(?:[a-z]\w*\.)*([A-Z]\w*)", text)
    return all(name == "TheConstants" or name in shown_by(crate) for crate, name in declared if (CRATES / crate).is_dir())


def own_files():
    """The definitions and lemmas of the examples' crate, by their modules, with their texts."""
    folders = (CRATES / EXAMPLES / part for part in ("specs", "proofs"))
    files = [file for folder in folders for file in folder.glob("*.antt") if file.stem != "Lib"]
    return {f"Rattle.{EXAMPLES}.{file.parent.name}.{file.stem}": file.read_text(encoding="utf-8") for file in files}


def own_used(text):
    """The modules of the examples' crate that a text uses."""
    return set(re.findall(rf"\bRattle\.{EXAMPLES}\.(?:specs|proofs)\.[A-Z]\w*", text))


def to_copy(specs, module, texts):
    """This module, and those that these texts use and that cite it through others, but for those that can't be copied."""
    uses = {name: used(text) for name, text in specs.items()}
    citing = closed({module}, lambda cited: {name for name, others in uses.items() if cited in others})
    told = closed(set().union(*map(used, texts)), lambda name: uses.get(name, set()))
    return {name for name in citing & (told | {module}) if name == module or can_be_copied(specs[name])}


class Copies:
    """What an edit, or a file as it is, has in the folder: these examples, with the lemmas that they use, of a copy of the module with this
    text and of those that cite it. All its names begin with its mark."""

    def __init__(self, mark, specs, module, text, functions):
        self.mark, self.functions = mark, functions
        self.sources = {name: self.source(name) for name in {function.split("::")[0] for function in functions}}
        self.answers = {function: (CRATES / EXAMPLES / "proofs" / function.replace("::", "/")) for function in functions}
        files = own_files()
        texts = [*self.sources.values(), *(file.read_text(encoding="utf-8") for place in self.answers.values() for file in place.glob("*.antt"))]
        own = closed(set().union(*map(own_used, texts)), lambda name: own_used(files.get(name, "")))
        needed = {name: files[name] for name in own if name in files}
        self.copied = {name: text if name == module else specs[name] for name in to_copy(specs, module, [*texts, *needed.values()])}
        # What cites no copy, through others either, is the same for all.
        marked = {name for name, its in needed.items() if used(its) & self.copied.keys()}
        marked = closed(marked, lambda cited: {name for name, its in needed.items() if cited in own_used(its)})
        self.own = {name: needed[name] for name in marked}
        self.shared = {name: needed[name] for name in needed.keys() - marked}

    def source(self, name):
        """The module of this name with the examples that are tried, and no others."""
        text = (CRATES / EXAMPLES / f"src/{name}.rt").read_text(encoding="utf-8")
        return EXAMPLE.sub(lambda found: found[0] if f"{name}::{found[1]}" in self.functions else "", text)

    def name_of(self, module):
        """The name that a copy of this module has."""
        return self.mark.upper() + "".join(part.capitalize() for part in re.split(r"[._]", module.removeprefix("Rattle.").replace(".specs.", ".")))

    def speak(self, text):
        """The text, which speaks of the copies."""
        for name in self.copied:
            text = re.sub(rf"{re.escape(name)}(?=\.\{{| as |$)", f"Rattle.{EXAMPLES}.specs.{self.name_of(name)}", text, flags=re.MULTILINE)
        for name in self.own:
            text = re.sub(rf"{re.escape(name)}\b", f"{name.rpartition('.')[0]}.{self.mark.upper()}{name.rpartition('.')[2]}", text)
        for name in self.sources:
            text = re.sub(rf"\bRattle\.{EXAMPLES}\.proofs\.{name}\.", f"Rattle.{EXAMPLES}.proofs.{self.mark}_{name}.", text)
        return text

    def write(self, folder):
        """Writes all of it, and gives the lines for the lists of modules: of the sources, the definitions and the lemmas."""
        for name, text in self.sources.items():
            (folder / f"src/{self.mark}_{name}.rt").write_text(self.speak(text), encoding="utf-8")
        lists = [[f"pub mod {self.mark}_{name};" for name in self.sources], [], []]
        for names, mark in ((self.own, self.mark.upper()), (self.shared, "")):
            for name, text in names.items():
                part, stem = name.split(".")[2], mark + name.split(".")[3]
                (folder / f"{part}/{stem}.antt").write_text(self.speak(text), encoding="utf-8")
                lists[1 if part == "specs" else 2].append(f"pub mod {stem}" if part == "specs" else f"mod {stem}")
        for name, text in self.copied.items():
            (folder / f"specs/{self.name_of(name)}.antt").write_text(self.speak(text), encoding="utf-8")
            lists[1].append(f"pub mod {self.name_of(name)}")
        for function, place in self.answers.items():
            to = folder / "proofs" / f"{self.mark}_{function.replace('::', '/')}"
            to.mkdir(parents=True)
            for file in place.glob("*.antt"):
                (to / file.name).write_text(self.speak(file.read_text(encoding="utf-8")), encoding="utf-8")
        return lists

    def own_of(self, examples):
        """Those of these clauses, each as `function: clause`, that are of these copies, as the examples' crate names them."""
        head = f"{self.mark}_"
        return {example.removeprefix(head) for example in examples if example.startswith(head)}


def write_all(copies, folder):
    """Writes a crate that has these copies and nothing else."""
    for part in ("src", "specs", "proofs"):
        (folder / part).mkdir()
    lists = [copied.write(folder) for copied in copies]
    sources, definitions, lemmas = (sorted({line for found in lists for line in found[at]}) for at in range(3))
    (folder / "src/lib.rt").write_text("\n".join(["//! Examples of copies.", "#![tactic(auto)]", "", *sources, ""]), encoding="utf-8")
    (folder / "specs/Lib.antt").write_text("\n".join([*definitions, ""]), encoding="utf-8")
    (folder / "proofs/Lib.antt").write_text("\n".join([*lemmas, ""]), encoding="utf-8")


def declarations(text):
    """The declarations of a proof file, each with its name and its words."""
    for block in re.split(r"\n\n+", text):
        if named := re.search(r"^(?:pub )?(?:abbrev )?([\w→-]+) :", block, re.MULTILINE):
            yield named[1], set(re.findall(r"[\w→-]+", block)) - {named[1]}


def refused(folder, said):
    """The clauses, each as `function: clause`, whose proofs the prover refuses or rest on what it refuses, from what it said."""
    lines = [line for line in said.splitlines() if not LOST.search(line)]
    bad = {(folder / file, name) for line in lines for file, name in REFUSED.findall(line)}
    texts = {file: file.read_text(encoding="utf-8") for file in (folder / "proofs").rglob("*.antt")}
    cited = {file: {(folder / "proofs" / f"{other}.antt", name) for other, names in re.findall(OWN, text, re.MULTILINE) for name in re.findall(r"[\w→-]+", names)} for file, text in texts.items()}
    while True:
        more = set()
        for file, text in texts.items():
            known = {name for other, name in bad if other == file or (other, name) in cited[file]}
            more |= {(file, name) for name, words in declarations(text) if words & known}
        if more <= bad:
            break
        bad |= more
    functions = {file: "::".join(file.relative_to(folder / "proofs").parts[:-1]) for file in texts if file.name == "Answers.antt"}
    return {f"{functions[file]}: {name.removeprefix('returns-clause-')}" for file, name in bad if file in functions}


def over_cited(prover, folder):
    """The prover with the libraries that the texts in the folder cite, and no others."""
    cited = set().union(*(re.findall(r"\bRattle\.(\w+)\.", file.read_text(encoding="utf-8")) for file in folder.rglob("*.*")))
    names, kind = prover.below[EXAMPLES]
    own = copy.copy(prover)
    own.below = prover.below | {EXAMPLES: ([name for name in names if name in cited], kind)}
    return own


def run(prover, copies, room):
    """The clauses that are refused of these copies, and the definitions that can't be read: each one's file, and why."""
    folder = room / "crate"
    folder.mkdir()
    write_all(copies, folder)
    functions = [f"{copied.mark}_{function}" for copied in copies for function in copied.functions]
    ran = over_cited(prover, folder).prove(EXAMPLES, folder, functions, room / "kept")
    if ran.returncode not in (0, 1) or "only=" not in ran.stdout:
        first = next((line for line in ran.stdout.splitlines() if "error" in line), ran.stdout[:300])
        raise Misfit(f"the prover ended with status {ran.returncode}: {first}")
    return refused(folder, ran.stdout), re.findall(r"^\./specs/(\w+)\.antt\S* error: (.*)", ran.stdout, re.MULTILINE)


def judge(edit, before, after, unread):
    """Whether the edit is refused as it must be, and a line that says so. What is refused without it is told."""
    label = f"definition {edit.file.stem}"
    example = f"{edit.function}: {edit.clause}"
    if unread:
        return False, f"{label}: BAD EDIT: a definition can't be read: {unread[0]}"
    if example in before:
        return False, f"{label}: {edit.clause} of {edit.function} isn't proved of a copy that isn't edited"
    if example in after:
        return True, f"{label}: refused, as it must be, by {edit.clause} of {edit.function}"
    others = ", ".join(sorted(after - before))
    return False, f"{label}: NOT REFUSED by {edit.clause} of {edit.function}" + (f", but by {others}" if others else "")


def try_files(prover, specs, edits):
    """Tries the edits of these files of definitions, in one run."""
    begin = time.monotonic()
    copies, results = {}, []
    for number, (file, found) in enumerate(edits.items()):
        module = module_of(pathlib.Path(file))
        copies[file] = Copies(f"f{number:02}", specs, module, specs[module], {edit.function for edit in found})
        for edit in found:
            try:
                copies[edit] = Copies(f"e{len(copies):02}", specs, module, edit.texts(ROOT)[file], {edit.function})
            except Misfit as why:
                results.append((False, f"definition {edit.file.stem}: BAD EDIT: {why}"))
    with tempfile.TemporaryDirectory(prefix="definitions-") as room:
        try:
            said, unread = run(prover, copies.values(), pathlib.Path(room))
        except Misfit as why:
            return [(False, f"definition {edit.file.stem}: NOT TRIED: {why}") for found in edits.values() for edit in found]
    for file, found in edits.items():
        before = copies[file].own_of(said)
        for edit in (edit for edit in found if edit in copies):
            marks = copies[edit].mark.upper(), copies[file].mark.upper()
            results.append(judge(edit, before, copies[edit].own_of(said), [why for name, why in unread if name.startswith(marks)]))
    print(f"definitions of {len(edits)} files: {sum(map(len, edits.values()))} edits took {time.monotonic() - begin:.0f} s", flush=True)
    return results


def grouped(edits):
    """The files with their edits, in groups of about so many edits, the greatest file first."""
    groups = []
    for file, found in sorted(edits.items(), key=lambda item: -len(item[1])):
        group = next((group for group in groups if sum(map(len, group.values())) + len(found) <= MOST_TOGETHER), None)
        if group is None:
            groups.append(group := {})
        group[file] = found
    return groups


def jobs(built, names=()):
    """What is to be done for these edits, or for all: each job with its size."""
    prover = tries.Prover(pathlib.Path(built))
    direct, kind = prover.below[EXAMPLES]
    specs = specs_below(direct)
    # Copies cite what the examples themselves do not.
    through_others = closed(direct, lambda name: prover.below[name][0] if name in prover.below else [])
    prover.below[EXAMPLES] = (sorted(through_others), kind)
    files = [ROOT / "edits/definitions" / f"{name}.definition" for name in names] or sorted((ROOT / "edits/definitions").glob("*.definition"))
    edits = collections.defaultdict(list)
    for file in files:
        edit = Edit(file)
        edits[edit.changes[0][0]].append(edit)
    return [(sum(map(len, group.values())), try_files, prover, specs, group) for group in grouped(edits)]


if __name__ == "__main__":
    sys.exit(tries.run(jobs(sys.argv[1], sys.argv[2:])))
