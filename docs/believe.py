#!/usr/bin/env python3
"""Makes the page of what has to be believed: the definitions that the contracts of the headline cite, and what else is trusted.

    docs/believe.py              writes docs/believed.md
    docs/believe.py --list       counts the definitions of each part: of the headline, of the program's calls, of each command and
                                 of each row of README's table, and says how many lines a part may have
    docs/believe.py --list WORD  names the definitions of the parts with this word in their title, file by file
    docs/believe.py --check      makes the page again and compares, counts the definitions of each root, which must have no more
                                 lines than is stated here, and those of the roots that were counted by hand, and looks for
                                 definitions of the headline that share a name

A check prints a line for each thing that failed; its last line is `N passed, M failed`, and the status is 1 where one failed."""
import itertools
import pathlib
import re
import sys
import textwrap
from dataclasses import dataclass

sys.dont_write_bytecode = True

from cited import Cited, Sources, Unknown

TOP = pathlib.Path(__file__).resolve().parent.parent
PAGE = TOP / "docs" / "believed.md"
WORDS = TOP / "docs" / "kit-words.txt"


@dataclass
class Part:
    """What rests on some roots, and how many lines of definitions that may be at most."""

    title: str
    roots: list
    most: int


HEADLINE = [
    Part("Filters", ["headline::filter"], 260),
    Part("The whole headline, by events with their answers and replicas alone", [
        "headline::filter",
        "headline::one_by_one",
        "headline::threads",
        "headline::Replicas::get",
    ], 877),
    Part("The same of cores that serve in one thread, step by step, in the middle of changes and at rest", [
        "headline::serve_steps",
        "headline::serve",
    ], 933),
]
WHOLE = Part("All parts of the headline", [root for part in HEADLINE for root in part.roots], 0)
# What the program's own calls say beside the headline: each case of the protocol, and what rings and their ends show.
CALLS = [
    Part("Every interleaving, one event after another", [
        "world_core::WorldOver::boot_with_limits",
        "world_core::WorldOver::apply[happens,extends,one_log,versions_counted,delivers]",
        "world_core::WorldOver::replica",
    ], 1180),
    Part("Every interleaving, cores as threads", [
        "core_threads::boot_with_limits[machine]",
        "core_threads::run_machine[machine]",
        "core_machine::boot_machine[machine]",
        "core_machine::drive[machine,concludes]",
        "core_machine::agree[agree]",
        "core_machine::conclude",
        "core_machine::merge",
    ], 2147),
]
COMMANDS = [
    Part("`match`", ["console::run_match"], 3070),
    Part("`match --stream`", ["console::run_stream"], 3010),
    Part("`match --number`, `--count`, `--quiet`", ["console::run_view"], 3110),
    Part("`match --explain`", ["graph_engine::run_explain"], 3110),
    Part("`check`", ["console::run_check"], 920),
    Part("`check --graph`", ["graph_engine::run_graph"], 1060),
    Part("`dump`", ["console::run_dump", "console::run_dump_stream"], 560),
    Part("`keep`", ["keep_engine::run_keep"], 2950),
    Part("`sim`", ["sim_engine::run_sim"], 2780),
    Part("`run`", ["run_engine::run_script"], 3620),
    Part("`draw`", ["draw_engine::run_draw"], 470),
    Part("`compile`", ["compile_engine::run_compile"], 2420),
    Part("the words of the command line", ["command_line::request_of"], 210),
    Part("all of them", ["commands::perform"], 6610),
]
# The most lines for each row of README's table, by the first of its crates.
ROWS = {
    "seq": 10,
    "bpf_insn": 90,
    "filter_verify": 210,
    "filter_vm": 260,
    "filter_predecode": 330,
    "filter_group": 225,
    "filter_asm": 530,
    "filter_cond": 330,
    "expr_words": 1460,
    "expr_meaning": 2115,
    "mkdemux_c": 260,
    "pcap_reader": 360,
    "capture_reader": 540,
    "endpoint_caps": 64,
    "filter_table": 280,
    "definitions_tried": 350,
    "monitor_messages": 220,
    "two_phase": 260,
    "rx_queue": 30,
    "ump_ring": 150,
    "world_events": 1110,
    "world_progress": 1370,
    "world_histories": 1140,
    "core_steps": 380,
    "world_core": 1340,
    "headline": 950,
    "core_loop": 1740,
    "core_machine": 2670,
    "core_threads": 1630,
    "mkdemux_cores": 2170,
    "line_words": 1430,
    "sim_lines": 240,
    "engine_io": 3070,
    "script_input": 90,
    "sim_engine": 3930,
    "trace_text": 2970,
    "trace_lines": 470,
    "graph_engine": 1060,
    "compile_engine": 2420,
    "filter_listing": 280,
    "keep_engine": 2950,
    "command_line": 6610,
}
# The roots that were counted by reading, with the definitions and the lines that were found.
BY_HAND = {
    "rx_queue::Port::put": (10, 24),
    "filter_verify::verify[sound,code,accepts]": (32, 157),
    "filter_vm::run[ends,within]": (30, 177),
}

# The types of which each part stands with its comment. Of the others definitions say what the parts mean, or no clause speaks of
# them.
WITH_PARTS = {"Event", "Answer", "Decision", "Kept", "Job", "Fault", "Turn", "Outcome", "Did", "Stepped", "Served"}

INTRODUCTION = """\
# What has to be believed

A proof says that the code does what its contract says. That the contract says what you want, only you can say. This
page has what you must read for that: the clauses that carry the headline of the [README](../README.md), each definition
that they cite, directly or by other definitions, and what else is trusted. `docs/believe.py` makes it from the sources;
`./test` makes it again, compares, and fails where a part rests on more lines than are stated.

`headline::filter` is about filters, `one_by_one` about a machine that does one event after another, `threads` about
cores that are threads, `serve_steps` about cores that serve in one thread, at any moment, and `serve` about these after
they came to rest. They make calls of the program, and their clauses cite no case of the protocol and no ring.

Each definition stands once, after those that it cites; [definitions.md](definitions.md) says in plain words what each
is and from which source. A type with a model stands as the value that its model names. Left out are the words `pub`,
`abbrev` and `unfoldable`, and comments on the parts of a type where definitions say what they mean, or no clause speaks
of them. Lines count where they are neither blank nor comment nor import."""

BESIDE = (
    "The program's own calls say more: each case of the protocol, which messages are under way, what rings show. They rest on {} "
    "lines (one event after another) and {} (cores as threads); what one command writes on {} to {}, all commands on {}. "
    "`docs/believe.py --list` counts these and each row of README's table; `docs/believe.py --list run` names what `run` rests on."
)

NOTATION = """\
## The kit's words

`A → B` is a function, or that B follows from A; `(x : A) → B` says so of each x, and `(x : A) × B` that there is an x;
`A × B` is both. `λ x. e` is a function. `Type 0` is a statement, or a type; `⊥` never holds, and `Unit {0}` always. A
`record` holds its fields together, and `data` is one of its cases. In clauses, `x.now` is what a borrow shows, and
`result` what is returned. The numbers of Rust are those of ℕ, and a slice or a vector is the list of its items."""

TRUSTED = """\
## What else is trusted

- **The toolchain**: Rattle's prover, its compiler, LLVM and the linker. The README names the kit.
- **The kit's libraries as built**: {libraries}. Their own proofs aren't made again here, and their words mean what the
  kit's definitions say.
- **The contracts that the kit assumes** of functions that aren't written in Rattle, as the system's calls and atomic
  loads and stores: `rt check --list-axioms` lists them for a crate, and marks those that are `reached`.
- **The C in the program**: of the kit `libos_c.a`, 19 functions for arguments, files, processes and threads, and
  `liblibc_c.a`, three that call `malloc`, `realloc` and `free`; and the C library that they call. The C libraries of
  `dist/lib` have the latter three; for C also `c/mkdemux.h` and `c/mkdemux_cores.h`, the C compiler and binutils.
- **The C for aarch64**, which the kit doesn't have: `c/heap.c` has those three functions, `c/aarch64/program.c` what the
  program takes of the others, its first instructions, three atomic steps and a division of 128 bits, and
  `c/aarch64/libc.map` the names of the C library's functions. The archives for kernels have `c/heap.c`, too, and are
  compiled by `c/kernel-clang`, which tells LLVM not to use some registers. The tests of both processors run over these.
- **`dist/` and the launcher `./mkdemux`**, until `./test` builds the programs again and compares each byte: before that
  only a digest of the sources and of the kit's version says that they are theirs.
- **What one run kept for itself**: the C libraries are proved for aarch64, and for kernels, over what the same run of
  `./libmkdemux` had just proved for x86-64, so the prover's last line ends in `incremental=trusted`.
- **The scripts of the gate**: `./test` and what it calls in `edits/`, `dist/`, `examples/`, `rows/` and `c/`; and
  `docs/believe.py` with `docs/cited.py`: a definition that these miss is missing here. Three of their counts are
  compared with counts by hand.
- **What `crates/mkdemux` does around its one call of `perform`**, and that its devices record what they did:
  [proved.md](proved.md) has what is only tested, and what is neither.
- **The system and the processor**: that files, pipes, threads and atomic instructions do what the C library and LLVM
  assume of them, on x86-64 and on aarch64, which orders memory less: [which instructions these
  are](proved.md#atomic-steps)."""


def linked(file):
    """A link to a file of the repository."""
    return f"[{file.removeprefix('crates/')}](../{file})"


def lines_of(path):
    """The lines of a file that are neither blank nor comment."""
    return [line for line in path.read_text().splitlines() if line and not line.startswith("#")]


def wrapped(text, indent=""):
    """A paragraph in lines of at most 120 characters."""
    return textwrap.fill(text, 120, subsequent_indent=indent, break_long_words=False, break_on_hyphens=False)


class Page:
    """The page, made from the sources."""

    def __init__(self, sources):
        self.sources = sources
        self.crates = {line.split()[0].rstrip(":"): line.partition(":")[2].split() for line in lines_of(TOP / "crates.txt")}
        self.rows = list(self.rows_of_readme())
        self.meanings = [re.split(r"\s{2,}", line, maxsplit=1) for line in lines_of(WORDS)]
        self.counted = {}  # the title of a part -> what it rests on
        self.told = set()  # the definitions and the roots that stand on the page so far
        self.headed = set()  # the files that stand on the page so far

    def rows_of_readme(self):
        """What the rows of README's table rest on."""
        table = (TOP / "README.md").read_text().partition("\n| Crate |")[2].partition("\n\n")[0]
        for row in table.splitlines()[2:]:
            crates, _, calls = (re.findall(r"`([^`]+)`", cell) for cell in row.split("|")[1:4])
            if calls:
                yield Part(", ".join(f"`{crate}`" for crate in crates), list(self.roots_of(crates, calls)), ROWS.get(crates[0], 0))

    def roots_of(self, crates, calls):
        """The roots that the calls of a row name. A name alone may be a method of the type that was named last, and a method of a
        trait is a part of the trait."""
        owner = ""
        for call in calls:
            owner = call.split("::")[0] if "::" in call else owner
            names = [f"{crate}::{name}" for name in (f"{owner}::{call}", call, owner) for crate in crates]
            yield next(filter(self.is_root, names), names[0])

    def is_root(self, root):
        """Whether the sources have such a function or trait."""
        crate, _, name = root.partition("::")
        key = self.sources.type_key(crate, name)
        return (crate, name) in self.sources.functions or (key is not None and self.sources.definitions[key].kind == "trait")

    def parts(self):
        """All that is counted."""
        return [*HEADLINE, *CALLS, *COMMANDS, *self.rows]

    def cited(self, part):
        """What a part rests on."""
        if part.title not in self.counted:
            cited = self.counted[part.title] = Cited(self.sources)
            for root in part.roots:
                cited.add_root(root)
        return self.counted[part.title]

    def text(self):
        """The whole page."""
        self.told, self.headed = set(), set()
        headline = [*map(self.section, HEADLINE), *self.words()]
        return "\n\n".join([INTRODUCTION, *self.counts(), *headline, self.trusted()]) + "\n"

    def counts(self):
        """How many definitions and lines the parts have."""
        yield "\n".join(self.table("The headline", HEADLINE))
        one_by_one, threads = (f"{self.cited(part).lines:,}" for part in CALLS)
        *commands, _, together = (self.cited(part).lines for part in COMMANDS)
        yield wrapped(BESIDE.format(one_by_one, threads, f"{min(commands):,}", f"{max(commands):,}", f"{together:,}"))

    def table(self, title, parts):
        """A table of parts with what was counted."""
        yield f"| {title} | Definitions | Lines | At most |"
        yield "|---|---|---|---|"
        for part in parts:
            cited = self.cited(part)
            yield f"| {part.title} | {len(cited.keys):,} | {cited.lines:,} | {part.most:,} |"

    def shared_names(self):
        """The names that two of the headline's definitions have."""
        names = [key[-1] for key in self.cited(WHOLE).keys]
        return sorted({name for name in names if names.count(name) > 1})

    def section(self, part):
        """The clauses of a part of the headline, and the definitions that they cite and no part before does."""
        cited = self.cited(part)
        new = [key for key in [*part.roots, *cited.keys] if key not in self.told]
        self.told.update(new)
        roots = [root for root in part.roots if root in new]
        new = [key for key in cited.keys if key in new]
        pieces = [f"## {part.title}", *map(self.clauses, roots)]
        return "\n\n".join([*pieces, *(self.of_file(file, keys) for file, keys in self.in_files(cited, new))])

    def clauses(self, root):
        """The signature of a root and its clauses."""
        function, clauses = self.sources.contract(root)
        code = textwrap.dedent("\n".join([bare_line(function.signature), *clauses]))
        said = self.said_of_names([("\n".join(clauses), function.scope)])
        return wrapped(f"`{root.partition('[')[0]}`, {linked(function.file)}. {said}") + f"\n```rust\n{code}\n```"

    def said_of_names(self, texts):
        """What the names in these texts stand for that are others elsewhere."""
        renamed = {}
        for text, scope in texts:
            renamed.update(Cited(self.sources).renamed(text, scope))
        listed = ", ".join(f"`{name}` is {self.named(path)}" for name, path in sorted(renamed.items()))
        return f"Here {listed}." if listed else ""

    def named(self, path):
        """The thing at a path, by its own name and its crate's."""
        crate, names = path[1], path[3:]
        if names[-1] == "TheVariants":
            return f"`{names[-2]}` of `{crate}`"
        if (crate, names) in self.sources.modules:
            return f"`{crate}/specs/{'/'.join(names)}.antt`"
        return f"`{names[-1]}` of `{crate}`"

    def in_files(self, cited, keys):
        """The definitions in runs of one file, so that each stands after those that it cites. A file comes next whose definitions
        can all stand there, if there is one."""
        needs = {key: set(cited.needs(key)) & set(keys[:at]) for at, key in enumerate(keys)}
        files = {}
        for key in sorted(keys, key=lambda key: list(self.crates).index(key[0])):
            files.setdefault(self.sources.definitions[key].file, [])
        for key in keys:
            files[self.sources.definitions[key].file].append(key)
        while any(files.values()):
            left = {key for keys in files.values() for key in keys}
            runs = {file: run_of(keys, left, needs) for file, keys in files.items()}
            file = min(filter(runs.get, files), key=lambda file: len(runs[file]) < len(files[file]))
            yield file, runs[file]
            files[file] = [key for key in files[file] if key not in runs[file]]

    def of_file(self, file, keys):
        """Definitions of one file."""
        definitions = [self.sources.definitions[key] for key in keys]
        said = linked(file) + "."
        names = self.said_of_names(map(self.sources.meaning, definitions))
        language = "antt" if file.endswith(".antt") else "rust"
        code = "".join(map(self.shown, definitions)).strip("\n")
        text = wrapped(" ".join(filter(None, [said, names, self.plain_words(file)]))) + f"\n```{language}\n{code}\n```"
        self.headed.add(file)
        return text

    def plain_words(self, file):
        """Where docs/definitions.md says what a crate's definitions mean and what their source is, at the first of its files."""
        folder = file.rpartition("/")[0]
        if not folder.endswith("/specs") or any(other.startswith(folder) for other in self.headed):
            return ""
        headings = re.findall(r"(?m)^## (.+)$", (TOP / "docs" / "definitions.md").read_text())
        anchors = [anchor_of(heading) for heading in headings if f"`{folder.split('/')[1]}`" in heading]
        return f"[In plain words](definitions.md#{anchors[0]})." if anchors else ""

    def shown(self, definition):
        """A definition under its comment, or under a blank line where it has none."""
        text = [bare_line(line.rstrip()) for line in self.sources.shown_text(definition) if line.strip()]
        comment = definition.comment
        if definition.file.endswith(".rt"):
            comment = list(itertools.takewhile(lambda line: line.strip() != "///", comment))
            if definition.name in WITH_PARTS:
                text = joined(text)
            elif self.sources.value_at(definition) is None:
                if any(line.lstrip().startswith("//") for line in text):
                    comment = textwrap.wrap(first_sentence(comment), 120, initial_indent="/// ", subsequent_indent="/// ")
                text = in_few_lines(line for line in text if not line.lstrip().startswith("//"))
        return "\n".join([*(comment or [""]), *text, ""])

    def words(self):
        """The kit's words that the headline's definitions use."""
        yield NOTATION
        groups = ((", ".join(f"`{word}`" for word in words.split()), meaning) for words, meaning in self.meanings)
        yield "\n".join(wrapped(f"- {words}: {meaning}", "  ") for words, meaning in groups)

    def words_used(self):
        """The names of the kit that the headline's definitions use."""
        return {name_of_word(path) for path in self.cited(WHOLE).words}

    def listed(self, word):
        """The counts of all parts; or, of those with a word in their title, the names too."""
        tables = (("The headline", HEADLINE), ("The program's own calls", CALLS), ("A command", COMMANDS),
                  ("A row of README's table", self.rows))
        if word is None:
            return ["\n".join([*self.table(title, parts), ""]) for title, parts in tables]
        return [self.with_names(part) for part in self.parts() if word in re.findall(r"[\w-]+", part.title)]

    def with_names(self, part):
        """The count of a part, and the names of its definitions."""
        cited = self.cited(part)
        head = f"{part.title}: {len(cited.keys):,} definitions, {cited.lines:,} lines"
        return "\n".join([head, *self.names(cited.keys), ""])

    def names(self, keys):
        """The names of definitions, after each file that has some."""
        files = {}
        for key in keys:
            files.setdefault(self.sources.definitions[key].file, []).append(key[-1])
        for file, names in sorted(files.items()):
            yield wrapped(f"  {file}: {', '.join(names)}", "    ")

    def trusted(self):
        """What else is trusted."""
        libraries = {name for used in self.crates.values() for name in used} - set(self.crates) - {"core", "std_alloc"}
        listed = ", ".join(f"`{name}`" for name in ["std", *sorted(libraries)])
        return "\n".join(refilled(TRUSTED.format(libraries=listed)))


def anchor_of(heading):
    """The anchor of a heading."""
    return re.sub(r"[^\w\- ]", "", heading.lower()).replace(" ", "-")


def run_of(keys, left, needs):
    """Those of a file's definitions that can stand next, where those that are left don't stand yet."""
    run = []
    for key in keys:
        if not needs[key] & left - set(run):
            run.append(key)
    return run


def bare_line(line):
    """A line without the words that say who may use a name and how the prover treats it."""
    return re.sub(r"^(\s*)(?:(?:abbrev|unfoldable|opaque|pub(?:\([a-z]+\))?) )+", r"\1", line)


def joined(lines):
    """The lines of a type of Rust, where a variant with its fields is one line."""
    return re.sub(r"(?m)^(    \w+) \{\n((?:        \w.*\n)+)    \},$", one_line, "\n".join(lines)).split("\n")


def one_line(variant):
    """A variant with its fields, found in several lines, as one."""
    return f"{variant[1]} {{ {' '.join(variant[2].split()).rstrip(',')} }},"


def in_few_lines(lines):
    """The lines of a type of Rust in as few as there can be, where a field or a variant isn't parted."""
    text = re.sub(r",? ([})])", lambda end: " " + end[1], " ".join(map(str.strip, lines)))
    text = re.sub(r"(?<=[ {])\w+ \{[^{}]*\},?(?= )|\w+: [^ ]+", lambda part: part[0].replace(" ", "\xa0"), text)
    wrapped = textwrap.wrap(text, 120, subsequent_indent="    ", break_long_words=False, break_on_hyphens=False)
    return [line.replace("\xa0", " ") for line in wrapped]


def first_sentence(comment):
    """The first sentence of a comment."""
    return " ".join(line.strip().removeprefix("///").strip() for line in comment).partition(". ")[0].rstrip(".") + "."


def refilled(text):
    """The items of a list in lines of at most 120 characters; what stands before it stays."""
    before, *items = re.split(r"\n(?=- )", text)
    yield before
    for item in items:
        yield wrapped(" ".join(item.split()), "  ")


def name_of_word(path):
    """The name of one of the kit's words, as it is written between its arguments."""
    name = path.rpartition(".")[2]
    return name if name.startswith("if") else name.strip("◌")


class Checks:
    """How many checks passed, and how many failed."""

    def __init__(self):
        self.passed = self.failed = 0

    def count(self, holds, complaint):
        """Counts a check, and prints why it failed."""
        if holds:
            self.passed += 1
        else:
            self.failed += 1
            print(f"docs/believe.py: {complaint}")


def check_parts(page, checks):
    """Counts what each part rests on."""
    for part in page.parts():
        lines = page.cited(part).lines
        checks.count(lines <= part.most, f"{part.title}: rests on {lines} lines of definitions, and at most {part.most} are stated")


def check_by_hand(page, checks):
    """Compares the counts with those that were made by reading."""
    for root, (definitions, lines) in BY_HAND.items():
        cited = page.cited(Part(root, [root], 0))
        found = (len(cited.keys), cited.lines)
        checks.count(found == (definitions, lines), f"{root}: {found} definitions and lines, and by hand {(definitions, lines)}")


def check_words(page, checks):
    """Each of the kit's words that is used has its meaning, and no other; and each type whose parts have comments is there."""
    for word in sorted(page.words_used() ^ {word for words, _ in page.meanings for word in words.split()}):
        checks.count(False, f"docs/kit-words.txt: {word}: it has no meaning there, or isn't used")
    for name in sorted(WITH_PARTS - {key[-1] for key in page.cited(WHOLE).keys}):
        checks.count(False, f"docs/believe.py, WITH_PARTS: {name}: the headline rests on no such type")
    checks.count(True, "")


def check_names(page, checks):
    """Two things that the headline rests on have two names."""
    shared = ", ".join(page.shared_names())
    checks.count(not shared, f"two definitions of the headline have one name: {shared}")


def check_page(page, checks):
    """The page that is stored is the one that the sources make."""
    stored = PAGE.read_text() if PAGE.exists() else ""
    checks.count(stored == page.text(), "docs/believed.md isn't what the sources make; docs/believe.py writes it")


def main(words):
    """Writes the page, lists what parts rest on, or checks the page."""
    if words not in ([], ["--check"]) and (words[:1] != ["--list"] or len(words) > 2):
        sys.exit("usage: docs/believe.py [--check | --list [WORD]]")
    checks = Checks()
    try:
        page = Page(Sources(TOP))
        if not words:
            PAGE.write_text(page.text())
            return 0
        if words[0] == "--list":
            found = page.listed(*(words[1:] or [None]))
            print(*found or [f"no part has the word {words[1]} in its title\n"], sep="\n", end="")
            return 0 if found else 1
        for check in (check_parts, check_by_hand, check_words, check_names, check_page):
            check(page, checks)
    except Unknown as why:
        checks.count(False, str(why))
    print(f"{checks.passed} passed, {checks.failed} failed")
    return 1 if checks.failed else 0


if __name__ == "__main__":
    sys.exit(main(sys.argv[1:]))
