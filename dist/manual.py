#!/usr/bin/env python3
"""Makes the manual page and the shells' completions from the program's own help, and what words mean from
docs/messages.md.

    dist/manual.py PROGRAM           writes them into dist/share
    dist/manual.py --check PROGRAM   compares those of dist/share with what the program's help gives, looks for warnings of mandoc
                                     and groff about the page, and lets bash, zsh and fish complete by them, where these are there

A line for each check; the last line is `N passed, M failed`, and the status is 1 where one failed."""
import pathlib
import re
import shutil
import subprocess
import sys
import tempfile
import textwrap

TOP = pathlib.Path(__file__).resolve().parent.parent
SHARE = TOP / "dist" / "share"
DATE = "2026-11-30"
PAGE = "man/man1/mkdemux.1"
BASH = "bash-completion/completions/mkdemux"
ZSH = "zsh/site-functions/_mkdemux"
FISH = "fish/vendor_completions.d/mkdemux.fish"
MADE = "Made by dist/manual.py from the program's help."
MESSAGES = TOP / "docs" / "messages.md"
WIDTH = 69  # of indented lines, on a page of 80 columns


class Help:
    """The help of a command, in parts."""

    def __init__(self, program, *words):
        said = subprocess.run([program, *words, "--help"], capture_output=True, text=True, check=True).stdout
        details, usage, rest = re.fullmatch(r"(.*?)\n\nUsage: (.*?)\n\n(.*)", said, re.S).groups()
        self.usage = usage
        self.details = details.split("\n\n")
        self.arguments = self.options = self.commands = ()
        while found := re.match(r"(Arguments|Options|Commands):\n(.*?)(?:\n\n(?=\S)|\n?\Z)", rest, re.S):
            setattr(self, found[1].lower(), list(terms_of(found[2])))
            rest = rest[found.end():]
        before = rest.partition("docs/messages.md has the meaning")[0]
        self.examples, _, self.status = before.strip("\n").partition("Exit status:")


def terms_of(text):
    """The terms of a list and what is said of each, which is on its line or below it."""
    for line in text.splitlines():
        if re.match(r" {2,6}\S", line):
            term, _, said = line.strip().partition("  ")
            yield [term, said.strip()]
            last = [term, said.strip()]
        elif line.strip():
            last = [last[0], (last[1] + " " + line.strip()).strip()]
            yield last


def joined(terms):
    """The terms, each with all that is said of it."""
    return list({term: said for term, said in terms}.items())


# The manual page


def roff(text):
    """A text as roff prints it, character by character."""
    text = text.replace("\\", "\\e").replace("-", "\\-").replace("^", "\\(ha").replace("~", "\\(ti").replace("'", "\\(aq")
    return re.sub(r"^([.'])", r"\\&\1", text.replace("`", "\\(ga"), flags=re.M)


def plain(text):
    """A paragraph, whose words between backquotes are bold."""
    parts = re.split(r"`([^`]*)`", re.sub(r"\s*\n\s*", " ", text.strip()))
    shown = "".join(f"\\fB{roff(part)}\\fR" if at % 2 else roff(part) for at, part in enumerate(parts))
    lines = textwrap.wrap(shown, 78, break_long_words=False, break_on_hyphens=False)
    return re.sub(r"^([.'])", r"\\&\1", "\n".join(lines), flags=re.M)


def literal(text):
    return [".PP", ".RS 4", ".nf", *(roff(line) or "\\&" for line in fitted(textwrap.dedent(text).splitlines())), ".fi", ".RE"]


def fitted(lines):
    """Lines of a list or of an example, each within the page's width."""
    fitting, is_command = [], False
    for line in rows_of(lines):
        is_command = line.startswith(("$ ", "# ")) or is_command and fitting[-1].endswith(("|", "\\"))
        fitting += command_parts(line) if is_command else row_parts(line)
    return fitting


def rows_of(lines):
    """The lines, but the rows of a list that are too long are joined with what is written below their second column."""
    rows = []
    for line in lines:
        column = len(line) - len(line.lstrip())
        if rows and column > 2 and column == second_column(rows[-1]) and max(len(rows[-1]), len(line)) > WIDTH:
            rows[-1] += " " + line.strip()
        else:
            rows.append(line)
    return rows


def second_column(line):
    """Where the text of a row begins, or where the line does."""
    return re.match(r" *(?:\S+(?: \S+)*  +)?", line).end()


def row_parts(line):
    """A row in lines that fit: its text stays in its column."""
    column = second_column(line)
    indent = " " * (column or 2)
    wrapped = textwrap.wrap(line[column:], WIDTH - column, break_long_words=False, break_on_hyphens=False) or [""]
    return [line[:column] + wrapped[0], *(indent + part for part in wrapped[1:])] if len(line) > WIDTH else [line]


def command_parts(line):
    """A command in lines that fit: each but the last ends with a backslash."""
    parts = []
    while len(line) > WIDTH:
        quote, cut = "", 0
        for place, character in enumerate(line[: WIDTH - 1]):
            if character in "'\"" and quote in ("", character):
                quote = "" if quote else character
            if character == " " and not quote and line[:place].strip(" $#") and line[place - 1] not in "<>":
                cut = place
        if cut == 0:
            break
        parts.append(line[:cut] + " \\")
        line = "      " + line[cut:].strip()
    return [*parts, line]


def paragraphs(texts):
    """Paragraphs: those that are indented stay as they are."""
    lines = []
    for text in texts:
        if not text.strip():
            continue
        indented = [line.startswith("    ") for line in text.splitlines() if line]
        if all(indented):
            lines += literal(text)
            continue
        first = [line for line in text.splitlines() if not line.startswith("    ")]
        lines += [".PP", plain("\n".join(first))]
        if any(indented):
            lines += literal("\n".join(line for line in text.splitlines() if line.startswith("    ")))
    return lines


def tagged(terms):
    lines = []
    for term, said in terms:
        lines += [".TP", f"\\fB{roff(term)}\\fR", plain(said)]
    return lines


def meanings():
    """Each form in which a word is printed, and what it means, as docs/messages.md says."""
    for section in re.split(r"^### ", MESSAGES.read_text(encoding="utf-8"), flags=re.M)[1:]:
        text = re.sub(r"^```.*?^```$", "", section.partition("\n## ")[0], flags=re.M | re.S)
        for paragraph in text.split("\n\n")[1:]:
            said = re.sub(r"\[([^\]]*)\]\([^)]*\)", r"\1", " ".join(paragraph.split()).partition(" *")[0])
            if found := re.match(r"((?:`[^`]*`(?:, | and )?)+): (.*)", said):
                yield found[1], found[2]


def tagged_forms(terms):
    """As `tagged`, of terms between backquotes."""
    return [line for term, said in terms for line in (".TP", plain(term), plain(said))]


def section(name, lines, macro=".SH"):
    """A section, which begins with no paragraph macro of its own."""
    return [f"{macro} {name}", *(lines[1:] if lines[:1] == [".PP"] else lines)]


def page_of(top, helps, version):
    lines = [f'.\\" {MADE}', f'.TH MKDEMUX 1 {DATE} "mkdemux {version}" "User Commands"']
    lines += section("NAME", [plain(f"mkdemux - {top.details[0][0].lower()}{top.details[0][1:]}")])
    usages = ["\\fBmkdemux " + roff(help.usage.removeprefix("mkdemux ")) + "\\fR" for help in helps.values()]
    lines += section("SYNOPSIS", [line for usage in usages for line in (usage, ".br")][:-1])
    lines += section("DESCRIPTION", paragraphs([
        top.details[0] + ".",
        "Each command reads the FILE that is named after its words, or standard input, and writes standard output; `sim` "
        "and `run` read a script from standard input, and then each FILE. A filter is verified before it runs, and no "
        "other file is opened.",
    ]))
    lines += [".SH COMMANDS"]
    for name, help in helps.items():
        told = paragraphs(help.details)
        told += tagged(joined(help.arguments)) + tagged(joined(help.options))
        lines += section(f'"mkdemux {name}"', told, ".SS")
    lines += section("EXIT STATUS", tagged(text.split("  ", 1) for text in re.split(r"\n  (?=\d)", "\n" + top.status.strip("\n").split("\n\n")[0])[1:]))
    lines += section("DIAGNOSTICS", paragraphs([
        "What a command prints where it refuses something, or where something can't be done. "
        "docs/messages.md has the usual cause of each, the cure and an example.",
    ]))
    lines += tagged_forms(meanings())
    lines += [".SH EXAMPLES"]
    examples = []
    for help in helps.values():
        examples += paragraphs(re.sub(r"^Example: (.)", lambda found: found[1].upper(), text)
                               for text in help.examples.strip("\n").split("\n\n"))
    lines += examples[1:]
    lines += section("FILES", [
        *paragraphs(["The program has no configuration and writes no file. With it, under the prefix where it was installed:"]),
        *tagged([
            ("share/man/man1/mkdemux.1", "this page"),
            ("share/" + BASH, "completions for bash"),
            ("share/" + ZSH, "completions for zsh"),
            ("share/" + FISH, "completions for fish"),
            ("share/doc/mkdemux", "the pages and examples"),
            ("include, lib, lib/pkgconfig, share/cmake/mkdemux", "the C libraries, where they were installed"),
        ]),
    ])
    lines += section("SEE ALSO", [".BR dot (1),", ".BR tcpdump (8),", ".BR pcap\\-filter (7),", ".BR pcap\\-savefile (5)"])
    return "\n".join(lines) + "\n"


# Completions


def flags_of(help):
    """Each flag, alone, with the name of its value, if it takes one, and what is said of it."""
    for term, said in joined(help.options):
        flags, _, value = term.partition(" <")
        for flag in flags.split(", "):
            yield flag, value.rstrip(">"), said


def takes_files(help):
    return any("FILE" in term for term, _ in joined(help.arguments))


def bash_of(top, helps):
    arms = [f"    {name}) words='{' '.join(flag for flag, *_ in flags_of(help))}' ;;" for name, help in helps.items()]
    names = " ".join(term for term, _ in joined(top.commands))
    files = "|".join(name for name, help in helps.items() if takes_files(help))
    return f"""# bash completion for mkdemux. {MADE}
_mkdemux() {{
    local current=${{COMP_WORDS[COMP_CWORD]}} command= word words=
    COMPREPLY=()
    for word in "${{COMP_WORDS[@]:1:COMP_CWORD-1}}"; do
        [[ $word = -* ]] || {{ command=$word; break; }}
    done
    case $command in
    '') words='{names} {' '.join(flag for flag, *_ in flags_of(top))}' ;;
    help) words='{' '.join(helps)}' ;;
{chr(10).join(arms)}
    esac
    if [[ $current != -* && $command = @({files}) ]]; then
        compopt -o filenames 2> /dev/null
        mapfile -t COMPREPLY < <(compgen -f -- "$current")
    else
        mapfile -t COMPREPLY < <(compgen -W "$words" -- "$current")
    fi
}}
complete -F _mkdemux mkdemux
"""


def zsh_text(text):
    return text.replace("'", "'\\''").replace("[", "\\[").replace("]", "\\]").replace(":", "\\:")


def zsh_of(top, helps):
    commands = "\n".join(f"    '{term}:{zsh_text(said)}'" for term, said in joined(top.commands))
    arms = []
    for name, help in helps.items():
        words = [f"'{flag}[{zsh_text(said)}]{f':{value}: ' if value else ''}'" for flag, value, said in flags_of(help)]
        first = joined(help.arguments)[0][0] if help.arguments else ""
        if first.startswith("<"):
            words.append(f"'1:{first.strip('<>')}: '")
        if takes_files(help):
            words.append("'*:FILE:_files'")
        arms.append(f"        {name}) _arguments {(' ' + chr(92) + chr(10) + '            ').join(words)} ;;")
    top_flags = [f"'(- *){flag}[{zsh_text(said)}]'" for flag, _, said in flags_of(top)]
    return f"""#compdef mkdemux
# zsh completion for mkdemux. {MADE}
_mkdemux() {{
    local curcontext=$curcontext state line
    local -a commands
    typeset -A opt_args
    commands=(
{commands}
    )
    _arguments -C {' '.join(top_flags)} '1:command:->command' '*::argument:->argument'
    case $state in
    command) _describe command commands ;;
    argument)
        case $words[1] in
        help) _values command {' '.join(helps)} ;;
{chr(10).join(arms)}
        esac
        ;;
    esac
}}
if [[ $funcstack[1] = _mkdemux ]]; then
    _mkdemux "$@"
else
    compdef _mkdemux mkdemux
fi
"""


def fish_text(text):
    return text.replace("\\", "\\\\").replace("'", "\\'")


def fish_of(top, helps):
    lines = [f"# fish completion for mkdemux. {MADE}", "complete -c mkdemux -f"]
    for term, said in joined(top.commands):
        lines.append(f"complete -c mkdemux -n __fish_use_subcommand -a {term} -d '{fish_text(said)}'")
    for name, help in [("", top), *helps.items()]:
        where = f"'__fish_seen_subcommand_from {name}'" if name else "__fish_use_subcommand"
        for term, said in joined(help.options):
            words, _, value = term.partition(" <")
            flags = " ".join(("-l " + flag[2:]) if flag.startswith("--") else ("-s " + flag[1:]) for flag in words.split(", "))
            flags += " -x" if value else ""
            lines.append(f"complete -c mkdemux -n {where} {flags} -d '{fish_text(said)}'")
        if takes_files(help):
            lines.append(f"complete -c mkdemux -n {where} -F")
    lines.append(f"complete -c mkdemux -n '__fish_seen_subcommand_from help' -a '{' '.join(helps)}'")
    return "\n".join(lines) + "\n"


def texts_of(program):
    """What dist/share is to have, by the name of the file."""
    top = Help(program)
    helps = {term: Help(program, term) for term, _ in joined(top.commands) if term != "help"}
    version = subprocess.run([program, "--version"], capture_output=True, text=True, check=True).stdout.split()[1]
    return {PAGE: page_of(top, helps, version), BASH: bash_of(top, helps), ZSH: zsh_of(top, helps), FISH: fish_of(top, helps)}


# The checks


def said(*command, **more):
    """What a command prints, on standard error too."""
    ran = subprocess.run(command, stdout=subprocess.PIPE, stderr=subprocess.STDOUT, text=True, cwd=TOP, **more)
    return ran.stdout if ran.returncode == 0 else f"status {ran.returncode}\n{ran.stdout}"


FITS = 'groff -man -Tutf8 -rLL=80n -P-cbou "$0" | sed -n "/.\\{81\\}/p"'
BASH_ASKS = 'source "$0"; COMP_WORDS=("$@"); COMP_CWORD=$(($# - 1)); _mkdemux; printf "%s\\n" "${COMPREPLY[@]}"'
ZSH_ASKS = 'fpath=("$0" $fpath); autoload -Uz compinit && compinit -D -u && print $_comps[mkdemux] && autoload +X _mkdemux && functions _mkdemux | grep -c -- --pcap'
FISH_ASKS = "source $argv[1]; complete -C $argv[2] | string replace -r '\\t.*' ''; or true"


def checks():
    """Each check that can be made here: its name, the command that it needs, what it says and what it must say."""
    page, bash, zsh, fish = (str(SHARE / name) for name in (PAGE, BASH, ZSH, FISH))
    words = ["match", "--p"], ["sim", "examples/frames.p"], ["keep", "1,6 0 0 1", "examples/frames.p"], ["dr"]
    wanted = "--pcap\n", "examples/frames.pcap\n", "examples/frames.pcap\n", "draw\n"
    yield "the page by mandoc -T lint", "mandoc", ["mandoc", "-T", "lint", page], ""
    yield "the page by groff -ww", "groff", ["groff", "-ww", "-man", "-Tutf8", "-z", page], ""
    yield "the page within 80 columns", "groff", ["sh", "-c", FITS, page], ""
    for asked, answer in zip(words, wanted):
        yield f"bash, {' '.join(asked)}", "bash", ["bash", "-c", BASH_ASKS, bash, "mkdemux", *asked], answer
        yield f"fish, {' '.join(asked)}", "fish", ["fish", "-N", "-c", FISH_ASKS, fish, " ".join(["mkdemux", *asked])], answer
    yield "zsh", "zsh", ["zsh", "-f", "-c", ZSH_ASKS, str(pathlib.Path(zsh).parent)], "_mkdemux\n1\n"


def check(program):
    passed = failed = 0

    def count(name, is_good, shown=""):
        nonlocal passed, failed
        passed, failed = passed + is_good, failed + (not is_good)
        print(f"manual {name}: {'as it must be' if is_good else 'FAILED'}")
        if not is_good:
            print(shown)

    for name, text in texts_of(program).items():
        path = SHARE / name
        count(name, path.is_file() and path.read_text(encoding="utf-8") == text, "dist/manual.py PROGRAM makes it again")
    for name, command, words, wanted in checks():
        if shutil.which(command) is None:
            print(f"skipped: {name}: {command} isn't there")
            continue
        with tempfile.TemporaryDirectory() as home:
            shown = said(*words, env={"HOME": home, "PATH": "/usr/local/bin:/usr/bin:/bin", "LC_ALL": "C.UTF-8"})
        count(name, shown == wanted, shown)
    print(f"{passed} passed, {failed} failed")
    return 1 if failed else 0


def main(words):
    if words[:1] == ["--check"] and len(words) == 2:
        return check(pathlib.Path(words[1]).resolve())
    if len(words) != 1 or words[0].startswith("-"):
        sys.exit(__doc__)
    for name, text in texts_of(pathlib.Path(words[0]).resolve()).items():
        path = SHARE / name
        path.parent.mkdir(parents=True, exist_ok=True)
        path.write_text(text, encoding="utf-8")
        print(path.relative_to(TOP))
    return 0


sys.exit(main(sys.argv[1:]))
