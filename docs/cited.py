"""The definitions that contracts cite, read off the sources: those of specs/, and the types and models of src/.

A clause cites a definition where it names it, or cites another one that does. A type with a model is seen as the value that its
model names, and as nothing else: its fields, its view and its invariant are the prover's affair."""
import collections
import pathlib
import re
from dataclasses import dataclass, field

NAME = r"[A-Za-z_][A-Za-z0-9_'-]*"
TOKEN = re.compile(rf"(?:\.(?=\S))?{NAME}(?:\.{NAME})*|ℕ|[^\s\w(){{}}.,;:]+")
STRING = re.compile(r'"(?:\\.|[^"\\])*"')
CHARACTER = re.compile(r"'(?:\\.|[^'\\])'")
SPEC_HEAD = re.compile(rf"(?:(?:abbrev|unfoldable|pub|opaque)\s+)*(?:(record|data)\s+({NAME})|({NAME}|◌\S+◌)\s*:(?!=))")
VARIANT = re.compile(rf"\s+(?:pub )?({NAME})\s*:")
VISIBLE = r"(?:pub(?:\([a-z]+\))? )?"
TYPE_HEAD = re.compile(rf"{VISIBLE}(struct|enum|trait|const|type|union) (\w+)")
IMPL_HEAD = re.compile(r"(?:unsafe )?impl(?:<.*?>)?\s+(?:(\w+)(?:<.*?>)? for )?(\w+)")
FUNCTION_HEAD = re.compile(rf'(\s*){VISIBLE}(?:const |unsafe |extern "C" )*fn (\w+)')
CLAUSE_HEAD = re.compile(r"\s*(requires|ensures)\b\s*(\w*)")
ROOT = re.compile(r"(\w+)::([\w:]+)(?:\[([\w,]*)\])?")


class Unknown(Exception):
    """A name that no source defines."""


@dataclass
class Scope:
    """What names mean in a piece of source."""

    crate: str
    imports: dict = field(default_factory=dict)  # name -> its path, and whether the path may be that of a module
    local: dict = field(default_factory=dict)  # name -> the key of a definition of the same file
    rust: dict = field(default_factory=dict)  # name of a type -> the crate and the name that it is imported from

    def within(self, imports):
        """The scope with more imports."""
        return Scope(self.crate, {**self.imports, **imports}, self.local, self.rust)


@dataclass
class Definition:
    """A definition, with the comment above it and its text as they stand in the source."""

    key: tuple  # crate, then "specs" with the modules' names or "src", then the name
    file: str
    comment: list
    text: list
    scope: Scope
    kind: str = "definition"

    @property
    def name(self):
        return self.key[-1]

    def bare(self):
        """The lines that count: without blanks and comments."""
        bare = (without_comment(line, self.file) for line in self.text)
        return [line for line in bare if line.strip()]


@dataclass
class Function:
    """The signature and the clauses of a function."""

    file: str
    signature: str
    clauses: list  # of kind, name and text
    scope: Scope
    owner: str  # the type whose method it is, or ""
    bounds: str  # the head of its impl


def without_comment(line, file):
    """A line of source without its comment."""
    if file.endswith(".antt"):
        return re.sub(r"\s*--( .*)?$", "", line)
    return "" if re.match(r"\s*//", line) else re.sub(r"\s+// .*$", "", line)


def imports_of(statement):
    """The names that a `use` of definitions brings, each with its path and whether that may be a module's."""
    found = re.match(r"\s*(?:pub |ghost )*use\s+([^\s;{]+?)(?:\.\{(.*)\})?(?:\s+as\s+(\w+))?\s*;?\s*$", statement, re.S)
    if not found:
        return {}
    path = tuple(found[1].split("."))
    if found[2] is None:
        return {found[3] or path[-1]: (path, True)}
    pairs = (re.split(r"\s+as\s+", name.strip()) for name in found[2].split(",") if name.strip())
    return {pair[-1]: (path + (pair[0],), False) for pair in pairs}


def joined_statement(lines, at, ends):
    """The statement that begins on a line, and the place of its last line."""
    statement = lines[at]
    while not ends(statement):
        at += 1
        statement += " " + lines[at].strip()
    return statement, at


def ghost_imports(lines, indent=r"\s+"):
    """What the `ghost use` statements among these lines bring."""
    imports = {}
    for at, line in enumerate(lines):
        if re.match(rf"{indent}ghost use ", line):
            imports.update(imports_of(joined_statement(lines, at, lambda text: text.rstrip().endswith(";"))[0]))
    return imports


def rust_imports(lines):
    """The types that `use` statements of Rust bring, each with its crate and its name there."""
    imports = {}
    for path in re.findall(rf"(?m)^\s*{VISIBLE}use ([^;]+);", "\n".join(lines)):
        front, _, names = re.sub(r"\s+", " ", path).rpartition("::")
        if "{" in path:
            front, _, names = re.sub(r"\s+", " ", path).partition("::{")
        for name in re.split(r",\s*", names.strip(" {},")):
            pair = name.strip(" {}").split("::")[-1].split(" as ")
            imports[pair[-1]] = (front.split("::")[0], pair[0])
    return imports


def comment_above(lines, at, marks):
    """The comment lines right above a line, without attributes."""
    top = at
    while top > 0 and lines[top - 1].strip().startswith(marks):
        top -= 1
    return [line for line in lines[top:at] if not line.strip().startswith("#[")]


def block_end(lines, at):
    """The last line of the item that begins on a line: where its braces are closed, or at its semicolon."""
    depth, opened = 0, False
    for place in range(at, len(lines)):
        line = CHARACTER.sub("", STRING.sub("", lines[place]))
        depth += line.count("{") - line.count("}")
        opened = opened or "{" in line
        if depth == 0 and (opened or line.rstrip().endswith(";")):
            return place
    return len(lines) - 1


def contract_end(lines, at, indent):
    """The line after the last of the function's contract that begins on a line."""
    if lines[at].rstrip().endswith(("{", "{}")):
        return at + 1
    for place in range(at + 1, len(lines)):
        line = lines[place]
        if line.startswith((indent + "{", indent + "}")):
            return place
        if line.startswith(indent + ")") and line.rstrip().endswith(("{", ";")):
            return place + 1
    return len(lines)


class Sources:
    """All definitions, types, models and contracts of the crates."""

    def __init__(self, top):
        self.top = pathlib.Path(top)
        self.crates = {path.name for path in self.top.glob("crates/*")}
        self.definitions = {}
        self.modules = {}  # crate and the modules' names -> the names of the file, each with its key
        self.models = {}  # crate and type -> the text of the model's value, and its scope
        self.functions = {}  # crate and name -> function
        self.passed_on = {}  # crate and type -> the crate whose type it passes on
        self.shared = {}  # crate and the modules' names -> the names that the file passes on, as a scope has imports
        for path in sorted(self.top.glob("crates/*/specs/**/*.antt")):
            self.read_specs(path)
        for path in sorted(self.top.glob("crates/*/src/**/*.rt")):
            self.read_code(path)

    def read_specs(self, path):
        """Reads the definitions of a file of specs/."""
        file = str(path.relative_to(self.top))
        crate, modules = file.split("/")[1], tuple(file.removesuffix(".antt").split("/")[3:])
        lines = path.read_text().split("\n")
        bare = [without_comment(line, file) for line in lines]
        scope = Scope(crate, {}, self.modules.setdefault((crate, modules), {}))
        heads, nested = [], False
        for at, line in enumerate(bare):
            if re.match(r"(pub )?(use|mod) ", line):
                brought = imports_of(joined_statement(bare, at, lambda text: text.count("{") == text.count("}"))[0])
                scope.imports.update(brought)
                if line.startswith("pub use "):
                    self.shared.setdefault((crate, modules), {}).update(brought)
            elif line.startswith("module "):
                nested = True
                heads.append((at, None))
            elif head := SPEC_HEAD.match(line.removeprefix("  ") if nested else line):
                nested = nested and line.startswith("  ")
                heads.append((at, head))
        for (at, head), (end, _) in zip(heads, heads[1:] + [(len(lines), None)]):
            if head:
                self.add_spec(file, lines, at, end, head, scope, (crate, "specs", modules))

    def add_spec(self, file, lines, at, end, head, scope, place):
        """Adds the definition that begins on a line and ends before another definition's comment."""
        while end > at + 1 and (not lines[end - 1].strip() or lines[end - 1].startswith(("--", "infix"))):
            end -= 1
        key = (*place, head[2] or head[3])
        self.definitions[key] = Definition(key, file, comment_above(lines, at, "--"), lines[at:end], scope, head[1] or "definition")
        scope.local[key[-1]] = key
        if head[1] == "data":
            for variant in filter(None, map(VARIANT.match, lines[at + 1:end])):
                scope.local.setdefault(variant[1], key)

    def read_code(self, path):
        """Reads the types, the models and the contracts of a file of src/."""
        file = str(path.relative_to(self.top))
        lines = path.read_text().split("\n")
        bare = [without_comment(line, file) for line in lines]
        crate = file.split("/")[1]
        scope = Scope(crate, ghost_imports(bare, indent=""), {}, rust_imports(bare))
        self.note_passed_on(crate, bare)
        at = 0
        while at < len(bare):
            end = at
            if head := TYPE_HEAD.match(bare[at]):
                end = block_end(bare, at)
                self.add_type(file, lines, at, end, head, scope)
            elif re.match(r"(unsafe )?impl\b", bare[at]):
                end = block_end(bare, at)
                self.read_impl(file, bare[at:end + 1], scope)
            elif FUNCTION_HEAD.match(bare[at]):
                self.add_function(file, bare, at, scope)
            at = end + 1

    def note_passed_on(self, crate, lines):
        """Notes which types a crate passes on from another one."""
        for other, names in re.findall(r"(?m)^pub use (\w+)::([^;]+);", "\n".join(lines)):
            if other in self.crates:
                for name in re.findall(r"\w+", names):
                    self.passed_on[crate, name] = other

    def add_type(self, file, lines, at, end, head, scope):
        """Adds a type, a trait or a constant."""
        text = []
        inside = scope.within(ghost_imports(lines[at:end + 1]))
        place = at
        while place <= end:
            if re.match(r"\s+ghost use ", lines[place]):
                place = joined_statement(lines, place, lambda text: text.rstrip().endswith(";"))[1]
            elif not re.match(r"\s*#\[", lines[place]):
                text.append(lines[place])
            place += 1
        key = (scope.crate, "src", head[2])
        self.definitions[key] = Definition(key, file, comment_above(lines, at, ("//", "#[")), text, inside, head[1])

    def read_impl(self, file, lines, scope):
        """Reads the value of a model, or what a trait is at a type, and the contracts of methods."""
        head, _ = joined_statement(lines, 0, lambda text: "{" in text)
        found = IMPL_HEAD.match(head)
        if not found:
            return
        inside = scope.within(ghost_imports(lines))
        if found[1] == "Model":
            self.models[scope.crate, found[2]] = (ghosts_of(lines, "Value"), inside)
            return
        if found[1] and (ghosts := ghosts_of(lines, r"\w+")):
            key = (scope.crate, "src", found[2] + found[1])
            self.definitions[key] = Definition(key, file, [], [head, *ghosts, "}"], inside, "impl")
        for at, line in enumerate(lines):
            method = FUNCTION_HEAD.match(line)
            if method and method[1] == "    ":
                self.add_function(file, lines, at, inside, found[2], head)

    def add_function(self, file, lines, at, scope, owner="", bounds=""):
        """Adds the contract of a function, but for a private one of the same name as another."""
        head = FUNCTION_HEAD.match(lines[at])
        name = f"{owner}::{head[2]}" if owner else head[2]
        if (scope.crate, name) in self.functions and not lines[at].lstrip().startswith("pub "):
            return
        signature, clauses = [], []
        for line in filter(str.strip, lines[at:contract_end(lines, at, head[1])]):
            if found := CLAUSE_HEAD.match(line):
                clauses.append([found[1], found[2], line])
            elif clauses:
                clauses[-1][2] += "\n" + line
            else:
                signature.append(line)
        self.functions[scope.crate, name] = Function(file, "\n".join(signature), clauses, scope, owner, bounds)

    def type_key(self, crate, name):
        """The key of a crate's type, or of that which it passes on, or None."""
        for place in (crate, self.passed_on.get((crate, name))):
            if (place, "src", name) in self.definitions:
                return (place, "src", name)
        return None

    def contract(self, root):
        """The function of a root and its clauses: those that it names, or all, and whatever the function requires."""
        crate, name, wanted = ROOT.fullmatch(root).groups()
        function = self.functions[crate, name]
        names = None if wanted is None else wanted.split(",")
        missing = set(names or []) - {name for kind, name, _ in function.clauses if kind == "ensures"}
        if missing:
            raise Unknown(f"{root}: there is no clause {', '.join(sorted(missing))}")
        return function, [text for kind, name, text in function.clauses if names is None or kind == "requires" or name in names]

    def shown_text(self, definition):
        """The text by which a reader knows the definition: of a type with a model its name and its value."""
        value = self.value_at(definition)
        if value is None:
            return definition.text
        return [definition.text[0].rstrip(" {(;"), *value[0]]

    def value_at(self, definition):
        """The value that the model of a struct names, with its scope, or None."""
        text, scope = self.models.get((definition.key[0], definition.name), (None, None))
        return (text, scope) if text and definition.kind == "struct" else None

    def meaning(self, definition):
        """The text that says what a definition means, with its scope."""
        text, scope = self.value_at(definition) or (definition.bare(), definition.scope)
        return "\n".join(text), scope

    def size(self, definition):
        """How many lines count: neither blank nor comment nor import."""
        value = self.value_at(definition)
        return len(definition.bare()) if value is None else 1 + len(value[0])


def ghosts_of(lines, name):
    """The lines of an impl that say what its ghosts of this name are."""
    ghosts = []
    for at, line in enumerate(lines):
        if re.match(rf"    ghost {name} = ", line):
            end = at
            while not lines[end].rstrip().endswith(";"):
                end += 1
            ghosts += lines[at:end + 1]
    return ghosts


def bound_names(text):
    """The names that a text binds: those of functions, of arguments and of `let`."""
    bound = set(re.findall(rf"\blet ({NAME})\s*=", text))
    for names in re.findall(r"λ\s*([^.]*?)\.\s", text):
        bound |= set(re.findall(rf"(?<![\w.]){NAME}", re.sub(r":[^)]*\)", "", names)))
    for names in re.findall(rf"[({{]((?:{NAME}\s+)*{NAME})\s*:", text):
        bound |= set(names.split())
    return bound


class Cited:
    """The definitions that some roots cite, each after those that it cites itself, and the kit's words that they use."""

    def __init__(self, sources):
        self.sources = sources
        self.keys = []
        self.seen = set()
        self.words = collections.Counter()

    @property
    def lines(self):
        """How many lines the definitions have."""
        return sum(self.sources.size(self.sources.definitions[key]) for key in self.keys)

    def add_root(self, root):
        """Adds what a root cites: `crate::function`, `crate::Type::function`, or either with `[clause,..]`; or `crate::Type`."""
        crate, name, _ = ROOT.fullmatch(root).groups()
        if (crate, name) in self.sources.functions:
            self.add_contract(*self.sources.contract(root))
        elif key := self.sources.type_key(crate, name):
            self.visit(key)
        else:
            raise Unknown(f"{root}: there is no such function or type")

    def add_contract(self, function, clauses):
        """Adds what the signature of a function and these of its clauses cite."""
        scope = function.scope
        cited = self.cited_by(function.signature + " " + function.bounds, Scope(scope.crate, rust=scope.rust))
        if function.owner and re.search(r"\bself\b", function.signature):
            cited.append(self.sources.type_key(scope.crate, function.owner))
        for text in clauses:
            cited += self.cited_by(text, scope)
        for key in filter(None, cited):
            self.visit(key)

    def visit(self, key):
        """Adds a definition, after those that it cites."""
        if key in self.seen:
            return
        self.seen.add(key)
        for other in self.needs(key):
            self.visit(other)
        self.keys.append(key)

    def needs(self, key):
        """The definitions that a definition cites itself."""
        return [other for other in self.cited_by(*self.sources.meaning(self.sources.definitions[key])) if other not in (None, key)]

    def cited_by(self, text, scope):
        """The keys of the definitions that stand in a text, in their order."""
        text = STRING.sub("", text)
        bound = bound_names(text)
        keys = []
        if "if◌then◌else◌" in scope.imports and re.search(r"\bif\b", text):
            self.resolve(*scope.imports["if◌then◌else◌"], [])
        for token in TOKEN.finditer(text):
            if token[0].startswith(".") or (token.start() and text[token.start() - 1] == "'"):
                continue
            keys.append(self.cited_name(token[0].split("."), scope, bound))
        return [key for key in keys if key]

    def renamed(self, text, scope):
        """The names in a text that its file gives to things which have another name elsewhere, each with the path."""
        words = {token[0].split(".")[0] for token in TOKEN.finditer(STRING.sub("", text))} - bound_names(text)
        return {word: path for word, (path, _) in scope.imports.items() if word in words and path[-1] != word}

    def cited_name(self, parts, scope, bound):
        """The key of the definition that a word stands for, or None."""
        name = parts[0]
        if not re.match(NAME, name) and name not in scope.imports:
            name = f"◌{name}◌"
        if name in scope.local and name not in bound:
            return scope.local[name]
        if name in scope.imports and not (name in bound and name[0].islower()):
            return self.resolve(*scope.imports[name], parts[1:2])
        if not scope.local and name[0].isupper():
            return self.rust_type(name, scope)
        return None

    def rust_type(self, name, scope):
        """The key of the type that a word of Rust names, or None."""
        crate, there = scope.rust.get(name, (scope.crate, name))
        if crate in ("std", "core"):
            return None
        return self.sources.type_key(crate, there) or self.sources.type_key(scope.crate, name)

    def resolve(self, path, may_be_module, rest):
        """The key of the definition that a path leads to; None for a word of the kit, which is counted."""
        crate = path[1] if path[0] == "Rattle" else path[0]
        if crate not in self.sources.crates:
            self.words[".".join((path[1:] if path[0] == "Rattle" else path) + tuple(rest if may_be_module else ()))] += 1
            return None
        names = path[3:]
        if rest and ((crate, names) in self.sources.modules or names[-1] in ("TheVariants", "TheConstants")):
            if (crate, "specs", names[:-1], names[-1]) not in self.sources.definitions:
                names += tuple(rest)
        if names[0] in ("declared", "contracts"):
            return self.made_of_code(crate, names[1:], path)
        key = self.sources.modules.get((crate, names[:-1]), {}).get(names[-1])
        shared = self.sources.shared.get((crate, names[:-1]), {})
        if key is None and names[-1] in shared:
            return self.resolve(*shared[names[-1]], rest)
        if key is None and (crate, names) not in self.sources.modules:
            raise Unknown(f"{'.'.join(path)}: there is no such definition")
        return key

    def made_of_code(self, crate, names, path):
        """The key of a type or a constant of the code, by the path of what the compiler makes of it or of one of its parts."""
        for name in reversed(names):
            if key := self.sources.type_key(crate, name):
                return key
        raise Unknown(f"{'.'.join(path)}: there is no such type")
