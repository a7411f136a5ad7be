"""What checks and tools read of this repository: its crates, and in them functions, contracts, imports, definitions and edits.

Files of Rattle are read by regular expressions, which is enough for code as `rt fmt` formats it.
"""

import pathlib
import re
from typing import Dict, Iterator, List, NamedTuple, Optional, Set, Tuple

ROOT = pathlib.Path(__file__).resolve().parent.parent
CRATES = ROOT / "crates"
TABLE = ROOT / "crates.txt"
NOT_PRODUCT = ("tests_", "benches")


# Crates

Rows = Dict[str, List[str]]


def name_in_row(line: str) -> str:
    """The crate of a line of crates.txt, or nothing."""
    name, colon, _ = line.partition(":")
    return name.split()[0] if colon and not line.startswith("#") else ""


def rows_of_crates(table: pathlib.Path = TABLE) -> Rows:
    """What each crate uses, as crates.txt has it: lowest first, libraries of the kit as well."""
    lines = table.read_text().splitlines()
    return {name_in_row(line): line.partition(":")[2].split() for line in lines if name_in_row(line)}


class Group(NamedTuple):
    """A group of crates.txt: what it does, and its crates, lowest first."""

    name: str
    purpose: str
    crates: List[str]


GROUP = re.compile(r"# (\w+): (.+)")


def groups_of_crates(table: pathlib.Path = TABLE) -> List[Group]:
    """The groups, lowest first. A line '# NAME: what it does' begins one; crates above the first have no name and no purpose."""
    groups: List[Group] = []
    for line in table.read_text().splitlines():
        heading = GROUP.fullmatch(line)
        if heading:
            groups.append(Group(heading[1], heading[2], []))
        elif name_in_row(line):
            groups = groups or [Group("", "", [])]
            groups[-1].crates.append(name_in_row(line))
    return groups


def of_this_repository(rows: Rows) -> Rows:
    """The rows without the libraries of the kit."""
    return {name: [library for library in libraries if library in rows] for name, libraries in rows.items()}


def below(rows: Rows, names: List[str]) -> Set[str]:
    """All libraries below these crates."""
    found: Set[str] = set()
    todo = list(names)
    while todo:
        new = set(rows.get(todo.pop(), [])) - found
        found |= new
        todo += new
    return found


def is_product(crate: str) -> bool:
    """Whether a crate is a library or a program of the product: neither tests nor benchmarks."""
    return not crate.startswith(NOT_PRODUCT)


def below_crates(path: pathlib.Path) -> str:
    """A file as it is named below crates/."""
    return str(path.relative_to(CRATES))


def crate_of(path: pathlib.Path) -> str:
    return path.relative_to(CRATES).parts[0]


def sources(crate: str = "*") -> List[pathlib.Path]:
    return sorted(CRATES.glob(f"{crate}/src/**/*.rt"))


def product_sources() -> List[pathlib.Path]:
    return [path for path in sources() if is_product(crate_of(path))]


def logic_files(crate: str = "*", parts: Tuple[str, ...] = ("specs", "proofs")) -> List[pathlib.Path]:
    """The files of specs/ and proofs/."""
    return sorted(path for part in parts for path in CRATES.glob(f"{crate}/{part}/**/*.antt"))


def module_of(path: pathlib.Path) -> str:
    """The module of a file of specs/ or proofs/: `specs.Limits`."""
    return ".".join(path.relative_to(CRATES).with_suffix("").parts[1:])


# Lines

def is_comment(line: str) -> bool:
    return line.lstrip().startswith(("//", "--"))


def lines_of_code(path: pathlib.Path) -> List[Tuple[int, str]]:
    """The lines of a file that are neither blank nor a comment, each with its number."""
    lines = enumerate(path.read_text(encoding="utf-8").splitlines(), 1)
    return [(number, line) for number, line in lines if line.strip() and not is_comment(line)]


def behind_closing(text: str, start: int, braces: str = "{}") -> int:
    """The place behind the brace that closes the one at `start`."""
    depth = 0
    for place in range(start, len(text)):
        depth += {braces[0]: 1, braces[1]: -1}.get(text[place], 0)
        if depth == 0:
            return place + 1
    return len(text)


def enclosed(text: str, start: int) -> str:
    """The text from the brace at `start` to the one that closes it."""
    return text[start:behind_closing(text, start)]


# Functions

FUNCTION = re.compile(r"^( *)(?:pub(?:\([^)]*\))? )?(?:const )?fn (\w+)", re.MULTILINE)
OWNER = re.compile(r"^(?:pub )?(?:impl\b(?:<[^{]*?>)? ?(?:[\w:]+(?:<[^{]*?>)? for )?(\w+)|trait (\w+))", re.MULTILINE)
CLAUSE = re.compile(r"\b(requires|ensures) (\w*) ?\{")


class Function(NamedTuple):
    """A function of a crate: the type or trait that it is in, its contract, and the names of its clauses."""

    crate: str
    owner: str
    name: str
    is_public: bool
    contract: str
    clauses: Set[str]


def contract_of(text: str, head: "re.Match[str]") -> str:
    """What is between the name of a function and its body, or its semicolon."""
    end = re.compile(rf"^{head[1]}\{{|;\n\s*\n|;\n{head[1][4:]}\}}|(?<!record) \{{\n", re.MULTILINE).search(text, head.end())
    return text[head.end() : end.start() if end else len(text)]


def functions_of(crate: str, text: str) -> List[Function]:
    owners = [(found.start(), found[1] or found[2]) for found in OWNER.finditer(text)]
    found = []
    for head in FUNCTION.finditer(text):
        owner = [name for start, name in owners if start < head.start()][-1:] if head[1] else [""]
        contract = contract_of(text, head)
        clauses = {name for _, name in CLAUSE.findall(contract) if name}
        found.append(Function(crate, owner[0] if owner else "", head[2], head[0].lstrip().startswith("pub fn"), contract, clauses))
    return found


def ensured(contract: str) -> Iterator[Tuple[str, str]]:
    """The clauses that a contract ensures: each with its name, or none, and its text in braces."""
    for clause in CLAUSE.finditer(contract):
        if clause[1] == "ensures":
            yield clause[2], enclosed(contract, clause.end() - 1)


# Imports

IMPORT = re.compile(r"\buse Rattle\.(\w+)\.((?:specs|proofs)[\w.]*?)(?:\.\{([^}]*)\}| as (\w+))")
CITED = re.compile(r"\b(\w+)::((?:specs|proofs)(?:::\w+)*)::([^\s:,()]+)")

Key = Tuple[str, str, str]  # crate, module, name


class Imports(NamedTuple):
    """What a file imports: names, as it calls them, and modules that it names as a whole."""

    names: Dict[str, Key]
    modules: List[Tuple[str, str]]


def listed_imports(text: str) -> Iterator[Tuple[str, Key]]:
    """Each name that is imported: what the file calls it, and what it is."""
    for crate, module, listed, _ in IMPORT.findall(text):
        for name in filter(None, (part.strip() for part in listed.split(","))):
            theirs, _, ours = name.partition(" as ")
            yield ours or theirs, (crate, module, theirs)


def imports_of(text: str) -> Imports:
    return Imports(dict(listed_imports(text)), [(crate, module) for crate, module, _, alias in IMPORT.findall(text) if alias])


def cited_in(text: str) -> Iterator[Key]:
    """What attributes of functions name: `using(std::proofs::lemmas::List::length_map)`."""
    for crate, module, name in CITED.findall(text):
        yield crate, module.replace("::", "."), name


# Definitions and lemmas

# The head of a declaration, or of a line that goes on with it.
HEAD = re.compile(r"(?:(?:pub|unfoldable|abbrev|record|data|def|rec) )*(?P<name>[^\s(){}:]+)")
NO_HEAD = re.compile(r"--|use |pub use |mod |pub mod |module |syntax |infix[lr]? |[\s)}\]]|$")
SPEC_HEAD = re.compile(r"(?:unfoldable pub|unfoldable|abbrev|pub record|record|pub data|data|pub|def|syntax)\b(?: pub)?(?: rec)? ([^\s:]+)")
SPEC_NEXT = re.compile(r"abbrev|unfoldable|pub |record|data|def|use |--|syntax")
CONSTRUCTOR = re.compile(r"^ +(?:pub )?([A-Z]\w*) :", re.MULTILINE)
TOKEN = re.compile(r"[^\s(){};,.\[\]λ→×]+")
FIELD = re.compile(r"(?<=[\w)'])\.\w+")
INDENT = "  "


class Definition(NamedTuple):
    """A definition of specs/: its file below crates/, its first line, with the comment above it, and its text."""

    file: str
    first: int
    text: str

    @property
    def lines(self) -> int:
        return self.text.count("\n") + 1


def constructors_of(text: str) -> List[str]:
    """The constructors that the text of a `data` declares."""
    return CONSTRUCTOR.findall(text) if re.match(r"(?:pub )?data ", text) else []


def definitions(lines: List[str], file: str) -> Dict[str, Definition]:
    """The definitions of a file of specs/, with the comments above them; a constructor is that of its type."""
    found = {}
    at = 0
    while at < len(lines):
        head = None if lines[at].startswith(("pub mod", "pub use")) else SPEC_HEAD.match(lines[at])
        if not head:
            at += 1
            continue
        first, end = at, at + 1
        while first and lines[first - 1].startswith("--"):
            first -= 1
        while end < len(lines) and not SPEC_NEXT.match(lines[end]):
            end += 1
        own = Definition(file, first + 1, "\n".join(lines[first:end]).rstrip())
        found.update((name, own) for name in [head.group(1), *constructors_of("\n".join(lines[at:end]))])
        at = end
    return found


def declarations(text: str) -> List[Tuple[str, int, str]]:
    """Each name that a file of specs/ or proofs/ declares, with its first line and its text, without comments.

    Lines that begin with one name are of one declaration. What a `module .. where` declares is indented, and has the heads
    of the modules around it in its text.
    """
    found: List[Tuple[str, int, List[str]]] = []
    before: List[str] = []
    modules: List[List[str]] = []
    for number, line in enumerate(text.split("\n"), 1):
        if modules and "where" not in modules[-1][-1]:
            modules[-1].append(line)
            continue
        if line.lstrip().startswith("--"):
            continue
        if line.strip():
            modules = modules[: (len(line) - len(line.lstrip())) // len(INDENT)]
        own = line[len(INDENT) * len(modules):]
        if own.startswith("module "):
            modules.append([own])
        elif own.startswith("unfolding "):
            before.append(own)
        elif NO_HEAD.match(own):
            if found and (own.startswith((" ", ")", "}", "]")) or not own):
                found[-1][2].append(own)
        else:
            name = HEAD.match(own)["name"]
            if not found or found[-1][0] != name:
                found.append((name, number, [head for module in modules for head in module] + before))
            found[-1][2].append(own)
            before = []
    return [(name, number, "\n".join(lines)) for name, number, lines in found]


def tokens_of(text: str) -> Set[str]:
    """The words of a text, without comments and without names of fields."""
    lines = [line for line in text.split("\n") if not line.lstrip().startswith("--")]
    return set(TOKEN.findall(FIELD.sub("", "\n".join(lines))))


def at_home(key: Key, declared: Dict[Key, Definition], imports: Dict[Tuple[str, str], Dict[str, Key]]) -> Key:
    """The key of the declaration itself, if a module only passes it on."""
    seen = set()
    while key not in declared and key not in seen and key[2] in imports.get(key[:2], {}):
        seen.add(key)
        key = imports[key[:2]][key[2]]
    return key


# Edits

class Edit(NamedTuple):
    """An edit, and the crate that it changes."""

    path: pathlib.Path
    crate: str


class CannotApply(ValueError):
    """Why an edit does not fit the code."""


def edits_of_attacks() -> List[Edit]:
    return [Edit(path, path.parent.name) for path in sorted(ROOT.glob("attacks/*/*.edit"))]


def edits_of_must_fail() -> List[Edit]:
    return [Edit(path, path.parents[1].name) for path in sorted(CRATES.glob("*/must-fail/*.edit"))]


class Change(NamedTuple):
    """A pair of an edit: the file, the text that it has, and the one that it gets."""

    file: str
    old: str
    new: str


def changes_of(edit: pathlib.Path) -> List[Change]:
    """The pairs of an edit: lines 'file: PATH', each before pairs of lines 'old: TEXT' and 'new: TEXT'. A line of comment begins with '#'."""
    changes = []
    file = ""
    old: Optional[str] = None
    for line in edit.read_text().splitlines():
        if line.startswith("#"):
            continue
        key, _, value = line.partition(":")
        value = value[1:]
        if key == "file":
            file = value.strip()
        elif key == "old":
            old = value
        elif key == "new" and file and old:
            changes.append(Change(file, old, value))
            old = None
        else:
            raise CannotApply(f"a line is no part of an edit: {line}")
    if old is not None:
        raise CannotApply("an old text has no new one")
    return changes


def edited_texts(edit: pathlib.Path, folder: pathlib.Path) -> Dict[str, str]:
    """The files that an edit changes in the folder of its crate, as it leaves them."""
    texts: Dict[str, str] = {}
    for file, old, new in changes_of(edit):
        if file not in texts:
            if not (folder / file).is_file():
                raise CannotApply(f"there is no file {file}")
            texts[file] = (folder / file).read_text()
        found = texts[file].count(old)
        if found != 1:
            raise CannotApply(f"an old text is {found} times in {file}: {old.strip()}")
        texts[file] = texts[file].replace(old, new)
    return texts
