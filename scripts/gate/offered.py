"""What a library offers to its callers, as its sources say: its public items with those that it passes on of other
crates."""

import re
from dataclasses import dataclass, field
from pathlib import Path

from norigully import TOP

CRATES = TOP / "crates"
ITEM = re.compile(
    r"^( *)(?:pub )?(?:const )?(fn|struct|enum|trait|type|const) (\w+)(.*?)(?:;|^ *\{\}? *|\{)$", re.M | re.S
)
FUNCTION = re.compile(
    r"^ *(?:pub(?:\(\w+\))? )?fn (\w+)((?:(?!^ *(?:pub(?:\(\w+\))? )?fn ).)*?)^ *\{\}? *$", re.M | re.S
)
IMPL = re.compile(r"^impl(?:<[^{]*?>)? (?:[\w:]+(?:<.*?>)? for )?(\w+)", re.M)
OWNER = re.compile(
    r"^(?:impl(?:<[^{]*?>)? (?P<of>[\w:]+(?:<.*?>)? for )?(?P<type>\w+)|pub trait (?P<trait>\w+))[^{]*?(?= *\{)", re.M
)
# A clause: its kind, its name if it has one, and what it says where that is on one line.
CLAUSE = re.compile(r"^ *(ensures|requires) (?:(\w+) )?\{(?: (.*?) \}$)?", re.M)
USE = re.compile(r"^pub use ((?:\w+::)*)(?:\{(.*?)\}|(\w+(?: as \w+)?));", re.M | re.S)
HAS_BODY = ("struct", "enum", "trait")


@dataclass(frozen=True)
class Module:
    """A module: the path by which a caller names it, and its file."""

    path: str
    file: Path


@dataclass(frozen=True)
class Item:
    """A public item: its path in its module, its kind, where it is declared, the first sentence of its comment, and its
    clauses, each by CLAUSE. Also its declaration as in the source, without comment and clauses, the attributes above
    it, the head of the `impl` that it is in, and the module that offers it."""

    path: str
    kind: str
    file: Path
    comment: str
    clauses: tuple
    declaration: str
    attributes: tuple
    head: str
    module: Module = field(compare=False)

    def has_condition(self):
        return any(self.conditions())

    def conditions(self):
        """What it requires of its callers, each by its name and what it says."""
        return [(name, said) for kind, name, said in self.clauses if kind == "requires"]


def items_of(file, names, module):
    """The public items that a file declares. Where names are given, only these, and the methods of types so named."""
    text = file.read_text()
    for found in ITEM.finditer(text):
        indent, kind, name, rest = found.groups()
        is_public, owner = "pub " in found[0].split(kind)[0], None
        if indent:
            owner = next(reversed([*OWNER.finditer(text, 0, found.start())]), None)
            if len(indent) != 4 or not owner or owner["of"] or kind != "fn" or not (is_public or owner["trait"]):
                continue
        elif not is_public:
            continue
        of = owner and (owner["type"] or owner["trait"])
        if names is None or (of or name) in names:
            clauses = tuple(it.groups("") for it in CLAUSE.finditer(rest))
            comment, attributes = above(text[: found.start()])
            head, path = owner[0] if owner else "", f"{of}::{name}" if of else name
            declared = declaration(text, found)
            yield Item(path, kind, file, first_sentence(comment), clauses, declared, attributes, head, module)


def declaration(text, found):
    """A declaration as in its file: of a function its head without clauses, else all of it."""
    kind, name, rest = found.groups()[1:]
    if kind == "fn":
        return re.split(r"\n *(?:ensures|requires|ghost) ", found[0])[0].removesuffix(";").removesuffix("{").rstrip()
    is_whole = kind not in HAS_BODY or not found[0].endswith("{")
    return found[0] if is_whole else text[found.start() : text.index("\n}\n", found.start()) + 2]


def above(text):
    """The comment at the end of a text, in front of an item, by lines, and the attributes there."""
    comment, attributes = [], []
    for line in reversed(text.rstrip("\n").split("\n")):
        line = line.strip()
        if line.startswith("///"):
            comment.insert(0, line[3:].strip())
        elif line.startswith("#["):
            attributes.insert(0, line)
        elif not line.startswith(")]"):
            break
    return comment, tuple(attributes)


def first_sentence(comment):
    """The first sentence of a comment, without the targets of its links, which are those of rustdoc."""
    paragraph = " ".join(comment).partition("```")[0] if "" not in comment else " ".join(comment[: comment.index("")])
    return re.sub(r"\[(`[^`]+`)\](?:\([^)]*\))?", r"\1", re.match(r".*?\.(?= |$)|.*", paragraph.strip())[0])


def passed_on(file):
    """What a module passes on: the parts of a path, and the names that it takes from there, with those that it gives
    them."""
    for path, several, one in USE.findall(file.read_text()):
        pairs = (it.split(" as ") for it in map(str.strip, (several or one).split(",")) if it)
        yield path.split("::")[:-1], {it[0]: it[-1] for it in pairs}


def module_in(file, name):
    """The file of a module that another one declares or passes on, or None."""
    own = (file.parent if file.name == "lib.rt" else file.with_suffix("")) / f"{name}.rt"
    if own.is_file():
        return own
    sources = (module_at(file, path) for path, names in passed_on(file) if name in names)
    return next((found for it in sources if it and (found := module_in(it, name))), None)


def module_at(file, path):
    """The file of the module that a path names from another one, or None where that is none of this repository."""
    first, *rest = path or ["self"]
    roots = {"self": file, "crate": CRATES / file.relative_to(CRATES).parts[0] / "src/lib.rt"}
    found = roots.get(first) or module_in(file, first) or CRATES / first / "src/lib.rt"
    for part in rest:
        found = found and found.is_file() and module_in(found, part)
    return found if found and found.is_file() else None


def within(module, name, file):
    return Module(f"{module.path}::{name}", file)


def offered(module, file=None, names=None):
    """The items that a module offers, from its own file or another: those that this declares, and those that it passes
    on. Where names are given, only these, and the methods of types so named."""
    file = file or module.file
    yield from items_of(file, names, module)
    for name in re.findall(r"^pub mod (\w+);", file.read_text(), re.M) if names is None else ():
        yield from offered(within(module, name, module_in(file, name)))
    for path, passed in passed_on(file):
        passed = {it: name for it, name in sorted(passed.items()) if names is None or it in names}
        source = module_at(file, path)
        if not path and all((CRATES / it / "src/lib.rt").is_file() for it in passed):
            for crate, name in passed.items():
                yield from offered(within(module, name, CRATES / crate / "src/lib.rt"))
        elif source and source != file:
            for it, name in passed.items():
                found = module_in(source, it)
                yield from offered(within(module, name, found)) if found else offered(module, source, {it})
