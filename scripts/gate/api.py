"""docs/API.md: every public item that console_reporter offers, declared as in the sources, by the module that offers
it. The page begins with the items that most programs use."""

import collections
import itertools
import re
import textwrap

from gate.offered import CRATES, HAS_BODY, Module, first_sentence, offered, passed_on
from norigully import TOP

REPORTER = Module("console_reporter", CRATES / "console_reporter/src/lib.rt")
PRELUDE = Module("console_reporter::prelude", CRATES / "console_reporter/src/prelude.rt")
WIDTH = 110
# The items that most programs use, what each is for, and what its functions and fields take.
MOST_USED: tuple[tuple[str, str, list[str]], ...] = (
    ("TextBuffer", "gathers the text of the report, and writes it to a file or a pipe", ["WriteStr"]),
    (
        "DisplayReporterBuilder",
        "how the report looks; makes the reporter",
        ["Surroundings", "DisplayConfig", "StatusLevel", "FinalStatusLevel", "TestOutputDisplay"],
    ),
    ("DisplayReporter", "gets the events, writes their texts", ["ConsoleReporter"]),
    ("TestEvent", "what happens in the run", ["TestCounts", "SkipCounts", "Nanos"]),
    ("OwnedTestInstanceId", "the names of a binary and a test", ["TestInstanceId", "ProfileName", "Name"]),
    ("ExecuteStatus", "one attempt of a test", ["ExecutionResultDescription", "RetryData", "LiveSpec"]),
    ("ExecutionStatuses", "all attempts of a test", ["FlakyResult"]),
    ("ChildOutputDescription", "what a test wrote", []),
    ("RunStats", "the counts of the run", []),
    ("ReportError", "every fault, for `?` and `main`", ["WriteEventError", "RunFault"]),
)

HEAD = """# What a program can call

The public items of `console_reporter`, with those of other crates that it passes on. Each is declared as in its
source, and has the first sentence of its comment. Below a function are its clauses: the names of those that have one,
as in `ensures writer, store`, and what the others say, or `{..}` for more than a line. [PROOF](PROOF.md#how-to-read-it)
explains the signs. The rest is in the source, whose file is named above.

[USING.md](USING.md) says how to begin. `scripts/check-docs --write` makes this page, and `./test` fails where it is
not up to date.

## The ten items that most programs use

"""
EXAMPLE = """
All of these but {beyond} come with `use console_reporter::prelude::*;`. So do `Bytes` and `Uuid`, of the crates
`bytes` and `uuid`. `Global`, `File` and `HostRuntime` are of Rattle's std: there, a call that allocates takes an
allocator, and a call that reaches the system takes the runtime. [`examples/report.rs`](../examples/report.rs) is a
whole program:

"""


def of_reporter():
    """The items that console_reporter offers, each once: of its module rather than the prelude. Hidden ones, which are
    public only for crates of this repository, are left out."""
    found = {}
    for it in offered(REPORTER):
        if "#[doc(hidden)]" in it.attributes:
            continue
        if it not in found or found[it].module == PRELUDE:
            found[it] = it
    return [*found.values()]


def comment_lines(sentence, indent=""):
    start = f"{indent}/// "
    return textwrap.wrap(sentence, WIDTH, initial_indent=start, subsequent_indent=start, break_on_hyphens=False)


def visible(lines, is_struct):
    """The lines in the body of a type, each comment as its first sentence. Of a struct only public fields."""
    entry, is_hidden = [], False
    for line in lines:
        entry.append(line)
        if is_struct and not line.startswith("    //") and line.endswith(","):
            is_private = not any(it.startswith("    pub ") for it in entry)
            is_hidden |= is_private
            yield from () if is_private else shortened(entry)
            entry = []
    yield from () if is_struct else shortened(entry)
    if is_hidden:
        yield "    // Others are private."


def shortened(lines):
    """Lines of code with the first sentence of each comment, and without empty lines and what only a prover reads."""
    for is_comment, group in itertools.groupby(lines, lambda it: it.lstrip().startswith("///")):
        group = [*group]
        if is_comment:
            indent = group[0].partition("/")[0]
            yield from comment_lines(first_sentence([it.strip()[3:].strip() for it in group]), indent)
        else:
            yield from (it for it in group if it.strip() and not it.lstrip().startswith(("//", "ghost ", "#[error")))


def type_lines(item):
    """A type as its source declares it, with its traits."""
    head, *body = item.declaration.split("\n")
    yield from comment_lines(item.comment)
    yield from (it for it in item.attributes if it.startswith("#[derive"))
    if item.kind == "trait":
        yield head
    elif not body or item.kind not in HAS_BODY:
        yield from [re.sub(r"\((?!pub )(?!.*\bpub ).*\);$", "(/* private */);", head), *body]
    else:
        shown = [*visible(body[:-1], item.kind == "struct")]
        yield from [f"{head} /* private */ }}"] if len(shown) < 2 else [head, *shown, body[-1]]
    yield from traits_of(item)


def traits_of(item):
    """The heads of the impls of traits for a type in its file."""
    for head in re.findall(rf"^(impl[^{{;]*? for {item.path}\b[^{{;]*?)\s*\{{", item.file.read_text(), re.M):
        yield f"{' '.join(head.split())} {{ .. }}"


def function_lines(item):
    """A function as its source declares it, with its clauses: the names of some, and what the others say."""
    indent = "    " if item.head else ""
    yield from comment_lines(item.comment, indent)
    yield from item.declaration.split("\n")[:-1]
    shown = [item.declaration.split("\n")[-1]]
    for (kind, is_named), group in itertools.groupby(item.clauses, lambda it: (it[0], bool(it[1]))):
        said = [name or (f"{{ {text} }}" if text else "{..}") for _, name, text in group]
        shown += (f"{indent}    {kind} {it}" for it in ([", ".join(said)] if is_named else said))
    yield from (*shown[:-1], f"{shown[-1]};")


def block(items):
    """Items of one file as Rust's lines: types, functions, and methods in their impls."""
    lines = []
    for head, group in itertools.groupby(items, lambda it: it.head):
        group = [*group]
        is_trait = head.startswith("pub trait ")
        lines += [] if not head or is_trait else ["", f"{head} {{"]
        for place, it in enumerate(group):
            lines += [""] if place or not head else []
            lines += type_lines(it) if it.kind != "fn" else function_lines(it)
        lines += ["}"] if head else []
    return "```rust,ignore\n" + "\n".join(lines).strip("\n") + "\n```\n"


def link(file):
    name = file.relative_to(CRATES).as_posix()
    return f"[`{name}`](../crates/{name})"


def blocks(items):
    """Items by the files that declare them."""
    for file, group in itertools.groupby(items, lambda it: it.file):
        yield f"\n{link(file)}\n\n{block(group)}"


def with_methods(items, name):
    """An item and its methods."""
    return [it for it in items if it.path.partition("::")[0] == name]


def first_page(items):
    rows = ["| Item | What it is for | With |\n|---|---|---|\n"]
    rows += (f"| [`{name}`](#{name.lower()}) | {use} | {quoted(others)} |\n" for name, use, others in MOST_USED)
    program = (TOP / "examples/report.rs").read_text()
    beyond = [it for name, _, others in MOST_USED for it in (name, *others) if it not in names_of_prelude()]
    parts = [*rows, EXAMPLE.format(beyond=quoted(beyond)), f"```rust,ignore\n{program}```\n"]
    for name, use, others in MOST_USED:
        parts.append(f"\n### {name}\n\n{use[0].upper()}{use[1:]}.\n")
        parts += blocks([it for of in (name, *others) for it in with_methods(items, of)])
    return "".join(parts)


def quoted(names):
    return ", ".join(f"`{it}`" for it in names)


def purpose(module):
    """What a module is for, as its first sentence says."""
    lines = itertools.takewhile(lambda it: it.startswith("//!"), module.file.read_text().split("\n"))
    return first_sentence([it[3:].strip() for it in lines])


def section(module, items, places):
    """A module's items, but for those that are on the first page, which has them in these places."""
    names = dict.fromkeys(it.path.partition("::")[0] for it in items)
    here = [it for it in items if it.path.partition("::")[0] not in places]
    above = ", ".join(f"[`{it}`](#{places[it]})" for it in names if it in places)
    parts = [f"\n## {module.path}\n\n{purpose(module)}\n", *([f"\nAbove: {above}.\n"] if above else [])]
    return "".join([*parts, *blocks(sorted(here, key=lambda it: it.file))])


def names_of_prelude():
    return sorted({it for _, names in passed_on(PRELUDE.file) for it in names.values()})


def prelude():
    names = textwrap.fill(quoted(names_of_prelude()), WIDTH)
    return f"\n## {PRELUDE.path}\n\n{purpose(PRELUDE)}\n\n{names}\n"


def page():
    items = of_reporter()
    by_module = collections.defaultdict(list)
    places = {it: name.lower() for name, _, others in MOST_USED for it in (name, *others)}
    for it in items:
        by_module[it.module].append(it)
    modules = sorted(by_module, key=lambda it: it.path)
    contents = (f"- [{it.path}](#{it.path.replace('::', '')}): {purpose(it)}\n" for it in [PRELUDE, *modules])
    sections = (section(it, by_module[it], places) for it in modules)
    return "".join([HEAD, first_page(items), "\n## All modules\n\n", *contents, prelude(), *sections])


def not_on_first_page(program):
    """What the first part of the page lacks: items that it is said to have, and words of a program that the rest of the
    page declares. The first part must be enough to write the program."""
    named = {it for name, _, others in MOST_USED for it in (name, *others)} - {it.path for it in of_reporter()}
    first, _, rest = page().partition("\n## All modules\n")
    code = re.sub(r'"(?:[^"\\]|\\.)*"|//.*', "", program.read_text())
    items = r"^ *(?:pub )?(?:const )?(?:fn|struct|enum|trait|type|const) (\w+)|^ *pub (\w+):"
    declared = re.findall(items, rest, re.M)
    own = set(re.findall(r"\bfn (\w+)", code))
    used, shown = (set(re.findall(r"\w+", it)) - own for it in (code, first))
    return sorted(named | used & {function or field for function, field in declared} - shown)
