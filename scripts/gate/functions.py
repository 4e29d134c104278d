"""The functions in a crate's text, as `rt fmt` lays them out: where each begins, where its body is, and what it is
a method of. For scripts/check-mistakes, which changes, copies and empties them, and for what the crates above read."""

import re

FUNCTION = re.compile(r"^( *)(?:pub(?:\([^)]*\))? )?(const )?(unsafe )?(extern \"C\" )?fn (\w+)", re.M)
OWNER = re.compile(r"^(?:pub(?:\([^)]*\))? )?(?:unsafe )?(?:impl|trait)\b([^{]*)\{", re.M)
TRAIT = re.compile(r"(?:pub(?:\([^)]*\))? )?(?:unsafe )?trait\b")
# A line that is empty or a comment, by the mark of a comment; else a string, a character or the end of a line, so that
# none of these begins one.
COMMENTS = r"""^[ \t]*(?:{mark}[^\n]*)?\n|"(?:\\[\s\S]|[^"\\])*"|'(?:\\[\s\S][^']*|[^'\\])'|{mark}[^\n]*"""
# A derive of this library and a macro may read all that is in their file, and a comment in brackets may be anywhere.
READ_WHOLE = re.compile(r"\bmacro_rules!|\bthiserror\b|/\*|\{-|\br#*\"")
# The files of a function's proof, which no other file names.
OF_A_PROOF = ("Answers.antt", "Invariants.antt", "Proof.antt")


class Function:
    """A function with a body: its name, the place of its `fn` line, of the attributes and comments above it, and of
    what is in its body."""

    def __init__(self, found, above, body, end):
        self.indent, self.name = found[1], found[5]
        self.is_plain = not (found[2] or found[3] or found[4])
        self.above, self.start, self.body, self.end = above, found.start(), body, end

    def past(self):
        """The place behind its last line."""
        return self.end + len(self.indent) + len("}\n")


def functions(text):
    """The functions of a file that have a body of at least a line."""
    lines, places = text.split("\n"), [0]
    for line in lines:
        places.append(places[-1] + len(line) + 1)
    for found in FUNCTION.finditer(text):
        indent, first = found[1], text.count("\n", 0, found.start())
        body = next((at for at in range(first, len(lines)) if begins_or_ends(lines[at], indent)), len(lines) - 1)
        if not lines[body].endswith(" {") and lines[body] != indent + "{":
            continue
        last = next((at for at in range(body + 1, len(lines)) if lines[at] == indent + "}"), None)
        if last is not None:
            yield Function(found, places[first_above(lines, first, indent)], places[body + 1], places[last])


def begins_or_ends(line, indent):
    """Whether a function's body begins behind this line, or the function ends there without one."""
    is_own = line.startswith(indent) and not line[len(indent) :].startswith(" ")
    is_head = is_own and line.endswith(" {")
    return is_head or line in (indent + "{", indent + "{}", indent + "};") or line.endswith(";")


def first_above(lines, first, indent):
    """The first of the lines right above a function that belong to it."""
    while first and lines[first - 1].startswith((indent + "//", indent + "#[", indent + ")]")):
        first -= 1
        while lines[first] == indent + ")]" or lines[first].startswith(indent + "    "):
            first -= 1
    return first


def owner_of(head):
    """The name by which rattle calls the impl or trait with this head: the type's, followed by that of its trait and of
    what the trait is of, as in OutOfMemoryFromAllocError."""
    head, depth = head.replace("->", "").partition(" where ")[0].strip(), 0
    if head.startswith("<"):
        for place, c in enumerate(head):
            depth += (c == "<") - (c == ">")
            if depth == 0:
                head = head[place + 1 :]
                break
    names = []
    for place, part in enumerate(reversed(head.split(" for "))):
        found = re.match(r"[\s&]*(?:\w+::)*(\w+)(?:<(?:\w+::)*(\w+))?", part)
        name, of = found.groups() if found else ("?", "")
        names.append(name + (of or "") if place else name)
    return "".join(names)


def head_above(text, place):
    """The head of the impl or trait that a method is in."""
    heads = [it[1] for it in OWNER.finditer(text) if it.start() < place]
    return heads[-1] if heads else ""


def name_at(text, end, path):
    """The name by which rattle calls the function that a place lies in: its module, its impl or trait, and its own.
    None where there is no function before it."""
    modules = [it for it in path.removeprefix("src/").removesuffix(".rt").split("/") if it not in ("lib", "main")]
    found = [it for it in FUNCTION.finditer(text) if it.start() < end]
    if not found:
        return None
    indent, name = found[-1][1], found[-1][5]
    head = head_above(text, found[-1].start()) if indent else ""
    return "::".join([*modules, *([owner_of(head)] if head else []), name])


def emptied(text, is_emptied):
    """The text without the bodies of those functions of which this holds, asked with the function and the place in its
    body."""
    for it in reversed([*functions(text)]):
        if it.is_plain and is_emptied(text, it):
            text = f"{text[: it.body]}{it.indent}    unreachable!()\n{text[it.end :]}"
    return text


def without_comments(text, mark):
    """The text without the lines that are empty or a comment."""
    return re.sub(COMMENTS.format(mark=mark), lambda it: "" if it[0].endswith("\n") else it[0], text, flags=re.M)


def has_own_body(text, it):
    """Whether nothing but the function itself has this body: an `impl` in another crate takes that of a trait's method
    over, and functions in a cycle are proved together."""
    owners = [found[0] for found in OWNER.finditer(text, 0, it.start)] if it.indent else []
    is_of_trait = owners and TRAIT.match(owners[-1])
    return not is_of_trait and "#[cycle" not in text[it.above : it.start]


def read_above(path, text):
    """What the crates above read of a file of this crate: what it declares, contracts, definitions and lemmas, and no
    comment, body or proof of a function. In doubt it is all of the file. None if it is nothing."""
    if path.endswith(OF_A_PROOF):
        return None
    if READ_WHOLE.search(text):
        return text
    if path.endswith(".antt"):
        return without_comments(text, "--")
    return without_comments(emptied(text, has_own_body), "//")
