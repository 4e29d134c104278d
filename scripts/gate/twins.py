"""Whether twins have the form of their mistakes: a line `right:` has as many tokens as the `new:` above it, and no name
that this loses. mistakes/other_forms.txt lists those of which that cannot be, below the reason."""

import re

from norigully import TOP

OTHER_FORMS = TOP / "mistakes/other_forms.txt"
# How many are listed. There may only be fewer.
LISTED = 160
TOKEN = re.compile(r'b?"(?:[^"\\]|\\.)*"|b?\'(?:[^\'\\]|\\.)\'|\w+|[-=<>&|]{2}|::|\.\.=?|[!<>+*/%-]=|\S')
NAME = re.compile(r"[A-Za-z_]\w*")


def edits_of(text):
    """Each `old:` of a mistake with its `new:` and its `right:`, or None where it has no twin."""
    edits = []
    for kind, _, rest in (line.partition(":") for line in text.splitlines()):
        if kind == "old":
            edits.append([rest, "", None])
        elif kind in ("new", "right"):
            edits[-1][1 if kind == "new" else 2] = rest
    return edits


def is_of_one_form(old, new, right):
    """Whether the twin has the form of the mistake, or the mistake that of what was there, where it has no twin."""
    old, new, twin = (TOKEN.findall(it) for it in (old, new, old if right is None else right))
    lost = {it for it in old if NAME.fullmatch(it)} - {*new}
    return len(twin) == len(new) and (right is None or not lost & {*twin})


def listed():
    """The mistakes whose twins have another form. A line that is no name is the reason of those below it."""
    return [it for it in OTHER_FORMS.read_text().splitlines() if "/" in it]


def wrong(edits, names, most=LISTED):
    """What is wrong with the twins of these mistakes, each a name and a text, where these names are listed."""
    others = {name for name, text in edits if not all(is_of_one_form(*it) for it in edits_of(text))}
    for name in sorted(others - {*names}):
        yield f"{name}: its form is another one, and it has no `right:` of that form"
    for name in sorted({*names} - others):
        yield f"{OTHER_FORMS.name}: {name} is gone, or of one form now"
    if len(names) != most:
        yield f"{OTHER_FORMS.name} has {len(names)} names, and not {most}"
