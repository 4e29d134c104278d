"""Links from one Markdown document to another file, or to a heading."""

import re
from urllib.parse import unquote

BLOCK = re.compile(r"^```.*?^```$", re.M | re.S)
LINK = re.compile(r"\]\((?!https?://)([^()\s#]*)(?:#([^()\s]*))?\)|(?:src|srcset)=\"(?!https?://)([^\"]+)\"")


def anchors_of(file):
    """The anchors of a document's headings, as GitHub names them."""
    found = []
    for heading in re.findall(r"^#{1,6} (.*)$", BLOCK.sub("", file.read_text()), re.M):
        text = re.sub(r"\[([^\]]*)\]\([^)]*\)", r"\1", heading)
        anchor = re.sub(r"[^\w\- ]", "", text.lower()).replace(" ", "-")
        found.append(f"{anchor}-{found.count(anchor)}" if anchor in found else anchor)
    return found


def links_of(file):
    """Each link of a document, and whether the file or the heading that it leads to is there."""
    text = BLOCK.sub("", file.read_text())
    for found in LINK.finditer(text):
        path, anchor = found[1] or found[3] or "", found[2]
        target = file.parent / unquote(path) if path else file
        is_there = target.exists() and not (anchor and target.suffix == ".md" and anchor not in anchors_of(target))
        yield (f"{path}#{anchor}" if anchor else path), is_there
