"""A report as plain text, as a page has it for a browser that runs no script."""

import collections
import html
import re

# Longer reports are left out in the middle, and longer lines at their end. On paper a long line takes several.
MOST, LONGEST, ON_PAPER = 20_000, 20_000, 100
# What a terminal does not show: escape sequences, and control characters but for tabs and line feeds.
UNSEEN = re.compile(
    r"\x1b(?:\[[0-9;:]*[ -/]*[@-~]|\][^\x07\x1b]*(?:\x07|\x1b\\)?|[ -/]*[0-~])|[\x00-\x08\x0b-\x1f\x7f]"
)


def lines_of(report):
    """The lines of a file, without what a terminal does not show."""
    report.seek(0)
    for line in report:
        text = line.decode(errors="replace")
        if len(text) > LONGEST:
            text = f"{text[:LONGEST]} … and {len(text) - LONGEST} characters more"
        yield UNSEEN.sub("", text.removesuffix("\n"))


def cost(line):
    """How many lines it takes on paper."""
    return 1 + len(line) // ON_PAPER


def taken(lines, most):
    """The first of these lines, no more than that many on paper, and one line more where there is one."""
    for line in lines:
        most -= cost(line)
        yield line
        if most <= 0:
            return


def shortened(report):
    """The lines of a file; of a long one the first and the last, and between them how many are not there."""
    lines, most = lines_of(report), MOST // 2
    first = list(taken(lines, most))
    rest = collections.deque(maxlen=most)
    count = -sum(rest.append(it) is None for it in lines)
    last = list(taken(reversed(rest), most))[::-1]
    left = -count - len(last)
    return [*first, *([f"… {left:,} lines are not shown here …"] if left else []), *last]


def write_text(report, file):
    """Writes the report as text of HTML into a file. What follows the last line feed is a line only where it is
    something."""
    lines = shortened(report)
    with open(file, "wb") as text:
        for line in lines[:-1] if lines[-1] == "" else lines:
            text.write(html.escape(line, quote=False).encode() + b"\n")
