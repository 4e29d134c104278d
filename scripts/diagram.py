#!/usr/bin/env python3
"""Draws what is proved, tested and trusted, from events or a file to the device, as an SVG for light and dark.

    scripts/diagram.py > docs/diagram.svg

`scripts/check-docs` fails where that file is another picture. It needs Python 3 and nothing else.
"""

from norigully import print_help_if_asked

import html

WIDTH, HEIGHT, LINE = 900, 640, 19
TITLE = "What is proved, what is tested and what is trusted"
DESCRIPTION = (
    "A file or a program's events go to the reporter, a file through readers. The reporter's texts go through a "
    "TextBuffer to the operating system. Readers, reporter and TextBuffer are proved. The reporter is proved equal to "
    "definitions, which are tested against what nextest printed. The kit and the operating system are trusted."
)
# The kinds differ in the form of their line, too, so that no reader needs the colours.
STYLE = """
text { font-family: system-ui, -apple-system, "Segoe UI", Helvetica, Arial, sans-serif; font-size: 14px; fill: #1f2328 }
.head { font-weight: 600 }
.page { fill: #ffffff }
.arrow { fill: none; stroke: #59636e; stroke-width: 1.5 }
.tip { fill: #59636e }
.given { fill: #f6f8fa; stroke: #59636e; stroke-width: 1 }
.proved { fill: #dafbe1; stroke: #1a7f37; stroke-width: 2.5 }
.tested { fill: #ddf4ff; stroke: #0969da; stroke-width: 2; stroke-dasharray: 9 5 }
.trusted { fill: #fff8c5; stroke: #9a6700; stroke-width: 2; stroke-dasharray: 2 4 }
path.proved, path.tested { fill: none }
@media (prefers-color-scheme: dark) {
  text { fill: #e6edf3 }
  .page { fill: #0d1117 }
  .arrow { stroke: #9198a1 }
  .tip { fill: #9198a1 }
  .given { fill: #161b22; stroke: #9198a1 }
  .proved { fill: #12361f; stroke: #3fb950 }
  .tested { fill: #0c2d50; stroke: #58a6ff }
  .trusted { fill: #3a2d0a; stroke: #d29922 }
}
"""
# Where it is, its kind, its heading and what it says.
BOXES = [
    ((20, 20, 225, 80), "given", "A file", ("a scene or a recorded run,", "whatever bytes it has")),
    ((265, 20, 225, 80), "given", "Your program's events", ("of any tests, in any order,", "counts as you pass them")),
    ((20, 140, 225, 84), "proved", "Readers of scenes", ("the run that the file spells,", "or its first fault")),
    ((20, 264, 470, 84), "proved", "Reporter",
     ("writes the defined texts of all calls;", "on a fault, a prefix of them")),
    ((20, 388, 470, 84), "proved", "TextBuffer",
     ("hands on what it accepted, in order;", "after a flush nothing is pending")),
    ((20, 512, 470, 64), "trusted", "Operating system", ("file, pipe, terminal",)),
    ((555, 100, 325, 84), "tested", "nextest's reporter 0.129.0",
     ("what it printed for 600 scenes, over our", "levels, style codes and statistics")),
    ((555, 264, 325, 84), "given", "Definitions",
     ("each text, from the call, the configuration", "and the calls before it")),
    ((555, 450, 325, 84), "trusted", "The kit, and linked C code",
     ("checker, compiler, linker, library:", "every proof and program needs them")),
]  # fmt: skip
# Each goes straight down: its column, and from where to where.
ARROWS = [(132, 100, 140), (377, 100, 264), (132, 224, 264), (255, 348, 388), (255, 472, 512)]
# From, to, the kind of the line, what is written beside it, and where.
LINKS = [
    ((490, 306), (555, 306), "proved", "equal", (504, 296)),
    ((717, 184), (717, 264), "tested", "the same bytes", (729, 229)),
]
LEGEND = [("proved", "proved for all inputs"), ("tested", "tested"), ("trusted", "trusted"), ("given", "given")]


def written(place, text, is_head=False):
    kind = ' class="head"' if is_head else ""
    return f'<text x="{place[0]}" y="{place[1]}"{kind}>{html.escape(text)}</text>'


def box(place, kind, head, lines):
    x, y, width, height = place
    yield f'<rect x="{x}" y="{y}" width="{width}" height="{height}" rx="6" class="{kind}"/>'
    yield written((x + 14, y + 25), head, is_head=True)
    for number, line in enumerate(lines, 1):
        yield written((x + 14, y + 26 + LINE * number), line)


def arrow(x, top, bottom):
    yield f'<path d="M{x} {top}V{bottom - 8}" class="arrow"/>'
    yield f'<path d="M{x - 5} {bottom - 9}h10l-5 8z" class="tip"/>'


def legend():
    x, y = 20, HEIGHT - 36
    for kind, text in LEGEND:
        yield f'<rect x="{x}" y="{y}" width="34" height="18" rx="3" class="{kind}"/>'
        yield written((x + 44, y + 14), text)
        x += 110 + 7 * len(text)


def main():
    size = f'width="{WIDTH}" height="{HEIGHT}" viewBox="0 0 {WIDTH} {HEIGHT}"'
    print(f'<svg xmlns="http://www.w3.org/2000/svg" role="img" aria-labelledby="title description" {size}>')
    print(f'<title id="title">{TITLE}</title>\n<desc id="description">{DESCRIPTION}</desc>')
    print(f'<style>{STYLE}</style>\n<rect width="{WIDTH}" height="{HEIGHT}" rx="8" class="page"/>')
    for it in BOXES:
        print(*box(*it), sep="\n")
    for start, end, kind, text, place in LINKS:
        print(f'<path d="M{start[0]} {start[1]}L{end[0]} {end[1]}" class="{kind}"/>', written(place, text), sep="\n")
    for it in ARROWS:
        print(*arrow(*it), sep="\n")
    print(*legend(), sep="\n")
    print("</svg>")


if __name__ == "__main__":
    print_help_if_asked(__doc__)
    main()
