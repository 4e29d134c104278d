#!/usr/bin/env python3
"""Draws what a terminal shows of coloured text: reads the bytes of a report, writes an SVG.

    ./run --color --counter cases/picture.scene | scripts/picture.py > docs/report.svg
    scripts/run-tests --manifest-path cases/real/mixed/Cargo.toml --lib -j 1 --no-fail-fast | \\
        ./run --follow --color --counter | scripts/picture.py > docs/cargo.svg

It knows the sequences that a report has: bold, the eight colours, bright black and the reset.
"""

import sys

from norigully import print_help_if_asked

import html
import re

COLUMN, LINE, MARGIN = 8.4, 19, 14
COLOURS = {31: "#e06c75", 32: "#98c379", 33: "#e5c07b", 34: "#61afef", 35: "#c678dd", 36: "#56b6c2", 90: "#7f848e"}
PLAIN, BACKGROUND = "#d7dae0", "#21252b"


def spans(line, style):
    """The stretches of a line with their styles, and the style that goes on after it."""
    parts = re.split(r"\x1b\[([0-9;]*)m", line)
    found = []
    for place, part in enumerate(parts):
        if place % 2 == 1:
            style = styled(style, part)
        elif part:
            found.append((style, part))
    return found, style


def styled(style, codes):
    """The style after a sequence with these codes."""
    colour, bold = style
    for code in (int(c) for c in codes.split(";") if c):
        if code == 0:
            colour, bold = None, False
        elif code == 1:
            bold = True
        else:
            colour = code
    return colour, bold


def main():
    lines = sys.stdin.buffer.read().decode().removesuffix("\n").split("\n")
    plain = [re.sub(r"\x1b\[[0-9;]*m", "", line) for line in lines]
    width = round(2 * MARGIN + COLUMN * max(map(len, plain)))
    height = 2 * MARGIN + LINE * len(lines)
    size = f'width="{width}" height="{height}" viewBox="0 0 {width} {height}"'
    print(f'<svg xmlns="http://www.w3.org/2000/svg" role="img" {size}>')
    print("<title>The coloured report of a test run</title>")
    print(f'<rect width="{width}" height="{height}" rx="8" fill="{BACKGROUND}"/>')
    print('<g font-family="ui-monospace, SFMono-Regular, Menlo, Consolas, monospace" font-size="14">')
    style = (None, False)
    for number, line in enumerate(lines):
        found, style = spans(line, style)
        column = 0
        for (colour, bold), text in found:
            x, y = MARGIN + COLUMN * column, MARGIN + LINE * (number + 0.75)
            weight = ' font-weight="bold"' if bold else ""
            length = f' textLength="{COLUMN * len(text):.1f}"'
            column += len(text)
            if text.strip():
                fill = COLOURS.get(colour, PLAIN)
                # Browsers collapse spaces unless each text says that it keeps them.
                place = f'x="{x:.1f}" y="{y:.1f}" fill="{fill}"{weight}{length}'
                print(f'<text xml:space="preserve" {place}>{html.escape(text)}</text>')
    print("</g>\n</svg>")


if __name__ == "__main__":
    print_help_if_asked(__doc__)
    main()
