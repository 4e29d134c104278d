"""Which texts another one has, by lines: tools indent the lines of what a failure says, and put a type in front."""

from collections import defaultdict
from itertools import chain, islice

# Of a line that is looked for so many of its last characters are compared at once, and so many before the whole line;
# of the longer ones with the same end so many. What is not found is shown twice.
NEAR, FAR, MOST = 8, 256, 8


def is_end(line, end):
    """Whether a line ends as another one: letters and digits are not parted."""
    return line.endswith(end) and (len(line) == len(end) or not line[-len(end) - 1].isalnum())


def held(text, parts):
    """The places of these texts for whose lines there are lines of the other text that end so, in order. All are looked
    for at once, since a test may have thousands."""
    wanted = [[it for it in map(str.strip, reversed(part.split("\n"))) if it] for part in parts]
    # By the short ends of the lines that are looked for, how long these are.
    sizes, waiting, found = defaultdict(set), defaultdict(dict), set()
    for line in chain.from_iterable(wanted) if text else ():
        sizes[line[-NEAR:]].add(min(len(line), FAR))
    shorts = {len(end) for end in sizes if len(end) < NEAR}
    lines, ready = iter(text.split("\n")), [*range(len(parts))]
    while True:
        for place in ready:
            if wanted[place]:
                line = wanted[place].pop()
                waiting[line[-FAR:]].setdefault(line, []).append(place)
            else:
                found.add(place)
        line = next(lines, None) if waiting else None
        if line is None:
            return found
        line, ready = line.rstrip(), []
        for size in (*sizes.get(line[-NEAR:], ()), *(it for it in shorts if line[-it:] in sizes)):
            if (end := line[-size:]) in waiting:
                for whole in [*islice(waiting[end], MOST)]:
                    if is_end(line, whole):
                        ready += waiting[end].pop(whole)
                if not waiting[end]:
                    del waiting[end]
