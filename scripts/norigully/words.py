"""The words that the programs take, listed once for all scripts. `scripts/check-run` holds their usage against
the programs' own."""

import os

from norigully.entry import Bad

FLAGS = ("--color", "--counter", "--replay", "--unload", "--store-success", "--store-failure")
LEVELS = ("none", "fail", "retry", "slow", "leak", "pass", "skip", "all")
# nextest's options for what a report shows, the key of `config` that each is, and its values: they are taken with
# --junit and --libtest.
TIMES = ("never", "immediate", "final", "immediate-final")
FINAL = ("none", "fail", "flaky", "slow", "skip", "leak", "pass", "all")
SETTINGS = {
    "--success-output": ("success", TIMES),
    "--failure-output": ("failure", TIMES),
    "--final-status-level": ("final", FINAL),
    "--no-output-indent": ("noindent", None),
}
# In the order in which usage shows them.
SHOWN = ("--color", "--counter", "--replay", "--unload", "--level L", "--store PATH", *FLAGS[-2:])
# How usage shows the last word.
LAST = {"report": "FILE", "follow": "[FILE]", "replay": "DIR"}
WITH_VALUE = ("--level", "--store")
# Words of ./run and not of the programs.
OF_RUN = ("--no-color", "--no-stop-commands")
# Words of ./run that are not where they may be.
FIRST, ONLY = "the first word where it is used", "used alone"
ALONE = {**dict.fromkeys(("--help", "-h", "--version", "-V"), ONLY)}
ALONE |= dict.fromkeys(
    (
        *("--follow", "--recorded", "--page", "--summary", "--annotations", "--failed", "--to-junit"),
        *("--junit", "--libtest"),
    ),
    FIRST,
)
# The files in the folder of a recorded run.
FILES_OF_RUN = ("run.scene", "outputs")


def usage(program):
    """The usage of a program, as it prints it itself."""
    return f"usage: {program} {' '.join(f'[{it}]' for it in SHOWN)} {LAST[program]}"


def settings_of(words):
    """The lines of `config` that the words ask for, and the words without those."""
    lines, rest, at = [], [], 0
    while at < len(words) and words[at].startswith("-") and words[at] != "-":
        word = words[at]
        key, values = SETTINGS.get(word, (None, None))
        value = "1" if values is None else (words[at + 1 :] or [None])[0]
        size = 2 if values or (word in (*WITH_VALUE, "-o", "--title", "--choices")) else 1
        if key is None:
            rest += words[at : at + size]
        elif values and value not in values:
            raise Bad(f"unknown value {value} of {word}: {', '.join(values)}" if value else f"{word} needs a value")
        else:
            lines.append(f"config\t{key}\t{value}\n".encode())
        at += size
    return lines, rest + words[at:]


class Options:
    """What words ask of a program: the options before the file, and the file, which is the folder for `replay`; None
    where `follow` reads standard input without an option that says so."""

    # No dataclass: each ./run would import `inspect` for it.
    def __init__(self, program):
        self.program, self.given, self.store_at, self.file = program, [], None, None
        # ./run gives the programs colours on a terminal, and stops GitHub's commands, unless asked not to.
        self.wants_color = self.stops_commands = True

    @property
    def reads_input(self):
        return self.program != "replay" and self.file in (None, "-")

    @property
    def files(self):
        """The files that the program reads by their names."""
        if self.reads_input:
            return []
        return [os.path.join(self.file, it) for it in FILES_OF_RUN] if self.program == "replay" else [self.file]


def options_of(program, words):
    """Reads the words of a program; None where they are used wrongly. The rules are those of the program, which takes
    words that are UTF-8 alone; OF_RUN are words of ./run."""
    if not is_utf8(words):
        return None
    options, at = Options(program), 0
    while at < len(words):
        word, is_last = words[at], at == len(words) - 1
        if is_last and not (program == "follow" and (is_option(options, word) or word in OF_RUN)):
            options.file, at = word, at + 1
        elif word in ("--level", "--store"):
            if word in options.given or (word == "--level" and words[at + 1] not in LEVELS):
                return None
            options.store_at = len(options.given) + 1 if word == "--store" else options.store_at
            options.given += words[at : at + 2]
            at += 2
        elif is_option(options, word):
            options.given.append(word)
            at += 1
        elif word == "--no-color" and options.wants_color:
            options.wants_color, at = False, at + 1
        elif word == "--no-stop-commands" and options.stops_commands:
            options.stops_commands, at = False, at + 1
        else:
            return None
    if not options.wants_color and "--color" in options.given:
        return None
    keeps_output = {"--store-success", "--store-failure"} & {*options.given}
    if (keeps_output and options.store_at is None) or (program != "follow" and options.file is None):
        return None
    return options


def is_utf8(words):
    """Whether words are UTF-8, whatever Python takes them for in this locale."""
    try:
        return os.fsencode("".join(words)).decode() is not None
    except UnicodeError:
        return False


def why_wrong(program, words):
    """Why words are used wrongly, or None where they are not."""
    given, at, file = set(), 0, None
    if not is_utf8(words):
        return "a word that is not UTF-8"
    while at < len(words):
        word, more = words[at], words[at + 1 :]
        if word in given:
            return f"{word} is given twice"
        if word in WITH_VALUE and not more:
            return f"{word} needs a value"
        if word == "--level" and more[0] not in LEVELS:
            return f"unknown level {more[0]}: {', '.join(LEVELS[:-1])} or {LEVELS[-1]}"
        if word in ALONE:
            return f"{word} is {ALONE[word]}"
        if word.startswith("-") and word not in ("-", *OF_RUN, *FLAGS, *WITH_VALUE):
            return f"unknown option {word}"
        is_file = word == "-" or not word.startswith("-")
        if more and is_file:
            return f"{more[0]} after {LAST[program].strip('[]')}, which is the last word"
        file = word if is_file else None
        given.add(word)
        at += 2 if word in WITH_VALUE else 1
    if {"--color", "--no-color"} <= given:
        return "both --color and --no-color"
    if "--store" not in given and (kept := given & {"--store-success", "--store-failure"}):
        return f"{kept.pop()} needs --store PATH"
    return f"no {LAST[program]}" if program != "follow" and file is None else None


def is_option(options, word):
    """Whether the word is a flag that was not given before."""
    return word in FLAGS and word not in options.given
