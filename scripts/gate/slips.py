"""What is planted for check-checks: programs that are wrong, and slips in documents, sources and scripts. Each script
must say that something failed, and each of its places that compare must fail under one of them."""

import re
import shutil
import subprocess

from norigully.programs import PROGRAMS, note_sources, program, sum_of_sources

# Programs in the place of the built one, which is NAME.real beside them.
AS_BUILT = """#!/bin/sh
exec "$0.real" "$@"
"""
DOES_NOTHING = """#include <fcntl.h>
#include <unistd.h>
int main(int count, char **words)
{
    char bytes[4096];
    int file = open(words[count - 1], O_RDONLY);
    while (count > 1 && file >= 0 && read(file, bytes, sizeof bytes) > 0)
        ;
    return 0;
}
"""
FAILS = "int main(void) { return 77; }"
SAYS_WRONG = """#!/bin/sh
echo wrong
echo wrong >&2
exit 77
"""
# It prints more, which the bytes of the scene decide, and stores more.
PRINTS_MORE = r"""#!/bin/sh
"$0.real" "$@"
status=$?
for file; do :; done
[ -f "$file" ] && cksum < "$file"
printf '\033[m more\n'
while [ $# -gt 1 ]; do
    [ "$1" = --store ] && [ -f "$2" ] && echo more >> "$2"
    shift
done
exit $status
"""
ENDS_OTHERWISE = """#!/bin/sh
"$0.real" "$@"
exit $(($? + 1))
"""
SAYS_MORE = """#!/bin/sh
"$0.real" "$@"
status=$?
echo more >&2
exit $status
"""
# It writes files that it should not, and more where calls of it fail.
WRITES_FILES = """#!/bin/sh
"$0.real" "$@"
status=$?
echo more > more
[ -z "$FAULT_KIND" ] || echo more >&2
while [ $# -gt 1 ]; do
    [ "$1" = --store ] && [ -n "$FAULT_KIND" -o ! -e "$2" ] && echo more >> "$2"
    shift
done
exit $status
"""
# Three times the memory that a run may take.
TAKES_MORE = """#!/bin/sh
"$0.real" "$@"
status=$?
head -c 60000000 /dev/zero | tail -c 60000000 > /dev/null
exit $status
"""
# What is said of a line of a script in NAMES.
WIDE = "scripts/norigully/words.py: wider than 120 columns"
# Slips in files: their names, a pattern and what stands in the place of each that it finds.
NAMES = (
    ("docs/*.md", r"`(\w+)`", r"`x_\1`"),
    ("docs/*.md", r"`((?:\w+::)+)(\w+)`", r"`\1x_\2`"),
    ("docs/*.md", r"^(\| `+\w)", r"\1 other"),
    ("*.md", r"\]\((\w)", r"](x\1"),
    ("docs/*.md", r"\]\((\w)", r"](x\1"),
    ("docs/*.md", r"^(```\w+ [^\n]*)$", r"\1\nmore"),
    ("README.md", r"^(```\w+ [^\n]*)$", r"\1\nmore"),
    ("README.md", r"\A", "word\n" * 1000),
    ("docs/SCENES.md", r"^## (.*)$", r"## Other \1"),
    ("docs/*.svg", "<", " <"),
    ("scripts/norigully/words.py", r"\Z", f"\n# {'x' * 119}\n"),
    ("crates/writers/src/text.rt", "/// A value", "/// A `value"),
    ("crates/writers/src/text.rt", "pub struct When", "pub struct Style;\n\npub struct When"),
    ("crates/writers/specs/Texts.antt", r"^(?:abbrev |unfoldable )?pub plain :", r"pub plain : ℕ\n\g<0>"),
    ("crates/*/src/laws.rt", r"^pub fn (\w+)", r"pub fn x_\1"),
)
TABLES = (
    ("scripts/check-docs", r"(?<=in DEFINITION.findall\()file.read_text\(\)", '""'),
    ("scripts/check-docs", r"^( +)is_built = ", r"\1is_built = True or "),
    ("scripts/check-docs", r"(?<=for name in )TEXT\.findall\(file\.read_text\(\)\)", "()"),
    ("scripts/vendor", r"for name in order if name", "for name in order[1:] if name"),
    ("examples/whole_run.rs", r"\A", "use console_reporter::write_skip_counts;\n"),
    ("docs/SCENES.md", r"^```report", "```other"),
    ("docs/*.md", r"^\|(?:-+\|)+$", "| not dashes |"),
    ("docs/*.md", r"^\|(.*)\|$", r"|\1| one more | two more |"),
)
NO_NAMES = (
    ("docs/SCENES.md", r"^config\t(\w+)", r"config\tx\1"),
    ("docs/MAP.md", r"\| (\w+)/(\w+)", r"| \1/x_\2"),
    ("docs/*.md", r"(?<!`)`(?!`)", ""),
)
# Of what --self-test tries only the last part is of a document.
EMPTY = (
    ("*.md", r"(?s)\A.*", "# Nothing\n"),
    ("docs/*.md", r"(?s)\A.*", "# Nothing\n"),
    ("scripts/gate/mistakes_test.py", r"for it in parts\)\]", "for it in parts[-1:])]"),
)
NO_SOURCES = (("crates/*/src/**/*.rt", r"(?s)\A.*", ""),)
NO_CASES = (("cases/printed/*", r"(?s)\A.*", ""), ("cases/fields/*", r"(?s)\A.*", ""))
# Scripts that people call write more, and end and say what is wrong otherwise.
WRITES_MORE = (
    ("scripts/norigully/entry.py", r"memoryview\((encoded\(.*)\)$", r'memoryview((\1) + b"more\\n")'),
)
FAILS_OTHERWISE = (
    ("scripts/norigully/entry.py", r"flushed\(name, status\)\)$", "(flushed(name, status) or 0) + 1)"),
    ("scripts/norigully/entry.py", r'f"\{name\}: \{what\}"', 'f"more {name}: {what}"'),
)


def compile_c(text, made, *words):
    subprocess.run(["cc", "-xc", "-", "-o", made, *words], input=text.encode(), check=True)


def plant(top, edits):
    """Makes slips in files of a copy. Each is made somewhere."""
    for files, pattern, new in edits:
        is_made = False
        for file in top.glob(files):
            text = file.read_text(errors="surrogateescape")
            changed = re.sub(pattern, new, text, flags=re.M)
            is_made = is_made or changed != text
            file.write_text(changed, errors="surrogateescape")
        yield is_made, f"no {files} has {pattern}: give check-checks another slip"


def put_programs(top, here, text):
    """Puts such a program in the place of each of these, and takes it for that of the sources."""
    for name in PROGRAMS:
        file = program(name, top)
        file.parent.mkdir(exist_ok=True)
        if here:
            shutil.copy(program(name, here), f"{file}.real")
        file.write_text(text)
        file.chmod(0o755)
        note_sources(name, sum_of_sources(name, top), top)
