"""The words that the programs take, and why others are wrong."""

import unittest

from norigully.entry import Bad
from norigully.words import options_of, settings_of, usage, why_wrong

LEVELS = "none, fail, retry, slow, leak, pass, skip or all"
FINAL = "none, fail, flaky, slow, skip, leak, pass, all"
FLAGS = "--color --counter --replay --unload --store-success --store-failure"
FIRST = "--follow --recorded --page --summary --annotations --failed --to-junit --junit --libtest"
# Words of `report`, and why they are wrong.
WRONG = (
    ("--hlep", "unknown option --hlep"),
    ("-v", "unknown option -v"),
    ("f --color", "--color after FILE, which is the last word"),
    ("- --color f", "--color after FILE, which is the last word"),
    ("f g", "g after FILE, which is the last word"),
    ("--counter --counter f", "--counter is given twice"),
    ("--no-color --no-color f", "--no-color is given twice"),
    ("--no-stop-commands --no-stop-commands f", "--no-stop-commands is given twice"),
    ("--store a --store b f", "--store is given twice"),
    ("--level x f", f"unknown level x: {LEVELS}"),
    ("--level all --level all f", "--level is given twice"),
    ("--level", "--level needs a value"),
    ("--store", "--store needs a value"),
    ("--store out", "no FILE"),
    ("--counter", "no FILE"),
    ("", "no FILE"),
    ("--store-success f", "--store-success needs --store PATH"),
    ("--store-failure f", "--store-failure needs --store PATH"),
    *((f"{it} f", f"{it} is the first word where it is used") for it in FIRST.split()),
    *((f"{it} f", f"{it} is used alone") for it in ("--help", "-h", "--version", "-V")),
    ("--no-color --color f", "both --color and --no-color"),
    ("--color --no-color f", "both --color and --no-color"),
    ("\udcff f", "a word that is not UTF-8"),
)
# Words of a program, and what they say: the words for the program, where that of the store is, and the file.
RIGHT = (
    ("report", "f", [], None, "f"),
    ("report", "-", [], None, "-"),
    ("report", "--level", [], None, "--level"),
    ("report", "--level all --counter f", ["--level", "all", "--counter"], None, "f"),
    ("report", "--counter --store out --store-failure f", ["--counter", "--store", "out", "--store-failure"], 2, "f"),
    ("report", "--store o --level none f", ["--store", "o", "--level", "none"], 1, "f"),
    ("report", "--no-color --no-stop-commands f", [], None, "f"),
    ("report", f"--store o {FLAGS} f", f"--store o {FLAGS}".split(), 1, "f"),
    ("follow", "", [], None, None),
    ("follow", "-", [], None, "-"),
    ("follow", "--counter", ["--counter"], None, None),
    ("follow", "--store o --store-success", ["--store", "o", "--store-success"], 1, None),
    ("follow", "--no-color", [], None, None),
    ("replay", "d", [], None, "d"),
)
SHOWN = "[--color] [--counter] [--replay] [--unload] [--level L] [--store PATH] [--store-success] [--store-failure]"


class Words(unittest.TestCase):
    def test_wrong(self):
        for words, why in WRONG:
            with self.subTest(words=words):
                self.assertEqual(why_wrong("report", words.split()), why)
                # A last word is a file, whatever it is.
                self.assertEqual(options_of("report", words.split()) is None, len(words.split()) != 1)

    def test_last_word(self):
        for program, last in (("report", "FILE"), ("follow", "[FILE]"), ("replay", "DIR")):
            self.assertEqual(usage(program), f"usage: {program} {SHOWN} {last}")
            wanted = f"b after {last.strip('[]')}, which is the last word"
            self.assertEqual(why_wrong(program, ["a", "b"]), wanted)
        self.assertEqual(why_wrong("replay", []), "no DIR")
        self.assertIsNone(why_wrong("follow", []))
        self.assertEqual(why_wrong("follow", ["--color", "--no-color"]), "both --color and --no-color")

    def test_right(self):
        for program, words, *wanted in RIGHT:
            with self.subTest(program=program, words=words):
                found = options_of(program, words.split())
                self.assertEqual([found.given, found.store_at, found.file], wanted)
                self.assertTrue(words == "--level" or why_wrong(program, words.split()) is None)
                self.assertEqual(found.wants_color, "--no-color" not in words)
                self.assertEqual(found.stops_commands, "--no-stop-commands" not in words)

    def test_files(self):
        for program, words, reads_input, files in (
            ("report", ["-"], True, []),
            ("report", ["f"], False, ["f"]),
            ("follow", [], True, []),
            ("follow", ["f"], False, ["f"]),
            ("replay", ["-"], False, ["-/run.scene", "-/outputs"]),
        ):
            with self.subTest(program=program, words=words):
                found = options_of(program, words)
                self.assertEqual((found.reads_input, found.files), (reads_input, files))

    def test_settings(self):
        for words, lines, rest in (
            ("--success-output final f", [b"config\tsuccess\tfinal\n"], "f"),
            ("--failure-output never --color f", [b"config\tfailure\tnever\n"], "--color f"),
            ("--no-output-indent f", [b"config\tnoindent\t1\n"], "f"),
            ("--level all --final-status-level slow f", [b"config\tfinal\tslow\n"], "--level all f"),
            ("--store --no-output-indent -o --no-output-indent f", [], None),
            ("--title --no-output-indent --choices --no-output-indent f", [], None),
            ("--no-output-indent", [b"config\tnoindent\t1\n"], " "),
            ("f --no-output-indent", [], None),
            ("- --no-output-indent", [], None),
            ("--level", [], None),
        ):
            with self.subTest(words=words):
                self.assertEqual(settings_of(words.split()), (lines, (rest or words).split()))

    def test_wrong_settings(self):
        for words, why in (
            ("--success-output", "--success-output needs a value"),
            ("--failure-output x f", "unknown value x of --failure-output: never, immediate, final, immediate-final"),
            ("--final-status-level x", f"unknown value x of --final-status-level: {FINAL}"),
        ):
            with self.subTest(words=words), self.assertRaisesRegex(Bad, f"^{why}$"):
                settings_of(words.split())


if __name__ == "__main__":
    unittest.main()
