"""What a page is made of: its words, the lines of a scene, the table of lines, and the parts of its file."""

import base64
import gzip
import hashlib
import io
import os
import tempfile
import unittest
from pathlib import Path
from unittest import mock

from gate.page_checks import Page
from norigully import TOP, entry, page, page_scene
from norigully.entry import Bad
from norigully.page_scene import Summary, marked, number_of, places_of, shown, spoken
from norigully.page_table import Reports, Table, pieces_of
from norigully.scene_lines import Attempt, Run, header

DONE = b"done\t-\ta\tb\tnever\timmediate\tpass\t-\t1\tpass\t5\t0\tsplit\t-\t-\t-\t-\n"
RETRY = b"retry\t-\ta\tb\t1\t2\t0\tnever\tfail:1\t5\t0\tsplit\t-\t-\t-\t-\n"
NO_USAGE = r"^usage: page \[--junit\|--libtest\] \[--title T\] \[--choices all\|few\] \[-o PAGE\] FILE\|--recorded DIR$"


class Words(unittest.TestCase):
    def test_right(self):
        for words, wanted in (
            ("f", ("f", False, "Test report", None, None)),
            ("-", ("-", False, "Test report", None, None)),
            ("--title t --choices few -o p f", ("f", False, "t", "few", "p")),
            ("-o --title --choices all f", ("f", False, "Test report", "all", "--title")),
            ("--choices all --recorded d", ("d", True, "Test report", "all", None)),
            ("--recorded --x", ("--x", True, "Test report", None, None)),
        ):
            with self.subTest(words=words):
                found = page.asked_by(words.split())
                self.assertEqual((found.source, found.is_recorded, found.title, found.choices, found.to), wanted)

    def test_wrong(self):
        wrong = "", "--title", "--title a", "-x f", "f f", "--recorded", "--recorded d d", "f --recorded"
        for words in (
            *(*wrong, "--choices some f", "-o p", "--title a --title b f", "f -o p", "-o p -o p f"),
            "--choices all --choices few f",
        ):
            with self.subTest(words=words), self.assertRaisesRegex(Bad, NO_USAGE):
                page.main(words.split(), None)

    def test_files(self):
        self.assertEqual(page.asked_by(["f"]).files, ["f"])
        self.assertEqual(page.asked_by(["-"]).files, [0])
        self.assertEqual(page.asked_by(["--recorded", "d"]).files, ["d/run.scene", "d/outputs"])

    def test_places(self):
        with tempfile.TemporaryDirectory() as folder:
            file, link = Path(folder, "file"), Path(folder, "link")
            file.touch()
            link.symlink_to("nowhere")
            for path, can_be in (
                (str(file), True),
                (f"{folder}/new", True),
                ("new", True),
                (folder, False),
                (f"{folder}/", False),
                (f"{folder}/no/new", False),
                (f"{file}/new", False),
                (str(link), False),
                ("", False),
            ):
                with self.subTest(path=path), mock.patch("os.access", lambda path, how: os.path.exists(path)):
                    self.assertEqual(bool(page.can_be_written(path)), can_be)
            for to in (file, folder):
                with self.subTest(to=to), self.assertRaisesRegex(Bad, f"^cannot write {to}$"):
                    page.main(["-o", str(to), str(file)], None)
            with self.assertRaisesRegex(Bad, f"^cannot write {folder}$"):
                page.opened(folder)


class Choices(unittest.TestCase):
    def run_of(self, size, choices=None):
        run = page.Run.__new__(page.Run)
        run.size, run.asked = size, page.Asked(choices=choices)
        return run.choices()

    def test_sizes(self):
        """A page of a large run has few choices, unless it is asked for all, and says so."""
        few = "This page%s has 32 of 96 reports: output of successes as in the run."
        for size, choices, wanted in (
            (page.LARGE, None, (page.SUCCESS, "")),
            (page.LARGE + 1, None, ([""], few % " of a large run (32 MB)")),
            (page.LARGE + 1, "all", (page.SUCCESS, "")),
            (5, "few", ([""], few % "")),
        ):
            with self.subTest(size=size, choices=choices):
                self.assertEqual(self.run_of(size, choices), wanted)
        self.assertEqual((page.LARGE, len(page.SUCCESS) * len(page.FAILURE) * len(page.LEVELS)), (32_000_000, 96))


class Scenes(unittest.TestCase):
    def test_shown(self):
        skip, short = b"skip\t-\ta\tb\n", b"done\t-\ta\tb\tnever\timmediate\n"
        less = b"retry\t-\ta\tb\t1\t2\t0\tnever\n"
        for line, success, failure, wanted in (
            (DONE, "final", "", DONE.replace(b"never", b"final")),
            (DONE, "", "final", DONE.replace(b"immediate", b"final")),
            (RETRY, "final", "", RETRY),
            (RETRY, "", "final", RETRY.replace(b"never", b"final")),
            (RETRY.replace(b"retry", b"retr\t"), "x", "y", RETRY.replace(b"retry", b"retr\t")),
            (b"retrystart\t-\ta\tb\t2\t2\t-\ta\tb\tc\n", "x", "y", b"retrystart\t-\ta\tb\t2\t2\t-\ta\tb\tc\n"),
            (skip, "x", "y", skip),
            (short, "x", "y", short),
            (less, "x", "y", less),
        ):
            for more in (b"", b"x" * (2 << 20)):
                with self.subTest(line=line, success=success, failure=failure, more=len(more)):
                    found = b"".join(shown(io.BytesIO(skip + more + line), success, failure))
                    wanted_line = more + line if more else wanted
                    self.assertEqual(found, skip + wanted_line)
        long = DONE.replace(b"\tsplit\t-", b"\tsplit\t" + b"x" * (2 << 20))
        self.assertEqual(b"".join(shown(io.BytesIO(long), "final", "")), long.replace(b"never", b"final"))

    def test_marks(self):
        """Marks are around lines of a scene, and are found in a report, of which they are left out."""
        mark = b"setup\t-\t0\t1\tM\t\t-\n"
        self.assertEqual(
            b"".join(marked([b"a\n", b"b\n", b"c"], {1, 2}, b"M")), b"a\n" + mark + b"b\n" + mark * 2 + b"c\n" + mark
        )
        for report, places, rest in (
            (b"a\n", [], b"a\n"),
            (b"x M y\na\nb\nM\nc\n", [0, 2], b"a\nb\nc\n"),
            (b"a\nM\nM\nb\n", [1, 1], b"a\nb\n"),
            (b"M\na\n", [0], b"a\n"),
            (b"a\n" * 200_000 + b"M\nb\nM\n", [200_000, 200_001], b"a\n" * 200_000 + b"b\n"),
        ):
            with self.subTest(report=report[:20]):
                found = places_of(io.BytesIO(report), b"M")
                self.assertEqual(found, (places, hashlib.sha256(rest).digest()))

    def test_values(self):
        for nanos, said in (
            (999_999, "0 ms"),
            (999_999_999, "999 ms"),
            (10**9, "1.0 s"),
            (59_999_999_999, "59.9 s"),
            (60 * 10**9, "1 min 0 s"),
            (3_599 * 10**9, "59 min 59 s"),
            (3_600 * 10**9, "1 h 0 min"),
            (90_061 * 10**9, "25 h 1 min"),
        ):
            self.assertEqual(spoken(nanos), said)
        for digits, number in ((b"", 0), (b"000", 0), (b"0" * 99 + b"12", 12), (b"9" * 99, int("9" * 40))):
            self.assertEqual(number_of(digits), number)
        self.assertEqual(page_scene.started(b"2024,2,9,7,5,0"), "2024-02-09 07:05:00")
        self.assertEqual(
            [page_scene.plain(it) for it in (b"a\\n", b"a\\q", b"\\xff", b"")], ["a\n", "a\\q", "\ufffd", ""]
        )


def summary_of(*tests):
    """What the lines of a run say of these tests: a name, seconds and results of attempts."""
    made, summary = [header((2024, 2, 29, 7, 5, 9), "ok")], Summary()
    run = Run(made.append, len(tests), 1, profile="ci")
    for name, *attempts in tests:
        run.done("a", name, [Attempt(*it) for it in attempts])
    run.end(3723.5)
    for number, line in enumerate(made):
        summary.read(number, line.encode())
    return summary


class Lists(unittest.TestCase):
    def test_facts(self):
        facts = {"Profile": "ci", "Run": "00000000-0000-4000-8000-000000000001"}
        self.assertEqual(summary_of().facts, {**facts, "Started": "2024-02-29 07:05:09", "Took": "1 h 2 min"})
        ended = Summary()
        ended.read(0, b"endstress\t5000000000\t1/1\t1\t0\t-\t0\t-\n")
        self.assertEqual(ended.facts, {"Took": "5.0 s"})

    def test_lists(self):
        many = [(f"t{it}", ("pass", it)) for it in range(1, 13)]
        found = summary_of(
            *many, ("f", ("fail:1", 0)), ("y", ("fail:1", 0), ("pass", 0)), ("f", ("sig:6", 5)), ("t12", ("leak", 8))
        )
        tests, lists = found.tests()
        names = {title: [tests[it].name[1] for it in numbers] for title, numbers in lists.items()}
        slowest = [f"t{it}" for it in range(12, 5, -1)] + ["t5", "f", "t4"]
        self.assertEqual(names, {"failed": ["f"], "flaky": ["y"], "slowest": slowest})
        self.assertEqual([(it.line, it.place, it.end) for it in tests if it.name == ("a", "f")], [(14, -1, -1)])

    def test_the_same_time(self):
        """Of more than ten that took as long ten are listed, and no later one."""
        tests, lists = summary_of(*((f"t{it}", ("pass", 5)) for it in range(12))).tests()
        self.assertEqual([tests[it].name[1] for it in lists["slowest"]], [f"t{it}" for it in range(1, 11)])

    def test_results(self):
        for results, flaky, lists in (
            (["pass"], b"pass", "slowest"),
            (["leak"], b"pass", "slowest"),
            (["tmpass"], b"pass", "slowest"),
            (["fail:1"], b"pass", "failed slowest"),
            (["fail:1", "pass"], b"pass", "flaky slowest"),
            (["fail:1", "pass"], b"fail", "failed flaky slowest"),
            (["pass"], b"fail", "slowest"),
            (["fail:1", "exec"], b"pass", "failed slowest"),
        ):
            with self.subTest(results=results, flaky=flaky):
                made, summary = [], Summary()
                Run(made.append, 1, 1).done("a", "b", [Attempt(it, "0.000000001") for it in results])
                summary.read(7, made[1].encode().replace(b"\tpass\tinitial", b"\t%b\tinitial" % flaky))
                self.assertEqual([it for it, numbers in summary.tests()[1].items() if numbers], lists.split())


class Tables(unittest.TestCase):
    def setUp(self):
        made = tempfile.TemporaryDirectory()
        self.addCleanup(made.cleanup)
        self.folder = Path(made.name)
        self.table = Table(self.folder / "table")
        self.addCleanup(self.table.close)

    def lines(self, stretches):
        self.table.writer.flush()
        lines, at, found = (self.folder / "table").read_bytes().splitlines(True), 0, []
        for skipped, count in zip(stretches[::2], stretches[1::2]):
            found += lines[at + skipped : at + skipped + count]
            at += skipped + count
        return b"".join(found), len(lines)

    def test_reports(self):
        """A report is stretches of the lines of all, each kept once where that is seen."""
        styled = [b"\x1b[31mtest %d\x1b[m\n" % it for it in range(3000)]
        plain = [b"line %d of a text that is long\n" % it for it in range(3000)]
        first = [line for pair in zip(styled, plain) for line in pair]
        for what, report, most, stretches in (
            ("the first", first, 6000, 1),
            ("the same", first, 6000, 1),
            ("half", first[:3000], 6000, 1),
            ("styled lines", styled, 6000, 3000),
            ("a new line within", [*first[:10], b"new\n", *first[10:]], 6001, 3),
            ("that again", [*first[:20], b"new\n", *first[20:]], 6002, 3),
            ("another order", [*first[4000:], *first[:4000]], 6002, 3),
            ("a line that is longer", [first[0][:-1] + b" more\n", *first[1:]], 6003, 3),
            ("empty lines", [b"\n", b"\n", *first[2:]], 6005, 3),
            ("nothing", [], 6005, 1),
        ):
            with self.subTest(what=what):
                found = self.table.stretches_of(io.BytesIO(b"".join(report)))
                text, count = self.lines(found)
                self.assertEqual(text, b"".join(report))
                self.assertLessEqual((count, len(found) // 2), (most, stretches))

    def test_many_of_one_line(self):
        same = [b"\x1b[mthe same\n"] * 40
        self.lines(self.table.stretches_of(io.BytesIO(b"".join(same))))
        self.assertEqual(len(self.table.sums), 8)
        report = [b"other\n", *same]
        text, count = self.lines(self.table.stretches_of(io.BytesIO(b"".join(report))))
        self.assertEqual((text, count), (b"".join(report), 41))

    def test_large(self):
        """Reports are compared in pieces, and the room for sums grows."""
        lines = [b"\x1b[m%d %b\n" % (it, b"x" * 90) for it in range(9000)]
        for report in (lines, lines[:4500] + [b"new\n"] + lines[4500:], lines[6000:] + lines[:6000]):
            text, count = self.lines(self.table.stretches_of(io.BytesIO(b"".join(report))))
            self.assertTrue(text == b"".join(report) and count <= 9001)
        self.assertEqual((len(self.table.sums), len(self.table.slots)), (9001, 16384))
        self.assertEqual([it.count(b"\n") for it in pieces_of(io.BytesIO(b"".join(lines)))][0], 2660)

    def test_numbers(self):
        reports = Reports(self.folder / "reports")
        numbers = [reports.number_of(io.BytesIO(it), self.table) for it in (b"a\n", b"b\n", b"a\n", b"a\nb\n")]
        reports.close()
        self.assertEqual((numbers, (self.folder / "reports").read_bytes()), ([0, 1, 0, 2], b"0,1\n0,0,1,1\n0,2\n"))


class Files(unittest.TestCase):
    def test_packed(self):
        with tempfile.TemporaryDirectory() as folder:
            for size in (0, 1, 2, 3, page.PIECE * 2 + 1):
                data = os.urandom(size)
                Path(folder, "data").write_bytes(data)
                with open(Path(folder, "packed"), "wb+") as file:
                    page.write_packed(Path(folder, "data"), file)
                packed = Path(folder, "packed").read_bytes()
                self.assertEqual(gzip.decompress(base64.b64decode(packed, validate=True)), data)

    def test_text(self):
        self.assertEqual(page.escaped("a<b>&\"'\x1b[31m\x00\udcff"), "a&lt;b&gt;&amp;&quot;&#x27;\ufffd")
        digest = base64.b64encode(hashlib.sha256("é".encode()).digest()).decode()
        self.assertEqual(page.own_source("é"), f"'sha256-{digest}'")

    def test_pieces(self):
        with tempfile.NamedTemporaryFile() as file:
            self.assertEqual(page.write_pieces([b"a", b"b"], file.name), hashlib.sha256(b"ab").digest())
            self.assertEqual(file.read(), b"ab")


# It prints its level, each test with when its output is shown, and each mark.
PRINTER = """#!/bin/sh
[ "$1 $2" = "--color --level" ] || exit 9
awk -F'\\t' -v level="$3" '
$1 == "run" { print "level " level } $1 == "setup" { print $5 } $1 == "done" { print $3, $4, $5, $6 }' "$4"
"""
STYLE, *SCRIPT = ("page.css", "style.js", "colours.js", "page.js", "tests.js", "paper.js")
WORKER = ("style.js", "worker.js")


def source_of(*names):
    return "\n" + "".join((TOP / "scripts/norigully/page" / it).read_text() for it in names)


class Made(unittest.TestCase):
    """Pages of a program that takes the place of `report`."""

    def setUp(self):
        made = tempfile.TemporaryDirectory()
        self.addCleanup(made.cleanup)
        self.folder = Path(made.name)
        self.program, self.scene, lines = self.folder / "program", self.folder / "scene", []
        self.write(PRINTER)
        lines.append(header((2024, 2, 29, 7, 5, 9), "ok"))
        run = Run(lines.append, 4, 1, profile="ci")
        run.done("a", "p", [Attempt("pass", 0)])
        for name in "fgh":
            run.done("a", name, [Attempt("fail:1", 0)])
        run.end(5)
        self.scene.write_text("".join(lines).removesuffix("\n"))

    def write(self, text):
        self.program.write_text(text)
        self.program.chmod(0o755)

    def made(self, *words):
        page.main([*words, "-o", f"{self.folder}/page", str(self.scene)], lambda: str(self.program))
        return (self.folder / "page").read_bytes()

    def test_reports(self):
        """A page has each report that can be chosen, and knows where in the first the tests are."""
        for choices, successes in (("all", ("", "immediate", "never")), ("few", [""])):
            found, keys = Page(self.made("--choices", choices)), set()
            for level in "none fail retry slow leak pass skip all".split():
                for failure in ("", "immediate", "final", "never"):
                    for success in successes:
                        shown = f"{success or 'never'} {failure or 'immediate'}"
                        report = f"level {level}\na p {shown}\na f {shown}\na g {shown}\na h {shown}\n".encode()
                        keys.add(key := f"{level},{failure},{success}")
                        with self.subTest(key=key):
                            self.assertEqual(found.report(key), report)
            self.assertEqual({*found.about["reports"]}, keys)
        self.assertEqual(found.about["tests"], [["a", "f", 2, 3], ["a", "g", 3, 4], ["a", "h", 4, 5]])
        self.assertEqual(found.about["lists"], {"failed": [0, 1, 2], "flaky": [], "slowest": []})
        self.assertIn("32 of 96", found.about["note"])

    def test_page(self):
        found = self.made("--title", "<a>").decode()
        self.assertEqual(found.count("&lt;a&gt;"), 2)
        script, style = source_of(*SCRIPT), source_of(STYLE)
        policy = f"default-src 'none'; script-src {page.own_source(script)}; style-src {page.own_source(style)}"
        policy += "; worker-src blob:; img-src data:; base-uri 'none'; form-action 'none'"
        for part in (
            f'content="{policy}">',
            f"<script>{script}</script>",
            f"<style>{style}</style>",
            f">{source_of(*WORKER)}</script>",
        ):
            self.assertIn(part, found)
        facts = {"Profile": "ci", "Run": "00000000-0000-4000-8000-000000000001", "Started": "2024-02-29 07:05:09"}
        facts["Took"] = "5.0 s"
        facts = "".join(f"<div><dt>{name}</dt> <dd>{value}</dd></div>" for name, value in facts.items())
        self.assertIn(f">{facts}</", found)
        text = "".join(f"a {it} never immediate\n" for it in "pfgh")
        self.assertIn(f'<pre id="text">\nlevel pass\n{text}</pre>', found)
        for name in ("about", "reports", "table"):
            self.assertRegex(found, f'\n?<script type="text/plain" id="{name}">[A-Za-z0-9+/]+=*</script>\n+<')

    def test_marks_that_change_more(self):
        """Where the report with marks is another one, no place is known."""
        self.write(PRINTER + 'wc -l < "$4"\n')
        self.assertEqual(Page(self.made("--choices", "few")).about["tests"], [["a", it, -1, -1] for it in "fgh"])

    def test_faults(self):
        for text, said in (
            ("#!/bin/sh\nexit 9\n", "report ended with status 9"),
            ("#!/bin/sh\nexit 3\n", "report ended with status 3"),
            ("#!/bin/sh\necho report: line 1: no >&2; exit 2\n", "line 1: no"),
            ('#!/bin/sh\necho "report: cannot read $4" >&2\n', f"cannot read {self.scene}"),
        ):
            with self.subTest(text=text), self.assertRaisesRegex(Bad, f"^{said}$"):
                self.write(text)
                self.made()

    def test_recorded(self):
        """A recorded run that failed has a page, and only files are read."""
        folder = self.folder / "run"
        folder.mkdir()
        (folder / "run.scene").write_bytes(b"run\tid\tci\t1\t1\t-\n" + DONE + b"done\tcut")
        words = ["-o", f"{self.folder}/page", "--recorded", str(folder)]
        with self.assertRaisesRegex(Bad, f"^cannot read {folder}$"):
            page.main(words, lambda: str(self.program))
        (folder / "outputs").touch()
        for status in (0, 3, 4, 100):
            self.write(f'#!/bin/sh\necho "$4" "$(wc -l < "$5/run.scene")" "$(cat "$5/outputs")" "$1"\nexit {status}\n')
            page.main(words, lambda: str(self.program))
            found = (self.folder / "page").read_text()
            self.assertTrue("pass 2  --recorded\n" in found and "<dd>ci</dd>" in found)
        self.write("#!/bin/sh\nexit 1\n")
        with self.assertRaisesRegex(Bad, "^replay ended with status 1$"):
            page.main(words, lambda: str(self.program))

    def test_output(self):
        reads, writes = os.pipe()
        with mock.patch("norigully.page.OUTPUT", writes):
            with page.opened(None) as file:
                entry.write(b"a", file.fileno())
        os.close(writes)
        self.assertEqual(os.read(reads, 9), b"a")
        os.close(reads)


if __name__ == "__main__":
    unittest.main()
