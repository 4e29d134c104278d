"""What a CI service shows of a run: a summary, and annotations of failures."""

import os
import tempfile
import unittest
from pathlib import Path
from unittest import mock

from norigully import ci_summary
from norigully.ci_summary import Failure, Summary, made_of, shortened
from norigully.entry import Bad
from norigully.scene_lines import Attempt, Run

HOSTILE = b"::set-output name=a::b\n  ::add-mask::x\n##[add-mask]y\n```\n</details><script>\r::error::z\x1b[31mred"
PASS = Attempt("pass", 0.5, b"", b"")


def failed(text=b"no", seconds=0.25, **how):
    return Attempt("fail:101", seconds, b"", text, **how)


def summary_of(lines):
    summary = Summary("a scene")
    for number, line in enumerate(lines, 1):
        summary.read(number, line.encode())
    return summary


def scene(*tests, total=None, seconds=2, skipped=0, is_ended=True):
    """The lines of a run of these tests: a name and its attempts, or a word for when output of flaky ones fails."""
    lines = []
    run = Run(lines.append, len(tests) if total is None else total, 1)
    for name, *attempts in tests:
        run.done("a", name, attempts)
    for _ in range(skipped):
        run.skip("a", "skipped")
    if is_ended:
        run.end(seconds)
    return lines


def markdown(lines):
    return "".join(summary_of(lines).markdown())


def annotations(lines):
    return "".join(summary_of(lines).annotations())


def part(name, *lines):
    code = "".join(f"    {it}\n" for it in lines)
    return f"<details><summary><code>{name}</code></summary>\n\n{code}\n</details>\n\n"


class Markdown(unittest.TestCase):
    def test_whole(self):
        lines = scene(
            ("b", PASS),
            ("c", Attempt("fail:1", 0.25, b"out", b"one\r\ntwo\n")),
            ("d", failed(), PASS),
            ("e", Attempt("exec", 90)),
        )
        wanted = "### ❌ The test run failed\n\n4 tests run, 2 passed, 1 flaky, 1 failed, 1 could not be started, "
        wanted += "0 skipped, in 2.0 s.\n\n" + part("a c", "one", "two").replace("two", "two\n\n    out")
        wanted += f"{part('a e', 'exec')}**Flaky:**\n\n{part('a d', 'no')}"
        wanted += "| Slowest tests | |\n|---|---|\n| <code>a e</code> | 1 min 30 s |\n"
        wanted += "".join(f"| <code>a {it}</code> | 500 ms |\n" for it in "bd") + "| <code>a c</code> | 250 ms |\n"
        self.assertEqual(markdown(lines), wanted)

    def test_outcomes(self):
        cancel = [*scene(is_ended=False), "end\t5\tinitial=1 finished=1 passed=1 cancel=signal\t0\t-\n"]
        for what, lines, came_to in (
            ("passed", scene(("b", PASS)), "✅ The test run passed"),
            ("failed", scene(("b", failed())), "❌ The test run failed"),
            ("none", scene(skipped=2), "❌ The test run had no tests"),
            ("nothing", scene(), "❌ The test run had no tests"),
            ("no beginning", scene(("b", PASS), is_ended=False)[1:], "❌ The test run did not end"),
            ("few", scene(("b", PASS), total=2), "❌ The test run was cut off"),
            ("no end", scene(("b", PASS), is_ended=False), "❌ The test run did not end"),
            ("another begins", [*scene(("b", PASS)), *scene(is_ended=False)], "❌ The test run did not end"),
            ("cancelled", cancel, "❌ The test run failed"),
            ("a comment after the end", [*scene(("b", PASS)), "# run\n", "\n"], "✅ The test run passed"),
            *(
                (
                    key,
                    ["run\t-\t-\t1\t1\t-\n", f"end\t5\tinitial=1 finished=1 {key}=1\t0\t-\n"],
                    "❌ The test run failed",
                )
                for key in "failed exec timedout setupfailed setupexec setuptimedout".split()
            ),
            (
                "stress",
                [*scene(("b", PASS))[:-1], "endstress\t5\t1/1\t1\t0\tinitial=1 finished=1\t0\t-\n"],
                "✅ The test run passed",
            ),
        ):
            with self.subTest(what=what):
                self.assertTrue(markdown(lines).startswith(f"### {came_to}\n\n"), markdown(lines)[:90])

    def test_counts(self):
        one = scene(("b", PASS), total=3, skipped=2, seconds=3723)
        self.assertIn("\n1 test run, 1 passed, 2 skipped, 2 not run, in 1 h 2 min.\n", markdown(one))
        late = scene(("b", PASS), ("c", Attempt("tmout", 1)), is_ended=False)
        self.assertIn("\n0 tests run, 0 passed, 0 skipped, in 0 ms.\n", markdown(late))
        late.append("end\t2000000000\tinitial=2 finished=2 passed=1 timedout=1\t0\t-\n")
        self.assertIn("\n2 tests run, 1 passed, 1 timed out, 0 skipped, in 2.0 s.\n", markdown(late))

    def test_many(self):
        """So many are shown, and the others are counted; of the slowest ten."""
        lines = scene(*((f"t{it}", failed()) for it in range(99)), *((f"f{it}", failed(), PASS) for it in range(60)))
        found = markdown(lines)
        self.assertEqual(found.count("<details>"), 100)
        self.assertIn("\nAnd 49 more.\n\n**Flaky:**\n", found)
        self.assertIn("\nAnd 10 more.\n\n| Slowest", found)
        self.assertEqual([it for it in range(60) if f"a f{it}</code> |" in found], [*range(10)])

    def test_room(self):
        """A summary is short enough for GitHub, whatever is long."""
        text = "\n".join(["x" * 1000] * 60).encode()
        lines = scene(*(("&" * 9000, failed(text), *more) for more in [()] * 60 + [(PASS,)] * 60))
        found = markdown(lines)
        left = [int(it.split()[1]) for it in found.split("\n") if it.startswith("And ")]
        self.assertEqual(found.count("<details>") + sum(left), 120)
        self.assertTrue(800_000 < len(found.encode()) < 2**20 and found.count("<details>") > 9)

    def test_hostile(self):
        """What tests print and are called is text."""
        lines = scene(("<b>`c`\n::warning::d|[e]", failed(HOSTILE)))
        for line in markdown(lines).split("\n"):
            with self.subTest(line=line):
                self.assertTrue(
                    line.startswith("    ") or not any(it in line for it in ("::", "##[", "`", "<b", "\x1b"))
                )
        self.assertIn(
            "<code>a &lt;b&gt;&#96;c&#96; &#58;&#58;warning&#58;&#58;d&#124;&#91;e&#93;</code>", markdown(lines)
        )
        self.assertIn("\n    ::error::zred\n", markdown(lines))
        self.assertEqual(annotations(lines).count("\n"), 1)
        self.assertEqual((ci_summary.escaped("a\x07b"), ci_summary.property_of("a\x07b")), ("ab", "ab"))
        self.assertEqual(
            ci_summary.escaped("a&b" + "c" * 300), "a&amp;b" + "c" * 297 + " &#91;3 characters left out&#93;"
        )

    def test_setup_scripts(self):
        line = "setupdone\t-\tdb\tmake-db\t-\t%s\t5\t0\tsplit\tout\t-\t-\t-\n"
        found = summary_of([line % "fail:3", line % "pass"])
        found = [(it.name, it.result, it.wrote) for it in found.failures]
        self.assertEqual(found, [("setup script db", "fail:3", ["out"])])

    def test_flaky_results(self):
        """A flaky test that counts as failed is a failure, of its attempts but the last."""
        lines = [it.replace("\tpass\tinitial", "\tfail\tinitial") for it in scene(("b", failed(b"first"), PASS))]
        found = summary_of(lines)
        self.assertEqual((found.failures[0].wrote, found.failures[0].result, found.flaky), (["first"], "fail:101", []))

    def test_wrong_lines(self):
        good = b"done\t-\ta\tb\tnever\timmediate\tpass\t-\t1\tpass\t5\t0\tsplit\t-\t-\t-\t-"
        self.assertIsNone(Summary("x").read(7, good))
        for line in (
            b"<testsuite/>",
            b"{}",
            b"done\tx",
            b"end",
            b"Done",
            good + b"\t-",
            good[:-2],
            good[:35],
            b"end\tx\t-",
            b"setupdone",
        ):
            with self.subTest(line=line), self.assertRaisesRegex(Bad, "^x: line 7: no line of a scene$"):
                Summary("x").read(7, line)


class Written(unittest.TestCase):
    def test_streams(self):
        for output, wrote in (
            (b"split\tout\\n\terr", ["err", "out"]),
            (b"split\tout\t-", ["out"]),
            (b"split\t \\n\t\\e[1m", []),
            (b"comb\tboth\t-", ["both"]),
            (b"split\t\\n~a\t-", ["~a"]),
            (b"split\t\\n\\n a\\r\\nb\\rc \\n\t\\x00\\xc2\\x9b", [" a\nb\nc"]),
            (b"split\t\\e[1;31mred\\e[m\\x07\t-", ["red"]),
        ):
            with self.subTest(output=output):
                fields = b"fail:1\t5\t0\t%b\t-\t-" % output
                self.assertEqual(Failure([b"a", b"b"], fields.split(b"\t")).wrote, wrote)

    def test_attempts(self):
        """Of earlier attempts what is said anew, and of many the last ones."""
        attempts = [b"fail:1\t5\t0\tsplit\t%b\t-\t-\t-" % it for it in (b"a", b"b", b"b", b"c")]
        wrote = Failure([b"a", b"b"], *(it.split(b"\t") for it in attempts)).wrote
        self.assertEqual(wrote, ["c", "attempt 3: b", "attempt 1: a"])
        many = [(b"fail:1\t5\t0\tsplit\t%d\t-\t-\t-" % it).split(b"\t") for it in range(1, 31)]
        wrote = Failure([b"a", b"b"], *many).wrote
        self.assertEqual((wrote[0], wrote[1], wrote[-1], len(wrote)), ("30", "attempt 29: 29", "attempt 11: 11", 20))

    def test_shortened(self):
        lines = [str(it) for it in range(41)]
        self.assertEqual(shortened("\n".join(lines[:40])), "\n".join(lines[:40]))
        self.assertEqual(shortened("\n".join(lines)), "\n".join([*lines[:20], "[1 lines left out]", *lines[21:]]))
        self.assertEqual(shortened("x" * 2000), "x" * 2000)
        self.assertEqual(shortened("x" * 2003), "x" * 2000 + " [3 characters left out]")


class Places(unittest.TestCase):
    def setUp(self):
        made = tempfile.TemporaryDirectory()
        self.addCleanup(made.cleanup)
        self.top = Path(made.name).resolve()
        (self.top / "junit/deep").mkdir(parents=True)
        for it in ("words.xml", "junit/py.xml", "junit/deep/a+b@c.py", "a.verylongname", "py.xml"):
            (self.top / it).touch()
        self.addCleanup(os.chdir, os.getcwd())

    def place(self, name, wrote, folder="."):
        os.chdir(self.top / folder)
        failure = Failure([name.encode(), b"a"], b"fail:1\t0\t0\tsplit\t-\t-\t-\t-".split(b"\t"))
        failure.wrote = [wrote]
        return failure.place()

    def test_forms(self):
        for name, wrote, place in (
            ("a", f"no.such:1\nat {self.top}/words.xml:3:1", ("words.xml", "3")),
            ("a", 'File "junit/py.xml", line 11, in x', ("junit/py.xml", "11")),
            ("a", "at junit/deep/a+b@c.py:line 12", ("junit/deep/a+b@c.py", "12")),
            ("a", "./words.xml:7", ("words.xml", "7")),
            ("a", "words.xml:12345678", None),
            ("a", "words.xml:1234567", ("words.xml", "1234567")),
            ("a", "xwords.xml:1 words.xml", None),
            ("a", "a.verylongname:1", None),
            ("a", "words.xml:3x", None),
            ("a", "deep:1 (words.xml:4)", ("words.xml", "4")),
            ("a", "words.xml:\u0661", None),
            ("example.com/x/junit", "    py.xml:3: it failed", ("junit/py.xml", "3")),
            ("example.com/x", "    py.xml:3: it failed", ("py.xml", "3")),
            ("x/junit/deep", "junit/py.xml:3", ("junit/py.xml", "3")),
            ("/".join("abcdefghi"), "py.xml:5", ("py.xml", "5")),
            ("junit", "deep/a+b@c.py:1", None),
        ):
            with self.subTest(name=name, wrote=wrote):
                self.assertEqual(self.place(name, wrote), place)

    def test_outside(self):
        """What is above the current folder is none of the repository."""
        self.assertIsNone(self.place("a", "../py.xml:3", "junit"))
        self.assertEqual(self.place("a", "../junit/py.xml:3", "junit"), ("py.xml", "3"))

    def test_deep_packages(self):
        """Of a package's path the last eight folders may be below the current one."""
        names = [*"abcdefgh"]
        (self.top / "/".join(names)).mkdir(parents=True)
        (self.top / "/".join([*names, "go.go"])).touch()
        self.assertEqual(self.place("/".join(["x", *names]), "go.go:1"), ("/".join([*names, "go.go"]), "1"))
        (self.top / "z" / "/".join(names)).mkdir(parents=True)
        (self.top / "z" / "/".join([*names, "only.go"])).touch()
        self.assertIsNone(self.place("/".join(["z", *names]), "only.go:1"))

    def test_each_once(self):
        """A log names the same few files a thousand times."""
        with mock.patch("os.path.isfile", return_value=False) as looked:
            self.assertIsNone(self.place("a", "words.xml:1\n" * 9 + "b.xml:1"))
        self.assertEqual(looked.call_count, 4)


class Annotations(unittest.TestCase):
    def test_lines(self):
        os.chdir(Path(__file__).resolve().parent.parent)
        lines = scene(
            ("b: 50%,", failed(b"README.md:3: one\ntwo")), ("c", Attempt("sig:6", 1)), ("d", failed(b"x" * 2001), PASS)
        )
        wanted = "::error file=README.md,line=3,title=a b%3A 50%25%2C::README.md:3: one%0Atwo\n"
        wanted += "::error title=a c::sig:6\n"
        wanted += f"::warning title=flaky%3A a d::{'x' * 2000} [1 characters left out]\n"
        self.assertEqual(annotations(lines), wanted)
        self.assertEqual(annotations(scene(("b", PASS))), "")
        self.assertEqual(ci_summary.message_of("a\rb"), "a%0Db")

    def test_many(self):
        for count, shown in (10, 10), (11, 9), (99, 9):
            with self.subTest(count=count):
                for kind, what, tests in (
                    ("error", "test failures", [(f"t{it}", failed()) for it in range(count)]),
                    ("warning", "flaky tests", [(f"t{it}", failed(), PASS) for it in range(count)]),
                ):
                    *found, end = annotations(scene(*tests)).split("\n")
                    more = [f"::{kind} title={what}::and {count - shown} more"] if count > shown else []
                    self.assertEqual((len(found), end), (shown + len(more), ""))
                    self.assertEqual([it for it in found if it.endswith(" more")], more)


class Made(unittest.TestCase):
    def test_words(self):
        needs = "needs a FILE, which is the last word"
        rows = ([], needs), (["a", "b"], needs), (["-", "b"], needs), (["-x"], "takes no -x"), (["-x", "b"], "takes no -x")
        for words, why in rows:
            with self.subTest(words=words), self.assertRaisesRegex(Bad, f"^--summary {why}$"):
                made_of("--summary", words, None)

    def test_files(self):
        with tempfile.NamedTemporaryFile() as file:
            file.write("".join(scene(("b", failed()))).encode() + b"<a>\n")
            file.flush()
            with self.assertRaisesRegex(Bad, f"^{file.name}: line 4: no line of a scene$"):
                made_of("--summary", [file.name], None)
            file.truncate(0)
            file.seek(0)
            file.write("".join(scene(("b", failed()))).encode())
            file.flush()
            for word, wanted in ("--summary", markdown), ("--annotations", annotations):
                self.assertEqual("".join(made_of(word, [file.name], None)), wanted(scene(("b", failed()))))
        of_input = mock.patch("norigully.entry.lines_of", lambda path: [b"<\n"])
        with of_input, self.assertRaisesRegex(Bad, "^standard input: "):
            made_of("--summary", ["-"], None)


if __name__ == "__main__":
    unittest.main()
