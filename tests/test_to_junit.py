"""JUnit XML of runs, and what is read back of it."""

import unittest
from pathlib import Path
from tempfile import TemporaryDirectory

from norigully import junit, to_junit
from norigully.ci_summary import Summary
from norigully.entry import Bad
from norigully.recorded import record

CASES = Path(__file__).resolve().parent.parent / "cases"
# Scenes that do not come back as they are, and why (docs/REAL_RUNS.md).
IN_TURN = ("catch2", "hostile", "phpunit9", "pytest")
OF_CARGO = "bench", "both", "build", "early", "own", "panic", "two-runs"
ONE_OUTPUT = ("libtest", "libtest-bench", "libtest-none", *(f"cargo-{it}" for it in OF_CARGO))
COUNTED = ("cpplint",)
BEGUN = b"run\t5b7d21e4-83c7-4f51-9ac1-4f2f8f1f0d2c\tdefault\t1\t1\t-\n"
DONE = b"done\t-\ta&b\t<c>\tnever\timmediate\t%b\tinitial=1 finished=1 passed=1\t1\t%b\n"
ENDED = b"end\t1500000000\tinitial=1 finished=1 %b=1\t0\t-\n"
PASSED = b"pass\t2000000\t0\tsplit\tout\\n\t-\t-\t-"
FAILED = b"%b\t2000000\t0\tsplit\tout\\n\ta \\e[1m]]>\\r\\nb\t-\terr:4:]]>\\r"
SHOWN = 'message="]]&gt;" type="%s">]]&gt;&#13;'
STREAMS = "<system-out>out\n</system-out><system-err>a ]]&gt;&#13;\nb</system-err>"
# The element of a test, by the attempts of it, and the words for a flaky one.
ELEMENTS = (
    ([PASSED], b"pass", "<system-out>out\n</system-out>"),
    ([FAILED % b"fail:7"], b"pass", f"<failure {SHOWN % 'test failure with exit code 7'}</failure>{STREAMS}"),
    ([FAILED % b"tmout"], b"pass", f"<failure {SHOWN % 'test timeout'}</failure>{STREAMS}"),
    ([FAILED % b"sig:6:ABRT"], b"pass", f"<failure {SHOWN % 'test abort'}</failure>{STREAMS}"),
    (
        [b"sig:6:ABRT\t0\t0\tsplit\t-\t-\t-\t-"],
        b"pass",
        '<failure message="aborted with signal 6 (SIGABRT)" type="test abort">'
        "aborted with signal 6 (SIGABRT)</failure>",
    ),
    (
        [b"fail+leak:7\t0\t0\tsplit\t-\t-\t-\t-"],
        b"pass",
        '<failure type="test failure with exit code 7, and leaked handles"></failure>',
    ),
    (
        [b"exec\t0\t0\tstart\tno\\,file\t-\t-\t-"],
        b"pass",
        '<error message="no: file" type="execution failure">no: file</error><system-err>no: file</system-err>',
    ),
    (
        [b"exec\t0\t0\tsplit\tout\t-\ttoo much\\,2 MB\t-"],
        b"pass",
        '<error message="too much: 2 MB" type="execution failure">too much: 2 MB</error><system-out>out</system-out>',
    ),
    (
        [FAILED % b"fail:7", PASSED],
        b"pass",
        f'<flakyFailure time="0.002000000" {SHOWN % "test failure with exit code 7"}{STREAMS}</flakyFailure>'
        "<system-out>out\n</system-out>",
    ),
    (
        [FAILED % b"fail:7", FAILED % b"tmout"],
        b"pass",
        f"<failure {SHOWN % 'test failure with exit code 7'}</failure>"
        f'<rerunFailure time="0.002000000" {SHOWN % "test timeout"}{STREAMS}</rerunFailure>{STREAMS}',
    ),
)


def xml_of(*lines, folder):
    file = Path(folder, "a.scene")
    file.write_bytes(b"".join(lines))
    return "".join(to_junit.made_of("--to-junit", [str(file)], None))


def came_to(lines):
    summary = Summary("a")
    for number, line in enumerate(lines, 1):
        summary.read(number, line)
    return summary.came_to()


class ToJunit(unittest.TestCase):
    def setUp(self):
        made = TemporaryDirectory()
        self.addCleanup(made.cleanup)
        self.folder = made.name

    def test_elements(self):
        for attempts, flaky, wanted in ELEMENTS:
            with self.subTest(attempts=attempts):
                xml = xml_of(BEGUN, DONE % (flaky, b"\t".join(attempts)), ENDED % b"passed", folder=self.folder)
                nanos = int(attempts[0].split(b"\t")[1])
                case = f'<testcase name="&lt;c&gt;" classname="a&amp;b" time="0.{nanos:09}">'
                self.assertIn(f"{case}{wanted}</testcase>\n", xml)

    def test_document(self):
        lines = [BEGUN, b"skip\t-\ta&b\td\n", DONE % (b"pass", FAILED % b"fail:1"), ENDED % b"failed"]
        xml = xml_of(*lines, folder=self.folder).split("\n")
        counts = 'tests="2" failures="1" errors="0" skipped="1"'
        id = 'uuid="5b7d21e4-83c7-4f51-9ac1-4f2f8f1f0d2c" time="1.500000000"'
        self.assertEqual(xml[0], '<?xml version="1.0" encoding="UTF-8"?>')
        self.assertEqual(xml[1], f'<testsuites name="nextest-run" {counts} {id}>')
        self.assertEqual(xml[2], f'<testsuite name="a&amp;b" {counts}>')
        self.assertEqual(xml[3], '<testcase name="d" classname="a&amp;b" time="0.000000000"><skipped/></testcase>')
        self.assertEqual(xml[-3:], ["</testsuite>", "</testsuites>", ""])

    def test_a_flaky_test_that_counts_as_failed(self):
        xml = xml_of(BEGUN, DONE % (b"fail", b"\t".join([FAILED % b"fail:1", PASSED])), folder=self.folder)
        self.assertIn('><failure type="flaky failure"/><flakyFailure ', xml)

    def test_a_red_run_without_a_test_that_failed(self):
        for lines, why in (
            ([BEGUN], "did not end"),
            ([BEGUN, DONE % (b"pass", PASSED), b"end\t0\tinitial=2 finished=1 passed=1\t0\t-\n"], "was cut off"),
            ([BEGUN, DONE % (b"pass", PASSED), ENDED % b"passed=1 cancel"], "failed"),
        ):
            with self.subTest(why=why):
                xml = xml_of(*lines, folder=self.folder)
                self.assertIn('<testcase name="[no test]" classname="run" ', xml)
                self.assertIn(f'><failure message="The test run {why}."/></testcase>', xml)

    def test_read_back(self):
        others = set()
        for file in sorted((CASES / "real").rglob("*.scene")):
            xml = "".join(to_junit.made_of("--to-junit", [str(file)], None)).encode()
            if b"".join(junit.scene_of([("run.xml", xml)])) != file.read_bytes():
                others.add(file.stem)
        self.assertEqual(others, {*IN_TURN, *ONE_OUTPUT, *COUNTED})

    def test_red_stays_red(self):
        for file in sorted((CASES / "printed").glob("*.args")):
            scene = file.with_suffix("")
            xml = "".join(to_junit.made_of("--to-junit", [str(scene)], None)).encode()
            made = b"".join(junit.scene_of([("run.xml", xml)])).splitlines()
            is_red = [came_to(it) not in ("passed", "had no tests") for it in (scene.read_bytes().splitlines(), made)]
            with self.subTest(scene=scene.name):
                self.assertEqual(*is_red)

    def test_a_recorded_run(self):
        record(BEGUN + DONE % (b"pass", FAILED % b"fail:7") + ENDED % b"failed", Path(self.folder, "run"))
        xml = "".join(to_junit.made_of("--to-junit", ["--recorded", f"{self.folder}/run"], None))
        self.assertIn(STREAMS, xml)

    def test_words(self):
        for words, why in (([], "needs a FILE, which is the last word"), (["--level", "all", "f"], "takes no --level")):
            with self.subTest(words=words), self.assertRaises(Bad) as found:
                to_junit.made_of("--to-junit", words, None)
            self.assertEqual(str(found.exception), f"--to-junit {why}")
