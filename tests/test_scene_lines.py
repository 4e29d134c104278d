"""Lines of scenes: how values are spelled, and what a run counts."""

import unittest
from dataclasses import dataclass

from norigully import TOP, scene_lines
from norigully.scene_lines import Attempt, Run, WholeRun, header, nanos, part, signal_result, stream, text
from norigully.scene_lines import unescaped, words


class Spelling(unittest.TestCase):
    def test_texts(self):
        for value, spelled in (
            (None, "-"),
            ("", ""),
            ("-", "\\x2d"),
            ("--", "--"),
            ("é a", "é a"),
            ("a\\b", "a\\\\b"),
            ("a\\\n\t\r\x1b", "a\\\\\\n\\t\\r\\e"),
            ("\x00\x1f\x7f", "\\x00\\x1f\\x7f"),
            ("\\x41\n", "\\\\x41\\n"),
            ("\x80\u2028", "\x80\u2028"),
            ("\ud800\udc80\udcff\udfff\n", "\ufffd\ufffd\ufffd\ufffd\\n"),
        ):
            with self.subTest(value=value):
                self.assertEqual(text(value), spelled)

    def test_outputs(self):
        for output, spelled in (
            (None, "-"),
            (b"", ""),
            ("", ""),
            (b"-", "\\x2d"),
            (b"\x80\xff\xc3\xa9", "\\x80\\xffé"),
            ("\udc7f\udc80\udcff\udd00", "\ufffd\\x80\\xff\ufffd"),
        ):
            with self.subTest(output=output):
                self.assertEqual(stream(output), spelled)

    def test_unescaped(self):
        for field in (b"a\\\\\\n\\t\\r\\e", b"\\x00\\xfF", b""):
            self.assertEqual(stream(unescaped(field)).lower().encode(), field.lower())
        for field in (b"\\", b"\\q", b"\\x4", b"\\xg0", b"\\@0"):
            self.assertIsNone(unescaped(field))

    def test_other_values(self):
        self.assertEqual(words(["a,b", "-", None]), "a,b\\,\\x2d\\,-")
        self.assertEqual((words([]), words(None), scene_lines.UNKNOWN_FAILURE), ("-", "-", "fail:101"))
        self.assertEqual((part(None), part(("out", 3, b"\xff\n"))), ("-", "out:3:\\xff\\n"))
        self.assertEqual((signal_result(6), signal_result(200)), ("sig:6:ABRT", "sig:200"))
        line = header((2024, 2, 29, 7, 5, 9, 3, 60, 0), "ok")
        self.assertEqual(line, "header\t00000000-0000-4000-8000-000000000001\t-\t-\t2024,2,29,7,5,9\tok\n")

    def test_times(self):
        for time in ("nan", "inf", "-1", "abc", "", "1e1000000", "1e99999999", "-1e99999999", None, "1.", "\u0663"):
            with self.subTest(time=time):
                self.assertEqual(nanos(time), "0" if time not in ("1.", "\u0663") else nanos(str(float(time))))
        for time, wanted in (
            ("1.5", 1_500_000_000),
            ("0.123456789", 123_456_789),
            ("0.0000000005", 1),
            ("0.00000000049", 0),
            ("2.0000000025", 2_000_000_003),
            ("-0.0000000004", 0),
            (61.2, 61_200_000_000),
            ("999999999999999999.9", 999_999_999_999_999_999_900_000_000),
            ("3e29", 3 * 10**38),
            ("4e29", 0),
            (1e-7, 100),
        ):
            with self.subTest(time=time):
                self.assertEqual(nanos(time), str(wanted))


class Attempts(unittest.TestCase):
    def test_fields(self):
        for how, fields in (
            ({"stdout": b"a", "stderr": b"-"}, "pass 5 0 split a \\x2d - -"),
            ({}, "pass 5 0 split - - - -"),
            ({"combined": b"a", "is_slow": True}, "pass 5 1 comb a - - -"),
            ({"start_error": ["a", "b"]}, "pass 5 0 start a\\,b - - -"),
            ({"errors": ["e"], "highlight": ("err", 0, b"x")}, "pass 5 0 split - - e err:0:x"),
        ):
            with self.subTest(how=how):
                self.assertEqual(" ".join(Attempt("pass", "0.000000005", **how).fields), fields)
        attempt = Attempt("fail:1", 0, b"a", b"b", is_slow=True, highlight=("out", 0, b"a"))
        attempt.forget(["no memory"])
        self.assertEqual(attempt.fields, ["fail:1", "0", "1", "split", "-", "-", "no memory", "-"])


@dataclass
class Ended:
    """How an attempt of a scene ended, of which the statistics are counted."""

    result: str
    is_slow: bool = False


def counts_of(rows):
    """For each `done` line of a scene its statistics and what is counted up to it; nothing where the scene's own are
    not consistent: some line has another number of finished or planned tests than there are."""
    planned = next((int(row[3]) for row in rows if row[0] == "run"), None)
    run, compared = Run(lambda line: None, planned, 1), []
    for row in rows:
        if row[0] in ("substart", "setupdone", "cancel", "kill") or planned is None:
            return []
        if row[0] == "skip":
            run.count("skipped")
        if row[0] == "done":
            stats = dict(pair.split("=") for pair in row[7].split()) if row[7] != "-" else {}
            counted = str(planned), str(len(compared) + 1)
            if row[6] != "pass" or (stats.get("initial"), stats.get("finished")) != counted:
                return []
            attempts = [row[place : place + 8] for place in range(9, len(row), 8)]
            run.count_finished([Ended(result, is_slow == "1") for result, _, is_slow, *_ in attempts])
            compared.append((stats, dict(pair.split("=") for pair in run.stats().split())))
    return compared


class Counts(unittest.TestCase):
    def test_one_attempt(self):
        for result, keys in {
            "pass": "passed",
            "leak": "passed leaky",
            "tmpass": "passed",
            "leakfail": "failed leakyfailed",
            "exec": "exec",
            "tmout": "timedout",
            "fail:3": "failed",
            "sig:6:ABRT": "failed",
        }.items():
            for is_slow, is_flaky in ((False, False), (True, False), (False, True)):
                with self.subTest(result=result, is_slow=is_slow, is_flaky=is_flaky):
                    run = Run(lambda line: None, 0, 0)
                    run.count_finished([Ended("fail:1")] * is_flaky + [Ended(result, is_slow)])
                    more = (["slow"] if is_slow and result != "tmpass" else []) + ["flaky"] * is_flaky
                    wanted = ["finished", *keys.split(), *(more if "passed" in keys else [])]
                    self.assertEqual(run.stats().split(), [f"{it}=1" for it in wanted])

    def test_scenes(self):
        """What is counted are the statistics of every scene of cases/ that are consistent."""
        count = 0
        for file in sorted((TOP / "cases").glob("**/*")):
            if file.suffix in ("", ".scene") and file.is_file():
                lines = file.read_bytes().decode(errors="replace").splitlines()
                try:
                    compared = counts_of([line.split("\t") for line in lines if not line.startswith("#")])
                except (IndexError, ValueError):
                    continue
                for stats, counted in compared:
                    count += 1
                    with self.subTest(file=file.name):
                        self.assertEqual(stats, counted)
        self.assertGreater(count, 300)


class Lines(unittest.TestCase):
    def test_run(self):
        lines, failed = [], Attempt("fail:1", 1)
        run = Run(lines.append, 3, 2, 4, "ci", "id")
        run.start("a", "b", ["x", "y z"])
        run.slow("a", "b", 1, 2, 60, True)
        run.slow("a", "b", 1, 2, 60)
        run.retry("a", "b", failed, 1, 2)
        run.done("a", "b", [failed, Attempt("pass", 1)], "final", "never")
        run.done("a", "c", [failed], total=3)
        run.line_of("a", "e", [failed])
        run.skip("a", "d")
        run.cancel(2, "signal")
        run.kill(1, "interrupt")
        run.end(9)
        none, stats = "- - split - - - -".split(), "initial=3 finished=1 passed=1 flaky=1"
        of, more = "1000000000 0 split - - - -", "initial=3 finished=2 passed=1 flaky=1 failed=1"
        wanted = [
            "run id ci 3 2 tests=4",
            "start - a b initial=3 x\\,y_z",
            "slow - a b 1 2 60000000000 1",
            "slow - a b 1 2 60000000000 0",
            f"retry - a b 1 2 0 immediate fail:1 {of}",
            "retrystart - a b 2 2 -",
            f"done - a b final never pass {stats.replace(' ', '_')} 2 fail:1 {of} pass {of}",
            f"done - a c never immediate pass {more.replace(' ', '_')} 3 fail:1 {of}",
            f"done - a e never immediate pass {more.replace(' ', '_')} 1 fail:1 {of}",
            "skip - a d",
            "cancel 0 2 signal",
            "kill 0 1 interrupt",
            f"end 9000000000 {more.replace(' ', '_')}_skipped=1_cancel=interrupt 0 -",
        ]
        self.assertEqual([it.replace(" ", "_").replace("\t", " ") for it in lines], [f"{it}\n" for it in wanted])
        self.assertEqual(len(none), 7)
        Run(lines.append, 0, 1).end(0)
        self.assertEqual(lines[-2:], [f"run\t{scene_lines.RUN_ID}\tdefault\t0\t1\t-\n", "end\t0\t-\t0\t-\n"])

    def test_whole_run(self):
        """The totals are known in the end, also of what went into a file."""
        for count, size in ((0, 1 << 20), (1, 1 << 20), (3000, 1 << 20), (0, 7), (9, 7), (9, 50)):
            self.addCleanup(setattr, WholeRun, "PIECE", WholeRun.PIECE)
            WholeRun.PIECE = size
            run, direct = WholeRun(), []
            other = Run(direct.append, count, 2, 5)
            for number in range(count):
                run.passed("é", f"t{number}", "5")
                other.done("é", f"t{number}", [Attempt("pass", "0.000000005")])
            for it in (run, other) if count else ():
                it.done("b", "x" * (1 << 20), [Attempt("fail:1", 1)])
            for it in (run, other):
                it.end(5)
            with self.subTest(count=count, size=size):
                self.assertEqual(b"".join(run.lines(count, 2, 5)), "".join(direct).encode())
        self.assertEqual(b"".join(WholeRun().lines(0, 0, 0)).split(b"\t")[-1], b"-\n")


if __name__ == "__main__":
    unittest.main()
