"""The process of an attempt of a test: how it ended, what it wrote, and nextest's times."""

import signal
import subprocess
import sys
import unittest
from types import SimpleNamespace
from unittest import mock

from norigully import attempt
from norigully.attempt import Clock, Process

FOREVER = float("inf")


def process(script, clock=None, **options):
    """A process of a line of sh, once it is over, and the calls that said it was slow."""
    times = {"grace_period": 60, "leak_timeout": 60, "max_output": 1, "slow": FOREVER, "timeout": FOREVER}
    made, calls = Process(
        ["sh", "-c", script], "/", {"PATH": "/usr/bin:/bin"}, SimpleNamespace(**{**times, **options}), clock or Clock()
    ), []
    made.wait(lambda taken, is_late: calls.append((taken, is_late)))
    return made, calls


class Ticks:
    """A clock that goes on by a second each time that it is looked at."""

    def __init__(self):
        self.at = 1000

    def now(self):
        self.at += 1
        return self.at


class Ends(unittest.TestCase):
    def test_results(self):
        for script, result in (
            ("exit 0", "pass"),
            ("exit 7", "fail:7"),
            ("kill -6 $$", "sig:6:ABRT"),
            ("sleep 60 & exit 0", "leak"),
            ("sleep 60 & exit 7", "fail+leak:7"),
            ("sleep 60 & kill -9 $$", "sig+leak:9:KILL"),
        ):
            with self.subTest(script=script):
                made, calls = process(script, leak_timeout=0.3 if "&" in script else 60)
                attempt.send(made.child, signal.SIGKILL)
                self.assertEqual((made.result(), calls), (result, []))

    def test_outputs(self):
        made, _ = process("echo out; echo Error: err >&2; exit 1")
        found = made.attempt()
        self.assertEqual(found.fields[0], "fail:1")
        self.assertEqual(found.fields[2:], ["0", "split", "out\\n", "Error: err\\n", "-", "err:0:Error: err"])
        made, _ = process("echo Error: err >&2")
        self.assertEqual(made.attempt().fields[-1], "-")
        self.assertTrue(0 < made.taken < 600)
        made, _ = process("echo Error: err >&2; sleep 60 & exit 0", leak_timeout=0.3)
        attempt.send(made.child, signal.SIGKILL)
        self.assertEqual((made.result(), made.attempt().fields[-1]), ("leak", "-"))
        made.periods = 1
        self.assertEqual(made.attempt().fields[2], "1")

    def test_environment(self):
        made, _ = process('pwd; echo "$PATH"; cat')
        self.assertEqual(bytes(made.wrote[made.child.stdout]), b"/\n/usr/bin:/bin\n")

    def test_too_much(self):
        """What wrote more than it may could not be executed, and ends."""
        for most, errors in ((0.0199, "it is more than the 0.0199 MB of --max-output"), (0.02, None)):
            with self.subTest(most=most):
                made, _ = process("head -c 10000 /dev/zero; head -c 10000 /dev/zero >&2; sleep 0.1", max_output=most)
                found = made.attempt()
                said = f"cannot keep what the test wrote\\,{errors}" if errors else "-"
                self.assertEqual((found.fields[0], found.fields[6]), ("exec" if errors else "pass", said))

    def test_no_memory(self):
        made, _ = process("echo out")
        kept = made.kept_attempt
        with mock.patch.object(made, "kept_attempt", side_effect=[MemoryError, None]):
            made.attempt()
        found = kept()
        self.assertEqual(
            (found.fields[0], found.fields[4:]),
            ("exec", ["", "", "cannot keep what the test wrote\\,out of memory", "-"]),
        )

        class Full(bytearray):
            def __iadd__(self, piece):
                raise MemoryError

        with mock.patch("norigully.attempt.bytearray", Full, create=True):
            made, _ = process("echo out; exec sleep 60")
        self.assertEqual((made.result(), made.child.returncode), ("exec", -signal.SIGTERM))


class Times(unittest.TestCase):
    def test_slow(self):
        """It is slow once more after each period, and ended at the timeout, by a signal that it may take."""
        made, calls = process(
            *("trap 'sleep 0.3; exit 3' TERM; while :; do sleep 0.01; done", Ticks()),
            **{"slow": 20, "timeout": 50, "grace_period": 10**9},
        )
        self.assertEqual([(taken // 10, is_late) for taken, is_late in calls], [(2, False), (4, False), (5, True)])
        self.assertEqual((made.result(), made.child.returncode), ("tmout", 3))
        self.assertEqual(made.attempt().fields[2], "1")

    def test_grace(self):
        for grace, script in (
            (30, "trap '' TERM; while :; do sleep 0.01; done"), (0, "trap 'exit 3' TERM; while :; do sleep 0.01; done")
        ):
            with self.subTest(grace=grace):
                made, calls = process(script, Ticks(), timeout=30, grace_period=grace)
                self.assertEqual((made.child.returncode, calls[0][1], len(calls)), (-signal.SIGKILL, True, 1))

    def test_end_after_the_end(self):
        made, _ = process("exit 0")
        with mock.patch("norigully.attempt.send") as sent:
            made.end(signal.SIGTERM)
        self.assertEqual((sent.call_count, made.kill_at), (0, FOREVER))

    def test_clock(self):
        """Tests have no time between Ctrl-Z and what continues the script."""
        clock, child = Clock(), SimpleNamespace(child=None)
        times = mock.patch("norigully.attempt.time.monotonic", side_effect=[11, 20, 25, 40])
        stopped = mock.patch(
            "os.kill", side_effect=lambda pid, number: self.assertEqual((clock.now(), number), (11, signal.SIGSTOP))
        )
        with times, stopped, mock.patch("norigully.attempt.send") as sent:
            clock.stop([child])
            self.assertEqual((clock.now(), clock.now()), (16, 31))
        self.assertEqual([it.args for it in sent.call_args_list], [(None, signal.SIGSTOP), (None, signal.SIGCONT)])

    def test_sessions(self):
        """It is in a session of its own, and reads nothing."""
        script = "import os; print(os.getsid(0) == os.getpid(), os.read(0, 9))"
        made, _ = process(f"exec {sys.executable} -c '{script}'")
        self.assertEqual(bytes(made.wrote[made.child.stdout]), b"True b''\n")
        self.assertEqual(subprocess.DEVNULL, -3)


if __name__ == "__main__":
    unittest.main()
