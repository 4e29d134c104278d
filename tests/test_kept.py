"""What is kept is there where it is whole, this user's, and in a folder that nobody else can write or replace."""

import fcntl
import os
import tempfile
import threading
import time
import unittest
from pathlib import Path
from unittest import mock

from norigully import kept
from norigully.kept import Kept

DAY = 24 * 3600


class Entries(unittest.TestCase):
    def setUp(self):
        made = tempfile.TemporaryDirectory()
        self.addCleanup(made.cleanup)
        self.above = Path(made.name, "above")
        self.at = self.above / "entries"
        self.kept = Kept(self.at, 3)
        self.kept.keep("a", b"bytes")
        self.file = self.at / "a"

    def test_kept(self):
        self.assertEqual(self.kept.find("a"), b"bytes")
        self.assertIsNone(self.kept.find("b"))
        self.assertEqual([oct(it.stat().st_mode & 0o777) for it in (self.at, self.file)], ["0o700", "0o600"])
        self.kept.keep("a", b"")
        self.assertEqual(self.kept.find("a"), b"")
        self.kept.keep_file("c", self.file)
        self.assertEqual((self.at / "c").stat().st_mode & 0o777, 0o700)
        self.assertEqual(self.kept.find("c"), self.file.read_bytes())
        self.assertEqual(sorted(it.name for it in self.at.iterdir()), ["a", "c"])

    def test_long(self):
        text = b"x" * (kept.PIECE + 1)
        self.kept.keep("long", text)
        self.assertEqual(self.kept.find("long"), text)

    def test_what_is_not_whole(self):
        whole = self.file.read_bytes()
        for text in (whole[:-1], whole + b"0", whole[1:], b"", whole[:63], b"other" + whole[5:]):
            self.file.write_bytes(text)
            with self.subTest(text=text):
                self.assertIsNone(self.kept.find("a"))
        self.file.write_bytes(whole)
        for mode, found in ((0o620, None), (0o602, None), (0o644, b"bytes")):
            self.file.chmod(mode)
            self.assertEqual(self.kept.find("a"), found)

    def test_what_is_no_file(self):
        self.file.rename(self.at / "b")
        self.file.symlink_to("b")
        os.mkfifo(self.at / "c")
        (self.at / "d").mkdir()
        self.assertEqual([self.kept.find(it) for it in "abcd"], [None, b"bytes", None, None])

    def test_another_user(self):
        with mock.patch("os.geteuid", lambda: os.getuid() + 1):
            self.assertFalse(self.kept.is_there())
            self.kept.keep("b", b"")
        self.assertEqual([*self.at.iterdir()], [self.file])

    def test_folders(self):
        """Others must not be able to write it, or to put another one in its place."""
        for folder, mode, is_there in (
            *((self.at, it, False) for it in (0o770, 0o707, 0o720, 0o702)),
            (self.at, 0o755, True),
            (self.above, 0o777, False),
            (self.above, 0o1777, True),
            (self.above, 0o755, True),
            (self.above, 0o702, False),
        ):
            with self.subTest(folder=folder.name, mode=oct(mode)):
                before = folder.stat().st_mode & 0o7777
                folder.chmod(mode)
                self.assertEqual(self.kept.is_there(), is_there)
                folder.chmod(before)
        link = self.above / "link"
        link.symlink_to("entries")
        self.assertFalse(Kept(link, 3).is_there())
        self.assertFalse(Kept(self.file, 3).is_there())
        self.assertFalse(Kept(None, 3).is_there())
        self.assertIsNone(Kept(None, 3).find("a"))

    def test_groups(self):
        """A group of the owner's own number has no other member."""
        seen = lambda uid, gid, mode: mock.Mock(st_uid=uid, st_gid=gid, st_mode=mode)  # noqa: E731
        own = os.geteuid()
        for folder, is_guarded in (
            (seen(own, own, 0o770), True),
            (seen(own, own + 1, 0o770), False),
            (seen(0, 0, 0o755), True),
            (seen(own + 1, own + 1, 0o700), False),
        ):
            self.assertEqual(bool(kept.is_guarded(mock.Mock(stat=lambda folder=folder: folder))), is_guarded)

    def test_shrink(self):
        now = time.time()
        ages = {"a": 1, "b": 2, "c": 29.5 * DAY, "d": 3, "e": 30.5 * DAY}
        for name, age in ages.items():
            self.kept.keep(name, b"")
            os.utime(self.at / name, (now - age, now - age))
        for name, age in (("left", DAY + 60), ("new", DAY - 60)):
            (self.at / name).mkdir()
            (self.at / name / "x").touch()
            os.utime(self.at / name, (now - age, now - age))
        Kept(self.at, 9).shrink()
        self.assertEqual(sorted(it.name for it in self.at.iterdir()), ["a", "b", "c", "d", "new"])
        self.kept.shrink()
        self.assertEqual(sorted(it.name for it in self.at.iterdir()), ["a", "b", "d", "new"])
        self.kept.find("b")
        Kept(self.at, 1).shrink()
        self.assertEqual(sorted(it.name for it in self.at.iterdir()), ["b", "new"])

    def test_lock(self):
        waited = []
        with self.kept.locked(lambda: waited.append("first")):
            opened = os.open(self.at, os.O_RDONLY)
            self.assertRaises(BlockingIOError, fcntl.flock, opened, fcntl.LOCK_EX | fcntl.LOCK_NB)
            is_waiting, done = threading.Event(), threading.Event()

            def second():
                with self.kept.locked(is_waiting.set):
                    done.set()

            other = threading.Thread(target=second)
            other.start()
            self.assertTrue(is_waiting.wait(60) and not done.is_set())
        other.join(60)
        os.close(opened)
        self.assertTrue(done.is_set() and not waited)
        with Kept(None, 3).locked():
            pass


class Folders(unittest.TestCase):
    def test_places(self):
        for variables, folder in (
            ({"XDG_CACHE_HOME": "/c", "HOME": "/h"}, Path("/c/norigully/it")),
            ({"XDG_CACHE_HOME": "c", "HOME": "/h"}, Path("/h/.cache/norigully/it")),
            ({"HOME": "/h"}, Path("/h/.cache/norigully/it")),
            ({"HOME": "h"}, None),
        ):
            with self.subTest(variables=variables), mock.patch.dict(os.environ, variables, clear=True):
                self.assertEqual(kept.folder("it"), folder)

    def test_sums(self):
        self.assertNotEqual(kept.sum_of("a", "b"), kept.sum_of("ab"))
        self.assertEqual(kept.sum_of(b"a", 1), kept.sum_of(b"a", 1))


if __name__ == "__main__":
    unittest.main()
