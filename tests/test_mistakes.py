"""The mistakes of crates: their twins, their number, and their record."""

import re
import unittest

from gate import twins
from norigully import TOP

EDITS = {f"{it.parts[-3]}/{it.stem}": it.read_text() for it in sorted(TOP.glob("crates/*/mistakes/*.edit"))}
LISTED = "other_forms.txt"


def edit(*texts):
    return "file: a\n" + "".join(f"{kind}: {text}\n" for kind, text in zip(("old", "new", "right"), texts))


class Twins(unittest.TestCase):
    def test_forms(self):
        for texts, is_right in (
            (("f(x)", "f(y)"), True),
            (("f(x)", "f(&x[..0])"), False),
            (("f(x)", "f(&x[..0])", "f(&x[0..])"), True),
            (("f(x)", "f(&x[..0])", "f(&x[..])"), False),
            (("f(x)", "f(y)", "f(x)"), False),
            (("f(x)", "f(y, x)", "f(x, x)"), True),
            (("0", "0 + 1", "0 + 0"), True),
            (('"a b"', "'\\''"), True),
            (("a == b", "a != b && c", "a <= b || d"), True),
        ):
            with self.subTest(texts=texts):
                self.assertEqual(twins.is_of_one_form(*texts, *[None] * (3 - len(texts))), is_right)

    def test_what_is_listed(self):
        same, other = edit("f(x)", "f(y)"), edit("f(x)", "f(y)") + edit("x", "!x")
        form = "a/b: its form is another one, and it has no `right:` of that form"
        for text, names, most, said in (
            (same, [], 0, []),
            (other, [], 0, [form]),
            (other, ["a/b"], 1, []),
            (same, ["a/b"], 1, [f"{LISTED}: a/b is gone, or of one form now"]),
            (other, ["a/b"], 2, [f"{LISTED} has 1 names, and not 2"]),
        ):
            with self.subTest(text=text, names=names, most=most):
                self.assertEqual([*twins.wrong([("a/b", text)], names, most)], said)

    def test_mistakes(self):
        self.assertEqual([*twins.wrong(EDITS.items(), twins.listed())], [])


class Record(unittest.TestCase):
    def test_number(self):
        """One that is removed together with its line is missed."""
        found = re.search(r"There are (\d+) mistakes", (TOP / "CONTRIBUTING.md").read_text())
        self.assertEqual(len(EDITS), int(found[1]))

    def test_lines(self):
        """Each is of a mistake that is there: else `scripts/check-mistakes --record` leaves it out."""
        lines = [it for it in (TOP / "mistakes/refused.txt").read_text().splitlines() if not it.startswith("#")]
        self.assertEqual({it.split()[0] for it in lines} - {*EDITS}, set())


if __name__ == "__main__":
    unittest.main()
