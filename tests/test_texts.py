"""What is found in texts and left out of them: why a test failed, lines of another text, what XML cannot have, and what
a terminal does not show."""

import codecs
import io
import tempfile
import unittest
from collections import Counter

from norigully import page_text
from norigully.held_lines import held
from norigully.panics import highlight_in
from norigully.xml_characters import BEGINNING, LONGEST, without_unfit


class Panics(unittest.TestCase):
    def test_what_says_why(self):
        panic = b"thread 'main' panicked at src/lib.rs:5:9:\nit failed"
        newer = panic.replace(b"' p", b"' (42) p")
        for stdout, stderr, found in (
            (b"", b"", None),
            (b"", panic, ("err", 0, panic)),
            (b"", newer + b"  \n", ("err", 0, newer)),
            (b"", b"x\n" + panic + b"\nnote: run with", ("err", 2, panic)),
            (b"", panic + b"\nstack backtrace:\n", ("err", 0, panic)),
            (b"", panic + b"\nnote: a\n" + newer, ("err", len(panic) + 9, newer)),
            (b"", b"x " + panic, None),
            (b"", b"x\nError: b\n", ("err", 2, b"Error: b")),
            (b"", b"Error: a\n" + panic, ("err", 9, panic)),
            (panic, b"", None),
            (
                b"x\nnote: test did not panic as expected at y \nz",
                b"",
                ("out", 2, b"note: test did not panic as expected at y"),
            ),
        ):
            with self.subTest(stderr=stderr):
                self.assertEqual(highlight_in(stdout, stderr), found)


class Held(unittest.TestCase):
    def test_lines(self):
        for text, parts, places in (
            ("one\ntwo", ["one", "two", "three", "two\none"], {0, 1}),
            ("E   one\nE   two", ["one\n\n two "], {0}),
            ("Error: one", ["one"], {0}),
            ("someone", ["one"], set()),
            ("someone ", ["someone"], {0}),
            ("", ["", "a"], {0}),
            ("a", ["\n \n"], {0}),
            ("a\nb\na\nb", ["a\nb", "a\nb\na\nb", "a\nb\na\nb\na"], {0, 1}),
            (f"x {'y' * 300}", ["y" * 300, "z" + "y" * 299], {0}),
            ("x" * 300, ["x" * 300], {0}),
            ("1234567", ["234567", "1234567"], {1}),
            ("-234567", ["234567"], {0}),
            ("a-12345678", ["12345678", "2345678"], {0}),
        ):
            with self.subTest(text=text[:20], parts=parts[0][:20]):
                self.assertEqual(held(text, parts), places)

    def test_many_of_one_end(self):
        """Of the lines with the same end some are looked for."""
        parts = [f"{it}{'x' * 300}" for it in range(12)]
        self.assertEqual(held("\n".join(parts), parts), {*range(12)})
        self.assertEqual(held(parts[11], parts), set())
        self.assertEqual(held(parts[7], parts), {7})


class Xml(unittest.TestCase):
    def test_characters(self):
        for text, wanted, left_out in (
            (b"<a>\t\r\n &#9;&#10;&#13;&#32;&#xD7FF;&#xE000;&#xFFFD;&#x10000;&#x10FFFF;</a>", None, {}),
            (b"abcd\x00e\x1ff", b"abcdef", {"U+0000": 1, "U+001F": 1}),
            (b"\x1b[31mred\x1b[m\x1b[1;2:3K \x1b[A", b"red [A", {"U+001B": 4}),
            (b"&#27;[1ma&#x1B;[0m&#027;[m&#x01b;[K", b"a", {"U+001B": 4}),
            (b"&#0;&#8;&#31;&#xD800;&#xDFFF;&#xFFFE;&#xFFFF;&#x110000;&#99999999;", b"", 9),
            (b"&amp#27;[31ma&amp#27;b", b"a&amp#27;b", {"U+001B": 1}),
            (b"<![CDATA[a&#27;[1m\x1b[1m]]>&#0;", b"<![CDATA[a&#27;[1m]]>", {"U+001B": 1, "U+0000": 1}),
            (b"<!-- &#0; -->&#0;<!-- &#0;", b"<!-- &#0; --><!-- &#0;", {"U+0000": 1}),
            (b"<![CDATA[]\x1b[m]\x07>]]>", b"<![CDATA[] ] >]]>", 2),
            (
                "caf\xe9 \xe9".encode("latin-1") + b" caf\xc3\xa9\x07",
                "caf\ufffd \ufffd café".encode(),
                {"0xE9": 2, "U+0007": 1},
            ),
            (
                b"<?xml version='1.0' encoding='ISO-8859-1'?>\xe9\x07",
                b"<?xml version='1.0' encoding='ISO-8859-1'?>\xe9",
                1,
            ),
            *(
                (
                    b"<?xml encoding='%b'?>\xff" % it, b"<?xml encoding='%b'?>\xef\xbf\xbd" % it, 1
                ) for it in (b"UTF8", b"utf-8")
            ),
            (b"<\0a\0\x07\0", None, {}),
            (codecs.BOM_UTF16_LE + b"\x07a", None, {}),
            (codecs.BOM_UTF16_BE + b"\x07a", None, {}),
        ):
            with self.subTest(text=text):
                left = Counter()
                self.assertEqual(self.taken(text, left), text if wanted is None else wanted)
                found = {key[1]: count for key, count in left.items()}
                self.assertEqual(
                    [it[0] for it in left], ["character" if it.startswith("U+") else "byte" for it in found]
                )
                self.assertEqual(sum(found.values()) if isinstance(left_out, int) else found, left_out)
                for size in (1, 7, BEGINNING + 1):
                    self.assertEqual(self.taken(text, Counter(), size), text if wanted is None else wanted)

    def taken(self, text, left, size=1 << 20):
        """What is left of a text that comes in pieces of this size."""
        return b"".join(without_unfit((text[at : at + size] for at in range(0, len(text), size)), left))

    def test_pieces(self):
        """What is cut between two pieces is found."""
        good = "é".encode() * 5000
        for size in (BEGINNING, 3000):
            for text in (b"&#27;", b"\x07", b"\xff", b"\xc3", b"&amp#27;[m", b"&#x%b1B;" % (b"0" * (LONGEST - 8))):
                for place in (0, 3, 1000, 1021, 1023, 1024, 2999, 3000):
                    with self.subTest(size=size, text=text, place=place):
                        left, end = Counter(), b"\xef\xbf\xbd" if text in (b"\xff", b"\xc3") else b""
                        self.assertEqual(self.taken(b"x" * place + text, left, size), b"x" * place + end)
                        self.assertEqual(sum(left.values()), 1)
            self.assertEqual(self.taken(b"x" + good, Counter(), size), b"x" + good)


class Unseen(unittest.TestCase):
    def text(self, report):
        with tempfile.NamedTemporaryFile() as file:
            page_text.write_text(io.BytesIO(report), file.name)
            return file.read().decode()

    def test_texts(self):
        for report, wanted in (
            (b"a\n", "a\n"),
            (b"a\n\n", "a\n"),
            (b"a", "a\n"),
            (b"<&\"'\n", "&lt;&amp;\"'\n"),
            (b"\x1b[31;1mr\x1b[m\x1b]8;;x\x07l\x1b]0;t\x1b\\\x1b(B\x1b=e\xff\t\x00\x7f\r", "rle\ufffd\t\n"),
        ):
            with self.subTest(report=report):
                self.assertEqual(self.text(report), wanted)

    def test_long(self):
        self.assertEqual(self.text(b"x" * 20_000), "x" * 20_000 + "\n")
        self.assertEqual(self.text(b"x" * 20_001), "x" * 20_000 + " … and 1 characters more\n")
        lines = [b"%d\n" % it for it in range(20_001)]
        self.assertEqual(self.text(b"".join(lines[:20_000])), b"".join(lines[:20_000]).decode())
        found = self.text(b"".join(lines)).split("\n")
        self.assertEqual(found[9_999:10_002], ["9999", "… 1 lines are not shown here …", "10001"])
        self.assertEqual((len(found), found[-2]), (20_002, "20000"))

    def test_on_paper(self):
        """A long line takes several on paper."""
        self.assertEqual([page_text.cost("x" * it) for it in (0, 99, 100, 250)], [1, 1, 2, 3])
        lines = self.text(b"x" * 250 + b"\n" + b"y\n" * 20_000).split("\n")
        self.assertEqual((len(lines), lines[9_998]), (20_000, "… 3 lines are not shown here …"))


if __name__ == "__main__":
    unittest.main()
