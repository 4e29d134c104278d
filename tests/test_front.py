"""What a call of ./run has around the programs: colours, files that are no scenes, and the log of a job on GitHub."""

import errno
import os
import socket
import tempfile
import unittest
import warnings
from pathlib import Path
from unittest import mock

from norigully import TOP, VERSION, front
from norigully.entry import Bad
from norigully.words import options_of

SCENE = (TOP / "cases/first.scene").read_bytes()
XML, JSON = "this is XML: --junit reads it", "this is JSON: --libtest reads it"
SPACES = "its fields are separated by spaces, and those of a scene by tabs"
OF_GO = "this is of `go test -json`: --junit reads what `gotestsum --junitfile run.xml` makes of it"
OF_CARGO = "this is text of `cargo test`: --libtest reads its JSON (docs/REAL_RUNS.md)"
AMONG = "this is JSON among cargo's lines: --libtest reads it"
# Texts of files, and what they look like.
TEXTS = (
    (SCENE, None),
    (b"", None),
    (b"what\tis\tthis\n", None),
    (b'<?xml version="1.0"?>\n<testsuite/>\n', XML),
    (b"\xef\xbb\xbf \n<testsuite/>", XML),
    (b'{"a":"suite"}\n', JSON),
    (b'{"type":"suite"}\n', AMONG),
    (b'Compiling\n{ "type" : "suite"', AMONG),
    (b'{"reason":"compiler-artifact"}', AMONG),
    (b'{"Time":1,"Action":"run"}\n', OF_GO),
    (b'{"a":1}\n{"Action":1}\n', JSON),
    (b"   Compiling a v0.1.0 (/a)\n", OF_CARGO),
    (b"   Compiling a v0.1.0\n", None),
    (b"a\nrunning 1 test\r\n", OF_CARGO),
    (b"\nrunning 12 tests\n", OF_CARGO),
    (b"a running 1 test\n", None),
    (SCENE.replace(b"\n", b"\r\n"), "its lines end with CR LF, and those of a scene with LF"),
    (b"# a b\n\n" + SCENE.replace(b"\t", b" "), SPACES),
    *((b"%b a\n" % it, SPACES) for it in (b"run", b"config", b"header", b"start", b"done", b"skip")),
    (b"runs a\n", None),
    (b"run a\tb\n", None),
)
ON, OFF = {"CLICOLOR_FORCE": "1"}, {"NO_COLOR": "1"}
# Variables, whether there is a terminal, and whether the report has colours.
COLOURS = (
    ({}, False, False),
    ({}, True, True),
    ({"NO_COLOR": ""}, True, True),
    (OFF, True, False),
    ({"TERM": "dumb"}, True, False),
    ({"CARGO_TERM_COLOR": "never"}, True, False),
    ({"CARGO_TERM_COLOR": "never", "FORCE_COLOR": "1"}, False, False),
    ({"CARGO_TERM_COLOR": "always"}, False, True),
    ({"CARGO_TERM_COLOR": "auto"}, False, False),
    (ON, False, True),
    ({"FORCE_COLOR": "3", "TERM": "dumb"}, False, True),
    *(({name: value}, False, False) for name in ("CLICOLOR_FORCE", "FORCE_COLOR") for value in ("", "0", "false")),
    ({**OFF, **ON, "CARGO_TERM_COLOR": "always"}, False, False),
)


class InFolder(unittest.TestCase):
    def setUp(self):
        made = tempfile.TemporaryDirectory()
        self.addCleanup(made.cleanup)
        self.folder = Path(made.name)
        warnings.simplefilter("ignore", ResourceWarning)
        self.scene = self.folder / "scene"
        self.scene.write_bytes(SCENE)

    def fault(self, call, *words):
        """The status and the line with which a call ends this."""
        with mock.patch("norigully.entry.write") as write, self.assertRaises(SystemExit) as ended:
            call(*words)
        return ended.exception.code, write.call_args[0][0]


class Looks(InFolder):
    def test_texts(self):
        for text, said in TEXTS:
            with self.subTest(text=text[:40]):
                self.scene.write_bytes(text)
                self.assertEqual(front.looks_like(self.scene), said)

    def test_a_place_within(self):
        """Standard input is looked at from where it is, and stays there."""
        with open(self.scene, "rb") as file:
            file.seek(len(SCENE))
            os.write(os.open(self.scene, os.O_WRONLY | os.O_APPEND), b"<a/>")
            with mock.patch("norigully.front.INPUT", file.fileno()):
                self.assertEqual(front.looks_like(file.fileno()), XML)
            self.assertEqual(file.tell(), len(SCENE))

    def test_what_is_no_file(self):
        os.mkfifo(self.folder / "fifo")
        for path in ("fifo", ".", "missing"):
            self.assertIsNone(front.looks_like(self.folder / path))

    def test_beyond_the_beginning(self):
        self.scene.write_bytes(b"#" * 4096 + b"\nrun a\n")
        self.assertIsNone(front.looks_like(self.scene))


class Colours(unittest.TestCase):
    def test_environments(self):
        for variables, is_terminal, has_colours in COLOURS:
            with (
                self.subTest(variables=variables, is_terminal=is_terminal),
                mock.patch.dict(os.environ, variables, clear=True),
                mock.patch("os.isatty", lambda number: is_terminal and number == 1),
            ):
                self.assertEqual(front.has_colours(), has_colours)

    def test_words(self):
        for name, words, wanted in (
            ("report", "f", ["--color", "f"]),
            ("report", "--counter -", ["--counter", "--color", "/dev/stdin"]),
            ("report", "--color f", ["--color", "f"]),
            ("report", "--no-color f", ["f"]),
            ("follow", "-", ["--color", "-"]),
            ("follow", "", ["--color"]),
        ):
            with self.subTest(name=name, words=words), mock.patch("norigully.front.has_colours", lambda: True):
                self.assertEqual(front.words_for(name, options_of(name, words.split())), wanted)


class Files(InFolder):
    def test_why_unread(self):
        os.mkfifo(self.folder / "fifo")
        for name, file, why in (
            ("report", self.scene, None),
            ("report", self.folder / "fifo", None),
            ("replay", self.folder / "fifo", "it is no file"),
            ("replay", self.scene, None),
            ("report", self.folder, os.strerror(errno.EISDIR)),
            ("replay", self.folder, os.strerror(errno.EISDIR)),
            ("report", self.folder / "missing", os.strerror(errno.ENOENT)),
            ("report", self.scene / "x", os.strerror(errno.ENOTDIR)),
            ("report", "a\0b", "embedded null byte"),
        ):
            with self.subTest(name=name, file=file):
                self.assertEqual(front.why_unread(name, file), why)
        with mock.patch("os.access", lambda file, mode: mode != os.R_OK):
            self.assertEqual(front.why_unread("report", self.scene), os.strerror(errno.EACCES))

    def test_stores(self):
        """The file of the records is none that is read, by whatever path, and not that of the report."""
        os.symlink("scene", self.folder / "link")
        os.link(self.scene, self.folder / "hard link")
        os.mkdir(run := self.folder / "run")
        for it in ("run.scene", "outputs"):
            (run / it).touch()
        stores = [*(self.folder / it for it in ("scene", "../%s/scene" % self.folder.name, "link", "hard link"))]
        rows = [("report", it, self.scene) for it in stores] + [("follow", it, self.scene) for it in stores]
        rows += [("replay", run / it, run) for it in ("run.scene", "outputs")]
        for name, store, file in rows:
            with self.subTest(name=name, store=store):
                options = options_of(name, ["--store", str(store), str(file)])
                ended = self.fault(front.check_files, name, options)
                self.assertEqual(ended, (2, f"{name}: cannot write {store}\n"))
        for descriptor in ("INPUT", "OUTPUT"):
            opened = os.open(self.scene, os.O_RDWR)
            with mock.patch(f"norigully.front.{descriptor}", opened):
                options = options_of("follow", ["--store", str(self.scene)])
                self.assertEqual(self.fault(front.check_files, "follow", options)[0], 2)
            os.close(opened)
        self.assertIsNone(front.check_files("report", options_of("report", ["--store", "other", str(self.scene)])))
        said = 2, "report: cannot read missing: No such file or directory\n"
        self.assertEqual(self.fault(front.check_files, "report", options_of("report", ["missing"])), said)


class Streams(InFolder):
    def test_pipes_that_are_followed(self):
        pipe, one = os.pipe(), socket.socketpair()
        self.addCleanup(lambda: [*map(os.close, pipe), *(it.close() for it in one)])
        os.mkfifo(fifo := self.folder / "fifo")
        with open(self.scene) as file:
            for name, words, number, follows in (
                ("follow", [], pipe[0], True),
                ("follow", ["-"], one[0].fileno(), True),
                ("follow", [], file.fileno(), False),
                ("report", ["-"], pipe[0], False),
                ("follow", [str(fifo)], file.fileno(), True),
                ("follow", [str(self.scene)], pipe[0], False),
                ("follow", [], 999_999, False),
            ):
                with self.subTest(name=name, words=words), mock.patch("norigully.front.INPUT", number):
                    self.assertEqual(front.follows_pipe(name, options_of(name, words)), follows)

    def test_tokens(self):
        """Where a job's log is written, GitHub takes no line of a test for a command."""
        pipe = os.pipe()
        self.addCleanup(lambda: [*map(os.close, pipe)])
        null = os.open(os.devnull, os.O_WRONLY)
        with open(self.scene) as file:
            for number, variables, stops, has_token in (
                (pipe[1], {"GITHUB_ACTIONS": "true"}, True, True),
                (null, {"GITHUB_ACTIONS": "true"}, True, True),
                (pipe[1], {"GITHUB_ACTIONS": "true"}, False, False),
                (pipe[1], {}, True, False),
                (file.fileno(), {"GITHUB_ACTIONS": "true"}, True, False),
            ):
                with (
                    self.subTest(variables=variables, stops=stops),
                    mock.patch.dict(os.environ, variables, clear=True),
                    mock.patch("norigully.front.OUTPUT", number),
                ):
                    tokens = {front.token_for(stops) for _ in range(2)}
                    self.assertEqual(all(it and len(it) == 32 for it in tokens) and len(tokens) == 2, has_token)


class Converted(InFolder):
    """Results of other tools: standard input is their scene."""

    def setUp(self):
        super().setUp()
        self.input = os.dup(0)
        self.addCleanup(lambda: (os.dup2(self.input, 0), os.close(self.input)))
        self.file = self.folder / "a.xml"
        self.file.write_text("<testsuite><testcase name='a'/></testsuite>")

    def test_scene(self):
        words = ["--level", "all", "--success-output", "final", str(self.file), str(self.file)]
        self.assertEqual(front.with_scene("./run", None, "--junit", words), ["--level", "all", "-"])
        lines = os.read(0, 9999).split(b"\n")
        self.assertEqual(lines[0], b"config\tsuccess\tfinal")
        self.assertEqual([it.split(b"\t")[0] for it in lines[1:]], [b"run", b"done", b"done", b"end", b""])

    def test_options(self):
        file = str(self.file)
        for made, words, wanted in (
            (None, ["--counter", file, file], ["--counter", "-"]),
            (None, ["--store", "other", file], ["--store", "other", "-"]),
            (front.PAGE, ["--choices", "few", file], ["--choices", "few", "-"]),
            (front.PAGE, ["--title", file, file], ["--title", file, "-"]),
            (front.SUMMARY, ["-"], ["-"]),
        ):
            with self.subTest(words=words):
                os.dup2(os.open(self.file, os.O_RDONLY), 0)
                self.assertEqual(front.with_scene("./run", made, "--junit", words), wanted)
        os.dup2(os.open(self.file, os.O_RDONLY), 0)
        with self.assertRaisesRegex(Bad, f"^cannot write {file}$"):
            front.with_scene("./run", None, "--junit", ["--store", file, "-"])

    def test_words(self):
        made = front.SUMMARY
        self.assertIsNone(front.with_scene("./run", front.PAGE, "--junit", ["--title", "a"]))
        unknown = self.fault(front.with_scene, "./run", None, "--junit", ["--bogus", "f"])
        self.assertEqual(unknown, (2, "./run: unknown option --bogus (./run --help)\n"))
        for made, words, why in (
            (made, ["--title", "a"], r"--summary takes no --title \(./run --help\)"),
            (None, ["--store", str(self.file), str(self.file)], f"cannot write {self.file}"),
            (front.PAGE, ["-o", str(self.file), str(self.file)], f"cannot write {self.file}"),
            (made, ["missing"], "cannot read missing: No such file or directory"),
        ):
            with self.subTest(words=words), self.assertRaisesRegex(Bad, f"^{why}$"):
                front.with_scene("./run", made, "--junit", words)


class Calls(InFolder):
    """What words ask for, by the calls that they come to."""

    def do(self, words, has_files=True):
        """What is made: a page, what is beside a report, or a program, and of which words."""
        calls = []
        with (
            mock.patch("norigully.front.become", lambda typed, words, find: calls.append(("become", words))),
            mock.patch("norigully.front.make_page", lambda words, find: calls.append(("page", words))),
            mock.patch("norigully.front.write_beside", lambda typed, made, words: calls.append((made, words))),
            mock.patch(
                "norigully.front.with_scene", lambda typed, made, option, words: has_files and [f"of{option}", *words]
            ),
            mock.patch("norigully.entry.write", lambda text: calls.append(text)),
        ):
            front.do("./run", words.split(), lambda: "kit\n", None)
        return calls[0]

    def test_words(self):
        for words, made in (
            ("", "become"),
            ("f", "become f"),
            ("--follow f", "become --follow f"),
            ("--follow --store f", "become --follow --store f"),
            ("--recorded d", "become --recorded d"),
            ("--follow --follow", "become --follow --follow"),
            ("--junit f", "become --follow of--junit f"),
            ("--libtest f", "become --follow of--libtest f"),
            ("--follow --junit f", "become --follow of--junit f"),
            ("--junit --follow f", "become --follow of--junit f"),
            ("--junit --counter --follow f", "become --follow of--junit --counter --follow f"),
            ("--page f", "page f"),
            ("--page --junit f", "page of--junit f"),
            ("--page --junit --follow f", "page of--junit --follow f"),
            ("--summary f", "--summary f"),
            ("--summary --libtest f", "--summary of--libtest f"),
            ("--annotations --follow --junit f", "--annotations --follow --junit f"),
            ("--failed go --junit f", "--failed go of--junit f"),
            ("--to-junit f", "--to-junit f"),
        ):
            with self.subTest(words=words):
                found = self.do(words)
                self.assertEqual(" ".join([found[0], *found[1]]), made)
        self.assertEqual(self.do("--junit", False), ("become", []))
        version = f"norigully {VERSION}, the console reporter of nextest-runner 0.129.0 with a proof\nkit\n"
        self.assertEqual([self.do(it) for it in ("--version", "-V")], [version] * 2)

    def test_looks(self):
        self.scene.write_bytes(b"{}")
        for made, words, said in (
            ("--summary", [str(self.scene)], f"{self.scene}: line 1: no line of a scene: {JSON}"),
            ("--page", ["--title"], "usage: page .*PAGE. FILE.--recorded DIR"),
            ("--summary", [], "--summary needs a FILE, which is the last word"),
        ):
            with self.subTest(made=made, words=words), self.assertRaisesRegex(Bad, f"^{said}$"):
                front.do("./run", [made, *words], None, None)

    def test_beside(self):
        """A summary is between lines by which GitHub takes no command, and annotations are not."""
        self.scene.write_bytes(b"run\t-\t-\t0\t1\t-\n")
        for made, more, token, begins in (
            ("--summary", [], "t", "::stop-commands::t\n### "),
            ("--summary", ["--no-stop-commands"], None, "### "),
            ("--annotations", [], "t", ""),
        ):
            with mock.patch(
                "norigully.front.token_for", lambda stops, token=token: token if stops == (not more) else "no"
            ):
                with self.subTest(made=made, more=more), mock.patch("norigully.entry.write_all") as write:
                    front.write_beside("./run", made, [*more, str(self.scene)])
            text = "".join(write.call_args[0][0])
            self.assertTrue(text.startswith(begins) and text.count("::t") == 2 * ("::t" in begins), text)
            self.assertEqual(text[-6:], "\n::t::\n"[-6:] if "::t" in begins else text[-6:])

    def test_ends(self):
        """The status of a program, what is said of its input, and GitHub's line behind what it wrote."""
        for status, what, token, wanted, lines in (
            (0, "it is wrong", None, 0, []),
            (2, "it is wrong", None, 2, ["./run: it is wrong\n"]),
            (2, None, None, 2, []),
            (3, "it is wrong", "t", 3, ["\n::t::\n"]),
            *((it, None, "t", it, ["::t::\n"]) for it in (0, 4, 100)),
            (-9, None, None, 137, []),
        ):
            with self.subTest(status=status, token=token), mock.patch("norigully.entry.write") as write:
                if not (child := os.fork()):
                    os.kill(os.getpid(), -status) if status < 0 else os._exit(status)
                self.assertEqual(front.ended(child, "./run", what, token), wanted)
                self.assertEqual([it.args[0] for it in write.call_args_list], lines)

    def test_descriptors(self):
        """One that does not block is opened anew for this process: who else has it keeps it as it is."""
        for number in (0, 1):
            pipe = os.pipe()
            os.set_blocking(pipe[number], False)
            own = os.dup(pipe[number])
            others = [os.open(self.scene, os.O_RDONLY) for _ in range(2)]
            numbers = {
                "INPUT": own if number == 0 else others[0], "OUTPUT": own if number else others[0], "ERROR": others[1]
            }
            with mock.patch.multiple("norigully.front", **numbers):
                front.wait_at_descriptors()
            self.assertEqual((os.get_blocking(own), os.get_blocking(pipe[number])), (True, False))
            os.write(own if number else pipe[1], b"a")
            self.assertEqual(os.read(pipe[0] if number else own, 1), b"a")
            for it in (*pipe, own, *others):
                os.close(it)


if __name__ == "__main__":
    unittest.main()
