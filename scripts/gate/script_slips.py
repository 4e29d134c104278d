"""Slips for check-checks in what the scripts run and in what people call: each is one text of a file and what is in its
place. Those of a copy are made together."""

import re


def line(file, old, new):
    """A slip in a file: this text has become another one."""
    return file, re.escape(old), new.replace("\\", r"\\")


def end(file, text):
    """A slip in a file: this text follows it."""
    return file, r"\Z", text.replace("\\", r"\\")


# Whatever a script starts is another process each time, but not where it must end well for the script to go on.
OTHER_PROCESSES = """

class Other(subprocess.Popen):
    count = 0

    @classmethod
    def number(cls):
        Other.count += 1
        return Other.count
%s

RUN, POPEN = subprocess.run, subprocess.Popen


def run(*words, check=False, **how):
    subprocess.Popen = POPEN if check else Other
    try:
        return RUN(*words, check=check, **how)
    finally:
        subprocess.Popen = Other


subprocess.run, subprocess.Popen = run, Other
"""
# It ends with another status.
OTHER_STATUS = """
    @property
    def returncode(self):
        return self.ended

    @returncode.setter
    def returncode(self, ended):
        self.ended = None if ended is None else ended + self.number()
"""
# It writes more.
OTHER_OUTPUT = """
    def communicate(self, *words, **how):
        found, more = super().communicate(*words, **how), f"more {self.number()}\\n"
        return tuple(it if it is None else it + (more if isinstance(it, str) else more.encode()) for it in found)
"""
CHECKS, GROWTH = "scripts/gate/checks.py", "scripts/gate/growth.py"
# Less work, in each copy where how much there is of it is not what is tried; and fewer cases.
LESS = (
    line("scripts/check-follow", '"--passed", 1_000_000, (0, 1_000_005)', '"--passed", 1_000, (0, 1_005)'),
    line("scripts/check-follow", '"--skips", 1_960_000', '"--skips", 1_000'),
    line(GROWTH, "COUNT_OF_A_PAGE, TIMES = 1500, 500, 3", "COUNT_OF_A_PAGE, TIMES = 9, 9, 1"),
    line(GROWTH, "TRIES = 9", "TRIES = 1"),
    line("scripts/check-real", "CUTS = 200", "CUTS = 9"),
    line("scripts/check-real", "MUTANTS, BATCH = 2000, 100", "MUTANTS, BATCH = 40, 20"),
    line("scripts/check-recorded", "KILLS, TESTS, MUTANTS = 20, 300, 300", "KILLS, TESTS, MUTANTS = 3, 300, 9"),
    line("scripts/check-replay", "MUTANTS, KILLS = 600, 12", "MUTANTS, KILLS = 9, 3"),
    line("scripts/check-replay", "FAILED, BYTES, ADDRESSES = 20_000,", "FAILED, BYTES, ADDRESSES = 2_000,"),
)
FEWER = (line(CHECKS, 'glob(f"{names}.args"))', 'glob(f"{names}.args"))[::9]'),)
ENDS_OTHERWISE = (end(CHECKS, OTHER_PROCESSES % OTHER_STATUS), *FEWER)
WRITES_MORE = (end(CHECKS, OTHER_PROCESSES % OTHER_OUTPUT), *FEWER)
JUNIT, LIBTEST = "scripts/norigully/junit.py", "scripts/norigully/libtest_json.py"
SCENE, SUMMARY = "scripts/norigully/scene_lines.py", "scripts/norigully/ci_summary.py"
# Of what other tools wrote something is lost, is another one, or is counted wrongly.
READS_OTHERWISE = (
    line(JUNIT, 'return "exec" if kind == "execution failure" else UNKNOWN_FAILURE', 'return "exec"'),
    line(JUNIT, 'f"{message}\\n{body}".rstrip()', "body"),
    line(JUNIT, "return max(took, self.longest)", "return took"),
    line(JUNIT, "sum(it.duration() for it in self.files)", "self.files[0].duration()"),
    line(JUNIT, "'s' * (count > 1)", "'s' * (count > 2)"),
    line(JUNIT, "and {len(files) - 1} more", "and {len(files)} more"),
    line(JUNIT, "if len(self.files) == 1 else RUN_ID", "if self.files[1:] else RUN_ID"),
    line(JUNIT, '"" if THOUSANDS.fullmatch(time) else "."', '""'),
    line(LIBTEST, "if OWN.match(line):", "if line:"),
    line(LIBTEST, "except (ValueError, KeyError, TypeError", "except (ValueError, TypeError"),
    line(LIBTEST, '"pass" if what == "ok" else UNKNOWN_FAILURE', 'event.get("result", "pass")'),
    line(SCENE, "yield piece\n", 'yield piece.rstrip(b"\\n")\n'),
    line(SCENE, '"leak": ("passed", "leaky")', '"leak": ("passed",)'),
    line(SUMMARY, 'f"{finished} test{', 'f"{finished + 1} test{'),
)
# JSON that is all refused; and tools that leave nothing, or end otherwise than the documents say.
REFUSES_ALL = (
    line(LIBTEST, "if not reader.suites:", "if reader.suites:"),
    ("scripts/gate/other_tools.py", r'"bats": Tool\("bats", ".*?"', '"bats": Tool("sh", "exit 9"'),
    ("docs/*.md", r"^(\| (?:pytest|bats)[^|]*\| )[^|]*\| \d+ → \d+", r"\1 | 9 → 9"),
    ("docs/*.md", r"^\| cpplint", "| lint"),
)
# Work that takes time out of proportion.
TAKES_LONG = (
    line(GROWTH, "COUNT_OF_A_PAGE, TIMES = 9, 9, 1", "COUNT_OF_A_PAGE, TIMES = 1500, 500, 1"),
    line(GROWTH, '[*CONVERTERS, "--summary", "--annotations", "--page"]', '["--junit"]'),
    line(SUMMARY, 'r"""(?<![\\w.+@/-])([', 'r"""(['),
    line(SCENE, "self.kept += encoded(line)", 'self.kept += encoded(line) * (self.kept.count(b"\t-") >= 0)'),
)
PAGE, PAGE_SCENE = "scripts/norigully/page.py", "scripts/norigully/page_scene.py"
STYLES = "scripts/norigully/page/page.css"
SEEN, LISTS, STYLED, COLOURED, PRINTED, WORKER = (
    f"scripts/norigully/page/{it}.js" for it in ("page", "tests", "style", "colours", "paper", "worker")
)
# A page that works, and of which much is wrong: what it says, shows, lists, leads to, copies and prints.
PAGE_IS_WRONG = (
    line(PAGE, '{"reports": numbers,', '{"reports": {**numbers, "all": 0},'),
    line(PAGE, ": known[lines, level] for level in", ': known[lines, level.replace("all", "none")] for level in'),
    end(PAGE, '\nHELD = b"x" * 60_000_000\n'),
    line(PAGE, "few} of {many} reports", "many} of {few} reports"),
    line(PAGE, " or any(is_same_file(asked.to, it) for it in asked.files)", ""),
    line(PAGE, '"TITLE": escaped(run.asked.title)', '"TITLE": escaped(run.asked.title[1:])'),
    line(PAGE, "default-src 'none'", "default-src *"),
    line(PAGE, "; img-src data:", "; img-src *"),
    line(PAGE_SCENE, "{minutes % 60} min", "{minutes} min"),
    line("scripts/norigully/page_text.py", 'quote=False).encode() + b"\\n"', 'quote=False).encode() + b"\\n\\n"'),
    line(
        "scripts/norigully/front.py",
        "page.main(words, find)",
        'page.main(words if "--title" in words else ["--title", "a page", *words], find)',
    ),
    line("scripts/norigully/page/page.html", '<a id="skip"', '<a id="skip" tabindex="-1"'),
    line(SEEN, "(at + by + hits", "(at + 2 * by + hits"),
    line(SEEN, "[found, found.length ? 0 : -1]", "[found, 0]"),
    line(SEEN, "panel.id !== own || isOpen", "isOpen"),
    line(SEEN, "Lines ${(from + 1)", "Lines ${(from)"),
    line(SEEN, "shown.lines[link.dataset.test] < 0", "shown.lines[link.dataset.test] >= 0"),
    line(LISTS, 'event.key === "n" ? 1 : -1', "1"),
    line(LISTS, "ArrowDown: now + 1", "ArrowDown: now + 2"),
    line(LISTS, "End: all.length - 1", "End: all.length - 2"),
    line(LISTS, "await goTo(shown.lines[number], true)", "await goTo(shown.lines[number] + 1, true)"),
    line(LISTS, 'tool("copy name"', 'tool("name"'),
    line(LISTS, 'button.type = "button"', "button.textContent = label"),
    line(LISTS, "other.tabIndex = -1", "other.tabIndex = 0"),
    line(LISTS, 'found.querySelector("a").tabIndex', 'found.querySelector("li:last-child a").tabIndex'),
    line(LISTS, "history.replaceState", "history.pushState"),
    line(LISTS, "`${binary} ${name}`", "`${binary}/${name}`"),
    line(STYLED, "list.slice(k + 1, k + 5)", "list.slice(k + 1, k + 12_000).slice().slice()"),
    line(STYLED, "STRETCHES = 200", "STRETCHES = 150"),
    line(STYLED, "more`", "left`"),
    line(COLOURED, "parent.append(text); continue", 'parent.insertAdjacentHTML("beforeend", text); continue'),
    line(COLOURED, "READS = 4.5", "READS = 2.5"),
    line(STYLED, "% 6])})`", "% 2])})`"),
    line(PRINTED, "part.slice(0, at)), part.slice(at)", "part.slice(0, at)), part.slice(at + 30)"),
    line(PRINTED, '["level", "failure", "success"].map', '["level", "failure"].map'),
    line(WORKER, "left = report.length - first - last", "left = report.length - first"),
    line(STYLES, "--dim: #59636e", "--dim: #a9b3be"),
    line(STYLES, "#paper * { color: #000", "#paper * { color: #333"),
    line(STYLES, "section { break-inside: avoid", "section { break-inside: auto"),
    line("docs/report.svg", "<text ", "<desc "),
    line("docs/cargo.svg", ' xml:space="preserve"', ""),
)
RECORDED = "scripts/norigully/recorded.py"
# Recorded runs are written late, and read as if less were wrong, or more; and of lines that come one at a time the
# report of the next one is wanted.
RECORDS_OTHERWISE = (
    *FEWER,
    line("scripts/check-follow", "\nPATIENCE = 120", "\nPATIENCE = 1"),
    line("scripts/check-replay", "[*io.BytesIO(scene)][:number]", "[*io.BytesIO(scene)][: number + 1]"),
    line(SCENE, "x([0-9a-fA-F]{2})", "x([0-9a-f]{2})"),
    line(RECORDED, 'rb"\\\\@0*([0-9]', 'rb"\\\\@([0-9]'),
    line(RECORDED, "if not found or place not in may_be_one:", "if not found:"),
    line("scripts/record-scene", "in itertools.chain([] if first is None else [first], lines):", "in [first, *lines]:"),
    line("scripts/run-tests", 'COMPLETED, CANCELLED = "completed"', 'COMPLETED, CANCELLED = "cancelled"'),
    ("docs/RECORDED_RUNS.md", r"^(```report)$", r"\1\nmore"),
)
# Sources that are laid out otherwise or have examples that are none, and a crate that is not copied with others.
SOURCES_ARE_WRONG = (
    line("crates/out_of_memory/src/lib.rt", '/// assert_eq!(OutOfMemory', "/// assert_eq!(OutOfMemory OutOfMemory"),
    line("crates/info_text/src/start.rt", "/// ```\n/// write_info_finished", "/// ```other\n/// write_info_finished"),
    ("crates/info_text/src/state.rt", r"(?s)\A(.*)/// ```\n", r"\1"),
    line("examples/report.rs", "fn main(rt", "fn main rt"),
    end("crates/text_tests/src/lib.rt", "}\n"),
)
# Nothing is proved, what is not on record counts as if it were, and what is said is another text.
MISTAKES_TEST = "scripts/gate/mistakes_test.py"
NOTHING_IS_PROVED = (
    line("scripts/gate/functions.py", "if path.endswith(OF_A_PROOF):", "if False:"),
    line("scripts/check-one", "sys.exit(main(sys.argv[1:]))", "sys.exit(3)"),
    line("crates/writers/specs/Texts.antt", "-- the text itself,", "-- the text,"),
    end("crates/text_tests/src/lib.rt", "// a::Answers\n"),
    line(MISTAKES_TEST, '["rt", "ci"]', '["false"]'),
    line(MISTAKES_TEST, "return found[0] is not None, found[1]", "return found[0] is not None, not found[1]"),
    line("docs/PROOF.md", 'make `"s] "` into', 'make `"s]  "` into'),
    line("scripts/check-mistakes", "there is no mistake in", "no mistake is in"),
    line("scripts/gate/crates.py", "is not built", "is missing"),
    line("scripts/gate/crates.py", "has changed since the gate proved it", "has changed"),
)
# Calls of people and CI services: what they write over, keep, leave, wait for, end and say is not as it should be.
FRONT, KEPT, INSTALLED = (f"scripts/norigully/{it}.py" for it in ("front", "kept", "installed"))
ENTRY, ATTEMPT, SHARED = (f"scripts/norigully/{it}.py" for it in ("entry", "attempt", "__init__"))
UNPROVED, FIND, PROGRESS = (f"scripts/norigully/{it}.py" for it in ("unproved_build", "find_program", "progress"))
CALLS_ARE_WRONG = (
    line("scripts/check-run-tests", "LIMIT, PATIENCE = 30, 300", "LIMIT, PATIENCE = 30, 20"),
    line(FRONT, 'fault(name, f"cannot write {store}", WRONG)', 'open(store, "a").write("more")'),
    line(FRONT, 'raise Bad(f"cannot write {to}")', 'open(to, "a").write("more")'),
    line(FRONT, "os.set_blocking(opened, True)", "os.set_blocking(number, True)"),
    line(FRONT, "if made != ANNOTATIONS", "if made == ANNOTATIONS or stat.S_ISREG(os.fstat(OUTPUT).st_mode)"),
    line(FRONT, "and any(it(os.fstat(OUTPUT).st_mode) for it in kinds)", "and kinds"),
    line(KEPT, "if os.path.isabs(cache):", "if cache:"),
    line(UNPROVED, "if (found := find(name, sources, made)) is not None:", "if found := None:"),
    line(FIND, "which is mounted noexec: let", "which is mounted noexec, let"),
    line(PROGRESS, "{part}: {how}", "{part[:3]}: {how}"),
    line(SHARED, "{(doc or own_doc()).rstrip()}", "{(doc or own_doc()).rstrip()[:-9]}"),
    line(SHARED, "return module.__doc__ or ast", 'return module.__doc__ or "none" or ast'),
    line(INSTALLED, "\n  --help            alone", "\n  help              alone"),
    line(ENTRY, "        raise Signal\n\n\n@", "        os._exit(128 + number)\n\n\n@"),
    line(ENTRY, "            raise Signal\n\n\nclass", "            os._exit(128 + CAME[0])\n\n\nclass"),
    line(ENTRY, "        with uncut():\n            super().cleanup()", "        super().cleanup()"),
    line(ENTRY, "os.killpg(child.pid, number)", "os.kill(child.pid, number)"),
    line(ATTEMPT, 'else "leak" if leak else "pass"', 'else "pass"'),
    line(ATTEMPT, '"out of memory"]', '"no memory"]'),
    line(ATTEMPT, "send(it.child, signal.SIGSTOP)", "send(it.child, 0)"),
    line(ATTEMPT, "self.errors else highlight_in(stdout, stderr)", 'self.errors else ("out", 0, b"x")'),
    line("scripts/norigully/programs.py", "if file.exists() and not file.is_file():", "if False:"),
    line("scripts/run-tests", "NEXTEST_RUN_ID=self.run_id", 'NEXTEST_RUN_ID="0"'),
    line("scripts/run-tests", 'own("--leak-timeout", metavar="S"', 'own("--leak-timeout", metavar="N"'),
    line("scripts/vendor", "is, holds or lies in", "is in"),
    line("scripts/vendor", "if not target.is_dir():", 'if not target.is_dir() or (target / "new").touch():'),
    line("scripts/vendor", 'LICENSES = ("LICENSE-APACHE", "LICENSE-MIT", "NOTICE")', 'LICENSES = ("LICENSE-APACHE",)'),
    line("scripts/vendor", "for name in order if name not in there", "for name in order[::-1] if name not in there"),
    line("build", 'LICENCES = ("LICENSE-APACHE", "LICENSE-MIT", "NOTICE")', 'LICENCES = ("NOTICE",)'),
    line("build", "member.size, member.mode =", "member.mtime, member.size, member.mode = os.getpid(),"),
    line("build", "{name}: sources {sources}", "{name}: of sources {sources}"),
    line("build", "./norigully --summary FILE", "./norigully --sum FILE"),
    line("build", "4 if no test ran", "5 if no test ran"),
    line("build", "if os.path.islink(named) and not", "if False and not"),
    line("run", "4 where no test ran", "5 where no test ran"),
    line("README.md", "-o run.html", "-o other.html"),
    line("docs/ERRORS.md", "| 100 | the run ended", "| 100 | a run ended"),
    line("docs/REAL_RUNS.md", "```yaml", "```yml"),
    line("scripts/gate/run_edges.py", "os.open = swapping", "os.open = opens"),
    line("scripts/gate/run_recipes.py", '"scripts/run-tests": (', '"run-tests": ('),
    line("scripts/gate/run_recipes.py", 'if "[" not in it[0]', 'if "[" in it[0]'),
)
# Over programs that do nothing: a report that differs from itself, cases that no scene holds, an example that fails.
OVER_IDLE = (
    line("scripts/check-follow", "hashlib.sha256(), 0, b", "hashlib.sha256(os.urandom(9)), 0, b"),
    line("scripts/check-follow", "if available() > REPORT_NEEDS:", "if available():"),
    line("scripts/check-faults", "for name in SCENES))", "for name in SCENES[:1]))"),
    line("crates/out_of_memory/src/lib.rt", '.as_str(), "out of memory");', '.as_str(), "other");'),
)
