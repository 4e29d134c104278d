"""Other tools, each with a red run and a green one, which are run anew where the tool is installed.

The tests of each are in a folder of cases/real/tools, where the words of its runs write `run.xml`. One of these files
is kept for each run in cases/real/junit. DOCUMENTS have the statuses: the tool's own, and ours."""

import functools
import os
import re
import shutil
import subprocess
import tempfile
from dataclasses import dataclass
from pathlib import Path

from gate.checks import CASES
from norigully import TOP, junit
from norigully.ci_summary import Summary

KEPT, SOURCES = CASES / "real/junit", CASES / "real/tools"
# Those that show commands of tools and their statuses.
DOCUMENTS = ("docs/NEXTEST.md", "docs/REAL_RUNS.md")
PATIENCE = 300
LIT = "/usr/lib/llvm-14/build/utils/lit/lit.py"


@dataclass
class Tool:
    """A tool: the commands and files without which it is not run, the words of a run, in which {} is its name, and the
    runs by their names: each has its own status and that of its report. Some take more than a second."""

    needs: str
    words: str
    runs: dict
    takes_long: bool = False

    def is_here(self):
        return all(os.path.exists(it) if "/" in it else shutil.which(it) for it in self.needs.split())


def usual(its=1, **others):
    """A red run and a green one, and others."""
    return {"red": (its, 100), "green": (0, 0), **others}


# What keeps the status of a tool while the file that it wrote gets its name.
THEN = "; s=$?; {} run.xml; exit $s"
TOOLS = {
    "bats": Tool("bats", "bats --report-formatter junit --output . {}*.bats" + THEN.format("mv report.xml"), usual()),
    "prove": Tool(
        "prove /usr/share/perl5/TAP/Formatter/JUnit.pm",
        "prove --formatter TAP::Formatter::JUnit {}*.t > run.xml",
        usual(),
    ),
    "mocha": Tool("mocha", "NODE_PATH=/usr/share/nodejs mocha --reporter xunit {}.js > run.xml", usual(2)),
    "node": Tool("node", "node --test --test-reporter junit {}.js > run.xml", usual()),
    "meson": Tool(
        "meson ninja",
        "meson setup made -Drun={} && meson test -C made" + THEN.format("cp made/meson-logs/testlog.junit.xml"),
        usual(3, silent=(2, 0)),
    ),
    "ctest": Tool(
        "cmake ctest", "cmake -B made -DRUN_{}=1 && ctest --test-dir made --output-junit $PWD/run.xml", usual(8)
    ),
    "qtest": Tool(
        "moc g++ pkg-config /usr/include/x86_64-linux-gnu/qt5/QtTest",
        "moc -DRUN_{0} test.cpp -o test.moc && g++ -fPIC -DRUN_{0} test.cpp -o test"
        " $(pkg-config --cflags --libs Qt5Test) && ./test -o run.xml,junitxml",
        usual(3),
        takes_long=True,
    ),
    "boost": Tool(
        "g++ /usr/include/boost/test",
        "g++ -DRUN_{} test.cpp -o test && ./test --logger=JUNIT,all,run.xml",
        usual(201, expected=(0, 100)),
        takes_long=True,
    ),
    "doctest": Tool(
        "g++ /usr/include/doctest",
        "g++ -DRUN_{} test.cpp -o test && ./test --reporters=junit --out=run.xml",
        usual(may=(0, 100), silent=(1, 0)),
        takes_long=True,
    ),
    "cmocka": Tool(
        "cc /usr/include/cmocka.h", "cc -DRUN_{} test.c -o test -lcmocka && CMOCKA_XML_FILE=run.xml ./test", usual(2)
    ),
    "cpputest": Tool(
        "g++ /usr/include/CppUTest",
        "g++ -DRUN_{} test.cpp -o test -lCppUTest && ./test -ojunit" + THEN.format("mv cpputest_Store.xml"),
        usual(),
    ),
    "cpplint": Tool("cpplint", "cpplint --output=junit {}.cc 2> run.xml", usual()),
    "behave": Tool(
        "behave",
        "behave --tags=~@skip --junit --junit-directory made {}.feature" + THEN.format("mv made/*.xml"),
        usual(hook=(1, 4)),
    ),
    "cucumber": Tool(
        "cucumber", "cucumber -f junit -o made features/{}.feature" + THEN.format("mv made/*.xml"), usual()
    ),
    "lit": Tool(f"python3 {LIT}", f"python3 {LIT} --xunit-xml-output run.xml {{}}", usual()),
    "kyua": Tool(
        "kyua",
        "env -i HOME=$PWD kyua test -k {}.kyua" + THEN.format("env -i HOME=$PWD kyua report-junit --output"),
        usual(),
    ),
    "nose2": Tool("nose2-3", "nose2-3 {}", usual()),
    "pytest": Tool("pytest", "pytest --junitxml=run.xml -o junit_logging=all test_{}.py", usual()),
    "gotestsum": Tool("go gotestsum", "gotestsum --junitfile run.xml -- -tags {} ./...", usual(), takes_long=True),
    "minitest": Tool(
        "ruby /usr/share/rubygems-integration/all/specifications/minitest-reporters-1.0.19.gemspec",
        "ruby {}.rb" + THEN.format("mv reports/*.xml"),
        usual(),
    ),
    "rspec": Tool(
        "rspec /usr/share/rubygems-integration/all/specifications/rspec_junit_formatter-0.4.1.gemspec",
        "rspec --format RspecJunitFormatter --out run.xml {}_spec.rb",
        usual(after=(1, 0)),
    ),
    "phpunit9": Tool("phpunit", "phpunit --log-junit run.xml {}Test.php", usual(risky=(0, 100))),
    "testthat": Tool(
        "Rscript /usr/lib/R/site-library/testthat",
        'Rscript -e \'testthat::test_file("test-{}.R", testthat::JunitReporter$new(file = "run.xml"), stop_on_failure'
        " = TRUE)'",
        usual(),
        takes_long=True,
    ),
    "busted": Tool("busted", "busted -o junit -Xoutput run.xml {}_spec.lua", usual()),
}


# Of these another file is kept of a red run, and none of a green one.
KEPT_BEFORE = ("pytest", "gotestsum", "ctest", "node", "rspec", "phpunit9")
# What a summary says of a run, by the status of its report.
CAME_TO = {"passed": 0, "failed": 100, "had no tests": 4}
# The table of tools: the name, the versions that were run, the statuses, and what a file cannot say.
ROW = re.compile(r"^\| ([^|]+) \| ([^|]*) \| (\d+|–) → (\d+) \| [^|]* \| ([^|]*) \|$", re.M)


def documents():
    """The text of all."""
    return "".join((TOP / it).read_text() for it in DOCUMENTS)


def kept_of(tool, run):
    """The file that is kept of a run, or None."""
    if tool in KEPT_BEFORE and run in ("red", "green"):
        return None
    return KEPT / f"{tool if run == 'red' else f'{tool}-{run}'}.xml"


def ends_of(text):
    """How the tests of a file ended, and the status of its report."""
    lines, summary = b"".join(junit.scene_of([("run.xml", text)])).split(b"\n"), Summary("run.xml")
    for number, line in enumerate(lines, 1):
        summary.read(number, line)
    rows = [line.split(b"\t") for line in lines]
    ends = sorted(row[9] if row[0] == b"done" else row[0] for row in rows if row[0] in (b"done", b"skip"))
    return ends, CAME_TO[summary.came_to()]


def ran(tool, run, folder):
    """The status of a run in a new folder, and the file that it wrote; None where it wrote none."""
    at = folder / tool / run
    shutil.copytree(SOURCES / tool, at)
    how = {"cwd": at, "stdin": subprocess.DEVNULL, "capture_output": True, "timeout": PATIENCE}
    ended = subprocess.run(["bash", "-c", TOOLS[tool].words.format(run)], **how)
    file = at / "run.xml"
    return ended.returncode, file.read_bytes() if file.is_file() else None


def check_run(tool, run, folder, checks):
    """A tool of today ends as the table says, and its tests as those of the file that is kept."""
    (status, text), wanted, kept = ran(tool, run, folder), TOOLS[tool].runs[run], kept_of(tool, run)
    checks.expect(text is not None, f"{tool}, {run}: it wrote no file")
    ends, here = ends_of(text or b"<testsuite/>")
    checks.expect((status, here) == wanted, f"{tool}, {run}: the statuses {status} and {here}, and not {wanted}")
    if kept:
        checks.expect(ends == ends_of(kept.read_bytes())[0], f"{tool}, {run}: its tests ended as {ends}")


def check_page(checks):
    """The statuses of the table are those of the runs, and of what is made of the files that are kept."""
    rows, stems = {}, sorted((it.stem for it in KEPT.glob("*.xml")), key=len)
    for name, version, its, here, unsaid in ROW.findall(documents()):
        found = [it for it in stems if it in re.sub(r"[ ,]", "", name.lower().replace(".net", "dotnet"))]
        checks.expect(found, f"the table of tools: no file of {name}")
        for kept in found[-1:]:
            rows[kept] = version, its, unsaid
            _, status = ends_of((KEPT / f"{kept}.xml").read_bytes())
            checks.expect(status == int(here), f"the table of tools: {name} has the status {status} here")
    for tool, found in TOOLS.items():
        version, its, unsaid = rows.get(tool, ("", None, ""))
        others = [f"{a} → {b}" for run, (a, b) in found.runs.items() if run not in ("red", "green")]
        holds = version.strip() and its == str(found.runs["red"][0]) and all(it in unsaid for it in others)
        checks.expect(holds, f"the table of tools: {tool} has another row: {version}, {its}, {unsaid}")


def check_tools(takes_all, checks):
    """Each tool that is here, run anew, of those that take long only where all are asked for; and what the table says
    of all."""
    check_page(checks)
    here = [name for name, it in TOOLS.items() if it.is_here() and (takes_all or not it.takes_long)]
    if missing := sorted({*TOOLS} - {*here}):
        why = "are not installed here" if takes_all else "are not installed here, or take long (--all-tools)"
        print(f"{checks.name}: left out: tools that {why}: {', '.join(missing)}")
    with tempfile.TemporaryDirectory() as folder:
        runs = [(tool, run, Path(folder)) for tool in here for run in TOOLS[tool].runs]
        checks.side_by_side([functools.partial(check_run, *it) for it in runs])
