"""How the time of a converter, a summary, annotations and a page grows: over inputs of many shapes, once and four
times as long; and how much memory a converter takes."""

import base64
import functools
import io
import os
import random
import resource
import subprocess
import tempfile
import time
from pathlib import Path

from norigully import TOP, ci_summary, junit, libtest_json, page

# Four times the input takes at most this many times as long. With the square of the length it would take 16 times.
MOST = 6
# And the annotations of a long text, in which places are looked for, take at most so many times as long as its summary.
ALIKE, TEXTS = 30, ("a letter", "dots", "a letter and a dot", "base64", "places in a long line")
# Of what takes fewer seconds than that, the clock and what does not grow are the most; a page has more of that.
LITTLE, OF_A_PAGE = 0.05, 0.5
COUNT, COUNT_OF_A_PAGE, TIMES = 1500, 500, 3
# Other work on the machine makes a processor second dearer: what takes too long is measured again, so often at most,
# and the least of both counts.
TRIES = 9
CONVERTERS = ("--junit", "--libtest")
# In a suite there are at most a hundred in one another.
DEEP = 90


def noise(count):
    return base64.b64encode(random.Random(count).randbytes(60 * count))


def many(element, count):
    """So many elements, each with its number where it has a %d."""
    return b"".join(element.replace(b"%d", b"%d" % it) for it in range(count))


def case(inner):
    return b'<testsuite><testcase name="a">%b</testcase></testsuite>' % inner


def failed(text):
    return case(b"<failure>%b</failure><system-out>%b</system-out>" % (text, text))


# JUnit XML of each shape, of a length that is in proportion to a number.
SHAPES = {
    "many failures in a test": lambda count: case(
        many(b'<failure message="a.cc:%d: CHECK( x == %d )"/>', count)
        + b"<system-out>%b</system-out>" % many(b"CHECK( y == %d )\n", count)
    ),
    "many tests": lambda count: b"<testsuite>%b</testsuite>"
    % many(b'<testcase name="t%d" time="0.%d"><failure>a/b.c:%d: no</failure></testcase>', count),
    "deep suites": lambda count: b"<testsuites>%b</testsuites>"
    % (many(b'<testsuite name="s%d" errors="1">', DEEP) * (count // DEEP + 1)).replace(
        b'name="s89" errors="1">', b'name="s89"><testcase><error/></testcase>' + b"</testsuite>" * DEEP
    ),
    "a letter": lambda count: failed(b"a" * 80 * count),
    "dots": lambda count: failed(b"." * 80 * count),
    "a letter and a dot": lambda count: failed(b"a." * 40 * count),
    "base64": lambda count: failed(noise(count)),
    "places in a long line": lambda count: failed(b"x.a:1 " * 13 * count),
    "a long message": lambda count: case(b'<failure message="%b"/>' % (b"a" * 80 * count)),
    "colours": lambda count: case(b"<failure>%b</failure>" % many(b"\x1b[31m%d]&#27;[m]]", count)),
    "many properties": lambda count: case(
        b"<properties>%b</properties><failure/>" % many(b'<property name="p%d" value="v"/>', count)
    ),
    "many attributes": lambda count: case(b"<failure%b/>" % many(b' a%d="x"', count)),
    "many reruns": lambda count: case(
        b"<failure/>" + many(b"<rerunFailure><stackTrace>at a.b(C.java:%d)</stackTrace></rerunFailure>", count)
    ),
}
BEGUN = b'{"type":"suite","event":"started","test_count":1}\n'
FAILED = b'{"type":"test","event":"failed","name":"a%d","stdout":"%b"}\n'


def json_failed(text):
    return BEGUN + FAILED.replace(b"%b", text)


# And libtest's JSON.
JSON_SHAPES = {
    "many failures in a test": lambda count: json_failed(many(b"assertion %d failed\\n", count)),
    "many tests": lambda count: BEGUN + many(FAILED.replace(b"%b", b"no"), count),
    "many suites": lambda count: (BEGUN + FAILED) * count,
    "a letter": lambda count: json_failed(b"a" * 80 * count),
    "dots": lambda count: json_failed(b"." * 80 * count),
    "a letter and a dot": lambda count: json_failed(b"a." * 40 * count),
    "base64": lambda count: json_failed(noise(count)),
    "many lines of text": lambda count: BEGUN + b"{\n" * count + b"     Running unittests a\n" * count,
    "a long line of cargo's": lambda count: BEGUN + b"     Running " + b"a" * 80 * count,
    "many ends in a line": lambda count: BEGUN + b"process didn't exit successfully: " * 3 * count,
    "an object in objects": lambda count: BEGUN + b"{" * 80 * count,
    "many attributes": lambda count: BEGUN + b'{"type":"test","event":"ok","name":"a"%b}\n' % many(b',"a%d":1', count),
    "many reruns": lambda count: BEGUN + FAILED * count,
}

# A converter takes at most so many KB of memory for a file of so many bytes.
MEMORY, BYTES = 48_000, 48 << 20
COMMENT = b"<!-- \x1b[31m%b -->\n" % (b"x" * 4000)


def convert(text):
    return b"".join(junit.scene_of([("a", text)]))


def convert_json(text):
    return b"".join(libtest_json.scene_of(io.BytesIO(text), "a"))


def summarize(word, scene):
    summary = ci_summary.Summary("a")
    for number, line in enumerate(scene.split(b"\n"), 1):
        summary.read(number, line)
    return "".join(summary.markdown() if word == "--summary" else summary.annotations())


def make_page(program, scene):
    with tempfile.TemporaryDirectory() as folder:
        file = Path(folder, "a.scene")
        file.write_bytes(scene)
        page.main(["--choices", "few", "-o", f"{folder}/a.html", str(file)], lambda: program)


def used():
    """The processor time of this process and of those that it started and that ended."""
    ended = resource.getrusage(resource.RUSAGE_CHILDREN)
    return time.process_time() + ended.ru_utime + ended.ru_stime


def seconds(work, given):
    """The processor time of some work: the least of some."""
    found = []
    for _ in range(TIMES):
        began = used()
        work(given)
        found.append(used() - began)
    return min(found)


def taken(word, name, program, count):
    """The time of an input of this shape and length."""
    given = (JSON_SHAPES if word == "--libtest" else SHAPES)[name](count)
    if word in CONVERTERS:
        return seconds(convert if word == "--junit" else convert_json, given)
    work = functools.partial(make_page, program) if word == "--page" else functools.partial(summarize, word)
    return seconds(work, convert(given))


def compared(most, little, *cases):
    """The times of two cases, and whether the second takes at most so many times as long as the first, or little."""
    found = [[], []]
    for _ in range(TRIES):
        for it, case in zip(found, cases):
            it.append(taken(*case))
        first, second = map(min, found)
        if holds := second <= most * max(first, little):
            break
    return first, second, holds


def check_growth(word, name, program, checks):
    """An input of four times the length takes no longer than it may."""
    count, little = (COUNT_OF_A_PAGE, OF_A_PAGE) if word == "--page" else (COUNT, LITTLE)
    once, four, holds = compared(MOST, little, *((word, name, program, it) for it in (count, 4 * count)))
    checks.expect(holds, f"{word}, {name}: {once:.2f} s, and {four:.2f} s of an input that is four times as long")


def check_text(name, program, checks):
    """To look for places takes little."""
    words = "--summary", "--annotations"
    summary, annotations, holds = compared(ALIKE, LITTLE / 10, *((word, name, program, COUNT) for word in words))
    checks.expect(holds, f"{name}: {summary:.2f} s for a summary, and {annotations:.2f} s for annotations")


def check_memory(checks):
    """A file, and what comes through a pipe, is not kept in memory."""
    with tempfile.TemporaryDirectory() as folder:
        file = Path(folder, "run.xml")
        with open(file, "wb") as made:
            made.writelines([b"<testsuite>", *[COMMENT] * (BYTES // len(COMMENT)), b"</testsuite>"])
        for words in ([file], ["-"]):
            with open(file, "rb") as given, open("/dev/null", "wb") as to:
                how = {"stdin": given, "stdout": to, "stderr": to}
                with subprocess.Popen([TOP / "scripts/scene-of-junit", *words], **how) as child:
                    _, status, usage = os.wait4(child.pid, 0)
                    child.returncode = status
            checks.expect(status == 0 and usage.ru_maxrss < MEMORY, f"{words}: {usage.ru_maxrss} KB, status {status}")


def check_all(program, checks):
    words = [*CONVERTERS, "--summary", "--annotations", "--page"]
    calls = [(word, name) for word in words for name in (JSON_SHAPES if word == "--libtest" else SHAPES)]
    calls = [functools.partial(check_growth, *it, program) for it in calls]
    checks.side_by_side([check_memory, *calls, *(functools.partial(check_text, name, program) for name in TEXTS)])
