#!/usr/bin/env python3
"""bench/scene.py [--outputs] [--passed] [--events] [--skips] [--kept=ORDER] [--kind=KIND] COUNT: writes a scene of so
many finished tests to standard output, always the same one.

Nine in ten pass; names have the lengths of a large workspace's, and each line carries the whole statistics, as in a
run. With --outputs each test has written some lines, coloured as cargo's are; a test that failed shows them at once.
With --passed every test passes, and the summary lists none. With --kept every test passes and the summary lists it;
tests finish in the order of the summary (`ordered`), in the opposite one (`reversed`) or in none (`shuffled`). With
--skips all tests are skipped, and the report says nothing of them. With --events the run is reported live: a setup
script, each test's start, slow ones, attempts that are tried again, skipped tests, the state on request, what a test is
doing, and a pause. With --kind all lines are of that kind: `start`, `retry` or `answer` with an output, or `setup`.
"""
import random
import sys

RUN_ID = "00000000-0000-4000-8000-000000000001"
BINARIES = ["alpha", "alpha::bin/beta", "my-crate", "my-crate::integration", "gamma-core", "delta_utils"]
MODULES = ["parser", "parser::tokens", "store::index::tests", "net", "tests"]


OUTPUT = "\\nrunning 1 test\\ntest {name} ... {word}\\n\\ntest result: {word}. 1 of 1; finished in 0.01s\\n"
PANIC = (
    "\\e[1mthread\\e[0m '{name}' panicked at src/parser/tokens.rs:214:9:\\nassertion `left == right` failed\\n"
    "  left: {i}\\n right: 0\\nnote: run with `RUST_BACKTRACE=1`\\n"
)


def kept_lines(count, order):
    tests = sorted(
        (BINARIES[i % len(BINARIES)], f"{MODULES[i % len(MODULES)]}::case_{i:05}_of_the_table") for i in range(count)
    )
    if order == "reversed":
        tests.reverse()
    elif order == "shuffled":
        random.Random(1).shuffle(tests)
    elif order != "ordered":
        sys.exit(f"no order: {order}")
    yield "config\tfinal\tall"
    yield f"run\t{RUN_ID}\tdefault\t{count}\t{len(BINARIES)}\t-"
    for i, (binary, name) in enumerate(tests):
        stats = f"initial={count} finished={i + 1} passed={i + 1}"
        nanos = (i * 7_919_000_003) % 3_000_000_000
        yield f"done\t-\t{binary}\t{name}\tnever\tnever\tpass\t{stats}\t1\tpass\t{nanos}\t0\tsplit\t\t\t-\t-"
    yield f"end\t99000000000\tinitial={count} finished={count} passed={count}\t0\t-"


def event_lines(count):
    yield "config\tfinal\tfail"
    yield f"run\t{RUN_ID}\tdefault\t{count}\t{len(BINARIES)}\t-"
    script = "setup-db\tcargo\trun\\,-p\\,db"
    yield f"setup\t-\t0\t1\t{script}"
    yield f"setupslow\t-\t{script}\t60000000000\t0"
    yield f"setupdone\t-\t{script}\tpass\t61000000000\t1\tsplit\t\t\t-\t-"
    for i in range(count):
        test = f"{BINARIES[i % len(BINARIES)]}\t{MODULES[i % len(MODULES)]}::case_{i:05}_of_the_table"
        before = f"initial={count} finished={i} passed={i}"
        after = f"initial={count} finished={i + 1} passed={i + 1}"
        nanos = (i * 7_919_000_003) % 3_000_000_000
        if i % 25 == 4:
            yield f"skip\t-\t{test}_elsewhere"
        if i % 500 == 250:
            yield f"input\t{i * 1_000_000}\t{before}\t4"
        if i % 1000 == 500:
            yield f"info\t{i * 1_000_000}\t1\t{before}"
            yield f"answer-test\t0\t1\t-\t{test}\t1\t1\trunning:42:1500000000:-\t-\tsplit\trunning 1 test\\n\t\t-\t-"
            yield "infoend\t0"
        if i % 2000 == 1000:
            yield "pause\t0\t4"
            yield "continue\t0\t4"
        yield f"start\t-\t{test}\t{before}\tcargo\\,test"
        if i % 20 == 3:
            yield f"slow\t-\t{test}\t1\t2\t60000000000\t0"
        attempt = f"pass\t{nanos}\t0\tsplit\t\t\t-\t-"
        total = 1
        if i % 10 == 7:
            failed = f"fail:101\t{nanos}\t0\tsplit\t\t\t-\t-"
            yield f"retry\t-\t{test}\t1\t2\t1000000000\tnever\t{failed}"
            yield f"retrystart\t-\t{test}\t2\t2\tcargo\\,test"
            attempt, total = f"{failed}\t{attempt}", 2
        yield f"done\t-\t{test}\tnever\tnever\tpass\t{after}\t{total}\t{attempt}"
    yield f"end\t99000000000\tinitial={count} finished={count} passed={count}\t0\t-"


def kind_lines(count, kind):
    yield "config\tfinal\tfail"
    yield f"run\t{RUN_ID}\tdefault\t{count}\t{len(BINARIES)}\t-"
    for i in range(count):
        name = f"{MODULES[i % len(MODULES)]}::case_{i:05}_of_the_table"
        test = f"{BINARIES[i % len(BINARIES)]}\t{name}"
        output = "split\t" + OUTPUT.format(name=name, word="ok") + "\t\t-\t-"
        yield {
            "start": f"start\t-\t{test}\tinitial={count} finished={i} passed={i}\tcargo\\,test",
            "retry": f"retry\t-\t{test}\t1\t2\t1000000000\tnever\tfail:101\t1500000000\t0\t{output}",
            "answer": f"answer-test\t{i}\t{count}\t-\t{test}\t1\t1\trunning:42:1500000000:-\t-\t{output}",
            "setup": f"setup\t-\t{i}\t{count}\tsetup-{i:05}\tcargo\trun\\,-p\\,db",
        }[kind]
    yield f"end\t99000000000\tinitial={count} finished={count} passed={count}\t0\t-"


def skip_lines(count):
    yield "config\tfinal\tfail"
    yield f"run\t{RUN_ID}\tdefault\t{count}\t{len(BINARIES)}\t-"
    for i in range(count):
        yield f"skip\t-\t{BINARIES[i % len(BINARIES)]}\t{MODULES[i % len(MODULES)]}::case_{i:07}_of_the_table"
    yield f"end\t99000000000\tinitial={count} skipped={count}\t0\t-"


def lines(count, has_outputs, all_pass):
    yield "config\tfinal\tfail"
    yield f"run\t{RUN_ID}\tdefault\t{count}\t{len(BINARIES)}\t-"
    passed = failed = 0
    for i in range(count):
        binary = BINARIES[i % len(BINARIES)]
        name = f"{MODULES[i % len(MODULES)]}::case_{i:05}_of_the_table"
        fails = i % 10 == 7 and not all_pass
        passed, failed = passed + (not fails), failed + fails
        stats = f"initial={count} finished={i + 1} passed={passed}" + (f" failed={failed}" if failed else "")
        result = "fail:101" if fails else "pass"
        nanos = (i * 7_919_000_003) % 3_000_000_000
        display, stdout, stderr = "never", "", ""
        if has_outputs:
            display = "immediate"
            stdout = OUTPUT.format(name=name, word="FAILED" if fails else "ok")
            stderr = PANIC.format(name=name, i=i) if fails else ""
        attempt = f"{result}\t{nanos}\t0\tsplit\t{stdout}\t{stderr}\t-\t-"
        yield f"done\t-\t{binary}\t{name}\tnever\t{display}\tpass\t{stats}\t1\t{attempt}"
    yield f"end\t99000000000\tinitial={count} finished={count} passed={passed} failed={failed}\t0\t-"


if __name__ == "__main__":
    count = int(sys.argv[-1])
    orders = [word.removeprefix("--kept=") for word in sys.argv[1:] if word.startswith("--kept=")]
    kinds = [word.removeprefix("--kind=") for word in sys.argv[1:] if word.startswith("--kind=")]
    if orders:
        scene = kept_lines(count, orders[0])
    elif kinds:
        scene = kind_lines(count, kinds[0])
    elif "--events" in sys.argv:
        scene = event_lines(count)
    elif "--skips" in sys.argv:
        scene = skip_lines(count)
    else:
        scene = lines(count, "--outputs" in sys.argv, "--passed" in sys.argv)
    sys.stdout.writelines(f"{line}\n" for line in scene)
