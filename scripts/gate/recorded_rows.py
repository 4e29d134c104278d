"""Outputs of recorded runs, right ones and wrong ones, for tests/test_recorded.py, check-recorded and check-replay."""

from norigully.recorded import sum_of
from norigully.scene_lines import Attempt, Run

OUTPUT = b"first second"
# Lines with an output in place of `%b`, and the field of its form.
KINDS = {
    "done": (b"done\t-\ta\tt1\tnever\tnever\tpass\t-\t1\tpass\t5\t0\t%b", 13),
    "a second attempt": (
        b"done\t-\ta\tt1\tnever\tnever\tpass\t-\t2\tfail:1\t5\t0\tsplit\t\t-\t-\t-\tpass\t5\t0\t%b",
        21,
    ),
    "retry": (b"retry\t-\ta\tt1\t1\t3\t0\tnever\tfail:1\t5\t0\t%b", 12),
    "setupdone": (b"setupdone\t-\tdb\tmake-db\t-\tpass\t5\t0\t%b", 9),
    "answer-test": (b"answer-test\t0\t1\t-\ta\tt1\t1\t1\trunning:42:15:-\t-\t%b", 11),
    "answer-script": (b"answer-script\t0\t1\t-\tdb\tmake-db\t-\texited:15:-\tpass\t%b", 10),
}


def reference(offset, length, digest=None, output=OUTPUT):
    return b"\\@%d:%d:%b" % (offset, length, digest or sum_of(output[offset : offset + length]))


FIRST, SECOND, NONE = reference(0, 5), reference(6, 6), reference(12, 0)
SUM, OTHER_SUM = sum_of(b"first"), reference(0, 5, sum_of(b"other"))
# Outputs of a recorded run that are right, with what a scene has in their place.
TAKEN = {
    b"split\t%b\t%b\t-\t-" % (FIRST, SECOND): b"split\tfirst\tsecond\t-\t-",
    b"split\t%b\t%b\t-\t-" % (SECOND, SECOND): b"split\tsecond\tsecond\t-\t-",
    b"split\t%b\t-\t-\t-" % FIRST: b"split\tfirst\t-\t-\t-",
    b"split\t\t%b\t-\t-" % FIRST: b"split\t\tfirst\t-\t-",
    b"split\t%b\t-\t-\t-" % NONE: b"split\t\t-\t-\t-",
    b"comb\t%b\t-\t-\t-" % FIRST: b"comb\tfirst\t-\t-\t-",
    b"comb\t\\@%b0:%b5:%b\t-\t-\t-" % (b"0" * 9000, b"0" * 9000, SUM): b"comb\tfirst\t-\t-\t-",
    b"split\tfirst\tsecond\t-\t-": b"split\tfirst\tsecond\t-\t-",
    b"comb\t-\t-\t-\t-": b"comb\t-\t-\t-\t-",
}
NO_REFERENCES = (
    *(b"\\@", b"\\@0", b"\\@0:5", b"\\@0:5:", b"\\@:5:%b" % SUM, b"\\@0::%b" % SUM, b"\\@0:5:%b:" % SUM),
    *(b"\\@+0:5:%b" % SUM, b"\\@0:+5:%b" % SUM, b"\\@-0:5:%b" % SUM, b"\\@ 0:5:%b" % SUM, b"\\@0x0:5:%b" % SUM),
    *(b"\\@a:5:%b" % SUM, b"\\@0:5:%b" % SUM.upper(), b"\\@0:5:%b" % SUM[:-1], b"\\@0:5:%b0" % SUM),
    *(FIRST + b" ", FIRST + b"\r", FIRST + b"x", FIRST + FIRST, reference(1, 5, SUM), OTHER_SUM),
    *(reference(0, 13), reference(12, 1), reference(13, 0), reference(2**64, 5, SUM), reference(5, 2**64 - 5)),
    b"\\@0:%b:%b" % (b"9" * 9000, SUM),
)
# Other fields that are wrong. The number is that of the field that the fault names, counted from the form.
REFUSED = {
    **{b"split\t%b\t-\t-\t-" % it: 1 for it in NO_REFERENCES},
    **{b"split\t-\t%b\t-\t-" % it: 2 for it in NO_REFERENCES},
    b"split\t%b\ttext\t-\t-" % FIRST: 1,
    b"split\ttext\t%b\t-\t-" % FIRST: 2,
    b"split\t%b\t\\x2d\t-\t-" % FIRST: 1,
    b"split\t%b\t\\@\t-\t-" % FIRST: 2,
    b"split\t%b\t\\@\t-\t-" % OTHER_SUM: 1,
    b"split\t%b\t-\t%b\t-" % (FIRST, FIRST): 3,
    b"split\t%b\t-\t-\t%b" % (FIRST, FIRST): 4,
    b"comb\t%b\t%b\t-\t-" % (FIRST, SECOND): 2,
    b"unloaded\t%b\t-\t-\t-" % FIRST: 1,
    b"start\t%b\t-\t-\t-" % FIRST: 1,
    b"\\@\t%b\t-\t-\t-" % FIRST: 0,
}


def small_scene():
    """The lines of a run of two tests, the second of which is tried again."""
    lines = [b"config\tfinal\tall\n"]
    run = Run(lambda line: lines.append(line.encode()), 2, 1)
    run.done("alpha", "t1", [Attempt("pass", 1, b"one\n", b"-")])
    failed = Attempt("fail:1", 1, b"\xffno\n", b"x" * 9, highlight=("out", 1, b"no"))
    run.retry("alpha", "t2", failed, 1, 2)
    run.done("alpha", "t2", [failed, Attempt("pass", 1, combined=b"at last")])
    run.end(4)
    return lines
