"""python3 -m tests: runs all tests of this folder, and counts them in its last line."""

import sys
import unittest

ran = unittest.TextTestRunner().run(unittest.defaultTestLoader.discover("tests", top_level_dir="."))
failed = len(ran.failures) + len(ran.errors)
for test, why in ran.skipped:
    print(f"tests: left out: {test.id()}, since {why}")
print(f"tests: {ran.testsRun} run, {failed} failed")
sys.exit(1 if failed or not ran.testsRun else 0)
