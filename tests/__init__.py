"""Tests of the Python of this repository: `python3 -m unittest tests.test_words -k level` runs some."""

import sys
from pathlib import Path

sys.path.insert(0, str(Path(__file__).resolve().parent.parent / "scripts"))
