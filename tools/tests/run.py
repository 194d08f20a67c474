#!/usr/bin/env python3
"""Runs the tests of sag-plot and sag-experiment, under a Python that has matplotlib where there is one.

usage: run.py

A line says what is skipped, and how to get what it needs. The last line is 'tools: N passed, M failed, K skipped'.
"""

import importlib.util
import io
import os
import pathlib
import subprocess
import sys
import unittest
from collections import Counter

HERE = pathlib.Path(__file__).resolve().parent
OTHERS = ["/usr/bin/python3"]
CHOSEN = "SAG_TOOLS_PYTHON"
WAYS = {
    "matplotlib": "apt-get install python3-matplotlib",
    "parallel": "apt-get install parallel",
    "the program": "make builds it",
}


def has_matplotlib(python):
    probe = "import importlib.util, sys; sys.exit(importlib.util.find_spec('matplotlib') is None)"
    try:
        return subprocess.run([python, "-c", probe], check=False).returncode == 0
    except OSError:
        return False


def choose_python():
    """Starts again under a Python with matplotlib, if this one has none and another has."""
    if importlib.util.find_spec("matplotlib") is None and CHOSEN not in os.environ:
        for other in filter(has_matplotlib, OTHERS):
            os.environ[CHOSEN] = other
            os.execv(other, [other, *sys.argv])


def tell_skipped(result):
    """A line for each thing that tests are skipped without, and how to get it."""
    for reason, number in Counter(reason for _, reason in result.skipped).items():
        hint = f": {WAYS[reason]}" if reason in WAYS else ""
        print(f"tools: {number} {'test is' if number == 1 else 'tests are'} skipped without {reason}{hint}")


def main():
    sys.path.insert(0, str(HERE))
    told = io.StringIO()
    result = unittest.TextTestRunner(stream=told, verbosity=0).run(unittest.defaultTestLoader.discover(str(HERE)))
    if not result.wasSuccessful():
        print(told.getvalue())
    tell_skipped(result)
    failed, skipped = len(result.failures) + len(result.errors), len(result.skipped)
    print(f"tools: {result.testsRun - failed - skipped} passed, {failed} failed, {skipped} skipped")
    return 0 if result.wasSuccessful() else 1


if __name__ == "__main__":
    choose_python()
    sys.exit(main())
