#!/usr/bin/env python3
"""Lets the first allocation of a call fail, then the second, and so on until none is left.

usage: alloc_faults.py PROGRAM [--only FOLDER]

The calls are those of examples/README.md, run by the proved program with fail_alloc.c before the C library. Each run has to end
with status 7, `no memory` as the last line of the error stream and nothing or the first bytes of the output, or with the answer
that the call has when nothing fails. The status of this script is 1 where a run ended otherwise.

CC names another C compiler for cc.
"""

import argparse
import concurrent.futures
import os
import pathlib
import re
import subprocess
import sys
import tempfile

TOP = pathlib.Path(__file__).resolve().parent.parent
AT_ONCE = 64


def stories():
    """The folder and the words of each example."""
    text = (TOP / "examples" / "README.md").read_text(encoding="utf-8").split("## Stories\n", 1)[1]
    for line in text.splitlines():
        cells = [re.sub(r"^\[?`?|`?(\]\(.*\))?$", "", cell.strip()) for cell in line.strip("|").split(" | ")]
        if line.startswith("| [") and len(cells) >= 3:
            yield cells[0], cells[1].split()[1:]


class Call:
    """A call of the program, and what it answers when nothing fails."""

    def __init__(self, program, library, folder, words):
        self.program, self.library = program, library
        self.folder, self.words = folder, words
        self.whole = self.run(0)[1:]

    def run(self, number):
        """Whether that allocation was reached, and the status, the output and the error stream."""
        heard, said = os.pipe()
        settings = {**os.environ, "LD_PRELOAD": self.library, "FAIL_ALLOC": str(number), "FAIL_ALLOC_FD": str(said)}
        try:
            done = subprocess.run([self.program, *self.words], cwd=TOP / "examples" / self.folder, env=settings,
                                  pass_fds=[said], capture_output=True, check=False)
        finally:
            os.close(said)
        with os.fdopen(heard, "rb") as end:
            reached = end.read() != b""
        return reached, done.returncode, done.stdout, done.stderr

    def ends_well(self, status, out, errors):
        """Whether a run with a failure ended as it may."""
        memory = status == 7 and self.whole[1].startswith(out) and errors.endswith(b"no memory\n")
        return memory or (status, out, errors) == self.whole

    def check(self, workers):
        """How many allocations failed in turn, how many of the runs ended with the answer, and those that ended otherwise."""
        failed, answered, others = 0, 0, []
        while True:
            numbers = range(failed + 1, failed + AT_ONCE + 1)
            runs = list(workers.map(self.run, numbers))
            for number, (reached, *ended) in zip(numbers, runs):
                if not reached:
                    return failed, answered, others
                failed += 1
                answered += tuple(ended) == self.whole
                if not self.ends_well(*ended):
                    others.append((number, *ended))


def build_library(folder):
    """The shared library that lets an allocation fail."""
    library = str(pathlib.Path(folder) / "fail_alloc.so")
    subprocess.run([os.environ.get("CC", "cc"), "-shared", "-fPIC", "-O2", "-o", library, TOP / "bench" / "fail_alloc.c"], check=True)
    return library


def main(program, only):
    wrong = 0
    with tempfile.TemporaryDirectory() as folder, concurrent.futures.ThreadPoolExecutor() as workers:
        library = build_library(folder)
        for name, words in stories():
            if only not in (None, name):
                continue
            failed, answered, others = Call(program, library, name, words).check(workers)
            print(f"sag {' '.join(words)} in {name}: {failed} allocations failed in turn, {answered} of these calls answered",
                  flush=True)
            for number, status, out, errors in others:
                print(f"  allocation {number}: status {status}, {len(out)} bytes, {errors.decode('utf-8', errors='replace')!r}")
            wrong += len(others)
    print(f"alloc_faults: {wrong} ended otherwise")
    return 1 if wrong else 0


if __name__ == "__main__":
    given = argparse.ArgumentParser(description=__doc__.splitlines()[0])
    given.add_argument("program")
    given.add_argument("--only")
    asked = given.parse_args()
    sys.exit(main(str(pathlib.Path(asked.program).resolve()), asked.only))
