#!/usr/bin/env python3
"""Proves and builds a program, and says on a terminal which crate of how many is being proved.

usage: prove.py CRATE

The crates below CRATE, by crates.txt, are proved lowest first. What is proved already is not proved again.
"""

import pathlib
import subprocess
import sys
import tempfile

TOP = pathlib.Path(__file__).resolve().parent.parent


def crates_below(name):
    """The crate and those of this repository that it stands on, lowest first."""
    below = {}
    for line in (TOP / "crates.txt").read_text(encoding="utf-8").splitlines():
        crate, _, needs = line.partition("#")[0].partition(":")
        if crate.strip():
            below[crate.split()[0]] = needs.split()
    order = []

    def visit(crate):
        if crate in below and crate not in order:
            for need in below[crate]:
                visit(need)
            order.append(crate)
    visit(name)
    return order


def prove(folder, words):
    """Runs rt in the folder; gives whether it passed, and prints what it said where it did not."""
    with tempfile.TemporaryFile() as log:
        done = subprocess.run(["rt", *words], cwd=folder, stdout=log, stderr=subprocess.STDOUT, stdin=subprocess.DEVNULL, check=False)
        if done.returncode != 0:
            log.seek(0)
            sys.stderr.buffer.write(log.read())
        return done.returncode == 0


def main(folder):
    shown = sys.stderr.isatty()
    # where nobody looks on, rt alone finds what is below
    crates = crates_below(folder.name) if shown else [folder.name]
    for number, crate in enumerate(crates, start=1):
        if shown:
            print(f"\rproving {number} of {len(crates)}: {crate:<24}", end="", file=sys.stderr, flush=True)
        words = ["run", "--", "replay", "data/jobs.csv", "data/scenario.csv"] if crate == folder.name else ["lib"]
        if not prove(TOP / "crates" / crate, words):
            return 1
    if shown:
        print("\r" + " " * 60 + "\r", end="", file=sys.stderr)
    return 0


if __name__ == "__main__":
    if len(sys.argv) != 2:
        sys.exit(__doc__)
    sys.exit(main(TOP / sys.argv[1]))
