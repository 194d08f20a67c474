"""The tools with the program itself, where it is built: an experiment, its certificate on a page, and the automotive example."""

import csv
import os
import pathlib
import subprocess
import sys
import tempfile
import unittest

from helpers import EXAMPLES, TOOLS, needs_matplotlib, needs_program, sag_program, tool


@needs_program
class Whole(unittest.TestCase):
    def test_from_a_seed_to_a_page(self):
        with tempfile.TemporaryDirectory() as name:
            folder = pathlib.Path(name) / "a"
            words = [
                "--sets",
                "1",
                "--utilizations",
                "0.3:0.9:0.6",
                "--jitter",
                "5",
                "--variation",
                "20",
                "--tasks",
                "4",
            ]
            self.assertEqual(tool("sag-experiment", "make", folder, *words).returncode, 0)
            sets = sorted((folder / "sets").iterdir())
            done = tool("sag-experiment", "one", *sets, "--sag", sag_program(), "--keep")
            self.assertEqual((done.returncode, done.stderr), (0, b""))
            rows = list(csv.DictReader(tool("sag-experiment", "table", folder).stdout.decode().splitlines()))
            for row, place in zip(rows, sets):
                lines = (place / "certificate.txt").read_text().splitlines()
                kinds = [line.partition(" ")[0] for line in lines]
                self.assertEqual(int(row["States"]), 1 + kinds.count("state"))
                self.assertEqual(int(row["Edges"]), kinds.count("edge"))
                self.assertEqual(int(row["Jobs"]), kinds.count("job"))
                self.assertEqual(f"verdict {row['Verdict']}", lines[-2])

    @needs_matplotlib
    @unittest.skipUnless((EXAMPLES / "automotive").is_dir(), "examples/automotive")
    def test_the_automotive_example(self):
        """It compares what it makes with what stands there."""
        with tempfile.TemporaryDirectory() as name:
            folder = pathlib.Path(name)
            for path in (EXAMPLES / "automotive").iterdir():
                if path.is_file():
                    (folder / path.name).write_bytes(path.read_bytes())
            plot = folder / "sag-plot"
            plot.write_text(f'#!/bin/sh\nexec "{sys.executable}" "{TOOLS / "sag-plot"}" "$@"\n')
            plot.chmod(0o755)
            words = ["sh", str(folder / "run.sh"), str(sag_program()), str(plot)]
            done = subprocess.run(words, capture_output=True, text=True, check=False, env=dict(os.environ, LC_ALL="C"))
            self.assertEqual((done.returncode, done.stderr), (0, ""))
            self.assertEqual([line.rpartition(" ")[2] for line in done.stdout.splitlines()], ["285", "30", "0"])
            made = {path.name for path in (folder / "out").iterdir()}
            self.assertLessEqual({"schedule.png", "bounds.png", "growth.png", "page.html"}, made)


if __name__ == "__main__":
    unittest.main()
