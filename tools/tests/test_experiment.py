"""sag-experiment: what sets are made, how they are run and taken up again, and what is told of them."""

import csv
import io
import math
import os
import pathlib
import random
import shlex
import signal
import subprocess
import sys
import tempfile
import time
import unittest
from collections import Counter

from helpers import TOOLS, needs_matplotlib, needs_parallel, started, tool
from sagtools.fault import Fault
from sagtools.runs import count_marks
from sagtools.tasksets import (
    AUTOMOTIVE_MS,
    Recipe,
    automotive,
    bounded,
    draw_set,
    log_uniform,
    tasks_text,
    uunifast_discard,
    utilization_of,
)

RECIPE = Recipe(tasks=8, periods="10:100:5", cores=2, jitter=10, variation=50, longest=0, horizon=0, most_jobs=500)
SMALL = [
    "--sets",
    "3",
    "--utilizations",
    "0.2:0.8:0.3",
    "--tasks",
    "3",
    "--periods",
    "1000:4000:1000",
    "--most-jobs",
    "90",
]
FAKE = pathlib.Path(__file__).with_name("fake_sag.py")


class Sets(unittest.TestCase):
    def test_utilizations(self):
        chance = random.Random("a")
        for tasks, total in ((1, 0.5), (3, 0.9), (4, 3.5), (6, 6), (20, 8)):
            shares = uunifast_discard(chance, tasks, total)
            self.assertAlmostEqual(sum(shares), total)
            self.assertTrue(len(shares) == tasks and all(0 <= share <= 1 + 1e-9 for share in shares))

    def test_bounded_utilizations(self):
        chance, most = random.Random("a"), [1.0, 0.3, 0.001, 0.2, 0.5]
        for total in (0.001, 0.7, 1.9):
            shares = bounded(chance, total, most)
            self.assertAlmostEqual(sum(shares), total)
            self.assertTrue(all(0 <= share <= bound + 1e-9 for share, bound in zip(shares, most)))

    def test_both_ways_have_one_distribution(self):
        # three shares within 0 to 1 with the sum 1.5 are a hexagon, which the orders of the shares part in six of one size
        chance, draws = random.Random("a"), 3000
        for draw in (lambda: uunifast_discard(chance, 3, 1.5), lambda: bounded(chance, 1.5, [1, 1, 1])):
            shares = [draw() for _ in range(draws)]
            orders = Counter(tuple(sorted(range(3), key=each.__getitem__)) for each in shares)
            self.assertTrue(all(abs(orders[order] / draws - 1 / 6) < 0.035 for order in orders) and len(orders) == 6)
            # the hexagon of those within 0.25 to 0.75 has a quarter of the area
            middle = sum(all(0.25 <= share <= 0.75 for share in each) for each in shares) / draws
            self.assertLess(abs(middle - 0.25), 0.035)

    def test_periods(self):
        chance = random.Random("a")
        drawn = Counter(automotive(chance) // 1000 for _ in range(20_000))
        self.assertEqual(set(drawn), set(AUTOMOTIVE_MS))
        self.assertTrue(all(abs(drawn[period] / 20_000 - share / 85) < 0.02 for period, share in AUTOMOTIVE_MS.items()))
        draw = log_uniform(10, 1000, 10)
        periods = [draw(chance) for _ in range(5000)]
        self.assertTrue(all(10 <= period <= 1000 and period % 10 == 0 for period in periods))
        self.assertLess(abs(sum(period < 100 for period in periods) / 5000 - 0.5), 0.05)

    def test_a_seed_is_a_set(self):
        tasks = draw_set(RECIPE, 0.6, "1/0.6/1")
        self.assertEqual(tasks_text(tasks), tasks_text(draw_set(RECIPE, 0.6, "1/0.6/1")))
        self.assertNotEqual(tasks, draw_set(RECIPE, 0.6, "1/0.6/2"))
        self.assertLess(abs(utilization_of(tasks, 2) - 0.6), 0.1)
        horizon = math.lcm(*(task.period for task in tasks))
        self.assertLessEqual(sum(horizon // task.period for task in tasks), 500)
        for task in tasks:
            self.assertEqual(task.jitter, task.period // 10)
            self.assertTrue(1 <= task.cost_min <= task.cost_max <= task.period)
            self.assertEqual(task.cost_min, max(1, task.cost_max - task.cost_max // 2))

    def test_no_such_set(self):
        for recipe in (
            Recipe(3, "7:7919:1", 1, 0, 0, 0, 0, 3),
            Recipe(3, "10:100:7", 1, 0, 0, 0, 0, 500),
            Recipe(3, "1000:2000:1000", 1, 0, 0, 1, 0, 500),
        ):
            with self.assertRaises(Fault):
                draw_set(recipe, 0.5, "a")

    def test_marks_are_counted_across_pieces(self):
        with tempfile.TemporaryDirectory() as folder:
            path = pathlib.Path(folder) / "a"
            path.write_bytes(b"head\n" + b"state 1\nedge 22\n" * 200_000 + b"edge 3\nend\n")
            self.assertEqual(count_marks(path, [b"\nstate ", b"\nedge "]), [200_000, 200_001])
            self.assertEqual(count_marks(path, [b"\n"]), [400_003])


class Runs(unittest.TestCase):
    """With a program that stands for sag: see fake_sag.py."""

    def setUp(self):
        held = tempfile.TemporaryDirectory()
        self.addCleanup(held.cleanup)
        self.folder = pathlib.Path(held.name) / "a folder"
        self.folder.mkdir()
        self.sag = self.folder / "sag"
        self.sag.write_text(
            f'#!/bin/sh\nexec {shlex.quote(sys.executable)} {shlex.quote(str(FAKE))} "$@"\n', encoding="ascii"
        )
        self.sag.chmod(0o755)

    def call(self, *words, status=0):
        done = tool("sag-experiment", *words)
        self.assertEqual(done.returncode, status, done.stderr)
        return done

    def run_all(self, name):
        """As a program: the runs call it again by its name."""
        env = dict(os.environ, PATH=os.path.dirname(sys.executable) + os.pathsep + os.environ["PATH"])
        return started("sag-experiment", "run", self.folder / name, "--sag", self.sag, "--", "--jobs", "4", env=env)

    def table(self, name, but=("Analyse seconds", "Check seconds", "Analyse KiB", "Check KiB")):
        rows = csv.DictReader(io.StringIO(self.call("table", self.folder / name).stdout.decode()))
        return [{column: value for column, value in row.items() if column not in but} for row in rows]

    def test_made_again_it_is_the_same(self):
        for name in ("a", "b", "a"):
            self.call("make", self.folder / name, *SMALL)
        texts = [
            [path.read_text() for path in sorted((self.folder / name).rglob("*")) if path.is_file()]
            for name in ("a", "b")
        ]
        self.assertEqual((texts[0], len(texts[0])), (texts[1], 19))
        done = self.call("make", self.folder / "a", *SMALL, "--seed", "2", status=2)
        self.assertIn(b"holds another experiment", done.stderr)

    def test_one_set(self):
        self.call("make", self.folder / "a", *SMALL)
        first = self.folder / "a" / "sets" / "0.2-0001"
        self.call("one", first, "--sag", self.sag)
        (row,) = self.table("a")
        jobs = int(row["Jobs"])
        self.assertEqual((row["Set"], row["Seed"], row["Verdict"]), ("0.2-0001", "1/0.2/1", "ok"))
        self.assertEqual((int(row["States"]), int(row["Edges"])), (jobs + 1, jobs))
        self.assertEqual(
            sorted(path.name for path in first.iterdir()), ["report.csv", "result.json", "set.json", "tasks.csv"]
        )
        self.call("one", first, "--sag", self.sag, "--keep")
        self.assertTrue((first / "certificate.txt").exists())

    def test_a_set_that_fails_has_no_result(self):
        self.call("make", self.folder / "a", *SMALL)
        first = self.folder / "a" / "sets" / "0.2-0001"
        (first / "tasks.csv").write_text("h\nx\n")
        done = self.call("one", first, "--sag", self.sag, status=2)
        self.assertRegex(done.stderr.decode(), r"\Asag-experiment: .*sag unroll: .*\n\Z")
        (first / "tasks.csv").write_text("h\n1,1000,77,0,1,2,1000\n")
        done = self.call("one", first, "--sag", self.sag, status=2)
        self.assertEqual(done.stderr, b"sag-experiment: 0.2-0001: the certificate is not valid: no K6 line 8\n")
        self.assertEqual(self.table("a"), [])

    @needs_parallel
    def test_ended_half_way_and_taken_up_again(self):
        self.call("make", self.folder / "a", *SMALL)
        self.call("make", self.folder / "b", *SMALL)
        done = self.run_all("a")
        self.assertEqual((done.returncode, done.stderr), (0, b""))
        whole = self.table("a")
        self.assertEqual((len(whole), {row["Verdict"] for row in whole}), (9, {"ok", "miss", "over budget"}))
        # some sets have a result, one was ended before it had one, and one cannot be run
        ready = self.folder / "b" / "sets" / "0.2-0001"
        self.call("one", ready, "--sag", self.sag)
        kept = (ready / "result.json").stat().st_mtime_ns
        half, wrong = (self.folder / "b" / "sets" / name for name in ("0.5-0001", "0.5-0002"))
        (half / "jobs.csv").write_text("h\n")
        tasks = (wrong / "tasks.csv").read_text()
        (wrong / "tasks.csv").write_text("h\nx\n")
        done = self.run_all("b")
        self.assertEqual(done.returncode, 1)
        self.assertIn(b"sag-experiment: 1 set has no result; run it again to go on\n", done.stderr)
        (wrong / "tasks.csv").write_text(tasks)
        self.assertEqual(self.run_all("b").returncode, 0)
        self.assertEqual((self.table("b"), (ready / "result.json").stat().st_mtime_ns), (whole, kept))
        self.assertEqual((self.folder / "b" / "results.csv").read_bytes(), self.call("table", self.folder / "b").stdout)

    @needs_parallel
    def test_told_to_end(self):
        """Parallel is told too, begins no further set, and leaves no set half done."""
        self.call("make", self.folder / "a", *SMALL)
        words = [
            sys.executable,
            str(TOOLS / "sag-experiment"),
            "run",
            str(self.folder / "a"),
            "--sag",
            str(self.sag),
            "--",
            "--jobs",
            "1",
        ]
        env = dict(os.environ, PATH=os.path.dirname(sys.executable) + os.pathsep + os.environ["PATH"])
        with subprocess.Popen(words, env=env, stdout=subprocess.DEVNULL, stderr=subprocess.DEVNULL) as child:
            while not list(self.folder.glob("a/sets/*/result.json")) and child.poll() is None:
                time.sleep(0.02)
            child.terminate()
        self.assertEqual(child.returncode, 128 + signal.SIGTERM)
        done = len(self.table("a"))
        self.assertTrue(0 < done < 9)
        self.assertEqual(len(list(self.folder.glob("a/sets/*/certificate.txt"))), 0)

    def test_what_is_refused(self):
        rows = [
            (("run", self.folder), f"{self.folder} holds no experiment: see sag-experiment make"),
            (("run", self.folder, "--sag", "no such program"), "no such program: no such program; name it by --sag"),
            (("table", self.folder), f"{self.folder} holds no experiment: see sag-experiment make"),
            (
                ("make", self.folder / "c", "--periods", "weekly"),
                "periods 'weekly' are neither automotive nor LOW:HIGH:GRAIN",
            ),
        ]
        for words, said in rows:
            more = ("--sag", self.sag) if words == ("run", self.folder) else ()
            done = self.call(*words, *more, status=2)
            self.assertEqual(done.stderr.decode(), f"sag-experiment: {said}\n")


@needs_matplotlib
class Plots(unittest.TestCase):
    def test_acceptance_ratio(self):
        rows = ["Utilization,Verdict", *["0.5,ok"] * 3, "0.5,miss", "0.9,over budget", "0.9,miss"]
        with tempfile.TemporaryDirectory() as name:
            path = pathlib.Path(name) / "two_cores.csv"
            path.write_text("\n".join(rows) + "\n")
            drawn = tool("sag-experiment", "plot", path).stdout.decode()
            for said in (
                "acceptance ratio",
                "utilization",
                "two_cores",
                "6 task sets, 1 over the budget and counted apart",
            ):
                self.assertIn(said, drawn)
            path.write_text("Utilization,Verdict\n0.5,perhaps\n")
            done = tool("sag-experiment", "plot", path, "-o", pathlib.Path(name) / "a.svg")
            self.assertEqual(
                (done.returncode, done.stderr.decode()), (2, f"sag-experiment: {path} row 1 is no result\n")
            )

    def test_the_budget_is_no_miss(self):
        from sagtools.acceptance import draw_series, read_results

        with tempfile.TemporaryDirectory() as name:
            path = pathlib.Path(name) / "a.csv"
            path.write_text(
                "\n".join(["Utilization,Verdict", *["0.5,ok"] * 3, "0.5,miss", *["0.5,over budget"] * 4]) + "\n"
            )
            series = read_results(str(path))
        lines = []

        class Axes:
            def plot(self, times, values, **_):
                lines.append((times, values))

            def fill_between(self, times, low, high, **_):
                lines.append((times, low, high))

        draw_series(Axes(), series, "black", "o")
        self.assertEqual(lines, [([0.5], [0.75]), ([0.5], [3 / 8], [7 / 8])])


if __name__ == "__main__":
    unittest.main()
