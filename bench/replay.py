#!/usr/bin/env python3
"""Times the built program on generated workloads, each the best of some runs.

usage: replay.py PROGRAM

The workloads are seeded: jobs with random releases, costs and priorities, some with precedence rows between them. In a dense
one many jobs wait at once, in a sparse one few do. `read` is the time in which the program refuses the same files at the last
row of the scenario, so all but the run itself.
"""

import pathlib
import random
import subprocess
import sys
import tempfile
import time
from typing import NamedTuple

RUNS = 5


class Workload(NamedTuple):
    """So many jobs that arrive before the horizon, with so many precedence rows, on so many cores."""
    name: str
    jobs: int
    horizon: int
    cores: int
    rows: int


WORKLOADS = [
    Workload("one job", 1, 10, 1, 0),
    Workload("dense", 4096, 1000, 1, 0),
    Workload("sparse", 4096, 10_000_000, 1, 0),
    Workload("dense", 4096, 1000, 64, 0),
    Workload("dense", 4096, 1000, 64, 2000),
    Workload("dense", 4096, 1000, 64, 65_536),
    Workload("sparse", 4096, 200_000, 64, 2000),
]


def texts(work):
    """The job, scenario and precedence file of a workload."""
    chance = random.Random(1)
    jobs = ["Task ID,Job ID,Arrival min,Arrival max,Cost min,Cost max,Deadline,Priority"]
    scenario = ["Task ID,Job ID,Release,Cost"]
    precedence = ["Predecessor task ID,Predecessor job ID,Successor task ID,Successor job ID"]
    for number in range(work.jobs):
        early = chance.randrange(work.horizon)
        late = early + chance.randrange(100)
        least = 1 + chance.randrange(50)
        most = least + chance.randrange(50)
        task, job = number % 64, number // 64
        jobs.append(f"{task},{job},{early},{late},{least},{most},{late + 1000},{chance.randrange(32)}")
        scenario.append(f"{task},{job},{chance.randint(early, late)},{chance.randint(least, most)}")
    for _ in range(work.rows):
        before, after = sorted(chance.sample(range(work.jobs), 2))
        precedence.append(f"{before % 64},{before // 64},{after % 64},{after // 64}")
    return {name: "\n".join(lines) + "\n" for name, lines in (("jobs", jobs), ("scenario", scenario), ("precedence", precedence))}


def best_time(words, folder, status):
    """The least time of some runs, in milliseconds."""
    best = float("inf")
    for _ in range(RUNS):
        begin = time.perf_counter()
        done = subprocess.run(words, cwd=folder, stdout=subprocess.DEVNULL, stderr=subprocess.DEVNULL)
        best = min(best, time.perf_counter() - begin)
        if done.returncode != status:
            sys.exit(f"bench: status {done.returncode} of {' '.join(words)}")
    return best * 1000


def main(program):
    program = str(pathlib.Path(program).resolve())
    for work in WORKLOADS:
        with tempfile.TemporaryDirectory() as folder:
            files = texts(work)
            files["short"] = files["scenario"].rsplit("\n", 2)[0] + "\n"
            for name, text in files.items():
                (pathlib.Path(folder) / name).write_text(text, encoding="ascii")
            options = ["--cores", str(work.cores)] + (["--prec", "precedence"] if work.rows else [])
            whole = best_time([program, "replay", "jobs", "scenario"] + options, folder, 0)
            read = best_time([program, "replay", "jobs", "short"] + options, folder, 3)
            print(f"replay {work.name}: {work.jobs} jobs, {work.rows} precedence rows, {work.cores} cores: "
                  f"{whole:.1f} ms (read {read:.1f} ms)")


if __name__ == "__main__":
    if len(sys.argv) != 2:
        sys.exit(__doc__)
    main(sys.argv[1])
