"""What the tests share: the files of examples/, calls of the tools, and whether what these need is there."""

import importlib.util
import io
import os
import pathlib
import shutil
import subprocess
import sys
import tempfile
import unittest
from contextlib import contextmanager
from unittest import mock

TOOLS = pathlib.Path(__file__).resolve().parent.parent
EXAMPLES = TOOLS.parent / "examples"
sys.path.insert(0, str(TOOLS))

from sagtools import experiment, plot  # noqa: E402
from sagtools.fault import run_main  # noqa: E402


def sag_program():
    """The built program, or the one that SAG names, if it unrolls."""
    program = pathlib.Path(os.environ.get("SAG", TOOLS.parent / "crates" / "sag" / "out" / "sag")).resolve()
    if not program.exists():
        return None
    usage = subprocess.run([str(program)], capture_output=True, text=True, check=False).stderr
    return program if " unroll " in usage else None


needs_matplotlib = unittest.skipUnless(importlib.util.find_spec("matplotlib"), "matplotlib")
needs_parallel = unittest.skipUnless(shutil.which("parallel"), "parallel")
needs_program = unittest.skipUnless(sag_program(), "the program")

JOB_HEADING = "Task ID,Job ID,Arrival min,Arrival max,Cost min,Cost max,Deadline,Priority\n"
TWO_JOBS = JOB_HEADING + "1,1,0,1,1,2,5,1\n2,1,0,0,2,3,9,2\n"
SCHEDULE = "Task ID,Job ID,Start,Finish,Core\n2,1,0,3,0\n1,1,3,5,0\n"
REPORT = "Task ID,Job ID,BCCT,WCCT,BCRT,WCRT\n1,1,1,5,1,5\n2,1,2,5,2,5\n"
CERTIFICATE = (EXAMPLES / "analyse" / "certificate.txt").read_text(encoding="ascii")


def stream(text):
    return io.BytesIO(text.encode("utf-8"))


@contextmanager
def folder_with(**files):
    """A fresh folder with these files: `jobs` is jobs.csv, `cert` is cert.txt."""
    with tempfile.TemporaryDirectory() as name:
        folder = pathlib.Path(name)
        for file, text in files.items():
            (folder / (file + (".txt" if file == "cert" else ".csv"))).write_text(text, encoding="utf-8")
        yield folder


class Ended:
    """How a call ended."""

    def __init__(self, returncode, stdout, stderr):
        self.returncode, self.stdout, self.stderr = returncode, stdout, stderr


class Stream:
    """A standard stream of bytes, as the tools see it."""

    def __init__(self, given=b""):
        self.buffer = io.BytesIO(given)
        self.text = io.TextIOWrapper(self.buffer, encoding="utf-8", write_through=True)

    def __getattr__(self, name):
        return getattr(self.text, name)


def tool(name, *words, folder=None, given=b""):
    """How a tool ends that is called with these words in the folder, in this process: starting one takes a second each."""
    main = {"sag-plot": plot.main, "sag-experiment": experiment.main}[name]
    out, err = Stream(), Stream()
    before = os.getcwd()
    os.chdir(folder or before)
    try:
        with mock.patch.multiple(sys, stdin=Stream(given), stdout=out, stderr=err):
            status = run_main(name, main, list(map(str, words)))
    finally:
        os.chdir(before)
    return Ended(status, out.buffer.getvalue(), err.buffer.getvalue())


def started(name, *words, folder=None, given=None, env=None):
    """The same as a program of its own."""
    return subprocess.run(
        [sys.executable, str(TOOLS / name), *map(str, words)],
        cwd=folder,
        input=given,
        capture_output=True,
        check=False,
        timeout=120,
        env=env,
    )


def many_jobs(number, tasks=5):
    """A job file, a schedule and a report of so many jobs that follow one another on two cores; a few are late."""
    jobs, schedule, report = [], [], []
    for place in range(number):
        task, job, arrival = 1 + place % tasks, 1 + place // tasks, 10 * place
        late = place % 17 == 3
        deadline = arrival + (5 if late else 40)
        jobs.append(f"{task},{job},{arrival},{arrival + 3},2,8,{deadline},{task}")
        schedule.append(f"{task},{job},{arrival + 2},{arrival + 9},{place % 2}")
        report.append(f"{task},{job},{arrival + 2},{arrival + 12},2,12")
    return (
        JOB_HEADING + "\n".join(jobs) + "\n",
        "Task ID,Job ID,Start,Finish,Core\n" + "\n".join(schedule) + "\n",
        "Task ID,Job ID,BCCT,WCCT,BCRT,WCRT\n" + "\n".join(report) + "\n",
    )
