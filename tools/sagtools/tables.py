"""Job files, scenarios, schedules and reports: CSV as docs/FILES.md describes it, into rows that are checked."""

import contextlib
import csv
import io
import re
import sys
from dataclasses import dataclass

from .fault import Fault

NUMBER = re.compile(r"[0-9]+")
GREATEST = 2**64 - 1
STDIN = "-"


@dataclass(frozen=True)
class Job:
    """A row of the job file."""

    task: int
    number: int
    arrival_min: int
    arrival_max: int
    cost_min: int
    cost_max: int
    deadline: int
    priority: int

    @property
    def key(self):
        return self.task, self.number

    @property
    def label(self):
        return f"{self.task},{self.number}"


@dataclass(frozen=True)
class Block:
    """A row of a schedule: a job from its start to its finish on a core."""

    job: Job
    start: int
    finish: int
    core: int

    @property
    def is_late(self):
        return self.finish > self.job.deadline


@dataclass(frozen=True)
class Span:
    """A row of a report: within which interval a job completes, in every run."""

    job: Job
    best: int
    worst: int

    @property
    def may_miss(self):
        return self.worst > self.job.deadline


@contextlib.contextmanager
def opened(name):
    """The bytes of a file as a stream; `-` is the standard input."""
    if name == STDIN:
        yield sys.stdin.buffer
    else:
        with open(name, "rb") as stream:
            yield stream


def parsed(field, what, row, column):
    """The number of a field, with blanks at its ends dropped."""
    text = field.strip(" \t")
    if not NUMBER.fullmatch(text):
        raise Fault(f"{what} row {row} column {column} is no number")
    digits = text.lstrip("0") or "0"
    if len(digits) > 20 or int(digits) > GREATEST:
        raise Fault(f"{what} row {row} column {column} is above {GREATEST}")
    return int(digits)


def read_rows(stream, what, width):
    """The rows below the heading, as lists of numbers. Row 1 is the first of them; empty lines are skipped."""
    text = stream.read().decode("utf-8-sig", errors="replace")
    try:
        records = [record for record in csv.reader(io.StringIO(text, newline="")) if record]
    except csv.Error as error:
        raise Fault(f"{what} {error}") from error
    if not records:
        raise Fault(f"{what} no heading")
    rows = []
    for row, record in enumerate(records[1:], start=1):
        if len(record) != width:
            raise Fault(f"{what} row {row} has {len(record)} fields")
        rows.append([parsed(field, what, row, column) for column, field in enumerate(record, start=1)])
    return rows


def read_jobs(stream):
    """The jobs of a job file, in its order."""
    jobs, seen = [], {}
    for row, fields in enumerate(read_rows(stream, "jobs", 8), start=1):
        job = Job(*fields)
        if job.arrival_min > job.arrival_max:
            raise Fault(f"jobs row {row} column 3 is above the next")
        if job.cost_min > job.cost_max:
            raise Fault(f"jobs row {row} column 5 is above the next")
        if job.cost_min == 0:
            raise Fault(f"jobs row {row} column 5 is 0")
        if job.key in seen:
            raise Fault(f"jobs row {row} repeats row {seen[job.key]}")
        seen[job.key] = row
        jobs.append(job)
    return jobs


def rows_of_jobs(stream, what, width, jobs):
    """Each row with the job that it names: one row for each job, in any order."""
    by_key = {job.key: job for job in jobs}
    seen = {}
    for row, fields in enumerate(read_rows(stream, what, width), start=1):
        key = fields[0], fields[1]
        if key not in by_key:
            raise Fault(f"{what} row {row} column 1 names no job")
        if key in seen:
            raise Fault(f"{what} row {row} repeats row {seen[key]}")
        seen[key] = row
        yield row, by_key[key], fields[2:]
    for job in jobs:
        if job.key not in seen:
            raise Fault(f"{what} has no row for job {job.task} {job.number}")


def read_schedule(stream, jobs):
    """The blocks that `sag replay` printed for these jobs."""
    blocks = []
    for row, job, (start, finish, core) in rows_of_jobs(stream, "schedule", 5, jobs):
        if finish <= start:
            raise Fault(f"schedule row {row} column 4 is not above column 3")
        blocks.append(Block(job, start, finish, core))
    return blocks


def read_releases(stream, jobs):
    """When each job of a scenario is released, by its IDs."""
    return {job.key: release for _, job, (release, _) in rows_of_jobs(stream, "scenario", 4, jobs)}


def read_report(stream, jobs):
    """The intervals that `sag report` printed for these jobs."""
    spans = []
    for row, job, (best, worst, least, greatest) in rows_of_jobs(stream, "report", 6, jobs):
        if best > worst:
            raise Fault(f"report row {row} column 3 is above the next")
        if (least, greatest) != (max(0, best - job.arrival_min), max(0, worst - job.arrival_min)):
            raise Fault(f"report row {row} does not fit the job's Arrival min")
        spans.append(Span(job, best, worst))
    return spans
