"""Which part of a picture is asked for: a window of time, and jobs by their IDs."""

import argparse
import re
from dataclasses import dataclass
from typing import List, Optional

from .fault import Fault

ITEM = re.compile(r"(\d+)(?::(\d+)(?:-(\d+))?)?")


@dataclass(frozen=True)
class JobRange:
    """Jobs of one task from a first to a last number; without numbers all of them."""

    task: int
    first: Optional[int]
    last: Optional[int]

    def has(self, job):
        return job.task == self.task and (self.first is None or self.first <= job.number <= self.last)


@dataclass(frozen=True)
class Window:
    """What is to be seen: times from `begin` to `end`, where they are named, and the named jobs, or all."""

    begin: Optional[int] = None
    end: Optional[int] = None
    ranges: Optional[List[JobRange]] = None

    def has_job(self, job):
        return self.ranges is None or any(each.has(job) for each in self.ranges)

    def has_time(self, first, last):
        """Whether something from `first` to `last` reaches into the window."""
        return (self.begin is None or last >= self.begin) and (self.end is None or first <= self.end)

    def checked(self):
        if self.begin is not None and self.end is not None and self.begin >= self.end:
            raise Fault(f"the window from {self.begin} to {self.end} is empty")
        return self


def job_ranges(text):
    """`3` is all jobs of task 3, `3:7` job 7 of it, `3:1-9` its jobs 1 to 9; commas join such items."""
    ranges = []
    for item in text.split(","):
        found = ITEM.fullmatch(item)
        if not found:
            raise argparse.ArgumentTypeError(f"{item!r} is not TASK, TASK:JOB or TASK:FIRST-LAST")
        task, first, last = (None if part is None else int(part) for part in found.groups())
        ranges.append(JobRange(task, first, first if last is None else last))
    return ranges


def whole_number(text):
    if not re.fullmatch(r"[0-9]+", text):
        raise argparse.ArgumentTypeError(f"{text!r} is no whole number")
    return int(text)


def add_window_options(parser, unit, jobs=True):
    """The options that name a window."""
    parser.add_argument("--from", dest="begin", metavar="N", type=whole_number, help=f"the first {unit} of the picture")
    parser.add_argument("--to", dest="end", metavar="N", type=whole_number, help=f"the last {unit} of the picture")
    if jobs:
        parser.add_argument(
            "--jobs",
            dest="ranges",
            metavar="LIST",
            type=job_ranges,
            help="these jobs alone: TASK, TASK:JOB or TASK:FIRST-LAST, joined by commas",
        )


def window_of(options):
    return Window(options.begin, options.end, getattr(options, "ranges", None)).checked()
