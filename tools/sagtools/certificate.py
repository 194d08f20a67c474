"""A certificate as a stream of lines: the size of each level, and what it says of the jobs.

Nothing of it is believed or checked here but its form; `sag check` does that. Memory does not grow with the graph.
"""

import re
from dataclasses import dataclass, field
from typing import List, Optional

from .fault import Fault
from .tables import Span

HEAD = re.compile(rb"sagcert ([12]) (\d+) (\d+)\n")
CHECKED_VERSION = 2
LEVEL = re.compile(rb"level (\d+) (\d+)\n")
is_root = re.compile(rb"root(?: \d+:\d+)+\n").fullmatch
is_state = re.compile(rb"state \d+ \d+(?: \d+:\d+)+ \|(?: \d+:\d+:\d+)*(?: \|(?: \d+)*)?\n").fullmatch
is_edge = re.compile(rb"edge \d+ \d+ \d+ \d+ \d+\n").fullmatch
JOB = re.compile(rb"job (\d+) (\d+) (\d+) (ok|miss)\n")
VERDICT = re.compile(rb"verdict (ok|miss)\n")
END = b"end\n"


@dataclass
class Level:
    """How many states a level has, and how many edges lead to it."""

    states: int
    edges: int = 0


@dataclass
class Claim:
    """What a job line says: the interval within which the job finishes, and whether that is by its deadline."""

    best: int
    worst: int
    meets: bool


@dataclass
class Summary:
    """A certificate without its states and edges. One that stops before its end has no verdict."""

    version: int
    jobs: int
    cores: int
    levels: List[Level] = field(default_factory=list)
    claims: List[Claim] = field(default_factory=list)
    verdict: Optional[bool] = None

    @property
    def states(self):
        return sum(level.states for level in self.levels)

    @property
    def edges(self):
        return sum(level.edges for level in self.levels)


class Reader:
    """Takes the lines one by one, in the order in which a certificate has them."""

    def __init__(self):
        self.place = 0
        self.summary = None
        self.due = 0  # states, or the root, of the present level still to come
        self.level = None  # the one to which edges may lead
        self.ended = False

    def refuse(self):
        raise Fault(f"certificate line {self.place} is not what it should be")

    def take(self, line):
        """One line with its end. Most are edges and states."""
        self.place += 1
        if self.due:
            self.take_state(line)
        elif self.level is not None and is_edge(line):
            self.level.edges += 1
        elif self.summary is None:
            self.take_head(line)
        elif self.ended:
            self.refuse()
        else:
            self.take_other(line)

    def take_head(self, line):
        found = HEAD.fullmatch(line)
        if not found:
            self.refuse()
        self.summary = Summary(*map(int, found.groups()))

    def take_state(self, line):
        if not (is_root if self.level is None else is_state)(line):
            self.refuse()
        self.due -= 1

    def take_level(self, states):
        """Level 0 has the root alone, and no edge leads to it."""
        level = Level(states)
        if self.summary.levels:
            self.level = level
        self.due = states if self.level else 1
        self.summary.levels.append(level)

    def verdict_is_due(self):
        return self.summary.verdict is None and len(self.summary.claims) == self.summary.jobs

    def take_other(self, line):
        """A level, a job, the verdict or the end, where it is due."""
        summary = self.summary
        levels_done = len(summary.levels) == summary.jobs + 1
        if (found := LEVEL.fullmatch(line)) and not levels_done and int(found[1]) == len(summary.levels):
            self.take_level(int(found[2]))
        elif (found := JOB.fullmatch(line)) and levels_done and int(found[1]) == len(summary.claims) < summary.jobs:
            self.level = None
            summary.claims.append(Claim(int(found[2]), int(found[3]), found[4] == b"ok"))
        elif (found := VERDICT.fullmatch(line)) and levels_done and self.verdict_is_due():
            summary.verdict = found[1] == b"ok"
        elif line == END and summary.verdict is not None:
            self.ended = True
        else:
            self.refuse()


def read_certificate(lines, whole=True):
    """The summary of a certificate, from its lines. Where `whole` is false it may stop behind any level, as one does whose
    graph exceeded its budget."""
    reader = Reader()
    for line in lines:
        reader.take(line)
    if reader.ended:
        return reader.summary
    if reader.summary is None or not reader.summary.levels or reader.due:
        raise Fault(f"certificate stops behind line {reader.place}")
    if whole:
        raise Fault(f"certificate stops behind line {reader.place}, before its end")
    return reader.summary


def claimed_spans(summary, jobs):
    """The job lines beside the rows of the job file. They have to be about these jobs."""
    if summary.version != CHECKED_VERSION:
        raise Fault(
            f"certificate has version {summary.version}, and sag check reads version {CHECKED_VERSION}: see sag convert"
        )
    if summary.jobs != len(jobs):
        raise Fault(f"certificate is of {summary.jobs} jobs, and the job file has {len(jobs)}")
    spans = [Span(job, claim.best, claim.worst) for job, claim in zip(jobs, summary.claims)]
    for number, (span, claim) in enumerate(zip(spans, summary.claims)):
        if span.best > span.worst or span.may_miss == claim.meets:
            raise Fault(f"certificate does not fit the job file at job {number}")
    if summary.verdict != all(claim.meets for claim in summary.claims):
        raise Fault("certificate has a verdict that does not fit its job lines")
    return spans
