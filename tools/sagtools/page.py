"""One HTML page for a reviewer: verdict and promise, the check, the table of jobs, the pictures. It links to nothing outside."""

import html
import pathlib
import re
import shlex
from dataclasses import dataclass
from string import Template

from .bounds import bounds_figure
from .levels import levels_figure
from .picture import count_of, image
from .tables import STDIN
from .window import Window

MOST_JOBS = 200
MOST_COLUMNS = 2
TEMPLATE = pathlib.Path(__file__).with_name("page.html")
COLUMNS = [
    "Task ID",
    "Job ID",
    "Arrival min",
    "Arrival max",
    "Cost min",
    "Cost max",
    "Deadline",
    "Priority",
    "BCCT",
    "WCCT",
    "WCRT",
    "Slack",
    "Mark",
]


@dataclass(frozen=True)
class Source:
    """A file that the page is about: its name, what stands for it where it had none, and its checksum."""

    name: str
    placeholder: str
    checksum: str

    @property
    def shown(self):
        return self.placeholder if self.name == STDIN else self.name


PROMISE = (
    "The certificate says: in every run of these $jobs on $cores, for all releases and execution times within the job file, each job "
    "completes within its interval of the table below"
)
ALL_MEET = ", and by its deadline."
SOME_MAY_MISS = (
    ". Those marked ok complete by their deadlines; those marked miss may be late, as far as the certificate can tell."
)
LIMITS = (
    "That holds where the check below says yes, of jobs that run without preemption, where no core idles while a ready job waits and "
    "the more urgent one starts first. Intervals are safe, and need not be the narrowest: a job marked miss need not be late in any "
    "run. That the job file and these rules are right of the real system is for people to judge."
)


def promise_of(summary):
    """What the verdict says, in words."""
    runs = Template(PROMISE).substitute(jobs=count_of(summary.jobs, "job"), cores=count_of(summary.cores, "core"))
    return runs + (ALL_MEET if summary.verdict else SOME_MAY_MISS)


def check_command(summary, sources, precedence):
    """The command that checks the certificate."""
    words = ["sag", "check", *(source.shown for source in sources)]
    if precedence is not None:
        words += ["--prec", precedence]
    if summary.cores != 1:
        words += ["--cores", str(summary.cores)]
    return shlex.join(words)


def table_order(spans):
    """Misses first, the latest of them at the top; then by the least slack."""
    return sorted(spans, key=lambda span: (span.job.deadline - span.worst, span.job.key))


def row_of(span):
    """A row of the table of jobs."""
    job = span.job
    mark = "miss" if span.may_miss else "ok"
    values = [
        job.task,
        job.number,
        job.arrival_min,
        job.arrival_max,
        job.cost_min,
        job.cost_max,
        job.deadline,
        job.priority,
        span.best,
        span.worst,
        max(0, span.worst - job.arrival_min),
        job.deadline - span.worst,
    ]
    cells = "".join(f"<td>{value}</td>" for value in values)
    return f'<tr class="{mark}">{cells}<td class="mark">{mark}</td></tr>'


def inline_svg(figure, name):
    """The picture as an element of the page: no head, no metadata, names of its own."""
    text = image(figure, "svg").decode("utf-8")
    text = text[text.index("<svg") :]
    text = re.sub(r"<metadata>.*?</metadata>", "", text, flags=re.S)
    text = re.sub(r' xmlns(:\w+)?="[^"]*"', "", text)
    text = re.sub(r'\bid="', f'id="{name}-', text)
    text = re.sub(r'(href="#|url\(#)', rf"\g<1>{name}-", text)
    return text


def bounds_picture(spans):
    if not spans:
        return "<p>There are no jobs.</p>"
    return inline_svg(bounds_figure(spans, Window(), None, MOST_JOBS, MOST_COLUMNS), "bounds")


def graph_of(summary):
    """How large the graph is."""
    levels = count_of(len(summary.levels), "level")
    return f"{count_of(summary.states, 'state')} and {count_of(summary.edges, 'edge')} on {levels}."


def page_text(summary, spans, sources, precedence, title):
    """The page. Its first lines say what holds, its last what the graph is like."""
    mark = "ok" if summary.verdict else "miss"
    misses = sum(span.may_miss for span in spans)
    escaped = {
        "title": title or f"Response times of {count_of(summary.jobs, 'job')} on {count_of(summary.cores, 'core')}",
        "mark": mark,
        "verdict": "All jobs meet their deadlines"
        if summary.verdict
        else f"{count_of(misses, 'job')} may miss the deadline",
        "promise": promise_of(summary),
        "limits": LIMITS,
        "check": check_command(summary, sources, precedence),
        "checksums": "\n".join(f"{source.checksum}  {source.shown}" for source in sources),
        "graph": graph_of(summary),
    }
    markup = {
        "heads": "".join(f'<th scope="col"><button type="button">{name}</button></th>' for name in COLUMNS),
        "rows": "\n".join(row_of(span) for span in table_order(spans)),
        "bounds": bounds_picture(spans),
        "levels": inline_svg(levels_figure(summary, Window()), "levels"),
    }
    template = Template(TEMPLATE.read_text(encoding="utf-8"))
    return template.substitute({name: html.escape(text) for name, text in escaped.items()}, **markup)
