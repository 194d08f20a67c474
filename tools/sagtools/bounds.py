"""The picture of bounds: within which interval each job completes, between its arrival and its deadline, misses first."""

import math
from dataclasses import dataclass

from matplotlib.collections import LineCollection
from matplotlib.lines import Line2D

from .fault import Fault
from .picture import MISS_COLOUR, OK_COLOUR, QUIET_COLOUR, Sheet, clear_frame, count_of, farthest, grouped, whole_axis
from .tables import Span

ROWS_IN_PANEL = 50
MOST_COLUMNS = 4
MOST_JOBS = 600
ROW_HEIGHT = 0.17
CROWDED = 60


def in_order(spans):
    """Those that may miss first, each part by arrival."""
    return sorted(spans, key=lambda span: (not span.may_miss, span.job.arrival_min, span.job.key))


def spans_in(spans, window):
    seen = [span for span in spans if window.has_job(span.job) and window.has_time(span.job.arrival_min, span.worst)]
    if not seen:
        raise Fault("no job of the report is in the window")
    return in_order(seen)


def panels_of(spans):
    """The rows in pieces: those that may miss are not in one piece with others where there are several."""
    if len(spans) <= ROWS_IN_PANEL:
        return [spans]
    misses = [span for span in spans if span.may_miss]
    others = spans[len(misses) :]
    starts = [(part, begin) for part in (misses, others) for begin in range(0, len(part), ROWS_IN_PANEL)]
    return [part[begin : begin + ROWS_IN_PANEL] for part, begin in starts]


def is_crowded(spans):
    """Whether most rows of a panel would be specks, were they drawn along one axis of time."""
    begin = min(span.job.arrival_min for span in spans)
    end = max(span.worst for span in spans)
    lengths = sorted(span.worst - span.job.arrival_min for span in spans)
    return lengths[len(lengths) // 2] * CROWDED < end - begin


def rows_of(spans, response):
    """The rows of a panel, in time or from the earliest release of each job."""
    return [Row(span, place, span.job.arrival_min if response else 0) for place, span in enumerate(spans)]


@dataclass(frozen=True)
class Row:
    """The place of a job in its panel, and the time from which its row is drawn."""

    span: Span
    place: int
    origin: int

    @property
    def release(self):
        return self.span.job.arrival_min - self.origin

    @property
    def latest_release(self):
        return self.span.job.arrival_max - self.origin

    @property
    def deadline(self):
        return self.span.job.deadline - self.origin

    @property
    def best(self):
        return self.span.best - self.origin

    @property
    def worst(self):
        return self.span.worst - self.origin

    def line(self, first, last):
        return [(first, self.place), (last, self.place)]


def draw_lines(axes, lines, colour, width, layer):
    axes.add_collection(LineCollection(lines, colors=colour, linewidths=width, zorder=layer))


def draw_marks(axes, marks, shape, colour, size, layer, edge=None):
    axes.plot(
        [time for time, _ in marks],
        [place for _, place in marks],
        linestyle="none",
        marker=shape,
        color=colour,
        markersize=size,
        markeredgecolor=edge or colour,
        markeredgewidth=0.6 if edge else 1,
        zorder=layer,
    )


def draw_panel(axes, rows, places):
    """A row a job, the first one at the top; room for so many of them."""
    begin = min(row.release for row in rows)
    last = max(max(row.worst, row.latest_release) for row in rows)
    end = max(farthest(begin, last, [row.deadline for row in rows]), begin + 1)
    draw_lines(axes, [row.line(row.release, max(row.release, min(row.deadline, end))) for row in rows], "#d8d8d8", 1, 1)
    draw_lines(axes, [row.line(row.release, row.latest_release) for row in rows], QUIET_COLOUR, 4, 2)
    draw_marks(axes, [(row.release, row.place) for row in rows], "|", "#606060", 6, 3)
    for colour, may_miss in ((OK_COLOUR, False), (MISS_COLOUR, True)):
        members = [row for row in rows if row.span.may_miss == may_miss]
        draw_lines(axes, [row.line(row.best, row.worst) for row in members], colour, 4.5, 4)
        # also an interval of one moment is seen
        draw_marks(axes, [(time, row.place) for row in members for time in (row.best, row.worst)], "|", colour, 4.5, 4)
    draw_marks(
        axes, [(row.deadline, row.place) for row in rows if row.deadline <= end], "v", "black", 5, 5, edge="white"
    )
    margin = (end - begin) * 0.01
    axes.set_xlim(begin - margin, end + margin)
    axes.set_ylim(places - 0.5, -0.5)
    axes.set_yticks([])
    beside = axes.get_yaxis_transform()
    for row in rows:
        colour = MISS_COLOUR if row.span.may_miss else "black"
        axes.text(
            -0.01, row.place, row.span.job.label, transform=beside, ha="right", va="center", fontsize=7, color=colour
        )
    clear_frame(axes)
    whole_axis(axes.xaxis, 6)


def legend_entries(spans):
    def line(colour, width, name):
        return Line2D([], [], color=colour, linewidth=width, label=name)

    def mark(shape, name):
        return Line2D([], [], linestyle="none", marker=shape, color="black", label=name)

    entries = [mark("|", "earliest release"), mark("v", "deadline")]
    if any(span.job.arrival_min < span.job.arrival_max for span in spans):
        entries.append(line(QUIET_COLOUR, 4, "release jitter"))
    if any(not span.may_miss for span in spans):
        entries.append(line(OK_COLOUR, 4.5, "completion, by the deadline"))
    if any(span.may_miss for span in spans):
        entries.append(line(MISS_COLOUR, 4.5, "completion, may be late"))
    return entries


def title_of(seen, drawn, response):
    misses = sum(span.may_miss for span in seen)
    parts = [
        count_of(len(seen), "job"),
        f"{grouped(misses)} may miss the deadline" if misses else "all meet their deadlines",
    ]
    if len(drawn) < len(seen):
        parts.append(f"the first {grouped(len(drawn))} drawn")
    return ("Response" if response else "Completion") + " times in every run: " + ", ".join(parts)


def bounds_figure(spans, window, times=None, most_jobs=MOST_JOBS, most_columns=MOST_COLUMNS):
    """The figure of the jobs that the window names, or the first of them where they are too many to be read. `times` is
    completion or response; where it is neither, it is what can be read better."""
    seen = spans_in(spans, window)
    drawn = seen[:most_jobs]
    parts = panels_of(drawn)
    response = any(map(is_crowded, parts)) if times is None else times == "response"
    columns = min(most_columns, math.ceil(math.sqrt(len(parts))))
    places = max(max(len(part) for part in parts), 5)
    sheet = Sheet(9.5 if columns == 1 else 6.5 * columns, ROW_HEIGHT * places, math.ceil(len(parts) / columns), columns)
    figure, panels = sheet.figure()
    for axes in panels[len(parts) :]:
        axes.set_visible(False)
    for axes, part in zip(panels, parts):
        draw_panel(axes, rows_of(part, response), places)
    sheet.head(figure, title_of(seen, drawn, response), legend_entries(drawn))
    measure = "response time, from the earliest release" if response else "completion time"
    sheet.foot(figure, f"{measure} (a row for each job: task,job)")
    return figure
