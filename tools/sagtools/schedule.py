"""The picture of a schedule, as the field draws one: a row a core, a block a job, arrows for releases and deadlines."""

import math
from dataclasses import dataclass
from typing import Dict, List

from matplotlib.collections import LineCollection
from matplotlib.lines import Line2D
from matplotlib.patches import Patch, Rectangle

from .fault import Fault
from .picture import MISS_COLOUR, Sheet, clear_frame, count_of, farthest, grouped, task_colours, whole_axis
from .tables import Block

WIDTH = 13.0
BLOCK = 0.52
ROW = 1.18
BLOCKS_IN_BAND = 20
MOST_ROWS = 48
MOST_NAMED_TASKS = 16
ROW_INCHES = 0.9
LOW_ROW_INCHES = 0.5
CHARACTER, LINE = 0.075, 0.12  # what a label takes, in inches
RUNNING = {"edgecolor": "#303030", "linewidth": 0.6, "zorder": 2}
LATE = {"facecolor": "none", "edgecolor": MISS_COLOUR, "hatch": "////", "linewidth": 1.2, "zorder": 3}
LABEL = {"ha": "center", "va": "center", "fontsize": 7, "zorder": 4, "clip_on": True}
OVER_HATCHES = {"facecolor": "white", "edgecolor": "none", "alpha": 0.8, "pad": 0.8}
ARROW_HEIGHTS = (0.70, 0.80, 0.90, 1.0)


@dataclass
class View:
    """What is drawn: blocks, when their jobs are released at the earliest and the latest, and from when to when."""

    blocks: List[Block]
    releases: Dict[tuple, tuple]
    cores: int
    begin: int
    end: int

    @property
    def row_inches(self):
        return ROW_INCHES if self.cores <= 16 else LOW_ROW_INCHES

    def row(self, core):
        """Where the row of a core stands; core 0 is the top one."""
        return (self.cores - 1 - core) * ROW


def release_intervals(blocks, exact):
    """The release of each job, exact where a scenario told it, else its interval."""

    def interval(job):
        return (exact[job.key],) * 2 if exact else (job.arrival_min, job.arrival_max)

    return {block.job.key: interval(block.job) for block in blocks}


def view_of(blocks, exact, window):
    """What of a schedule reaches into the window."""
    seen = [
        block
        for block in blocks
        if window.has_job(block.job) and window.has_time(min(block.start, block.job.arrival_min), block.finish)
    ]
    if not seen:
        raise Fault("no job of the schedule is in the window")
    releases = release_intervals(seen, exact)
    earliest = min(min(block.start, releases[block.job.key][0]) for block in seen)
    begin = earliest if window.begin is None else window.begin
    last = max(block.finish for block in seen)
    end = farthest(begin, last, [block.job.deadline for block in seen]) if window.end is None else window.end
    return View(seen, releases, 1 + max(block.core for block in seen), begin, max(end, begin + 1))


def bands_of(view):
    """The view's time in pieces of one length, one below the other, so that blocks are wide enough to be read."""
    wanted = math.ceil(len(view.blocks) / (BLOCKS_IN_BAND * view.cores))
    number = max(1, min(wanted, MOST_ROWS // view.cores, view.end - view.begin))
    length = math.ceil((view.end - view.begin) / number)
    return [(begin, begin + length) for begin in range(view.begin, view.end, length)]


def label_turn(label, width, height):
    """By how many degrees a label has to be turned to fit into a block of so many inches; nothing where it does not fit."""
    length = CHARACTER * len(label)
    if length < width:
        return 0
    return 90 if LINE < width and length < height + LINE / 2 else None


def add_rectangle(axes, first, last, base, style):
    axes.add_patch(Rectangle((first, base), last - first, BLOCK, **style))


def draw_label(axes, view, band, block, middle, width):
    """The IDs of a job in the middle of its block, where they fit."""
    inches = width / (band[1] - band[0]) * (WIDTH - 1)
    turn = label_turn(block.job.label, inches, view.row_inches * BLOCK / ROW)
    if turn is not None:
        behind = OVER_HATCHES if block.is_late else None
        height = view.row(block.core) + BLOCK / 2
        axes.text(middle, height, block.job.label, rotation=turn, bbox=behind, **LABEL)


def draw_blocks(axes, view, band, colours):
    """A rectangle for each block; what of it is behind the deadline is hatched."""
    for block in view.blocks:
        first, last = max(block.start, band[0]), min(block.finish, band[1])
        if first >= last:
            continue
        base, late = view.row(block.core), max(first, block.job.deadline)
        add_rectangle(axes, first, last, base, {"facecolor": colours[block.job.task], **RUNNING})
        if late < last:
            add_rectangle(axes, late, last, base, LATE)
        draw_label(axes, view, band, block, (first + last) / 2, last - first)


def scatter_marks(axes, marks, shape, size, edge):
    """The same mark at some places, each with its colour."""
    if marks:
        times, heights, colours = zip(*marks)
        axes.scatter(times, heights, c=colours, marker=shape, s=size, edgecolors=edge, linewidths=0.5, zorder=6)


def draw_arrows(axes, view, band, colours):
    """Up from the base line at a release, with a bar to the latest one; down to it at a deadline; a cross at a late finish."""
    tops = {task: ARROW_HEIGHTS[place % len(ARROW_HEIGHTS)] for place, task in enumerate(colours)}
    begin, end = band
    stems, bars, releases, deadlines, misses = [], [], [], [], []
    for block in view.blocks:
        job, base = block.job, view.row(block.core)
        top, colour = base + tops[job.task], colours[job.task]
        release, latest = view.releases[job.key]
        if begin <= release < end:
            releases.append((release, top, colour))
        if release < latest and begin < latest and release < end:
            bars.append([(max(release, begin), top), (min(latest, end), top)])
        if begin < job.deadline <= end:
            deadlines.append((job.deadline, base + 0.05, colour))
        if block.is_late and begin < block.finish <= end:
            misses.append((block.finish, base + BLOCK, MISS_COLOUR))
        stems += [
            [(time, base), (time, top)]
            for time, seen in ((release, begin <= release < end), (job.deadline, begin < job.deadline <= end))
            if seen
        ]
    axes.add_collection(LineCollection(stems, colors="#404040", linewidths=0.8, zorder=5))
    axes.add_collection(LineCollection(bars, colors="#404040", linewidths=1.6, linestyles=(0, (1, 1)), zorder=5))
    scatter_marks(axes, releases, "^", 28, "black")
    scatter_marks(axes, deadlines, "v", 28, "black")
    scatter_marks(axes, misses, "X", 64, "white")


def draw_band(axes, view, band, colours):
    draw_blocks(axes, view, band, colours)
    draw_arrows(axes, view, band, colours)
    for core in range(view.cores):
        axes.axhline(view.row(core), color="#303030", linewidth=0.8, zorder=1)
    axes.set_yticks(
        [view.row(core) + BLOCK / 2 for core in range(view.cores)], [f"core {core}" for core in range(view.cores)]
    )
    axes.tick_params(axis="y", length=0)
    margin = (band[1] - band[0]) * 0.006
    axes.set_xlim(band[0] - margin, band[1] + margin)
    axes.set_ylim(-0.06, view.row(0) + ROW)
    clear_frame(axes)
    whole_axis(axes.xaxis, 14)


def legend_entries(view, colours):
    """What the marks mean, and the colours of tasks where there are not too many."""

    def mark(shape, colour, name):
        style = {"color": colour, "markeredgecolor": "black", "markeredgewidth": 0.4}
        return Line2D([], [], linestyle="none", marker=shape, label=name, **style)

    entries = [mark("^", "white", "release"), mark("v", "white", "deadline")]
    if any(first < last for first, last in view.releases.values()):
        entries.append(Line2D([], [], color="#404040", linewidth=1.6, linestyle=(0, (1, 1)), label="release jitter"))
    if any(block.is_late for block in view.blocks):
        entries.append(mark("X", MISS_COLOUR, "deadline miss"))
    if len(colours) <= MOST_NAMED_TASKS:
        entries += [
            Patch(facecolor=colour, edgecolor="#303030", label=f"task {task}") for task, colour in colours.items()
        ]
    return entries


def title_of(view, whole):
    """How much is seen, and how many jobs are late."""
    late = sum(block.is_late for block in view.blocks)
    hidden = sum(block.job.deadline > view.end for block in view.blocks)
    jobs = count_of(whole, "job")
    if len(view.blocks) < whole:
        jobs = f"{grouped(len(view.blocks))} of {jobs}"
    parts = [jobs, count_of(view.cores, "core"), count_of(late, "deadline miss") if late else "no deadline miss"]
    if hidden:
        parts.append(f"{count_of(hidden, 'deadline')} beyond the picture")
    return ", ".join(parts)


def schedule_figure(blocks, exact, window):
    """The figure of the part of a schedule that the window names. `exact` has releases by job, where a scenario is known."""
    view = view_of(blocks, exact, window)
    colours = task_colours({block.job.task for block in view.blocks})
    bands = bands_of(view)
    entries = legend_entries(view, colours)
    sheet = Sheet(WIDTH, view.row_inches * view.cores, lines=len(bands), top=0.7 + 0.2 * math.ceil(len(entries) / 10))
    figure, panels = sheet.figure()
    for axes, band in zip(panels, bands):
        draw_band(axes, view, band, colours)
    sheet.head(figure, title_of(view, len(blocks)), entries)
    sheet.foot(figure, "time")
    return figure
