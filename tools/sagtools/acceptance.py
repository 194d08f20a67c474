"""The picture of acceptance ratios by utilization. What the budget ended is neither accepted nor refused."""

import csv
import io
import pathlib
from collections import Counter
from dataclasses import dataclass
from typing import Dict

from matplotlib.lines import Line2D
from matplotlib.patches import Patch

from .fault import Fault
from .picture import Sheet, count_of, grouped, open_frame
from .tables import STDIN, opened

COLOURS = ["#0072b2", "#d55e00", "#009e73", "#cc79a7", "#e69f00", "#56b4e9", "#303030"]
MARKERS = "osD^vPX"
VERDICTS = ("ok", "miss", "over budget")


@dataclass
class Series:
    """How many sets of a table had each verdict, by utilization."""

    name: str
    counts: Dict[float, Counter]

    def total(self, verdict=None):
        return sum(count.total() if verdict is None else count[verdict] for count in self.counts.values())


def series_name(name):
    """What a table is called in the picture: by its file, or by its folder where all tables have one name."""
    path = pathlib.PurePath(name)
    return path.parent.name if path.stem == "results" and path.parent.name else path.stem


def read_results(name):
    """The verdicts of a table that sag-experiment printed."""
    with opened(name) as stream:
        rows = list(csv.DictReader(io.StringIO(stream.read().decode("utf-8", errors="replace"), newline="")))
    shown = "the results" if name == STDIN else name
    counts = {}
    for number, row in enumerate(rows, start=1):
        try:
            utilization, verdict = float(row["Utilization"]), row["Verdict"]
        except (KeyError, TypeError, ValueError) as error:
            raise Fault(f"{shown} row {number} is no result") from error
        if verdict not in VERDICTS:
            raise Fault(f"{shown} row {number} is no result")
        counts.setdefault(utilization, Counter())[verdict] += 1
    if not counts:
        raise Fault(f"{shown} has no results")
    return Series("results" if name == STDIN else series_name(name), counts)


def draw_series(axes, series, colour, marker):
    """The ratio of those that were decided; and between which two lines it would be, were all of them."""
    points = sorted(series.counts.items())
    decided = [(x, count["ok"] / (count["ok"] + count["miss"])) for x, count in points if count["ok"] + count["miss"]]
    axes.plot(
        [x for x, _ in decided], [y for _, y in decided], color=colour, marker=marker, markersize=5, linewidth=1.4
    )
    if series.total("over budget"):
        axes.fill_between(
            [x for x, _ in points],
            [count["ok"] / count.total() for _, count in points],
            [(count["ok"] + count["over budget"]) / count.total() for _, count in points],
            color=colour,
            alpha=0.18,
            linewidth=0,
        )


def acceptance_figure(all_series):
    """The figure of some tables, a line for each."""
    sheet = Sheet(8, 4)
    figure, (axes,) = sheet.figure()
    entries = []
    for place, series in enumerate(all_series):
        colour, marker = COLOURS[place % len(COLOURS)], MARKERS[place % len(MARKERS)]
        draw_series(axes, series, colour, marker)
        entries.append(Line2D([], [], color=colour, marker=marker, markersize=5, label=series.name))
    over = sum(series.total("over budget") for series in all_series)
    if over:
        entries.append(Patch(facecolor="#808080", alpha=0.3, label="where it would be with those over the budget"))
    axes.set_ylim(-0.03, 1.03)
    axes.set_xlabel("utilization, as a share of all cores")
    axes.set_ylabel("acceptance ratio")
    open_frame(axes)
    title = count_of(sum(series.total() for series in all_series), "task set")
    sheet.head(
        figure, f"{title}, {grouped(over)} over the budget and counted apart" if over else title, entries, columns=4
    )
    return figure
