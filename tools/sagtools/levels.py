"""The picture of a graph's growth: how many states each level has, and how many edges lead to it."""

from .fault import Fault
from .picture import OK_COLOUR, Sheet, count_of, grouped, open_frame, whole_axis

LOGARITHMIC_FROM = 100
EDGE_COLOUR = "#d55e00"


def title_of(summary, numbers, states):
    """How large the graph is, and where it is largest of the levels that are drawn."""
    sizes = ((summary.jobs, "job"), (summary.cores, "core"), (summary.states, "state"), (summary.edges, "edge"))
    parts = [count_of(number, noun) for number, noun in sizes]
    most = max(states)
    parts.append(f"most states at level {grouped(numbers[states.index(most)])}: {grouped(most)}")
    if summary.verdict is None:
        parts.append(f"no end: stops behind level {grouped(len(summary.levels) - 1)}")
    return ", ".join(parts)


def levels_figure(summary, window):
    """The figure of the levels in the window. It says so where the certificate stops before its end."""
    levels = [(number, level) for number, level in enumerate(summary.levels) if window.has_time(number, number)]
    if not levels:
        raise Fault("no level of the certificate is in the window")
    numbers = [number for number, _ in levels]
    states = [level.states for _, level in levels]
    edges = [level.edges for _, level in levels]
    sheet = Sheet(11, 4)
    figure, (axes,) = sheet.figure()
    axes.fill_between(numbers, states, step="mid", color=OK_COLOUR, alpha=0.2, linewidth=0)
    axes.step(numbers, edges, where="mid", color=EDGE_COLOUR, linewidth=0.9, label="edges to the level")
    axes.step(numbers, states, where="mid", color=OK_COLOUR, linewidth=0.9, label="states of the level")
    if max(states + edges) >= LOGARITHMIC_FROM:
        axes.set_yscale("symlog", linthresh=1)
        axes.set_ylim(bottom=0)
    else:
        axes.set_ylim(bottom=0)
        whole_axis(axes.yaxis)
    whole_axis(axes.xaxis, 14)
    axes.margins(x=0.01)
    axes.set_xlabel("level: jobs dispatched")
    axes.set_ylabel("number")
    open_frame(axes)
    sheet.head(figure, title_of(summary, numbers, states), axes.get_legend_handles_labels()[0])
    return figure
