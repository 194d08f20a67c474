"""What the pictures share: figures, colours, axes of whole numbers, and how a picture is written."""

import io
import pathlib
import sys
from dataclasses import dataclass

import matplotlib
from matplotlib.figure import Figure
from matplotlib.ticker import FuncFormatter, MaxNLocator

from .fault import Fault

# Okabe and Ito's colours, which most people can tell apart, and lighter ones of them
PALETTE = [
    "#56b4e9",
    "#e69f00",
    "#009e73",
    "#f0e442",
    "#0072b2",
    "#cc79a7",
    "#d55e00",
    "#999999",
    "#a6d8f4",
    "#f5ce7d",
    "#7dcdb5",
    "#f8f3a3",
    "#7fb8d8",
    "#e8bfd5",
    "#eaae7d",
    "#cccccc",
]
OK_COLOUR = "#0072b2"
MISS_COLOUR = "#c1121f"
QUIET_COLOUR = "#b0b0b0"
KINDS = ("svg", "png")
DOTS_PER_INCH = 110
MOST_DOTS = 30_000
FONT = {
    "font.family": "sans-serif",
    "font.size": 9,
    "svg.fonttype": "none",
    "svg.hashsalt": "sag",
    "axes.unicode_minus": False,
}


@dataclass(frozen=True)
class Sheet:
    """The measures of a figure in inches: panels in lines and columns, the room round them and between them."""

    width: float
    panel_height: float
    lines: int = 1
    columns: int = 1
    left: float = 0.8
    right: float = 0.25
    top: float = 0.85
    bottom: float = 0.6
    gap: float = 0.4

    @property
    def height(self):
        return self.top + self.lines * self.panel_height + (self.lines - 1) * self.gap + self.bottom

    @property
    def panel_width(self):
        return (self.width - self.right) / self.columns - self.left

    def figure(self):
        """The figure, and its panels line by line."""
        with matplotlib.rc_context(FONT):
            figure = Figure(figsize=(self.width, self.height))
            grid = figure.subplots(
                self.lines,
                self.columns,
                squeeze=False,
                gridspec_kw={
                    "left": self.left / self.width,
                    "right": 1 - self.right / self.width,
                    "wspace": self.left / self.panel_width,
                    "bottom": self.bottom / self.height,
                    "top": 1 - self.top / self.height,
                    "hspace": self.gap / self.panel_height,
                },
            )
        return figure, list(grid.flat)

    def head(self, figure, title, entries, columns=10):
        """The title at the top, and below it what the marks mean."""
        figure.text(0.5, 1 - 0.28 / self.height, title, ha="center", va="center", fontsize=11)
        figure.legend(
            handles=entries,
            loc="upper center",
            bbox_to_anchor=(0.5, 1 - 0.4 / self.height),
            ncol=min(len(entries), columns),
            frameon=False,
            fontsize=8,
            borderaxespad=0,
        )

    def foot(self, figure, text):
        """What the axes below say."""
        figure.text(0.5, 0.2 / self.height, text, ha="center", va="center", fontsize=9)


def task_colours(tasks):
    """A colour for each task, by rising ID."""
    return {task: PALETTE[place % len(PALETTE)] for place, task in enumerate(sorted(tasks))}


def grouped(number):
    """A number with thin spaces between thousands: a comma would look like the IDs of a job."""
    return f"{number:,}".replace(",", "\u2009")


def count_of(number, noun):
    """`1 job`, `2 jobs`."""
    return f"{grouped(number)} {noun}" + ("" if number == 1 else "es" if noun.endswith("s") else "s")


def whole_axis(axis, ticks=10):
    """Ticks at whole numbers, written in full."""
    axis.set_major_locator(MaxNLocator(nbins=ticks, integer=True))
    axis.set_major_formatter(FuncFormatter(lambda value, _: grouped(round(value))))


def open_frame(axes, without=("top", "right"), along="both"):
    """No frame on these sides, and a faint grid behind what is drawn."""
    for side in without:
        axes.spines[side].set_visible(False)
    axes.grid(axis=along, color="#e6e6e6", linewidth=0.6)
    axes.set_axisbelow(True)


def clear_frame(axes):
    """No frame but the axis below."""
    open_frame(axes, without=("top", "right", "left"), along="x")


def farthest(begin, end, later):
    """The end of a time axis: it shows later times, as deadlines, as long as these do not make it more than twice as long."""
    return max([time for time in later if time <= end + (end - begin)] + [end])


def image(figure, kind):
    """The bytes of the picture. The same figure gives the same bytes."""
    buffer = io.BytesIO()
    dots = min(DOTS_PER_INCH, MOST_DOTS / max(figure.get_size_inches()))
    with matplotlib.rc_context(FONT):
        figure.savefig(buffer, format=kind, dpi=dots, metadata={"Date": None} if kind == "svg" else {"Software": None})
    return buffer.getvalue()


def kind_of(name, wanted):
    """SVG or PNG: by the name of the file, else what is wanted, else SVG."""
    if name is None:
        return wanted or KINDS[0]
    kind = pathlib.PurePath(name).suffix[1:].lower()
    if kind not in KINDS:
        raise Fault(f"{name}: a picture's name ends in .svg or .png")
    return kind


def write_bytes(content, name):
    """Puts all of it into the file, or onto the standard output where none is named."""
    if name is None:
        sys.stdout.buffer.write(content)
        sys.stdout.buffer.flush()
    else:
        pathlib.Path(name).write_bytes(content)
