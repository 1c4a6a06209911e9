"""How pictures are drawn: by matplotlib, which has no types here, and is imported when something is drawn."""
from __future__ import annotations

import importlib
from typing import Any, Dict, List, NamedTuple, Optional, Sequence, Tuple

# Colours of Okabe and Ito, which colour-blind readers tell apart, and those of lines beside them.
BLACK, ORANGE, SKY, GREEN, BLUE, VERMILION, PURPLE = "#000000", "#E69F00", "#56B4E9", "#009E73", "#0072B2", "#D55E00", "#CC79A7"
WHITE, GREY = "#FFFFFF", "#999999"

# The size of a picture in inches. Of more points than these there is an image in it.
WIDTH, HEIGHT = 6.4, 4.8
MANY_POINTS = 10_000

MISSING = "matplotlib is missing: pip install 'yinchaku[plot]', or Debian's package python3-matplotlib"

Point = Tuple[float, float]


class Style(NamedTuple):
    """What the legend says of points, and how they are drawn."""

    label: str
    colour: str
    marker: str


def part(name: str) -> Any:
    """A module of matplotlib. ImportError: it is missing."""
    try:
        return importlib.import_module(f"matplotlib.{name}")
    except ModuleNotFoundError as error:
        if (error.name or "").partition(".")[0] != "matplotlib":
            raise
        raise ImportError(MISSING) from None


def axes_of(ax: Any, many: int = 1) -> Any:
    """The axes that are given, or new ones of pyplot, side by side."""
    return part("pyplot").subplots(1, many, figsize=(WIDTH * many, HEIGHT))[1] if ax is None else ax


def draw_points(ax: Any, points: Sequence[Point], style: Style) -> None:
    """Points of a style, if there are any, which the legend counts."""
    if points:
        across, up = zip(*points)
        label, is_many = f"{style.label} ({len(points):,})", len(points) > MANY_POINTS
        ax.plot(across, up, linestyle="", marker=style.marker, markersize=5, color=style.colour, alpha=0.7, label=label, rasterized=is_many)


def draw_diagonal(ax: Any, points: Sequence[Point], label: str) -> None:
    """A line on which both coordinates are equal, as far as there are points."""
    if points:
        values = [value for point in points for value in point]
        ends = [min(values), max(values)]
        ax.plot(ends, ends, color=GREY, linestyle="--", linewidth=1, label=label)


def draw_counts(ax: Any, counts: Sequence[int], label: str, colour: str, hatch: Optional[str] = None) -> None:
    """A bar on each number from 0."""
    edges = [place - 0.5 for place in range(len(counts) + 1)]
    ax.stairs(counts, edges, fill=True, facecolor=colour, edgecolor=BLACK, linewidth=0.5, hatch=hatch, label=label)


def draw_boxes(ax: Any, groups: Dict[str, List[float]]) -> None:
    """A box for each group, which half of its numbers are in."""
    if not groups:
        return
    places = range(1, len(groups) + 1)
    boxes = ax.boxplot(list(groups.values()), positions=places, widths=0.6, medianprops={"color": VERMILION, "linewidth": 2}, flierprops={"marker": "x"})
    for name, label in (("boxes", "half of the files"), ("medians", "median")):
        for line in boxes[name][:1]:
            line.set_label(label)
    ax.set_xticks(places)
    ax.set_xticklabels([f"{name} ({len(group):,})" for name, group in groups.items()], rotation=30, ha="right")


def draw_matrix(ax: Any, matrix: Sequence[Sequence[int]], colours: Sequence[str]) -> None:
    """A cell of one of the colours for each number."""
    if matrix:
        ax.imshow(matrix, cmap=part("colors").ListedColormap(colours), vmin=0, vmax=len(colours) - 1, interpolation="none")


def use_whole_numbers(*of_axes: Any) -> None:
    for axis in of_axes:
        axis.set_major_locator(part("ticker").MaxNLocator(integer=True))


def with_legend(ax: Any, title: Optional[str] = None, is_beside: bool = False) -> Any:
    """The axes with a legend above or beside them, if there is anything to name."""
    if ax.get_legend_handles_labels()[0] or title:
        loc, at, columns = ("upper left", (1, 1), 1) if is_beside else ("lower left", (0, 1), 2)
        ax.legend(loc=loc, bbox_to_anchor=at, ncol=columns, frameon=False, fontsize="small", title=title)
    return ax
