"""Draws samples of variables over time. `clients/plot` stands on it.

A value holds until the next one, so lines are steps. Variables of one unit (EGU) share an axis.
Samples of a severity other than 0 are marked. Of a waveform the mean of its elements is drawn; texts aren't.
"""

try:
    import matplotlib
    import numpy
except ImportError as missing:
    raise ImportError(f"{missing} (apt-get install python3-numpy python3-matplotlib)") from None

import thinning
from thinning import numbers

matplotlib.use("Agg")
from matplotlib import dates, pyplot  # noqa: E402  (the backend is chosen first)

SEVERITIES = {1: ("gold", "MINOR"), 2: ("red", "MAJOR"), 3: ("magenta", "INVALID")}
# More columns than a picture has dots, so that thinning doesn't show.
COLUMNS = 4_000


def unit(piece):
    """The unit that field values or headers tell, or nothing."""
    return piece.about("EGU")


def draw(axis, piece, values, color, end):
    """Draws one variable; its last value holds until `end`, where that is told."""
    span = thinning.span_of(piece, COLUMNS)
    chosen = thinning.chosen(piece.times.astype(numpy.int64), values, piece.severities, span)
    times, values, severities = piece.times[chosen].astype("datetime64[ns]"), values[chosen], piece.severities[chosen]
    axis.step(times, values, where="post", color=color, label=piece.header.name, linewidth=1)
    if len(times) and end is not None and end > times[-1]:
        axis.plot([times[-1], end], [values[-1]] * 2, color=color, linewidth=1)
    for severity, (mark, name) in SEVERITIES.items():
        at = severities == severity
        if at.any():
            told = axis.get_legend_handles_labels()[1]
            axis.plot(times[at], values[at], ".", color=mark, markersize=5, label=None if name in told else name)


def picture(found, start=None, end=None):
    """A picture of all variables that can be drawn, over an interval, or as long as the samples are."""
    drawn = [(piece, numbers(piece)) for piece in found.values() if numbers(piece) is not None]
    units = list(dict.fromkeys(unit(piece) for piece, _ in drawn)) or [""]
    figure, axes = pyplot.subplots(len(units), 1, sharex=True, squeeze=False, figsize=(11, 2 + 3 * len(units)))
    for index, (piece, values) in enumerate(drawn):
        draw(axes[units.index(unit(piece))][0], piece, values, f"C{index % 10}", end)
    for axis, name in zip(axes[:, 0], units):
        axis.set_ylabel(name)
        axis.grid(alpha=0.3)
        axis.margins(x=0.01)
        if axis.get_legend_handles_labels()[0]:
            # Above the axis, where it hides no samples.
            axis.legend(loc="lower left", bbox_to_anchor=(0, 1), ncol=5, fontsize="small", frameon=False)
    bottom = axes[-1][0]
    if start is not None and end is not None and start < end:
        bottom.set_xlim(start, end)
    locator = dates.AutoDateLocator()
    bottom.xaxis.set_major_locator(locator)
    bottom.xaxis.set_major_formatter(dates.ConciseDateFormatter(locator))
    bottom.set_xlabel("UTC")
    figure.tight_layout()
    return figure


def left_out(found):
    """What is told of the variables that can't be drawn."""
    return [f"{name} is of type {piece.header.type_name}, and isn't drawn" for name, piece in found.items()
            if numbers(piece) is None]
