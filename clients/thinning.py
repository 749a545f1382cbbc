"""Chooses few of many samples that draw as all of them would.

The time is cut into parts of one length. Of each part the first, the least, the greatest and the last sample are
chosen, and the first one of the highest severity. A line of steps through these touches the same dots of a
picture whose columns are no narrower than the parts.
"""

import numpy


def numbers(piece):
    """Values that can be drawn, or nothing: of a waveform the mean of its elements."""
    if piece.header.element in ("STRING", "BYTE"):
        return None
    if piece.header.is_waveform:
        return numpy.array([numpy.mean(value) if len(value) else numpy.nan for value in piece.values], numpy.float64)
    return piece.values


def span_of(piece, parts):
    """The length in nanoseconds of so many parts of the time of a piece."""
    times = piece.times.astype(numpy.int64)
    return int(times[-1] - times[0]) // parts + 1 if len(times) else 1


def chosen(times, values, severities, span):
    """The places of the chosen samples, rising; all where there are few. Times are nanoseconds, and rise."""
    count = len(times)
    part = times // span
    if not count or count <= 5 * int(part[-1] - part[0] + 1):
        return numpy.arange(count)
    first = numpy.flatnonzero(numpy.concatenate(([True], part[1:] != part[:-1])))
    last = numpy.concatenate((first[1:] - 1, [count - 1]))
    # Places sorted by part and then by value: the least of a part stands where the part begins, the greatest where
    # it ends. A value that is no number is neither.
    is_number = values == values
    least = numpy.lexsort((numpy.where(is_number, values, numpy.inf), part))[first]
    greatest = numpy.lexsort((numpy.where(is_number, values, -numpy.inf), part))[last]
    worst = numpy.lexsort((-severities.astype(numpy.int64), part))[first]
    return numpy.unique(numpy.concatenate((first, last, least, greatest, worst)))


def thinned(piece, span):
    """The chosen samples of a piece. Of texts the first and the last of each part are chosen."""
    values = numbers(piece)
    if values is None:
        values = numpy.zeros(len(piece))
    at = chosen(piece.times.astype(numpy.int64), values, piece.severities, span)
    return piece.at(at)
