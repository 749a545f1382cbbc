"""Scalar numbers of a chunk, read all at once: in under half the time of reading them sample by sample.

A sample mostly has the fields second, nanosecond and value, and maybe severity, status and, of few samples, field
values, in this order. Where all samples have them so, numpy reads the same field of all in one step. `columns` gives
nothing where a sample is of another form, and the caller reads them one by one.
"""

import numpy

# The tags of the fields, and how the values of each type lie there: a fixed number of bytes, or a varint.
SECOND, NANO, SEVERITY, STATUS, FIELD_VALUE = 0x08, 0x10, 0x20, 0x28, 0x3A
FIXED = {"FLOAT": (0x1D, "<f4"), "INT": (0x1D, "<i4"), "DOUBLE": (0x19, "<f8")}
VARINT = 0x18
# More bytes than the fields of a sample can have, so that no place lies outside of the data.
ROOM = bytes(64)


class OtherForm(Exception):
    """A sample has its fields otherwise."""


def varints(data, at):
    """The numbers at these places, and the places behind them."""
    numbers = numpy.zeros(len(at), numpy.uint64)
    goes_on = numpy.ones(len(at), bool)
    at = at.copy()
    for shift in range(0, 70, 7):
        byte = data[at]
        numbers |= numpy.where(goes_on, (byte & 127).astype(numpy.uint64) << numpy.uint64(shift), numpy.uint64(0))
        at += goes_on
        goes_on &= byte > 127
        if not goes_on.any():
            return numbers, at
    raise OtherForm()


def behind_tag(data, at, tag):
    """The places behind a tag that stands at all of these."""
    if (data[at] != tag).any():
        raise OtherForm()
    return at + 1


def bounded(numbers, bound):
    """Numbers that are all less than a bound."""
    if (numbers >= bound).any():
        raise OtherForm()
    return numbers.astype(numpy.int64)


def optional(data, at, ends, tag):
    """The 32-bit numbers behind a tag, 0 where it is missing, and the places behind them."""
    numbers = numpy.zeros(len(at), numpy.uint64)
    there = numpy.flatnonzero((at < ends) & (data[at] == tag))
    if len(there):
        at = at.copy()
        numbers[there], at[there] = varints(data, at[there] + 1)
    return numbers.astype(numpy.uint32).view(numpy.int32), at


def values_of(element, data, at):
    """The values at these places, and the places behind them."""
    if element in FIXED:
        tag, form = FIXED[element]
        at = behind_tag(data, at, tag)
        size = int(form[-1])
        return data[at[:, None] + numpy.arange(size)].reshape(-1).view(form), at + size
    numbers, at = varints(data, behind_tag(data, at, VARINT))
    low = numbers.astype(numpy.uint32)
    return (low >> 1).astype(numpy.int32) ^ -(low & 1).astype(numpy.int32), at


def field_values(data, at, ends):
    """The places of the samples that go on with a field value, each with its bytes from there on."""
    places = numpy.flatnonzero(at != ends)
    if (at > ends).any() or (data[at[places]] != FIELD_VALUE).any():
        raise OtherForm()
    return [(place, data[at[place] : ends[place]].tobytes()) for place in places.tolist()]


def columns(element, lines):
    """Seconds and nanoseconds of the year, values, severities and statuses of lines without escapes, and the places of
    those that have field values with the bytes of these."""
    ends = numpy.cumsum(numpy.fromiter(map(len, lines), numpy.int64, len(lines)))
    at = numpy.concatenate(([0], ends[:-1]))
    ends -= 1
    data = numpy.frombuffer(b"".join(lines) + ROOM, numpy.uint8)
    try:
        seconds, at = varints(data, behind_tag(data, at, SECOND))
        nanos, at = varints(data, behind_tag(data, at, NANO))
        values, at = values_of(element, data, at)
        severities, at = optional(data, at, ends, SEVERITY)
        statuses, at = optional(data, at, ends, STATUS)
        rest = field_values(data, at, ends)
        return bounded(seconds, 1 << 25), bounded(nanos, 10**9), values, severities, statuses, rest
    except OtherForm:
        return None
