"""Samples that bench/serve sends, and their texts for both stores: the same at each run.

Parts of lines are made once and joined, since a run sends millions of lines and Python makes them while nothing
is measured.
"""

import math
import random
import struct
import sys
from dataclasses import dataclass
from pathlib import Path

sys.path.insert(0, str(Path(__file__).resolve().parent.parent / "interop"))

from pb_model import SECOND, Header, escape, fields, unescape, year_start  # noqa: E402
from store_model import header_line, number_field  # noqa: E402

YEAR = 2024
START = year_start(YEAR) * SECOND
MILLISECOND = SECOND // 1000
# After so many ticks the values begin again. It has whole seconds of each rate.
CYCLE = 10_000
NOISE = random.Random(1)
VALUES = [20.0 + 5.0 * math.sin(tick * math.tau / CYCLE) + 0.01 * NOISE.random() for tick in range(CYCLE)]


@dataclass(frozen=True)
class Span:
    """Samples of a variable, which come at so many a second: so many ticks of the year from the first one on."""

    name: str
    hertz: int
    first: int
    count: int

    def ticks(self):
        """The ticks."""
        return range(self.first, self.first + self.count)

    def moment(self, tick):
        """A tick's moment, in nanoseconds since 1970."""
        return START + tick * (SECOND // self.hertz)

    def samples(self):
        """All samples, each its moment and its value."""
        return [(self.moment(tick), VALUES[tick % CYCLE]) for tick in self.ticks()]


def pieces(span, size):
    """A span cut into spans of so many ticks, and one of the rest."""
    end = span.first + span.count
    return [Span(span.name, span.hertz, at, min(size, end - at)) for at in range(span.first, end, size)]


# Raw PB text


def line_ends(hertz):
    """The ends of the lines of a cycle: the nanosecond and the value. Each byte is escaped by itself."""
    step = SECOND // hertz
    parts = (number_field(2, tick % hertz * step) + b"\x19" + struct.pack("<d", VALUES[tick]) for tick in range(CYCLE))
    return [escape(part) + b"\n" for part in parts]


LINE_ENDS = {hertz: line_ends(hertz) for hertz in (1, 10)}


def chunk_text(span):
    """The samples as a chunk of a raw stream, with the empty line behind it."""
    hertz, ends = span.hertz, LINE_ENDS[span.hertz]
    first = span.first // hertz
    starts = [escape(number_field(1, second)) for second in range(first, (span.first + span.count - 1) // hertz + 1)]
    lines = [starts[tick // hertz - first] + ends[tick % CYCLE] for tick in span.ticks()]
    return header_line(Header(6, span.name.encode(), YEAR, None, [])) + b"".join(lines) + b"\n"


def samples_of_raw(text):
    """The samples of a raw text of one chunk."""
    found = []
    for line in text.rstrip(b"\n").split(b"\n")[1:]:
        parts = {number: value for number, _, value, _ in fields(unescape(line))}
        found.append((START + parts[1] * SECOND + parts[2], struct.unpack("<d", parts[3])[0]))
    return found


# Line protocol of InfluxDB

VALUE_TEXTS = [f"{value!r} " for value in VALUES]


def protocol_lines(span):
    """The samples as lines of the line protocol, in milliseconds."""
    head, step = f"pv,name={span.name} value=", 1000 // span.hertz
    start = START // MILLISECOND
    return [f"{head}{VALUE_TEXTS[tick % CYCLE]}{start + tick * step}\n" for tick in span.ticks()]
