"""Random streams for an archive: few variables, over and over, whose samples mostly rise.

Each function takes the source of randomness first, and gives the same for the same one, but for
moments ahead of the clock.
"""

from dataclasses import dataclass

import streams
from messages import TYPE_NAMES, event_name
from pb_model import END, SECOND, Chunk, Header, escape, moment, year_length, year_start
from store_model import DAY, HOUR, STORES, header_line, partition, year_of
from streams import chance, part

LETTERS = "ABCXYZabcxyz0189_+[]<>;.,#{}^"
# The years in which variables begin, and a moment that none goes beyond but by samples ahead of the clock.
YEARS = (1991, 1992, 1999, 2000, 2004, 2011, 2012)
LAST = year_start(2024) * SECOND
STEPS = (1, 1000, SECOND // 10, SECOND, 10 * SECOND, 600 * SECOND, HOUR, 30 * HOUR, 4000 * HOUR)
BAD_NAMES = ("", ":", "A:", "A::B", "A/", "..:B", "A:.", "A-..", "A B", "A\n", "\x1b:A", "é", "A" * 129, "A\\B", "A%")


@dataclass
class Variable:
    """What its headers tell, and the moment behind which its next samples mostly come."""

    name: str
    type: int
    count: object
    headers: list
    at: int

    def header(self, year):
        """The header of one of its chunks."""
        return Header(self.type, self.name.encode(), year, self.count, self.headers)


# Names


def segment(rng):
    """A piece of a name between separators."""
    letters = "".join(rng.choice(LETTERS) for _ in range(rng.choice((1, 2, 3, 3, 8, 30))))
    return "..." if letters in (".", "..") else letters


def good_name(rng):
    """A name of one to five segments, sometimes of 128 bytes."""
    name = segment(rng) + "".join(rng.choice(":-/") + segment(rng) for _ in range(rng.choice((0, 1, 1, 2, 4))))
    return name.ljust(128, "X") if chance(rng, 5) else name[:127] + "_" * (len(name) > 127)


def twin(rng, name):
    """A name that mostly has the same key."""
    return "".join(rng.choice(":-/") if letter in ":-/" else letter for letter in name)


def variable(rng, name, type_number):
    """A variable of a name and a type."""
    listed = [(one.name.encode(), one.val.encode()) for one in streams.pairs(rng)]
    count = rng.choice((None, 1, -1, 10, streams.int32(rng)))
    at = year_start(rng.choice(YEARS)) * SECOND + rng.randrange(20) * 1000 * HOUR
    return Variable(name, type_number, count, listed, at)


def variables(rng, first_type):
    """Variables of several types, the first of a given one. Some have bad names or the keys of others."""
    made = [variable(rng, good_name(rng), first_type)]
    for _ in range(rng.choice((1, 2, 4))):
        made.append(variable(rng, good_name(rng), rng.randrange(len(TYPE_NAMES))))
    if chance(rng, 30):
        made.append(variable(rng, rng.choice(BAD_NAMES), rng.randrange(len(TYPE_NAMES))))
    if chance(rng, 30):
        made.append(variable(rng, twin(rng, made[0].name), rng.randrange(len(TYPE_NAMES))))
    return made


# Chunks


def rising(rng, at, count):
    """Moments behind one, some at the edges of hours."""
    step = rng.choice(STEPS)
    risen = []
    for _ in range(count):
        later = at + rng.randrange(1, 2 * step + 1)
        if chance(rng, 20):
            later = max(at + 1, (at // HOUR + 1) * HOUR + rng.choice((-1, 0, 1)))
        at = later
        risen.append(at)
    return risen


def disturbed(rng, moments):
    """With some moments that come again or before their turn."""
    moments = list(moments)
    for _ in range(rng.choice((0, 0, 1, 3))):
        if moments:
            moments.insert(rng.randrange(len(moments) + 1), rng.choice(moments) - rng.choice((0, 0, 1, SECOND)))
    return moments


def written_chunk(rng, header, moments):
    """The chunk of those moments that are in the header's year."""
    chunk = Chunk(header, escape(streams.info_message(rng, header)) + b"\n", ended=True)
    for t in moments:
        secs, nano = divmod(t - year_start(header.year) * SECOND, SECOND)
        if 0 <= secs < year_length(header.year):
            line = escape(streams.event_message(rng, header.type, secs, nano)) + b"\n"
            chunk.samples.append((moment(header.year, secs, nano), line))
    return chunk


def other_header(rng, header):
    """A header of the same name that tells something else."""
    return Header(rng.randrange(len(TYPE_NAMES)), header.name, header.year, rng.choice((None, 7)), [])


def forward(rng, one, count):
    """Chunks that take a variable on, one for each year."""
    moments = [t for t in rising(rng, one.at, count) if t < LAST]
    chunks = []
    for year in sorted({year_of(t) for t in moments}) or [year_of(one.at)]:
        header = one.header(year)
        if chance(rng, 7):
            header = other_header(rng, header)
        chunks.append(written_chunk(rng, header, disturbed(rng, (t for t in moments if year_of(t) == year))))
    one.at = max([one.at, *moments])
    return chunks


def ahead(rng, one, now):
    """A chunk of samples that are too far ahead of the clock, or just not."""
    t = rng.choice((now + 60 * SECOND, now + 2 * HOUR, now + 5000 * HOUR, END - HOUR))
    return written_chunk(rng, one.header(year_of(t)), [t, t + 1, t + SECOND])


def stream(rng, group, now):
    """A stream of chunks of some variables. `now` is what the clock shows."""
    chunks = []
    for _ in range(rng.choice((1, 2, 4, 8))):
        one = rng.choice(group)
        chunks += forward(rng, one, rng.choice((0, 1, 2, 5, 12, 40)))
        if chance(rng, 20):
            chunks.append(rng.choice(chunks))
        if chance(rng, 12):
            chunks.append(ahead(rng, one, now))
    return streams.joined(rng, chunks)


# Streams that take long


def long_value(rng, type_number):
    """The field of a value of up to some kilobytes."""
    if type_number == 0:
        return "".join(rng.choice("AZaz \n\x1b") for _ in range(rng.randrange(400)))
    if streams.is_repeated(type_number):
        element = streams.SCALARS[type_number % 7]
        return [element(rng) for _ in range(rng.randrange(300))]
    return streams.val(rng, type_number)


def long_variables(rng):
    """Variables of five types, for streams that take long."""
    types = (6, 13, 0, 5, 12)
    return [variable(rng, f"{letter}:{segment(rng)}", number) for letter, number in zip("PQRST", types)]


def long_chunk(rng, one, count):
    """A chunk of samples of one value, in equal steps of time, in one year."""
    step = rng.choice((1, 3, 15)) * SECOND
    year = year_of(one.at + count * step)
    start = year_start(year) * SECOND
    one.at = max(one.at, start)
    header = one.header(year)
    chunk = Chunk(header, header_line(header), ended=True)
    name = event_name(one.type)
    value = part(name, val=long_value(rng, one.type))
    for _ in range(count):
        one.at += step
        secs, nano = divmod(one.at - start, SECOND)
        message = part(name, secondsintoyear=secs, nano=nano) + value
        chunk.samples.append((one.at, escape(message) + b"\n"))
    return chunk


def long_stream(rng, group):
    """A stream of many chunks and some megabytes, whose samples all rise."""
    counts = [rng.choice((1, 20, 100, 400)) for _ in range(40)] + [3000]
    rng.shuffle(counts)
    return streams.joined(rng, [long_chunk(rng, rng.choice(group), count) for count in counts])


def short_stream(rng, group):
    """A stream of some chunks, whose samples all rise."""
    return streams.joined(rng, [long_chunk(rng, rng.choice(group), rng.choice((1, 5, 20, 60))) for _ in range(rng.randrange(1, 12))])


# Streams of years

SEASON_STEPS = (600 * SECOND, HOUR, 7 * HOUR, 30 * HOUR, 10 * DAY)


def season_moments(rng, at, until, count):
    """So many moments behind one and before another, mostly hours or days apart, some at the edges of partitions."""
    step = rng.choice(SEASON_STEPS)
    for _ in range(count):
        later = at + rng.randrange(1, 2 * step + 1)
        if chance(rng, 15):
            later = max(at + 1, partition(rng.choice(STORES), later)[1] + rng.choice((-1, 0, 1)))
        if later >= until:
            return
        yield later
        at = later


def season(rng, one, count, until=LAST):
    """Chunks that take a variable on by so many samples, over hours, months or years, one for each year."""
    moments = list(season_moments(rng, one.at, until, count))
    one.at = max([one.at, *moments])
    years = sorted({year_of(t) for t in moments})
    return [written_chunk(rng, one.header(year), [t for t in moments if year_of(t) == year]) for year in years]


def recent(rng, one, count, now):
    """Chunks that take a variable on up to the clock, over partitions of which the last have not ended."""
    one.at = max(one.at, now - rng.choice((5 * HOUR, 30 * HOUR, 4 * DAY)))
    return season(rng, one, count, now + 900 * SECOND)


def season_variables(rng):
    """Variables of several types, one of them of few bytes."""
    types = (6, *rng.sample(range(14), 3))
    return [variable(rng, f"{letter}:{segment(rng)}", number) for letter, number in zip("UVWX", types)]


def season_stream(rng, group, now):
    """A stream of some seasons. A variable that has come as far as the clock has nothing more to tell."""
    chunks = []
    for _ in range(rng.choice((1, 2, 4))):
        one, count = rng.choice(group), rng.choice((3, 20, 60, 120))
        chunks += recent(rng, one, count, now) if chance(rng, 12) else season(rng, one, count)
    return streams.joined(rng, chunks or [written_chunk(rng, one.header(year_of(one.at)), [])])


def seasons(rng, group, count):
    """A stream of a season of each variable, of so many samples."""
    return streams.joined(rng, [chunk for one in group for chunk in season(rng, one, count)])
