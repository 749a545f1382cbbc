"""Variables whose samples are fed to a service, what is known of each, and what a reply may be.

A variable's samples are one list that rises in time. Feeds offer it in order and begin again at what is known
to be accepted, so what the archive accepts is always a front of the list. It takes the Python of the standard
library alone, and knows the formats by docs/FORMATS.md.
"""

import calendar
import json
import struct
import threading
import time
from dataclasses import dataclass, field

from comparing import Difference, agree, shown
from pb_model import escape

SECOND = 1_000_000_000
TYPES = [f"{shape}_{kind}" for shape in ("SCALAR", "WAVEFORM")
         for kind in ("STRING", "SHORT", "FLOAT", "ENUM", "BYTE", "INT", "DOUBLE")]
# How far apart the samples of a variable are: of some there are many in an hour, of others one or two.
STEPS = (SECOND // 10, 5 * SECOND, 120 * SECOND, 1_800 * SECOND)
# The samples end long before the clock.
LAST = 1_735_689_600 * SECOND
# From the first moment at which a sample may stand up to the first one behind the last.
FIRST, END = 662_688_000 * SECOND, 16_725_225_600 * SECOND
INT = TYPES.index("SCALAR_INT")


# Messages


def varint(number):
    """The bytes of a number of up to 64 bits, also a negative one."""
    number %= 1 << 64
    out = bytearray()
    while number > 127:
        out.append(number & 127 | 128)
        number >>= 7
    out.append(number)
    return bytes(out)


def of_bytes(number, data):
    """A field of bytes."""
    return varint(number << 3 | 2) + varint(len(data)) + data


def of_number(number, value):
    """A field of a number."""
    return varint(number << 3) + varint(value)


def zigzag(number):
    """The number that a sint32 is written as."""
    return number * 2 if number >= 0 else -2 * number - 1


def scalar(rng, kind):
    """A value of a kind: the bytes of an element, and what JSON shows of it."""
    if kind == "STRING":
        text = "".join(rng.choice("ab \"\\/\n\r\x1b\u00e4\u20ac") for _ in range(rng.randrange(6)))
        return text.encode(), text
    if kind in ("SHORT", "ENUM"):
        number = rng.choice((0, 1, -1, 10, 13, 27, rng.randrange(-(1 << 31), 1 << 31)))
        return varint(zigzag(number)), number
    if kind == "INT":
        number = rng.choice((0, 10, 13, 27, -1, rng.randrange(-(1 << 31), 1 << 31)))
        return struct.pack("<i", number), number
    size = 4 if kind == "FLOAT" else 8
    bits = rng.choice((0, 0x0A0D1B, rng.getrandbits(8 * size)))
    return bits.to_bytes(size, "little"), f"0x{bits:0{2 * size}x}"


TAGS = {"STRING": 0x1A, "SHORT": 0x18, "FLOAT": 0x1D, "ENUM": 0x18, "INT": 0x1D, "DOUBLE": 0x19}


def value(rng, type_number):
    """The field of a value of a type, and what JSON shows of it."""
    kind = TYPES[type_number].split("_")[1]
    if kind == "BYTE":
        data = bytes(rng.choice((10, 13, 27, rng.randrange(256))) for _ in range(rng.randrange(5)))
        return of_bytes(3, data), list(data)
    if type_number < 7:
        data, told = scalar(rng, kind)
        if kind == "STRING":
            return of_bytes(3, data), told
        return bytes([TAGS[kind]]) + data, told
    elements = [scalar(rng, kind) for _ in range(rng.randrange(4))]
    told = [one for _, one in elements]
    if kind == "STRING":
        return b"".join(of_bytes(3, data) for data, _ in elements), told
    return of_bytes(3, b"".join(data for data, _ in elements)) if elements else b"", told


def year_of(moment):
    """The year of a moment, and the moment at which it begins."""
    year = time.gmtime(moment // SECOND).tm_year
    return year, calendar.timegm((year, 1, 1, 0, 0, 0)) * SECOND


def iso(moment):
    """A moment as a text."""
    second, nano = divmod(moment, SECOND)
    return time.strftime("%Y-%m-%dT%H:%M:%S", time.gmtime(second)) + f".{nano:09d}Z"


# Samples


@dataclass(frozen=True)
class Sample:
    """A moment, its line as a file has it, and what JSON shows."""

    moment: int
    line: bytes
    shown: dict


def sample_at(rng, type_number, moment):
    """A sample of a type at a moment."""
    _, start = year_of(moment)
    second, nano = divmod(moment - start, SECOND)
    data, told = value(rng, type_number)
    severity, status = rng.choice(((0, 0), (0, 0), (3, 17), (-1, 0)))
    message = of_number(1, second) + of_number(2, nano) + data
    if severity:
        message += of_number(4, severity)
    if status:
        message += of_number(5, status)
    members = {"secs": moment // SECOND, "nanos": moment % SECOND, "val": told, "severity": severity, "status": status}
    return Sample(moment, escape(message), members)


@dataclass
class Variable:
    """A variable, the list of its samples, and what is known of how far the archive has it.

    `durable` samples were told to be durable, `accepted` were told to be accepted in this life of the service,
    `offered` went out at most. A held one is of a SCAN row, of which some samples are never accepted.
    """

    name: str
    type: int
    step: int
    rng: object
    samples: list = field(default_factory=list)
    durable: int = 0
    accepted: int = 0
    offered: int = 0
    # Whether what the archive has accepted is known exactly.
    is_exact: bool = True
    # Whether it is an old name of a variable that was renamed.
    is_retired: bool = False
    lock: object = field(default_factory=threading.Lock)

    def grow(self, number):
        """Has at least so many samples, unless they would come too near to the present."""
        moment = self.samples[-1].moment if self.samples else 1_672_531_190 * SECOND + self.rng.randrange(SECOND)
        while len(self.samples) < number and moment < LAST:
            moment += self.step + self.rng.randrange(self.step)
            self.samples.append(sample_at(self.rng, self.type, moment))

    def header(self, year):
        """The line that a chunk of a year begins with."""
        return escape(of_number(1, self.type) + of_bytes(2, self.name.encode()) + of_number(3, year)) + b"\n"

    def chunk(self, most):
        """Some samples of one year from the first that isn't known to be accepted: the place behind them, and the chunk's lines."""
        first = self.accepted
        self.grow(first + most)
        if first >= len(self.samples):
            return first, []
        year, _ = year_of(self.samples[first].moment)
        end = first
        while end < min(first + most, len(self.samples)) and year_of(self.samples[end].moment)[0] == year:
            end += 1
        return end, [self.header(year)] + [sample.line + b"\n" for sample in self.samples[first:end]]

    def tells_accepted(self, number):
        """So many samples are told to be accepted."""
        with self.lock:
            self.accepted = max(self.accepted, number)

    def tells_durable(self, number):
        """So many samples are told to be durable."""
        with self.lock:
            self.durable = max(self.durable, number)
            self.accepted = max(self.accepted, number)

    def begins_life(self):
        """The service was opened again: what was accepted, and not told to be durable, may be lost."""
        self.is_exact = self.is_exact and self.accepted == self.durable == self.offered
        self.accepted = self.durable


# Answers


@dataclass(frozen=True)
class Interval:
    """From one moment to another, both among them."""

    first: int
    last: int

    def bounds(self, samples):
        """The places of the first sample that isn't earlier than the interval, and of the first behind it."""
        begin = sum(sample.moment < self.first for sample in samples)
        return begin, max(begin, sum(sample.moment <= self.last for sample in samples))


def answer(samples, interval, number):
    """The answer over the first so many samples: the last one before the interval, and those in it."""
    begin, end = interval.bounds(samples)
    return samples[max(0, min(begin, number) - 1) : min(begin, number)] + samples[begin : max(begin, min(end, number))]


def numbers_of(samples, interval, found, low, high):
    """The least and the greatest number between `low` and `high` over whose samples this is the answer."""
    begin, end = interval.bounds(samples)
    candidates = [number for number in {low, high, *range(max(low, begin - 1), min(high, end) + 1)}]
    candidates += [number for number in range(low, min(high, begin) + 1)]
    fits = sorted(number for number in set(candidates) if answer(samples, interval, number) == found)
    if not fits:
        told = f"{len(found)} samples up to {found[-1].moment if found else None}"
        raise Difference(f"{told}: no answer over {low} to {high} samples to {interval}")
    return fits[0], high if answer(samples, interval, high) == found else fits[-1]


@dataclass(frozen=True)
class Reply:
    """The body of a reply as far as it came, and the least and the greatest number of samples that it may be over."""

    is_raw: bool
    is_whole: bool
    body: bytes
    low: int
    high: int


# Operators


@dataclass(frozen=True)
class Operator:
    """What is made of the samples of an interval: of bins of so many seconds, or of one sample of so many."""

    word: str
    number: int

    def __str__(self):
        return self.word if self.word == "ncount" else f"{self.word}_{self.number}"

    def of(self, samples, interval):
        """What it makes of these samples of an interval."""
        if self.word == "nth":
            return samples[:: self.number]
        if self.word == "ncount":
            return [counted(min(max(interval.first, FIRST), END - 1), len(samples))]
        bins = {}
        for sample in samples:
            bins.setdefault(sample.moment // SECOND // self.number, []).append(sample)
        if self.word == "count":
            return [counted(max(place * self.number * SECOND, FIRST), len(found)) for place, found in bins.items()]
        return [found[0 if self.word == "firstSample" else -1] for found in bins.values()]


def counted(moment, number):
    """A number of samples, told as a sample of the type SCALAR_INT."""
    _, start = year_of(moment)
    second, nano = divmod(moment - start, SECOND)
    message = of_number(1, second) + of_number(2, nano) + b"\x1d" + struct.pack("<i", number)
    members = {"secs": moment // SECOND, "nanos": moment % SECOND, "val": number, "severity": 0, "status": 0}
    return Sample(moment, escape(message), members)


def least_binned(variable, samples, interval, operator, reply):
    """The least number of samples over which a reply is the text of what an operator makes, of those that the reply may be over; none
    where the interval has none of these."""
    begin, end = interval.bounds(samples)
    about = Variable(variable.name, INT, 0, None) if "count" in operator.word else variable
    least, most = (min(max(number, begin), end) for number in (reply.low, reply.high))
    told = None if reply.is_raw else json.loads(reply.body)
    for number in range(least, most + 1):
        found = operator.of(samples[begin:number], interval)
        if reply.is_raw and reply.body == raw_text(about, found, interval):
            return number if number > begin else None
        if told == [{"meta": {"name": variable.name}, "data": [sample.shown for sample in found]}]:
            return number if number > begin else None
    raise Difference(f"{shown(reply.body)}: not what it makes of {least - begin} to {most - begin} samples of the interval")


def raw_text(variable, samples, interval):
    """The raw text of an answer."""
    if not samples:
        year = min(max(year_of(interval.first)[0], 1991), 2499)
        return variable.header(year)
    text, last = b"", None
    for sample in samples:
        year, _ = year_of(sample.moment)
        if year != last:
            text += (b"\n" if last else b"") + variable.header(year)
            last = year
        text += sample.line + b"\n"
    return text


def samples_of_raw(variable, text, interval, is_whole):
    """The samples whose raw text this is, or a front of it."""
    by_line = {}
    for sample in variable.samples:
        by_line.setdefault((year_of(sample.moment)[0], sample.line), sample)
    years = {variable.header(year)[:-1]: year for year in range(1991, 2500)} if text else {}
    year, found = None, []
    for line in text.split(b"\n")[:-1]:
        if line in years:
            year = years[line]
        elif line:
            if (year, line) not in by_line:
                raise Difference(f"{variable.name}: a line that was never sent: {shown(line)}")
            found.append(by_line[year, line])
    if is_whole:
        agree(f"the raw text of {variable.name}", text, raw_text(variable, found, interval))
    return found


def samples_of_json(variable, text):
    """The samples whose JSON text this is."""
    (series,) = json.loads(text)
    agree("the name", series["meta"], {"name": variable.name})
    by_moment = {sample.moment: sample for sample in variable.samples}
    found = []
    for members in series["data"]:
        sample = by_moment.get(members["secs"] * SECOND + members["nanos"])
        agree(f"a sample of {variable.name}", members, sample and sample.shown)
        found.append(sample)
    return found
