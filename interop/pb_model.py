"""What a raw PB stream means, and what `archappl extract` makes of it: a model to compare with.

It says in Python what README.md and docs/FORMATS.md say in words, and takes nothing from the
program, nor from a library for Protocol Buffers. Other scripts may import it.

A fault is the number behind the E of a complaint. Moments are nanoseconds since 1970.
"""

import re
import struct
from dataclasses import dataclass, field
from datetime import date, datetime, timedelta

BAD_VARINT, BAD_TAG, GROUP, SHORT, BAD_ESCAPE, BAD_TIME = 1, 2, 3, 4, 5, 6
MISSING, WRONG_WIRE, UNKNOWN_TYPE, YEAR_RANGE = 9, 10, 11, 12
NO_HEADER, LINE_TOO_LONG, TORN = 13, 15, 35

MAX_LINE = 16_777_216
FIRST_YEAR, LAST_YEAR = 1991, 2499
SECOND = 1_000_000_000
# 2500-01-01, the first moment that no text tells.
END = 16_725_225_600 * SECOND


class Fault(Exception):
    """Bytes aren't of the form: the number that a complaint tells, and what it is of, where there is
    one: the place of a varint, tag, value or escape, the field that is missing or has another wire
    type, or the type or the year that there isn't."""

    def __init__(self, number, of=None):
        super().__init__(f"E{number}")
        self.number = number
        self.of = of


class Refused(Exception):
    """The first bad line of a stream, by its number from 1, and its fault."""

    def __init__(self, line, fault):
        super().__init__(f"line {line}: E{fault}")
        self.line = line
        self.fault = fault


# Lines

MEANING = {b"\x1b\x01": b"\x1b", b"\x1b\x02": b"\n", b"\x1b\x03": b"\r"}


def escape(message):
    for pair, byte in MEANING.items():  # 1B first, since the others bring it in
        message = message.replace(byte, pair)
    return message


def unescape(line):
    bad = re.search(rb"\x1b(?![\x01\x02\x03])", line)
    if bad is not None:
        raise Fault(BAD_ESCAPE, bad.start())
    return re.sub(rb"\x1b[\x01\x02\x03]", lambda pair: MEANING[pair.group()], line)


# Fields

VARINT = re.compile(rb"[\x80-\xff]{0,9}[\x00-\x7f]")


def varint(data, at, start=0):
    """The varint at a place, and the place behind it. The data begins at `start`."""
    found = VARINT.match(data, at)
    if found is None:
        raise Fault(BAD_VARINT if len(data) - at >= 10 else SHORT, start + at)
    groups = enumerate(found.group())
    return sum((byte & 0x7F) << 7 * i for i, byte in groups) % 2**64, found.end()


def varints(data, start=0):
    at = 0
    while at < len(data):
        number, at = varint(data, at, start)
        yield number


def fields(data, start=0):
    """Number, wire type, value and place of each field of a message that begins at `start`. The value
    is a number, or the bytes as they stand."""
    at = 0
    while at < len(data):
        begin = start + at
        tag, at = varint(data, at, start)
        number, kind = divmod(tag, 8)
        if number == 0 or tag >= 2**32 or kind > 5:
            raise Fault(BAD_TAG, begin)
        if kind in (3, 4):
            raise Fault(GROUP, begin)
        place = start + at
        if kind == 0:
            value, at = varint(data, at, start)
        else:
            size, at = varint(data, at, start) if kind == 2 else ({1: 8, 5: 4}[kind], at)
            place = start + at
            if size > len(data) - at:
                raise Fault(SHORT, place)
            value = data[at : at + size]
            at += size
        yield number, kind, value, place


def low(number):
    """What a 32-bit field keeps of a varint."""
    return number % 2**32


def signed(number):
    return (low(number) ^ 2**31) - 2**31


def zigzag(number):
    """The signed number that the low 32 bits of a sint32 stand for."""
    number = low(number)
    return -(number // 2) - 1 if number % 2 else number // 2


def fixed(form):
    return lambda value: struct.unpack("<" + form, value)[0]


# Messages

# Of each payload type: wire type and size of one element, what it is read as, whether it is repeated.
STRING = (2, None, bytes)
SINT = (0, None, zigzag)
FLOAT = (5, 4, fixed("I"))
SFIXED = (5, 4, fixed("i"))
DOUBLE = (1, 8, fixed("Q"))
VAL = (
    [(kind, False) for kind in (STRING, SINT, FLOAT, SINT, STRING, SFIXED, DOUBLE)]
    + [(kind, True) for kind in (STRING, SINT, FLOAT, SINT)]
    + [(STRING, False), (SFIXED, True), (DOUBLE, True)]
)


@dataclass
class Event:
    """Floats are their bits, texts are bytes."""

    secs: int
    nano: int
    val: object
    severity: int
    status: int
    repeatcount: object
    fieldvalues: list
    fieldactualchange: object


@dataclass
class Header:
    type: int
    name: bytes
    year: int
    count: object
    headers: list


def expect(kind, wanted, number):
    if kind != wanted:
        raise Fault(WRONG_WIRE, number)


def pair(data, start, listed):
    """Name and value, None for one that is missing. The field `listed` holds the pair."""
    members = {}
    for number, kind, value, _ in fields(data, start):
        if number in (1, 2):
            expect(kind, 2, listed)
            members[number] = value
    return members.get(1), members.get(2)


def elements(element, repeated, kind, value, place):
    """The elements that one field of val brings."""
    own_kind, size, read = element
    if kind == own_kind:
        return [read(value)]
    if kind != 2 or not repeated:
        raise Fault(WRONG_WIRE, 3)
    if size is None:
        return [read(number) for number in varints(value, place)]
    if len(value) % size:
        raise Fault(SHORT, place)
    return [read(value[at : at + size]) for at in range(0, len(value), size)]


def members(data, singular, pairs, val=None):
    """The last value of each singular number, the pairs, and the elements of val."""
    last, listed, values = {}, [], []
    for number, kind, value, place in fields(data):
        if number in singular:
            expect(kind, singular[number], number)
            last[number] = value
        elif number == pairs:
            expect(kind, 2, number)
            listed.append(pair(value, place, number))
        elif number == 3 and val is not None:
            values += elements(*val, kind, value, place)
    return last, listed, values


def require(present, number):
    if not present:
        raise Fault(MISSING, number)


def event(type_number, data):
    """The event that a message holds."""
    val = VAL[type_number]
    last, listed, values = members(data, dict.fromkeys((1, 2, 4, 5, 6, 8), 0), 7, val)
    require(1 in last, 1)
    require(2 in last, 2)
    require(values or val[1], 3)
    require(all(None not in one for one in listed), 7)
    return Event(
        secs=low(last[1]),
        nano=low(last[2]),
        val=values if val[1] else values[-1],
        severity=signed(last.get(4, 0)),
        status=signed(last.get(5, 0)),
        repeatcount=low(last[6]) if 6 in last else None,
        fieldvalues=listed,
        fieldactualchange=last[8] != 0 if 8 in last else None,
    )


def header(data):
    """The header that a message holds."""
    last, listed, _ = members(data, {1: 0, 2: 2, 3: 0, 4: 0}, 15)
    for number in (1, 2, 3):
        require(number in last, number)
    require(all(None not in one for one in listed), 15)
    if low(last[1]) >= len(VAL):
        raise Fault(UNKNOWN_TYPE, low(last[1]))
    year = signed(last[3])
    if not FIRST_YEAR <= year <= LAST_YEAR:
        raise Fault(YEAR_RANGE, year)
    count = signed(last[4]) if 4 in last else None
    return Header(low(last[1]), last[2], year, count, listed)


# Moments


def year_start(year):
    """The seconds from 1970 to a year."""
    return (date(year, 1, 1) - date(1970, 1, 1)).days * 86_400


def year_length(year):
    return year_start(year + 1) - year_start(year)


def moment(year, secs, nano):
    if secs >= year_length(year) or nano >= SECOND:
        raise Fault(BAD_TIME)
    return (year_start(year) + secs) * SECOND + nano


def iso(t, decimals=9, offset=None):
    """An ISO text of a moment, in UTC or with an offset in minutes. It may have more decimals than
    are asked for, where the moment has them."""
    civil = datetime(1970, 1, 1) + timedelta(seconds=t // SECOND, minutes=offset or 0)
    digits = f"{t % SECOND:09}"
    digits = digits[: max(decimals, len(digits.rstrip("0")))]
    text = civil.isoformat() + ("." + digits if digits else "")
    if offset is None:
        return text + "Z"
    return f"{text}{'-' if offset < 0 else '+'}{abs(offset) // 60:02}:{abs(offset) % 60:02}"


# Streams


@dataclass
class Chunk:
    """A header's line with its newline, and the moments and lines of its samples."""

    header: Header
    line: bytes
    samples: list = field(default_factory=list)
    ended: bool = False


def read_stream(stream):
    """The chunks of a stream up to its end or its first bad line, and that line's `Refused` or None."""
    chunks = []
    try:
        for chunk in read_lines(stream, chunks):
            pass
    except Refused as refused:
        return chunks, refused
    return chunks, None


def read_lines(stream, chunks):
    """Adds to `chunks` line by line, and raises `Refused` at the first bad one."""
    *lines, rest = stream.split(b"\n")
    current = None
    for number, line in enumerate(lines, 1):
        if len(line) > MAX_LINE:
            raise Refused(number, LINE_TOO_LONG)
        try:
            current = read_line(line, current, chunks)
        except Fault as fault:
            raise Refused(number, fault.number) from None
        yield current
    if len(rest) > MAX_LINE:
        raise Refused(len(lines) + 1, LINE_TOO_LONG)
    if rest:
        raise Refused(len(lines) + 1, TORN)
    if not chunks:
        raise Refused(len(lines) + 1, NO_HEADER)
    if current is not None:
        current.ended = True


def read_line(line, current, chunks):
    """Takes a line in a chunk, or outside one where that is None; gives the chunk behind it."""
    if not line:
        if current is not None:
            current.ended = True
        return None
    if current is None:
        chunks.append(Chunk(header(unescape(line)), line + b"\n"))
        return chunks[-1]
    found = event(current.header.type, unescape(line))
    t = moment(current.header.year, found.secs, found.nano)
    current.samples.append((t, line + b"\n"))
    return current


# Extraction


def taken(samples):
    """The samples that are later than all before them."""
    risen = []
    for t, line in samples:
        if not risen or t > risen[-1][0]:
            risen.append((t, line))
    return risen


def answer(samples, start, end):
    """The lines of the last sample before `start`, and of those from `start` to `end`."""
    risen = taken(samples)
    earlier = [line for t, line in risen if t < start]
    return earlier[-1:] + [line for t, line in risen if start <= t <= end]


def is_known(chunk, start):
    """Whether the answer over a chunk's samples is known as far as they go: no later sample adds a
    line before the last one."""
    return chunk.ended or any(t >= start for t, _ in chunk.samples)


def extracted(chunks, start, end):
    """What `extract` writes of chunks, whose last one may not have ended."""
    texts = []
    for chunk in chunks:
        lines = answer(chunk.samples, start, end) if is_known(chunk, start) else []
        texts.append(chunk.line + b"".join(lines))
    return b"\n".join(texts)


@dataclass
class Run:
    """What a run of the program gives."""

    status: int
    output: bytes
    complaint: bytes


def extract(stream, start, end):
    """What `archappl extract` of an interval gives of a stream."""
    chunks, refused = read_stream(stream)
    output = extracted(chunks, start, end)
    if refused is None:
        return Run(0, output, b"")
    return Run(3, output, f"archappl: {refused}\n".encode())
