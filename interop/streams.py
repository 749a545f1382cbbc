"""Random chunk streams, written by Google's Protocol Buffers, and ways to damage them.

Each function takes the source of randomness first, and gives the same for the same one.
"""

import struct
from dataclasses import dataclass

import pb_model
from messages import CLASSES, TYPE_NAMES, event_name
from pb_model import Chunk, Header, escape, low, moment, year_length

UNPACKED = {8: "UnpackedShort", 9: "UnpackedFloat", 10: "UnpackedShort", 12: "UnpackedInt", 13: "UnpackedDouble"}
NEEDS_ESCAPE = (10, 13, 27)
EDGES = (0, 1, -1, 10, 13, 27, 127, 128, 2**31 - 1, -(2**31), 0x0A0D1B0A, 0x1B1B1B1B)


def part(name, **values):
    return CLASSES[name](**values).SerializePartialToString()


def chance(rng, percent):
    return rng.randrange(100) < percent


# Values


def length(rng):
    """Mostly short; often one that must be escaped where it is written before the bytes."""
    return rng.choice((0, 1, 2, 3, 10, 13, 27, rng.randrange(40), rng.randrange(300)))


def blob(rng):
    common = NEEDS_ESCAPE + (0, 1, 2, 3, 65, 255)
    return bytes(rng.choice(common) if chance(rng, 60) else rng.randrange(256) for _ in range(length(rng)))


def text(rng):
    return "".join(rng.choice("\n\r\x1b\x01\x02\x03AZ az09:é€😀\x00") for _ in range(length(rng)))


def int32(rng):
    return rng.choice(EDGES) if chance(rng, 50) else rng.randrange(-(2**31), 2**31)


def floating(rng):
    usual = (0.0, -0.0, 1.0, 21.5, float("inf"), float("nan"), 1e-310)
    return rng.choice(usual) if chance(rng, 50) else struct.unpack("<d", rng.randbytes(8))[0]


def single(rng):
    return struct.unpack("<f", rng.randbytes(4))[0] if chance(rng, 50) else rng.choice((0.0, -1.5, 1e30))


SCALARS = (text, int32, single, int32, blob, int32, floating)


def val(rng, type_number):
    element = SCALARS[type_number % 7]
    if not is_repeated(type_number):
        return element(rng)
    # Some lines are longer than what the program reads at once.
    count = rng.choice((0, 1, 2, 10, 13, 27, rng.randrange(60)))
    return [element(rng) for _ in range(rng.randrange(20_000) if chance(rng, 1) else count)]


def is_repeated(type_number):
    return pb_model.VAL[type_number][1]


# Spellings


def longer(rng, field):
    """A field of one varint and a short number: number and tag in more bytes than they need."""
    tag, number = field[:1], field[1:]
    if chance(rng, 50):
        tag = lengthened(tag, rng.randrange(1, 5))
    return tag + lengthened(number, rng.randrange(10 - len(number) + 1))


def lengthened(number, more):
    if more == 0:
        return number
    return number[:-1] + bytes([number[-1] | 0x80]) + b"\x80" * (more - 1) + b"\x00"


def wide(rng, name, number):
    """A field of a 32-bit number with bits above those that hold."""
    return part("Wide", **{name: low(number) + rng.randrange(2**32) * 2**32})


def numeric(rng, class_name, name, number):
    """Spellings of a number that isn't repeated, others before the last."""
    fields = [part(class_name, **{name: rng.randrange(100)}) for _ in range(rng.choice((0, 0, 1, 2)))]
    last = wide(rng, name, number) if chance(rng, 20) else part(class_name, **{name: number})
    return fields + [longer(rng, last) if chance(rng, 30) else last]


def unknown(rng):
    names = {"varint": rng.randrange(2**64), "eight": rng.randrange(2**64), "text": blob(rng),
             "four": rng.randrange(2**32), "greatest": blob(rng)}
    return [part("Unknown", **{name: names[name]}) for name in rng.sample(sorted(names), rng.randrange(3))]


def riffled(rng, groups):
    """All parts in some order that keeps each group's own."""
    groups = [list(group) for group in groups if group]
    parts = []
    while groups:
        group = rng.choice(groups)
        parts.append(group.pop(0))
        groups = [group for group in groups if group]
    return b"".join(parts)


def val_parts(rng, type_number, value):
    class_name = event_name(type_number)
    if not is_repeated(type_number):
        others = [val(rng, type_number) for _ in range(rng.choice((0, 0, 1)))]
        return [part(class_name, val=one) for one in others + [value]]
    names = [class_name] + ([UNPACKED[type_number]] if type_number in UNPACKED else [])
    parts = []
    while value:
        count = rng.randrange(1, len(value) + 1)
        parts.append(part(rng.choice(names), val=value[:count]))
        value = value[count:]
        if type_number in UNPACKED and chance(rng, 20):
            parts.append(part("RawVal", val=b""))
    return parts


# Messages


def pairs(rng):
    count = rng.choice((0, 0, 0, 1, 2, 5))
    return [CLASSES["FieldValue"](name=text(rng), val=text(rng)) for _ in range(count)]


def optionals(rng):
    possible = {"severity": rng.choice((0, 1, 2, 3, int32(rng))), "status": rng.choice((0, 1, 22, int32(rng))),
                "repeatcount": low(int32(rng)), "fieldactualchange": chance(rng, 50)}
    return {name: value for name, value in possible.items() if chance(rng, 30)}


def event_message(rng, type_number, secs, nano):
    name = event_name(type_number)
    value, listed, others = val(rng, type_number), pairs(rng), optionals(rng)
    if chance(rng, 50):
        required = {"secondsintoyear": secs, "nano": nano, "val": value}
        return CLASSES[name](fieldvalues=listed, **required, **others).SerializeToString()
    numbers = {"secondsintoyear": secs, "nano": nano, **others}
    groups = [numeric(rng, name, member, number) for member, number in numbers.items()]
    groups.append(val_parts(rng, type_number, value))
    groups.append([part(name, fieldvalues=[one]) for one in listed])
    return riffled(rng, groups + [unknown(rng)])


def info_message(rng, header):
    values = {"type": header.type, "pvname": header.name.decode(), "year": header.year}
    if header.count is not None:
        values["elementCount"] = header.count
    listed = [CLASSES["FieldValue"](name=name.decode(), val=value.decode()) for name, value in header.headers]
    if chance(rng, 50):
        return CLASSES["PayloadInfo"](headers=listed, **values).SerializeToString()
    groups = [[part("PayloadInfo", pvname="other")] * rng.randrange(2)]
    groups[0].append(part("PayloadInfo", pvname=values.pop("pvname")))
    groups.append([part("PayloadInfo", type=rng.randrange(14)), part("PayloadInfo", type=values.pop("type"))])
    for name, number in values.items():
        field = part("PayloadInfo", **{name: number})
        groups.append([longer(rng, field) if chance(rng, 30) else field])
    groups.append([part("PayloadInfo", headers=[one]) for one in listed])
    return riffled(rng, groups + [unknown(rng)])


# Streams


@dataclass
class Stream:
    """The bytes, and the chunks that were written into them."""

    text: bytes
    chunks: list


def header(rng, type_number):
    listed = [(one.name.encode(), one.val.encode()) for one in pairs(rng)]
    year = rng.choice((1991, 2499, 2000, 2023, 2024, 2100, rng.randrange(1991, 2500)))
    count = rng.choice((None, 1, -1, 10, int32(rng)))
    return Header(type_number, text(rng).encode(), year, count, listed)


def times(rng, year, count):
    """Seconds and nanoseconds, which mostly rise."""
    span = year_length(year)
    secs = [rng.choice((0, 1, span - 1, rng.randrange(span), rng.randrange(90_000))) for _ in range(count)]
    nanos = [rng.choice((0, 0, 1, 10, 999_999_999, rng.randrange(10**9))) for _ in range(count)]
    risen = sorted(zip(secs, nanos))
    for _ in range(rng.choice((0, 0, 1, 3))):
        if risen:
            risen[rng.randrange(count)] = rng.choice(risen)
    return risen


def chunk(rng, type_number, count):
    told = header(rng, type_number)
    written = Chunk(told, escape(info_message(rng, told)) + b"\n", ended=True)
    for secs, nano in times(rng, told.year, count):
        line = escape(event_message(rng, type_number, secs, nano)) + b"\n"
        written.samples.append((moment(told.year, secs, nano), line))
    return written


def stream(rng, first_type, count=None):
    """A stream of some chunks. `count` is the number of samples of each, random where it is None."""
    chunks = [chunk(rng, first_type, rng.randrange(13) if count is None else count)]
    while chance(rng, 50):
        chunks.append(chunk(rng, rng.randrange(len(TYPE_NAMES)), rng.randrange(6)))
    return joined(rng, chunks)


def joined(rng, chunks):
    """The stream of some chunks, with empty lines round them."""
    gaps = [b"\n" * rng.choice((1, 1, 1, 2, 3)) for _ in chunks]
    last = b"\n" * rng.choice((0, 0, 1, 2))
    bodies = [one.line + b"".join(line for _, line in one.samples) for one in chunks]
    head = b"\n" * rng.choice((0, 0, 0, 1, 2))
    text = b"".join(body + gap for body, gap in zip(bodies, gaps[:-1] + [last]))
    return Stream(head + text, chunks)


def interval(rng, chunks):
    """Two moments, mostly at or beside samples, and their ISO texts."""
    known = [t for one in chunks for t, _ in one.samples]
    known += [pb_model.year_start(one.header.year) * 10**9 for one in chunks]
    ends = []
    for _ in range(2):
        t = rng.choice(known) + rng.choice((-1, 0, 0, 0, 1, 10**9))
        if chance(rng, 10):
            t = rng.choice((0, pb_model.END - 1, rng.randrange(pb_model.END)))
        ends.append(min(max(t, 0), pb_model.END - 1))
    if chance(rng, 85):
        ends.sort()
    return ends, [pb_model.iso(t, rng.randrange(10), offset(rng)) for t in ends]


def offset(rng):
    return rng.choice((None, None, None, 0, 60, -60, 330, rng.randrange(-1439, 1440)))


# Damage

PIECES = (b"\n", b"\r", b"\x1b", b"\x1b\x01", b"\x1b\x02", b"\x00", b"\x01", b"\x07", b"\x0b", b"\x0c", b"\xff", b"\x80", b"\n\n")

# Fields that no reader takes, by what is wrong with them.
BAD_FIELDS = (
    b"\x0b", b"\x0c", b"\x9b\x06",  # groups
    b"\x00", b"\x03", b"\x06\x00", b"\x0e", b"\x0f", b"\x80\x80\x80\x80\x10\x00",  # tags
    b"\x08" + b"\xff" * 10, b"\xff" * 10 + b"\x01", b"\x48" + b"\x80" * 10 + b"\x00",  # varints
    b"\x0a", b"\x82\x01\x05ab", b"\x9d\x06\x01\x02", b"\x71\x00", b"\x48\x80",  # what is short at the end
    b"\x3a\x02\x0a\x05", b"\x7a\x02\x0a\x05", b"\x3a\x01\x0b",  # what is wrong within a pair
)


def wrong_wire(rng):
    name = rng.choice([field.name for field in CLASSES["WrongWire"].DESCRIPTOR.fields])
    return part("WrongWire", **{name: b"\x0a\x01" if name in ("five", "eight") else rng.randrange(2**32)})


def lacking_pair(rng, of_header):
    values = rng.choice(({}, {"name": b"A"}, {"val": b"A"}))
    name = "headers" if of_header else "fieldvalues"
    return part("AnyFieldValues", **{name: [CLASSES["AnyFieldValue"](**values)]})


def wrong_number(rng, of_header):
    if of_header:
        year = rng.choice((0, 1990, 1991, 2499, 2500, -1, -2024, 2**32 + 2024))
        return rng.choice((
            part("AnyInfo", type=rng.choice((14, 15, 2**32 - 1, 2**32 + 5, rng.randrange(14)))),
            part("AnyInfo", year=year),
        ))
    return rng.choice((
        part("Wide", secondsintoyear=rng.choice((365 * 86_400, 366 * 86_400, 2**32 - 1, 2**32))),
        part("Wide", nano=rng.choice((999_999_999, 10**9, 2**32 - 1))),
        part("RawVal", val=rng.randbytes(rng.randrange(10))),
    ))


def bad_field(rng, of_header):
    way = rng.randrange(4)
    if way == 0:
        return rng.choice(BAD_FIELDS)
    if way == 1:
        return wrong_wire(rng)
    return (lacking_pair if way == 2 else wrong_number)(rng, of_header)


def damaged_bytes(rng, data, pieces=PIECES):
    """One cut, flip, change, insertion or removal."""
    at = rng.randrange(len(data) + 1)
    way = rng.randrange(6)
    if way == 0:
        return data[:at]
    if way == 1:
        return data[:at] + rng.choice(pieces) + data[at:]
    if way == 2:
        return data[:at] + rng.randbytes(rng.randrange(1, 4)) + data[at:]
    if way == 3:
        return data[:at] + data[at + rng.randrange(1, 4) :]
    changed = data[at : at + 1] or b"\x00"
    value = changed[0] ^ 1 << rng.randrange(8) if way == 4 else rng.randrange(256)
    return data[:at] + bytes([value]) + data[at + 1 :]


def damaged_message(rng, message, of_header):
    way = rng.randrange(4)
    if way == 0:
        return damaged_bytes(rng, message, BAD_FIELDS)
    if way == 1:
        return bad_field(rng, of_header) + message
    if way == 2:
        return message + bad_field(rng, of_header)
    # Some fields alone: what is left may lack one, or have another in its place.
    kept = [message[start:end] for start, end in extents(message) if chance(rng, 70)]
    return b"".join(kept)


def extents(message):
    """Where the fields of a good message begin and end."""
    ends = [0]
    while ends[-1] < len(message):
        ends.append(field_end(message, ends[-1]))
    return list(zip(ends, ends[1:]))


def field_end(message, at):
    tag, at = pb_model.varint(message, at)
    if tag % 8 == 0:
        return pb_model.varint(message, at)[1]
    if tag % 8 == 2:
        size, at = pb_model.varint(message, at)
        return at + size
    return at + (8 if tag % 8 == 1 else 4)


def damaged(rng, whole):
    """The bytes of a stream with one or two kinds of damage."""
    lines = whole.text.split(b"\n")
    full = [i for i, line in enumerate(lines) if line]
    headers = {one.line[:-1] for one in whole.chunks}
    if chance(rng, 60):
        i = full[0] if chance(rng, 25) else rng.choice(full)
        message = pb_model.unescape(lines[i])
        lines[i] = escape(damaged_message(rng, message, lines[i] in headers))
    if chance(rng, 20):
        lines[rng.choice(full)] = lines[rng.choice(full)]
    data = b"\n".join(lines)
    return damaged_bytes(rng, data) if chance(rng, 50) else data
