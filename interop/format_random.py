"""Random cases for `crates/format_cases`. The same source of randomness gives the same ones."""

import pb_model
import store_model
from format_lines import TYPE_NAMES, hexed
from format_model import START, element, event_message
from pb_model import END, SECOND, Event, Header, escape
from store_model import GRANULARITIES, bytes_field, number_field, varint

MARKS = b"ABCab019_-+:[]<>;./,#{}^"


def chance(rng, percent):
    return rng.randrange(100) < percent


# Words


def number(rng, bits):
    return rng.choice((0, 1, 127, 128, 2**bits - 1, rng.randrange(2**bits), rng.randrange(2 ** rng.randrange(bits + 1))))


def int32(rng):
    return rng.choice((0, 1, -1, -(2**31), 2**31 - 1, rng.randrange(-(2**31), 2**31)))


def blob(rng, most=12):
    common = b"\x00\x01\x02\x03\x08\x0a\x0d\x10\x1a\x1b\x80\xff"
    return bytes(rng.choice(common) if chance(rng, 60) else rng.randrange(256) for _ in range(rng.randrange(most)))


def moment(rng):
    """Mostly one of the years of samples, often beside the start of a unit."""
    t = rng.choice((0, START, END, rng.randrange(2**64 - 1), rng.randrange(START, END)))
    unit = rng.choice((1, 60, 300, 3_600, 86_400)) * SECOND
    return max(t // unit * unit + rng.choice((-1, 0, 1)), 0) if chance(rng, 60) else t


def granularity(rng):
    return rng.choice(GRANULARITIES)


def name(rng):
    """Mostly a good one."""
    data = bytes(rng.choice(MARKS) for _ in range(rng.choice((1, 2, 3, 8, 127, 128, 129))))
    if chance(rng, 20):
        at = rng.randrange(len(data) + 1)
        data = data[:at] + rng.choice((b"", b" ", b"\x80", b"..", b":.:", b"/..")) + data[at:]
    return data


def good_name(rng):
    while True:
        data = name(rng)
        if store_model.is_name(data):
            return data


def damaged(rng, data):
    """Mostly one cut, change, insertion or removal."""
    at = rng.randrange(len(data) + 1)
    change = rng.randrange(6)
    if change == 0:
        return data[:at]
    if change == 1:
        return data[:at] + blob(rng, 4) + data[at:]
    if change == 2:
        return data[:at] + data[at + 1 + rng.randrange(3) :]
    if change == 3:
        return data[:at] + bytes([rng.randrange(256)]) + data[at + 1 :]
    return data


# Messages


def field(rng):
    """Mostly one that no message has."""
    kind = rng.randrange(8) if chance(rng, 10) else rng.choice((0, 0, 1, 2, 2, 5))
    known = rng.randrange(16)
    tag = varint((known if chance(rng, 30) else rng.choice((9, 14, 16, 99, rng.randrange(2**29)))) * 8 + kind)
    if kind == 0:
        return tag + varint(number(rng, 64))
    if kind == 2:
        data = blob(rng)
        return tag + varint(len(data)) + data
    return tag + rng.randbytes({1: 8, 5: 4}.get(kind, 0))


def value(rng, type_number):
    (kind, size, _), repeated = pb_model.VAL[type_number]
    if repeated:
        return [scalar(rng, type_number) for _ in range(rng.randrange(4))]
    return scalar(rng, type_number)


def scalar(rng, type_number):
    name = TYPE_NAMES[type_number].split("_")[1]
    if name in ("STRING", "BYTE"):
        return blob(rng)
    return number(rng, {"FLOAT": 32, "DOUBLE": 64}[name]) if name in ("FLOAT", "DOUBLE") else int32(rng)


def pairs(rng):
    return [(blob(rng), blob(rng)) for _ in range(rng.choice((0, 0, 1, 2)))]


def event(rng, type_number):
    secs = rng.randrange(31_536_000)
    if chance(rng, 30):
        secs = rng.choice((0, 31_535_999, 31_536_000, 31_622_399, 31_622_400, number(rng, 32)))
    nano = SECOND if chance(rng, 5) else rng.choice((0, 1, SECOND - 1, rng.randrange(SECOND)))
    repeat, change = rng.choice((None, number(rng, 32))), rng.choice((None, True, False))
    return Event(secs, nano, value(rng, type_number), int32(rng), rng.choice((0, int32(rng))), repeat, pairs(rng), change)


def message(rng, type_number):
    """An event's message: with single elements, other fields, and damage."""
    data = event_message(type_number, event(rng, type_number))
    (kind, _, _), repeated = pb_model.VAL[type_number]
    if repeated and chance(rng, 40):
        one = element(type_number, scalar(rng, type_number))
        data += bytes_field(3, one) if kind == 2 else varint(3 * 8 + kind) + one
    return with_fields(rng, data)


def with_fields(rng, data):
    for _ in range(rng.choice((0, 0, 1, 2))):
        data = field(rng) + data if chance(rng, 50) else data + field(rng)
    return damaged(rng, data) if chance(rng, 30) else data


def header(rng, type_number):
    year = rng.choice((1990, 2500)) if chance(rng, 10) else rng.choice((1991, 2023, 2024, 2100, 2499))
    return Header(type_number, name(rng), year, rng.choice((None, int32(rng))), pairs(rng))


def header_message(rng, type_number):
    data = store_model.header_message(header(rng, type_number))
    if chance(rng, 10):
        data += number_field(1, rng.choice((13, 14, number(rng, 64))))
    return with_fields(rng, data)


def stream(rng):
    lines = [b""] * rng.choice((0, 0, 1))
    for _ in range(rng.choice((1, 1, 2))):
        type_number = rng.randrange(14)
        head = Header(type_number, good_name(rng), rng.choice((1991, 2023, 2024)), None, pairs(rng))
        lines.append(escape(store_model.header_message(head)))
        lines += [escape(event_message(type_number, event(rng, type_number))) for _ in range(rng.randrange(4))]
        lines += [b""] * rng.randrange(3)
    data = b"".join(line + b"\n" for line in lines)
    return damaged(rng, data) if chance(rng, 50) else data


# Cases


def iso(rng):
    offset = rng.choice((None, 0, 60, -60, rng.randrange(-1439, 1440)))
    text = pb_model.iso(min(moment(rng), END - 1), rng.randrange(10), offset)
    if chance(rng, 40):
        at = rng.randrange(len(text))
        text = text[:at] + rng.choice("0123456789TZ:-+. ") + text[at + rng.randrange(2) :]
    return text


def part_name(rng):
    unit = granularity(rng)
    formed = {"HOUR": "%Y_%m_%d_%H", "DAY": "%Y_%m_%d", "MONTH": "%Y_%m", "YEAR": "%Y"}
    begin = store_model.civil(min(moment(rng), END - 1))
    text = begin.replace(minute=begin.minute // 5 * 5).strftime(formed.get(unit, "%Y_%m_%d_%H_%M"))
    if chance(rng, 30):
        at = rng.randrange(len(text))
        text = text[:at] + rng.choice("0123456789_") + text[at + rng.randrange(2) :]
    return f"{unit} {text}"


def numbers(rng, count=5):
    return ",".join(str(rng.randrange(20)) for _ in range(rng.randrange(count))) or "-"


def rising(rng):
    return ",".join(str(t) for t in sorted(rng.sample(range(20), rng.randrange(6)))) or "-"


def placed(rng, data):
    """The place of the data's end, and the data."""
    return f"{len(data) + rng.choice((0, rng.randrange(100)))} {hexed(data)}"


def field_words(rng):
    kind = rng.choice(("varint", "fixed64", "fixed32", "bytes"))
    numeral = number(rng, 32 if kind == "fixed32" else 64)
    return f"{1 + rng.randrange(2 ** rng.randrange(29))} {kind} {numeral} {hexed(blob(rng))}"


def admit(rng):
    state = rng.choice(("unknown", "paused", "running", "running", "running"))
    t, now = rng.randrange(START, END), rng.randrange(START, END)
    t = rng.choice((t, now, now + 1_800 * SECOND + rng.choice((-1, 0, 1))))
    later = rng.choice((rng.randrange(1, END), t - 1, t, t + 1))
    own = rng.randrange(14)
    return f"{state} {own} {later} {rng.randrange(14) if chance(rng, 10) else own} {t} {now}"


def scan(rng):
    events, now = [], rng.randrange(START, END)
    for _ in range(rng.randrange(8)):
        now += rng.randrange(20)
        kind = rng.choice(("offer", "tick", "tick", "idle", "clear"))
        events.append("clear" if kind == "clear" else f"{kind} {now}")
    return " ".join([str(rng.randrange(1, 20)), *events])


def type_and(rng, made):
    number = rng.randrange(14)
    return f"{TYPE_NAMES[number]} {hexed(made(rng, number))}"


def sample(rng):
    number = rng.randrange(14)
    line = escape(message(rng, number))
    line = damaged(rng, line).replace(b"\n", b"") if chance(rng, 20) else line
    year = rng.choice((1990, 2500)) if chance(rng, 10) else rng.choice((1991, 2023, 2024, 2499))
    return f"{TYPE_NAMES[number]} {year} {hexed(line)}"


KINDS = {
    "instant": lambda rng: f"{rng.randrange(1985, 2505)} {rng.randrange(31_700_000)} {rng.choice((0, SECOND - 1, SECOND))}",
    "split": moment,
    "iso": iso,
    "print_iso": lambda rng: min(moment(rng), END - 1),
    "partition": lambda rng: f"{granularity(rng)} {moment(rng)}",
    "parse_partition": part_name,
    "holds": lambda rng: f"{granularity(rng)} {granularity(rng)}",
    "settings": lambda rng: " ".join(
        [*(granularity(rng) for _ in range(3)), *(str(rng.randrange(4)) for _ in range(4))]
    ),
    "choose": lambda rng: f"{rng.randrange(5)} {rng.randrange(1, 5)} {rng.randrange(20)} {rising(rng)}",
    "name": lambda rng: hexed(name(rng)),
    "same_key": lambda rng: f"{hexed(good_name(rng))} {hexed(good_name(rng))}",
    "path": lambda rng: f"{hexed(good_name(rng))} {granularity(rng)} {rng.randrange(START, END)}",
    "escape": lambda rng: hexed(blob(rng, 40)),
    "unescape": lambda rng: hexed(damaged(rng, escape(blob(rng))).replace(b"\n", b"")),
    "varint": lambda rng: number(rng, 64),
    "fields": lambda rng: placed(rng, with_fields(rng, field(rng) + field(rng))),
    "varints": lambda rng: placed(rng, damaged(rng, varint(number(rng, 64)) + varint(number(rng, 64)))),
    "field": field_words,
    "zigzag": int32,
    "event": lambda rng: type_and(rng, message),
    "header": lambda rng: type_and(rng, header_message).split()[1],
    "sample": sample,
    "stream": lambda rng: f"{rising(rng)} {hexed(stream(rng))}",
    "lines": lambda rng: f"{rng.randrange(1, 9)} {rising(rng)} {hexed(blob(rng, 30))}",
    "over": lambda rng: f"{rising(rng)} a {rising(rng)} b",
    "taken": lambda rng: f"{numbers(rng)} a {numbers(rng)} b",
    "answer": lambda rng: f"{rng.randrange(20)} {rng.randrange(20)} {rising(rng)} a",
    "admit": admit,
    "scan": scan,
    "drill_sum": lambda rng: f"{rng.randrange(1, 9)} {rng.randrange(4)}",
    "drill_report": lambda rng: rng.randrange(203),
}
# Messages and streams have most to go wrong.
MOSTLY = ["fields", "event", "event", "event", "header", "header", "sample", "stream", "stream", "stream", "name"]


def case(rng):
    kind = rng.choice((rng.choice(sorted(KINDS)), rng.choice(MOSTLY)))
    return f"{kind} {KINDS[kind](rng)}".rstrip() if kind == "scan" else f"{kind} {KINDS[kind](rng)}"
