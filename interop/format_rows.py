"""Worked rows of the formats: cases of `crates/format_cases`, each with the line that is wanted.

Values, refusals and places are worked out by hand from docs/FORMATS.md; the messages of the folder
`vectors` were serialized by Google's Protocol Buffers, which tells what they hold. Nothing here is taken
from the program. `format_model.py` gives the same lines, and `format_cases` compares the two.
"""

import json
from pathlib import Path

import drill_model
import format_lines
from format_lines import TYPE_NAMES, hexed
from pb_model import Event, Header
from pb_model import fields as fields_of

VECTORS = Path(__file__).resolve().parent / "vectors"
NANOS = 1_000_000_000
START = 662_688_000 * NANOS
END = 16_725_225_600 * NANOS


# Moments

MOMENTS = [
    (1991, 0, 0, START),
    (1991, 31_535_999, 999_999_999, 694_223_999 * NANOS + 999_999_999),
    (1992, 5_097_600, 1, 699_321_600 * NANOS + 1),  # 29 February
    (1992, 31_622_399, 0, 725_846_399 * NANOS),
    (2000, 5_097_600, 0, 951_782_400 * NANOS),  # 29 February
    (2100, 5_097_600, 0, 4_107_542_400 * NANOS),  # 1 March
    (2400, 5_097_600, 0, 13_574_563_200 * NANOS),  # 29 February
    (2499, 31_535_999, 999_999_999, END - 1),
]
OUTSIDE = [
    (1990, 0, 0),
    (2500, 0, 0),
    (1991, 31_536_000, 0),
    (2100, 31_536_000, 0),
    (1992, 31_622_400, 0),
    (1992, 0, 1_000_000_000),
]
ISO_TEXTS = [
    ("2012-09-27T08:00:00.000Z", 1_348_732_800 * NANOS),
    ("2012-09-27T01:00:00-07:00", 1_348_732_800 * NANOS),
    ("2012-09-27T13:30:00.5+05:30", 1_348_732_800 * NANOS + 500_000_000),
    ("2012-09-27T08:00:00.000000001-00:00", 1_348_732_800 * NANOS + 1),
    ("2000-02-29T00:00:00Z", 951_782_400 * NANOS),
    ("2400-02-29T00:00:00Z", 13_574_563_200 * NANOS),
    ("1969-12-31T23:30:00-01:00", 1_800 * NANOS),
    ("2500-01-01T00:30:00+01:00", 16_725_223_800 * NANOS),
]
NO_ISO_TEXTS = [
    "",
    "2012-09-27T08:00:00",
    "2012-09-27t08:00:00Z",
    "2012-09-27T08:00:00z",
    "2012-09-27T08:00:00.Z",
    "2012-09-27T08:00:00.0123456789Z",
    "2012-09-27T08:00:60Z",
    "2012-09-27T24:00:00Z",
    "2012-09-27T08:00:00+24:00",
    "2012-09-27T08:00:00+0100",
    "2012-09-27T08:00:00Z ",
    "2012-09-31T08:00:00Z",
    "2100-02-29T00:00:00Z",
    "1969-12-31T23:59:59Z",
    "1970-01-01T00:00:59+00:01",
    "2500-01-01T00:00:00Z",
]
PRINTED = [
    (0, "1970-01-01T00:00:00.000000000Z"),
    (1_348_732_800 * NANOS + 45, "2012-09-27T08:00:00.000000045Z"),
    (951_868_799 * NANOS + 999_999_999, "2000-02-29T23:59:59.999999999Z"),
]


def moments():
    for year, secs, nano, t in MOMENTS:
        yield f"instant {year} {secs} {nano}", f"Ok({t})"
        yield f"split {t}", f"Some(YearTime {{ year: {year}, secs: {secs}, nano: {nano} }})"
    yield "split 0", "Some(YearTime { year: 1970, secs: 0, nano: 0 })"
    yield f"split {END}", "None"
    for year, secs, nano in OUTSIDE:
        yield f"instant {year} {secs} {nano}", "Err(BadTime)"
    for text, t in ISO_TEXTS:
        yield f"iso {text}", f"Ok({t})"
    for text in NO_ISO_TEXTS:
        yield f"iso {text}", "Err(BadIso)"
    for t, text in PRINTED:
        yield f"print_iso {t}", f"from {text}"


# Partitions and the settings of moves

# 2012-01-01T09:44:59.999999999Z
WITHIN = 1_325_411_099 * NANOS + 999_999_999
PARTS = [
    ("5MIN", "2012_01_01_09_40", 1_325_410_800, 1_325_411_100),
    ("15MIN", "2012_01_01_09_30", 1_325_410_200, 1_325_411_100),
    ("30MIN", "2012_01_01_09_30", 1_325_410_200, 1_325_412_000),
    ("HOUR", "2012_01_01_09", 1_325_408_400, 1_325_412_000),
    ("DAY", "2012_01_01", 1_325_376_000, 1_325_462_400),
    ("MONTH", "2012_01", 1_325_376_000, 1_328_054_400),
    ("YEAR", "2012", 1_325_376_000, 1_356_998_400),
]
# Start and end in seconds.
PART_EDGES = [
    ("15MIN", 1_325_411_100 * NANOS, "2012_01_01_09_45", 1_325_411_100, 1_325_412_000),
    ("MONTH", 951_868_799 * NANOS, "2000_02", 949_363_200, 951_868_800),  # 29 February
    ("MONTH", 4_107_542_399 * NANOS, "2100_02", 4_105_123_200, 4_107_542_400),  # 28 February
    ("MONTH", 4_107_542_400 * NANOS, "2100_03", 4_107_542_400, 4_110_220_800),
    ("YEAR", START, "1991", 662_688_000, 694_224_000),
    ("5MIN", START, "1991_01_01_00_00", 662_688_000, 662_688_300),
    ("YEAR", END - 1, "2499", 16_693_689_600, 16_725_225_600),
    ("5MIN", END - 1, "2499_12_31_23_55", 16_725_225_300, 16_725_225_600),
]
NO_PARTS = [
    ("30MIN", "2012_01_01_09_45"),
    ("5MIN", "2012_01_01_09_01"),
    ("5MIN", "2012_01_01_09_60"),
    ("HOUR", "2012_01_01_24"),
    ("DAY", "2100_02_29"),
    ("DAY", "2012_01"),
    ("MONTH", "2012-01"),
    ("MONTH", "2012_13"),
    ("MONTH", "2012_1"),
    ("YEAR", "1990"),
    ("YEAR", "2500"),
    ("YEAR", "2012_01"),
    ("YEAR", ""),
]
GRANULARITIES = [
    ("5MIN", "FiveMinutes"),
    ("15MIN", "FifteenMinutes"),
    ("30MIN", "ThirtyMinutes"),
    ("HOUR", "Hour"),
    ("DAY", "Day"),
    ("MONTH", "Month"),
    ("YEAR", "Year"),
]
SETTINGS = [
    ("5MIN HOUR DAY", "0 0 1 1", "FiveMinutes Hour Day 0 0 1 1"),
    ("HOUR HOUR HOUR", "5 2 3 1", "Hour Hour Hour 5 2 3 1"),
    ("HOUR DAY YEAR", "5 2 3 1", "Hour Day Year 5 2 3 1"),
    ("DAY HOUR MONTH", "5 2 3 1", "None"),
    ("HOUR MONTH DAY", "5 2 3 1", "None"),
    ("HOUR DAY MONTH", "5 2 0 1", "None"),
    ("HOUR DAY MONTH", "5 2 3 0", "None"),
]
# Hold, gather, the time, and how many of eight partitions move.
CHOICES = [
    (5, 3, 40, 0),
    (5, 3, 50, 3),
    (5, 3, 79, 3),
    (0, 3, 70, 7),
    (2, 3, 20, 2),
    (1, 1, 9, 0),
    (0, 1, 9, 0),
    (8, 9, 80, 8),
]


def partitions():
    for unit, name, start, end in PARTS:
        line = f"{name} {start * NANOS} {end * NANOS}"
        yield f"partition {unit} {WITHIN}", line
        yield f"parse_partition {unit} {name}", line
    for unit, t, name, start, end in PART_EDGES:
        yield f"partition {unit} {t}", f"{name} {start * NANOS} {end * NANOS}"
    yield f"partition YEAR {START - 1}", "None"
    yield f"partition YEAR {END}", "None"
    for unit, name in NO_PARTS:
        yield f"parse_partition {unit} {name}", "None"
    for number, (name, unit) in enumerate(GRANULARITIES):
        yield f"granularity {number}", f"{number} {name}"
        yield f"granularity_named {name}", f"Some({unit})"
    yield "granularity 7", "None"
    yield "granularity_named hour", "None"
    yield "holds YEAR DAY", "true"
    yield "holds DAY DAY", "true"
    yield "holds DAY MONTH", "false"
    for stores, numbers, line in SETTINGS:
        yield f"settings {stores} {numbers}", line
    yield "shipped", "Hour Day Year 5 2 3 1"
    for hold, gather, now, count in CHOICES:
        yield f"choose {hold} {gather} {now} 10,20,30,40,50,60,70,80", str(count)


# Names

MARKS = b"ABCDEFGHIJKLMNOPQRSTUVWXYZabcdefghijklmnopqrstuvwxyz0123456789_-+:[]<>;./,#{}^"
LONGEST = MARKS + b"abcdefghijklmnopqrstuvwxyzABCDEFGHIJKLMNOPQRSTUVWX"
LONGEST_KEY = LONGEST.replace(b"_-+:[", b"_/+/[")
NAMES = [
    (b"A:B", b"A/B"),
    (b"ISrc:Temp-3/x", b"ISrc/Temp/3/x"),
    (b"A:.x:...:..y.", b"A/.x/.../..y."),
    (LONGEST, LONGEST_KEY),
]
# The place of the first fault.
NO_NAMES = [
    (b"", 0),
    (b":", 0),
    (b"A::B", 2),
    (b"A:", 2),
    (b"A-/B", 2),
    (b"/A", 0),
    (b".", 0),
    (b"A:..", 2),
    (b"A:.:B", 2),
    (b"../A", 0),
    (b"A B", 1),
    (b"A:B\n:", 3),
    (b"A:..:B C", 2),
    (b"A B:..", 1),
    (b"A\x80", 1),
    (b"A\\B", 1),
    (b"0123456789" * 12 + b"0123456 :", 128),  # 129 bytes with a blank at 127
]
SAME_KEYS = [(b"A-B/C", "true"), (b"A:B", "false"), (b"A:B_C", "false"), (b"A:B-c", "false")]


def names():
    for name, key in NAMES:
        yield f"name {hexed(name)}", f"{name.decode()} ={key.decode()}"
    for name, at in NO_NAMES:
        yield f"name {hexed(name)}", f"BadName {{ at: {at} }}"
    for name, line in SAME_KEYS:
        yield f"same_key {hexed(b'A:B-C')} {hexed(name)}", line
    hour = 1_325_408_400 * NANOS
    path = "sts/XCOR/LI24/900/BCON:2012_01_01_09.pb"
    yield f"path {hexed(b'XCOR:LI24:900-BCON')} HOUR {hour}", path


# Lines

ESCAPED = [
    (b"", b""),
    (b"A:B", b"A:B"),
    (b"\x12\x0aAB", b"\x12\x1b\x02AB"),
    (b"\x12\x0dAB", b"\x12\x1b\x03AB"),
    (b"\x12\x1bAB", b"\x12\x1b\x01AB"),
    (b"\x1b\x0d\x0a\x02", b"\x1b\x01\x1b\x03\x1b\x02\x02"),
]
BAD_ESCAPES = [
    (b"\x1b", 0),
    (b"\x08\x01\x1b\x04", 2),
    (b"A\x1b\x01\x1b\x1b\x02", 3),
    (b"\x1b\x01\x04\x1b", 3),
    (b"\x1b\x00\x1b\x05", 0),
]


def escapes():
    """What is put behind other bytes is told with these, `ff`."""
    for message, line in ESCAPED:
        yield f"escape {hexed(message)}", f"ff{line.hex()} {len(line)}"
        yield f"unescape {hexed(line)}", f"ff{message.hex()} Ok(()) Ok({list(message)})"
    for line, at in BAD_ESCAPES:
        fault = f"Err(BadEscape {{ at: {at} }})"
        yield f"unescape {hexed(line)}", f"ff {fault} {fault}"
    yield "unescape 0d0d", "ff0d0d Ok(()) Ok([13, 13])"
    yield "unescape 411b021b03", "ff410a0d Ok(()) Ok([65, 10, 13])"


# Fields

VARINTS = [
    (0, b"\x00"),
    (127, b"\x7f"),
    (128, b"\x80\x01"),
    (2024, b"\xe8\x0f"),
    (0xFFFF_FFFF, b"\xff\xff\xff\xff\x0f"),
    (0x1_0000_0000, b"\x80\x80\x80\x80\x10"),
    (0x8000_0000_0000_0000, b"\x80\x80\x80\x80\x80\x80\x80\x80\x80\x01"),
    (0xFFFF_FFFF_FFFF_FFFF, b"\xff\xff\xff\xff\xff\xff\xff\xff\xff\x01"),
]
# Longer spellings, and a field that no message has.
READ_FIELDS = [
    (b"\x98\x06\x05", "99 Varint(5), ."),
    (b"\x08\x81\x00", "1 Varint(1), ."),
    (b"\x88\x80\x80\x80\x80\x80\x80\x80\x80\x00\x07", "1 Varint(7), ."),
    (b"\x08\xff\xff\xff\xff\xff\xff\xff\xff\xff\x7f", "1 Varint(18446744073709551615), ."),
]
BEFORE = b"\x08\x01\x12\x03A:B\x1d\x0a\x00\x00\x00"
BEFORE_READ = "1 Varint(1), 2 Bytes([65, 58, 66]), 3 Fixed32(10), "
FIELD_FAULTS = [
    (b"\x80", "Short { at: 12 } true"),
    (b"\xff\xff\xff\xff\xff\xff\xff\xff\xff\xff\x01", "BadVarint { at: 12 } true"),
    (b"\x00\x01", "BadTag { at: 12 } true"),
    (b"\x0e\x01", "BadTag { at: 12 } true"),
    (b"\x88\x80\x80\x80\x10\x01", "BadTag { at: 12 } true"),
    (b"\x03", "BadTag { at: 12 } true"),
    (b"\x0b", "Group { at: 12 } true"),
    (b"\x0c\x80", "Group { at: 12 } true"),
    (b"\x08\x80", "Short { at: 13 } true"),
    (b"\x09\x01\x02\x03\x04\x05\x06\x07", "Short { at: 13 } true"),
    (b"\x0a\x82\x00A", "Short { at: 15 } true"),
    (b"\x0d\x01\x02\x03", "Short { at: 13 } true"),
]
# Messages that end at a place of an outer one.
OUTER_PLACES = [
    (9, b"\x08\x01\x3a\x05\x0a\x01A\x12\x02", "1 Varint(1), 7 Bytes([10, 1, 65, 18, 2]), ."),
    (9, b"\x0a\x01A\x12\x02", "1 Bytes([65]), Short { at: 9 } true"),
]
WRITTEN_FIELDS = [
    ("3 varint 150 -", b"\x18\x96\x01", "3 Varint(150), ."),
    (f"3 fixed64 {0x4024_0000_0000_0000} -", b"\x19\x00\x00\x00\x00\x00\x00\x24\x40", "3 Fixed64(4621819117588971520), ."),
    ("3 bytes 0 413a42", b"\x1a\x03A:B", "3 Bytes([65, 58, 66]), ."),
    ("3 fixed32 10 -", b"\x1d\x0a\x00\x00\x00", "3 Fixed32(10), ."),
    ("15 bytes 0 -", b"\x7a\x00", "15 Bytes([]), ."),
]
ZIGZAGS = [(0, 0), (-1, 1), (1, 2), (-2, 3), (-(2**31), 2**32 - 1)]


def fields():
    for number, spelling in VARINTS:
        yield f"varint {number}", spelling.hex()
        yield f"fields {1 + len(spelling)} 08{spelling.hex()}", f"1 Varint({number}), ."
    for message, line in READ_FIELDS:
        yield f"fields {len(message)} {hexed(message)}", line
    for rest, line in FIELD_FAULTS:
        message = BEFORE + rest
        yield f"fields {len(message)} {hexed(message)}", BEFORE_READ + line
    for end, message, line in OUTER_PLACES:
        yield f"fields {end} {hexed(message)}", line
    yield "varints 15 02960180", "2 150 Short { at: 14 }"
    for words, message, line in WRITTEN_FIELDS:
        yield f"field {words}", message.hex()
        yield f"fields {len(message)} {hexed(message)}", line
    for signed, number in ZIGZAGS:
        yield f"zigzag {signed}", f"{number} {signed}"
    yield "type_number 5", "SCALAR_INT 5"
    yield "type_number 11", "WAVEFORM_BYTE 11"
    yield "type_number 3", "SCALAR_ENUM 3"
    yield "type_number 14", "None"
    yield "type_name WAVEFORM_DOUBLE", "Some(WaveformDouble)"
    yield "type_name scalar_int", "None"


# Messages


def vectors(name):
    """The lines of a file that Google's library wrote, whose last word says what the message holds."""
    for line in (VECTORS / name).read_text().splitlines():
        if not line.startswith("#"):
            *words, members = line.split("\t")
            yield words, json.loads(members)


def told_value(type_name, val):
    """A value as the file tells it: texts and bytes in hexadecimal, floats as their bits."""
    if isinstance(val, list):
        return [told_value(type_name, one) for one in val]
    if type_name.endswith(("STRING", "BYTE")):
        return bytes.fromhex(val)
    return int(val, 16) if type_name.endswith(("FLOAT", "DOUBLE")) else val


def told_pairs(listed):
    return [(bytes.fromhex(name), bytes.fromhex(val)) for name, val in listed]


def vector_events():
    for (type_name, message), told in vectors("events.tsv"):
        told["val"] = told_value(type_name, told["val"])
        told["fieldvalues"] = told_pairs(told["fieldvalues"])
        message = bytes.fromhex(message)
        yield event_row(type_name, message, Event(**told), without_zeros(message).hex())


def without_zeros(message):
    """The message as the archiver writes it: severity and status are left out where they are 0."""
    zeros = [place for number, _, value, place in fields_of(message) if number in (4, 5) and value == 0]
    for place in reversed(zeros):
        message = message[: place - 1] + message[place + 1 :]
    return message


def vector_headers():
    for (message,), told in vectors("headers.tsv"):
        number = TYPE_NAMES.index(told["type"])
        name, listed = bytes.fromhex(told["pvname"]), told_pairs(told["headers"])
        yield header_row(bytes.fromhex(message), Header(number, name, told["year"], told["elementCount"], listed), message)


def event_row(type_name, message, event, written):
    shown = format_lines.event(TYPE_NAMES.index(type_name), event)
    return f"event {type_name} {message.hex()}", f"Ok(({event.secs}, {event.nano})) {shown} {written}"


def header_row(message, header, written):
    line = written_line(bytes.fromhex(written)).hex()
    return f"header {message.hex()}", f"{format_lines.header(header)} {written} {line}"


def written_line(message):
    pairs = {0x1B: b"\x1b\x01", 0x0A: b"\x1b\x02", 0x0D: b"\x1b\x03"}
    return b"".join(pairs.get(byte, bytes([byte])) for byte in message) + b"\n"


def event_of(secs, nano, val, severity=0):
    return Event(secs, nano, val, severity, 0, None, [], None)


# Each has the elements 1, -1 and 2.
SPELLED_SHORTS = [
    b"\x08\x01\x10\x00\x1a\x03\x02\x01\x04",
    b"\x08\x01\x10\x00\x18\x02\x18\x01\x18\x04",
    b"\x08\x01\x10\x00\x1a\x02\x02\x01\x18\x04",
]
# Field 99 is unknown, the value is 7, severity is -1 in ten bytes, and the second is spelled longer.
ANY_ORDER = (
    b"\x98\x06\x05\x1d\x07\x00\x00\x00\x20\xff\xff\xff\xff\xff\xff\xff\xff\xff\x01\x10\x00\x08\x81\x00"
)
OTHER_WIRE_TYPES = [
    ("SCALAR_INT", b"\x0d\x01\x00\x00\x00", 1),
    ("SCALAR_INT", b"\x15\x00\x00\x00\x00", 2),
    ("SCALAR_INT", b"\x18\x01", 3),
    ("SCALAR_INT", b"\x1a\x04\x01\x00\x00\x00", 3),
    ("WAVEFORM_STRING", b"\x18\x01", 3),
    ("WAVEFORM_INT", b"\x19\x00\x00\x00\x00\x00\x00\x00\x00", 3),
    ("WAVEFORM_BYTE", b"\x18\x01", 3),
    ("SCALAR_INT", b"\x22\x00", 4),
    ("SCALAR_INT", b"\x2d\x00\x00\x00\x00", 5),
    ("SCALAR_INT", b"\x31\x00\x00\x00\x00\x00\x00\x00\x00", 6),
    ("SCALAR_INT", b"\x38\x01", 7),
    ("SCALAR_INT", b"\x3a\x02\x08\x01", 7),
    ("SCALAR_INT", b"\x42\x00", 8),
    ("SCALAR_INT", b"\x18\x01\x0b", 3),
]
MISSING_FIELDS = [
    ("SCALAR_INT", b"", 1),
    ("SCALAR_INT", b"\x10\x00\x1d\x0a\x00\x00\x00", 1),
    ("SCALAR_INT", b"\x08\x01\x1d\x0a\x00\x00\x00", 2),
    ("SCALAR_INT", b"\x08\x01\x10\x00", 3),
    ("WAVEFORM_BYTE", b"\x08\x01\x10\x00", 3),
    ("SCALAR_INT", b"\x08\x01\x10\x00\x3a\x02\x0a\x00", 3),
    ("SCALAR_INT", b"\x08\x01\x10\x00\x1d\x0a\x00\x00\x00\x3a\x02\x0a\x00", 7),
    ("WAVEFORM_INT", b"\x08\x01\x10\x00\x3a\x02\x12\x00", 7),
]
EVENT_PLACES = [
    ("SCALAR_INT", b"\x08\x01\x10", "Short", 3),
    ("SCALAR_INT", b"\x08\x01\x10\x00\x1d\x0a\x00\x00\x00\x3a\x03\x0a\x05\x41", "Short", 13),
    ("SCALAR_INT", b"\x08\x01\x10\x00\x1d\x0a\x00\x00\x00\x3a\x04\x0a\x00\x4b\x00", "Group", 13),
    ("SCALAR_INT", b"\x08\x01\x10\x00\x1d\x0a\x00\x00\x00\x3a\x02\x00\x01\x08\x01", "BadTag", 11),
    ("WAVEFORM_SHORT", b"\x08\x01\x10\x00\x1a\x02\x02\x80", "Short", 7),
    ("WAVEFORM_ENUM", b"\x08\x01\x10\x00\x1a\x0b\xff\xff\xff\xff\xff\xff\xff\xff\xff\xff\x01", "BadVarint", 6),
    ("WAVEFORM_INT", b"\x08\x01\x10\x00\x1a\x05\x01\x00\x00\x00\x02", "Short", 6),
    ("WAVEFORM_DOUBLE", b"\x08\x01\x10\x00\x1a\x04\x01\x00\x00\x00", "Short", 6),
    ("WAVEFORM_FLOAT", b"\x08\x01\x10\x00\x1a\x04\x01\x00\x00\x00\x1a\x02\x01", "Short", 12),
]


def events():
    yield from vector_events()
    for message in SPELLED_SHORTS:
        yield event_row("WAVEFORM_SHORT", message, event_of(1, 0, [1, -1, 2]), SPELLED_SHORTS[0].hex())
    written = "080110001d0700000020ffffffffffffffffff01"
    yield event_row("SCALAR_INT", ANY_ORDER, event_of(1, 0, 7, -1), written)
    twice = b"\x08\x01\x10\x00\x1d\x0a\x00\x00\x00\x08\x02\x10\x03"
    yield event_row("SCALAR_INT", twice, event_of(2, 3, 10), "080210031d0a000000")
    for type_name, message, number in OTHER_WIRE_TYPES:
        yield event_refused(type_name, message, f"WrongWire {{ field: {number} }}")
    for type_name, message, number in MISSING_FIELDS:
        yield event_refused(type_name, message, f"Missing {{ field: {number} }}")
    for type_name, message, name, at in EVENT_PLACES:
        yield event_refused(type_name, message, f"Wire({name} {{ at: {at} }})")


def event_refused(type_name, message, fault):
    """The moment is refused as the event is."""
    return f"event {type_name} {hexed(message)}", f"Err({fault}) Fault({fault})"


# A header of A:B, integers of 2024, and its parts.
INTS = b"\x08\x05\x12\x03A:B\x18\xe8\x0f"
REFUSED_HEADERS = [
    (b"", "Missing { field: 1 }"),
    (b"\x12\x03A:B\x18\xe8\x0f", "Missing { field: 1 }"),
    (b"\x08\x05\x18\xe8\x0f", "Missing { field: 2 }"),
    (b"\x08\x05\x12\x03A:B", "Missing { field: 3 }"),
    (INTS + b"\x7a\x02\x0a\x00", "Missing { field: 15 }"),
    (INTS + b"\x7a\x02\x12\x00", "Missing { field: 15 }"),
    (b"\x0d\x05\x00\x00\x00", "WrongWire { field: 1 }"),
    (b"\x10\x01", "WrongWire { field: 2 }"),
    (b"\x1a\x00", "WrongWire { field: 3 }"),
    (INTS + b"\x21\x00\x00\x00\x00\x00\x00\x00\x00", "WrongWire { field: 4 }"),
    (INTS + b"\x78\x01", "WrongWire { field: 15 }"),
    (INTS + b"\x7a\x02\x08\x01", "WrongWire { field: 15 }"),
    (INTS + b"\x7a\x03\x0a\x05\x41", "Wire(Short { at: 14 })"),
    (INTS + b"\x7a\x04\x0a\x00\x4b\x00", "Wire(Group { at: 14 })"),
    (b"\x08\x0e\x12\x03A:B\x18\xe8\x0f", "UnknownType { number: 14 }"),
    (b"\x08\x0e\x12\x03A:B\x18\xc6\x0f", "UnknownType { number: 14 }"),
    (INTS + b"\x08\x0e", "UnknownType { number: 14 }"),
    (b"\x08\x05\x12\x03A:B\x18\xc6\x0f", "YearRange { year: 1990 }"),
    (b"\x08\x05\x12\x03A:B\x18\xc4\x13", "YearRange { year: 2500 }"),
    (b"\x08\x0e\x10\x01", "WrongWire { field: 2 }"),
]
# Headers and their lines.
HEADER_LINES = [
    (Header(5, b"A:B", 2024, None, []), INTS, INTS + b"\n"),
    (
        Header(4, b"ABCDEFGHIJ", 2000, None, []),
        b"\x08\x04\x12\x0aABCDEFGHIJ\x18\xd0\x0f",
        b"\x08\x04\x12\x1b\x02ABCDEFGHIJ\x18\xd0\x0f\n",
    ),
    (
        Header(6, b"ABCDEFGHIJ", 2024, None, [(b"", b""), (b"EGU", b"\x1b\x00\x80\x1b\x7f")]),
        b"\x08\x06\x12\x0aABCDEFGHIJ\x18\xe8\x0f\x7a\x04\x0a\x00\x12\x00\x7a\x0c\x0a\x03EGU\x12\x05\x1b\x00\x80\x1b\x7f",
        b"\x08\x06\x12\x1b\x02ABCDEFGHIJ\x18\xe8\x0f\x7a\x04\x1b\x02\x00\x12\x00\x7a\x0c\x1b\x02\x03EGU\x12\x05\x1b\x01\x00\x80\x1b\x01\x7f\n",
    ),
]


def headers():
    yield from vector_headers()
    # The last type holds, whose bits past the 32nd are dropped, and field 99 is unknown.
    last = b"\x08\x0e\x12\x01\x41\x98\x06\x05\x18\xe8\x0f\x12\x01\x42\x08\x85\x80\x80\x80\x10"
    yield header_row(last, Header(5, b"B", 2024, None, []), "080512014218e80f")
    for header, message, line in HEADER_LINES:
        yield f"header {message.hex()}", f"{format_lines.header(header)} {message.hex()} {line.hex()}"
    for message, fault in REFUSED_HEADERS:
        yield f"header {hexed(message)}", f"Fault({fault})"


# Streams

YEAR_2000 = 946_684_800 * NANOS
YEAR_2024 = 1_704_067_200 * NANOS
INTS_LINE = INTS + b"\n"
# The seconds 1 and 2, the second with 123,456,789 nanoseconds, a severity and a mark.
INT = b"\x08\x01\x10\x00\x1d\x01\x00\x00\x00\n"
LATER_INT = b"\x08\x02\x10\x95\x9a\xef\x3a\x1d\x00\x00\x00\x80\x20\x00\x40\x01\n"
# ABCDEFGHIJ, bytes of 2000: its length is 0A.
BYTES_LINE = b"\x08\x04\x12\x1b\x02ABCDEFGHIJ\x18\xd0\x0f\n"
# Second 128: the bytes 1B 41 00, escaped. And second 1: the byte 0D, as it is.
BYTE = b"\x08\x80\x01\x10\xff\x93\xeb\xdc\x03\x1a\x03\x1b\x01\x41\x00\n"
RETURN = b"\x08\x01\x10\x00\x1a\x01\r\n"


def header_item(number, year, line):
    return f"held {number} Header Some({year}) {line[:-1].hex()}"


def sample_item(number, year, t, line):
    return f"held {number} Sample {{ t: {t} }} Some({year}) {line[:-1].hex()}"


def ints_header(number):
    return header_item(number, 2024, INTS_LINE)


def bytes_header(number):
    return header_item(number, 2000, BYTES_LINE)


def first_int(number):
    return sample_item(number, 2024, YEAR_2024 + NANOS, INT)


def second_int(number):
    return sample_item(number, 2024, YEAR_2024 + 2 * NANOS + 123_456_789, LATER_INT)


def first_byte(number):
    return sample_item(number, 2000, YEAR_2000 + 129 * NANOS - 1, BYTE)


def returned(number):
    return sample_item(number, 2000, YEAR_2000 + NANOS, RETURN)


def chunk_end(number):
    return f"held {number} ChunkEnd None"


def end(number):
    return f"read {number} End None"


def read(item):
    """The item for which the source was read: no whole line was held."""
    return item.replace("held", "read", 1)


def skipped(number):
    return f"held {number} skipped"


def refused(number, fault, code, year=None):
    return f"held {number} Refused({fault}) {format_lines.some(year)} E{code}"


# The parts of a stream and what comes of it. The last item comes again.
STREAMS = [
    ([INTS_LINE], [read(ints_header(1)), read(chunk_end(1)), end(1)]),
    (
        [INTS_LINE, INT, LATER_INT],
        [read(ints_header(1)), first_int(2), second_int(3), read(chunk_end(3)), end(3)],
    ),
    ([b"\n\n", INTS_LINE, INT, b"\n"], [read(ints_header(3)), first_int(4), chunk_end(5), end(5)]),
    (
        [INTS_LINE, INT, b"\n", BYTES_LINE, BYTE],
        [read(ints_header(1)), first_int(2), chunk_end(3), bytes_header(4), first_byte(5), read(chunk_end(5)), end(5)],
    ),
    (
        [INTS_LINE, b"\n\n\n", INTS_LINE, INT, b"\n\n"],
        [
            read(ints_header(1)), chunk_end(2), skipped(3), skipped(4), ints_header(5), first_int(6), chunk_end(7),
            skipped(8), end(8),
        ],
    ),
    ([BYTES_LINE, RETURN], [read(bytes_header(1)), returned(2), read(chunk_end(2)), end(2)]),
    (
        [INTS_LINE, LATER_INT, INT, INT],
        [read(ints_header(1)), second_int(2), first_int(3), first_int(4), read(chunk_end(4)), end(4)],
    ),
]
OTHER_TYPE = "BadLine(Event(WrongWire { field: 2 }))"
REFUSED_STREAMS = [
    ([], [read(refused(1, "NoHeader", 13))]),
    ([b"\n\n"], [read(refused(3, "NoHeader", 13))]),
    ([b"\x08"], [read(refused(1, "Torn", 35))]),
    ([INTS_LINE, INT, b"\x1b"], [read(ints_header(1)), first_int(2), read(refused(3, "Torn", 35, 2024))]),
    ([INTS_LINE, b"\n\x08"], [read(ints_header(1)), chunk_end(2), read(refused(3, "Torn", 35))]),
    ([b"\n\x08\x05\x1b\x04\n"], [read(refused(2, "BadHeader(Escape { at: 2 })", 5))]),
    (
        [b"\x08\x0e\x12\x03A:B\x18\xe8\x0f\n"],
        [read(refused(1, "BadHeader(Info(UnknownType { number: 14 }))", 11))],
    ),
    (
        [b"\x08\x05\x12\x03A:B\x18\xc6\x0f\n"],
        [read(refused(1, "BadHeader(Info(YearRange { year: 1990 }))", 12))],
    ),
    ([INT], [read(refused(1, "BadHeader(Info(WrongWire { field: 2 }))", 10))]),
    ([b"\x08\x05\n"], [read(refused(1, "BadHeader(Info(Missing { field: 2 }))", 9))]),
    ([b"\x00\n"], [read(refused(1, "BadHeader(Info(Wire(BadTag { at: 0 })))", 2))]),
    (
        [INTS_LINE, b"\n\r\n"],
        [read(ints_header(1)), chunk_end(2), refused(3, "BadHeader(Info(Wire(Short { at: 1 })))", 4)],
    ),
    ([INTS_LINE, INTS_LINE], [read(ints_header(1)), refused(2, OTHER_TYPE, 10, 2024)]),
    ([INTS_LINE, BYTES_LINE], [read(ints_header(1)), refused(2, OTHER_TYPE, 10, 2024)]),
    ([INTS_LINE, b"\x00\x1b\x04\n"], [read(ints_header(1)), refused(2, "BadLine(Escape { at: 1 })", 5, 2024)]),
    (
        [INTS_LINE, INT, b"\x08\x01\x10\x00\n\x1b\n"],
        [read(ints_header(1)), first_int(2), refused(3, "BadLine(Event(Missing { field: 3 }))", 9, 2024)],
    ),
    (
        [INTS_LINE, b"\x08\x01\x10\x80\x94\xeb\xdc\x03\x1d\x01\x00\x00\x00\n\x08"],
        [read(ints_header(1)), refused(2, "BadLine(Time)", 6, 2024)],
    ),
    (
        [INTS_LINE, b"\xff\xff\xff\xff\xff\xff\xff\xff\xff\xff\x01\n"],
        [read(ints_header(1)), refused(2, "BadLine(Event(Wire(BadVarint { at: 0 })))", 1, 2024)],
    ),
    ([INTS_LINE, b"\x0b\n"], [read(ints_header(1)), refused(2, "BadLine(Event(Wire(Group { at: 0 })))", 3, 2024)]),
    (
        [INTS_LINE, INT, b"\n", BYTES_LINE, INT],
        [
            read(ints_header(1)), first_int(2), chunk_end(3), bytes_header(4),
            refused(5, "BadLine(Event(WrongWire { field: 3 }))", 10, 2000),
        ],
    ),
]
LAST_SECOND = b"\x08\xff\x89\x8a\x0f\x10\x95\x9a\xef\x3a\x1d\x00\x00\x00\x00\x30\x01\x40\x00"
SAMPLE_LINES = [
    (2024, INT[:-1], f"Ok({YEAR_2024 + NANOS})"),
    (2024, LAST_SECOND, f"Ok({YEAR_2024 + 31_622_399 * NANOS + 123_456_789})"),
    (2023, LAST_SECOND, "Err(Fault(Time))"),
    (1990, INT[:-1], "Err(Fault(Time))"),
    (2024, b"\x08\x01\x1b\x04", "Err(Fault(Escape { at: 2 }))"),
    (1990, b"\x08\x01\x10", "Err(Fault(Event(Wire(Short { at: 3 }))))"),
]


def again(item):
    """The last item again: a refusal is kept, and at the end the source is read again."""
    return item if "End" in item else item.replace("read", "held", 1)


def streams():
    for parts, items in STREAMS + REFUSED_STREAMS:
        yield f"stream - {hexed(b''.join(parts))}", "; ".join([*items, again(items[-1])])
    # The first and the third read fail.
    first = ["read 0 SourceFault None", read(ints_header(1)), first_int(2)]
    rest = ["read 2 SourceFault Some(2024)", read(chunk_end(2)), end(2), end(2)]
    yield f"stream 1,3 {(INTS_LINE + INT).hex()}", "; ".join(first + rest)
    for year, line, wanted in SAMPLE_LINES:
        yield f"sample SCALAR_INT {year} {line.hex()}", wanted
    yield "limits", "E15 E34"


# Lines of any source, sinks and clocks

LINES = [
    (b"", [], "End"),
    (b"\n", [b""], "End"),
    (b"one\ntwo\n", [b"one", b"two"], "End"),
    (b"one\n\n\r\n", [b"one", b"", b"\r"], "End"),
    (b"t", [], "Torn"),
    (b"one\nt", [b"one"], "Torn"),
]
# The moments of a clock, the last one again and again.
CLOCKS = [("-", 0, "0 0 0 0"), ("7", 7, "7 7 7 7"), ("9,8,9,6", 6, "9 8 9 6")]


def edges():
    for data, lines, last in LINES:
        reads = [f"Line {number} {hexed(line)}" for number, line in enumerate(lines, 1)]
        end = f"{last} {len(lines)} {hexed(lines[-1]) if lines else '-'}"
        for most in (1, 2, 7, 65_536):
            yield f"lines {most} - {hexed(data)}", "; ".join(reads + [end] * (6 - len(reads)))
    failing = ["SourceFault 0 -", "Line 1 61", "Line 2 62", "SourceFault 2 62", "End 2 62", "End 2 62"]
    yield "lines 65536 1,3 610a620a", "; ".join(failing)
    yield "long_line 16777216", "Line"
    yield "long_line 16777217", "TooLong"
    yield "sink 5 2 abc de def de", "Ok(()) Err(Failed) Err(Failed) Ok(()) abcde"
    yield "standard 6162", "Ok(2) Ok(0) [97, 98, 0, 0] Ok(()) Ok(())"
    yield "standard 616263", "Ok(3) Ok(0) [97, 98, 99, 0] Ok(()) Err(Failed)"
    yield "system_clock 1577836800000000000", "true true"
    # A clock whose splits take 3 and 4, then 5, and then none.
    for moments, last, own in CLOCKS:
        splits = f"3 4 4 4; 4 4 4 4; 5 5 5 5; {last} {last} {last} {last}"
        yield f"clock {moments}", f"{splits}; {own}"


# Lists of samples

T0 = YEAR_2024
OVER = [
    ([], [], []),
    ([], [1, 2], [1, 2]),
    ([1, 2], [], []),
    ([5], [5], []),
    ([5], [4, 5, 6], [6]),
    ([1, 2, 3], [2, 3, 4, 5], [4, 5]),
    ([9], [1, 2, 3], []),
]
ANSWERS = [
    ([1, 5, 9], 5, 8, [1, 5]),
    ([1, 5, 9], 0, 0, []),
    ([1, 5, 9], 20, 30, [9]),
    ([1, 5, 9], 5, 5, [1, 5]),
    ([1, 5, 9], 6, 8, [5]),
    ([1, 5, 9], 1, 9, [1, 5, 9]),
    ([1, 5, 9], 2, 9, [1, 5, 9]),
    ([1, 5, 9], 9, 1, [5]),
    ([1, 5, 9], 1, 0, []),
    ([7], 7, 7, [7]),
    ([7], 8, 9, [7]),
    ([7], 1, 6, []),
    ([], 0, 9, []),
]
NOW = T0 + 3_600 * NANOS
AHEAD = T0 + 9_000 * NANOS
ADMISSIONS = [
    ("unknown", 5, T0 + 1, 5, T0, "Some(Unknown)"),
    ("paused", 5, T0 + 1, 6, T0, "Some(Paused)"),
    ("running", 5, T0 + 1, 6, T0, "Some(WrongType)"),
    ("running", 5, T0 + 1, 5, T0, f"Some(NotLater {{ last: {T0} }})"),
    ("running", 5, AHEAD, 5, T0 + 8_000 * NANOS, f"Some(NotLater {{ last: {AHEAD - 1} }})"),
    ("running", 5, T0 + 1, 5, T0 + 1, "None"),
    ("running", 5, T0 + 1, 5, T0 + 5_400 * NANOS, "None"),
    ("running", 5, T0 + 1, 5, T0 + 5_401 * NANOS, f"Some(Future {{ now: {NOW} }})"),
]
# What happens to a variable that is sampled each 10 seconds, in seconds behind T0, and the sample that is
# held behind it and the next due moment.
SCANS = [
    ("offer", 1, 1, None),
    ("offer", 2, 2, None),
    ("idle", 3, 2, None),
    ("tick", 3, None, 13),
    ("offer", 4, 4, 13),
    ("tick", 12, 4, 13),
    ("tick", 13, None, 23),
    ("tick", 23, None, 33),
    ("offer", 24, 24, 33),
    ("clear", 24, None, None),
]


def listed(moments, line):
    """The samples at some moments, all with one line."""
    return f"{','.join(map(str, moments)) or '-'} {line}"


def lists():
    for a, b, added in OVER:
        both = [f"{t}/a" for t in a] + [f"{t}/b" for t in added]
        yield f"over {listed(a, 'a')} {listed(b, 'b')}", " ".join(both)
    yield f"taken {listed([3, 5], 'a')} {listed([5, 4, 6, 6, 1, 9], 'b')}", "3/a 5/a 6/b 9/b"
    for moments, start, end, wanted in ANSWERS:
        yield f"answer {start} {end} {listed(moments, 'a')}", " ".join(f"{t}/a" for t in wanted)
    for state, own, later, type_number, t, reason in ADMISSIONS:
        yield f"admit {state} {own} {later} {type_number} {t} {NOW}", reason
    events = []
    yield f"scan {10 * NANOS}", "None 0"
    for kind, seconds, held, due in SCANS:
        events.append("clear" if kind == "clear" else f"{kind} {T0 + seconds * NANOS}")
        wanted = format_lines.some(None if held is None else T0 + held * NANOS)
        yield f"scan {10 * NANOS} {' '.join(events)}", f"{wanted} {0 if due is None else T0 + due * NANOS}"
    yield "batch 3 7 line", "3 7/line; 3 7/line"
    yield "pairs 454755 6d41", "454755 6d41"


# Drills

# Hours at which a file more or less is left in one of the stores, and the least and the most of a drill; and those of none.
DRILLS = ["1", "4", "5", "7", "24", "28", "29", "47", "96", "200", "0", "201", str(2**32 - 1)]


def drills():
    """What is wanted of each is told by the model of the workload alone."""
    cases = [(kind, hours, str(variable)) for kind, hours in (("feed", "1"), ("sum", "200")) for variable in range(4)]
    cases += [("report", hours) for hours in DRILLS] + [("doors", "1"), ("doors", "200")]
    for kind, *words in cases:
        yield " ".join((f"drill_{kind}", *words)), drill_model.KINDS[kind](*words)


def rows():
    """All cases with the lines that are wanted."""
    for group in (moments, partitions, names, escapes, fields, events, headers, streams, edges, lists, drills):
        yield from group()
