"""What `crates/format_cases` has to tell of a case: a model to compare with.

It says in Python what docs/FORMATS.md says in words, over pb_model and store_model, and takes nothing from
the program. A case is a line of words; `answer` gives the line that is wanted.
"""

import re
import struct
import time
from datetime import datetime, timedelta

import drill_model
import format_lines
import pb_model
import store_model
from format_lines import TYPE_NAMES, hexed, some, variant
from pb_model import END, FIRST_YEAR, SECOND, Fault, escape, unescape, year_start
from store_model import AHEAD, GRANULARITIES, varint

START = year_start(FIRST_YEAR) * SECOND
ROOM = 65_536


class NoCase(Exception):
    """A line that is no case."""


# Words


def of_bytes(word):
    return b"" if word == "-" else bytes.fromhex(word)


def of_numbers(word):
    return [] if word == "-" else [int(number) for number in word.split(",")]


# Faults


def told(fault):
    """A fault of a message as the program calls it."""
    names = {
        pb_model.BAD_VARINT: "Wire(BadVarint {{ at: {} }})",
        pb_model.BAD_TAG: "Wire(BadTag {{ at: {} }})",
        pb_model.GROUP: "Wire(Group {{ at: {} }})",
        pb_model.SHORT: "Wire(Short {{ at: {} }})",
        pb_model.BAD_ESCAPE: "Escape {{ at: {} }}",
        pb_model.BAD_TIME: "Time",
        pb_model.MISSING: "Missing {{ field: {} }}",
        pb_model.WRONG_WIRE: "WrongWire {{ field: {} }}",
        pb_model.UNKNOWN_TYPE: "UnknownType {{ number: {} }}",
        pb_model.YEAR_RANGE: "YearRange {{ year: {} }}",
    }
    return names[fault.number].format(fault.of)


def told_wire(fault):
    return told(fault).removeprefix("Wire(").removesuffix(")")


def of_line(fault, kind):
    """A fault of a line, which is one of its message but for escapes and times."""
    if fault.number in (pb_model.BAD_ESCAPE, pb_model.BAD_TIME):
        return told(fault)
    return f"{kind}({told(fault)})"


# Moments


def instant(year, secs, nano):
    year, secs, nano = int(year), int(secs), int(nano)
    try:
        if not FIRST_YEAR <= year <= pb_model.LAST_YEAR:
            raise Fault(pb_model.BAD_TIME)
        return f"Ok({pb_model.moment(year, secs, nano)})"
    except Fault:
        return "Err(BadTime)"


def split(t):
    t = int(t)
    if t >= END:
        return "None"
    year = store_model.year_of(t)
    parts = f"year: {year}, secs: {t // SECOND - year_start(year)}, nano: {t % SECOND}"
    return f"Some(YearTime {{ {parts} }})"


ISO = re.compile(r"(\d{4}-\d\d-\d\dT\d\d:\d\d:\d\d)(?:\.(\d{1,9}))?(?:Z|([+-])(\d\d):(\d\d))", re.ASCII)


def iso(text):
    found = ISO.fullmatch(text)
    try:
        if found is None:
            raise ValueError(text)
        clock, fraction, sign, hours, minutes = found.groups()
        # A year before 1 is none of Python's, but its moment is none either.
        civil = datetime.fromisoformat(clock)
        offset = timedelta(hours=int(hours or 0), minutes=int(minutes or 0))
        if offset >= timedelta(days=1) or int(minutes or 0) > 59:
            raise ValueError(text)
        seconds = (civil - datetime(1970, 1, 1)) // timedelta(seconds=1)
        seconds -= offset // timedelta(seconds=1) * (-1 if sign == "-" else 1)
        t = seconds * SECOND + int((fraction or "0").ljust(9, "0"))
        return f"Ok({t})" if 0 <= t < END else "Err(BadIso)"
    except ValueError:
        return "Err(BadIso)"


def print_iso(t):
    return f"from {pb_model.iso(int(t))}"


# Partitions and settings

MINUTES = {"5MIN": 5, "15MIN": 15, "30MIN": 30, "HOUR": 60, "DAY": 1440}
NAMED = {"HOUR": "%Y_%m_%d_%H", "DAY": "%Y_%m_%d", "MONTH": "%Y_%m", "YEAR": "%Y"}
UNITS = ["FiveMinutes", "FifteenMinutes", "ThirtyMinutes", "Hour", "Day", "Month", "Year"]


def part_of(unit, t):
    """Name, start and end of the partition of a moment, or None."""
    if not START <= t < END:
        return None
    at = store_model.civil(t)
    if unit in MINUTES:
        length = MINUTES[unit] * 60 * SECOND
        start = t // length * length
        end = start + length
    else:
        first = at.replace(day=1, hour=0, minute=0, second=0)
        first = first.replace(month=1) if unit == "YEAR" else first
        later = first + timedelta(days=366 if unit == "YEAR" else 31)
        later = later.replace(month=1, day=1) if unit == "YEAR" else later.replace(day=1)
        start, end = ((one - datetime(1970, 1, 1)) // timedelta(seconds=1) * SECOND for one in (first, later))
    return store_model.civil(start).strftime(NAMED.get(unit, "%Y_%m_%d_%H_%M")), start, end


def told_part(part):
    return "None" if part is None else " ".join(map(str, part))


def partition(unit, t):
    return told_part(part_of(unit, int(t)))


def parse_partition(rest):
    """A name is that of the partition that begins at its moment."""
    unit, _, name = rest.partition(" ")
    try:
        begin = datetime.strptime(name, NAMED.get(unit, "%Y_%m_%d_%H_%M"))
    except ValueError:
        return "None"
    part = part_of(unit, (begin - datetime(1970, 1, 1)) // timedelta(seconds=1) * SECOND)
    return told_part(part if part is not None and part[0] == name else None)


def granularity(number):
    number = int(number)
    return f"{number} {GRANULARITIES[number]}" if number < len(GRANULARITIES) else "None"


def granularity_named(name):
    return f"Some({UNITS[GRANULARITIES.index(name)]})" if name in GRANULARITIES else "None"


def is_coarser(coarse, fine):
    """Whether each partition of the one lies in one of the other."""
    return GRANULARITIES.index(fine) <= GRANULARITIES.index(coarse)


def holds(coarse, fine):
    return str(is_coarser(coarse, fine)).lower()


def settings(first, second, third, *numbers):
    gather = numbers[2:]
    if not (is_coarser(second, first) and is_coarser(third, second)) or "0" in gather:
        return "None"
    units = [UNITS[GRANULARITIES.index(one)] for one in (first, second, third)]
    return " ".join([*units, *numbers])


def shipped():
    rules = store_model.RULES
    units = [store_model.CONFIGURED[store] for store in store_model.STORES]
    return settings(*units, *(str(rules[store][i]) for i in (0, 1) for store in (1, 2)))


def choose(hold, gather, now, ends):
    hold, ripe = int(hold), sum(end <= int(now) for end in of_numbers(ends))
    if hold == 0:
        return str(ripe)
    return str(min(ripe, int(gather)) if ripe >= hold else 0)


# Names


def name(word):
    data = of_bytes(word)
    if store_model.is_name(data):
        return f"{data.decode()} ={store_model.key_of(data).decode()}"
    return f"BadName {{ at: {name_fault(data)} }}"


NAME_FAULT = re.compile(rb"[^A-Za-z0-9_\-+:\[\]<>;./,#{}^]|(?:^|(?<=[:\-/]))\.{0,2}(?=[:\-/]|\Z)")


def name_fault(data):
    """128 where there are more bytes, else the first byte or segment that no name has."""
    return 128 if len(data) > 128 else NAME_FAULT.search(data).start()


def same_key(first, second):
    return str(store_model.key_of(of_bytes(first)) == store_model.key_of(of_bytes(second))).lower()


def path(word, unit, t):
    part, _, _ = part_of(unit, int(t))
    return f"sts/{store_model.key_of(of_bytes(word)).decode()}:{part}.pb"


# Lines, fields and messages


def escaped(word):
    line = escape(of_bytes(word))
    return f"ff{line.hex()} {len(line)}"


def unescaped(word):
    try:
        message = unescape(of_bytes(word))
        return f"ff{message.hex()} Ok(()) Ok({list(message)})"
    except Fault as fault:
        return f"ff Err(Bad{told(fault)}) Err(Bad{told(fault)})"


def told_varint(number):
    return varint(int(number)).hex()


def told_field(number, kind, value):
    if kind == 2:
        return f"{number} Bytes({list(value)})"
    name, form = {0: ("Varint", None), 1: ("Fixed64", "<Q"), 5: ("Fixed32", "<I")}[kind]
    return f"{number} {name}({value if form is None else struct.unpack(form, value)[0]})"


def fields(end, word):
    message, shown = of_bytes(word), ""
    try:
        for number, kind, value, _ in pb_model.fields(message, int(end) - len(message)):
            shown += told_field(number, kind, value) + ", "
        return shown + "."
    except Fault as fault:
        return f"{shown}{told_wire(fault)} true"


def varints(end, word):
    data, shown = of_bytes(word), ""
    try:
        for number in pb_model.varints(data, int(end) - len(data)):
            shown += f"{number} "
        return shown + "."
    except Fault as fault:
        return shown + told_wire(fault)


def put_field(number, kind, numeral, word):
    number, numeral = int(number), int(numeral)
    if kind == "bytes":
        return store_model.bytes_field(number, of_bytes(word)).hex()
    wire_type, form = {"varint": (0, None), "fixed64": (1, "<Q"), "fixed32": (5, "<I")}[kind]
    value = varint(numeral) if form is None else struct.pack(form, numeral)
    return (varint(number * 8 + wire_type) + value).hex()


def zigzag(word):
    signed = int(word)
    return f"{2 * signed if signed >= 0 else -2 * signed - 1} {signed}"


def type_number(word):
    number = int(word)
    return f"{TYPE_NAMES[number]} {number}" if number < len(TYPE_NAMES) else "None"


def type_name(word):
    return f"Some({variant(word)})" if word in TYPE_NAMES else "None"


def element(type_number, val):
    """A repeated element, or a value, with its field's tag and length where it stands alone."""
    (kind, size, read), _ = pb_model.VAL[type_number]
    if kind == 2:
        return val
    if size is None:
        return varint(2 * val if val >= 0 else -2 * val - 1)
    form = {(5, 2): "<I", (5, 9): "<I", (5, 5): "<i", (5, 12): "<i", (1, 6): "<Q", (1, 13): "<Q"}
    return struct.pack(form[kind, type_number], val)


def event_message(type_number, event):
    """An event as the archiver writes it."""
    (kind, _, _), repeated = pb_model.VAL[type_number]
    parts = [store_model.number_field(1, event.secs), store_model.number_field(2, event.nano)]
    if not repeated:
        val = element(type_number, event.val)
        parts.append(store_model.bytes_field(3, val) if kind == 2 else varint(3 * 8 + kind) + val)
    elif kind == 2:
        parts += [store_model.bytes_field(3, val) for val in event.val]
    elif event.val:
        parts.append(store_model.bytes_field(3, b"".join(element(type_number, val) for val in event.val)))
    parts += [store_model.number_field(number, val) for number, val in ((4, event.severity), (5, event.status)) if val]
    if event.repeatcount is not None:
        parts.append(store_model.number_field(6, event.repeatcount))
    for pair in event.fieldvalues:
        both = b"".join(store_model.bytes_field(number, text) for number, text in enumerate(pair, 1))
        parts.append(store_model.bytes_field(7, both))
    if event.fieldactualchange is not None:
        parts.append(store_model.number_field(8, int(event.fieldactualchange)))
    return b"".join(parts)


def event(type_name, word):
    number = TYPE_NAMES.index(type_name)
    try:
        found = pb_model.event(number, of_bytes(word))
    except Fault as fault:
        return f"Err({told(fault)}) Fault({told(fault)})"
    shown = format_lines.event(number, found)
    return f"Ok(({found.secs}, {found.nano})) {shown} {event_message(number, found).hex()}"


def header(word):
    try:
        found = pb_model.header(of_bytes(word))
    except Fault as fault:
        return f"Fault({told(fault)})"
    message, line = store_model.header_message(found), store_model.header_line(found)
    return f"{format_lines.header(found)} {message.hex()} {line.hex()}"


# Streams


def moment_of(type_number, year, line):
    found = pb_model.event(type_number, unescape(line))
    if not FIRST_YEAR <= year <= pb_model.LAST_YEAR:
        raise Fault(pb_model.BAD_TIME)
    return pb_model.moment(year, found.secs, found.nano)


def sample(type_name, year, word):
    try:
        return f"Ok({moment_of(TYPE_NAMES.index(type_name), int(year), of_bytes(word))})"
    except Fault as fault:
        return f"Err(Fault({of_line(fault, 'Event')}))"


class Reading:
    """Bytes that are read in pieces, of which some reads fail, and the lines that are whole."""

    def __init__(self, data, most, failing):
        self.data, self.most, self.failing = data, most, failing
        self.calls = self.number = 0
        self.held = self.last = b""
        self.is_torn = False

    def holds_line(self):
        return b"\n" in self.held or self.is_torn

    def next(self):
        """Line, End, Torn, TooLong or SourceFault."""
        while not self.holds_line():
            if len(self.held) > pb_model.MAX_LINE:
                return "TooLong"
            self.calls += 1
            if self.calls in self.failing:
                return "SourceFault"
            piece, self.data = self.data[: self.most], self.data[self.most :]
            if not piece:
                self.is_torn = self.held != b""
                return "Torn" if self.is_torn else "End"
            self.held += piece
        if self.is_torn:
            return "Torn"
        self.last, self.held = self.held.split(b"\n", 1)
        self.number += 1
        return "Line"


def lines(most, failing, word):
    reading = Reading(of_bytes(word), int(most), of_numbers(failing))
    return "; ".join(f"{reading.next()} {reading.number} {hexed(reading.last)}" for _ in range(6))


def long_line(length):
    return "Line" if int(length) <= pb_model.MAX_LINE else "TooLong"


class Items:
    """The items of a stream."""

    def __init__(self, data, failing):
        self.reading = Reading(data, ROOM, failing)
        self.chunk = self.refused = None
        self.begun = False

    def holds_line(self):
        return self.refused is not None or self.reading.holds_line()

    def next(self):
        """The next item, None for an empty line outside a chunk."""
        if self.refused is not None:
            return self.refused
        read = self.reading.next()
        if read == "Line":
            return self.take(self.reading.last)
        if read == "Torn":
            return self.refuse("Torn", pb_model.TORN, 1)
        if read != "End":
            return f"{self.reading.number} {read} {self.year()}"
        if self.chunk is not None:
            return self.end_chunk()
        if self.begun:
            return f"{self.reading.number} End None"
        return self.refuse("NoHeader", pb_model.NO_HEADER, 1)

    def year(self):
        return some(None if self.chunk is None else self.chunk.year)

    def end_chunk(self):
        self.chunk = None
        return f"{self.reading.number} ChunkEnd None"

    def refuse(self, fault, code, more=0):
        self.refused = f"{self.reading.number + more} Refused({fault}) {self.year()} E{code}"
        return self.refused

    def take(self, line):
        if not line:
            return None if self.chunk is None else self.end_chunk()
        try:
            if self.chunk is None:
                self.chunk, self.begun = pb_model.header(unescape(line)), True
                return f"{self.reading.number} Header {self.year()} {line.hex()}"
            t = moment_of(self.chunk.type, self.chunk.year, line)
            return f"{self.reading.number} Sample {{ t: {t} }} {self.year()} {line.hex()}"
        except Fault as fault:
            kind, inner = ("BadHeader", "Info") if self.chunk is None else ("BadLine", "Event")
            return self.refuse(f"{kind}({of_line(fault, inner)})", fault.number)


def stream(failing, word):
    items, shown = Items(of_bytes(word), of_numbers(failing)), []
    ended = 0
    while ended < 2:
        if items.holds_line():
            way, item = "held", items.next()
        else:
            way, item = "read", items.next()
            while item is None:
                item = items.next()
        shown.append(f"{way} {item or f'{items.reading.number} skipped'}")
        ended += ended or bool(item and (" End " in item or "Refused" in item))
    return "; ".join(shown)


def limits():
    return f"E{pb_model.LINE_TOO_LONG} E34"


# Sinks and clocks


def sink(room, failing, *pieces):
    """A write fails by its number, or where there is no room for the whole piece."""
    written, shown = "", []
    for number, piece in enumerate(pieces, 1):
        fits = number not in of_numbers(failing) and len(written) + len(piece) <= int(room)
        written += piece if fits else ""
        shown.append("Ok(())" if fits else "Err(Failed)")
    return " ".join([*shown, written])


def standard(word):
    data = of_bytes(word)
    first, second = data[:4], data[4:8]
    buffer = second + first.ljust(4, b"\0")[len(second) :]
    answers = ["Ok(())" if len(data) <= 3 else "Err(Failed)", "Ok(())" if len(data) < 3 else "Err(Failed)"]
    return f"Ok({len(first)}) Ok({len(second)}) {list(buffer)} {' '.join(answers)}"


def clock(word):
    moments = of_numbers(word)
    last = moments[-1] if moments else 0
    own = (moments + [last] * 4)[:4]
    groups = [[3, 4, 4, 4], [4] * 4, [5] * 4, [last] * 4, own]
    return "; ".join(" ".join(map(str, group)) for group in groups)


def system_clock(past):
    """The clock here and the program's are the same."""
    later = str(time.time_ns() > int(past)).lower()
    return f"{later} {later}"


# Lists of samples


def of_samples(moments, line):
    return [(t, line) for t in of_numbers(moments)]


def told_samples(samples):
    return " ".join(f"{t}/{line}" for t, line in samples)


def over(first, a, second, b):
    kept = of_samples(first, a)
    last = max((t for t, _ in kept), default=-1)
    return told_samples(kept + [one for one in of_samples(second, b) if one[0] > last])


def taken(first, a, second, b):
    return told_samples(pb_model.taken(of_samples(first, a) + of_samples(second, b)))


def answer_of(start, end, moments, line):
    return told_samples(store_model.chosen(of_samples(moments, line), int(start), int(end)))


def admit(state, own, later, type_number, t, now):
    later, t, now = int(later), int(t), int(now)
    if state == "unknown":
        return "Some(Unknown)"
    if state == "paused":
        return "Some(Paused)"
    if own != type_number:
        return "Some(WrongType)"
    if t < later:
        return f"Some(NotLater {{ last: {later - 1} }})"
    return f"Some(Future {{ now: {now} }})" if t > now + AHEAD else "None"


def scan(period, *words):
    """A due tick takes the newest sample that was offered; the next is due a period later."""
    held, due, words = None, 0, list(words)
    while words:
        kind = words.pop(0)
        if kind == "clear":
            held, due = None, 0
        elif kind == "offer":
            held = int(words.pop(0))
        else:
            now = int(words.pop(0))
            if kind == "tick" and due <= now:
                held, due = None, now + int(period)
    return f"{some(held)} {due}"


def batch(row, moments, line):
    shown = f"{row} {told_samples(of_samples(moments, line))}"
    return f"{shown}; {shown}"


def pairs(first, second):
    return f"{first} {second}"


KINDS = {
    "escape": escaped, "unescape": unescaped, "varint": told_varint, "field": put_field, "answer": answer_of,
}
# Kinds whose words are one text, which may have blanks.
TEXTS = {"iso": iso, "parse_partition": parse_partition, "granularity_named": granularity_named}
for kind in (
    instant, split, print_iso, partition, granularity, holds, settings, shipped, choose, name, same_key, path,
    fields, varints, zigzag, type_number, type_name, event, header, sample, stream, limits, lines, long_line, sink,
    standard, clock, system_clock, over, taken, admit, scan, batch, pairs,
):
    KINDS[kind.__name__] = kind
KINDS |= {f"drill_{word}": kind for word, kind in drill_model.KINDS.items()}


def answer(case):
    """The line that is wanted of a case."""
    kind, _, rest = case.partition(" ")
    if kind in TEXTS:
        return TEXTS[kind](rest)
    if kind not in KINDS:
        raise NoCase(case)
    return KINDS[kind](*rest.split())
