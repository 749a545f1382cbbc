"""Random archives that are asked at random: streams that are brought into one, and requests and feeds of a service over it."""

import copy
import time

import http_random
from pb_model import LAST_YEAR, SECOND, Header, escape, iso, year_start
from store_model import AHEAD, END, HOUR, TYPE_NAMES, bytes_field, header_line, is_name, number_field, varint, year_of

STRING, SHORT, FLOAT, ENUM, BYTE, INT, DOUBLE = range(7)
NAMES = [b"A", b"A:B", b"A-B", b"A/B/c", b"x+y", b"T:[1]<2>", b"{#^}", b"q;r.s,t", b"a" * 128]
# Names that no variable has, or that none can have.
OTHER_NAMES = [b"NO:SUCH", b"A:", b"A::B", b"A:..", b"", b"B\xff"]
# What may stand before a name in parentheses, and what may not.
OPERATORS = [b"firstSample", b"firstSample_3600", b"lastSample_1", b"lastSample_86400", b"count", b"count_60", b"count_999999999", b"nth_1", b"nth_3", b"ncount", b"mean_60", b"nth", b"count_0"]
TEXTS = [b"", b"a", b"1", b"mm", b"\xc3\xa9", b"\xff", b"\xc3", b"\xe2\x82", b'"\\/', b"\n\r\x1b", b"\x00\x07\x08\x09\x0c\x1f\x7f", b"x" * 300]
# What is put into a stream's lines, or in their place.
DAMAGE = [b"\x1b\x04", b"\x08", b"\xff" * 11, b"\x00\x00", b"\x0b", b"\n", b"\x1b", b"\x12\x7f", b"\x18\x00"]
# The clock may stand at the edge of what is too far ahead.
EDGE = 300 * SECOND


def talk(rng, found):
    """Brings random streams into an archive, and has a service over it asked for this and that."""
    rows = [Maker(rng, name) for name in rng.sample(NAMES, rng.randint(1, 6))]
    if rng.random() < 0.9:
        found.ingest(b"\n".join(row.chunk(rng) for row in rows))
    for _ in range(rng.choice([0, 1, 2])):
        found.ingest(stream(rng, rows))
    for _ in range(rng.randint(20, 60)):
        kind = rng.random()
        if kind < 0.15:
            found.feed(stream(rng, [row for row in rows if not found.is_sampled(row.name)]))
        elif kind < 0.55:
            found.ask(data_request(rng, rows))
        else:
            found.ask(request(rng, rows))


# Streams


class Maker:
    """A variable whose samples mostly rise in time, within four hours, so that none of them moves."""

    def __init__(self, rng, name):
        self.name = name
        self.type = rng.randrange(14)
        self.count = rng.choice([None, None, 0, 1, -1, 2**31 - 1])
        self.headers = [(text(rng), text(rng)) for _ in range(rng.choice([0, 0, 1, 4]))]
        now = time.time_ns()
        hours = [rng.randrange(year_start(1991) * SECOND, now - HOUR) // HOUR for _ in range(rng.randint(1, 3))] + [now // HOUR]
        self.hours = sorted(set(hours))[:4]
        # Where the hours are, and how far the next sample lies in.
        self.moments = sorted(hour * HOUR + at for hour in self.hours for at in moments_in(rng, hour * HOUR, now))
        self.at = 0

    def chunk(self, rng):
        """A header's line, and some samples of its year."""
        year = year_of(self.next_moment())
        kind = self.type if rng.random() < 0.9 else rng.randrange(14)
        lines = [header_line(Header(kind, self.name, year, self.count, self.headers))]
        for _ in range(rng.choice([0, 1, 5, 30, 30])):
            moment = self.next_moment()
            if year_of(moment) != year:
                break
            lines.append(line_of(rng, kind, moment - year_start(year) * SECOND))
            if rng.random() < 0.9:
                self.at += 1
        return b"".join(lines)

    def next_moment(self):
        return self.moments[min(self.at, len(self.moments) - 1)]


def moments_in(rng, start, now):
    """Moments of an hour, some at its edges, and none at the edge of what is too far ahead of the clock."""
    wanted = {0, HOUR - 1, *(rng.randrange(HOUR) for _ in range(rng.choice([5, 40, 100])))}
    return [at for at in wanted if abs(start + at - now - AHEAD) > EDGE]


def text(rng):
    return b"".join(rng.choice(TEXTS) for _ in range(rng.choice([0, 1, 1, 3])))


def stream(rng, rows):
    """Some chunks, now and then damaged."""
    chunks = [rng.choice(rows).chunk(rng) for _ in range(rng.choice([0, 1, 1, 2, 5]))] if rows else []
    if rng.random() < 0.1:
        name = rng.choice(OTHER_NAMES)
        chunks.append(header_line(Header(5, name, 2024, None, [])) + b"\x08\x01\x10\x00\x1d\x01\x00\x00\x00\n")
    made = b"\n".join(chunks)
    if rng.random() < 0.2:
        at = rng.randrange(len(made) + 1)
        made = rng.choice([made[:at], made[:at] + rng.choice(DAMAGE) + made[at + rng.randint(0, 2) :]])
    return rng.choice([b"", b"", b"\n"]) + made + rng.choice([b"", b"", b"\n"])


def line_of(rng, kind, since):
    """The line of a sample so many nanoseconds into the year, with its fields in any order."""
    fields = [
        number_field(1, since // SECOND) if rng.random() < 0.9 else b"\x08" + longer(since // SECOND),
        number_field(2, since % SECOND),
        *value(rng, kind),
    ]
    for number, most in ((4, 2**31), (5, 2**31), (6, 2**31), (8, 2)):
        if rng.random() < 0.3:
            fields.append(number_field(number, rng.choice([0, 1, 3, most - 1, rng.randrange(-most, most) if number < 6 else 1])))
    for _ in range(rng.choice([0, 0, 0, 1, 4])):
        fields.append(bytes_field(7, bytes_field(1, text(rng)) + bytes_field(2, text(rng))))
    if rng.random() < 0.2:
        fields.append(bytes_field(rng.choice([9, 100, 2_000]), text(rng)))
    if rng.random() < 0.3:
        rng.shuffle(fields)
    return escape(b"".join(fields)) + b"\n"


def longer(number):
    """A varint in more bytes than it takes."""
    written = varint(number)
    return written[:-1] + bytes([written[-1] | 0x80, 0x80, 0x00])


def value(rng, kind):
    """The fields of a value."""
    kind, is_wave = kind % 7, kind >= 7
    if kind == BYTE or not is_wave:
        return [element(rng, kind)]
    elements = [element(rng, kind) for _ in range(rng.choice([0, 1, 3, 50]))]
    if kind == STRING or rng.random() < 0.2:
        return elements
    return [bytes_field(3, b"".join(one[1:] for one in elements))] if elements or rng.random() < 0.5 else []


def element(rng, kind):
    """The field of a value's element."""
    if kind in (STRING, BYTE):
        return bytes_field(3, text(rng))
    if kind in (SHORT, ENUM):
        number = rng.choice([0, 1, 9, 10, 12, 13, 26, 27, 2**32 - 1, rng.getrandbits(32)])
        return number_field(3, number)
    size = 8 if kind == DOUBLE else 4
    bits = rng.choice([0, 1, 0x0A0D1B, 2 ** (8 * size) - 1, 0x7FF0 << (8 * size - 16), rng.getrandbits(8 * size)])
    return (b"\x19" if size == 8 else b"\x1d") + bits.to_bytes(size, "little")


# Requests


def data_request(rng, rows):
    """A request for samples of an interval, mostly about those of a variable, whose end may be earlier than its beginning."""
    row = rng.choice(rows)
    moments = []
    for _ in range(2):
        moment = rng.choice([0, END - 1, rng.choice(row.moments), rng.choice(row.moments)])
        moments.append(min(max(moment + rng.choice([-HOUR, -1, 0, 0, 1, HOUR]), 0), END - 1))
    if rng.random() < 0.85:
        moments.sort()
    name = row.name if rng.random() < 0.95 else rng.choice(NAMES + OTHER_NAMES)
    texts = [iso(moment, rng.randint(0, 9), offset_of(rng, moment)) for moment in moments]
    if rng.random() < 0.3:
        name = rng.choice(OPERATORS) + b"(" + name + b")"
    pairs = [b"pv=" + escaped(name), *(word + escaped(one.encode()) for word, one in zip((b"from=", b"to="), texts, strict=True))]
    if rng.random() < 0.2:
        rng.shuffle(pairs)
    path = b"/retrieval/data/getData." + rng.choice([b"raw", b"json"])
    return head(rng, path + b"?" + b"&".join(pairs))


def offset_of(rng, moment):
    """An offset from UTC in minutes, which keeps the text within the years that a text may have."""
    offset = rng.choice([None, None, 0, -480, 60, 1_439])
    if offset is None or not year_start(1971) * SECOND < moment < year_start(LAST_YEAR) * SECOND:
        return None
    return offset


def escaped(data):
    """Bytes in a query."""
    return b"".join(b"%%%02X" % byte if byte in b"%&+=# \x00\xff" else bytes([byte]) for byte in data)


def head(rng, target):
    fields = b"".join(rng.choice(http_random.FIELDS) + rng.choice(http_random.ENDS) for _ in range(rng.choice([0, 1, 3])))
    return b"GET " + target + rng.choice([b" HTTP/1.1", b" HTTP/1.0"]) + b"\r\n" + fields + rng.choice(http_random.ENDS)


def request(rng, rows):
    """A call of the management, or any other head, which may be damaged."""
    if rng.random() < 0.3:
        any_head = http_random.head(rng)
        return http_random.damaged(rng, any_head) if rng.random() < 0.3 else any_head
    calls = [b"getPVStatus", b"getPVDetails", b"pauseArchivingPV", b"resumeArchivingPV", b"resumeArchivingPV", b"renamePV", b"archivePV", b"getAllPVs", b"flush"]
    row, call = rng.choice(rows), rng.choice(calls)
    name = row.name if rng.random() < 0.8 else rng.choice(NAMES + OTHER_NAMES)
    query = b"pv=" + escaped(name) + b"&type=" + rng.choice(TYPE_NAMES).encode()
    if call == b"renamePV":
        new = copy.copy(row)
        new.name = rng.choice(NAMES + OTHER_NAMES + [b"N:%d" % len(rows)] * 20)
        if is_name(new.name):
            rows.append(new)  # it goes on there, if it is renamed
        query += b"&newname=" + escaped(new.name)
    return head(rng, b"/mgmt/bpl/" + call + b"?" + query)
