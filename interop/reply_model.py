"""What a service tells its clients, one connection after another: a model to compare with.

It says in Python what docs/FORMATS.md says in words, over lists of samples. It stands on `http_model.py`, `store_model.py`
and `pb_model.py` alone, and takes nothing from the program.
"""

from dataclasses import dataclass

import pb_model
from http_model import CHUNK, MOST_TAKEN, chunk, head_of, request_of
from pb_model import END, FIRST_YEAR, SECOND, escape, unescape, year_start
from store_model import AHEAD, STORES, TYPE_NAMES, Archive, Row, chosen, is_name, key_of, number_field, raw_text, year_of

START = year_start(FIRST_YEAR) * SECOND
MOST_ROWS = 65_536
STRING, SHORT, FLOAT, ENUM, BYTE, INT, DOUBLE = range(7)
KEPT, HELD, DROPPED = range(3)


@dataclass
class Variable(Row):
    """A row that may be sampled each period, and of whose samples so many are durable."""

    period: int = 0
    durable: int = 0

    def told(self):
        """Its state as it is told."""
        return {"running": "Being archived", "paused": "Paused", "retired": "Retired"}[self.state]


class Site(Archive):
    """An archive that a service has, and whether writes to its disk fail."""

    def __init__(self):
        super().__init__()
        self.fails = False

    # Acts

    def row_of_key(self, name):
        """The number of the row that has the name or its key, None where there is none."""
        return next((number for number, row in enumerate(self.rows) if key_of(row.name) == key_of(name)), None)

    def register(self, header):
        """Makes a row of a header whose name and key are free."""
        if is_name(header.name) and self.row_of_key(header.name) is None:
            self.rows.append(Variable(header.name, header.type, header.count, header.headers))

    def offer(self, header, t, line, now):
        """How a sample is counted: as kept, as held until a tick, or as dropped."""
        row = self.find(header.name)
        if row is None or row.state != "running" or row.type != header.type:
            return DROPPED
        last = self.whole(row)[-1:]
        if (last and t <= last[0][0]) or t > now + AHEAD:
            return DROPPED
        if row.period:
            return HELD
        row.add(t, line)
        return KEPT

    def ingest(self, stream, now):
        """Takes a stream as `ingest` does."""
        run = super().ingest(stream, now)
        self.settle()
        return run

    def pending(self):
        """How many samples are kept and not told durable."""
        return sum(len(row.samples) - row.durable for row in self.rows)

    def settle(self):
        """All that was kept is durable."""
        for row in self.rows:
            row.durable = len(row.samples)

    # Feeds

    def feed(self, stream, now):
        """What a feed of these bytes is told."""
        chunks, refused = pb_model.read_stream(stream)
        told, kept = b"", 0
        for chunk in chunks:
            counts = [0, 0, 0]
            for t, line in chunk.samples:
                counts[self.offer(chunk.header, t, line, now)] += 1
            kept += counts[KEPT]
            if chunk.ended:
                told += b"ok %d %d %d\n" % tuple(counts)
        if self.fails and self.pending():
            return told + b"fault disk\n"
        self.settle()
        if refused:
            return told + b"refused %d E%d\n" % (refused.line, refused.fault)
        return told + b"durable %d\n" % kept

    # Requests

    def replies(self, data):
        """The replies that bytes of a request may have, behind which nothing comes. It is one but for a flush of what may be durable by itself."""
        request = request_of(data, MOST_TAKEN, set())[0]
        if request.startswith("E"):
            return [self.refusal(request)]
        version, call, *words = request.split(" ")
        if call in ("raw", "json"):
            return [self.data(int(version), call, *words)]
        if call == "flush" and not self.fails:
            most = self.pending()
            self.settle()
            return [managed(200, '{"status":"ok","flushed":%d}' % count) for count in range(most, -1, -1)]
        return [managed(*self.told(call, words))]

    def refusal(self, request):
        number, _, parameter = request.partition(" ")
        status = {"E28": 431, "E29": 405, "E30": 404}.get(number, 400)
        return managed(status, '{"status":"%s"%s}' % (number, f',"parameter":"{parameter}"' if parameter else ""))

    def told(self, call, words):
        """Status and body of the reply to a management call."""
        if call == "all":
            return 200, "[" + ",".join(f'"{row.name.decode()}"' for row in self.rows) + "]"
        if call == "flush":
            return (500, '{"status":"disk"}') if self.pending() else (200, '{"status":"ok","flushed":0}')
        if call == "archive":
            return self.told_of_archiving(*words)
        if call == "rename":
            return self.told_of_renaming(*words)
        return self.told_of_row(call, words[0])

    def taken(self, name):
        """Why no row can be added for a name, None where one can."""
        number = self.row_of_key(name.encode())
        if number is not None:
            taken = "E18" if self.rows[number].name == name.encode() else "E19"
            return 409, '{"status":"%s","row":%d}' % (taken, number)
        return (409, '{"status":"E20"}') if len(self.rows) == MOST_ROWS else None

    def told_of_archiving(self, name, type_name, method, *rest):
        refused = self.taken(name)
        if refused:
            return refused
        if self.fails:
            return 500, '{"status":"disk"}'
        period = int(rest[0]) if method == "scan" else 0
        self.rows.append(Variable(name.encode(), TYPE_NAMES.index(type_name), None, [], period=period))
        return 200, '{"status":"ok","row":%d}' % (len(self.rows) - 1)

    def told_of_renaming(self, name, new_name):
        row = self.find(name.encode())
        if row is None:
            return 404, '{"status":"E26"}'
        if row.state != "paused":
            return 409, '{"status":"E32"}'
        refused = self.taken(new_name)
        if refused:
            return refused
        if row.durable < len(row.samples):
            durable = self.durable(row)
            return 409, '{"status":"E33","last":%d,"durable":%s}' % (row.samples[-1][0], durable[-1][0] if durable else "null")
        if self.fails:
            return 500, '{"status":"disk"}'
        self.rename(self.rows.index(row), new_name.encode())
        self.rows[-1].durable = 0
        return 200, '{"status":"ok"}'

    def durable(self, row):
        """Of the samples of a variable under all its names those that are durable."""
        return self.whole(row)[: len(self.whole(row)) - len(row.samples) + row.durable]

    def told_of_row(self, call, name):
        row = self.find(name.encode())
        if call == "status":
            return 200, '[{"pvName":"%s","status":"%s"}]' % (name, row.told() if row else "Not being archived")
        if row is None:
            return 404, '{"status":"E26"}'
        if call == "details":
            return 200, self.details(row)
        if row.state != ("running" if call == "pause" else "paused"):
            return 409, '{"status":"%s"}' % ("E21" if call == "pause" else "E22")
        if self.fails:
            return 500, '{"status":"disk"}'
        row.state = "paused" if call == "pause" else "running"
        return 200, '{"status":"ok"}'

    def data(self, version, call, name, first, last, *operator):
        """The reply to a request for data."""
        row = self.find(name.encode())
        if row is None:
            return managed(404, '{"status":"E26"}')
        first, last = int(first), int(last)
        samples = chosen(self.whole(row), first, last)
        if operator:
            samples = binned([(t, line) for t, line in self.whole(row) if first <= t <= last], first, *operator)
            row = Variable(row.name, INT, None, []) if "count" in operator[0] else row
        text = raw_text(row, samples, first) if call == "raw" else json_text(row, samples)
        return head_of(200, call == "json", version, None) + (in_chunks(text) if version == 1 else text)

    def details(self, row):
        """The body of a reply with what is known of a variable."""
        members = {
            "pvName": f'"{row.name.decode()}"',
            "type": f'"{TYPE_NAMES[row.type]}"',
            "status": f'"{row.told()}"',
            "samplingMethod": '"SCAN"' if row.period else '"MONITOR"',
            "samplingPeriodNanos": row.period,
            "accepted": len(self.whole(row)),
            "durable": len(self.durable(row)),
            "files": "[%s]" % ",".join(str(len(row.listed[store])) for store in STORES),
        }
        return "{" + ",".join(f'"{name}":{value}' for name, value in members.items()) + "}"


# Bins


def binned(samples, first, operator, number="1"):
    """What an operator makes of the samples of an interval that begins at `first`."""
    number = int(number)
    if operator == "ncount":
        return [count_at(min(max(first, START), END - 1), len(samples))]
    if operator == "nth":
        return samples[::number]
    bins = {}
    for t, line in samples:
        bins.setdefault(t // SECOND // number, []).append((t, line))
    if operator == "count":
        return [count_at(max(one * number * SECOND, START), len(found)) for one, found in bins.items()]
    return [found[0 if operator == "firstSample" else -1] for found in bins.values()]


def count_at(t, count):
    """A sample of the type SCALAR_INT."""
    of_year = t - year_start(year_of(t)) * SECOND
    message = number_field(1, of_year // SECOND) + number_field(2, t % SECOND) + b"\x1d" + min(count, 2**31 - 1).to_bytes(4, "little")
    return t, escape(message) + b"\n"


def in_chunks(text):
    """A body in chunks, and its end."""
    return b"".join(chunk(text[at : at + CHUNK]) for at in range(0, len(text), CHUNK)) + b"0\r\n\r\n"


def managed(status, body):
    """A reply with a JSON body of a known length."""
    text = body.encode() + b"\n"
    return head_of(status, True, 1, len(text)) + text


# JSON texts


def json_text(row, samples):
    """The JSON text of samples of a row."""
    members = ",".join(first_of_each([(b"name", row.name), *row.headers]))
    return ('[{"meta":{%s},"data":[%s]}]\n' % (members, ",".join(json_sample(row.type, t, line) for t, line in samples))).encode()


def json_sample(type_number, t, line):
    event = pb_model.event(type_number, unescape(line[:-1]))
    text = f'{{"secs":{t // SECOND},"nanos":{t % SECOND},"val":{json_value(type_number, event.val)}'
    text += f',"severity":{event.severity},"status":{event.status}'
    if event.fieldvalues:
        text += ',"fields":{' + ",".join(first_of_each(event.fieldvalues)) + "}"
    return text + "}"


def json_value(type_number, value):
    kind = type_number % 7
    if kind == BYTE:
        return "[" + ",".join(map(str, value)) + "]"
    if type_number >= 7:
        return "[" + ",".join(json_element(kind, element) for element in value) + "]"
    return json_element(kind, value)


def json_element(kind, element):
    if kind == STRING:
        return json_string(element)
    if kind in (FLOAT, DOUBLE):
        return f'"0x{element:0{8 if kind == FLOAT else 16}x}"'
    return str(element)


def first_of_each(pairs):
    """The members of an object, the first alone of those with one name."""
    seen = {}
    for name, value in pairs:
        seen.setdefault(name, value)
    return [f"{json_string(name)}:{json_string(value)}" for name, value in seen.items()]


def json_string(data):
    short = {'"': '\\"', "\\": "\\\\", "\b": "\\b", "\t": "\\t", "\n": "\\n", "\f": "\\f", "\r": "\\r"}
    escaped = (short.get(mark) or (f"\\u{ord(mark):04x}" if mark < " " else mark) for mark in data.decode(errors="replace"))
    return '"' + "".join(escaped) + '"'
