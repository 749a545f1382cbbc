"""What `archappl ingest`, `etl`, `get`, `status` and `check` make of an archive: a model to compare with.

It says in Python what README.md, docs/FORMATS.md and docs/MACHINE.md say in words, over lists of samples
and not over files, and stands on pb_model alone. Moments are nanoseconds since 1970. Stores are 1, the
short term, 2, the medium term, and 3, the long term.
"""

import itertools
import re
from dataclasses import dataclass, field, replace
from datetime import datetime, timedelta

import pb_model
from pb_model import (
    END, FIRST_YEAR, LAST_YEAR, MAX_LINE, SECOND, Chunk, Fault, Header, Run, escape, unescape, year_start,
)

HOUR = 3_600 * SECOND
DAY = 24 * HOUR
# How far ahead of the clock a sample may be.
AHEAD = 1_800 * SECOND
TYPE_NAMES = [
    f"{shape}_{kind}"
    for shape in ("SCALAR", "WAVEFORM")
    for kind in ("STRING", "SHORT", "FLOAT", "ENUM", "BYTE", "INT", "DOUBLE")
]
GRANULARITIES = ("5MIN", "15MIN", "30MIN", "HOUR", "DAY", "MONTH", "YEAR")
STORES = (1, 2, 3)
# The shipped configuration: of each store the granularity, and of those that partitions leave hold and gather.
CONFIGURED = {1: "HOUR", 2: "DAY", 3: "YEAR"}
RULES = {1: (5, 3), 2: (2, 1)}
NAMED = {1: "%Y_%m_%d_%H", 2: "%Y_%m_%d", 3: "%Y"}


# Names

NAME = re.compile(rb"[A-Za-z0-9_\-+:\[\]<>;./,#{}^]{1,128}")


def is_name(name):
    """Whether bytes are the name of a process variable."""
    segments = re.split(rb"[:\-/]", name)
    return NAME.fullmatch(name) is not None and not any(one in (b"", b".", b"..") for one in segments)


def key_of(name):
    """The path of a name's files, without their hour."""
    return re.sub(rb"[:\-]", b"/", name)


# Moments


def civil(t):
    """The date and time of a moment, in UTC, without its fraction of a second."""
    return datetime(1970, 1, 1) + timedelta(seconds=t // SECOND)


def year_of(t):
    """The year of a moment."""
    return civil(t).year


def partition(store, t):
    """Start and end of the partition of a store in which a moment lies."""
    if store == 3:
        year = year_of(t)
        return year_start(year) * SECOND, year_start(year + 1) * SECOND
    length = {1: HOUR, 2: DAY}[store]
    start = t // length * length
    return start, start + length


def path_of(name, start, store=1):
    """The path of the file of a store's partition that starts at a moment."""
    return key_of(name) + b":" + civil(start).strftime(NAMED[store]).encode() + b".pb"


# Messages that are written


def varint(number):
    """A number in the fewest bytes."""
    number %= 2**64
    written = bytearray()
    while number >= 0x80:
        written.append(number % 0x80 + 0x80)
        number //= 0x80
    return bytes([*written, number])


def number_field(number, value):
    """A field of a number."""
    return varint(number * 8) + varint(value)


def bytes_field(number, value):
    """A field of bytes."""
    return varint(number * 8 + 2) + varint(len(value)) + value


def header_message(header):
    """A header's message as the archiver writes it."""
    parts = [number_field(1, header.type), bytes_field(2, header.name), number_field(3, header.year)]
    if header.count is not None:
        parts.append(number_field(4, header.count))
    parts += [bytes_field(15, bytes_field(1, name) + bytes_field(2, val)) for name, val in header.headers]
    return b"".join(parts)


def header_line(header):
    """The line of that message, with its newline."""
    return escape(header_message(header)) + b"\n"


# Rows


@dataclass
class Row:
    """A variable under one name, as its first header told it, and the samples that were accepted under this name: their moments
    and lines. Its base is the number of the row of the name before, if it was renamed.

    Of each store it has what that lists: by the start of a partition the numbers of its first sample and of
    the one behind its last. A sample that a move has copied and not yet taken away is in two stores.
    """

    name: bytes
    type: int
    count: object
    headers: list
    samples: list = field(default_factory=list)
    listed: dict = field(default_factory=lambda: {store: {} for store in STORES})
    state: str = "running"
    base: object = None

    def copy(self):
        """The same row, which may go on by itself."""
        return replace(self, samples=list(self.samples), listed={store: dict(parts) for store, parts in self.listed.items()})

    def add(self, t, line):
        """Accepts a sample."""
        self.samples.append((t, line))
        self.list(1, len(self.samples) - 1, len(self.samples))

    def list(self, store, first, behind):
        """A store lists samples of one partition, behind those that it lists."""
        start = partition(store, self.samples[first][0])[0]
        first, _ = self.listed[store].get(start, (first, None))
        self.listed[store][start] = (first, behind)

    def behind(self, store):
        """The number behind the last sample that a store lists."""
        parts = self.listed[store]
        return parts[next(reversed(parts))][1] if parts else 0

    def header(self, year):
        """Its header of a year."""
        return Header(self.type, self.name, year, self.count, self.headers)

    def chunks(self, samples):
        """Some of its samples by their years, each year behind a header's line."""
        by_year = {}
        for t, line in samples:
            by_year.setdefault(year_of(t), []).append((t, line))
        return [
            Chunk(self.header(year), header_line(self.header(year)), listed, ended=True)
            for year, listed in by_year.items()
        ]

    def files(self, store):
        """The files that a store lists."""
        for start, (first, behind) in self.listed[store].items():
            head = header_line(self.header(year_of(start)))
            yield File(store, start, path_of(self.name, start, store), self.samples[first:behind], head)


@dataclass
class File:
    """The file of a partition: its store, start and path, the samples in it, and its header's line."""

    store: int
    start: int
    path: bytes
    samples: list
    head: bytes

    @property
    def content(self):
        """All its bytes."""
        return self.head + b"".join(line for _, line in self.samples)

    @property
    def span(self):
        """The partition's start and end."""
        return partition(self.store, self.start)


# Moves


def parts_due(row, store, ripe):
    """How many of the oldest partitions that a store lists of a row move on, where so many of them have ended: by
    hold and gather, or those that the next store covers already, as after a move that was broken off."""
    hold, gather = RULES[store]
    chosen = min(gather, ripe) if ripe >= hold else 0
    behind = row.behind(store + 1)
    covered = sum(1 for _ in itertools.takewhile(lambda part: part[1] <= behind, row.listed[store].values()))
    return max(chosen, covered)


def publish(row, store, parts):
    """The next store lists the oldest partitions, too: of each the samples that are later than those it lists."""
    for first, behind in list(itertools.islice(row.listed[store].values(), parts)):
        first = max(first, row.behind(store + 1))
        if first < behind:
            row.list(store + 1, first, behind)


def retire(row, store, parts):
    """The store lists its oldest partitions no more."""
    for start in list(itertools.islice(row.listed[store], parts)):
        del row.listed[store][start]


def moves(row, store, now):
    """Moves all that is due of a row out of a store. It gives how many partitions have left, behind each commit."""
    ripe = sum(partition(store, start)[1] <= now for start in row.listed[store])
    while parts := parts_due(row, store, ripe):
        publish(row, store, parts)
        yield 0
        retire(row, store, parts)
        yield parts
        ripe = max(ripe - parts, 0)


# The archive


def complaint(text):
    """A line on standard error."""
    return f"archappl: {text}\n".encode()


USAGE = complaint(
    "usage: archappl extract FROM TO / ingest / get NAME FROM TO / etl / status / check / drill N"
    " / serve FEEDPORT HTTPPORT WORKERS LINKS / adopt"
)


def chosen(samples, start, end):
    """The last sample before `start`, and those from `start` to `end`."""
    earlier = [(t, line) for t, line in samples if t < start]
    return earlier[-1:] + [(t, line) for t, line in samples if start <= t <= end]


def raw_text(row, samples, start):
    """Samples of a row by years; without samples the header line of the year of an interval's start."""
    texts = [chunk.line + b"".join(line for _, line in chunk.samples) for chunk in row.chunks(samples)]
    if not texts:
        year = min(max(year_of(start), FIRST_YEAR), LAST_YEAR)
        texts = [header_line(row.header(year))]
    return b"\n".join(texts)


class Archive:
    """The rows of an archive, in the order in which they were registered."""

    def __init__(self):
        self.rows = []

    def copy(self):
        """The same rows, which may go on by themselves."""
        made = Archive()
        made.rows = [row.copy() for row in self.rows]
        return made

    def find(self, name):
        """The row of a name, None where there is none."""
        return next((row for row in self.rows if row.name == name), None)

    def whole(self, row):
        """The samples of a variable under all its names up to this one."""
        return ([] if row.base is None else self.whole(self.rows[row.base])) + row.samples

    def rename(self, number, name):
        """A row over one that is retired, of the same variable."""
        old = self.rows[number]
        old.state = "retired"
        self.rows.append(replace(old.copy(), name=name, samples=[], listed={store: {} for store in STORES}, state="paused", base=number))

    def register(self, header):
        """Makes a row of a header whose name and key are free."""
        keys = {key_of(row.name) for row in self.rows}
        if is_name(header.name) and key_of(header.name) not in keys:
            self.rows.append(Row(header.name, header.type, header.count, header.headers))

    def offer(self, header, t, line, now):
        """Accepts a sample of a chunk, unless there is a reason against it."""
        row = self.find(header.name)
        if row is None or row.state != "running" or row.type != header.type:
            return
        last = self.whole(row)[-1:]
        if (not last or t > last[0][0]) and t <= now + AHEAD:
            row.add(t, line)

    def take(self, chunk, now):
        """Takes a chunk whole."""
        self.register(chunk.header)
        for t, line in chunk.samples:
            self.offer(chunk.header, t, line, now)

    # The commands

    def ingest(self, stream, now):
        """Takes a stream up to its end or its first bad line."""
        chunks, refused = pb_model.read_stream(stream)
        for chunk in chunks:
            self.take(chunk, now)
        if refused is None:
            return Run(0, b"", b"")
        return Run(3, b"", complaint(refused))

    def commits(self, now):
        """Moves all that is due. Behind each commit it gives the store out of which that moved, and how many partitions
        left it."""
        for store in RULES:
            for row in self.rows:
                for parts in moves(row, store, now):
                    yield store, parts

    def etl(self, now):
        """Moves all that is due, and tells how many partitions left the stores 1 and 2."""
        left = dict.fromkeys(RULES, 0)
        for store, parts in self.commits(now):
            left[store] += parts
        return Run(0, b"moved %d %d\n" % (left[1], left[2]), b"")

    def get(self, name, start, end):
        """The answer over an interval, by years."""
        row = self.find(name)
        if row is None:
            return Run(4, b"", complaint("no such variable"))
        return Run(0, raw_text(row, chosen(self.whole(row), start, end), start), b"")

    def files(self):
        """The files of all rows, store by store."""
        return [file for store in STORES for row in self.rows for file in row.files(store)]

    def file_counts(self):
        """The number of files that each store lists."""
        return [sum(len(row.listed[store]) for row in self.rows) for store in STORES]

    def status(self):
        """A line for each row."""
        lines = [
            b"%s %s %s samples %d files %d %d %d\n"
            % (row.name, TYPE_NAMES[row.type].encode(), row.state.encode(), len(self.whole(row)), *(len(row.listed[store]) for store in STORES))
            for row in self.rows
        ]
        return Run(0, b"".join(lines), b"")

    def check(self):
        """A line for each file, all of which are good."""
        lines = [b"%d %s ok %d\n" % (file.store, file.path, len(file.samples)) for file in self.files()]
        return Run(0, b"".join(lines), b"")

    def entries(self, store):
        """What a store's manifest lists of each file."""
        return {
            (series, file.start): Entry(len(file.content), len(file.head), file.samples[0][0], file.samples[-1][0],
                                        len(file.samples))
            for series, row in enumerate(self.rows)
            for file in row.files(store)
        }


# Files as they are found


@dataclass
class Entry:
    """What a manifest tells of a file: its listed length, its header line's, its moments' ends, its samples."""

    length: int
    head: int
    first: int
    last: int
    count: int


class Damaged(Exception):
    """Bytes aren't of the form from a place on."""

    def __init__(self, at):
        super().__init__(f"damaged at {at}")
        self.at = at


def line_at(data, at):
    """The message of the line at a place, and the place behind its newline."""
    end = data.find(b"\n", at)
    if end < 0 or end - at > MAX_LINE:
        raise Damaged(at)
    return data[at:end], end + 1


def sample_at(data, at, header, last, span):
    """The moment of the sample at a place, later than the last one and in the span, and the place behind."""
    line, behind = line_at(data, at)
    found = pb_model.event(header.type, unescape(line))
    t = pb_model.moment(header.year, found.secs, found.nano)
    if t <= last or not span[0] <= t < span[1]:
        raise Damaged(at)
    return t, behind


def walk(data, span, type_number=None):
    """The number of samples of a file with moments of a span, and of a type where one is asked for."""
    at, count, last = 0, 0, -1
    try:
        line, behind = line_at(data, 0)
        header = pb_model.header(unescape(line))
        if type_number not in (None, header.type):
            raise Damaged(0)
        while (at := behind) < len(data):
            last, behind = sample_at(data, at, header, last, span)
            count += 1
    except Fault:
        raise Damaged(at) from None
    return count


def check_file(data, span):
    """How many samples a file of the partition has. `Damaged` where it isn't one, or has none."""
    count = walk(data, span)
    if count == 0:
        raise Damaged(len(data))
    return count


def moment_at(data, at, header):
    """The moment of the sample at a place, None where none stands there."""
    try:
        return sample_at(data, at, header, -1, (0, END))[0]
    except (Damaged, Fault):
        return None


def is_bad_line(data, type_number, at):
    """Whether in a file of a type the line at a place is the first bad one behind a sample, or behind the header: it is no
    sample, or is one that isn't later than the sample in front of it. Where the first line is no header of the type, that
    line is bad alone."""
    try:
        line, first = line_at(data, 0)
        header = pb_model.header(unescape(line))
    except (Damaged, Fault):
        return at == 0
    if header.type != type_number:
        return at == 0
    if not first <= at < len(data) or data[at - 1] != ord("\n"):
        return False
    t = moment_at(data, at, header)
    if at == first:
        return t is None
    before = moment_at(data, data.rfind(b"\n", 0, at - 1) + 1, header)
    return before is not None and (t is None or before >= t)


def damage_of(read, *parts):
    """Where a reading meets damage, None where it meets none."""
    try:
        read(*parts)
    except Damaged as damaged:
        return damaged.at
    return None


def batches(data):
    """The batches of a journal, each with the place of its gate."""
    at = 0
    while len(data) >= 2 and data[at] == 1:
        behind = at + 5 + int.from_bytes(data[at + 1 : at + 5], "little")
        if len(data) < at + 5 or behind >= len(data):
            raise Damaged(at)
        yield at, data[at + 5 : behind]
        at = behind


def journal(batches):
    """A journal of these batches."""
    return b"".join(b"\x01%s%s" % (len(batch).to_bytes(4, "little"), batch) for batch in batches) + b"\0"


def generation(tells):
    """The generation of a journal that its file `.at` tells, by that file's bytes."""
    found = 0
    for place, batch in batches(tells):
        if batch != (found + 1).to_bytes(8, "little"):
            raise Damaged(place)
        found += 1
    return found


def current_name(name, tells):
    """The name of a journal's file that counts, by the bytes of its file `.at`."""
    number = generation(tells)
    return f"{name}.{number}" if number else name


def switched(row, state):
    """The batch of a catalogue that sets a row's state: 0 running, 1 paused."""
    return b"\x02" + row.to_bytes(4, "little") + bytes([state])


def renamed(old, new, name):
    """The batch of a catalogue that puts a row with another name over a paused one."""
    return b"\x03" + old.to_bytes(4, "little") + new.to_bytes(4, "little") + len(name).to_bytes(4, "little") + name


class Reader:
    """Little-endian numbers of a batch, one after another."""

    def __init__(self, data):
        self.data = data
        self.at = 0

    def next(self, size):
        """The next number, of so many bytes."""
        self.at += size
        return int.from_bytes(self.data[self.at - size : self.at], "little")


def set_batch(where, entry):
    """The batch of a manifest that lists one file of this series and start."""
    numbers = zip((*where, entry.length, entry.head, entry.first, entry.last, entry.count), (4, 8, 8, 4, 8, 8, 8))
    return b"\x02" + b"".join(number.to_bytes(size, "little") for number, size in numbers)


def listed(manifest):
    """The granularity of a good manifest, and what it lists, by series and partition's start."""
    granularity, entries = None, {}
    for place, batch in batches(manifest):
        reader = Reader(batch)
        while reader.at < len(batch):
            kind = reader.next(1)
            if kind == 1:
                granularity = GRANULARITIES[reader.next(1)]
                continue
            where = reader.next(4), reader.next(8)
            if kind == 2:
                length, head = reader.next(8), reader.next(4)
                entries[where] = Entry(length, head, reader.next(8), reader.next(8), reader.next(8))
            elif kind != 3 or entries.pop(where, None) is None:
                raise Damaged(place)
    return granularity, entries
