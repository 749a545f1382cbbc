"""What `archappl adopt` makes of folders that another program filled, and what the archive is then: a model to compare with.

It says in Python what docs/ADOPTING.md says in words, over the bytes of files, and takes from the program nothing. Of
store_model it has what names, headers, texts and moves are. Moments are nanoseconds since 1970. Stores are 1, the short term,
2, the medium term, and 3, the long term.
"""

import itertools
import re
from collections import Counter
from dataclasses import dataclass
from datetime import datetime, timedelta

import pb_model
import store_model
from pb_model import FIRST_YEAR, LAST_YEAR, SECOND, Fault, Header, Run, unescape
from store_model import AHEAD, RULES, STORES, TYPE_NAMES, Entry, header_line, is_name, key_of, partition, path_of, year_of

NAMED = {1: rb"(\d{4})_(\d\d)_(\d\d)_(\d\d)", 2: rb"(\d{4})_(\d\d)_(\d\d)", 3: rb"(\d{4})"}
# The stores from the oldest samples to the newest.
FROM_OLDEST = (3, 2, 1)


# Files


def start_named(store, text):
    """The start of a store's partition of this name, None where none has it."""
    found = re.fullmatch(NAMED[store], text)
    if found is None:
        return None
    numbers = [int(number) for number in found.groups()]
    if not FIRST_YEAR <= numbers[0] <= LAST_YEAR:
        return None
    civil = numbers + [FIRST_YEAR, 1, 1, 0][len(numbers) :]
    try:
        return (datetime(*civil) - datetime(1970, 1, 1)) // timedelta(seconds=1) * SECOND
    except ValueError:
        return None


@dataclass
class Front:
    """What counts of a file: the header that it tells, that line with its newline, and its samples' moments and lines."""

    header: Header
    head: bytes
    samples: list

    @property
    def content(self):
        """All its bytes."""
        return self.head + b"".join(line for _, line in self.samples)

    @property
    def last(self):
        """The moment of its last sample."""
        return self.samples[-1][0]

    def with_samples(self, samples):
        """The same file with more samples at its end."""
        return Front(self.header, self.head, self.samples + samples)


def front_of(data, span):
    """The front of a file: its header's line and the samples behind it, up to the first line that is torn, no sample of the
    header's type and year, not in the span, or not later than the one before. None where no sample is in it."""
    head, newline, _ = data.partition(b"\n")
    try:
        header = pb_model.header(unescape(head))
    except Fault:
        return None
    samples = list(good_samples(data, len(head) + 1, header, span))
    return Front(header, head + b"\n", samples) if newline and samples else None


def good_samples(data, at, header, span):
    """The moments and lines of samples from a place on, up to the first line that is none of them."""
    last = -1
    while (end := data.find(b"\n", at)) >= 0:
        try:
            event = pb_model.event(header.type, unescape(data[at:end]))
            t = pb_model.moment(header.year, event.secs, event.nano)
        except Fault:
            return
        if t <= last or not span[0] <= t < span[1]:
            return
        yield t, data[at : end + 1]
        at, last = end + 1, t


@dataclass
class Candidate:
    """A file that may be taken: its store, its partition's start, and its front."""

    store: int
    path: bytes
    start: int
    front: Front


def candidate_of(store, path, data):
    """What may be taken of a file that isn't listed, None where nothing may."""
    key, colon, rest = path.rpartition(b":")
    if not colon or not rest.endswith(b".pb"):
        return None
    start = start_named(store, rest[: -len(b".pb")])
    if start is None:
        return None
    front = front_of(data, partition(store, start))
    if front is None or not is_name(front.header.name) or path_of(front.header.name, start, store) != path:
        return None
    return Candidate(store, path, start, front) if front.header.year == year_of(start) else None


# Rows


class Row:
    """A variable under one name, and what each store lists of it: by the start of a partition the front of its file. Its base is the
    number of the row of the name before, if it was renamed."""

    def __init__(self, header):
        self.name, self.type, self.count, self.headers = header.name, header.type, header.count, header.headers
        self.listed = {store: {} for store in STORES}
        self.state, self.base = "running", None

    header = store_model.Row.header
    chunks = store_model.Row.chunks

    def copy(self):
        """The same row, which may go on by itself."""
        made = Row(self)
        made.listed = {store: dict(files) for store, files in self.listed.items()}
        made.state, made.base = self.state, self.base
        return made

    def path(self, store, start):
        """The path of the file of a partition."""
        return path_of(self.name, start, store)

    def tier(self, store):
        """The samples that a store lists."""
        return [sample for start in sorted(self.listed[store]) for sample in self.listed[store][start].samples]

    @property
    def samples(self):
        """All samples: those of the oldest store, and those of each next one that are later."""
        whole = []
        for store in FROM_OLDEST:
            last = whole[-1][0] if whole else -1
            whole += [(t, line) for t, line in self.tier(store) if t > last]
        return whole

    def append(self, store, samples, source=None):
        """A store lists more samples, of one partition, behind those that it lists. A file that is made anew has the header's line
        of the file that they move out of, or else the row's header."""
        start = partition(store, samples[0][0])[0]
        header = self.header(year_of(start))
        made = Front(source.header, source.head, []) if source else Front(header, header_line(header), [])
        self.listed[store][start] = self.listed[store].get(start, made).with_samples(samples)

    def last_in(self, store):
        """The moment of the last sample that a store lists, -1 where it lists none."""
        files = self.listed[store]
        return files[max(files)].last if files else -1


# Moves


def parts_due(row, store, ripe):
    """How many of the oldest partitions that a store lists of a row move on, where so many of them have ended: by hold
    and gather, or those that the next store covers already."""
    hold, gather = RULES[store]
    by_rule = min(gather, ripe) if ripe >= hold else 0
    last = row.last_in(store + 1)
    files = (row.listed[store][start] for start in sorted(row.listed[store]))
    return max(by_rule, sum(1 for _ in itertools.takewhile(lambda file: file.last <= last, files)))


def publish(row, store, parts):
    """The next store lists the samples of the oldest partitions that are later than its own."""
    for start in sorted(row.listed[store])[:parts]:
        source, last = row.listed[store][start], row.last_in(store + 1)
        later = [(t, line) for t, line in source.samples if t > last]
        if later:
            row.append(store + 1, later, source)


def move(row, store, now):
    """Moves all that is due of a row out of a store. It gives how many partitions have left."""
    ripe = sum(partition(store, start)[1] <= now for start in row.listed[store])
    left = 0
    while parts := parts_due(row, store, ripe):
        publish(row, store, parts)
        for start in sorted(row.listed[store])[:parts]:
            del row.listed[store][start]
        left += parts
        ripe = max(ripe - parts, 0)
    return left


# The archive


class Archive:
    """The rows of an archive, in the order in which they were registered."""

    def __init__(self):
        self.rows = []

    def copy(self):
        """The same rows, which may go on by themselves."""
        made = Archive()
        made.rows = [row.copy() for row in self.rows]
        return made

    find = store_model.Archive.find
    whole = store_model.Archive.whole

    def rename(self, number, name):
        """A row over one that is retired, of the same variable."""
        made = Row(self.rows[number])
        made.name, made.state, made.base = name, "paused", number
        self.rows[number].state = "retired"
        self.rows.append(made)

    def register(self, header):
        """Makes a row of a header whose name and key are free. It gives whether it did."""
        if not self.is_free(header.name):
            return False
        self.rows.append(Row(header))
        return True

    def is_free(self, name):
        """Whether a row can have a name."""
        return is_name(name) and key_of(name) not in {key_of(row.name) for row in self.rows}

    def paths(self, store):
        """The listed files of a store, by path."""
        return {row.path(store, start): file for row in self.rows for start, file in row.listed[store].items()}

    def is_own(self, store, path):
        """Whether a path is one of a row's files, listed or not."""
        key, colon, rest = path.rpartition(b":")
        named = rest.endswith(b".pb") and start_named(store, rest[: -len(b".pb")]) is not None
        return bool(colon) and named and any(key_of(row.name) == key for row in self.rows)

    # The commands

    def take(self, chunk, now):
        """What `ingest` makes of a chunk."""
        self.register(chunk.header)
        row = self.find(chunk.header.name)
        for t, line in chunk.samples if row is not None and row.state == "running" and row.type == chunk.header.type else []:
            last = self.whole(row)[-1:]
            if (not last or t > last[0][0]) and t <= now + AHEAD:
                row.append(1, [(t, line)])

    def etl(self, now):
        """Moves all that is due, and tells how many partitions left the stores 1 and 2."""
        left = [sum(move(row, store, now) for row in self.rows) for store in RULES]
        return Run(0, b"moved %d %d\n" % tuple(left), b"")

    get = store_model.Archive.get

    def status(self):
        """A line for each row."""
        lines = [
            b"%s %s %s samples %d files %d %d %d\n"
            % (row.name, TYPE_NAMES[row.type].encode(), row.state.encode(), len(self.whole(row)), *(len(row.listed[store]) for store in STORES))
            for row in self.rows
        ]
        return Run(0, b"".join(lines), b"")

    def check(self):
        """A line for each listed file, all of which are good."""
        lines = [
            b"%d %s ok %d\n" % (store, row.path(store, start), len(row.listed[store][start].samples))
            for store in STORES
            for row in self.rows
            for start in sorted(row.listed[store])
        ]
        return Run(0, b"".join(lines), b"")

    def entries(self, store):
        """What a store's manifest lists of each file."""
        return {
            (series, start): Entry(len(file.content), len(file.head), file.samples[0][0], file.last, len(file.samples))
            for series, row in enumerate(self.rows)
            for start, file in row.listed[store].items()
        }


# Adoption


class Adoption:
    """What an adoption takes of the files of an archive's stores: of each store they are paths and bytes. Its archive is
    changed commit by commit."""

    def __init__(self, archive, files):
        self.archive = archive
        self.files = files
        self.counts = Counter()
        unlisted = {store: sorted(set(files[store]) - set(archive.paths(store))) for store in STORES}
        self.unlisted = sum(map(len, unlisted.values()))
        found = [candidate_of(store, path, files[store][path]) for store in FROM_OLDEST for path in unlisted[store]]
        self.candidates = [one for one in found if one is not None]

    def commits(self):
        """Goes on from commit to commit: rows first, and then what each store lists of each row."""
        stood = {row.name: {store for store in STORES if row.listed[store]} for row in self.archive.rows}
        for one in self.candidates:
            if self.archive.find(one.front.header.name) is None and self.archive.register(one.front.header):
                self.counts["rows"] += 1
                yield
        for row in self.archive.rows:
            if row.base is not None or row.state == "retired":
                continue
            for store in FROM_OLDEST:
                if any(listed <= store for listed in stood.get(row.name, ())):
                    continue
                taken = [one for one in self.candidates if self.is_of(one, row, store)]
                if taken:
                    self.list(row, store, taken)
                    yield

    def is_of(self, one, row, store):
        """Whether a candidate is a row's, in a store."""
        header = one.front.header
        return one.store == store and header.name == row.name and header.type == row.type

    def list(self, row, store, taken):
        """The store lists these files of a row."""
        for one in taken:
            row.listed[store][one.start] = one.front
            self.counts["files"] += 1
            self.counts["samples"] += len(one.front.samples)
            self.counts["cut"] += len(one.front.content) < len(self.files[store][one.path])

    def run(self):
        """Adopts all, and tells it."""
        for _ in self.commits():
            pass
        skipped = self.unlisted - self.counts["files"]
        told = (self.counts["files"], self.counts["samples"], self.counts["rows"], skipped, self.counts["cut"])
        return Run(0, b"adopted %d %d %d skipped %d cut %d\n" % told, b"")
