"""What the journals of an archive say by their bytes, or what is told where they don't: it stands on `store_model.py` and
`pb_model.py` alone, and says in Python what docs/FORMATS.md says in words of journals, the catalogue and manifests."""

from dataclasses import dataclass, field

from pb_model import END, SECOND, Run, year_start
from store_model import (
    CONFIGURED, GRANULARITIES, STORES, TYPE_NAMES, Damaged, Entry, batches, civil, complaint, is_name, key_of, path_of,
)

BEGIN = year_start(1991) * SECOND
MOST_ROWS = 65_536


class Refused(Exception):
    """No command opens the archive: what each ends with."""

    def __init__(self, status, text):
        super().__init__(text)
        self.run = Run(status, b"", complaint(text))


class BadBatch(Exception):
    """A batch says nothing behind those before it."""


def damaged(store, path, at):
    return Refused(8, f"damaged: {store} {path} at {at}")


class Members:
    """The members of a batch, one after another."""

    def __init__(self, batch):
        self.left = batch
        if not batch:
            raise BadBatch

    def bytes(self, size):
        if size > len(self.left):
            raise BadBatch
        taken, self.left = self.left[:size], self.left[size:]
        return taken

    def number(self, size):
        return int.from_bytes(self.bytes(size), "little")

    def text(self):
        return self.bytes(self.number(4))


def framed(files, name):
    """The batches of a file with their gates' places. Its form comes before what the batches say."""
    try:
        return list(batches(files.get(name, b"")))
    except Damaged as found:
        raise damaged(0, name, found.at) from None


def taken(files, name, take, into):
    """What a journal's batches come to, which are taken in one after another."""
    generation = 0
    for place, batch in framed(files, f"{name}.at"):
        generation += 1
        if batch != generation.to_bytes(8, "little"):
            raise damaged(0, f"{name}.at", place)
    current = f"{name}.{generation}" if generation else name
    if generation and len(files.get(current, b"")) < 2:
        raise damaged(0, current, 0)
    for place, batch in framed(files, current):
        try:
            take(Members(batch), into)
        except BadBatch:
            raise damaged(0, current, place) from None
    return into


# The catalogue


@dataclass
class Row:
    """A variable under one name. Its base is the number of the row of the name before, if it was renamed."""

    name: bytes
    type: int
    state: str = "running"
    base: object = None


def take_rows(members, rows):
    while members.left:
        kind, number = members.number(1), members.number(4)
        if kind == 1:
            take_row(members, number, rows)
        elif kind == 2:
            state = members.number(1)
            if state > 1 or number >= len(rows) or rows[number].state == "retired":
                raise BadBatch
            rows[number].state = ("running", "paused")[state]
        elif kind == 3:
            take_name(members, number, rows)
        else:
            raise BadBatch


def take_row(members, number, rows):
    name, type_number, method = members.text(), members.number(1), members.number(1)
    members.number(8)
    has_count = members.number(1)
    members.number(4)
    for _ in range(2 * members.number(4)):
        members.text()
    take_next(number, name, rows)
    if type_number >= len(TYPE_NAMES) or method > 1 or has_count > 1:
        raise BadBatch
    rows.append(Row(name, type_number))


def take_name(members, old, rows):
    """A row of another name goes over a paused one, which is retired."""
    number, name = members.number(4), members.text()
    if old >= len(rows) or rows[old].state != "paused":
        raise BadBatch
    take_next(number, name, rows)
    rows[old].state = "retired"
    rows.append(Row(name, rows[old].type, "paused", old))


def take_next(number, name, rows):
    """A row has the next number, and a good name whose key is free."""
    if number != len(rows) or number >= MOST_ROWS or not is_name(name) or key_of(name) in {key_of(row.name) for row in rows}:
        raise BadBatch


# Manifests


@dataclass
class Listed:
    """A manifest's granularity, and its entries by series and partition's start."""

    granularity: object = None
    entries: dict = field(default_factory=dict)


def take_changes(members, listed):
    is_first = listed.granularity is None
    if is_first:
        if members.number(1) != 1 or (number := members.number(1)) >= len(GRANULARITIES):
            raise BadBatch
        listed.granularity = GRANULARITIES[number]
    while members.left:
        kind, where = members.number(1), (members.number(4), members.number(8))
        if kind == 2 and is_start(listed.granularity, where[1]):
            listed.entries[where] = Entry(members.number(8), members.number(4), *(members.number(8) for _ in range(3)))
        elif kind != 3 or is_first or listed.entries.pop(where, None) is None:
            raise BadBatch


def is_start(granularity, t):
    """Whether a partition of a granularity begins at a moment."""
    if not BEGIN <= t < END or t % (60 * SECOND):
        return False
    at = civil(t)
    parts = [at.minute, at.hour, at.day - 1, at.month - 1]
    whole = {"HOUR": 1, "DAY": 2, "MONTH": 3, "YEAR": 4}
    if granularity in whole:
        return not any(parts[: whole[granularity]])
    return at.minute % int(granularity.removesuffix("MIN")) == 0


# The archive


@dataclass
class Opened:
    """The rows, and the entries of each store in their order."""

    rows: list
    entries: dict

    def files(self):
        """Of each listed file its store, the number of its row, its partition's start, its path, and its entry."""
        for store in STORES:
            for (series, start), entry in self.entries[store].items():
                yield store, series, start, path_of(self.rows[series].name, start, store), entry

    def line(self, series):
        """The rows of a variable under all its names up to this one."""
        base = self.rows[series].base
        return ([] if base is None else self.line(base)) + [series]

    def status_lines(self):
        """What `status` writes of the rows, but for the numbers of samples."""
        for series, row in enumerate(self.rows):
            counts = [sum(where[0] == series for where in self.entries[store]) for store in STORES]
            yield b"%s %s %s samples # files %d %d %d" % (row.name, TYPE_NAMES[row.type].encode(), row.state.encode(), *counts)


def opened(files, sizes):
    """What an archive is by the files of its site's folder, and by the lengths of those of its stores; or `Refused`."""
    rows = taken(files, "catalogue", take_rows, [])
    entries = {}
    for store in STORES:
        listed = taken(files, f"manifest{store}", take_changes, Listed())
        if listed.granularity not in (None, CONFIGURED[store]):
            raise Refused(12, f"granularity: kept {listed.granularity}, asked {CONFIGURED[store]}")
        entries[store] = dict(sorted(listed.entries.items()))
    for store in STORES:
        if any(series >= len(rows) for series, _ in entries[store]):
            raise damaged(0, f"manifest{store}", 0)
    found = Opened(rows, entries)
    for store, _, _, path, entry in found.files():
        size = sizes.get((store, path), 0)
        if size < entry.length or (store, path) not in sizes:
            raise damaged(store, path.decode(), size)
    return found
