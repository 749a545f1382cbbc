"""Folders as the EPICS Archiver Appliance leaves them, made by Google's Protocol Buffers: years of partitions in three stores,
with all that goes wrong in ten years.

Each function takes the source of randomness first, and gives the same for the same one.
"""

from dataclasses import dataclass

import store_streams
import streams
from messages import TYPE_NAMES
from pb_model import FIRST_YEAR, LAST_YEAR, SECOND, Header, escape, year_length, year_start
from store_model import DAY, HOUR, STORES, partition, path_of, year_of
from streams import chance

# What the usual tool puts into the headers of its files.
FIELDS = {"EGU": ("mA", "K", "", "\u00b5m", "mm\n"), "PREC": ("0", "3", "6"), "HOPR": ("100.0", "NaN"), "DESC": ("Beam current", "a \x1b")}
# Files that are nobody's, by their store: none of them can be taken.
OTHERS = (
    (3, b"x.txt"), (3, b"README"), (3, b"A/B.pb"), (3, b":2024.pb"), (3, b"A/B:.pb"), (3, b"A/B:2024_01.pb"), (3, b"A/B:2024_01_01.pb"),
    (3, b"A/B:1990.pb"), (3, b"A/B:2500.pb"), (3, b"A/B:02024.pb"), (3, b"A/B:2024.pb.tmp"), (3, b"A/B:2024.PB"), (3, b"A B:2024.pb"),
    (3, b"A/B:C:2024.pb"), (3, "\u00e9/B:2024.pb".encode()), (2, b"A/B:2024_02_30.pb"), (2, b"A/B:2024.pb"), (2, b"A/B:2024_1_1.pb"),
    (1, b"A/B:2024_01_01_24.pb"), (1, b"A/B:2024_01_01.pb"), (1, b"A/B:2024_01_01_05_30.pb"), (1, b"tmp/.A:2024_01_01_05.pb.swp"),
    (2, b"lost+found/#12"), (1, b"A/B:2024_01_01_+5.pb"),
)


@dataclass
class Variable:
    """A variable of the usual tool: its name, its type, and what its headers tell."""

    name: str
    type: int
    count: object
    headers: list

    def header(self, year):
        """Its header of a year."""
        return Header(self.type, self.name.encode(), year, self.count, self.headers)


# Variables


def fields(rng):
    """Some of the fields that the usual tool adds to headers."""
    return [(name.encode(), rng.choice(FIELDS[name]).encode()) for name in rng.sample(sorted(FIELDS), rng.randrange(len(FIELDS) + 1))]


def variable(rng, name, type_number):
    """A variable of a name and a type."""
    return Variable(name, type_number, rng.choice((None, 1, 1, 10, 4096)), fields(rng))


def variables(rng, first_type):
    """Variables of several types, the first of a given one; one may have another's key."""
    made = [variable(rng, store_streams.good_name(rng), first_type)]
    for _ in range(rng.choice((1, 2, 4))):
        made.append(variable(rng, store_streams.good_name(rng), rng.randrange(len(TYPE_NAMES))))
    if chance(rng, 40):
        made.append(variable(rng, store_streams.twin(rng, made[0].name), rng.choice((made[0].type, rng.randrange(14)))))
    return made


# Lines


def head_line(rng, header):
    """The line of a header. Mostly it is written as the usual tool does, by one message."""
    return escape(streams.info_message(rng, header)) + b"\n"


def sample_line(rng, header, t):
    """The line of a sample, whose moment may be outside the header's year."""
    secs, nano = divmod(t - year_start(header.year) * SECOND, SECOND)
    return escape(streams.event_message(rng, header.type, secs % 2**32, nano)) + b"\n"


def later_header(rng, one, year):
    """A variable's header of a year: with its fields, or with others, as they changed in ten years."""
    header = one.header(year)
    if chance(rng, 30):
        header.headers = fields(rng)
    if chance(rng, 5):
        header.type = rng.randrange(len(TYPE_NAMES))
    if chance(rng, 3):
        header.name = store_streams.twin(rng, one.name).encode()
    if chance(rng, 3):
        header.year = min(max(year + rng.choice((-1, 1)), FIRST_YEAR), LAST_YEAR)
    return header


def disturbed(rng, store, lines, header, moments):
    """Lines of which some came again, go back in time, are of another partition, or are none."""
    at = rng.randrange(len(lines) + 1)
    way = rng.randrange(6)
    if way == 0:
        worse = sample_line(rng, header, rng.choice(moments))
    elif way == 1:
        worse = sample_line(rng, header, rng.choice(moments) - rng.choice((1, SECOND, HOUR)))
    elif way == 2:
        start, end = partition(store, moments[0])
        worse = sample_line(rng, header, rng.choice((start - 1, end, end + DAY)))
    elif way == 3:
        worse = streams.damaged_bytes(rng, rng.choice(lines))
    elif way == 4:
        worse = rng.choice((b"\n", b"\0" * 512 + b"\n", b"<html>\n", b"\x08\n"))
    else:
        worse = streams.part("WrongWire", five=b"x") + b"\n"
    return lines[:at] + [worse] + lines[at:]


def torn(rng, header, last):
    """A line of which not all was written."""
    line = sample_line(rng, header, last + SECOND)
    return rng.choice((b"\x08", line[:-1], line[: rng.randrange(1, len(line))], b"\0" * 4096))


def content(rng, one, store, moments):
    """The bytes of a partition's file, which may be damaged."""
    header = later_header(rng, one, year_of(moments[0]))
    lines = [sample_line(rng, header, t) for t in moments]
    head = head_line(rng, header)
    if chance(rng, 4):
        return rng.choice((b"", head, head[:-1], head[: len(head) // 2], b"\n", head + b"\x08", head + head))
    if chance(rng, 12):
        lines = disturbed(rng, store, lines, header, moments)
    if chance(rng, 10):
        lines.append(torn(rng, header, moments[-1]))
    return head + b"".join(lines)


# Stores


def by_partition(store, moments):
    """Moments by the partitions of a store."""
    parts = {}
    for t in moments:
        parts.setdefault(partition(store, t)[0], []).append(t)
    return parts


def history(rng, scale):
    """Moments of a variable in each store: years in the long term, days in the medium, hours in the short. Mostly each store
    begins where the one before ends; some overlap, as where a move was broken off, or go back in time."""
    at = year_start(rng.choice((1991, 1998, 2003, 2011, 2016, 2019))) * SECOND + rng.randrange(300) * DAY
    moments = {}
    for store, step, count in ((3, 40 * DAY, 30), (2, 9 * HOUR, 20), (1, HOUR // 3, 16)):
        risen = store_streams.rising(rng, at, rng.choice((0, 1, 3, count, count)) * scale) if chance(rng, 85) else []
        spread = [at + (t - at) * step // max(risen[-1] - at, 1) * max(len(risen), 1) for t in risen] if risen else []
        moments[store] = sorted(set(spread))
        if spread:
            at = spread[-1] + rng.choice((1, SECOND, HOUR, DAY))
        if chance(rng, 12):
            at -= rng.choice((HOUR, 3 * DAY, 500 * DAY))
    if chance(rng, 15):
        moments[2] = sorted({*moments[2], *moments[3][-rng.choice((1, 3)) :]})
    return moments


def folders(rng, group, scale=1):
    """Of each store the files of some variables, and those of nobody."""
    files = {store: {} for store in STORES}
    for one in group:
        for store, moments in history(rng, scale).items():
            for start, inside in by_partition(store, moments).items():
                files[store][path_of(one.name.encode(), start, store)] = content(rng, one, store, inside)
    for store, path in rng.sample(OTHERS, rng.choice((0, 2, len(OTHERS)))):
        files[store][path] = rng.choice((b"", b"notes\n", *(list(files[store].values()) or [b""])))
    return files


def write(place, files):
    """Writes these files into the folders of a place."""
    for store, of_store in files.items():
        for path, data in of_store.items():
            whole = place.stores[store] / path.decode()
            whole.parent.mkdir(parents=True, exist_ok=True)
            whole.write_bytes(data)
