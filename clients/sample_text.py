"""Samples as lines of text or CSV, and moments as texts.

A line is NAME TIME VALUE SEVERITY STATUS, with blanks between them, or with commas and the type behind. A text with blanks or
newlines stands in quotes. What is written here `clients/import` reads back; the types alone stand in CSV only.
"""

import csv
import re
import shlex
from datetime import datetime, timedelta, timezone

import numpy

COLUMNS = ("name", "time", "value", "severity", "status", "type")
SECOND = 1_000_000_000
ISO = re.compile(r"(\d{4}-\d\d-\d\dT\d\d:\d\d:\d\d)(?:\.(\d{1,9}))?(Z|[+-]\d\d:\d\d)")
UNITS = {"s": 1, "m": 60, "h": 3_600, "d": 86_400, "w": 604_800}
AGO = re.compile(r"(?:now ?- ?)?(\d+(?:\.\d+)?)([smhdw])")
LOCAL = re.compile(r"\d{4}-\d\d-\d\d(?:[T ]\d\d:\d\d(?::\d\d(?:\.\d{1,6})?)?)?")
EPOCH = datetime(1970, 1, 1, tzinfo=timezone.utc)
FORMS = "as 2024-01-31, 2024-01-31T08:00, 2024-01-31T08:00:00Z, now, today, yesterday, 15m, now-1w"


# Samples


def shown(value):
    """A value as a text: the elements of a waveform with blanks between them, and its bytes in hexadecimal."""
    if isinstance(value, bytes):
        return value.decode("latin-1") if len(value) == 1 else value.hex(" ")
    if isinstance(value, (list, numpy.ndarray)):
        return " ".join(shlex.quote(one) if isinstance(one, str) else shown(one) for one in value)
    if isinstance(value, numpy.floating):
        return repr(value.item()) if value.dtype == numpy.float64 else str(value)
    return str(value)


def rows(piece):
    """The fields of each sample."""
    header = piece.header
    is_bytes = header.type_name == "WAVEFORM_BYTE"
    times = numpy.datetime_as_string(piece.times.astype("datetime64[ns]"), unit="ns")
    for time, value, severity, status in zip(times, piece.values, piece.severities, piece.statuses):
        yield header.name, f"{time}Z", value.hex(" ") if is_bytes else shown(value), severity, status, header.type_name


class Writer:
    """Writes samples as lines."""

    def __init__(self, out, is_csv):
        self.out = out
        self.writer = csv.writer(out, lineterminator="\n") if is_csv else None
        # A return alone would end a row, and isn't quoted by the other.
        self.quoting = csv.writer(out, lineterminator="\n", quoting=csv.QUOTE_ALL)
        self.columns = 6 if is_csv else 5

    def begin(self):
        """The line that names the fields."""
        self.line(COLUMNS)

    def line(self, row):
        """One line."""
        row = row[: self.columns]
        if self.writer:
            (self.quoting if any("\r" in str(field) for field in row) else self.writer).writerow(row)
        else:
            self.out.write(" ".join(shlex.quote(str(field)) for field in row) + "\n")

    def piece(self, piece):
        """The lines of a piece."""
        for row in rows(piece):
            self.line(row)


# Moments


def nanoseconds(text):
    """The nanoseconds since 1970 of an ISO text."""
    found = ISO.fullmatch(text)
    if not found:
        raise ValueError(f"no ISO time with a zone: {text}")
    try:
        civil = datetime.fromisoformat(found[1] + found[3].replace("Z", "+00:00"))
    except ValueError:
        raise ValueError(f"no such time: {text}") from None
    seconds = (civil - EPOCH) // timedelta(seconds=1)
    return seconds * SECOND + int((found[2] or "").ljust(9, "0"))


def iso(moment):
    """The ISO text of a moment: a text as it is, a `datetime` with a zone, a `datetime64`, nanoseconds since 1970."""
    if isinstance(moment, str):
        return moment
    if isinstance(moment, numpy.datetime64):
        return numpy.datetime_as_string(moment, unit="ns") + "Z"
    if isinstance(moment, datetime):
        if moment.tzinfo is None:
            raise ValueError(f"a time without a zone: {moment}")
        moment = (moment - EPOCH) // timedelta(microseconds=1) * 1_000
    # Not by way of numpy's nanoseconds, whose years end with 2262.
    seconds, nanos = divmod(int(moment), SECOND)
    try:
        return f"{(EPOCH + timedelta(seconds=seconds)).replace(tzinfo=None).isoformat()}.{nanos:09}Z"
    except OverflowError:
        raise ValueError("a time out of the calendar's years") from None


def moment_of(word, now):
    """The ISO text of a word: an ISO text with a zone as it is, a day or a time in the local zone, `now`, `today`, `yesterday`, or
    so long ago, as `90s`, `15m`, `2h`, `7d`, `1w` or `now-1w`. Raises `ValueError` where it is none of these."""
    if ISO.fullmatch(word):
        nanoseconds(word)
        return word
    if word == "now":
        return iso(now)
    found = AGO.fullmatch(word)
    if found:
        return iso(now - int(float(found[1]) * UNITS[found[2]] * SECOND))
    if word in ("today", "yesterday"):
        day = datetime.fromtimestamp(now // SECOND).replace(hour=0, minute=0, second=0)
        return iso((day - timedelta(days=word == "yesterday")).astimezone())
    if LOCAL.fullmatch(word):
        try:
            return iso(datetime.fromisoformat(word).astimezone())
        except (ValueError, OverflowError):
            raise ValueError(f"no such time: {word}") from None
    raise ValueError(f"no time: {word} ({FORMS})")
