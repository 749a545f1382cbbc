#!/usr/bin/python3
"""Asks a service of `archappl`, feeds it, and manages it: as a module of Python, and by words.

    import archappl
    day = archappl.get("127.0.0.1:5001:5002", "CELL01:TEMP", "2024-01-01T00:00:00Z", "2024-01-02T00:00:00Z")
    day.times, day.values, day.severities, day.statuses, day.headers

A service is HOST:FEEDPORT:HTTPPORT, with the ports as `archappl serve` has them. What goes wrong is raised as
an `ArchiverError` that names what the service said. By words: clients/archappl.py --help.
"""

import argparse
import json
import os
import re
import shutil
import socket
import sys
import threading
import time
from contextlib import contextmanager
from dataclasses import dataclass, field
from http.client import HTTPConnection, HTTPException
from io import BufferedReader, RawIOBase
from itertools import islice
from urllib.parse import urlencode

import pb_stream
import sample_text

USUAL = "127.0.0.1:5001:5002"
FIRST, LAST = "1991-01-01T00:00:00Z", "2499-12-31T23:59:59.999999999Z"
# How long a connection, a read or a write may take, in seconds.
PATIENCE = 60
# What is told of a variable as headers of a stream and as field values of samples: its unit and its decimals.
ABOUT = ("EGU", "PREC")
HOUR = 3_600 * pb_stream.SECOND
WORDS = {
    "E18": "the archive has this variable",
    "E19": "the archive has a variable whose name differs in separators alone",
    "E20": "the archive has as many variables as it can have",
    "E21": "the variable isn't being archived, or has another name now",
    "E22": "the variable isn't paused, or has another name now",
    "E26": "the archive has no such variable",
    "E27": "this is no request",
    "E28": "the request is too long",
    "E29": "only GET is served",
    "E30": "nothing is served at this path",
    "E31": "a parameter is missing or not of its form",
    "E32": "the variable isn't paused, or has another name now",
    "E33": "the variable's last sample isn't durable yet",
    "disk": "the disk failed",
    "spent": "no act is left",
}
# Why a line of a feed is bad: of the others the message is damaged.
LINES = {
    "E5": "an escape byte that escapes nothing",
    "E6": "a second or a nanosecond outside of the year",
    "E9": "a field is missing",
    "E10": "a field is of the wrong kind",
    "E11": "no such type",
    "E12": "a year before 1991 or after 2499",
    "E13": "a header is missing",
    "E15": "the line is too long",
    "E34": "the feed is too long",
    "E35": "the feed ends within a line",
    "disk": "the disk failed",
}


class ArchiverError(Exception):
    """What a service didn't do, and why."""


class NotReached(ArchiverError):
    """There is no connection to the service, or it broke."""


class CutOff(ArchiverError):
    """An answer ended before its end: the samples that came are a front of it."""


class Refused(ArchiverError):
    """A request that the service refused: its status of HTTP, its word, and the whole body."""

    def __init__(self, status, body):
        self.status, self.body = status, body
        self.word = body.get("status", "") if isinstance(body, dict) else ""
        which = f" ({body['parameter']})" if self.word == "E31" else ""
        super().__init__(f"{self.word or status}: {WORDS.get(self.word, 'refused')}{which}")


class FeedRefused(ArchiverError):
    """A feed that a bad line or a fault of the disk ended, and what it was told."""

    def __init__(self, told):
        word = told.last.split()[-1]
        super().__init__(f"{told.last}: {LINES.get(word, 'the message is damaged')}")
        self.told = told


@dataclass(frozen=True)
class Server:
    """Where a service is."""

    host: str
    feed_port: int
    http_port: int

    @staticmethod
    def of(text):
        """The service that a text HOST:FEEDPORT:HTTPPORT tells."""
        if isinstance(text, Server):
            return text
        found = re.fullmatch(r"\[?([^\[\]]+?)\]?:(\d{1,5}):(\d{1,5})", text)
        if not found or max(int(found[2]), int(found[3])) > 65_535:
            raise ValueError(f"no HOST:FEEDPORT:HTTPPORT: {text}")
        return Server(found[1], int(found[2]), int(found[3]))


# Requests


@contextmanager
def told_failures(where):
    """What the network raises becomes what it means."""
    try:
        yield
    except HTTPException as error:
        raise CutOff(f"{where}: the reply was cut off: {error!r}") from None
    except OSError as error:
        raise NotReached(f"{where}: {error}") from None


class Body(RawIOBase):
    """The body of a reply, whose reading raises an `ArchiverError` alone, and tells how many bytes came."""

    def __init__(self, found, where, tell):
        super().__init__()
        self.found, self.where, self.tell = found, where, tell

    def readable(self):
        """It is read."""
        return True

    def readinto(self, room):
        """Reads some bytes, none at the end."""
        with told_failures(self.where):
            size = self.found.readinto(room)
        self.tell(size)
        return size


@contextmanager
def reply(server, path, query, tell=lambda size: None):
    """The body of the reply to a request that wasn't refused."""
    server = Server.of(server)
    where = f"{server.host} port {server.http_port}"
    link = HTTPConnection(server.host, server.http_port, timeout=PATIENCE)
    try:
        with told_failures(where):
            link.request("GET", path + ("?" + urlencode(query) if query else ""))
            found = link.getresponse()
            if found.status != 200:
                raise Refused(found.status, json_of(found.read(), {}))
        yield BufferedReader(Body(found, where, tell), 1 << 16)
    finally:
        link.close()


def json_of(data, otherwise):
    """What a text of JSON tells, or something else where it isn't one."""
    try:
        return json.loads(data)
    except ValueError:
        return otherwise


def asked(server, name, **query):
    """What the reply to a management request tells."""
    with reply(server, f"/mgmt/bpl/{name}", query) as body:
        found = json_of(body.read(), None)
    if found is None:
        raise CutOff(f"{name}: the reply was cut off")
    return found


def names(server):
    """The names of all variables, in the order in which they were registered."""
    return asked(server, "getAllPVs")


def status(server, pv):
    """`Being archived`, `Paused`, `Retired`, as a variable under a name that it has no more, or `Not being archived`."""
    return asked(server, "getPVStatus", pv=pv)[0]["status"]


def details(server, pv):
    """What is known of a variable: a dictionary with `type`, `accepted`, `durable`, `files` and so on."""
    return asked(server, "getPVDetails", pv=pv)


def archive(server, pv, type_name, period=None):
    """Registers a variable, and gives its row's number. With a period in seconds it is sampled at that."""
    sampling = {} if period is None else {"samplingmethod": "SCAN", "samplingperiod": period}
    return asked(server, "archivePV", pv=pv, type=type_name, **sampling)["row"]


def pause(server, pv):
    """Takes no more samples of a variable."""
    asked(server, "pauseArchivingPV", pv=pv)


def resume(server, pv):
    """Takes samples of a variable again."""
    asked(server, "resumeArchivingPV", pv=pv)


def rename(server, pv, new_name):
    """Gives a paused variable a new name, all of whose samples are durable. It keeps them, and stays paused."""
    asked(server, "renamePV", pv=pv, newname=new_name)


def renamed(server, pv, new_name, resumed=False):
    """Pauses a variable, makes its samples durable, and gives it a new name. Where it was running and gets none, it is resumed under
    the old one. A renamed one is paused, or resumed on wish."""
    was_running = status(server, pv) == "Being archived"
    if was_running:
        pause(server, pv)
    try:
        flush(server)
        rename(server, pv, new_name)
    except Refused:
        if was_running:
            resume(server, pv)
        raise
    if resumed:
        resume(server, new_name)


def newest_name(server, pv):
    """The name that a variable has now which was renamed, None where it can't be told.

    A service doesn't tell it. That name has all that there was under the old one; so it is told where just one does.
    """
    if status(server, pv) != "Retired":
        return pv
    old, samples, everyone = details(server, pv), newest(server, pv), names(server)
    if not len(samples):
        return None
    moment = int(samples.times[-1].astype("int64"))
    found = [name for name in everyone[everyone.index(pv) + 1 :] if goes_on(server, name, old, moment)]
    return found[0] if len(found) == 1 else None


def goes_on(server, name, old, moment):
    """Whether a variable whose name this is still has what one had under another name, whose last sample is of a moment."""
    known = details(server, name)
    is_alike = known["status"] != "Retired" and known["type"] == old["type"] and known["accepted"] >= old["accepted"]
    return is_alike and ends(server, name, moment) == ends(server, old["pvName"], moment)


def ends(server, pv, moment):
    """The lines of a variable's first sample and of its last one up to a moment."""
    with raw(server, pv, FIRST, moment) as stream:
        front = list(islice(stream, 2))
    with raw(server, pv, moment, moment) as stream:
        return front[1:], stream.read().splitlines()[-1]


def flush(server):
    """Makes all that was accepted durable, and gives the number of samples that weren't before."""
    return asked(server, "flush")["flushed"]


# Samples


class Progress:
    """A line on standard error about an answer that takes longer than a second, where that is a terminal."""

    def __init__(self, name):
        self.name = name
        self.size = self.samples = 0
        self.next = time.monotonic() + 1 if sys.stderr.isatty() else float("inf")
        self.width = 0

    def add(self, size):
        """So many bytes more came. It is shown five times a second at most."""
        self.size += size
        if time.monotonic() < self.next:
            return
        self.next = time.monotonic() + 0.2
        line = f"{self.name}: {self.samples:,} samples, {self.size / 1e6:,.1f} MB"
        print("\r" + line.ljust(self.width), end="", file=sys.stderr, flush=True)
        self.width = len(line)

    def end(self):
        """Takes the line away."""
        if self.width:
            print("\r" + " " * self.width + "\r", end="", file=sys.stderr, flush=True)


@contextmanager
def raw(server, pv, start, end, progress=None, op=None):
    """The raw stream, as a file, of a variable's samples of an interval, ends included, and the last one before it.

    With an operator, as `firstSample_60`, `lastSample_60`, `count_60`, `nth_10` or `ncount`, it is what the service makes
    of the samples of the interval alone.
    """
    query = {"pv": f"{op}({pv})" if op else pv, "from": sample_text.iso(start), "to": sample_text.iso(end)}
    progress = progress or Progress(pv)
    try:
        with reply(server, "/retrieval/data/getData.raw", query, progress.add) as body:
            yield body
    finally:
        progress.end()


def pieces(server, pv, start, end):
    """The same samples as pieces of at most 65,536, in order; the first one may have none.

    Where an answer is cut off, as of one who reads too slowly, and samples came until then, the ones behind them are asked for.
    """
    progress = Progress(pv)
    begun = last = None
    while True:
        try:
            with raw(server, pv, start if begun is None else begun + 1, end, progress) as stream:
                for piece in pb_stream.pieces(stream):
                    piece = piece if begun is None else later(piece, begun)
                    last = int(piece.times[-1]) if len(piece) else last
                    progress.samples += len(piece)
                    yield piece
            return
        except (CutOff, NotReached):
            if last == begun:
                raise
            begun = last


def get(server, pv, start, end):
    """The same samples as one piece: `times` are datetime64[ns], `values` an array of the variable's type."""
    found = pb_stream.joined(list(pieces(server, pv, start, end)))
    found.times = found.times.view("datetime64[ns]")
    return found


def thinned(server, pv, start, end, op):
    """What an operator makes of the samples of an interval, as one piece."""
    progress = Progress(pv)
    with raw(server, pv, start, end, progress, op) as stream:
        found = pb_stream.joined(list(pb_stream.pieces(stream)))
    found.times = found.times.view("datetime64[ns]")
    return found


def newest(server, pv, since=None):
    """The samples later than `since`, in nanoseconds since 1970, or the last one of all where that is missing."""
    found = get(server, pv, LAST if since is None else since + 1, LAST)
    return found if since is None else later(found, since)


def later(piece, since):
    """The samples of a piece that are later than a moment."""
    return piece.at(piece.times.astype("int64") > since)


def described(server, pv, piece):
    """The piece, with what the first sample of its first one's hour tells of the unit where it tells none itself.

    A feed tells units by field values of the first sample of each hour (`describing`). What can't be read tells nothing.
    """
    if len(piece) and not piece.about("EGU"):
        first = int(piece.times[0].astype("int64"))
        try:
            with raw(server, pv, first - first % HOUR, first) as stream:
                fronts = list(pb_stream.pieces(islice(stream, 6)))
            piece.field_values = [one for front in fronts for one in front.field_values] + piece.field_values
        except (ArchiverError, pb_stream.BadStream):
            pass
    return piece


# Feeds


@dataclass
class Told:
    """What a feed was told: of each chunk how many samples were kept, held and dropped, and how many are durable.

    `last` is the last line where that told of a bad line or a fault.
    """

    chunks: list = field(default_factory=list)
    durable: int = None
    last: str = None

    def sum(self, which):
        """A column's sum: 0 kept, 1 held, 2 dropped."""
        return sum(chunk[which] for chunk in self.chunks)


def send(server, chunks):
    """Sends chunks, each as bytes, as one feed, and gives what it was told once all that was kept is durable."""
    server = Server.of(server)
    failures = []
    with told_failures(f"{server.host} port {server.feed_port}"):
        with socket.create_connection((server.host, server.feed_port), PATIENCE) as link:
            # What is told is read while it is sent, since neither side waits for the other.
            sender = threading.Thread(target=send_all, args=(link, chunks, failures), daemon=True)
            sender.start()
            try:
                told = replies(link)
            finally:
                end_of(link)
                sender.join(1)
                failure = failures[0] if failures else None
    if failure:
        raise failure
    if told.last:
        raise FeedRefused(told)
    return told


def send_all(link, chunks, failures):
    """Sends all, and ends the sending. What `chunks` raises ends it too."""
    try:
        for chunk in chunks:
            try:
                link.sendall(chunk)
            except OSError:
                return  # the service reads no further; it tells why
    except Exception as error:  # pylint: disable=broad-except
        failures.append(error)
    end_of(link, socket.SHUT_WR)


def end_of(link, how=socket.SHUT_RDWR):
    """Ends a connection, if it is there."""
    try:
        link.shutdown(how)
    except OSError:
        pass


def replies(link):
    """Reads what a feed is told up to its end."""
    told = Told()
    with link.makefile("r", encoding="ascii", newline="\n") as lines:
        for line in lines:
            words = line.split()
            if words[0] == "ok":
                told.chunks.append(tuple(map(int, words[1:])))
            elif words[0] == "durable":
                told.durable = int(words[1])
                return told
            else:
                told.last = line.strip()
                return told
    raise NotReached("the service ended the feed without a last line")


# Words


def writer_of(options):
    """What writes samples, and has written its first line."""
    writer = sample_text.Writer(sys.stdout, options.csv)
    writer.begin()
    return writer


class Each:
    """Does something with one variable after another. What is refused of one is told with its name, and the others go on."""

    def __init__(self, names_of_variables):
        self.names = names_of_variables
        self.status = 0

    def do(self, work):
        """What the work gives of each variable that isn't refused, by name."""
        found = {}
        for pv in self.names:
            try:
                found[pv] = work(pv)
            except (Refused, CutOff, pb_stream.BadStream) as error:
                self.status = 1
                print(f"archappl: {pv}: {error}", file=sys.stderr)
        return found


def run_get(options):
    """Writes the samples of variables as lines, or as a raw stream."""
    now = time.time_ns()
    interval = [sample_text.moment_of(word, now) for word in (options.start, options.end)]
    each, begun = Each(options.pv), []

    def write_raw(pv):
        with raw(options.server, pv, *interval, op=options.op) as stream:
            sys.stdout.buffer.write(b"\n" if begun else b"")
            begun.append(pv)
            shutil.copyfileobj(stream, sys.stdout.buffer)

    def write_lines(pv):
        if options.op:
            writer.piece(thinned(options.server, pv, *interval, options.op))
            return
        for piece in pieces(options.server, pv, *interval):
            writer.piece(piece)

    writer = None if options.raw else writer_of(options)
    each.do(write_raw if options.raw else write_lines)
    return each.status


def run_plot(options):
    """Draws variables into a picture."""
    import drawing  # pylint: disable=import-outside-toplevel  # only this one needs matplotlib
    import numpy  # pylint: disable=import-outside-toplevel

    now = time.time_ns()
    words = [sample_text.moment_of(word, now) for word in (options.start, options.end)]
    each = Each(options.pv)
    found = each.do(lambda pv: described(options.server, pv, get(options.server, pv, *words)))
    if not found:
        return each.status
    left_out = drawing.left_out(found)
    for line in left_out:
        print(f"archappl: {line}", file=sys.stderr)
    if len(left_out) == len(found):
        return 1
    # Nothing is known of what a value is in the future.
    start, end = (numpy.datetime64(min(sample_text.nanoseconds(word), now), "ns") for word in words)
    drawing.picture(found, start, end).savefig(options.out, dpi=100)
    return each.status


def run_watch(options):
    """Writes the last sample of variables, and then each new one. Where nothing answers at first it ends; later what goes wrong with a
    variable is told when it begins, and the variable is asked for again, as a service may be started anew."""
    writer = writer_of(options)
    last, wrong, is_first = dict.fromkeys(options.pv), {}, True
    while True:
        for pv in options.pv:
            piece, before, wrong[pv] = (), wrong.get(pv), None
            try:
                piece = newest(options.server, pv, last[pv])
            except (ArchiverError, pb_stream.BadStream) as error:
                wrong[pv] = str(error)
                if wrong[pv] != before:
                    print(f"archappl: {pv}: {error}", file=sys.stderr)
            if len(piece):
                writer.piece(piece)
                last[pv] = int(piece.times[-1].astype("int64"))
        sys.stdout.flush()
        if is_first and all(wrong.values()):
            return 1
        is_first = False
        time.sleep(options.every)


def registering(server, lines):
    """Lines of a stream as they are, with each variable registered before its first chunk goes out."""
    known = set(names(server))
    in_chunk = False
    for line in lines:
        if line == b"\n":
            in_chunk = False
        elif not in_chunk:
            in_chunk = True
            header = header_of(line)
            if header and header.name not in known:
                archive(server, header.name, header.type_name)
                known.add(header.name)
        yield line


def header_of(line):
    """The header of a line; nothing where it isn't one, which the service will tell."""
    try:
        return pb_stream.read_header(pb_stream.message_of(line))
    except pb_stream.BAD:
        return None


def describing(lines, pairs):
    """Lines of a stream whose headers tell these pairs too. What a header tells of the unit and the decimals also goes with the
    first sample of each hour, as field values, since a service keeps those and passes over the headers of a feed."""
    header, hours, in_chunk = None, {}, False
    for line in lines:
        if line == b"\n":
            in_chunk = False
        elif not in_chunk:
            in_chunk, header = True, header_of(line)
            if header and pairs:
                header.headers = pairs + [pair for pair in header.headers if pair[0] not in dict(pairs)]
                line = pb_stream.header_line(header)
            about = [pair for pair in header.headers if pair[0] in ABOUT] if header else []
        elif about:
            line = described_line(line, header, about, hours)
        yield line


def described_line(line, header, about, hours):
    """A sample's line with these pairs where it is the first one of its hour, and has no field values of its own."""
    try:
        message = pb_stream.message_of(line)
        found = dict(pb_stream.fields(message))
        hour = (pb_stream.year_start(header.year) + found[1]) // 3_600
    except pb_stream.BAD:
        return line  # the service will tell
    if 7 in found or hours.get(header.name) == hour:
        return line
    hours[header.name] = hour
    return pb_stream.escape(message + pb_stream.of_pairs(7, about)) + b"\n"


def together(lines, size=1 << 16):
    """Lines in parts of about so many bytes, since one is too little to be sent by itself."""
    part = bytearray()
    for line in lines:
        part += line
        if len(part) >= size:
            yield bytes(part)
            part.clear()
    yield bytes(part)


def run_feed(options):
    """Sends a raw stream, and tells what became of it."""
    words = zip(ABOUT, (options.unit, options.precision))
    pairs = [(name, str(word)) for name, word in words if word is not None]
    with open(options.stream or 0, "rb") as stream:
        lines = describing(stream, pairs)
        told = send(options.server, together(registering(options.server, lines) if options.register else lines))
    print(f"kept {told.sum(0)} held {told.sum(1)} dropped {told.sum(2)} durable {told.durable}")
    if told.sum(2):
        why = "of no variable (--register), of a paused one, of another type, not later than its last one, or ahead of the clock"
        print(f"archappl: a sample is dropped that is {why}", file=sys.stderr)


def run_details(options):
    """Writes what is known of variables, one a line."""
    each = Each(options.pv)
    each.do(lambda pv: print(json.dumps(details(options.server, pv))))
    return each.status


def run_silent(options):
    """Writes the variables that are archived and had no sample for so long, with the last one's time."""
    since = sample_text.nanoseconds(sample_text.moment_of(options.since, time.time_ns()))
    each = Each(options.pv or names(options.server))

    def write_silent(pv):
        found = status(options.server, pv)
        times = newest(options.server, pv).times if found == "Being archived" else ()
        if len(times) and int(times[-1].astype("int64")) >= since or found in ("Paused", "Retired"):
            return
        each.status = 1
        print(pv, f"{times[-1]}Z" if len(times) else "none" if found == "Being archived" else "not archived")

    each.do(write_silent)
    return each.status


def run_names(options):
    """Writes all names."""
    for name in names(options.server):
        print(name)


def run_each(options):
    """Does one thing with each of some variables, and writes what came of it."""
    acts = {"status": lambda pv: status(options.server, pv), "pause": lambda pv: pause(options.server, pv),
            "resume": lambda pv: resume(options.server, pv)}
    each = Each(options.pv)
    each.do(lambda pv: print(pv, acts[options.word](pv) or "ok"))
    return each.status


def run_rename(options):
    """Gives a variable a new name under which it keeps its samples: pauses it, renames it, and resumes it on wish."""
    renamed(options.server, options.old, options.new, options.resume)
    print(options.old, options.new, "resumed" if options.resume else "paused")


def run_archive(options):
    """Registers variables, and writes each with the number of its row."""
    each = Each(options.pv)
    each.do(lambda pv: print(pv, archive(options.server, pv, options.type, options.scan)))
    return each.status


def run_flush(options):
    """Makes all samples durable, and writes how many weren't before."""
    print(flush(options.server))


def server_of_word(word):
    """The service that a word names."""
    try:
        return Server.of(word)
    except ValueError as error:
        raise argparse.ArgumentTypeError(str(error)) from None


def add_server(parser):
    """The word that names the service."""
    usual = os.environ.get("ARCHAPPL_SERVER") or USUAL
    parser.add_argument("--server", type=server_of_word, default=usual, metavar="HOST:FEEDPORT:HTTPPORT",
                        help=f"the service; without it what ARCHAPPL_SERVER has, or {USUAL}")


def parser_of_words():
    """The words of the command line."""
    parser = argparse.ArgumentParser(description=__doc__.split("\n")[0])
    add_server(parser)
    commands = parser.add_subparsers(dest="word", required=True)

    def command(word, run, what=None, *, interval=False, text=False):
        what = what or run.__doc__.split("\n")[0]
        found = commands.add_parser(word, help=what, description=what)
        found.set_defaults(run=run)
        if interval:
            found.add_argument("--from", dest="start", default="1h", help=sample_text.FORMS)
            found.add_argument("--to", dest="end", default="now", help="the same, or now")
        if text:
            found.add_argument("--csv", action="store_true", help="commas between the fields")
        return found

    add_words(command)
    return parser


def add_words(command):
    """The words of each command."""
    get_words = command("get", run_get, interval=True, text=True)
    get_words.add_argument("--raw", action="store_true", help="the raw stream as the service gives it")
    get_words.add_argument("--op", metavar="OPERATOR", help="thinned or counted: firstSample_60, lastSample_60, count_60, nth_10, ncount")
    plot_words = command("plot", run_plot, interval=True)
    plot_words.add_argument("--out", required=True, help="the picture's file; its ending says which kind")
    watch_words = command("watch", run_watch, text=True)
    watch_words.add_argument("--every", type=float, default=1.0, metavar="SECONDS", help="how many seconds to wait between two requests")
    archive_words = command("archive", run_archive)
    archive_words.add_argument("--type", required=True, choices=pb_stream.TYPES, metavar="TYPE", help="as SCALAR_INT")
    archive_words.add_argument("--scan", metavar="SECONDS", help="sample at this period, and not at each change")
    rename_words = command("rename", run_rename)
    rename_words.add_argument("--resume", action="store_true", help="take samples under the new name at once")
    rename_words.add_argument("old", help="the variable's name")
    rename_words.add_argument("new", help="the one that it gets")
    each = [command("status", run_each, "Writes of each variable whether it is archived."),
            command("pause", run_each, "Takes no more samples of variables."),
            command("resume", run_each, "Takes samples of variables again that were paused.")]
    for found in (get_words, plot_words, watch_words, archive_words, command("details", run_details), *each):
        found.add_argument("pv", nargs="+", help="names of variables")
    feed_words = command("feed", run_feed)
    feed_words.add_argument("--register", action="store_true", help="register the variables that aren't in the archive")
    feed_words.add_argument("--unit", help="the unit of all variables, as C")
    feed_words.add_argument("--precision", type=int, metavar="DECIMALS", help="how many decimals of a value are to be shown")
    feed_words.add_argument("stream", nargs="?", help="a file; standard input where it is left out")
    silent_words = command("silent", run_silent)
    silent_words.add_argument("--since", default="10m", help=sample_text.FORMS)
    silent_words.add_argument("pv", nargs="*", help="names of variables; all where left out")
    command("names", run_names)
    command("flush", run_flush)


def main():
    """Does what the words ask for."""
    options = parser_of_words().parse_args()
    try:
        return options.run(options) or 0
    except (ArchiverError, pb_stream.BadStream, OSError, ValueError) as error:
        if isinstance(error, BrokenPipeError):
            raise
        print(f"archappl: {error}", file=sys.stderr)
        return 1
    except KeyboardInterrupt:
        return 130


if __name__ == "__main__":
    try:
        sys.exit(main())
    except BrokenPipeError:
        sys.exit(1)
