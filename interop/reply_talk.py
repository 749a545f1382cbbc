"""A service over an archive that is asked one thing after another, and the comparison of what it tells with a model."""

import errno
import http.client
import io
import itertools
import resource
import socket
import struct
import time

import json_texts
from command_place import CasePlace, Service
from comparing import Difference, agree, compare_runs, run, shown
from http_model import MOST_TAKEN, HeadReader
from pb_model import Run
from reply_model import Site

# How bytes are sent: whether more comes behind those of a request, and whether the client ends its side behind them.
AT_ONCE, BYTE_BY_BYTE, BY_SEVENS, LEFT_OPEN, MORE_BEHIND = WAYS = (
    "at once", "byte by byte", "by sevens", "left open", "with more behind",
)
PIECES = {BYTE_BY_BYTE: 1, BY_SEVENS: 7}
# How long an answer may take; a stream has up to 80 MB.
SECONDS = 300
BEHIND = b"GET /mgmt/bpl/getAllPVs HTTP/1.1\r\n\r\n"


class Place(CasePlace):
    """Folders, and the program over them, which goes on where a file may not grow."""

    def start(self, words, before=(), **streams):
        return super().start(words, before, restore_signals=False, **streams)

    def command(self, word, data=b""):
        """A run of a command."""
        return run([self.program, word], data, SECONDS, cwd=self.folder, env=self.environment)


class Talk:
    """Streams that are brought into an archive, and then a service over it with one connection after another."""

    def __init__(self, place, ways):
        self.place = place
        self.ways = itertools.cycle(ways)
        self.site = Site()
        self.service = None
        self.replies = 0
        self.samples = 0

    def __enter__(self):
        return self

    def __exit__(self, *_):
        if self.service:
            self.service.__exit__()

    def act(self, word, data, worked):
        """One act of a table."""
        {"ingest": self.ingest, "etl": self.etl, "ask": self.ask, "feed": self.feed}[word](data, worked)

    # Before the service

    def ingest(self, stream, _worked=None):
        compare_runs(self.place.command("ingest", stream), self.site.ingest(stream, time.time_ns()))

    def etl(self, _data, worked):
        found = self.place.command("etl")
        compare_runs(found, self.site.etl(time.time_ns()))
        compare_runs(found, Run(0, worked, b""))

    # With the service

    def ports(self):
        """The ports of feeds and of requests."""
        if self.service is None:
            self.service = Service(self.place).__enter__()
        return self.service.ports

    def feed(self, stream, worked=None):
        """A feed, and what it is told."""
        way, wanted = next(self.ways), self.site.feed(stream, time.time_ns())
        found = sent(self.ports()[0], stream, way if way in PIECES else AT_ONCE)
        self.compare(f"a feed of {shown(stream)}, {way}", found, [wanted], worked)

    def ask(self, request, worked=None):
        """A request, and its reply, which is read by another reader of HTTP, too."""
        way, wanted = next(self.ways), self.site.replies(request)
        if way in (LEFT_OPEN, MORE_BEHIND) and not is_answered(request):
            way = AT_ONCE
        found = sent(self.ports()[1], request + (BEHIND if way == MORE_BEHIND else b""), way)
        self.compare(f"{shown(request)}, {way}", found, wanted, worked)
        self.samples += read_reply(request, found)

    def compare(self, what, found, wanted, worked):
        """What was told with what the model has, and with what was worked out."""
        if worked is not None:
            agree(f"{what}: whether the model has what was worked out", worked in wanted, True)
            wanted = [worked]
        if found not in wanted:
            raise Difference(f"{what}: {apart(found, wanted[0])}")
        self.replies += 1

    def is_sampled(self, name):
        """Whether a variable keeps what a tick of the service finds: what it has then depends on the time."""
        row = self.site.find(name)
        return row is not None and row.period != 0

    def let_grow(self, is_allowed):
        """Whether the service may write to files."""
        process = self.service.process.pid
        most = resource.prlimit(process, resource.RLIMIT_FSIZE)[1]
        resource.prlimit(process, resource.RLIMIT_FSIZE, (most if is_allowed else 0, most))
        self.site.fails = not is_allowed


def connected(port):
    """A connection whose pieces go out one by one."""
    link = socket.create_connection(("127.0.0.1", port), SECONDS)
    link.setsockopt(socket.IPPROTO_TCP, socket.TCP_NODELAY, 1)
    return link


def sent(port, data, way):
    """All that comes back of a connection that sends these bytes in this way."""
    with connected(port) as link:
        try:
            for at in range(0, len(data), PIECES.get(way, len(data) or 1)):
                link.sendall(data[at : at + PIECES.get(way, len(data))])
            if way not in (LEFT_OPEN, MORE_BEHIND):
                link.shutdown(socket.SHUT_WR)
        except OSError as error:
            # It was answered before it had all.
            if not isinstance(error, ConnectionError) and error.errno != errno.ENOTCONN:
                raise
        return rest_of(link)


def rest_of(link):
    """What comes up to the end, which may be a reset where bytes weren't read."""
    came = b""
    try:
        while more := link.recv(65_536):
            came += more
    except ConnectionError:
        pass
    return came


def reset(link):
    """Breaks a connection off."""
    link.setsockopt(socket.SOL_SOCKET, socket.SO_LINGER, struct.pack("ii", 1, 0))
    link.close()


def is_answered(request):
    """Whether bytes are answered before they end."""
    head = HeadReader()
    for byte in request[:MOST_TAKEN]:
        head.take(byte)
        if byte == ord("\n") and head.state in ("whole", "bad"):
            return True
    return len(request) >= MOST_TAKEN


def apart(found, wanted):
    """Where two texts part."""
    at = next((place for place, pair in enumerate(zip(found, wanted, strict=False)) if pair[0] != pair[1]), min(len(found), len(wanted)))
    begin = max(0, at - 60)
    return f"at byte {at} of {len(wanted)}: {shown(found[begin : at + 120])} and not {shown(wanted[begin : at + 120])}, {len(found)} bytes in all"


class Received:
    """Bytes in the place of a connection."""

    def __init__(self, data):
        self.data = data

    def makefile(self, *_):
        return io.BytesIO(self.data)


def read_reply(request, reply):
    """How many samples Python reads of a reply with JSON data, by its own readers of HTTP and of JSON."""
    response = http.client.HTTPResponse(Received(reply), method="GET")
    response.begin()
    body = response.read()
    if response.status == 200 and request.split(b"\n")[0].partition(b"?")[0].endswith(b"/getData.json"):
        try:
            return json_texts.check_text(body.decode())
        except (AssertionError, ValueError, TypeError, IndexError) as error:
            raise Difference(f"{shown(request)}: the JSON text: {error!r}") from None
    return 0
