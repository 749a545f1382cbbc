"""The services that bench/serve measures: archappl and InfluxDB, each told what to take and asked for the same."""

import ctypes
import json
import os
import shutil
import signal
import socket
import struct
import subprocess
import threading
import time
from dataclasses import dataclass
from urllib.parse import quote

from serve_samples import MILLISECOND, chunk_text, protocol_lines, samples_of_raw
from pb_model import iso

HOST = "127.0.0.1"
# How long a call may take before it counts as failed.
PATIENCE = 60
PROTOCOL_BATCH = 5_000


class Failed(Exception):
    """A service did what makes figures worthless."""


def agree(what, found, wanted):
    """Ends the measures where a service told something else than it must."""
    if found != wanted:
        raise Failed(f"{what}: {found!r:.300} and not {wanted!r:.300}")


# Processes


def dies_with_parent():
    """Has the system kill this process when the script ends, however that ends: PR_SET_PDEATHSIG is 1."""
    ctypes.CDLL(None).prctl(1, signal.SIGKILL)


STARTED = []


def started(words, **options):
    """A process that doesn't outlive the script. Only the main thread may start one."""
    process = subprocess.Popen(words, stdin=subprocess.DEVNULL, preexec_fn=dies_with_parent, **options)
    STARTED.append(process)
    return process


def end_all():
    """Ends all processes that are still there."""
    for process in STARTED:
        process.kill()
        process.wait()


def free_ports(count):
    """Ports of the loopback that nobody has."""
    listeners = [socket.create_server((HOST, 0)) for _ in range(count)]
    ports = [listener.getsockname()[1] for listener in listeners]
    for listener in listeners:
        listener.close()
    return ports


# Connections


@dataclass
class Answer:
    """A body, how many bytes its whole reply had, and after how many seconds its first byte and its last one came."""

    body: bytes
    size: int
    first: float
    last: float


def connected(port):
    """A connection to a port."""
    return socket.create_connection((HOST, port), PATIENCE)


def unchunked(text):
    """The body of a reply in chunks, which must be whole."""
    parts, at = [], 0
    while True:
        end = text.index(b"\r\n", at)
        size = int(text[at:end], 16)
        if size == 0:
            return b"".join(parts)
        parts.append(text[end + 2 : end + 2 + size])
        at = end + 4 + size


def body_of(reply):
    """The body of a whole reply whose status is 200."""
    head, _, text = reply.partition(b"\r\n\r\n")
    agree("the status", head[9:12], b"200")
    if b"transfer-encoding: chunked" in head.lower():
        return unchunked(text)
    return text


def ask(port, target, accept=None, method="GET"):
    """The answer to a request over a connection of its own. The first byte is that of the body: a head tells nothing."""
    field = f"Accept: {accept}\r\n" if accept else ""
    request = f"{method} {target} HTTP/1.1\r\nHost: {HOST}\r\nConnection: close\r\n{field}\r\n".encode()
    reply, first, last = bytearray(), None, None
    began = time.perf_counter()
    with connected(port) as peer:
        peer.sendall(request)
        while data := peer.recv(1 << 20):
            last = time.perf_counter() - began
            reply += data
            if first is None and 0 <= reply.find(b"\r\n\r\n") < len(reply) - 4:
                first = last
    return Answer(body_of(bytes(reply)), len(reply), first, last)


def send(peer, text):
    """Sends all, and ends. Where the peer is gone the reader of what it tells finds that."""
    try:
        peer.sendall(text)
        peer.shutdown(socket.SHUT_WR)
    except OSError:
        pass


def read_told(peer, wanted):
    """Reads what a peer must tell."""
    told = b""
    while len(told) < len(wanted) and (data := peer.recv(65_536)):
        told += data
    agree("what was told", told, wanted)


class Service:
    """A process that serves."""

    def __init__(self, folder):
        self.folder = folder
        folder.mkdir()
        self.process = None

    def start(self, words, is_open, **options):
        """Starts the process, and waits until it serves."""
        with (self.folder / "log").open("ab") as log:
            self.process = started(words, cwd=self.folder, stdout=log, stderr=log, **options)
        until = time.monotonic() + PATIENCE
        while not is_open():
            if self.process.poll() is not None or time.monotonic() > until:
                raise Failed(f"{words[0]} doesn't serve: {self.log()}")
            time.sleep(0.02)

    def log(self):
        """What the process told last."""
        return (self.folder / "log").read_text()[-500:]

    def processor(self):
        """The seconds that the process took of the processor so far."""
        with open(f"/proc/{self.process.pid}/stat", encoding="ascii") as file:
            numbers = file.read().rpartition(")")[2].split()
        return (int(numbers[11]) + int(numbers[12])) / os.sysconf("SC_CLK_TCK")

    def memory(self):
        """What is resident, and the most that ever was, in MB."""
        with open(f"/proc/{self.process.pid}/status", encoding="ascii") as file:
            told = dict(line.split(":", 1) for line in file)
        return [int(told[name].split()[0]) / 1000 for name in ("VmRSS", "VmHWM")]


# archappl


class Archappl(Service):
    """The program, as `serve`, with as many doors as it may have."""

    title = "archappl"
    forms = {"raw": ("raw PB", None), "JSON": ("JSON", None)}
    durability = "`durable` is told behind a flush with fsync; ten flushes a second go on beside"
    doors = 64

    def __init__(self, folder, program):
        super().__init__(folder)
        self.program = program
        self.feed_port, self.http_port = free_ports(2)
        self.environment = {name: text for name, text in os.environ.items() if not name.startswith("ARCHAPPL_")}
        for name in ("SITE", "SHORT_TERM", "MEDIUM_TERM", "LONG_TERM"):
            self.environment[f"ARCHAPPL_{name}_FOLDER"] = str(folder / name.lower())

    def begin(self):
        """Starts the service."""
        words = [self.program, "serve", self.feed_port, self.http_port, self.doors, 0]
        self.start([str(word) for word in words], lambda: f"port {self.http_port}" in self.log(), env=self.environment)

    def register(self, names):
        """Registers variables of SCALAR_DOUBLE."""
        for name in names:
            answer = ask(self.http_port, f"/mgmt/bpl/archivePV?pv={name}&type=SCALAR_DOUBLE")
            agree("a registration", json.loads(answer.body)["status"], "ok")

    def prepared(self, spans):
        """The bytes of a feed, and what it must be told."""
        text = b"".join(chunk_text(span) for span in spans)
        told = b"".join(b"ok %d 0 0\n" % span.count for span in spans)
        return text, told, b"durable %d\n" % sum(span.count for span in spans)

    def feed(self, prepared):
        """Sends a feed until all of it is durable."""
        text, told, durable = prepared
        with connected(self.feed_port) as peer:
            # What is told is read meanwhile, lest both wait for one another.
            sender = threading.Thread(target=send, args=(peer, text), daemon=True)
            sender.start()
            read_told(peer, told + durable)
            sender.join()

    def durable_seconds(self, prepared):
        """How long after it was sent a short feed is durable. The clock is read before, since the service may work
        while the sending still returns."""
        text, told, durable = prepared
        with connected(self.feed_port) as peer:
            sent = time.perf_counter()
            peer.sendall(text)
            peer.shutdown(socket.SHUT_WR)
            read_told(peer, told + durable)
            return time.perf_counter() - sent

    def feeding(self):
        """A connection that takes one feed after another."""
        return connected(self.feed_port)

    def hears(self, peer, prepared):
        """Reads what the last of them is told."""
        read_told(peer, prepared[1])

    def target(self, form, span):
        """What asks for a span, where the last sample before it comes too."""
        first, last = iso(span.moment(span.first + 1), 0), iso(span.moment(span.first + span.count - 1), 0)
        return f"/retrieval/data/getData.{form.lower()}?pv={span.name}&from={first}&to={last}"

    def thinned(self, form, span, width):
        """What asks for the first sample of each bin of so many seconds of a span."""
        first, last = iso(span.moment(span.first), 0), iso(span.moment(span.first + span.count - 1), 0)
        return f"/retrieval/data/getData.{form.lower()}?pv=firstSample_{width}({span.name})&from={first}&to={last}"

    def samples(self, form, body):
        """The samples of an answer."""
        if form == "raw":
            return samples_of_raw(body)
        listed = json.loads(body)[0]["data"]
        values = (struct.unpack(">d", bytes.fromhex(one["val"][2:]))[0] for one in listed)
        return [(one["secs"] * 10**9 + one["nanos"], value) for one, value in zip(listed, values)]

    def end(self):
        """Stops the service by its file, and gives how many samples the archive has then."""
        (self.folder / "site/stop").touch()
        agree("the service's status", self.process.wait(PATIENCE), 0)
        words = [self.program, "status"]
        done = subprocess.run(words, env=self.environment, cwd=self.folder, capture_output=True, check=True, text=True)
        return sum(int(line.split()[4]) for line in done.stdout.splitlines())


# InfluxDB

# Of MessagePack by the first byte: how the number is packed that stands behind it.
NUMBERS = {0xCA: ">f", 0xCB: ">d", 0xCC: ">B", 0xCD: ">H", 0xCE: ">I", 0xCF: ">Q",
           0xD0: ">b", 0xD1: ">h", 0xD2: ">i", 0xD3: ">q"}
SIZES = {0xD9: ("text", ">B"), 0xDA: ("text", ">H"), 0xDC: ("list", ">H"), 0xDD: ("list", ">I"), 0xDE: ("map", ">H")}
CONSTANTS = {0xC0: None, 0xC2: False, 0xC3: True}


def packed_head(data, at):
    """What begins at a place of MessagePack, its size or value, and the place behind that."""
    kind = data[at]
    for least, below, name in ((0xA0, 0xC0, "text"), (0x90, 0xA0, "list"), (0x80, 0x90, "map"), (0, 0x80, "value")):
        if least <= kind < below:
            return name, kind - least, at + 1
    if kind in CONSTANTS:
        return "value", CONSTANTS[kind], at + 1
    name, form = SIZES[kind] if kind in SIZES else ("value", NUMBERS[kind])
    return name, struct.unpack_from(form, data, at + 1)[0], at + 1 + struct.calcsize(form)


def unpacked(data, at=0):
    """A value of MessagePack, and the place behind it."""
    name, size, at = packed_head(data, at)
    if name == "value":
        return size, at
    if name == "text":
        return data[at : at + size].decode(), at + size
    found = []
    for _ in range(2 * size if name == "map" else size):
        value, at = unpacked(data, at)
        found.append(value)
    return (dict(zip(found[::2], found[1::2])) if name == "map" else found), at


def all_unpacked(data):
    """The values of MessagePack that stand one behind another."""
    found, at = [], 0
    while at < len(data):
        value, at = unpacked(data, at)
        found.append(value)
    return found


INFLUX = """reporting-disabled = true
bind-address = "{host}:{rpc_port}"
[meta]
  dir = "{folder}/meta"
[data]
  dir = "{folder}/data"
  wal-dir = "{folder}/wal"
  wal-fsync-delay = "0s"
  query-log-enabled = false
[monitor]
  store-enabled = false
[http]
  bind-address = "{host}:{http_port}"
  log-enabled = false
"""


class Influx(Service):
    """InfluxDB as Debian has it, with its shipped settings but for logs, monitoring and reports."""

    title = "InfluxDB"
    forms = {"raw": ("MessagePack", "application/x-msgpack"), "JSON": ("JSON", None)}
    durability = "a batch is answered behind an fsync of the log (`wal-fsync-delay = \"0s\"`)"

    def __init__(self, folder):
        super().__init__(folder)
        self.program = shutil.which("influxd")
        if self.program is None:
            raise Failed("influxd isn't there: apt-get install influxdb, or measure with --alone")
        self.http_port, self.rpc_port = free_ports(2)

    def begin(self):
        """Starts the service, and makes its base."""
        settings = self.folder / "influxdb.conf"
        settings.write_text(INFLUX.format(host=HOST, folder=self.folder, rpc_port=self.rpc_port, http_port=self.http_port))
        self.start([self.program, "-config", str(settings)], self.is_open)
        ask(self.http_port, f"/query?q={quote('CREATE DATABASE bench')}", method="POST")

    def is_open(self):
        """Whether it answers."""
        try:
            with connected(self.http_port) as peer:
                peer.sendall(b"GET /ping HTTP/1.1\r\nHost: bench\r\n\r\n")
                return peer.recv(100).startswith(b"HTTP/1.1 204")
        except OSError:
            return False

    def register(self, names):
        """Variables come with their first samples."""

    def prepared(self, spans):
        """Whole requests, a batch each. What is of one time stands together, as it comes."""
        lines = [line for span in spans for line in protocol_lines(span)]
        bodies = ("".join(lines[at : at + PROTOCOL_BATCH]).encode() for at in range(0, len(lines), PROTOCOL_BATCH))
        head = f"POST /write?db=bench&precision=ms HTTP/1.1\r\nHost: {HOST}\r\nContent-Length: "
        return [f"{head}{len(body)}\r\n\r\n".encode() + body for body in bodies]

    def hears(self, peer, _=None):
        """Reads the reply to a batch, behind which it is durable."""
        told = b""
        while not told.endswith(b"\r\n\r\n") and (data := peer.recv(65_536)):
            told += data
        agree("the reply to a batch", told[:12], b"HTTP/1.1 204")

    def feed(self, prepared):
        """Sends batches over one connection until all are durable."""
        with connected(self.http_port) as peer:
            for request in prepared:
                peer.sendall(request)
                self.hears(peer)

    def durable_seconds(self, prepared):
        """How long after it was sent a batch is durable."""
        with connected(self.http_port) as peer:
            sent = time.perf_counter()
            peer.sendall(prepared[0])
            self.hears(peer)
            return time.perf_counter() - sent

    def feeding(self):
        """A connection that takes one batch after another."""
        return connected(self.http_port)

    def query(self, text):
        """What asks a question."""
        return f"/query?db=bench&epoch=ms&q={quote(text)}"

    def of_span(self, what, span, rest=""):
        """What asks for something of the values of a span. Both forms are asked for alike, and told apart by the head."""
        first, last = span.moment(span.first) // MILLISECOND, span.moment(span.first + span.count - 1) // MILLISECOND
        where = f"\"name\" = '{span.name}' AND time >= {first}ms AND time <= {last}ms"
        return self.query(f"SELECT {what} FROM \"pv\" WHERE {where}{rest}") + "&chunked=true"

    def target(self, _, span):
        """What asks for a span."""
        return self.of_span("\"value\"", span)

    def thinned(self, _, span, width):
        """What asks for the first sample of each bin of so many seconds of a span. It is told at the bin's start."""
        return self.of_span("first(\"value\")", span, f" GROUP BY time({width}s) fill(none)")

    def samples(self, form, body):
        """The samples of an answer."""
        texts = all_unpacked(body) if form == "raw" else map(json.loads, body.splitlines())
        listed = [series for text in texts for series in text["results"][0].get("series", [])]
        return [(moment * MILLISECOND, value) for series in listed for moment, value in series["values"]]

    def end(self):
        """How many samples the base has, and the end of the service."""
        told = json.loads(ask(self.http_port, self.query("SELECT count(\"value\") FROM \"pv\"")).body)
        self.process.terminate()
        self.process.wait(PATIENCE)
        return told["results"][0]["series"][0]["values"][0][1]
