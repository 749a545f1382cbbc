"""The cases of `interop/replies` that are more than one connection after another: open and broken ones, a disk that fails, files that
are damaged beneath a service, and a catalogue that is full."""

import itertools
import socket
import subprocess
import time
from pathlib import Path

import reply_rows
from comparing import Difference, agree, shown
from pb_model import escape
from reply_model import MOST_ROWS, Variable
from reply_rows import ALL, FIFTH, FIRST, HEADER, NINTH, ONE, asked, data_head, get, registered
from reply_talk import AT_ONCE, connected, reset, rest_of, sent
from store_model import number_field

RAW = "/retrieval/data/getData.raw?pv=A%3AB&" + ALL
# How long something may take that the service does by itself.
PATIENCE = 30


def all_of(talk, acts):
    for act in acts:
        talk.act(*act)


def calls(queries):
    return ["/mgmt/bpl/" + query for query in queries]


def front_of(link, count):
    """The next so many bytes that come."""
    came = b""
    while len(came) < count:
        more = link.recv(count - len(came))
        if not more:
            raise Difference(f"a connection ended behind {shown(came)}")
        came += more
    return came


def line_of(link):
    """The next line that comes."""
    line = b""
    while not line.endswith(b"\n"):
        line += front_of(link, 1)
    return line


# Open and broken connections


def asking_feed(talk):
    """A feed that asks after each chunk, and requests beside it: what is kept is in an answer at once."""
    talk.act(*registered())
    with connected(talk.ports()[0]) as link:
        for lines, told, kept in [(FIRST, b"ok 1 0 0\n", [FIRST]), (FIFTH + NINTH, b"ok 2 0 0\n", [FIRST, FIFTH, NINTH])]:
            link.sendall(HEADER + lines + b"\n")
            agree("what is told of a chunk", line_of(link), told)
            found = sent(talk.ports()[1], get(RAW, 0), AT_ONCE)
            agree("what is kept", found, data_head("octet-stream", 0) + HEADER + b"".join(kept))
        # A chunk without samples, which has not ended.
        link.sendall(HEADER)
        agree("the names", sent(talk.ports()[1], get("/mgmt/bpl/getAllPVs"), AT_ONCE), reply_rows.answer("200 OK", 8, '["A:B"]'))
        link.shutdown(socket.SHUT_WR)
        agree("what is told at the end", rest_of(link), b"ok 0 0 0\ndurable 3\n")


def broken_feeds(talk):
    """Feeds that break off: what was told is kept, and the line that was cut off isn't."""
    talk.act(*registered())
    link = connected(talk.ports()[0])
    link.sendall(ONE + b"\n")
    agree("what is told of a chunk", line_of(link), b"ok 1 0 0\n")
    link.sendall(HEADER + FIFTH[:5])
    reset(link)
    talk.site.feed(ONE, time.time_ns())
    talk.site.rows[0].durable = 0
    talk.ask(get("/mgmt/bpl/flush"))
    talk.ask(get("/mgmt/bpl/getPVDetails?pv=A%3AB"))
    talk.ask(get(RAW))
    # Nothing at all is sent.
    reset(connected(talk.ports()[0]))
    talk.feed(HEADER + FIFTH, b"ok 1 0 0\ndurable 1\n")


def broken_requests(talk):
    """Requests that break off make no act, and readers that leave keep nobody from going on."""
    lines = [escape(number_field(1, second) + b"\x10\x00\x1d\x01\x00\x00\x00") + b"\n" for second in range(3_600)]
    talk.ingest(HEADER + b"".join(lines))
    request = get("/mgmt/bpl/archivePV?pv=A%3AC&type=SCALAR_INT")
    for length in (0, 1, 20, len(request) - 2, len(request) - 1):
        link = connected(talk.ports()[1])
        link.sendall(request[:length])
        reset(link)
    talk.act(*asked("getAllPVs", "200 OK", 8, '["A:B"]'))
    for taken in (0, 1, 100, 20_000):
        link = connected(talk.ports()[1])
        link.sendall(get(RAW))
        came = front_of(link, taken)
        reset(link)
        agree("the front of a reply", came, talk.site.replies(get(RAW))[0][:taken])
    talk.ask(get(RAW))


def sampled(talk):
    """A variable that is sampled each second: of what is held the last is kept, and of the others maybe some."""
    talk.act(*registered("pv=A%3AB&type=SCALAR_INT&samplingmethod=SCAN&samplingperiod=1"))
    talk.act("feed", HEADER + FIRST + FIFTH + NINTH, b"ok 0 3 0\ndurable 0\n")
    some = itertools.product((b"", FIRST), (b"", FIFTH))
    wanted = [data_head("octet-stream", 0) + HEADER + first + fifth + NINTH for first, fifth in some]
    until = time.monotonic() + PATIENCE
    while (found := sent(talk.ports()[1], get(RAW, 0), AT_ONCE)) not in wanted:
        if time.monotonic() > until:
            raise Difference(f"after {PATIENCE} seconds a variable that is sampled has {shown(found)}")
        time.sleep(0.05)


# A new name that waits

ATTEMPTS = 30
DONE = reply_rows.answer("200 OK", 16, '{"status":"ok"}')
# What is refused while the first sample alone is kept and nothing is durable, and while the ninth is kept and the fifth is durable.
WAITING = [
    (FIRST, reply_rows.answer("409 Conflict", 59, '{"status":"E33","last":1704067201000000000,"durable":null}')),
    (NINTH, reply_rows.answer("409 Conflict", 74, '{"status":"E33","last":1704067209000000000,"durable":1704067205000000000}')),
]


def waiting_name(talk):
    """A new name waits until the last sample is durable. The service flushes by itself, so it comes to that now and then alone."""
    found = set()
    for row in range(ATTEMPTS):
        name = f"W:{row}"
        sample, wanted = WAITING[row % 2]
        header = HEADER.replace(b"\x03A:B", bytes([len(name)]) + name.encode())
        talk.act(*registered(f"pv={name}&type=SCALAR_INT", 2 * row))
        if sample == NINTH:
            talk.feed(header + FIFTH, b"ok 1 0 0\ndurable 1\n")
        with connected(talk.ports()[0]) as link:
            link.sendall(header + sample + b"\n")
            agree("what is told of a chunk", line_of(link), b"ok 1 0 0\n")
            ports, new = talk.ports(), f"V:{row}"
            agree("a pause", sent(ports[1], get(f"/mgmt/bpl/pauseArchivingPV?pv={name}"), AT_ONCE), DONE)
            told = sent(ports[1], get(f"/mgmt/bpl/renamePV?pv={name}&newname={new}"), AT_ONCE)
            if told != DONE:
                agree("a new name before all is durable", told, wanted)
                found.add(sample)
                sent(ports[1], get("/mgmt/bpl/flush"), AT_ONCE)
                agree("a new name", sent(ports[1], get(f"/mgmt/bpl/renamePV?pv={name}&newname={new}"), AT_ONCE), DONE)
            link.shutdown(socket.SHUT_WR)
            agree("what is told at the end", rest_of(link), b"durable 1\n")
        talk.site.feed(header + sample, time.time_ns())
        talk.site.rename(2 * row, new.encode())
        talk.ask(get(f"/retrieval/data/getData.raw?pv={new}&" + ALL))
        talk.ask(get(f"/mgmt/bpl/getPVDetails?pv={new}"))
        if len(found) == len(WAITING):
            return
    raise Difference(f"of {ATTEMPTS} new names {len(found)} had to wait")


# A disk that fails

DISK = reply_rows.answer("500 Internal Server Error", 18, '{"status":"disk"}')
# A sample is kept, and can't be made durable; and a bad line is behind it.
FAILED_FEEDS = [
    (HEADER + FIFTH, b"ok 1 0 0\nfault disk\n"),
    (HEADER + NINTH + b"\x08\x01\x1b\x04\n", b"fault disk\n"),
]


def failing_disk(talk):
    """No file may be written: what needs no writing goes on, the rest is told so, and once writes go well again so does all."""
    all_of(talk, [registered(), registered("pv=P&type=SCALAR_INT", 1), asked("pauseArchivingPV?pv=P", "200 OK", 16, '{"status":"ok"}')])
    talk.feed(HEADER + FIRST, b"ok 1 0 0\ndurable 1\n")
    states = ["getAllPVs", "getPVStatus?pv=A%3AB", "getPVStatus?pv=C", "getPVDetails?pv=A%3AB", "getPVDetails?pv=P", "resumeArchivingPV?pv=A%3AB"]
    asking = [*calls(states), reply_rows.RAW, reply_rows.JSON]
    changes = calls(["flush", "renamePV?pv=P&newname=Q", "pauseArchivingPV?pv=A%3AB", "archivePV?pv=C&type=SCALAR_INT"])
    talk.let_grow(False)
    for path in asking:
        talk.ask(get(path))
    for stream, told in FAILED_FEEDS:
        talk.feed(stream, told)
    for path in changes:
        talk.ask(get(path), DISK)
    talk.let_grow(True)
    for path in [*changes, *calls(["resumeArchivingPV?pv=Q", "getPVDetails?pv=Q"]), *asking]:
        talk.ask(get(path))


# Acts of which one began and failed: what became of it can't be found out, so nothing that asks the disk is told anything else.
DEAD = [
    *calls(["pauseArchivingPV?pv=A%3AB", "getPVStatus?pv=A%3AB", "getPVDetails?pv=A%3AB", "renamePV?pv=P&newname=Q"]),
    *calls(["resumeArchivingPV?pv=P", "archivePV?pv=C&type=SCALAR_INT", "flush"]),
    reply_rows.RAW,
    reply_rows.JSON,
]


def dead_disk(talk):
    """Each call of the disk fails, of reads too: all are told so, and once the disk is well again all goes on."""
    all_of(talk, [registered(), registered("pv=P&type=SCALAR_INT", 1), asked("pauseArchivingPV?pv=P", "200 OK", 16, '{"status":"ok"}')])
    talk.feed(HEADER + FIRST, b"ok 1 0 0\ndurable 1\n")
    with Failing(talk.service.process.pid):
        for path in DEAD:
            agree(path, sent(talk.ports()[1], get(path), AT_ONCE), DISK)
        talk.act(*asked("getAllPVs", "200 OK", 12, '["A:B","P"]'))
        talk.site.fails = True
        talk.feed(HEADER + FIFTH, b"ok 1 0 0\nfault disk\n")
        talk.site.fails = False
    talk.ask(get("/mgmt/bpl/flush"))
    for path in ["/mgmt/bpl/getPVStatus?pv=A%3AB", *DEAD]:
        talk.ask(get(path))


class Failing:
    """Makes each call of the disk fail that a process makes, until the end."""

    CALLS = "openat,pread64,pwrite64,fsync,fdatasync,ftruncate"

    def __init__(self, process):
        self.process = process

    def __enter__(self):
        words = ["strace", "-f", "-qq", "-o", "/dev/null", "-e", f"inject={self.CALLS}:error=EIO", "-p", str(self.process)]
        self.tracing = subprocess.Popen(words, stderr=subprocess.PIPE)
        until = time.monotonic() + PATIENCE
        while not all(self.is_traced(task) for task in Path(f"/proc/{self.process}/task").iterdir()):
            if self.tracing.poll() is not None or time.monotonic() > until:
                raise Difference(f"strace can't trace the service: {self.tracing.communicate()[1]}")
            time.sleep(0.02)
        return self

    @staticmethod
    def is_traced(task):
        return "TracerPid:\t0\n" not in (task / "status").read_text()

    def __exit__(self, *_):
        self.tracing.terminate()
        self.tracing.communicate()


# Files beneath a service


def spoilt(path):
    """Another byte in the middle of a file: an escape that is none."""
    data = bytearray(path.read_bytes())
    at = data.index(b"\n", len(data) // 2) + 1
    data[at : at + 2] = b"\x1b\x04"
    path.write_bytes(data)


def cut(path):
    """A file ends in its middle."""
    path.write_bytes(path.read_bytes()[: path.stat().st_size // 2])


def broken_files(talk):
    """A reply breaks off where a file is damaged or too short: its front goes out, and no end."""
    lines = [escape(number_field(1, second) + b"\x10\x00\x1d\x01\x00\x00\x00") + b"\n" for second in range(3_600)]
    stream = HEADER + b"".join(lines)
    talk.ingest(b"\n".join([stream, stream.replace(b"A:B", b"A:C"), stream.replace(b"A:B", b"A:D")]))
    talk.ask(get(RAW))
    for name, breaks in (("B", spoilt), ("C", cut)):
        breaks(talk.place.folder / f"sts/A/{name}:2024_01_01_00.pb")
        for kind, version in (("raw", 1), ("json", 1), ("raw", 0), ("json", 0)):
            request = get(f"/retrieval/data/getData.{kind}?pv=A%3A{name}&{ALL}", version)
            whole, found = talk.site.replies(request)[0], sent(talk.ports()[1], request, AT_ONCE)
            head = data_head("json" if kind == "json" else "octet-stream", version)
            if not (len(found) < len(whole) and whole.startswith(found) and found.startswith(head)):
                told = f"{len(found)} bytes of {len(whole)}: {shown(found[-80:])}"
                raise Difference(f"a reply over a broken file ({kind}, HTTP/1.{version}): {told}")
    talk.ask(get("/retrieval/data/getData.json?pv=A%3AD&" + ALL))


def full_catalogue(talk):
    """65,536 variables, of which all but one are in a catalogue that was written by hand."""
    names = [b"R:%d" % number for number in range(MOST_ROWS - 1)]
    batch = b"".join(b"\x01" + four(row) + four(len(name)) + name + b"\x05" + bytes(18) for row, name in enumerate(names))
    folder = talk.place.folder / "site"
    folder.mkdir()
    (folder / "catalogue").write_bytes(b"\x01" + four(len(batch)) + batch + b"\x00")
    talk.site.rows = [Variable(name, 5, None, []) for name in names]
    acts = [
        registered("pv=R:65535&type=SCALAR_INT", 65_535),
        asked("archivePV?pv=A%3AB&type=SCALAR_INT", "409 Conflict", 17, '{"status":"E20"}'),
        asked("archivePV?pv=R-65535&type=SCALAR_INT", "409 Conflict", 29, '{"status":"E19","row":65535}'),
        asked("archivePV?pv=R:1024&type=SCALAR_INT", "409 Conflict", 28, '{"status":"E18","row":1024}'),
    ]
    all_of(talk, acts)
    talk.ask(get("/mgmt/bpl/getAllPVs"))
    talk.feed(HEADER.replace(b"\x03A:B", b"\x07R:65535") + FIRST, b"ok 1 0 0\ndurable 1\n")


def four(number):
    return number.to_bytes(4, "little")


# All cases: whether each way of sending has a run of its own, or one comes after the other.

TABLES = {
    "management": (reply_rows.of_management, True),
    "refusals": (reply_rows.of_refusals, True),
    "data of files": (reply_rows.of_data, True),
    "data of a feed": (reply_rows.of_fed_data, False),
    "bins": (reply_rows.of_bins, False),
    "feeds": (lambda: reply_rows.of_feeds(time.time_ns()), True),
    "hostile feeds": (reply_rows.of_hostile_feeds, True),
    "renaming": (reply_rows.of_renaming, True),
    "moves": (reply_rows.of_moves, False),
    "heads": (reply_rows.of_heads, True),
    "texts": (reply_rows.of_texts, False),
    "long texts": (reply_rows.of_long_texts, False),
}
OTHERS = {
    "an asking feed": asking_feed,
    "broken feeds": broken_feeds,
    "broken requests": broken_requests,
    "a sampled variable": sampled,
    "a new name that waits": waiting_name,
    "a failing disk": failing_disk,
    "a dead disk": dead_disk,
    "broken files": broken_files,
    "a full catalogue": full_catalogue,
    "an endless line": lambda talk: all_of(talk, reply_rows.of_endless_line()),
    "full intakes": lambda talk: all_of(talk, reply_rows.of_full_intakes()),
}
