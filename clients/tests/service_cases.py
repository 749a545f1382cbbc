"""Cases of `clients/archappl.py` over a running service.

Samples and their bytes come from interop/serve_model.py, which is written apart from the clients.
"""

import json
import os
import pty
import signal
import socket
import struct
import subprocess
import sys
import threading
import time
import urllib.request
from datetime import datetime, timezone

import archappl
import drawing
import numpy
import pb_stream
import serve_model
from cases import CLIENTS, PATIENCE, Failed, run, started, status_of, told_by, want
from running import Service, free_ports

SECOND = 1_000_000_000
ALL = ("1991-01-01T00:00:00Z", "2499-12-31T23:59:59Z")


# Samples


def shown(element, value):
    """A value as serve_model shows it: floats as their bits."""
    if isinstance(value, bytes):
        return list(value)
    if isinstance(value, (list, numpy.ndarray)):
        return [shown(element, one) for one in value]
    forms = {"FLOAT": (numpy.uint32, 8), "DOUBLE": (numpy.uint64, 16)}
    if element in forms:
        form, digits = forms[element]
        return f"0x{int(value.view(form)):0{digits}x}"
    return value if isinstance(value, str) else int(value)


def same_samples(what, piece, samples):
    """A piece has just these samples of the model."""
    want(f"the times of {what}", piece.times.astype("int64").tolist(), [sample.moment for sample in samples])
    found = [shown(piece.header.element, value) for value in piece.values]
    want(f"the values of {what}", found, [sample.shown["val"] for sample in samples])
    want(f"the severities of {what}", piece.severities.tolist(), [sample.shown["severity"] for sample in samples])
    want(f"the statuses of {what}", piece.statuses.tolist(), [sample.shown["status"] for sample in samples])


def chunks_of(variable, number):
    """Chunks of so many samples of a variable of the model."""
    chunks = []
    while variable.accepted < number:
        end, lines = variable.chunk(number - variable.accepted)
        chunks.append(b"".join(lines) + b"\n")
        variable.accepted = end
    return chunks


def fed_and_got(rng, service):
    """Samples of each type that are fed, and got by intervals."""
    for number, type_name in enumerate(serve_model.TYPES):
        variable = serve_model.Variable(f"ALL:{type_name}", number, serve_model.STEPS[number % 4], rng)
        want("the row", archappl.archive(service.address, variable.name, type_name), number)
        told = archappl.send(service.address, chunks_of(variable, 300))
        want("what the feed is told", (told.sum(0), told.sum(1), told.sum(2), told.durable), (300, 0, 0, 300))
        got = archappl.get(service.address, variable.name, *ALL)
        want("the type of times", str(got.times.dtype), "datetime64[ns]")
        want("the header", (got.header.name, got.header.type_name), (variable.name, type_name))
        same_samples(type_name, got, variable.samples[:300])
        for _ in range(3):
            ends = sorted(rng.choice(variable.samples[:300]).moment + rng.choice((-1, 0, 1)) for _ in range(2))
            interval = serve_model.Interval(*ends)
            wanted = serve_model.answer(variable.samples, interval, 300)
            start = numpy.datetime64(ends[0], "ns") if rng.random() < 0.5 else serve_model.iso(ends[0])
            got = archappl.get(service.address, variable.name, start, ends[1])
            same_samples(f"{type_name} {interval}", got, wanted)
            begin, end = interval.bounds(variable.samples[:300])
            for word, number in (("firstSample", 60), ("lastSample", 900), ("count", 3_600), ("nth", 7), ("ncount", 1)):
                operator = serve_model.Operator(word, number)
                got = archappl.thinned(service.address, variable.name, start, ends[1], str(operator))
                want(f"the type of {operator}", got.header.type_name, "SCALAR_INT" if "count" in word else type_name)
                same_samples(f"{operator} of {type_name} {interval}", got, operator.of(variable.samples[begin:end], interval))


def long_answer(_, service):
    """An answer of several pieces, in one array."""
    start, number = pb_stream.year_start(2024) * SECOND, 70_000
    lines = [serve_model.of_number(1, 6) + serve_model.of_bytes(2, b"LONG:ONE") + serve_model.of_number(3, 2024)]
    lines += [serve_model.of_number(1, second) + b"\x10\x00\x19" + struct.pack("<d", second / 7)
              for second in range(number)]
    chunk = b"".join(serve_model.escape(line) + b"\n" for line in lines)
    archappl.archive(service.address, "LONG:ONE", "SCALAR_DOUBLE")
    told = archappl.send(service.address, [chunk[at : at + 100_000] for at in range(0, len(chunk), 100_000)])
    want("how many are durable", told.durable, number)
    got = archappl.get(service.address, "LONG:ONE", *ALL)
    want("the times", got.times.astype("int64").tolist(), [start + second * SECOND for second in range(number)])
    want("the values", got.values.tolist(), [second / 7 for second in range(number)])


# Management


def refused(work, status, word):
    """Something is refused with this status and word, which the message names."""
    try:
        work()
    except archappl.Refused as error:
        want("what was refused", (error.status, error.word), (status, word))
        want("the message", word in str(error), True)
        return
    raise Failed(f"{word} wasn't raised")


def management(_, service):
    """Requests of the management, and their refusals."""
    server = service.address
    want("no names", archappl.names(server), [])
    want("a row", archappl.archive(server, "M:A", "SCALAR_INT"), 0)
    want("another", archappl.archive(server, "M:B", "WAVEFORM_FLOAT", "0.5"), 1)
    want("the names", archappl.names(server), ["M:A", "M:B"])
    want("a state", archappl.status(server, "M:A"), "Being archived")
    want("none", archappl.status(server, "M:C"), "Not being archived")
    found = archappl.details(server, "M:B")
    want("the details", [found[name] for name in ("type", "samplingMethod", "samplingPeriodNanos", "accepted")],
         ["WAVEFORM_FLOAT", "SCAN", 500_000_000, 0])
    archappl.pause(server, "M:A")
    want("a pause", archappl.status(server, "M:A"), "Paused")
    refused(lambda: archappl.pause(server, "M:A"), 409, "E21")
    chunk = pb_stream.chunk(pb_stream.Header(5, "M:A", 2024), [(1_704_067_200 * SECOND, 1)])
    want("what is paused drops", archappl.send(server, [chunk]).chunks, [(0, 0, 1)])
    archappl.resume(server, "M:A")
    refused(lambda: archappl.resume(server, "M:A"), 409, "E22")
    want("what runs keeps", archappl.send(server, [chunk]).chunks, [(1, 0, 0)])
    want("nothing is left to flush", archappl.flush(server), 0)
    refused(lambda: archappl.archive(server, "M:A", "SCALAR_INT"), 409, "E18")
    refused(lambda: archappl.archive(server, "M-A", "SCALAR_INT"), 409, "E19")
    refused(lambda: archappl.get(server, "M:C", *ALL), 404, "E26")
    refused(lambda: archappl.details(server, "M::A"), 400, "E31")
    refused(lambda: archappl.get(server, "M:A", "yesterday", ALL[1]), 400, "E31")
    utc = timezone.utc
    for end in (datetime(2499, 12, 31, tzinfo=utc), numpy.datetime64("2499-12-31"), 2**63):
        want("an end that numpy's nanoseconds don't reach", len(archappl.get(server, "M:A", ALL[0], end)), 1)
    refused(lambda: archappl.get(server, "M:A", ALL[0], datetime(2600, 1, 1, tzinfo=utc)), 400, "E31")


def renamed(_, service):
    """A variable gets a new name, keeps its samples, and goes on where that is wished; refusals leave it as it was."""
    server, start = service.address, 1_704_067_200
    environment = dict(os.environ, ARCHAPPL_SERVER=server)

    def fed(name, *seconds):
        samples = [((start + second) * SECOND, second) for second in seconds]
        return archappl.send(server, [pb_stream.chunk(pb_stream.Header(5, name, 2024), samples)]).chunks

    def moments(name):
        return [int(t.astype("int64")) // SECOND - start for t in archappl.get(server, name, *ALL).times]

    for name in ("N:A", "N:X"):
        archappl.archive(server, name, "SCALAR_INT")
    fed("N:A", 1, 5)
    fed("N:X", 1, 7)
    want("its own name", archappl.newest_name(server, "N:A"), "N:A")
    refused(lambda: archappl.rename(server, "N:A", "N:B"), 409, "E32")
    refused(lambda: archappl.renamed(server, "N:A", "N-A"), 409, "E19")
    refused(lambda: archappl.renamed(server, "N:NO", "N:B"), 404, "E26")
    refused(lambda: archappl.renamed(server, "N:A", "N:"), 400, "E31")
    want("what was refused runs again", archappl.status(server, "N:A"), "Being archived")
    want("a new name", run("archappl.py", "rename", "N:A", "N:B", environment=environment)[0], b"N:A N:B paused\n")
    want("the states", [archappl.status(server, name) for name in ("N:A", "N:B")], ["Retired", "Paused"])
    want("what is paused drops", fed("N:B", 9), [(0, 0, 1)])
    want("another new name", run("archappl.py", "rename", "--resume", "N:B", "N:C", environment=environment)[0], b"N:B N:C resumed\n")
    want("what came under the old name is late", fed("N:C", 5, 9), [(1, 0, 1)])
    want("what comes under an old name is dropped", fed("N:A", 11), [(0, 0, 1)])
    want("samples by name", [moments(name) for name in ("N:A", "N:B", "N:C")], [[1, 5], [1, 5], [1, 5, 9]])
    want("the newest names", [archappl.newest_name(server, name) for name in ("N:A", "N:B", "N:C", "N:X")], ["N:C", "N:C", "N:C", "N:X"])
    want("a name of no samples", archappl.archive(server, "N:E", "SCALAR_INT"), 4)
    archappl.renamed(server, "N:E", "N:F")
    want("what can't be told", archappl.newest_name(server, "N:E"), None)
    archappl.archive(server, "N:Y", "SCALAR_INT")
    fed("N:Y", 1, 5)
    want("one of two that have the same", [archappl.newest_name(server, name) for name in ("N:A", "N:C")], [None, "N:C"])
    want("silent ones", run("archappl.py", "silent", "N:A", "N:E", "N:F", environment=environment)[0], b"")


def bad_feeds(_, service):
    """Feeds that are refused, with what was told before, and one whose source fails."""
    archappl.archive(service.address, "F:A", "SCALAR_INT")
    good = pb_stream.chunk(pb_stream.Header(5, "F:A", 2024), [(1_704_067_201 * SECOND, 7)])
    header = b"\x08\x05\x12\x03F:A\x18\xe8\x0f\n"
    for bad, last in ((header + b"\x08\x01\x1b\x04\n", "refused 5 E5"), (b"\x08", "refused 4 E35")):
        try:
            archappl.send(service.address, [good, bad])
            raise Failed("a bad feed wasn't refused")
        except archappl.FeedRefused as error:
            want("what it was told last", error.told.last, last)
            want("how many chunks were told", len(error.told.chunks), 1)
    want("what was kept", len(archappl.get(service.address, "F:A", *ALL)), 1)

    def failing():
        yield good
        raise KeyError("a source that fails")

    try:
        archappl.send(service.address, failing())
        raise Failed("the source's failure wasn't raised")
    except KeyError:
        pass


def bad_peers(_, service):
    """No service, one that ends within a reply, and one that ends within a feed."""
    port, other = free_ports()
    nowhere = f"127.0.0.1:{port}:{other}"
    for work in (lambda: archappl.names(nowhere), lambda: archappl.send(nowhere, [])):
        try:
            work()
            raise Failed("no service wasn't told")
        except archappl.NotReached as error:
            want("it names the port", str(port) in str(error) or str(other) in str(error), True)
    head = b"HTTP/1.1 200 OK\r\nTransfer-Encoding: chunked\r\nConnection: close\r\n\r\n"
    line = b"\x08\x05\x12\x03A:B\x18\xe8\x0f\n"
    for body in (b"b\r\n" + line + b"\r\n", b"b\r\n" + line[:5], b"", b"b\r\n" + line):
        with answering([head + body]) as peer:
            try:
                archappl.get(peer.address, "A:B", *ALL)
                raise Failed(f"a reply that ends within its body wasn't told: {body!r}")
            except archappl.CutOff:
                pass
    with answering([head + b"b\r\n" + line + b"\r\n0\r\n\r\n"]) as peer:
        want("a whole reply", len(archappl.get(peer.address, "A:B", *ALL)), 0)
    want("the service goes on", archappl.names(service.address), [])


def progress(_, service):
    """An answer that takes longer than a second is told on a terminal, and the line is taken away at its end."""
    want("the service is there", archappl.names(service.address), [])
    head = b"HTTP/1.1 200 OK\r\nConnection: close\r\n\r\n\x08\x05\x12\x03A:B\x18\xe8\x0f\n"
    seconds = (serve_model.of_number(1, second) for second in range(128, 8_192))
    part = b"".join(serve_model.escape(second + b"\x10\x00\x1d\x01\x00\x00\x00") + b"\n" for second in seconds)
    ours, theirs = pty.openpty()
    with answering([head, *[part] * 4], pause=0.5) as peer:
        command = [sys.executable, CLIENTS / "archappl.py", "--server", peer.address, "get", "--raw", "A:B"]
        with started(command, stdout=subprocess.PIPE, stderr=theirs) as process:
            size = len(told_by(process)[0])
    os.close(theirs)
    told = os.read(ours, 65_536).decode()
    os.close(ours)
    want("the bytes", size, 11 + 4 * len(part))
    want("the line", told.startswith("\rA:B: 0 samples, 0.") and told.endswith(" \r"), True)


def continued(_, service):
    """An answer that is cut off after some samples goes on behind the last one that came whole."""
    want("the service is there", archappl.names(service.address), [])
    head = b"HTTP/1.1 200 OK\r\nTransfer-Encoding: chunked\r\nConnection: close\r\n\r\n"
    lines = [serve_model.escape(serve_model.of_number(1, second) + b"\x10\x00\x1d\x01\x00\x00\x00") + b"\n"
             for second in range(70_000)]

    def chunk(part):
        data = b"\x08\x05\x12\x03A:B\x18\xe8\x0f\n" + b"".join(part)
        return f"{len(data):x}\r\n".encode() + data + b"\r\n"

    with answering([head, chunk(lines[:69_000])], [head, chunk(lines[65_535:]) + b"0\r\n\r\n"]) as peer:
        got = archappl.get(peer.address, "A:B", *ALL)
    start = 1_704_067_200 * SECOND
    want("the samples", got.times.astype("int64").tolist(), [start + second * SECOND for second in range(70_000)])
    want("what is asked for then", b"from=2024-01-01T18%3A12%3A15.000000001Z" in peer.asked[1], True)


class answering:  # pylint: disable=invalid-name
    """A peer that answers one connection after another: reads what comes, and sends parts, with pauses."""

    def __init__(self, *replies, pause=0.0):
        self.listener = socket.create_server(("127.0.0.1", 0))
        self.address = f"127.0.0.1:1:{self.listener.getsockname()[1]}"
        self.asked = []
        self.thread = threading.Thread(target=self.answer, args=(replies, pause))

    def answer(self, replies, pause):
        """Answers each connection with its reply."""
        for parts in replies:
            link, _ = self.listener.accept()
            with link:
                self.asked.append(link.recv(65_536))
                for part in parts:
                    link.sendall(part)
                    time.sleep(pause)

    def __enter__(self):
        self.thread.start()
        return self

    def __exit__(self, *_):
        self.thread.join()
        self.listener.close()


# Words

TEXT = b"""name time value severity status
W:A 2024-01-01T00:00:00.000000001Z 1.5 0 0
W:A 2024-01-01T00:00:01.000000000Z -0.25 1 4
W:A 2024-01-01T00:00:02.000000000Z 1e+300 2 3
W:B 2024-01-01T00:00:00.500000000Z 'shut down' 0 0
W:B 2025-01-01T00:00:00.000000000Z open 3 17
"""


def words(_, service):
    """The program by its words: texts go in and come out."""
    where = dict(os.environ, ARCHAPPL_SERVER=service.address, TZ="UTC")

    def archappl_py(*given, data=b"", status=0):
        return run("archappl.py", *given, data=data, status=status, environment=where)

    stream, _ = run("import", data=TEXT)
    want("a feed", archappl_py("feed", "--register", data=stream)[0], b"kept 5 held 0 dropped 0 durable 5\n")
    want("it once more", archappl_py("feed", "--register", data=stream)[0], b"kept 0 held 0 dropped 5 durable 0\n")
    want("names", archappl_py("names")[0], b"W:A\nW:B\n")
    whole = ("--from", ALL[0], "--to", ALL[1])
    want("get", archappl_py("get", *whole, "W:A", "W:B")[0], TEXT)
    rows = TEXT.replace(b" ", b",").replace(b"'shut,down'", b"shut down").splitlines()
    types = [b"type"] + [b"SCALAR_DOUBLE"] * 3 + [b"SCALAR_STRING"] * 2
    table = b"".join(row + b"," + kind + b"\n" for row, kind in zip(rows, types))
    want("get --csv", archappl_py("get", *whole, "--csv", "W:A", "W:B")[0], table)
    day = ("--from", "2024-01-01", "--to", "2024-01-01T00:00:01Z")
    want("get of an interval", archappl_py("get", *day, "W:A")[0], b"".join(TEXT.splitlines(True)[:3]))
    raw = archappl_py("get", *whole, "--raw", "W:A", "W:B")[0]
    want("get --raw", sorted(run("export", data=raw)[0].splitlines()), sorted(TEXT.splitlines()))
    lines = TEXT.splitlines(True)
    counts = lines[0] + b"W:A 2024-01-01T00:00:00.000000000Z 2 0 0\nW:A 2024-01-01T00:00:02.000000000Z 1 0 0\n"
    want("get --op count_2", archappl_py("get", *whole, "--op", "count_2", "W:A")[0], counts)
    want("get --op lastSample_2", archappl_py("get", *whole, "--op", "lastSample_2", "W:A")[0], lines[0] + lines[2] + lines[3])
    told = archappl_py("get", "--op", "mean_2", "W:A", status=1)[1]
    want("no operator", told.startswith("archappl: W:A: E31: "), True)
    want("details", json.loads(archappl_py("details", "W:B")[0])["accepted"], 2)
    want("status", archappl_py("status", "W:B", "W:C")[0], b"W:B Being archived\nW:C Not being archived\n")
    want("archive", archappl_py("archive", "--type", "SCALAR_INT", "W:C")[0], b"W:C 2\n")
    want("pause", archappl_py("pause", "W:C")[0], b"W:C ok\n")
    want("flush", archappl_py("flush")[0], b"0\n")
    wrote, told = archappl_py("get", *day, "W:D", "W:A", status=1)
    want("a complaint", told, "archappl: W:D: E26: the archive has no such variable\n")
    want("the others go on", wrote, b"".join(TEXT.splitlines(True)[:3]))
    told = archappl_py("get", "--from", "last tuesday", "W:A", status=1)[1]
    want("no time", told.startswith("archappl: no time: last tuesday (as 2024-01-31, "), True)
    picture = service.folder / "picture.png"
    told = archappl_py("plot", *whole, "--out", str(picture), "W:A", "W:B")[1]
    want("what isn't drawn", told, "archappl: W:B is of type SCALAR_STRING, and isn't drawn\n")
    want("a picture", picture.read_bytes()[:8], b"\x89PNG\r\n\x1a\n")
    service.stop()
    stored = [service.archappl("get", name, *ALL) for name in ("W:A", "W:B")]
    want("the raw stream", raw, b"\n".join(stored))


def watched(_, service):
    """`watch` writes the last sample, and then each new one, also of a service that is started anew; Ctrl-C ends it."""
    server = service.address
    archappl.archive(server, "W:A", "SCALAR_INT")
    header = pb_stream.Header(5, "W:A", 2024)
    start = 1_704_067_200 * SECOND
    archappl.send(server, [pb_stream.chunk(header, [(start, 1), (start + SECOND, 2)])])
    command = [sys.executable, CLIENTS / "archappl.py", "--server", server, "watch", "--every", "0.1", "W:A", "W:NO"]
    with started(command, stdout=subprocess.PIPE, stderr=subprocess.PIPE, text=True) as process:
        try:
            want("the first line", process.stdout.readline(), "name time value severity status\n")
            want("the last sample", process.stdout.readline(), "W:A 2024-01-01T00:00:01.000000000Z 2 0 0\n")
            want("what isn't there", process.stderr.readline(), "archappl: W:NO: E26: the archive has no such variable\n")
            for number in (3, 4):
                if number == 4:
                    service.stop()
                    want("a service that is away", process.stderr.readline()[:12], "archappl: W:")
                    service.start()
                archappl.send(server, [pb_stream.chunk(header, [(start + number * SECOND, number, 1, 6)])])
                line = f"W:A 2024-01-01T00:00:0{number}.000000000Z {number} 1 6\n"
                want("a new one", process.stdout.readline(), line)
            process.send_signal(signal.SIGINT)
            want("the end", status_of(process), 130)
        finally:
            process.kill()
    only = run("archappl.py", "--server", server, "watch", "W:NO", status=1)[1]
    want("nothing to watch", only, "archappl: W:NO: E26: the archive has no such variable\n")


def damage(service, name):
    """Spoils the last lines of the files of a variable."""
    for file in (service.folder / "short_term").glob(name.replace(":", "/") + ":*.pb"):
        file.write_bytes(file.read_bytes()[:-5] + b"\x1b\x09\x09\x09\n")


def silent(_, service):
    """Variables without new samples are told, and those that are paused or have new ones aren't."""
    where, now = dict(os.environ, ARCHAPPL_SERVER=service.address), time.time_ns() // SECOND * SECOND
    aged = (("S:BAD", (30,)), ("S:NEW", (30,)), ("S:OLD", (7_200, 3_000)), ("S:NONE", ()), ("S:PAUSED", (3_600,)))
    for name, ages in aged:
        archappl.archive(service.address, name, "SCALAR_INT")
        samples = [(now - age * SECOND, 1) for age in ages]
        for moment, value in samples:
            header = pb_stream.Header(5, name, time.gmtime(moment // SECOND).tm_year)
            archappl.send(service.address, [pb_stream.chunk(header, [(moment, value)])])
    archappl.pause(service.address, "S:PAUSED")
    damage(service, "S:BAD")
    told, complaint = run("archappl.py", "silent", status=1, environment=where)
    want("who is silent", told.decode(), f"S:OLD {serve_model.iso(now - 3_000 * SECOND)}\nS:NONE none\n")
    want("what couldn't be read is named", complaint.startswith("archappl: S:BAD: "), True)
    told = run("archappl.py", "silent", "--since", "1h", "S:OLD", "S:NONE", "S:NO", status=1, environment=where)[0].decode()
    want("who is for an hour", told, "S:NONE none\nS:NO not archived\n")
    want("one of them", run("archappl.py", "silent", "S:NEW", "S:PAUSED", environment=where)[0], b"")


def numbers_for_prometheus(_, service):
    """What the exporter tells of a service, and of one that is away."""
    moment = (time.time_ns() // SECOND - 90) * SECOND
    for name, count in (("E:A", 3), ("E:B", 0), ("E:BAD", 1)):
        archappl.archive(service.address, name, "SCALAR_INT")
        header = pb_stream.Header(5, name, time.gmtime(moment // SECOND).tm_year)
        if count:
            samples = [(moment - at * SECOND, at) for at in reversed(range(count))]
            archappl.send(service.address, [pb_stream.chunk(header, samples)])
    archappl.archive(service.address, "E:NEW", "SCALAR_INT")
    archappl.renamed(service.address, "E:NEW", "E:NEWER")
    damage(service, "E:BAD")
    log = service.folder / "log"
    at = "archappl: 2024-01-01T08:00:00Z "
    fault = at + "sts/E/A: No space left on device (os error 28)"
    dropped = at + "dropped 1 samples: 1 of no variable, 0 paused, 0 of another type, 0 late, 0 ahead; the last of A"
    again, over = fault + " (9 times more)", fault + " (no more for a minute; 10 times in all)"
    lines = (fault, at + "listening on 127.0.0.1: ..", fault, "another line", again, over, dropped, at + "to end, since site/stop is there")
    log.write_text("".join(line + "\n" for line in lines))
    words = ("--server", service.address, "--listen", "127.0.0.1:0", "--log", str(log))
    command = [sys.executable, CLIENTS / "exporter", *words]
    with started(command, stderr=subprocess.PIPE, text=True, env=service.environment) as process:
        try:
            address = process.stderr.readline().split()[-1]

            def numbers():
                with urllib.request.urlopen(address, timeout=PATIENCE) as body:
                    rows = body.read().decode().splitlines()
                return {row.rpartition(" ")[0]: float(row.rpartition(" ")[2]) for row in rows if not row.startswith("#")}

            found = numbers()
            for row, wanted in (
                ("archappl_up", 1),
                ('archappl_samples_accepted_total{pv="E:A"}', 3),
                ('archappl_samples_durable_total{pv="E:B"}', 0),
                ("archappl_all_samples_durable_total", 4),
                ('archappl_variables{status="Being archived"}', 3),
                ('archappl_variables{status="Paused"}', 1),
                ('archappl_variables{status="Retired"}', 1),
                ('archappl_samples_accepted_total{pv="E:NEWER"}', 0),
                ('archappl_samples_durable_total{pv="E:BAD"}', 1),
                ("archappl_unanswered", 1),
                ("archappl_faults_total", 2),
                ('archappl_files{pv="E:B",store="long"}', 0),
            ):
                want(row, found[row], wanted)
            want("the age of the last sample", 89 < found['archappl_last_sample_age_seconds{pv="E:A"}'] < 300, True)
            for name in ("E:B", "E:BAD"):
                want("no age", f'archappl_last_sample_age_seconds{{pv="{name}"}}' in found, False)
            size = sum(file.stat().st_size for file in (service.folder / "site").glob("manifest1*"))
            want("a manifest", found['archappl_journal_bytes{journal="manifest1"}'], size)
            want("room", found['archappl_folder_free_bytes{folder="medium"}'] > 0, True)
            want("room for files", found['archappl_folder_free_files{folder="site"}'] > 0, True)
            want("memory", found["archappl_memory_bytes"] > 1 << 20, True)
            service.stop()
            want("a service that is away", numbers()["archappl_up"], 0)
        finally:
            process.kill()


def units_drawn(_, service):
    """The unit that `ingest` brought stands at its axis, steps hold until now at most, and severities are told."""
    service.stop()
    lines = b"".join(b"P:A %d %d %d\n" % (1_704_067_200 + second, second % 7, second // 10 % 4)
                     for second in range(0, 3_600, 10))
    service.archappl("ingest", data=run("import", "--unit", "mm", data=lines)[0])
    service.archappl("ingest", data=run("import", "--unit", "V", data=lines.replace(b"P:A", b"P:B"))[0])
    service.start()
    found = {name: archappl.get(service.address, name, *ALL) for name in ("P:A", "P:B")}
    want("the unit", found["P:A"].headers, {"EGU": "mm"})
    figure = drawing.picture(found, numpy.datetime64("2024-01-01T00:10:00"), numpy.datetime64("2024-01-01T01:10:00"))
    axes = figure.get_axes()
    want("the axes", [axis.get_ylabel() for axis in axes], ["mm", "V"])
    want("the legend", axes[0].get_legend_handles_labels()[1], ["P:A", "MINOR", "MAJOR", "INVALID"])
    want("steps", axes[0].lines[0].get_drawstyle(), "steps-post")
    want("what is drawn", axes[0].lines[0].get_ydata().tolist(), [float(second % 7) for second in range(0, 3_600, 10)])
    held = axes[0].lines[1].get_ydata()
    want("the last value is held", list(held), [3590 % 7] * 2)


def units_fed(_, service):
    """Units and decimals of a feed go with the first sample of each hour, come back, and are found for later samples."""
    environment = dict(os.environ, ARCHAPPL_SERVER=service.address)
    start = 1_704_067_200
    lines = b"".join(b"%s %d 21.5\n" % (name, start + 600 * number) for name in (b"F:A", b"F:B") for number in range(12))
    stream = run("import", "--unit", "mA", data=lines)[0]
    for words in ((), ("--unit", "K", "--precision", "3")):
        data = stream if not words else stream.replace(b"F:", b"G:")
        told = run("archappl.py", "feed", "--register", *words, data=data, environment=environment)[0]
        want("the feed", told, b"kept 24 held 0 dropped 0 durable 24\n")
    for name, fields in (("F:B", {"EGU": "mA"}), ("G:A", {"EGU": "K", "PREC": "3"})):
        where = f"http://127.0.0.1:{service.ports[1]}/retrieval/data/getData.json"
        with urllib.request.urlopen(f"{where}?pv={name}&from={ALL[0]}&to={ALL[1]}", timeout=PATIENCE) as body:
            (answer,) = json.load(body)
        wanted = [fields if number % 6 == 0 else None for number in range(12)]
        want(f"the field values of {name}", [sample.get("fields") for sample in answer["data"]], wanted)
        late = archappl.get(service.address, name, "2024-01-01T01:25:00Z", ALL[1])
        want("samples without a unit", (len(late), late.about("EGU")), (4, ""))
        want("its unit", drawing.unit(archappl.described(service.address, name, late)), fields["EGU"])
    chunk = pb_stream.chunk(pb_stream.Header(6, "F:A", 2024, None, [("EGU", "V")]),
                            [((start + 8_000) * SECOND, 1.0, 0, 0, [("HIHI", "9")]), ((start + 8_001) * SECOND, 2.0)])
    run("archappl.py", "feed", data=chunk, environment=environment)
    found = archappl.get(service.address, "F:A", "2024-01-01T02:13:00Z", ALL[1]).field_values
    want("what has its own", found, [((start + 8_000) * SECOND, {"HIHI": "9"}), ((start + 8_001) * SECOND, {"EGU": "V"})])


def cases(program):
    """The cases, each with a service of its own."""

    def over(work):
        def case(rng, _):
            with Service(program) as service:
                work(rng, service)

        case.__name__ = work.__name__
        return case

    return [(over(work), 1) for work in (fed_and_got, long_answer, management, renamed, bad_feeds, bad_peers, progress,
                                         continued, words, watched, silent, numbers_for_prometheus, units_drawn,
                                         units_fed)]
