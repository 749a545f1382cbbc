"""Clients of a service: feeds, readers, one who manages, slow ones, and those that hang up.

Each makes one connection at a time. While the service isn't killed, a connection that breaks is a difference.
"""

import json
import shutil
import socket
import subprocess
import time
from urllib.parse import quote

from comparing import Difference, agree, shown
from serve_model import (TYPES, Interval, Operator, Reply, Variable, iso, least_binned, numbers_of, samples_of_json,
                         samples_of_raw)

SECONDS = 30
ALL = Interval(0, 16_725_225_599 * 1_000_000_000)


class Broken(Exception):
    """The service was killed while it was asked."""


class Peer:
    """A connection to one of the service's ports."""

    def __init__(self, life, port):
        self.life = life
        try:
            self.socket = socket.create_connection(("127.0.0.1", port), SECONDS)
        except OSError as error:
            raise self.broken(error) from None

    def __enter__(self):
        return self

    def __exit__(self, *_):
        self.socket.close()

    def broken(self, error):
        """Why the connection broke."""
        if self.life.is_killed.is_set():
            return Broken()
        return Difference(f"a connection broke: {error}")

    def send(self, data):
        """Sends all bytes."""
        try:
            self.socket.sendall(data)
        except OSError as error:
            raise self.broken(error) from None

    def end(self):
        """Sends no more."""
        try:
            self.socket.shutdown(socket.SHUT_WR)
        except OSError as error:
            raise self.broken(error) from None

    def line(self):
        """The next line."""
        line = b""
        while not line.endswith(b"\n"):
            line += self.read(1) or b""
            if self.at_end:
                raise self.broken("it ended within a line")
        return line

    at_end = False

    def read(self, most):
        """Some bytes, none at the end."""
        try:
            data = self.socket.recv(most)
        except OSError as error:
            raise self.broken(error) from None
        self.at_end = not data
        return data

    def rest(self):
        """All bytes up to the end, and whether the connection broke there as the service was killed."""
        text = b""
        try:
            while data := self.read(65_536):
                text += data
        except Broken:
            return text, True
        return text, self.life.is_killed.is_set()


# Replies of HTTP


def cut(reply):
    """Status, whether the reply is whole, and the body as far as it came."""
    head, found, body = reply.partition(b"\r\n\r\n")
    if not found:
        return None, False, b""
    lines = head.split(b"\r\n")
    status = int(lines[0].split(b" ")[1])
    fields = dict(line.split(b": ") for line in lines[1:])
    agree("Connection", fields.get(b"Connection"), b"close")
    if b"Transfer-Encoding" not in fields:
        return status, len(body) == int(fields[b"Content-Length"]), body
    text, is_whole = b"", False
    while body and not is_whole:
        size, found, body = body.partition(b"\r\n")
        if not found:
            break
        is_whole = size == b"0"
        text += body[: int(size, 16)]
        body = body[int(size, 16) + 2 :]
    return status, is_whole, text


def get(life, path, query=(), version="1.1", slow=False):
    """Status, whether the reply is whole, and the body. `Broken` where the service was killed before the head."""
    words = "&".join(f"{name}={quote(text, safe='')}" for name, text in query)
    request = f"GET {path}{'?' if words else ''}{words} HTTP/{version}\r\nHost: archiver\r\n\r\n".encode()
    with Peer(life, life.http_port) as peer:
        if slow:
            for at in range(0, len(request), 7):
                peer.send(request[at : at + 7])
                time.sleep(0.002)
        else:
            peer.send(request)
        reply, was_killed = peer.rest()
    status, is_whole, body = cut(reply)
    if was_killed and not is_whole:
        if status == 200 and path.endswith(".raw"):
            return status, False, body
        raise Broken()
    if status is None or not is_whole:
        raise Difference(f"{path} {query}: no whole reply: {shown(reply)}")
    return status, True, body


def told(life, path, query=()):
    """The JSON of a reply of the management, and its status."""
    status, _, body = get(life, path, query)
    return status, json.loads(body)


# Readers


def interval_of(rng, variable):
    """An interval, mostly about the samples of a variable."""
    if not variable.samples or rng.random() < 0.4:
        return ALL
    moments = [rng.choice(variable.samples).moment + rng.choice((-1, 0, 0, 1, 10**9)) for _ in range(2)]
    return Interval(*(moments if rng.random() < 0.1 else sorted(moments)))


class Reader:
    """Asks for samples again and again. What it is told of a variable never shrinks."""

    def __init__(self, life, rng):
        self.life = life
        self.rng = rng
        self.seen = {}

    def once(self):
        """One request, some of them with an operator."""
        variable = self.rng.choice(self.life.readable())
        interval = interval_of(self.rng, variable)
        operator = operator_of(self.rng) if self.rng.random() < 0.3 else None
        path = f"/retrieval/data/getData.{self.rng.choice(('raw', 'json'))}"
        low = max(variable.durable, variable.accepted, self.seen.get(variable.name, 0))
        pv = f"{operator}({variable.name})" if operator else variable.name
        query = [("pv", pv), ("from", iso(interval.first)), ("to", iso(interval.last))]
        if path.endswith("raw") and self.life.curl and self.rng.random() < 0.1:
            status, is_whole, body = 200, True, by_curl(self.life, path, query)
        else:
            status, is_whole, body = get(self.life, path, query, slow=self.rng.random() < 0.1)
        agree(f"the status of {path} {query}", status, 200)
        reply = Reply(path.endswith("raw"), is_whole, body, low, variable.offered)
        try:
            self.looks(variable, interval, operator, reply)
        except Difference as difference:
            raise Difference(f"{path} {query} ({low} to {reply.high} samples of {variable.name}): {difference}") from None

    def looks(self, variable, interval, operator, reply):
        """A reply is the answer, or what the operator makes, over a number of samples. Of those with an operator only whole ones are
        looked at."""
        samples = list(variable.samples)
        if operator is None:
            found = samples_of_raw(variable, reply.body, interval, reply.is_whole) if reply.is_raw else samples_of_json(variable, reply.body)
        if reply.is_whole:
            if operator:
                least = least_binned(variable, samples, interval, operator, reply) or 0
            else:
                least, _ = numbers_of(samples, interval, found, reply.low, reply.high)
            self.seen[variable.name] = max(reply.low, least)
            self.life.count("binned" if operator else "replies")


def operator_of(rng):
    """An operator: bins that have one sample or many, or positions."""
    word = rng.choice(("firstSample", "lastSample", "count", "nth", "ncount"))
    return Operator(word, rng.choice((1, 2, 7, 100) if word == "nth" else (1, 10, 60, 900, 86_400, 999_999_999)))


def by_curl(life, path, query):
    """The body that curl gets."""
    words = [word for name, text in query for word in ("--data-urlencode", f"{name}={text}")]
    url = f"http://127.0.0.1:{life.http_port}{path}"
    done = subprocess.run([life.curl, "-s", "-f", "-m", str(SECONDS), "-G", *words, url], capture_output=True)
    if done.returncode != 0:
        if life.is_killed.is_set():
            raise Broken()
        raise Difference(f"curl {url} {query}: status {done.returncode}")
    return done.stdout


# Feeds


class Feeder:
    """Sends feeds of variables that nobody else sends."""

    def __init__(self, life, rng, variables):
        self.life = life
        self.rng = rng
        self.variables = variables

    def once(self):
        """One feed, or one that breaks off."""
        way = self.rng.choice(("whole", "whole", "whole", "asking", "asking", "bad", "torn", "left"))
        number = self.rng.randrange(1, 4)
        chosen = self.rng.sample(self.variables, min(number, len(self.variables)))
        chunks = []
        for variable in chosen:
            end, lines = variable.chunk(self.rng.choice((1, 3, 20, 200)))
            if lines:
                chunks.append((variable, end, lines))
        if not chunks:
            return
        with Peer(self.life, self.life.feed_port) as peer:
            if way == "left":
                self.leave(peer, chunks)
            else:
                self.feed(peer, chunks, way)

    def leave(self, peer, chunks):
        """Sends a front of the chunks, and is gone."""
        text = b"\n".join(b"".join(lines) for _, _, lines in chunks)
        for variable, end, _ in chunks:
            variable.offered = max(variable.offered, end)
            variable.is_exact = False
        peer.send(text[: self.rng.randrange(len(text) + 1)])

    def feed(self, peer, chunks, way):
        """Sends the chunks, and looks at each reply."""
        sent, kept, number = [], 0, 0
        for variable, end, lines in chunks:
            variable.offered = max(variable.offered, end)
            peer.send(b"".join(lines) + b"\n")
            number += len(lines) + 1
            if way == "asking":
                kept += self.is_ok(peer, variable, end, len(lines) - 1)
            else:
                sent.append((variable, end, len(lines) - 1))
        bad = {"bad": b"\x08\x01\x1b\x04\n", "torn": b"\x08"}.get(way)
        if bad:
            peer.send(bad)
        peer.end()
        for variable, end, count in sent:
            kept += self.is_ok(peer, variable, end, count)
        wanted = f"refused {number + 1} {'E5' if way == 'bad' else 'E35'}\n" if bad else f"durable {kept}\n"
        agree("the last line of a feed", peer.line(), wanted.encode())
        agree("what follows it", peer.read(1), b"")
        for variable, end, _ in chunks:
            variable.tells_durable(end)
        self.life.count("feeds")

    def is_ok(self, peer, variable, end, count):
        """How many samples of a chunk were kept; the others were there."""
        line = peer.line()
        words = line.split()
        if len(words) != 4 or words[0] != b"ok":
            raise Difference(f"a chunk of {count} samples of {variable.name}: {line!r}")
        kept, held, dropped = map(int, words[1:])
        agree("kept, held and dropped", kept + held + dropped, count)
        agree("held", held, 0)
        if variable.is_exact:
            agree(f"kept of {count} samples of {variable.name}", kept, count)
        variable.tells_accepted(end)
        return kept


# Management


class Manager:
    """Registers and renames variables, flushes, and asks what is known of them."""

    def __init__(self, life, rng):
        self.life = life
        self.rng = rng

    def once(self):
        """One request."""
        self.rng.choice((self.register, self.names, self.details, self.details, self.flush, self.pause, self.rename, self.refused))()

    def register(self):
        """A new variable; or one whose registration was asked for when the service was killed."""
        archive = self.life.archive
        if len(archive.variables) >= 60:
            return
        number = len(archive.variables)
        name = f"NEW:{number}"
        archive.doubted = name
        query = [("pv", name), ("type", TYPES[number % 14])]
        status, reply = told(self.life, "/mgmt/bpl/archivePV", query)
        row = reply.get("row")
        if status == 409:
            agree("a registration for the second time", (reply, name in archive.was_doubted), ({"status": "E18", "row": row}, True))
        else:
            agree("a registration", (status, reply), (200, {"status": "ok", "row": row}))
        agree("the row", row, number)
        archive.doubted = None
        archive.variables.append(Variable(name, number % 14, archive.step(number), archive.rng_of(name)))

    def names(self):
        """All names, in order of rows."""
        known = [variable.name for variable in self.life.archive.variables]
        status, names = told(self.life, "/mgmt/bpl/getAllPVs")
        agree("the status of getAllPVs", status, 200)
        agree("the names", names[: len(known)], known)

    def details(self):
        """What is accepted and durable."""
        variable = self.rng.choice(self.life.archive.variables)
        durable, accepted = variable.durable, variable.accepted
        status, (reply) = told(self.life, "/mgmt/bpl/getPVDetails", [("pv", variable.name)])
        agree("the status of getPVDetails", status, 200)
        agree("name and type", (reply["pvName"], reply["type"]), (variable.name, TYPES[variable.type]))
        if not durable <= reply["durable"] <= reply["accepted"] <= variable.offered or reply["accepted"] < accepted:
            raise Difference(f"{variable.name}: {reply}, where {durable} were durable, {accepted} accepted, {variable.offered} offered")
        variable.tells_durable(reply["durable"])

    def flush(self):
        """All that was accepted before is durable after it."""
        accepted = [(variable, variable.accepted) for variable in self.life.archive.variables]
        status, reply = told(self.life, "/mgmt/bpl/flush")
        agree("a flush", (status, reply["status"]), (200, "ok"))
        for variable, number in accepted:
            variable.tells_durable(number)

    def pause(self):
        """A variable that nobody feeds is paused and resumed."""
        query = [("pv", self.life.archive.idle)]
        for path, state in (("pauseArchivingPV", "Paused"), ("resumeArchivingPV", "Being archived")):
            status, reply = told(self.life, f"/mgmt/bpl/{path}", query)
            if (status, reply) == (409, {"status": "E21"}):
                continue  # it was paused when the service was killed
            agree(path, (status, reply), (200, {"status": "ok"}))
            agree("getPVStatus", told(self.life, "/mgmt/bpl/getPVStatus", query),
                  (200, [{"pvName": self.life.archive.idle, "status": state}]))

    def rename(self):
        """A variable that nobody feeds in this life gets a new name, and is resumed under that."""
        archive = self.life.archive
        if f"NEW:{len(archive.variables)}" in archive.was_doubted:
            self.register()
        if not self.life.unfed or len(archive.variables) >= 90:
            return
        variable = self.life.unfed.pop()
        archive.renaming = variable, f"REN:{len(archive.variables)}"
        new = archive.renaming[1]
        requests = [("pauseArchivingPV", [("pv", variable.name)]), ("flush", []),
                    ("renamePV", [("pv", variable.name), ("newname", new)]), ("resumeArchivingPV", [("pv", new)])]
        for path, query in requests:
            agree(path, told(self.life, f"/mgmt/bpl/{path}", query)[0], 200)
        for name, state in ((variable.name, "Retired"), (new, "Being archived")):
            agree("getPVStatus", told(self.life, "/mgmt/bpl/getPVStatus", [("pv", name)]), (200, [{"pvName": name, "status": state}]))
        archive.renamed()
        self.life.count("renamed")

    def refused(self):
        """Requests that are refused."""
        archive = self.life.archive
        table = (
            ("/nothing", (), 404, {"status": "E30"}),
            ("/mgmt/bpl/getPVDetails", [("pv", "NO:SUCH")], 404, {"status": "E26"}),
            ("/mgmt/bpl/getPVDetails", [("pv", "NO::SUCH")], 400, {"status": "E31", "parameter": "pv"}),
            ("/retrieval/data/getData.raw", [("pv", archive.idle)], 400, {"status": "E31", "parameter": "from"}),
            ("/mgmt/bpl/archivePV", [("pv", archive.idle), ("type", "SCALAR_INT")], 409, {"status": "E18", "row": 0}),
            ("/mgmt/bpl/archivePV", [("pv", archive.idle.replace(":", "-")), ("type", "SCALAR_INT")], 409, {"status": "E19", "row": 0}),
            ("/mgmt/bpl/getPVStatus", [("pv", "NO:SUCH")], 200, [{"pvName": "NO:SUCH", "status": "Not being archived"}]),
        )
        path, query, status, reply = self.rng.choice(table)
        agree(f"{path} {query}", told(self.life, path, query), (status, reply))


# Those that a service has to bear


class Nuisance:
    """Sends no request, half of one, or hangs up; and holds a door for a while."""

    def __init__(self, life, rng):
        self.life = life
        self.rng = rng

    def once(self):
        """One connection."""
        self.rng.choice((self.hangs_up, self.is_silent, self.sends_no_request, self.sends_too_much, self.reads_slowly))()

    def hangs_up(self):
        """Leaves within a request, or before its reply."""
        variable = self.rng.choice(self.life.readable())
        request = f"GET /retrieval/data/getData.raw?pv={variable.name}&from={iso(0)}&to={iso(ALL.last)} HTTP/1.1\r\n\r\n".encode()
        with Peer(self.life, self.life.http_port) as peer:
            peer.send(request[: self.rng.choice((0, 10, len(request)))])

    def is_silent(self):
        """Holds a door for a moment, and sends nothing."""
        with Peer(self.life, self.rng.choice((self.life.http_port, self.life.feed_port))):
            time.sleep(self.rng.random() / 5)

    def sends_no_request(self):
        """Bytes that are no request."""
        table = ((b"hello\r\n\r\n", 400, b"E27"), (b"POST /mgmt/bpl/flush HTTP/1.1\r\n\r\n", 405, b"E29"))
        request, status, why = self.rng.choice(table)
        self.is_refused(request, status, why)

    def sends_too_much(self):
        """A head that is too long."""
        self.is_refused(b"GET / HTTP/1.1\r\n" + b"X-Field: some text\r\n" * 1_000, 431, b"E28")

    def is_refused(self, request, status, why):
        """A request with the reply that refuses it."""
        with Peer(self.life, self.life.http_port) as peer:
            peer.send(request)
            reply, was_killed = peer.rest()
        found = cut(reply)
        if was_killed and not found[1]:
            raise Broken()
        agree(f"the reply to {request[:20]!r}", found, (status, True, b'{"status":"' + why + b'"}\n'))

    def reads_slowly(self):
        """Reads a reply in small pieces, and leaves in the midst of it."""
        variable = self.rng.choice(self.life.readable())
        request = f"GET /retrieval/data/getData.json?pv={variable.name}&from={iso(0)}&to={iso(ALL.last)} HTTP/1.0\r\n\r\n".encode()
        with Peer(self.life, self.life.http_port) as peer:
            peer.send(request)
            for _ in range(20):
                if not peer.read(50):
                    return
                time.sleep(0.005)


def curl():
    """Where curl is, if it is there."""
    return shutil.which("curl")
