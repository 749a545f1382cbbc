"""What `crates/format_cases` must write of each case of HTTP: a model of requests, replies and feeds to compare with.

It says in Python what docs/FORMATS.md says in words, over bytes and lists of samples, and takes nothing from the
program. A case is a line, as the head of `crates/format_cases/src/main.rt` has them.
"""

import re
from datetime import datetime

from pb_model import END, SECOND
from store_model import TYPE_NAMES, is_name

# At most so many bytes of a request are taken, and as many are in a chunk of a reply.
MOST_TAKEN = 16_384
CHUNK = 8_192
# More calls than a case makes, and the number that stands for none.
CALLS = 50_000
NONE = 2**64 - 1

PHRASES = {
    200: "OK",
    400: "Bad Request",
    404: "Not Found",
    405: "Method Not Allowed",
    409: "Conflict",
    431: "Request Header Fields Too Large",
    500: "Internal Server Error",
    503: "Service Unavailable",
}


# Bytes as texts of a line


def text_of(data):
    """Bytes as they stand in a line: printable ones as they are."""
    shown = {10: "\\n", 13: "\\r", 92: "\\x5c"}
    return "".join(shown.get(byte) or (chr(byte) if 32 <= byte < 127 else f"\\x{byte:02x}") for byte in data)


def bytes_of(text):
    """The bytes for which a text of a line stands."""
    escape = re.compile(r"\\(r|n|x[0-9a-f]{2})")
    return escape.sub(lambda found: {"r": "\r", "n": "\n"}.get(found[1]) or chr(int(found[1][1:], 16)), text).encode("latin-1")


def sum_of(data):
    """How many bytes, and the sum of them, each times its place from 1 on."""
    return f"{len(data)} bytes, sum {sum(place * byte for place, byte in enumerate(data, 1)) % 2**64}"


def list_of(word):
    """A list of numbers as a case has it."""
    if word == "odd":
        return set(range(1, CALLS, 2))
    return set() if word == "-" else {int(number) for number in word.split(",")}


# Heads of requests

TOKEN = frozenset(b"!#$%&'*+-.^_`|~0123456789ABCDEFGHIJKLMNOPQRSTUVWXYZabcdefghijklmnopqrstuvwxyz")
VISIBLE = frozenset(range(33, 256)) - {127}
VALUE = VISIBLE | frozenset(b" \t")
# Of each state of a head's reading the bytes that go on, and the state behind each.
HEAD = {
    "start": [(b"\r", "empty line"), (b"\n", "start"), (TOKEN, "method")],
    "empty line": [(b"\n", "start")],
    "method": [(TOKEN, "method"), (b" ", "no target")],
    "no target": [(VISIBLE, "target")],
    "target": [(VISIBLE, "target"), (b" ", "version 0")],
    **{f"version {at}": [(b"HTTP/1."[at : at + 1], f"version {at + 1}")] for at in range(7)},
    "version 7": [(b"01", "line's end")],
    "line's end": [(b"\r", "line's newline"), (b"\n", "line")],
    "line's newline": [(b"\n", "line")],
    "line": [(b"\r", "last newline"), (b"\n", "whole"), (TOKEN, "name")],
    "name": [(TOKEN, "name"), (b":", "value")],
    "value": [(VALUE, "value"), (b"\r", "line's newline"), (b"\n", "line")],
    "last newline": [(b"\n", "whole")],
}


class HeadReader:
    """The reading of a head byte by byte: a state of the table, or 'bad' where no bytes that could follow make a head."""

    def __init__(self):
        self.state = "start"
        self.method = bytearray()
        self.target = bytearray()
        self.version = None

    def take(self, byte):
        if self.state in ("whole", "bad"):
            return
        after = next((state for members, state in HEAD[self.state] if byte in members), "bad")
        if after == "method":
            self.method.append(byte)
        elif after == "target":
            self.target.append(byte)
        elif after == "version 0" and not is_text(self.target):
            after = "bad"
        elif after == "line's end":
            self.version = byte - ord("0")
        self.state = after


def is_text(data):
    """Whether bytes are UTF-8."""
    try:
        data.decode()
    except UnicodeDecodeError:
        return False
    return True


def request_of(data, piece, failing):
    """What a request is answered that is read in pieces, how often it was read, and how many bytes were left.

    It is looked at behind the first read, behind one that brought a newline, at the end, and where no more bytes are taken.
    """
    head, taken, reads = HeadReader(), 0, 0
    while True:
        reads += 1
        if reads in failing:
            return "fault", reads, len(data) - taken
        more = data[taken : taken + min(piece, MOST_TAKEN - taken)]
        taken += len(more)
        for byte in more:
            head.take(byte)
        if not more or reads == 1 or b"\n" in more or taken == MOST_TAKEN:
            found = judged(head, not more, taken == MOST_TAKEN)
            if found:
                return found, reads, len(data) - taken


def judged(head, is_end, is_limit):
    """What is answered of what was read, None where more is read."""
    if head.state == "whole":
        return answered(bytes(head.method), bytes(head.target), head.version)
    if head.state == "bad" or is_end:
        return "E27"
    return "E28" if is_limit else None


# Targets


class Missing(Exception):
    """A parameter is missing or not of its form."""


def pairs_of(query):
    """The pairs of a form, with their names and values as texts."""
    for part in query.split(b"&"):
        if part:
            name, _, value = part.partition(b"=")
            yield decoded(name), decoded(value)


def decoded(data):
    data = re.sub(rb"%([0-9A-Fa-f]{2})", lambda found: bytes([int(found[1], 16)]), data.replace(b"+", b" "))
    return data.decode(errors="replace")


PATHS = {
    b"/retrieval/data/getData.raw": "raw",
    b"/retrieval/data/getData.json": "json",
    b"/mgmt/bpl/getAllPVs": "all",
    b"/mgmt/bpl/flush": "flush",
    b"/mgmt/bpl/getPVStatus": "status",
    b"/mgmt/bpl/getPVDetails": "details",
    b"/mgmt/bpl/pauseArchivingPV": "pause",
    b"/mgmt/bpl/resumeArchivingPV": "resume",
    b"/mgmt/bpl/renamePV": "rename",
    b"/mgmt/bpl/archivePV": "archive",
}


def answered(method, target, version):
    """What a whole head is answered: the version and the call with its parameters, or the number of a refusal."""
    if method != b"GET":
        return "E29"
    path, _, query = target.partition(b"?")
    if path not in PATHS:
        return "E30"
    form = {}
    for name, value in pairs_of(query):
        form.setdefault(name, value)
    try:
        return " ".join([str(version), PATHS[path], *parameters(PATHS[path], form)])
    except Missing as missing:
        return f"E31 {missing}"


def parameters(call, form):
    """The words of a call's parameters."""
    if call in ("all", "flush"):
        return []
    if call in ("raw", "json"):
        operator, name = asked_in(form)
        return [name, moment_in(form, "from"), moment_in(form, "to"), *operator]
    words = [name_in(form)]
    if call == "archive":
        words += [type_in(form), *sampling_in(form), "0"]
    if call == "rename":
        words.append(name_in(form, "newname"))
    return words


def name_in(form, parameter="pv"):
    name = form.get(parameter, "")
    if not is_name(name.encode()):
        raise Missing(parameter)
    return name


# An operator and a name in parentheses: bins of so many seconds, or of 900, one sample of so many, or how many there are.
BINNED = re.compile(r"(?:(firstSample|lastSample|count)(?:_([0-9]{1,9}))?|(nth)_([0-9]{1,9})|(ncount))\((.*)\)", re.DOTALL)


def asked_in(form):
    """The words of an operator, if one is asked for, and the name."""
    text = form.get("pv", "")
    if "(" not in text and ")" not in text:
        return [], name_in(form)
    found = BINNED.fullmatch(text)
    if found is None:
        raise Missing("pv")
    bins, width, nth, number, ncount, name = found.groups()
    number = int(number or width or 900)
    if number == 0 or not is_name(name.encode()):
        raise Missing("pv")
    return [ncount] if ncount else [bins or nth, str(number)], name


ISO = re.compile(
    r"([0-9]{4})-([0-9]{2})-([0-9]{2})T([0-9]{2}):([0-9]{2}):([0-9]{2})(?:\.([0-9]{1,9}))?(?:Z|([+-])([0-9]{2}):([0-9]{2}))"
)


def moment_of(text):
    """The moment of an ISO text, None where it is none."""
    found = ISO.fullmatch(text)
    if found is None:
        return None
    *civil, fraction, sign, hours, minutes = found.groups()
    hours, minutes = int(hours or 0), int(minutes or 0)
    try:
        since = datetime(*map(int, civil)) - datetime(1970, 1, 1)
    except ValueError:
        return None
    if hours > 23 or minutes > 59:
        return None
    offset = (hours * 60 + minutes) * (-60 if sign == "-" else 60)
    moment = (since.days * 86_400 + since.seconds - offset) * SECOND + int((fraction or "").ljust(9, "0"))
    return moment if 0 <= moment < END else None


def moment_in(form, name):
    moment = moment_of(form.get(name, ""))
    if moment is None:
        raise Missing(name)
    return str(moment)


def type_in(form):
    if form.get("type") not in TYPE_NAMES:
        raise Missing("type")
    return form["type"]


def sampling_in(form):
    method = form.get("samplingmethod", "MONITOR")
    if method == "MONITOR":
        return ["monitor"]
    if method != "SCAN":
        raise Missing("samplingmethod")
    seconds = re.fullmatch(r"(0|[1-9][0-9]*)(?:\.([0-9]{1,9}))?", form.get("samplingperiod", "1"), re.ASCII)
    period = int(seconds[1]) * SECOND + int((seconds[2] or "").ljust(9, "0")) if seconds else 0
    if not SECOND // 10 <= period <= 86_400 * SECOND:
        raise Missing("samplingperiod")
    return ["scan", str(period)]


# Heads and bodies of replies


def head_of(status, is_json, version, length):
    """The head of a reply, whose body goes out in chunks to HTTP/1.1 where its length isn't known."""
    lines = [f"HTTP/1.1 {status} {PHRASES[status]}", f"Content-Type: application/{'json' if is_json else 'octet-stream'}"]
    if length is not None:
        lines.append(f"Content-Length: {length}")
    elif version == 1:
        lines.append("Transfer-Encoding: chunked")
    return "\r\n".join([*lines, "Connection: close", "", ""]).encode()


class Failed(Exception):
    """A write failed."""


class Link:
    """A link that takes at most so many bytes a write, of which some fail."""

    def __init__(self, most, failing):
        self.most = most
        self.failing = failing
        self.writes = 0
        self.written = b""

    def write(self, data):
        """Takes a front of the bytes, and says how many; all where no most is known."""
        self.writes += 1
        if self.writes in self.failing:
            raise Failed
        taken = data[: self.most]
        self.written += taken
        return len(taken)

    def write_whole(self, data):
        while data:
            data = data[self.write(data) :]


class Body:
    """A reply's body on its way to a link. A chunk goes out once more comes behind it, or at the end."""

    def __init__(self, link, version):
        self.link = link
        self.in_chunks = version == 1
        self.held = b""
        self.going = b""

    def write(self, data):
        """Takes a front of the bytes, and says how many."""
        self.send()
        if not self.in_chunks:
            return self.link.write(data)
        if len(self.held) == CHUNK:
            self.going, self.held = chunk(self.held), b""
            self.send()
        count = min(len(data), CHUNK - len(self.held))
        self.held += data[:count]
        return count

    def write_whole(self, data):
        while data:
            data = data[self.write(data) :]

    def finish(self):
        self.send()
        if self.in_chunks:
            self.going = (chunk(self.held) if self.held else b"") + b"0\r\n\r\n"
            self.held, self.in_chunks = b"", False
        self.send()

    def send(self):
        """Sends what is going out, from where an earlier call stopped."""
        while self.going:
            self.going = self.going[self.link.write(self.going) :]


def chunk(data):
    return b"%x\r\n%s\r\n" % (len(data), data)


# Cases


class Session:
    """What the program knows from case to case."""

    def __init__(self):
        self.input = b""

    def told(self, line):
        """What comes out of a case: lines without their newlines."""
        word, _, rest = line.partition(" ")
        return getattr(self, "tell_" + word)(rest)

    def tell_bytes(self, text):
        self.input = bytes_of(text)
        return []

    def tell_more(self, words):
        count, _, text = words.partition(" ")
        self.input += int(count) * bytes_of(text)
        return []

    def tell_request(self, words):
        piece, failing = words.split(" ")
        found, reads, left = request_of(self.input, int(piece), list_of(failing))
        return [f"{found}; {reads} reads, {left} left"]

    def tell_head(self, words):
        status, is_json, version, length = words.split(" ")
        length = None if length == "-" else int(length)
        return [text_of(head_of(int(status), is_json == "1", int(version), length))]

    def tell_body(self, words):
        version, piece, most, failing = words.split(" ")
        link = Link(int(most), list_of(failing))
        body = Body(link, int(version))
        pieces = [self.input[at : at + int(piece)] for at in range(0, len(self.input), int(piece))]
        failed = sum(fails(body.write_whole, one) for one in pieces) + fails(body.finish)
        return [f"{sum_of(link.written)}; {failed} failed; {link.writes} writes"]

    def tell_again(self, words):
        version, piece, most, failing = words.split(" ")
        link = Link(int(most), list_of(failing))
        body = Body(link, int(version))
        failed = write_again(body, self.input, int(piece))
        failed += finish_again(body) + finish_again(body)
        failed += write_again(body, b"HTTP", int(piece))
        return [f"{sum_of(link.written)}; {failed} failed; {link.writes} writes"]


def write_again(body, data, piece):
    """Writes all bytes, each call again until it ends well; how many calls failed."""
    failed = 0
    while data:
        try:
            data = data[body.write(data[:piece]) :]
        except Failed:
            failed += 1
    return failed


def finish_again(body):
    failed = 0
    while fails(body.finish):
        failed += 1
    return failed


def fails(call, *arguments):
    """Whether a call fails."""
    try:
        call(*arguments)
    except Failed:
        return True
    return False
