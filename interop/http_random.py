"""Random cases of `crates/format_cases`: heads in pieces, targets and queries, bodies and heads of replies."""

from http_model import PATHS, PHRASES, text_of

METHODS = [b"GET"] * 20 + [b"POST", b"HEAD", b"get", b"G!T"]
VERSIONS = [b"HTTP/1.1", b"HTTP/1.1", b"HTTP/1.1", b"HTTP/1.0", b"HTTP/1.0", b"HTTP/1.2", b"HTTP/2", b"http/1.1", b""]
# How a line ends, mostly well.
ENDS = [b"\r\n", b"\r\n", b"\r\n", b"\n", b"\n", b"\n"]
BAD_ENDS = [b"\r", b"\r\r\n", b"\n\r", b"", b" \r\n", b"\x0b\n", b"\x00"]
FIELDS = [b"Host: a", b"a:", b"a: \t b", b"User-Agent: curl/8", b"a:\x80\xff", b"X-1:b:c", b"~: 'x'", b"a:" + b"y" * 300]
BAD_FIELDS = [b"a", b"a : b", b": b", b" a: b", b"a\x80: b", b"a: \x00", b"a: \x7f", b"(a): b"]
NAMES = ["A", "A:B", "A-B", "A/B", "x+y", "A:", "", "A::B", "..", "A:..", "é", "A B", "a" * 128, "a" * 129, "A[1]{2}^", "A=B", "A&B", "A?B", "A%", "count_8(A:B)", "firstSample(A)", "nth_0(A)", "ncount(A:)", "lastSample_60(A", "mean_8(A)"]
MOMENTS = [
    "1970-01-01T00:00:00Z", "2024-02-29T23:59:59.123456789Z", "2023-02-29T00:00:00Z", "2499-12-31T23:59:59.999999999Z", "2500-01-01T00:00:00Z",
    "1970-01-01T00:30:00+00:30", "1970-01-01T00:30:00+00:31", "2000-01-01T24:00:00Z", "2000-01-01T00:00:60Z", "2000-01-01T00:00:00.Z",
    "2000-01-01T00:00:00.1234567890Z", "2000-01-01T00:00:00-23:59", "2000-01-01T00:00:00-24:00", "2000-01-01t00:00:00Z", "x", "",
]
TYPES = ["SCALAR_INT", "SCALAR_DOUBLE", "WAVEFORM_ENUM", "WAVEFORM_STRING", "SCALAR", "scalar_int", "DBR_SCALAR_INT", ""]
SAMPLING = ["MONITOR", "SCAN", "SCAN", "SCAN", "scan", ""]
PERIODS = ["1", "0.1", "0.0999", "86400", "86400.0", "86400.000000001", "12.5", "01", "1.", ".5", "1e3", "-1", "99999", "123456", "0", ""]


def case(rng):
    """The lines of one case."""
    kind = rng.random()
    if kind < 0.8:
        return request(rng)
    if kind < 0.97:
        return body(rng)
    return [reply_head(rng)]


def listed(rng, most, share=0.1):
    """A list of numbers, mostly none."""
    if rng.random() >= share:
        return "-"
    return ",".join(str(number) for number in sorted(rng.sample(range(1, most), rng.randint(1, min(4, most - 1)))))


# Requests


def request(rng):
    data = head(rng)
    if rng.random() < 0.3:
        data = damaged(rng, data)
    lines = ["bytes " + text_of(data)]
    if rng.random() < 0.02:
        lines.append(f"more {rng.randint(15_000, 17_000)} {rng.choice(['x', 'a: b' + chr(92) + 'n', chr(92) + 'n'])}")
    elif rng.random() < 0.2:
        lines.append("more 1 " + text_of(head(rng)))
    for _ in range(rng.randint(1, 3)):
        piece = rng.choice([1, 2, 3, 7, 16, 100, 65_536, rng.randint(1, 60)])
        lines.append(f"request {piece} {listed(rng, 8)}")
    return lines


def head(rng):
    """A head of a request, which is mostly a good one."""
    ends = ENDS if rng.random() < 0.8 else ENDS + BAD_ENDS
    fields = FIELDS if rng.random() < 0.8 else FIELDS + BAD_FIELDS
    blank = b" " if rng.random() < 0.95 else rng.choice([b"  ", b"\t", b""])
    lines = [rng.choice(METHODS) + blank + target(rng) + blank + (b"HTTP/1.1" if rng.random() < 0.7 else rng.choice(VERSIONS))]
    lines += [rng.choice(fields) for _ in range(rng.choice([0, 0, 1, 2, 5]))]
    empty = b"".join(rng.choice(ends) for _ in range(rng.choice([0, 0, 0, 1, 3])))
    return empty + b"".join(line + rng.choice(ends) for line in lines) + rng.choice(ends)


def damaged(rng, data):
    """The same with a byte changed, put in or left out, or cut off."""
    if not data:
        return data
    at = rng.randrange(len(data))
    byte = bytes([rng.choice([0, 9, 10, 13, 32, 37, 38, 43, 58, 61, 63, 127, 128, 195, 255, rng.randrange(256)])])
    return rng.choice([data[:at] + byte + data[at + 1 :], data[:at] + byte + data[at:], data[:at] + data[at + 1 :], data[:at]])


def target(rng):
    if rng.random() < 0.1:
        return rng.choice([b"/", b"*", b"/mgmt/bpl", b"//mgmt/bpl/flush", b"/mgmt/bpl/flush/", b"/\xc3\xa9", b"/\xff", b"/mgmt/bpl/getAllPV%73"])
    path = rng.choice(list(PATHS))
    return path + rng.choice([b"?", b"?", b"?", b"?", b""]) + query(rng, PATHS[path])


def query(rng, call):
    """A query with most of what a call asks for, in any order, with other pairs and with some names twice."""
    wanted = {"raw": ["pv", "from", "to"], "json": ["pv", "from", "to"], "archive": ["pv", "type", "samplingmethod", "samplingperiod"], "rename": ["pv", "newname"]}
    names = [name for name in wanted.get(call, ["pv"]) if rng.random() < 0.95]
    if rng.random() < 0.3:
        names.append(rng.choice(["pv", "from", "x", "PV", "", "samplingperiod"]))
    if rng.random() < 0.5:
        rng.shuffle(names)
    pairs = [encoded(rng, name) + rng.choice([b"=", b"=", b"=", b"=", b"=", b"=", b"=", b""]) + encoded(rng, value(rng, name)) for name in names]
    return rng.choice([b"&", b"&", b"&", b"&&"]).join(pairs)


def value(rng, name):
    good = {"pv": "A:B", "newname": "A:C", "from": MOMENTS[0], "to": MOMENTS[1], "type": "SCALAR_INT", "samplingmethod": "SCAN", "samplingperiod": "0.5"}
    if name in good and rng.random() < 0.6:
        return good[name]
    texts = {"pv": NAMES, "from": MOMENTS, "to": MOMENTS, "type": TYPES, "samplingmethod": SAMPLING, "samplingperiod": PERIODS}
    return rng.choice(texts.get(name, NAMES))


def encoded(rng, text):
    """A text as a form has it, with more bytes encoded than need be, and in either case."""
    share = rng.choice([0, 0, 0.2, 1])
    form = rng.choice(["%%%02X", "%%%02x"])
    plain = frozenset(b"%&+=# \r\n\t\x00") if rng.random() < 0.9 else frozenset(b" \r\n")
    return b"".join((form % byte).encode() if byte in plain or rng.random() < share else bytes([byte]) for byte in text.encode())


# Replies


def body(rng):
    lines = ["bytes ", f"more {rng.choice([0, 1, 7, 100, 819, 820, 1638, 1639, rng.randint(0, 2500)])} 0123456789"]
    if rng.random() < 0.5:
        lines.append("more 1 " + "abcdefghij"[: rng.randint(1, 9)])
    for _ in range(2):
        version, piece, most = rng.choice([0, 1, 1]), rng.choice([100, 8_191, 8_192, 8_193, 65_536, rng.randint(50, 20_000)]), rng.choice([100, 8_191, 8_200, 65_536])
        lines.append(f"{rng.choice(['body', 'again'])} {version} {piece} {most} {listed(rng, 30, 0.6)}")
    return lines


def reply_head(rng):
    if rng.random() < 0.5:
        return f"head 200 {rng.choice([0, 1])} {rng.choice([0, 1])} -"
    return f"head {rng.choice(list(PHRASES))} 1 {rng.choice([0, 1])} {rng.choice([0, 1, 17, 2**32, 2**64 - 1, rng.randrange(10**6)])}"
