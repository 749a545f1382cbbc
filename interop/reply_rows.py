"""The worked cases of `interop/replies`: what is sent to a service, and what must come back, byte for byte.

What comes back was worked out by hand from the rules of docs/FORMATS.md. A case gives acts: streams that are brought into the
archive, requests with the replies to them, and feeds with what they are told; None where the model alone knows.
"""

import http_rows
from pb_model import SECOND, Header, escape, year_start
from store_model import TYPE_NAMES, header_line, number_field, year_of

ALL = "from=1970-01-01T00:00:00Z&to=2499-12-31T23:59:59.999999999Z"

HEADER = b"\x08\x05\x12\x03A:B\x18\xe8\x0f\n"
# The integers 1, 2 and 3 at the seconds 1, 5 and 9 of 2024.
FIRST = b"\x08\x01\x10\x00\x1d\x01\x00\x00\x00\n"
FIFTH = b"\x08\x05\x10\x00\x1d\x02\x00\x00\x00\n"
NINTH = b"\x08\x09\x10\x00\x1d\x03\x00\x00\x00\n"


def get(path, version=1):
    """A request for a path."""
    return f"GET {path} HTTP/1.{version}\r\nHost: a\r\n\r\n".encode()


def answer(status, length, body):
    """A reply with a JSON body."""
    head = f"HTTP/1.1 {status}\r\nContent-Type: application/json\r\nContent-Length: {length}\r\nConnection: close\r\n\r\n"
    return f"{head}{body}\n".encode()


def asked(path, status, length, body):
    """A management call, and its reply."""
    return "ask", get("/mgmt/bpl/" + path), answer(status, length, body)


def registered(query="pv=A%3AB&type=SCALAR_INT", row=0):
    return asked("archivePV?" + query, "200 OK", 23 + len(str(row)), '{"status":"ok","row":%d}' % row)


# Management calls, one after another on one archive: path, status, the body's length, and the body before its newline.
MANAGED = [
    ("getAllPVs", "200 OK", 3, "[]"),
    ("getPVStatus?pv=A%3AB", "200 OK", 49, '[{"pvName":"A:B","status":"Not being archived"}]'),
    ("getPVDetails?pv=A%3AB", "404 Not Found", 17, '{"status":"E26"}'),
    ("pauseArchivingPV?pv=A%3AB", "404 Not Found", 17, '{"status":"E26"}'),
    ("resumeArchivingPV?pv=A%3AB", "404 Not Found", 17, '{"status":"E26"}'),
    ("archivePV?pv=A%3AB&type=SCALAR_INT", "200 OK", 24, '{"status":"ok","row":0}'),
    ("archivePV?pv=A%3AB&type=SCALAR_INT", "409 Conflict", 25, '{"status":"E18","row":0}'),
    ("archivePV?pv=A-B&type=SCALAR_INT", "409 Conflict", 25, '{"status":"E19","row":0}'),
    ("getAllPVs", "200 OK", 8, '["A:B"]'),
    ("getPVStatus?pv=A%3AB", "200 OK", 45, '[{"pvName":"A:B","status":"Being archived"}]'),
    (
        "getPVDetails?pv=A%3AB",
        "200 OK",
        155,
        '{"pvName":"A:B","type":"SCALAR_INT","status":"Being archived","samplingMethod":"MONITOR","samplingPeriodNanos":0,"accepted":0,"durable":0,"files":[0,0,0]}',
    ),
    ("resumeArchivingPV?pv=A%3AB", "409 Conflict", 17, '{"status":"E22"}'),
    ("pauseArchivingPV?pv=A%3AB", "200 OK", 16, '{"status":"ok"}'),
    ("pauseArchivingPV?pv=A%3AB", "409 Conflict", 17, '{"status":"E21"}'),
    ("getPVStatus?pv=A%3AB", "200 OK", 37, '[{"pvName":"A:B","status":"Paused"}]'),
    (
        "getPVDetails?pv=A%3AB",
        "200 OK",
        147,
        '{"pvName":"A:B","type":"SCALAR_INT","status":"Paused","samplingMethod":"MONITOR","samplingPeriodNanos":0,"accepted":0,"durable":0,"files":[0,0,0]}',
    ),
    ("resumeArchivingPV?pv=A%3AB", "200 OK", 16, '{"status":"ok"}'),
    ("flush", "200 OK", 28, '{"status":"ok","flushed":0}'),
    ("archivePV?pv=A%3A[1]&type=WAVEFORM_DOUBLE&samplingmethod=SCAN&samplingperiod=0.1", "200 OK", 24, '{"status":"ok","row":1}'),
    ("getAllPVs", "200 OK", 16, '["A:B","A:[1]"]'),
    ("pauseArchivingPV?pv=A%3A[1]", "200 OK", 16, '{"status":"ok"}'),
    (
        "getPVDetails?pv=A%3A[1]",
        "200 OK",
        159,
        '{"pvName":"A:[1]","type":"WAVEFORM_DOUBLE","status":"Paused","samplingMethod":"SCAN","samplingPeriodNanos":100000000,"accepted":0,"durable":0,"files":[0,0,0]}',
    ),
]

# The same of `A:B` with the first and the fifth sample: it is renamed `A:C`, once it is paused.
RENAMED = [
    ("renamePV?pv=A%3AB&newname=A%3AC", "409 Conflict", 17, '{"status":"E32"}'),
    ("renamePV?pv=A%3AD&newname=A%3AC", "404 Not Found", 17, '{"status":"E26"}'),
    ("renamePV?pv=A%3AB&newname=A%3A", "400 Bad Request", 39, '{"status":"E31","parameter":"newname"}'),
    ("renamePV?pv=A%3AB", "400 Bad Request", 39, '{"status":"E31","parameter":"newname"}'),
    ("pauseArchivingPV?pv=A%3AB", "200 OK", 16, '{"status":"ok"}'),
    ("renamePV?pv=A%3AB&newname=A-B", "409 Conflict", 25, '{"status":"E19","row":0}'),
    ("renamePV?pv=A%3AB&newname=A%3AB", "409 Conflict", 25, '{"status":"E18","row":0}'),
    ("renamePV?pv=A%3AB&newname=A%3AC", "200 OK", 16, '{"status":"ok"}'),
    ("getAllPVs", "200 OK", 14, '["A:B","A:C"]'),
    ("getPVStatus?pv=A%3AB", "200 OK", 38, '[{"pvName":"A:B","status":"Retired"}]'),
    ("getPVStatus?pv=A%3AC", "200 OK", 37, '[{"pvName":"A:C","status":"Paused"}]'),
    ("getPVDetails?pv=A%3AB", "200 OK", 148, '{"pvName":"A:B","type":"SCALAR_INT","status":"Retired","samplingMethod":"MONITOR","samplingPeriodNanos":0,"accepted":2,"durable":2,"files":[1,0,0]}'),
    ("getPVDetails?pv=A%3AC", "200 OK", 147, '{"pvName":"A:C","type":"SCALAR_INT","status":"Paused","samplingMethod":"MONITOR","samplingPeriodNanos":0,"accepted":2,"durable":2,"files":[0,0,0]}'),
    ("pauseArchivingPV?pv=A%3AB", "409 Conflict", 17, '{"status":"E21"}'),
    ("resumeArchivingPV?pv=A%3AB", "409 Conflict", 17, '{"status":"E22"}'),
    ("renamePV?pv=A%3AB&newname=A%3AD", "409 Conflict", 17, '{"status":"E32"}'),
    ("archivePV?pv=A%3AB&type=SCALAR_INT", "409 Conflict", 25, '{"status":"E18","row":0}'),
    ("archivePV?pv=A-C&type=SCALAR_INT", "409 Conflict", 25, '{"status":"E19","row":1}'),
]
NEW_HEADER = b"\x08\x05\x12\x03A:C\x18\xe8\x0f\n"
NEW_JSON_TEXT = b'[{"meta":{"name":"A:C"},"data":[{"secs":1704067201,"nanos":0,"val":1,"severity":0,"status":0},{"secs":1704067205,"nanos":0,"val":2,"severity":0,"status":0}]}]\n'

# Bytes that ask for nothing, and the reply: status, the body's length, and the body before its newline.
REFUSED = [
    (b"GET / HTTP/2\r\n\r\n", "400 Bad Request", 17, '{"status":"E27"}'),
    (b"", "400 Bad Request", 17, '{"status":"E27"}'),
    (b"POST /mgmt/bpl/flush HTTP/1.1\r\n\r\n", "405 Method Not Allowed", 17, '{"status":"E29"}'),
    (b"GET /mgmt/bpl/renamePV?pv=A&newname=B HTTP/1.1\r\n\r\n", "404 Not Found", 17, '{"status":"E26"}'),
    (b"GET /mgmt/bpl/renamepv?pv=A&newname=B HTTP/1.1\r\n\r\n", "404 Not Found", 17, '{"status":"E30"}'),
    (b"GET / HTTP/1.1\r\n\r\n", "404 Not Found", 17, '{"status":"E30"}'),
    (b"GET /mgmt/bpl/getPVStatus HTTP/1.1\r\n\r\n", "400 Bad Request", 34, '{"status":"E31","parameter":"pv"}'),
    (
        b"GET /retrieval/data/getData.raw?pv=A%3AB&from=x&to=y HTTP/1.1\r\n\r\n",
        "400 Bad Request",
        36,
        '{"status":"E31","parameter":"from"}',
    ),
    (
        b"GET /retrieval/data/getData.json?pv=A%3AB&from=2024-01-01T00:00:00Z HTTP/1.1\r\n\r\n",
        "400 Bad Request",
        34,
        '{"status":"E31","parameter":"to"}',
    ),
    (b"GET /mgmt/bpl/archivePV?pv=A HTTP/1.1\r\n\r\n", "400 Bad Request", 36, '{"status":"E31","parameter":"type"}'),
    (
        b"GET /mgmt/bpl/archivePV?pv=A&type=SCALAR_INT&samplingmethod=scan HTTP/1.1\r\n\r\n",
        "400 Bad Request",
        46,
        '{"status":"E31","parameter":"samplingmethod"}',
    ),
    (
        b"GET /mgmt/bpl/archivePV?pv=A&type=SCALAR_INT&samplingmethod=SCAN&samplingperiod=0 HTTP/1.1\r\n\r\n",
        "400 Bad Request",
        46,
        '{"status":"E31","parameter":"samplingperiod"}',
    ),
    (
        b"GET /mgmt/bpl/getAllPVs HTTP/1.1\r\nA: " + b"a" * 16_384,
        "431 Request Header Fields Too Large",
        17,
        '{"status":"E28"}',
    ),
    # A target that is 16,384 bytes long with what stands before it, whatever comes behind.
    (b"GET /" + b"a" * 16_379, "431 Request Header Fields Too Large", 17, '{"status":"E28"}'),
    (b"GET /" + b"a" * 16_379 + b" HTTP/1.1\r\n\r\n", "431 Request Header Fields Too Large", 17, '{"status":"E28"}'),
]

RAW = "/retrieval/data/getData.raw?pv=A%3AB&from=2024-01-01T00:00:05.000Z&to=2024-01-01T00:00:08.000Z"
JSON = "/retrieval/data/getData.json?pv=A%3AB&from=2024-01-01T00:00:05.000Z&to=2024-01-01T00:00:08.000Z"
EARLY = "pv=A%3AB&from=2024-01-01T00:00:00Z&to=2024-01-01T00:00:00Z"
OTHER = "pv=A%3AC&from=2024-01-01T00:00:00Z&to=2024-01-01T00:00:00Z"


def data_head(media_type, version):
    chunked = "Transfer-Encoding: chunked\r\n" if version else ""
    return f"HTTP/1.1 200 OK\r\nContent-Type: application/{media_type}\r\n{chunked}Connection: close\r\n\r\n".encode()


RAW_TEXT = b"\x08\x05\x12\x03A:B\x18\xe8\x0f\n\x08\x01\x10\x00\x1d\x01\x00\x00\x00\n\x08\x05\x10\x00\x1d\x02\x00\x00\x00\n"
JSON_TEXT = b'[{"meta":{"name":"A:B"},"data":[{"secs":1704067201,"nanos":0,"val":1,"severity":0,"status":0},{"secs":1704067205,"nanos":0,"val":2,"severity":0,"status":0}]}]\n'
RAW_IN_CHUNKS = data_head("octet-stream", 1) + b"1f\r\n" + RAW_TEXT + b"\r\n0\r\n\r\n"
JSON_IN_CHUNKS = data_head("json", 1) + b"9f\r\n" + JSON_TEXT + b"\r\n0\r\n\r\n"

# Paths of data, the minor version, and the whole reply over the three samples.
SENT = [
    (RAW, 1, RAW_IN_CHUNKS),
    (JSON, 1, JSON_IN_CHUNKS),
    (RAW, 0, data_head("octet-stream", 0) + RAW_TEXT),
    (JSON, 0, data_head("json", 0) + JSON_TEXT),
    # No sample is so early.
    ("/retrieval/data/getData.raw?" + EARLY, 1, data_head("octet-stream", 1) + b"b\r\n\x08\x05\x12\x03A:B\x18\xe8\x0f\n\r\n0\r\n\r\n"),
    ("/retrieval/data/getData.json?" + EARLY, 1, data_head("json", 1) + b'24\r\n[{"meta":{"name":"A:B"},"data":[]}]\n\r\n0\r\n\r\n'),
]

# Types, headers and the lines of samples in 2024 of a variable, and its JSON text: two worked examples, headers and strings of all kinds,
# and samples of each type.
JSON_TEXTS = [
    (
        "SCALAR_INT",
        [],
        [b"\x08\x01\x10\x00\x1d\x01\x00\x00\x00", b"\x08\x05\x10\x00\x1d\x02\x00\x00\x00"],
        r"""[{"meta":{"name":"A:B"},"data":[{"secs":1704067201,"nanos":0,"val":1,"severity":0,"status":0},{"secs":1704067205,"nanos":0,"val":2,"severity":0,"status":0}]}]""",
    ),
    (
        "SCALAR_DOUBLE",
        [],
        [b"\x08\x01\x10\x00\x19\x00\x00\x00\x00\x00\x00\xf0?"],
        r"""[{"meta":{"name":"A:B"},"data":[{"secs":1704067201,"nanos":0,"val":"0x3ff0000000000000","severity":0,"status":0}]}]""",
    ),
    (
        "SCALAR_STRING",
        [],
        [b"\x08\x01\x10\x00\x1a\x01\xff"],
        r"""[{"meta":{"name":"A:B"},"data":[{"secs":1704067201,"nanos":0,"val":"�","severity":0,"status":0}]}]""",
    ),
    (
        "SCALAR_INT",
        [(b"name", b"x"), (b"EGU", b"mm"), (b"PREC", b"\"3\"\\"), (b"EGU", b"cm"), (b"\xff", b"1"), (b"\xfe", b"2")],
        [],
        r"""[{"meta":{"name":"A:B","EGU":"mm","PREC":"\"3\"\\","�":"1","�":"2"},"data":[]}]""",
    ),
    (
        "SCALAR_STRING",
        [],
        [b"\x08\x02\x10\xff\x93\xeb\xdc\x03\x1a\x0f\xc3\xa9 \"\\/\x08\x0c\x1b\x02\x1b\x03\t\x1b\x01\x7f\xc3( \x03(\x11:\t\x1b\x02\x04HIHI\x12\x011:\t\x1b\x02\x04LOLO\x12\x012:\t\x1b\x02\x04HIHI\x12\x013:\x04\x1b\x02\x00\x12\x00"],
        r"""[{"meta":{"name":"A:B"},"data":[{"secs":1704067202,"nanos":999999999,"val":"é \"\\/\b\f\n\r\t\u001b�(","severity":3,"status":17,"fields":{"HIHI":"1","LOLO":"2","":""}}]}]""",
    ),
    (
        "SCALAR_SHORT",
        [],
        [b"\x08\x03\x10\x01\x18\x01 \xff\xff\xff\xff\xff\xff\xff\xff\xff\x01(\x80\x80\x80\x80\xf8\xff\xff\xff\xff\x01"],
        r"""[{"meta":{"name":"A:B"},"data":[{"secs":1704067203,"nanos":1,"val":-1,"severity":-1,"status":-2147483648}]}]""",
    ),
    (
        "SCALAR_FLOAT",
        [],
        [b"\x08\x04\x10\x00\x1d\x01\x00\xc0\xff(\x02:\x08\x1b\x02\x03EGU\x12\x01V"],
        r"""[{"meta":{"name":"A:B"},"data":[{"secs":1704067204,"nanos":0,"val":"0xffc00001","severity":0,"status":2,"fields":{"EGU":"V"}}]}]""",
    ),
    (
        "SCALAR_ENUM",
        [],
        [b"\x08\x05\x10\x00\x18\x1e"],
        r"""[{"meta":{"name":"A:B"},"data":[{"secs":1704067205,"nanos":0,"val":15,"severity":0,"status":0}]}]""",
    ),
    (
        "SCALAR_BYTE",
        [],
        [b"\x08\x06\x10\x00\x1a\x04\x00\x1b\x02\x1b\x01\xff \x01"],
        r"""[{"meta":{"name":"A:B"},"data":[{"secs":1704067206,"nanos":0,"val":[0,10,27,255],"severity":1,"status":0}]}]""",
    ),
    (
        "SCALAR_DOUBLE",
        [],
        [b"\x08\x07\x10\x00\x19\x89gE#\x01\xef\xcd\xab"],
        r"""[{"meta":{"name":"A:B"},"data":[{"secs":1704067207,"nanos":0,"val":"0xabcdef0123456789","severity":0,"status":0}]}]""",
    ),
    (
        "WAVEFORM_STRING",
        [],
        [b"\x08\x08\x10\x00\x1a\x01a\x1a\x00\x1a\x01\x80", b"\x08\x09\x10\x00"],
        r"""[{"meta":{"name":"A:B"},"data":[{"secs":1704067208,"nanos":0,"val":["a","","�"],"severity":0,"status":0},{"secs":1704067209,"nanos":0,"val":[],"severity":0,"status":0}]}]""",
    ),
    (
        "WAVEFORM_SHORT",
        [],
        [b"\x08\x1b\x02\x10\x00\x1a\x03\x02\x01\x04"],
        r"""[{"meta":{"name":"A:B"},"data":[{"secs":1704067210,"nanos":0,"val":[1,-1,2],"severity":0,"status":0}]}]""",
    ),
    (
        "WAVEFORM_FLOAT",
        [],
        [b"\x08\x0b\x10\x00\x1a\x08\x00\x00\x80?\x01\x00\xc0\xff"],
        r"""[{"meta":{"name":"A:B"},"data":[{"secs":1704067211,"nanos":0,"val":["0x3f800000","0xffc00001"],"severity":0,"status":0}]}]""",
    ),
    (
        "WAVEFORM_ENUM",
        [],
        [b"\x08\x0c\x10\x00\x1a\x01\x00"],
        r"""[{"meta":{"name":"A:B"},"data":[{"secs":1704067212,"nanos":0,"val":[0],"severity":0,"status":0}]}]""",
    ),
    (
        "WAVEFORM_BYTE",
        [],
        [b"\x08\x1b\x03\x10\x00\x1a\x02\x01\x02", b"\x08\x0e\x10\x00\x1a\x00"],
        r"""[{"meta":{"name":"A:B"},"data":[{"secs":1704067213,"nanos":0,"val":[1,2],"severity":0,"status":0},{"secs":1704067214,"nanos":0,"val":[],"severity":0,"status":0}]}]""",
    ),
    (
        "WAVEFORM_INT",
        [],
        [b"\x08\x0f\x10\x00\x1a\x0c\x00\x00\x00\x80\x00\x00\x00\x00\xff\xff\xff\x7f"],
        r"""[{"meta":{"name":"A:B"},"data":[{"secs":1704067215,"nanos":0,"val":[-2147483648,0,2147483647],"severity":0,"status":0}]}]""",
    ),
    (
        "WAVEFORM_DOUBLE",
        [],
        [b"\x08\x10\x10\x00\x1a\x10\x00\x00\x00\x00\x00\x00\xf0?\x89gE#\x01\xef\xcd\xab"],
        r"""[{"meta":{"name":"A:B"},"data":[{"secs":1704067216,"nanos":0,"val":["0x3ff0000000000000","0xabcdef0123456789"],"severity":0,"status":0}]}]""",
    ),
]


# Types, numbers of elements, headers, samples by years, from when on they are asked for, and the raw text.
RAW_TEXTS = [
    (
        "SCALAR_INT",
        None,
        [],
        [(2024, [FIRST, FIFTH])],
        "1970-01-01T00:00:00Z",
        b"\x08\x05\x12\x03A:B\x18\xe8\x0f\n\x08\x01\x10\x00\x1d\x01\x00\x00\x00\n\x08\x05\x10\x00\x1d\x02\x00\x00\x00\n",
    ),
    # The last second of 2023, and the first of 2024 and of 2026.
    (
        "SCALAR_INT",
        None,
        [],
        [
            (2023, [b"\x08\xff\xe6\x84\x0f\x10\x00\x1d\x01\x00\x00\x00\n"]),
            (2024, [b"\x08\x00\x10\x00\x1d\x02\x00\x00\x00\n", b"\x08\x01\x10\x00\x1d\x03\x00\x00\x00\n"]),
            (2026, [b"\x08\x00\x10\x00\x1d\x04\x00\x00\x00\n"]),
        ],
        "1970-01-01T00:00:00Z",
        b"\x08\x05\x12\x03A:B\x18\xe7\x0f\n\x08\xff\xe6\x84\x0f\x10\x00\x1d\x01\x00\x00\x00\n\n"
        b"\x08\x05\x12\x03A:B\x18\xe8\x0f\n\x08\x00\x10\x00\x1d\x02\x00\x00\x00\n\x08\x01\x10\x00\x1d\x03\x00\x00\x00\n\n"
        b"\x08\x05\x12\x03A:B\x18\xea\x0f\n\x08\x00\x10\x00\x1d\x04\x00\x00\x00\n",
    ),
    (
        "WAVEFORM_DOUBLE",
        2,
        [(b"EGU", b"mm\n"), (b"EGU", b"cm")],
        [(2024, [b"\x08\x10\x10\x00\x1a\x10\x00\x00\x00\x00\x00\x00\xf0?\x89gE#\x01\xef\xcd\xab\n"])],
        "1970-01-01T00:00:00Z",
        b"\x08\x1b\x03\x12\x03A:B\x18\xe8\x0f \x02z\x1b\x02\x1b\x02\x03EGU\x12\x03mm\x1b\x02z\t\x1b\x02\x03EGU\x12\x02cm\n"
        b"\x08\x10\x10\x00\x1a\x10\x00\x00\x00\x00\x00\x00\xf0?\x89gE#\x01\xef\xcd\xab\n",
    ),
    # No samples: the header's year is that of the interval's beginning, but from 1991 to 2499.
    ("SCALAR_INT", None, [], [(2024, [])], "1970-01-01T00:00:00Z", b"\x08\x05\x12\x03A:B\x18\xc7\x0f\n"),
    ("SCALAR_INT", None, [], [(2024, [])], "2024-01-01T00:00:00Z", b"\x08\x05\x12\x03A:B\x18\xe8\x0f\n"),
    ("SCALAR_INT", None, [], [(2024, [])], "2023-12-31T23:59:59.999999999Z", b"\x08\x05\x12\x03A:B\x18\xe7\x0f\n"),
    ("SCALAR_INT", None, [], [(2024, [])], "2499-12-31T23:59:59.999999999Z", b"\x08\x05\x12\x03A:B\x18\xc3\x13\n"),
]

ONE = HEADER + FIRST
TWO = HEADER + FIRST + b"\n" + HEADER + FIFTH + NINTH
# An escape that is none.
BAD = HEADER + b"\x08\x01\x1b\x04\n"
# A sample behind an empty line, where a header is wanted.
TORN = HEADER + FIRST + b"\n\x08"
UNKNOWN = b"\x08\x05\x12\x03A:C\x18\xe8\x0f\n" + FIRST
UNNAMED = b"\x08\x05\x12\x04A::B\x18\xe8\x0f\n" + FIRST


def feeds(now):
    """Feeds of an archive that has `A:B`, at a moment, and what they are told."""
    # Samples at the first moment of 2024, there again, and a nanosecond later; then 1,500 and 2,100 seconds ahead of the clock.
    first = HEADER + b"\x08\x00\x10\x00\x1d\x01\x00\x00\x00\n\x08\x00\x10\x00\x1d\x01\x00\x00\x00\n\x08\x00\x10\x01\x1d\x01\x00\x00\x00\n"
    return [
        (ONE, b"ok 1 0 0\ndurable 1\n"),
        (TWO, b"ok 1 0 0\nok 2 0 0\ndurable 3\n"),
        (UNKNOWN, b"ok 0 0 1\ndurable 0\n"),
        (UNNAMED, b"ok 0 0 1\ndurable 0\n"),
        (b"\n".join([first, *(chunk_at(now // SECOND + ahead) for ahead in (1_500, 2_100))]), b"ok 2 0 1\nok 1 0 0\nok 0 0 1\ndurable 3\n"),
        (BAD, b"refused 2 E5\n"),
        (b"", b"refused 1 E13\n"),
        (b"\n\n", b"refused 3 E13\n"),
        (HEADER, b"ok 0 0 0\ndurable 0\n"),
        (TORN, b"ok 1 0 0\nrefused 4 E35\n"),
        # What stands before a bad line of a chunk is kept, and that chunk gets no line.
        (HEADER + FIRST + b"\x08\x01\x1b\x04\n" + FIFTH, b"refused 3 E5\n"),
        # A type that is another than the row's, and one that there isn't.
        (b"\x08\x06\x12\x03A:B\x18\xe8\x0f\n\x08\x01\x10\x00\x19\x00\x00\x00\x00\x00\x00\xf0?\n", b"ok 0 0 1\ndurable 0\n"),
        (b"\x08\x0e\x12\x03A:B\x18\xe8\x0f\n", b"refused 1 E11\n"),
        # Empty lines before, between and behind.
        (b"\n\n" + ONE + b"\n\n\n" + HEADER + FIFTH + b"\n\n", b"ok 1 0 0\nok 1 0 0\ndurable 2\n"),
    ]


# How many of the 21 bytes of a header and a sample come, from and to, and what is told of them.
FRONTS = [
    (0, 0, b"refused 1 E13\n"),
    (1, 10, b"refused 1 E35\n"),
    (11, 11, b"ok 0 0 0\ndurable 0\n"),
    (12, 20, b"refused 2 E35\n"),
    (21, 21, b"ok 1 0 0\ndurable 1\n"),
]

# What stands behind the header in a line of its own: field 0, a group, and a value of which 4,294,967,295 bytes are to come.
HOSTILE = [
    (b"\x00\n", b"refused 2 E2\n"),
    (b"\x83\x01\n", b"refused 2 E3\n"),
    (b"\x82\x01\xff\xff\xff\xff\x0f\n", b"refused 2 E4\n"),
]
# Seconds in eleven bytes.
LONG_SECONDS = b"\x08" + b"\xff" * 10 + b"\x01\n"


def chunk_at(second):
    """A chunk of `A:B` with a sample at a second since 1970."""
    year = year_of(second * SECOND)
    line = number_field(1, second - year_start(year)) + b"\x10\x00\x1d\x01\x00\x00\x00"
    return header_line(Header(5, b"A:B", year, None, [])) + escape(line) + b"\n"


# Cases


def of_management():
    for call in MANAGED:
        yield asked(*call)
    # Of many rows the one that has the key is told.
    for row in range(2, 13):
        yield registered(f"pv=C:{row}&type=SCALAR_INT", row)
    yield asked("archivePV?pv=C-12&type=SCALAR_INT", "409 Conflict", 26, '{"status":"E19","row":12}')
    # Three samples of two hours.
    yield "feed", HEADER + FIRST + FIFTH + b"\x08\x90\x1c\x10\x00\x1d\x03\x00\x00\x00\n", b"ok 3 0 0\ndurable 3\n"
    yield asked(
        "getPVDetails?pv=A%3AB",
        "200 OK",
        155,
        '{"pvName":"A:B","type":"SCALAR_INT","status":"Being archived","samplingMethod":"MONITOR","samplingPeriodNanos":0,"accepted":3,"durable":3,"files":[2,0,0]}',
    )
    # What comes while a variable is paused is dropped, and what is there stays.
    yield asked("pauseArchivingPV?pv=A%3AB", "200 OK", 16, '{"status":"ok"}')
    yield "feed", HEADER + b"\x08\x91\x1c\x10\x00\x1d\x03\x00\x00\x00\n", b"ok 0 0 1\ndurable 0\n"
    yield asked("resumeArchivingPV?pv=A%3AB", "200 OK", 16, '{"status":"ok"}')
    yield "feed", HEADER + b"\x08\x92\x1c\x10\x00\x1d\x03\x00\x00\x00\n", b"ok 1 0 0\ndurable 1\n"
    yield "ask", get("/retrieval/data/getData.raw?pv=A%3AB&" + ALL), None
    # A variable that is sampled each second holds what comes.
    yield registered("pv=S&type=SCALAR_INT&samplingmethod=SCAN&samplingperiod=1", 13)
    sampled = TWO.replace(b"\x12\x03A:B", b"\x12\x01S")
    yield "feed", sampled, b"ok 0 1 0\nok 0 2 0\ndurable 0\n"


def of_renaming():
    """A variable with a new name: it keeps its past, and goes on where it is resumed; its old name keeps what it had."""
    yield registered()
    yield "feed", HEADER + FIRST + FIFTH, b"ok 2 0 0\ndurable 2\n"
    for call in RENAMED:
        yield asked(*call)
    raw, json = "/retrieval/data/getData.raw?pv=", "/retrieval/data/getData.json?pv="
    yield "ask", get(raw + "A%3AC&" + ALL, 0), data_head("octet-stream", 0) + NEW_HEADER + FIRST + FIFTH
    yield "ask", get(raw + "A%3AB&" + ALL, 0), data_head("octet-stream", 0) + HEADER + FIRST + FIFTH
    yield "ask", get(json + "A%3AC&" + ALL, 0), data_head("json", 0) + NEW_JSON_TEXT
    for header in (HEADER, NEW_HEADER):
        yield "feed", header + NINTH, b"ok 0 0 1\ndurable 0\n"
    yield asked("resumeArchivingPV?pv=A%3AC", "200 OK", 16, '{"status":"ok"}')
    # What the old name had already is too late, and what comes under the old name is dropped.
    yield "feed", NEW_HEADER + FIFTH, b"ok 0 0 1\ndurable 0\n"
    yield "feed", NEW_HEADER + NINTH, b"ok 1 0 0\ndurable 1\n"
    yield "feed", HEADER + b"\x08\x0b\x10\x00\x1d\x04\x00\x00\x00\n", b"ok 0 0 1\ndurable 0\n"
    yield "ask", get(raw + "A%3AC&" + ALL, 0), data_head("octet-stream", 0) + NEW_HEADER + FIRST + FIFTH + NINTH
    yield "ask", get(raw + "A%3AB&" + ALL, 0), data_head("octet-stream", 0) + HEADER + FIRST + FIFTH
    yield asked(
        "getPVDetails?pv=A%3AC",
        "200 OK",
        155,
        '{"pvName":"A:C","type":"SCALAR_INT","status":"Being archived","samplingMethod":"MONITOR","samplingPeriodNanos":0,"accepted":3,"durable":3,"files":[1,0,0]}',
    )
    for kind in ("raw", "json"):
        for first, last, _ in INTERVALS:
            yield "ask", get(f"/retrieval/data/getData.{kind}?pv=A%3AC&from={first}&to={last}"), None
            yield "ask", get(f"/retrieval/data/getData.{kind}?pv=count_8(A%3AC)&from={first}&to={last}"), None


def of_refusals():
    for data, status, length, body in REFUSED:
        yield "ask", data, answer(status, length, body)
    yield asked("getAllPVs", "200 OK", 3, "[]")


def of_moves():
    """Six hours that have ended, of which three move to their day."""
    hours = [number_field(1, 3_600 * hour + 1) + b"\x10\x00\x1d\x01\x00\x00\x00" for hour in range(6)]
    yield "ingest", HEADER + b"".join(escape(line) + b"\n" for line in hours), None
    yield "etl", b"", b"moved 3 0\n"
    yield asked(
        "getPVDetails?pv=A%3AB",
        "200 OK",
        155,
        '{"pvName":"A:B","type":"SCALAR_INT","status":"Being archived","samplingMethod":"MONITOR","samplingPeriodNanos":0,"accepted":6,"durable":6,"files":[3,1,0]}',
    )
    for kind in ("raw", "json"):
        yield "ask", get(f"/retrieval/data/getData.{kind}?pv=A%3AB&" + ALL), None


# Intervals over the three samples, and the lines of the answer.
INTERVALS = [
    ("2024-01-01T00:00:05Z", "2024-01-01T00:00:08Z", [FIRST, FIFTH]),
    ("2024-01-01T00:00:05Z", "2024-01-01T00:00:05Z", [FIRST, FIFTH]),
    ("2024-01-01T00:00:05.000000001Z", "2024-01-01T00:00:09Z", [FIFTH, NINTH]),
    ("2024-01-01T00:00:01Z", "2024-01-01T00:00:04.999999999Z", [FIRST]),
    ("2024-01-01T00:00:20Z", "2024-01-01T00:00:30Z", [NINTH]),
    ("2024-01-01T00:00:00Z", "2024-01-01T00:00:00Z", []),
    ("1970-01-01T00:00:00Z", "2499-12-31T23:59:59.999999999Z", [FIRST, FIFTH, NINTH]),
    ("2024-01-01T01:00:05%2B01:00", "2023-12-31T19:00:09-05:00", [FIRST, FIFTH, NINTH]),
    # FROM later than TO
    ("2024-01-01T00:00:09Z", "2024-01-01T00:00:01Z", [FIFTH]),
    ("2499-12-31T23:59:59.999999999Z", "1970-01-01T00:00:00Z", [NINTH]),
    ("2024-01-01T00:00:01Z", "2024-01-01T00:00:00Z", []),
]


def of_data():
    yield "ingest", HEADER + FIRST + FIFTH + NINTH, None
    yield from asked_for_data()
    # A variable without a row has no samples.
    for kind in ("raw", "json"):
        yield "ask", get(f"/retrieval/data/getData.{kind}?{OTHER}"), answer("404 Not Found", 17, '{"status":"E26"}')


def of_fed_data():
    yield registered()
    yield "feed", HEADER + FIRST + FIFTH + NINTH, b"ok 3 0 0\ndurable 3\n"
    yield from asked_for_data()


def asked_for_data():
    for path, version, whole in SENT:
        yield "ask", get(path, version), whole
    for first, last, lines in INTERVALS:
        text = HEADER + b"".join(lines)
        whole = data_head("octet-stream", 1) + b"%x\r\n%s\r\n0\r\n\r\n" % (len(text), text)
        yield "ask", get(f"/retrieval/data/getData.raw?pv=A%3AB&from={first}&to={last}"), whole
        yield "ask", get(f"/retrieval/data/getData.json?pv=A%3AB&from={first}&to={last}"), None


# Operators over the three samples from the first second of 2024 to its twenty-first, and the lines of what they make of these.
OPERATORS = [
    ("firstSample_8", [FIRST, NINTH]),
    ("lastSample_8", [FIFTH, NINTH]),
    ("nth_2", [FIRST, NINTH]),
    ("count_8", [b"\x08\x00\x10\x00\x1d\x02\x00\x00\x00\n", b"\x08\x08\x10\x00\x1d\x01\x00\x00\x00\n"]),
    ("ncount", [b"\x08\x00\x10\x00\x1d\x03\x00\x00\x00\n"]),
    ("firstSample_1", [FIRST, FIFTH, NINTH]),
    ("lastSample", [NINTH]),
    ("nth_1", [FIRST, FIFTH, NINTH]),
    ("nth_999999999", [FIRST]),
    # This bin began in 2001.
    ("count_999999999", None),
]


def of_bins():
    yield registered()
    yield "feed", HEADER + FIRST + FIFTH + NINTH, b"ok 3 0 0\ndurable 3\n"
    for operator, lines in OPERATORS:
        text = HEADER + b"".join(lines or [])
        asked_for = f"?pv={operator}(A%3AB)&from=2024-01-01T00:00:00Z&to=2024-01-01T00:00:20Z"
        whole = data_head("octet-stream", 1) + b"%x\r\n%s\r\n0\r\n\r\n" % (len(text), text)
        yield "ask", get("/retrieval/data/getData.raw" + asked_for), whole if lines else None
        yield "ask", get("/retrieval/data/getData.json" + asked_for), None
    # The sample before the interval isn't used, and of no samples there is one count alone.
    for operator, _ in OPERATORS:
        for first, last, _ in INTERVALS:
            for kind in ("raw", "json"):
                yield "ask", get(f"/retrieval/data/getData.{kind}?pv={operator}%28A%3AB%29&from={first}&to={last}", 0), None
    yield "ask", get(f"/retrieval/data/getData.raw?pv=count_8(A%3AC)&{ALL}"), answer("404 Not Found", 17, '{"status":"E26"}')
    for text in ("mean_8(A%3AB)", "count_0(A%3AB)", "count_8(A%3AB"):
        yield "ask", get(f"/retrieval/data/getData.raw?pv={text}&{ALL}"), answer("400 Bad Request", 34, '{"status":"E31","parameter":"pv"}')


def of_feeds(now):
    for number, (stream, told) in enumerate(feeds(now)):
        name = b"F:%c" % (ord("a") + number)
        yield registered(f"pv={name.decode()}&type=SCALAR_INT", number)
        yield "feed", stream.replace(b"A:B", name), told
        yield "ask", get(f"/retrieval/data/getData.raw?pv={name.decode()}&" + ALL), None
        yield "ask", get(f"/mgmt/bpl/getPVDetails?pv={name.decode()}"), None


def of_hostile_feeds():
    """Feeds that break off, and feeds with bad lines: what stands before is kept, and durable."""
    yield registered()
    for line, told in HOSTILE:
        yield "feed", HEADER + line, told
    for first, last, told in FRONTS:
        for length in range(first, last + 1):
            if length == len(HEADER + FIRST):
                yield details("A:B", 155, 0, 0)
            yield "feed", (HEADER + FIRST)[:length], told
    yield details("A:B", 155, 1, 1)
    yield registered("pv=A%3AC&type=SCALAR_INT", 1)
    yield "feed", (HEADER + FIRST + LONG_SECONDS).replace(b"A:B", b"A:C"), b"refused 3 E1\n"
    yield details("A:C", 155, 1, 1)
    yield "ask", get("/retrieval/data/getData.raw?pv=A%3AC&" + ALL, 0), data_head("octet-stream", 0) + (HEADER + FIRST).replace(b"A:B", b"A:C")


def details(name, length, count, files):
    """The details of a variable of which so many samples are accepted and durable, in so many files."""
    return asked(
        "getPVDetails?pv=" + name.replace(":", "%3A"),
        "200 OK",
        length,
        '{"pvName":"%s","type":"SCALAR_INT","status":"Being archived","samplingMethod":"MONITOR","samplingPeriodNanos":0,"accepted":%d,"durable":%d,"files":[%d,0,0]}'
        % (name, count, count, files),
    )


def of_endless_line():
    """A line that has a byte too many, and no end."""
    yield registered()
    yield "feed", HEADER + b"\x08" * 16_777_217, b"refused 2 E15\n"
    yield details("A:B", 155, 0, 0)


def of_heads():
    """Each head of a request of `interop/http_cases` on an archive that has `A`."""
    yield "ingest", HEADER.replace(b"\x03A:B", b"\x01A") + FIRST + FIFTH, None
    for data, _ in [*http_rows.HEADS, *http_rows.CLIENTS.values()]:
        yield "ask", data, None
    for path, targets in http_rows.TARGETS.items():
        for target, _ in targets:
            yield "ask", f"GET {path}{target} HTTP/1.1\r\nHost: a\r\n\r\n".encode(), None
    for length in (16_384, 16_385, 20_000):
        head = b"GET /mgmt/bpl/flush HTTP/1.1\r\na:"
        yield "ask", head + b"x" * (length - len(head) - 4) + b"\r\n\r\n", None


def chunk_of(type_name, count, headers, year, lines):
    return header_line(Header(TYPE_NAMES.index(type_name), b"A:B", year, count, headers)) + b"".join(lines)


def of_texts():
    """The texts of samples, each of a variable of its own in the place of `A:B`."""
    streams, asks = [], []
    for number, (type_name, headers, lines, text) in enumerate(JSON_TEXTS):
        name = "J:%c" % (ord("a") + number)
        streams.append(renamed(chunk_of(type_name, None, headers, 2024, [line + b"\n" for line in lines]), name))
        whole = data_head("json", 0) + renamed(text.encode(), name) + b"\n"
        asks.append(("ask", get(f"/retrieval/data/getData.json?pv={name}&" + ALL, 0), whole))
        asks += [("ask", get(f"/retrieval/data/getData.{kind}?pv={name}&" + ALL), None) for kind in ("raw", "json")]
    for number, (type_name, count, headers, years, first, text) in enumerate(RAW_TEXTS):
        name = "R:%c" % (ord("a") + number)
        streams += [renamed(chunk_of(type_name, count, headers, year, lines), name) for year, lines in years]
        query = f"pv={name}&from={first}&to=2499-12-31T23:59:59.999999999Z"
        asks.append(("ask", get("/retrieval/data/getData.raw?" + query, 0), data_head("octet-stream", 0) + renamed(text, name)))
        asks.append(("ask", get("/retrieval/data/getData.json?" + query), None))
    yield "ingest", b"\n".join(streams), None
    yield from asks


def renamed(text, name):
    return text.replace(b"A:B", name.encode())


def of_long_texts():
    """A header of 70,000 bytes, an hour of samples, and one with 12,000 field values, some of whose names come twice: texts of many chunks."""
    yield "ingest", chunk_of("SCALAR_INT", None, [(b"EGU", b"m" * 70_000)], 2024, []), None
    lines = [escape(number_field(1, second) + b"\x10\x00\x1d\x01\x00\x00\x00") + b"\n" for second in range(3_600)]
    yield "ingest", chunk_of("SCALAR_INT", None, [], 2024, lines).replace(b"A:B", b"A:C"), None
    names = [b"N%d" % (number % 9_000) for number in range(12_000)]
    values = b"".join(b":%c\n%c%s\x12\x01%d" % (len(name) + 5, len(name), name, number % 10) for number, name in enumerate(names))
    yield "ingest", chunk_of("SCALAR_INT", None, [], 2024, [escape(b"\x08\x01\x10\x00\x1d\x01\x00\x00\x00" + values) + b"\n"]).replace(b"A:B", b"A:D"), None
    piece = b'[{"meta":{"name":"A:B","EGU":"' + b"m" * 70_000 + b'"},"data":[]}]\n'
    yield "ask", get("/retrieval/data/getData.json?pv=A%3AB&" + ALL, 0), data_head("json", 0) + piece
    for name in ("A%3AB", "A%3AC", "A%3AD"):
        for kind in ("raw", "json"):
            for version in (0, 1):
                yield "ask", get(f"/retrieval/data/getData.{kind}?pv={name}&" + ALL, version), None


def of_full_intakes():
    """Four lines of 16,777,215 bytes, with an unknown field as long as it takes, fill the intake, and the fifth is offered again behind a
    flush: by `ingest`, and by a feed."""
    lines = [b"\x08%c\x10\x00\x1d\x01\x00\x00\x00\x9a\x06\xf0\xff\xff\x07" % second + b"x" * 16_777_200 + b"\n" for second in range(1, 6)]
    yield "ingest", HEADER + b"".join(lines), None
    yield registered("pv=A%3AC&type=SCALAR_INT", 1)
    yield "feed", HEADER.replace(b"A:B", b"A:C") + b"".join(lines), b"ok 5 0 0\ndurable 5\n"
    for name in ("A%3AB", "A%3AC"):
        yield "ask", get(f"/mgmt/bpl/getPVDetails?pv={name}"), None
        yield "ask", get(f"/retrieval/data/getData.json?pv={name}&" + ALL), None
    yield "ask", get("/retrieval/data/getData.raw?pv=A%3AC&from=2024-01-01T00:00:05Z&to=2024-01-01T00:00:05Z"), None
