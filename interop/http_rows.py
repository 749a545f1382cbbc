"""The worked cases of `interop/http_cases`: each a line for the program, and what must come out of it.

What comes out was worked out by hand from the rules of docs/FORMATS.md. A case without an output has None.
"""

from http_model import sum_of, text_of

# Heads of requests, and what each asks for: its version and its call, or the number of its refusal.
HEADS = [
    # versions
    (b"GET /mgmt/bpl/flush HTTP/1.1\r\n\r\n", "1 flush"),
    (b"GET /mgmt/bpl/flush HTTP/1.0\r\n\r\n", "0 flush"),
    (b"GET /mgmt/bpl/flush HTTP/1.2\r\n\r\n", "E27"),
    (b"GET /mgmt/bpl/flush HTTP/2.0\r\n\r\n", "E27"),
    (b"GET /mgmt/bpl/flush HTTP/1\r\n\r\n", "E27"),
    (b"GET /mgmt/bpl/flush http/1.1\r\n\r\n", "E27"),
    (b"GET /mgmt/bpl/flush\r\n\r\n", "E27"),
    # ends of lines
    (b"GET /mgmt/bpl/flush HTTP/1.1\n\n", "1 flush"),
    (b"GET /mgmt/bpl/flush HTTP/1.1\nHost: a\n\n", "1 flush"),
    (b"GET /mgmt/bpl/flush HTTP/1.1\r\nHost: a\n\r\n", "1 flush"),
    (b"GET /mgmt/bpl/flush HTTP/1.1\nHost: a\r\n\n", "1 flush"),
    (b"\r\n\n\r\nGET /mgmt/bpl/flush HTTP/1.1\r\n\r\n", "1 flush"),
    (b"\rGET /mgmt/bpl/flush HTTP/1.1\r\n\r\n", "E27"),
    (b"GET /mgmt/bpl/flush HTTP/1.1\r\r\n\r\n", "E27"),
    (b"GET /mgmt/bpl/flush HTTP/1.1\r\nHost: a\r\r\n", "E27"),
    # blanks
    (b" GET /mgmt/bpl/flush HTTP/1.1\r\n\r\n", "E27"),
    (b"GET  /mgmt/bpl/flush HTTP/1.1\r\n\r\n", "E27"),
    (b"GET\t/mgmt/bpl/flush HTTP/1.1\r\n\r\n", "E27"),
    (b"GET /mgmt/bpl/flush  HTTP/1.1\r\n\r\n", "E27"),
    (b"GET /mgmt/bpl/flush HTTP/1.1 \r\n\r\n", "E27"),
    # fields
    (b"GET /mgmt/bpl/flush HTTP/1.1\r\na:\r\n\r\n", "1 flush"),
    (b"GET /mgmt/bpl/flush HTTP/1.1\r\na: \t b c\t \r\n\r\n", "1 flush"),
    (b"GET /mgmt/bpl/flush HTTP/1.1\r\na:\tb\tc\t\r\n\r\n", "1 flush"),
    (b"GET /mgmt/bpl/flush HTTP/1.1\r\na:b\r\nA:b\r\na:b\r\n\r\n", "1 flush"),
    (b"GET /mgmt/bpl/flush HTTP/1.1\r\na: \x80\xff\r\n\r\n", "1 flush"),
    (b"GET /mgmt/bpl/flush HTTP/1.1\r\nContent-Length: 4\r\n\r\nbody", "1 flush"),
    (b"GET /mgmt/bpl/flush HTTP/1.1\r\na : b\r\n\r\n", "E27"),
    (b"GET /mgmt/bpl/flush HTTP/1.1\r\n: b\r\n\r\n", "E27"),
    (b"GET /mgmt/bpl/flush HTTP/1.1\r\na\r\n\r\n", "E27"),
    (b"GET /mgmt/bpl/flush HTTP/1.1\r\na: b\r\n c\r\n\r\n", "E27"),
    (b"GET /mgmt/bpl/flush HTTP/1.1\r\na: b\x00\r\n\r\n", "E27"),
    (b"GET /mgmt/bpl/flush HTTP/1.1\r\na: b\x7f\r\n\r\n", "E27"),
    (b"GET /mgmt/bpl/flush HTTP/1.1\r\na\x80: b\r\n\r\n", "E27"),
    # methods
    (b"POST /mgmt/bpl/flush HTTP/1.1\r\n\r\n", "E29"),
    (b"HEAD /nowhere HTTP/1.1\r\n\r\n", "E29"),
    (b"get /mgmt/bpl/flush HTTP/1.1\r\n\r\n", "E29"),
    (b"GETS /mgmt/bpl/getPVStatus HTTP/1.0\n\n", "E29"),
    (b"G@T /mgmt/bpl/flush HTTP/1.1\r\n\r\n", "E27"),
    # what follows is given up
    (b"GET /mgmt/bpl/flush HTTP/1.1\r\n\r\nPOST / HTTP/1.1\r\n\r\n", "1 flush"),
    (b"GET /nowhere HTTP/1.1\n\n\n\x00", "E30"),
    # targets that aren't UTF-8
    (b"GET /\xff HTTP/1.1\r\n\r\n", "E27"),
    (b"GET /mgmt/bpl/getPVStatus?pv=\xc3 HTTP/1.1\r\n\r\n", "E27"),
    # the bytes end within the head
    (b"", "E27"),
    (b"\r\n\r\n", "E27"),
    (b"GET /mgmt/bpl/flush HTTP/1.1\r\n", "E27"),
    (b"GET /mgmt/bpl/flush HTTP/1.1\r\nHost: a\r\n", "E27"),
]

# The same of heads as `curl` and Python's `http.client` send them, with which `interop/heads` compares those clients.
CLIENTS = {
    "curl, data": (
        b"GET /retrieval/data/getData.raw?pv=A%3aB&from=1970-01-01T01%3a00%3a00%2b01%3a00&to=2012-09-27T08%3a00%3a00.000Z HTTP/1.1\r\n"
        b"Host: 127.0.0.1:80\r\n"
        b"User-Agent: curl/8\r\n"
        b"Accept: */*\r\n"
        b"\r\n",
        "1 raw A:B 0 1348732800000000000",
    ),
    "curl, status": (
        b"GET /mgmt/bpl/getPVStatus?pv=A%2bB HTTP/1.1\r\n"
        b"Host: 127.0.0.1:80\r\n"
        b"User-Agent: curl/8\r\n"
        b"Accept: */*\r\n"
        b"\r\n",
        "1 status A+B",
    ),
    "curl, HTTP/1.0": (
        b"GET /mgmt/bpl/getAllPVs HTTP/1.0\r\n"
        b"Host: 127.0.0.1:80\r\n"
        b"User-Agent: curl/8\r\n"
        b"Accept: */*\r\n"
        b"\r\n",
        "0 all",
    ),
    "curl, HEAD": (
        b"HEAD /mgmt/bpl/flush HTTP/1.1\r\n"
        b"Host: 127.0.0.1:80\r\n"
        b"User-Agent: curl/8\r\n"
        b"Accept: */*\r\n"
        b"\r\n",
        "E29",
    ),
    "curl, POST": (
        b"POST /mgmt/bpl/flush HTTP/1.1\r\n"
        b"Host: 127.0.0.1:80\r\n"
        b"User-Agent: curl/8\r\n"
        b"Accept: */*\r\n"
        b"\r\n",
        "E29",
    ),
    "python, data": (
        b"GET /retrieval/data/getData.raw?pv=A%3AB&from=1970-01-01T01%3A00%3A00%2B01%3A00&to=2012-09-27T08%3A00%3A00.000Z HTTP/1.1\r\n"
        b"Host: 127.0.0.1:80\r\n"
        b"Accept-Encoding: identity\r\n"
        b"\r\n",
        "1 raw A:B 0 1348732800000000000",
    ),
    "python, status": (
        b"GET /mgmt/bpl/getPVStatus?pv=A%2BB HTTP/1.1\r\n"
        b"Host: 127.0.0.1:80\r\n"
        b"Accept-Encoding: identity\r\n"
        b"\r\n",
        "1 status A+B",
    ),
    "python, HTTP/1.0": (b"GET /mgmt/bpl/getAllPVs HTTP/1.0\r\n\r\n", "0 all"),
    "python, DELETE": (
        b"DELETE /mgmt/bpl/flush HTTP/1.1\r\n"
        b"Host: 127.0.0.1:80\r\n"
        b"Accept-Encoding: identity\r\n"
        b"\r\n",
        "E29",
    ),
}

# Targets, by what stands before them.
TARGETS = {
    # A path is compared byte for byte.
    "": [
        ("/mgmt/bpl/getAllPVs", "1 all"),
        ("/mgmt/bpl/getAllPVs?", "1 all"),
        ("/mgmt/bpl/getAllPVs?pv=A&x", "1 all"),
        ("/mgmt/bpl/flush", "1 flush"),
        ("/mgmt/bpl/flush?&&=&x", "1 flush"),
        ("/mgmt/bpl/getAllPVs/", "E30"),
        ("/mgmt/bpl/getallPVs", "E30"),
        ("/mgmt/bpl/getAllPV%73", "E30"),
        ("/mgmt/bpl/flush#all", "E30"),
        ("/mgmt/bpl/flush%3F", "E30"),
        ("//mgmt/bpl/flush", "E30"),
        ("mgmt/bpl/flush", "E30"),
        ("/mgmt/bpl", "E30"),
        ("/", "E30"),
        ("*", "E30"),
        ("?pv=A", "E30"),
        ("http://a/mgmt/bpl/flush", "E30"),
        ("/mgmt/bpl/renamePv?pv=A&newname=B", "E30"),
        ("/retrieval/data/getData.txt?pv=A", "E30"),
        ("/retrieval/data/getData.qw", "E30"),
        ("/é", "E30"),
        ("/mgmt/bpl/getPVDetails?pv=A", "1 details A"),
        ("/mgmt/bpl/pauseArchivingPV?pv=A", "1 pause A"),
        ("/mgmt/bpl/resumeArchivingPV?pv=A", "1 resume A"),
        ("/mgmt/bpl/pauseArchivingPV", "E31 pv"),
        ("/mgmt/bpl/resumeArchivingPV?p=A", "E31 pv"),
        ("/mgmt/bpl/getPVDetails?", "E31 pv"),
    ],
    # A name is read as a form has it.
    "/mgmt/bpl/getPVStatus?": [
        ("pv=A:B", "1 status A:B"),
        ("pv=A%3AB", "1 status A:B"),
        ("pv=A%3aB", "1 status A:B"),
        ("pv=%41%42", "1 status AB"),
        ("%70v=A", "1 status A"),
        ("%70%76=A&pv=B", "1 status A"),
        ("pv=A&pv=B", "1 status A"),
        ("pv=A:&pv=B", "E31 pv"),
        ("pv=&pv=B", "E31 pv"),
        ("pv&pv=B", "E31 pv"),
        ("x=1&&pv=A&", "1 status A"),
        ("=&pv=A", "1 status A"),
        ("PV=A", "E31 pv"),
        ("pv+=A", "E31 pv"),
        ("pv=A+B", "E31 pv"),
        ("pv=A%2BB", "1 status A+B"),
        ("pv=A%20B", "E31 pv"),
        ("pv=A%FF", "E31 pv"),
        ("%FF=1&pv=A", "1 status A"),
        ("pv=A%C3%A9", "E31 pv"),
        ("pv=é", "E31 pv"),
        ("pv=A%", "E31 pv"),
        ("pv=A%4", "E31 pv"),
        ("pv=A%00", "E31 pv"),
        ("pv=A=B", "E31 pv"),
        ("pv=A;B", "1 status A;B"),
        ("pv=A#B", "1 status A#B"),
        ("pv=A?B", "E31 pv"),
        ("pv=A%26B", "E31 pv"),
        ("pv=A%2F..%2FB", "E31 pv"),
        ("pv=A/B", "1 status A/B"),
    ],
    # Of several bad parameters the first is told.
    "/retrieval/data/getData.raw?": [
        ("pv=A&from=1970-01-01T00:00:00Z&to=2012-09-27T08:00:00.000Z", "1 raw A 0 1348732800000000000"),
        ("to=1970-01-01T00:00:00Z&from=1970-01-01T00:00:01Z&pv=A", "1 raw A 1000000000 0"),
        ("pv=A&from=1970-01-01T01:00:00%2B01:00&to=1970-01-01T00:00:00-00:00", "1 raw A 0 0"),
        ("pv=A&from=1970-01-01T01:00:00+01:00&to=1970-01-01T00:00:00Z", "E31 from"),
        ("pv=A%3AB&from=x&to=y", "E31 from"),
        ("to=y&from=x&pv=:", "E31 pv"),
        ("from=x&to=y", "E31 pv"),
        ("pv=A&to=y", "E31 from"),
        ("pv=A&to=1970-01-01T00:00:00Z", "E31 from"),
        ("pv=A&from=1970-01-01T00:00:00Z", "E31 to"),
        ("pv=A&from=1970-01-01T00:00:00Z&to=", "E31 to"),
        ("pv=A&from=1970-01-01T00:00:00Z&from=x&to=1970-01-01T00:00:00z", "E31 to"),
    ],
    # An operator stands before a name in parentheses.
    "/retrieval/data/getData.raw?from=1970-01-01T00:00:00Z&to=1970-01-01T00:00:01Z&pv=": [
        ("firstSample_8(A:B)", "1 raw A:B 0 1000000000 firstSample 8"),
        ("lastSample_8(A:B)", "1 raw A:B 0 1000000000 lastSample 8"),
        ("count_8(A:B)", "1 raw A:B 0 1000000000 count 8"),
        ("nth_2(A:B)", "1 raw A:B 0 1000000000 nth 2"),
        ("ncount(A:B)", "1 raw A:B 0 1000000000 ncount"),
        ("firstSample(A:B)", "1 raw A:B 0 1000000000 firstSample 900"),
        ("lastSample(A:B)", "1 raw A:B 0 1000000000 lastSample 900"),
        ("count(A:B)", "1 raw A:B 0 1000000000 count 900"),
        ("count%5F8%28A%3aB%29", "1 raw A:B 0 1000000000 count 8"),
        ("count_000000008(A)", "1 raw A 0 1000000000 count 8"),
        ("count_999999999(A)", "1 raw A 0 1000000000 count 999999999"),
        ("count_1(A)", "1 raw A 0 1000000000 count 1"),
        ("count_0000000008(A)", "E31 pv"),
        ("count_1000000000(A)", "E31 pv"),
        ("count_0(A:B)", "E31 pv"),
        ("nth_0(A)", "E31 pv"),
        ("nth(A)", "E31 pv"),
        ("ncount_8(A)", "E31 pv"),
        ("mean_8(A:B)", "E31 pv"),
        ("count_(A)", "E31 pv"),
        ("count_8_8(A)", "E31 pv"),
        ("count_-8(A)", "E31 pv"),
        ("count_%2B8(A)", "E31 pv"),
        ("Count_8(A)", "E31 pv"),
        ("count_8 (A)", "E27"),
        ("count_8+(A)", "E31 pv"),
        ("count_8(A:B", "E31 pv"),
        ("count_8A:B)", "E31 pv"),
        ("count_8(A:B)x", "E31 pv"),
        ("x(A:B)", "E31 pv"),
        ("(A:B)", "E31 pv"),
        ("count_8()", "E31 pv"),
        ("count_8((A))", "E31 pv"),
        ("count_8(ncount(A))", "E31 pv"),
        ("count_8(A:)", "E31 pv"),
        ("A:B(", "E31 pv"),
        ("A:B)", "E31 pv"),
        ("count_8", "1 raw count_8 0 1000000000"),
    ],
    # It does so for data alone.
    "/mgmt/bpl/getPVStatus?pv=": [
        ("count_8(A)", "E31 pv"),
        ("ncount(A)", "E31 pv"),
    ],
    "/retrieval/data/getData.json?": [
        ("pv=A&from=1970-01-01T00:00:00Z&to=1970-01-01T00:00:00.5Z", "1 json A 0 500000000"),
        ("pv=A&from=&to=", "E31 from"),
        ("pv=firstSample_60(A)&from=1970-01-01T00:00:00Z&to=1970-01-01T00:00:01Z", "1 json A 0 1000000000 firstSample 60"),
        ("pv=firstSample_60(A&from=&to=", "E31 pv"),
        ("pv=firstSample_60(A)&from=&to=", "E31 from"),
    ],
    # How a variable is archived.
    "/mgmt/bpl/archivePV?": [
        ("pv=A&type=SCALAR_DOUBLE", "1 archive A SCALAR_DOUBLE monitor 0"),
        ("pv=A&type=WAVEFORM_BYTE&samplingmethod=MONITOR&samplingperiod=x", "1 archive A WAVEFORM_BYTE monitor 0"),
        ("pv=A&type=SCALAR_INT&samplingmethod=SCAN", "1 archive A SCALAR_INT scan 1000000000 0"),
        ("type=x", "E31 pv"),
        ("pv=A", "E31 type"),
        ("pv=A&type=DBR_SCALAR_INT&samplingmethod=x", "E31 type"),
        ("pv=A&type=scalar_int", "E31 type"),
        ("pv=A&type=SCALAR_INT&samplingmethod=scan", "E31 samplingmethod"),
        ("pv=A&type=SCALAR_INT&samplingmethod=&samplingperiod=x", "E31 samplingmethod"),
    ],
    # A variable gets a new name.
    "/mgmt/bpl/renamePV?": [
        ("pv=A:B&newname=A:C", "1 rename A:B A:C"),
        ("newname=A%3AC&pv=A%3AB", "1 rename A:B A:C"),
        ("pv=A&newname=A", "1 rename A A"),
        ("pv=A&newname=B&newname=C&pv=", "1 rename A B"),
        ("newname=B", "E31 pv"),
        ("pv=&newname=", "E31 pv"),
        ("pv=A", "E31 newname"),
        ("pv=A&newname=", "E31 newname"),
        ("pv=A&newname=B:", "E31 newname"),
        ("pv=A&newName=B", "E31 newname"),
        ("pv=A&newname=count_8(B)", "E31 newname"),
        ("pv=count_8(A)&newname=B", "E31 pv"),
    ],
    # A period is from a tenth of a second to a day.
    "/mgmt/bpl/archivePV?pv=A&type=SCALAR_INT&samplingmethod=SCAN&samplingperiod=": [
        ("0.1", "1 archive A SCALAR_INT scan 100000000 0"),
        ("0.099999999", "E31 samplingperiod"),
        ("0.5", "1 archive A SCALAR_INT scan 500000000 0"),
        ("1.123456789", "1 archive A SCALAR_INT scan 1123456789 0"),
        ("10.0", "1 archive A SCALAR_INT scan 10000000000 0"),
        ("86400", "1 archive A SCALAR_INT scan 86400000000000 0"),
        ("86400.000000001", "E31 samplingperiod"),
        ("99999", "E31 samplingperiod"),
        ("100000", "E31 samplingperiod"),
        ("0", "E31 samplingperiod"),
        ("01", "E31 samplingperiod"),
        ("00.5", "E31 samplingperiod"),
        ("1.", "E31 samplingperiod"),
        (".5", "E31 samplingperiod"),
        ("1.0000000000", "E31 samplingperiod"),
        ("1.5.5", "E31 samplingperiod"),
        ("1,5", "E31 samplingperiod"),
        ("1e1", "E31 samplingperiod"),
        ("-1", "E31 samplingperiod"),
        ("+1", "E31 samplingperiod"),
        ("%2B1", "E31 samplingperiod"),
        ("", "E31 samplingperiod"),
    ],
}

FLUSH = b"GET /mgmt/bpl/flush HTTP/1.1\r\n\r\n"

# Bytes, how many are read at once, what they ask for, how often they are read, and how many are left.
READS = [
    # up to the end of the head
    (FLUSH, 1, "1 flush", 32, 0),
    (FLUSH, 7, "1 flush", 5, 0),
    (FLUSH, 65_536, "1 flush", 1, 0),
    (FLUSH * 2, 1, "1 flush", 32, 32),
    (FLUSH * 2, 7, "1 flush", 5, 29),
    (FLUSH * 2, 65_536, "1 flush", 1, 0),
    # no further than the bytes that no head begins with, where these come first
    (b"\x00GET / HTTP/1.1\r\n\r\n", 1, "E27", 1, 18),
    (b"\x00GET / HTTP/1.1\r\n\r\n", 7, "E27", 1, 12),
    (b"\x00GET / HTTP/1.1\r\n\r\n", 65_536, "E27", 1, 0),
    (b"\x16\x03\x01\x02\x00\x01", 65_536, "E27", 1, 0),
    # up to the newline behind them
    (b"GET \x00/ HTTP/1.1\r\n\r\n", 1, "E27", 17, 2),
    (b"GET \x00/ HTTP/1.1\r\n\r\n", 7, "E27", 1, 12),
    # up to the end, which is one read more
    (b"GET \x00", 1, "E27", 6, 0),
]


def requests(data, wanted):
    """A request that is read in pieces of 1, of 7 and of all bytes."""
    yield "bytes " + text_of(data), None
    for piece in (1, 7, 65_536):
        yield f"request {piece} -", f"{wanted}; .."


def of_heads():
    for data, wanted in [*HEADS, *CLIENTS.values()]:
        yield from requests(data, wanted)
    for path, targets in TARGETS.items():
        for target, wanted in targets:
            yield from requests(f"GET {path}{target} HTTP/1.1\r\nHost: a\r\n\r\n".encode(), wanted)
    for data, piece, wanted, reads, left in READS:
        yield "bytes " + text_of(data), None
        yield f"request {piece} -", f"{wanted}; {reads} reads, {left} left"
    # The read behind the whole head would fail.
    yield "bytes " + text_of(FLUSH), None
    yield "request 65536 2", "1 flush; 1 reads, 0 left"
    yield "request 65536 1", "fault; 1 reads, 32 left"


def of_long_heads():
    """A head has at most 16,384 bytes. One field has 36 bytes beside its value; the first line has 29 and a field 3, and one ends it all."""
    for count, wanted in [(16_347, "1 flush"), (16_348, "1 flush"), (16_349, "E28")]:
        yield r"bytes GET /mgmt/bpl/flush HTTP/1.1\r\na:", None
        yield f"more {count} x", None
        yield r"more 1 \r\n\r\n", None
        for piece in (1, 7, 65_536):
            yield f"request {piece} -", f"{wanted}; .."
    for count, wanted in [(5_451, "1 flush"), (5_452, "E28"), (8_192, "E28")]:
        yield r"bytes GET /mgmt/bpl/flush HTTP/1.1\n", None
        yield rf"more {count} a:\n", None
        yield r"more 1 \n", None
        for piece in (1, 7, 65_536):
            yield f"request {piece} -", f"{wanted}; .."
    # A target that is no longer than what is taken, with what stands before it, and what ends it stands behind.
    yield "bytes GET /", None
    yield "more 16379 a", None
    yield r"more 1 \x20HTTP/1.1\r\n\r\n", None
    for piece, reads in ((1, 16_384), (7, 2_341), (65_536, 1)):
        yield f"request {piece} -", f"E28; {reads} reads, 13 left"
    # A target without end is taken no further.
    yield "bytes GET /", None
    yield "more 20000 a", None
    yield "request 7 -", "E28; 2341 reads, 3621 left"
    yield "request 65536 -", "E28; 1 reads, 3621 left"
    yield "bytes ", None
    yield "more 20000 a", None
    yield "request 7 -", "E28; 2341 reads, 3616 left"
    yield "request 65536 -", "E28; 1 reads, 3616 left"


JSON = r"Content-Type: application/json\r\n"
CLOSE = r"Connection: close\r\n\r\n"

# Status, whether it is JSON, version and length of a reply, and its head.
REPLY_HEADS = [
    ("200 0 1 -", r"HTTP/1.1 200 OK\r\nContent-Type: application/octet-stream\r\nTransfer-Encoding: chunked\r\n" + CLOSE),
    ("200 1 1 -", r"HTTP/1.1 200 OK\r\n" + JSON + r"Transfer-Encoding: chunked\r\n" + CLOSE),
    ("200 1 0 -", r"HTTP/1.1 200 OK\r\n" + JSON + CLOSE),
    ("200 1 0 0", r"HTTP/1.1 200 OK\r\n" + JSON + r"Content-Length: 0\r\n" + CLOSE),
    (
        "431 1 1 18446744073709551615",
        r"HTTP/1.1 431 Request Header Fields Too Large\r\n" + JSON + r"Content-Length: 18446744073709551615\r\n" + CLOSE,
    ),
    ("503 1 1 19", r"HTTP/1.1 503 Service Unavailable\r\n" + JSON + r"Content-Length: 19\r\n" + CLOSE),
]

# The length of a body, and the lines of its chunks.
BODIES = [
    (0, []),
    (1, [b"1"]),
    (10, [b"a"]),
    (255, [b"ff"]),
    (256, [b"100"]),
    (4_096, [b"1000"]),
    (8_191, [b"1fff"]),
    (8_192, [b"2000"]),
    (8_193, [b"2000", b"1"]),
    (16_384, [b"2000", b"2000"]),
    (20_000, [b"2000", b"2000", b"e20"]),
]

# The version, the writes that fail, how many calls fail then, and how many writes there are of a body of 10,000 bytes.
FAILED_WRITES = [
    (1, "-", 0, 2),
    (1, "1", 1, 3),
    (1, "1,2", 2, 2),
    (1, "2", 1, 2),
    (0, "-", 0, 1),
    (0, "1", 1, 1),
]


def of_reply_heads():
    for words, wanted in REPLY_HEADS:
        yield "head " + words, wanted


def put_body(length):
    """The cases that put a body of so many bytes, and the body."""
    cases = ["bytes ", f"more {length // 10} 0123456789", "more 1 " + "0123456789"[: length % 10]]
    return [(case, None) for case in cases], (b"0123456789" * 2_000)[:length]


def in_chunks(body, lines):
    """The chunks of a body, whose lengths' lines are these, and the last chunk."""
    chunks = [line + b"\r\n" + body[at * 8_192 :][:8_192] + b"\r\n" for at, line in enumerate(lines)]
    return b"".join(chunks) + b"0\r\n\r\n"


def of_bodies():
    for length, lines in BODIES:
        cases, body = put_body(length)
        yield from cases
        for version, wanted in [(1, in_chunks(body, lines)), (0, body)]:
            yield f"body {version} 65536 65536 -", f"{sum_of(wanted)}; 0 failed; .."
            # Each other write fails, and the others are short. What is written behind the end goes out as it is.
            for most in (1, 7, 8_191, 8_200, 30_000):
                yield f"again {version} 65536 {most} odd", f"{sum_of(wanted + b'HTTP')}; .."
    # Pieces of a body are joined.
    yield "bytes abcdefg", None
    yield "body 1 3 65536 -", sum_of(b"7\r\nabcdefg\r\n0\r\n\r\n") + "; 0 failed; 1 writes"
    # A body as it is is written at once.
    for length in (1, 7, 8_192, 8_193, 20_000):
        cases, body = put_body(length)
        yield from cases
        yield "body 0 65536 65536 -", f"{sum_of(body)}; 0 failed; 1 writes"
    # Where writes fail from one on, a front of the text went out.
    cases, body = put_body(20_000)
    yield from cases
    whole = in_chunks(body, [b"2000", b"2000", b"e20"])
    for failing, front, calls in [("1,2,3,4", 0, "2 failed; 2 writes"), ("2,3,4", 8_200, "2 failed; 3 writes"), ("3,4", 16_400, "1 failed; 3 writes")]:
        yield f"body 1 65536 65536 {failing}", f"{sum_of(whole[:front])}; {calls}"
    # A failed write is not tried again in its call.
    cases, body = put_body(10_000)
    yield from cases
    for version, failing, failed, writes in FAILED_WRITES:
        yield f"body {version} 65536 65536 {failing}", f".. {failed} failed; {writes} writes"


def all_cases():
    for group in (of_heads, of_long_heads, of_reply_heads, of_bodies):
        yield from group()
