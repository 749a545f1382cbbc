"""Cases of `clients/ca_feed.py`: a small server of Channel Access on the one side, a service on the other."""

import os
import signal
import socket
import struct
import subprocess
import sys
import time

import archappl
import channel_access
from cases import CLIENTS, started, status_of, wait_for, want
from channel_access import CHAR, DOUBLE, ENUM, FLOAT, LONG, SHORT, STRING, ChannelServer
from running import Service
from service_cases import ALL, shown

SECOND = 1_000_000_000
HOUR = 3_600 * SECOND
# Values that end the 7 kinds' ranges, and a float that is no number with bits of its own.
ODD_FLOAT = struct.unpack(">f", bytes.fromhex("7fc12345"))[0]
VALUES = {
    STRING: [b"", b"shut down", b"\xe4\n\r\x1b", b"a" * 39],
    SHORT: [0, -(2**15), 2**15 - 1, 10],
    FLOAT: [0.0, -1.5, ODD_FLOAT, 2.0**-149],
    ENUM: [0, 1, 15, 2**16 - 1],
    CHAR: [0, 255, 10, 65],
    LONG: [0, -(2**31), 2**31 - 1, 27],
    DOUBLE: [0.0, -1e300, 5e-324, 0.1],
}
PB = {STRING: "STRING", SHORT: "SHORT", FLOAT: "FLOAT", ENUM: "ENUM", CHAR: "BYTE", LONG: "INT", DOUBLE: "DOUBLE"}


class Bridge:
    """The program between both, and what was posted of each variable."""

    def __init__(self, channels, service, names, *words):
        self.channels = channels
        self.posted = {}
        # Where the repeater's port is taken, libca takes the repeater for there, and starts none that would stay.
        self.repeater = socket.socket(socket.AF_INET, socket.SOCK_DGRAM)
        self.repeater.bind(("", 0))
        environment = dict(os.environ, **channels.environment(), EPICS_CA_REPEATER_PORT=str(self.repeater.getsockname()[1]))
        command = [sys.executable, CLIENTS / "ca_feed.py", "--server", service.address, "--every", "0.1"]
        self.log = service.folder / f"bridge-{environment['EPICS_CA_REPEATER_PORT']}"
        with self.log.open("wb") as log:
            self.process = started([*command, *words, *names], env=environment, stderr=log)

    def __enter__(self):
        return self

    def __exit__(self, *_):
        self.process.kill()
        self.process.wait()
        self.repeater.close()

    def told(self):
        """All that it told so far."""
        return self.log.read_text()

    def end(self, number=signal.SIGINT):
        """Ends it, and gives its status and what it told."""
        self.process.send_signal(number)
        return status_of(self.process), self.told()


def post(channels, posted, name, elements, moment, severity=0, status=0):
    """Posts a change, and keeps it."""
    channels.post(name, elements, moment, severity, status)
    posted.setdefault(name, []).append((moment, elements, severity, status))


def value_shown(kind, elements, is_waveform):
    """A posted value as it is to be shown of the archive: of floats the bits."""
    if kind == CHAR:
        return list(elements)
    forms = {FLOAT: (">f", 8), DOUBLE: (">d", 16)}
    if kind in forms:
        found = ["0x" + struct.pack(forms[kind][0], one).hex() for one in elements]
    elif kind == STRING:
        found = [one.decode("utf-8", "replace") for one in elements]
    else:
        found = list(elements)
    return found if is_waveform else found[0]


def same(service, name, channel, posted):
    """The archive has just what was posted, once and in order."""
    got = archappl.get(service.address, name, *ALL)
    is_waveform = channel.room > 1
    want(f"the type of {name}", got.header.type_name, f"{'WAVEFORM' if is_waveform else 'SCALAR'}_{PB[channel.kind]}")
    want(f"the times of {name}", got.times.astype("int64").tolist(), [moment for moment, _, _, _ in posted])
    found = [shown(got.header.element, value) for value in got.values]
    wanted = [value_shown(channel.kind, elements, is_waveform) for _, elements, _, _ in posted]
    want(f"the values of {name}", found, wanted)
    want(f"the severities of {name}", got.severities.tolist(), [severity for _, _, severity, _ in posted])
    want(f"the statuses of {name}", got.statuses.tolist(), [status for _, _, _, status in posted])


def accepted(service, name):
    """How many samples of a variable the archive has; none where it doesn't know it."""
    try:
        return archappl.details(service.address, name)["durable"]
    except archappl.ArchiverError:
        return 0


def wait_for_all(what, service, posted):
    """Waits until the archive has as much as was posted."""

    def left():
        return sum(max(0, len(samples) - accepted(service, name)) for name, samples in posted.items())

    wait_for(what, lambda: not left(), left)


def all_types(_, service, channels):
    """Scalars and waveforms of all kinds, with severities, statuses and nanoseconds."""
    posted, start = {}, time.time_ns() - 100 * SECOND
    for kind, values in VALUES.items():
        for name, first, room in ((f"S:{PB[kind]}", values[:1], 1), (f"W:{PB[kind]}", values, 6)):
            channels.add(name, kind, first, start, room)
            posted[name] = [(start, first, 0, 0)]
    with Bridge(channels, service, posted) as bridge:
        wait_for_all("all are archived", service, posted)
        for number in range(1, 5):
            for kind, values in VALUES.items():
                moment = start + number * SECOND + 123_456_789
                post(channels, posted, f"S:{PB[kind]}", [values[number % 4]], moment, number % 4, number)
                post(channels, posted, f"W:{PB[kind]}", (values * 2)[: 1 + number], moment, number % 4, number)
        wait_for_all("the changes are archived", service, posted)
        status, told = bridge.end()
    number = sum(map(len, posted.values()))
    last = (f"ca_feed: {number} samples are durable, 0 weren't told durable, 0 were given up, "
            "0 had a time stamp that no archive takes")
    want("the end", (status, told.splitlines()[-1]), (0, last))
    for name, samples in posted.items():
        same(service, name, channels.channels[name], samples)


def lost_connections(rng, service, channels):
    """The service is killed and the channels are lost, more than once: each change that was posted is archived once."""
    names, posted = [f"L:{number}" for number in range(5)], {}
    moments = iter(range(time.time_ns() - 500 * SECOND, time.time_ns() - SECOND, SECOND // 10))
    for name in names:
        moment = next(moments)
        channels.add(name, DOUBLE, [0.5], moment)
        posted[name] = [(moment, [0.5], 0, 0)]

    def changes(number):
        for _ in range(number):
            post(channels, posted, rng.choice(names), [rng.random()], next(moments))
            time.sleep(0.002)

    with Bridge(channels, service, names) as bridge:
        wait_for_all("all are archived", service, posted)
        for _ in range(2):
            changes(100)
            service.kill()
            changes(100)
            time.sleep(0.3)
            service.start()
            changes(100)
            wait_for_all("the changes are archived", service, posted)
            channels.stop()
            time.sleep(0.3)
            channels.start()
            wait_for("all are subscribed again", lambda: all(map(channels.subscribers, names)),
                     lambda: sum(map(channels.subscribers, names)))
            changes(50)
        wait_for_all("the changes are archived", service, posted)
        status, told = bridge.end(signal.SIGTERM)
    want("the status", status, 0)
    for what in ("Connection refused", "the service is there again", "channels are lost"):
        want(f"{what!r} is told", what in told, True)
    for name in names:
        same(service, name, channels.channels[name], posted[name])


def ended_without_service(_, service, channels):
    """What it couldn't bring is told at its end."""
    channels.add("E:A", LONG, [1], time.time_ns() - SECOND)
    with Bridge(channels, service, ["E:A"], "--patience", "0.5") as bridge:
        wait_for("it is archived", lambda: accepted(service, "E:A") == 1)
        service.kill()
        channels.post("E:A", [2], time.time_ns())
        wait_for("it tells that samples wait", lambda: "samples wait" in bridge.told())
        status, told = bridge.end()
    # The first one may be durable and not be told so yet.
    want("the end", (status, any(f"{number} weren't told durable" in told for number in (1, 2))), (1, True))


def full_disk(_, service, channels):
    """What the archive's disk has no room for is kept, and sent once there is room. Where nothing can be mounted it isn't tried."""
    small = service.folder / "small"
    small.mkdir()
    if subprocess.run(["mount", "-t", "tmpfs", "-o", "size=2m", "tmpfs", small], capture_output=True, check=False).returncode:
        print("clients: a small disk can't be mounted here, so the bridge isn't tried with a full one")
        return
    try:
        service.stop()
        for name in ("SITE", "SHORT_TERM", "MEDIUM_TERM", "LONG_TERM"):
            service.environment[f"ARCHAPPL_{name}_FOLDER"] = str(small / name.lower())
        service.start()
        ballast, start, posted = small / "ballast", time.time_ns() - 100 * SECOND, {}
        channels.add("D:A", DOUBLE, [0.0] * 1_000, start)
        posted["D:A"] = [(start, [0.0] * 1_000, 0, 0)]
        with Bridge(channels, service, posted) as bridge:
            wait_for_all("the first is archived", service, posted)
            ballast.write_bytes(bytes(1_900 * 1_024))
            for number in range(1, 40):
                post(channels, posted, "D:A", [number / 7] * 1_000, start + number * SECOND)
            wait_for("the disk is full", lambda: "No space left" in service.log.read_text())
            ballast.unlink()
            wait_for_all("all are archived", service, posted)
            status, told = bridge.end()
        want("the end", (status, "0 were given up" in told), (0, True))
        same(service, "D:A", channels.channels["D:A"], posted["D:A"])
        service.kill()
    finally:
        subprocess.run(["umount", "--lazy", small], check=True)


def left_out(_, service, channels):
    """Names and types that the archive doesn't take, time stamps that it doesn't, and names that are nowhere."""
    now = time.time_ns()
    archappl.archive(service.address, "O:INT", "SCALAR_INT")
    archappl.archive(service.address, "O:KEY", "SCALAR_DOUBLE")
    for name in ("O:INT", "O-KEY", "O::BAD", "O:GOOD"):
        channels.add(name, DOUBLE, [1.0], now - SECOND)
    channels.add("O:NEVER", DOUBLE, [1.0], channel_access.EPOCH * SECOND)
    channels.add("O:AHEAD", DOUBLE, [1.0], now + 3_600 * SECOND)
    with Bridge(channels, service, [*channels.channels, "O:NOWHERE"]) as bridge:
        wait_for("the good one is archived", lambda: accepted(service, "O:GOOD") == 1)
        channels.post("O:AHEAD", [2.0], now)
        wait_for("the later one is archived", lambda: accepted(service, "O:AHEAD") == 1)
        status, told = bridge.end()
    want("the status", status, 0)
    for line in ("O:INT is left out: the archive has it as SCALAR_INT, and its channel is SCALAR_DOUBLE",
                 "O-KEY is left out: the archive doesn't take it: E19",
                 "O::BAD is left out: the archive doesn't take it: E31"):
        want(f"{line!r} is told", line in told, True)
    want("what has no time stamp", "2 had a time stamp" in told, True)
    want("no sample of it", accepted(service, "O:NEVER"), 0)


def units(_, service, channels):
    """Units and decimals go with the first samples, the first one of an hour, and the next one where they change."""
    hour = (time.time_ns() // HOUR - 2) * HOUR
    names, posted = ("U:DOUBLE", "U:INT", "U:BYTES", "U:TEXT"), {}
    for name, kind, first, room in zip(names, (DOUBLE, LONG, CHAR, STRING), (0.5, 1, 1, b"on"), (1, 1, 4, 1)):
        channels.add(name, kind, [first], hour, room)
        posted[name] = [(hour, [first], 0, 0)]
    channels.describe("U:DOUBLE", "°C".encode("latin-1"), 2)
    channels.describe("U:INT", b"counts00")
    channels.describe("U:BYTES", "µA".encode())
    with Bridge(channels, service, names) as bridge:
        wait_for_all("all are archived", service, posted)
        for at in (600, 1_200, 3_605, 3_610, 3_615):
            for name, samples in posted.items():
                post(channels, posted, name, samples[0][1], hour + at * SECOND)
        channels.describe("U:DOUBLE", b"K", 3)
        post(channels, posted, "U:DOUBLE", [1.5], hour + 3_620 * SECOND)
        wait_for_all("the changes are archived", service, posted)
        want("the end", bridge.end()[0], 0)
    for name, samples in posted.items():
        same(service, name, channels.channels[name], samples)
    celsius, kelvin, counts = {"EGU": "°C", "PREC": "2"}, {"EGU": "K", "PREC": "3"}, {"EGU": "counts00"}
    for name, wanted in (("U:DOUBLE", [(0, celsius), (3_605, celsius), (3_620, kelvin)]), ("U:TEXT", []),
                         ("U:INT", [(0, counts), (3_605, counts)]),
                         ("U:BYTES", [(0, {"EGU": "µA"}), (3_605, {"EGU": "µA"})])):
        found = archappl.get(service.address, name, *ALL).field_values
        # Whether the second sample has them too depends on whether the first one came before the registration.
        found = [one for one in found if one[0] != hour + 600 * SECOND]
        want(f"the field values of {name}", found, [(hour + at * SECOND, told) for at, told in wanted])
    late = archappl.get(service.address, "U:DOUBLE", hour + 3_612 * SECOND, hour + 3_616 * SECOND)
    want("samples without a unit", (len(late), late.about("EGU")), (2, ""))
    want("their unit", archappl.described(service.address, "U:DOUBLE", late).about("EGU"), "°C")
    # The value that comes first by another start is there already; what follows it has the new unit.
    channels.describe("U:DOUBLE", b"mK", 1)
    with Bridge(channels, service, ["U:DOUBLE"]) as bridge:
        for at in (3_625, 3_630, 3_635):
            wait_for("it is subscribed", lambda: channels.subscribers("U:DOUBLE"))
            post(channels, posted, "U:DOUBLE", [0.25], hour + at * SECOND)
            wait_for_all("the change is archived", service, posted)
    late = archappl.get(service.address, "U:DOUBLE", hour + 3_625 * SECOND, hour + 3_635 * SECOND)
    want("the new unit", (late.about("EGU"), late.about("PREC")), ("mK", "1"))


def cases(program):
    """The cases, each with a service and channels of its own."""

    def over(work):
        def case(rng, _):
            channels = ChannelServer()
            channels.start()
            try:
                with Service(program) as service:
                    work(rng, service, channels)
            finally:
                channels.stop()

        case.__name__ = work.__name__
        return case

    return [(over(work), 1) for work in (all_types, lost_connections, ended_without_service, full_disk, left_out,
                                         units)]
