"""Monitors of Channel Access as samples, by pyepics and libca.

What libca hands over is taken as its bytes (the structures DBR_TIME of db_access.h), so that time stamps keep
their nanoseconds, floats their bits and texts their bytes. libca calls from threads of its own: all that is
done there is to put an event into a queue.
"""

import ctypes
import struct

import numpy
from epics import ca, dbr

import pb_stream

# By the number of a DBR type without a time: the element's type of PB, where its value begins in the DBR_TIME
# structure, and the form of an element.
KINDS = {
    dbr.STRING: ("STRING", 12, "S40"),
    dbr.SHORT: ("SHORT", 14, "i2"),
    dbr.FLOAT: ("FLOAT", 12, "f4"),
    dbr.ENUM: ("ENUM", 14, "u2"),
    dbr.CHAR: ("BYTE", 15, "u1"),
    dbr.LONG: ("INT", 12, "i4"),
    dbr.DOUBLE: ("DOUBLE", 16, "f8"),
}
# What an archiver is told of: changes beyond the archive's dead band, and of the alarm.
MASK = dbr.DBE_LOG | dbr.DBE_ALARM
# The first of the types with units (DBR_GR), and how many decimals a value has and what its unit is in their structures.
GRAPHIC = 21
DECIMALS_AND_UNIT = {"FLOAT": "=4xh2x8s", "DOUBLE": "=4xh2x8s", "SHORT": "=4x8s", "INT": "=4x8s", "BYTE": "=4x8s"}
EPOCH = int(dbr.EPICS2UNIX_EPOCH)
# pyepics would take libca's context apart at the end, which may wait for ever; the end of the program does as much.
ca.AUTO_CLEANUP = False
CONNECTED, LOST, CHANGED, DESCRIBED = "connected", "lost", "changed", "described"


def type_number(kind, count):
    """The payload type of a channel: a waveform where it has room for more than one element."""
    return pb_stream.NAMES.index(KINDS[kind][0]) + (7 if count > 1 else 0)


def sample(dbr_type, count, data):
    """Moment, value, severity and status of a monitor's bytes. Numbers of a scalar stay bytes where PB has them so."""
    status, severity, seconds, nanos = struct.unpack_from("=hhII", data)
    element, offset, form = KINDS[dbr_type - dbr.TIME_STRING]
    values = numpy.frombuffer(data, form, count, offset)
    if element in pb_stream.PACKED:
        values = values.astype(pb_stream.PACKED[element])
    return (EPOCH + seconds) * pb_stream.SECOND + nanos, values, severity, status


def value_of(header, values):
    """What is written of elements as a value of a header's type."""
    if header.element == "BYTE":
        return values.tobytes()
    if header.element == "STRING":
        texts = [text.split(b"\0")[0] for text in values.tolist()]
        return texts if header.is_waveform else texts[0]
    if header.is_waveform:
        return values
    return values[:1].tobytes() if header.element in pb_stream.PACKED else int(values[0])


def about(kind, data):
    """The unit and the decimals of a channel by the bytes of its properties, as pairs of names and texts."""
    *decimals, unit = struct.unpack_from(DECIMALS_AND_UNIT[KINDS[kind][0]], data)
    unit = unit.split(b"\0")[0]
    try:
        unit = unit.decode()
    except UnicodeDecodeError:
        unit = unit.decode("latin-1")
    return [("EGU", unit)] * bool(unit) + [("PREC", str(number)) for number in decimals]


def size_of(dbr_type, count):
    """How many bytes a monitor has."""
    _, offset, form = KINDS[dbr_type - dbr.TIME_STRING]
    return offset + count * numpy.dtype(form).itemsize


class Monitors:
    """Channels of variables. What becomes of them comes into a queue: one of the four words, a name, and data."""

    def __init__(self, names, events):
        self.events = events
        # libca keeps no references, so all that it calls with is kept here.
        self.handler = dbr.make_callback(self.on_monitor, dbr.event_handler_args)
        self.property_handler = dbr.make_callback(self.on_property, dbr.event_handler_args)
        self.names = {name: ctypes.py_object(name) for name in names}
        self.channels = {}
        self.subscriptions = {}
        for name in self.names:
            self.channels[name] = ca.create_channel(name, callback=self.on_connection)
        ca.flush_io()

    def on_connection(self, pvname=None, conn=None, **_):
        """A channel is connected or lost."""
        self.events.put((CONNECTED if conn else LOST, pvname, None))

    def on_monitor(self, args):
        """A change came."""
        if args.status == dbr.ECA_NORMAL and args.raw_dbr:
            data = ctypes.string_at(args.raw_dbr, size_of(args.type, args.count))
            self.events.put((CHANGED, args.usr, (args.type, args.count, data)))

    def on_property(self, args):
        """The unit or the decimals changed, or came for the first time."""
        if args.status == dbr.ECA_NORMAL and args.raw_dbr:
            kind = args.type - GRAPHIC
            size = struct.calcsize(DECIMALS_AND_UNIT[KINDS[kind][0]])
            self.events.put((DESCRIBED, args.usr, (kind, ctypes.string_at(args.raw_dbr, size))))

    def subscribe(self, name):
        """Subscribes a connected channel, if it wasn't before: libca does it again after a loss. Its payload type."""
        channel = self.channels[name]
        kind, count = ca.field_type(channel), ca.element_count(channel)
        if kind not in KINDS:
            return None
        if name not in self.subscriptions:
            self.subscriptions[name] = []
            if KINDS[kind][0] in DECIMALS_AND_UNIT:
                self.add(name, kind + GRAPHIC, 1, dbr.DBE_PROPERTY, self.property_handler)
            # With a count of 0 as many elements come as there are at the time.
            self.add(name, kind + dbr.TIME_STRING, 0, MASK, self.handler)
            ca.flush_io()
        return type_number(kind, count)

    def add(self, name, dbr_type, count, mask, handler):
        """One subscription more."""
        event = ctypes.c_void_p()
        told = ca.libca.ca_create_subscription(dbr_type, count, self.channels[name], mask, handler, self.names[name],
                                               ctypes.byref(event))
        ca.PySEVCHK("create_subscription", told)
        self.subscriptions[name].append(event)

    def close(self):
        """Ends all subscriptions."""
        for events in self.subscriptions.values():
            for event in events:
                ca.clear_subscription(event)
        self.subscriptions = {}
        ca.flush_io()
