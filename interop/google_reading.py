"""What Google's Protocol Buffers read of messages, and its comparison with the model's reading."""

import dataclasses
import re
import struct
import warnings

from google.protobuf.message import DecodeError

import pb_model
from comparing import Difference, agree
from messages import READERS, event_name
from pb_model import Event, Header


def google(name, message):
    """What the library reads, None where it refuses the bytes or finds them incomplete."""
    found = READERS[name]()
    with warnings.catch_warnings(record=True) as warned:
        warnings.simplefilter("always")
        try:
            found.ParseFromString(message)
        except DecodeError:
            return None
    # A warning is all that some versions have for a tag of 0.
    return found if found.IsInitialized() and not warned else None


def optional(found, name):
    return getattr(found, name) if found.HasField(name) else None


def pairs_of(listed):
    return [(one.name, one.val) for one in listed]


def event_of(found, type_number):
    val = list(found.val) if pb_model.VAL[type_number][1] else found.val
    return Event(found.secondsintoyear, found.nano, val, found.severity, found.status,
                 optional(found, "repeatcount"), pairs_of(found.fieldvalues),
                 optional(found, "fieldactualchange"))


def header_of(found):
    return Header(found.type, found.pvname, found.year, optional(found, "elementCount"),
                  pairs_of(found.headers))


def in_floats(read, type_number):
    """The model's event with its floats as numbers and not as bits, in texts that any NaN shares."""
    form = {2: "If", 6: "Qd"}.get(type_number % 7)
    if form is None:
        return read

    def number(bits):
        return struct.unpack("<" + form[1], struct.pack("<" + form[0], bits))[0]

    val = [number(bits) for bits in read.val] if isinstance(read.val, list) else number(read.val)
    return dataclasses.replace(read, val=val)


def is_long(message, count=6):
    """Whether a number in it may have so many bytes. The library takes five of a tag or a length."""
    return re.search(rb"[\x80-\xff]{%d}" % (count - 1), message) is not None


def is_refused_by_all(fault, message):
    """Whether the library must refuse the message, too. It reads a group and a wrong wire type as
    unknown fields, and drops the bits of a tag from 2^32 on."""
    if fault.number == pb_model.BAD_TAG:
        return not is_long(message, 5)
    return fault.number in (pb_model.BAD_VARINT, pb_model.SHORT, pb_model.MISSING)


def compare_message(line, type_number):
    """The model and Google's Protocol Buffers on a line: a header's where the type is None. It gives what the library
    reads, None where it takes nothing."""
    try:
        message = pb_model.unescape(line)
    except pb_model.Fault:
        return None
    is_header = type_number is None
    found = google("PayloadInfo" if is_header else event_name(type_number), message)
    try:
        read = pb_model.header(message) if is_header else pb_model.event(type_number, message)
    except pb_model.Fault as fault:
        if is_refused_by_all(fault, message):
            agree(f"Google's reading of {message.hex()}, which is E{fault.number}", found, None)
        return None
    if found is None:
        if not is_long(message):
            raise Difference(f"Google refuses {message.hex()}")
        return None
    told = header_of(found) if is_header else event_of(found, type_number)
    wanted = read if is_header else in_floats(read, type_number)
    # As texts, in which a NaN is like another.
    agree(f"Google's reading of {message.hex()}", repr(told), repr(wanted))
    return told


def compare_file(data, header, moments):
    """The bytes of a partition's file, which must be a line of this header and lines of events of these moments, as the
    library reads them."""
    head, *lines, rest = data.split(b"\n")
    agree("what stands behind the last line", rest, b"")
    agree("Google's header", compare_message(head, None), header)
    agree("the lines of samples", len(lines), len(moments))
    for line, t in zip(lines, moments):
        event = compare_message(line, header.type)
        if event is not None:
            agree("Google's moment", pb_model.moment(header.year, event.secs, event.nano), t)
