"""What the variables of a drill send, and what a drill tells in the end, as README.md and docs/FORMATS.md have it. It takes
nothing from the program. Other scripts may import it.

There are four variables of whole numbers, and each sends a sample a minute from 2024-01-01T00:00:00Z on, one second behind the variable
before it. The values are the numbers of a linear congruence that begins with the number of hours, drawn minute by minute and within a
minute variable by variable.
"""

import calendar
import struct
import time

from pb_model import SECOND, escape

VARIABLES, MOST_HOURS = 4, 200
START = calendar.timegm((2024, 1, 1, 0, 0, 0))


def varint(number):
    low, rest = number & 0x7F, number >> 7
    return bytes([low | 0x80]) + varint(rest) if rest else bytes([low])


def header(variable):
    """Type SCALAR_INT, the name, and the year."""
    name = f"DRILL:V{variable}".encode()
    return b"\x08\x05\x12" + varint(len(name)) + name + b"\x18" + varint(2024)


def event(second, value):
    """The second of the year, no nanoseconds, and the value in four bytes."""
    return b"\x08" + varint(second) + b"\x10\x00\x1d" + struct.pack("<i", value)


def feed(hours, variable):
    """The bytes that a variable sends: one chunk."""
    lines, drawn = [header(variable)], hours
    for minute in range(60 * hours):
        for number in range(VARIABLES):
            drawn = (drawn * 1_103_515_245 + 12_345) % 2**31
            if number == variable:
                lines.append(event(60 * minute + variable, drawn))
    return b"".join(escape(line) + b"\n" for line in lines)


def left_of(ripe, hold, gather):
    """How many of so many ripe partitions are left once no move is due, where a move takes the oldest `gather` of at least `hold`."""
    while ripe >= hold:
        ripe -= min(gather, ripe)
    return ripe


def now(hours):
    """What each clock tells: an hour behind the last of the drill's hours, in nanoseconds."""
    return (START + 3600 * (hours + 1)) * SECOND


def report(hours):
    """What a drill tells in the end, by the rule of moves: all hours have ended, and now is an hour behind the last of them."""
    lines = []
    for variable in range(VARIABLES):
        first = START + variable
        moments = [time.strftime("%Y-%m-%dT%H:%M:%S.000000000Z", time.gmtime(at)) for at in (first, first + (60 * hours - 1) * 60)]
        lines.append(f"DRILL:V{variable} {60 * hours} {moments[0]} {moments[1]}\n")
    hours_left = left_of(hours, 5, 3)
    days = -(-(hours - hours_left) // 24)
    days_ended = sum(1 for day in range(days) if 24 * (day + 1) <= hours + 1)
    days_moved = days_ended - left_of(days_ended, 2, 1)
    lines.append(f"tiers {4 * hours_left} {4 * (days - days_moved)} {4 if days_moved else 0}\n")
    return "".join(lines)


def weighed(data):
    """The length, and a sum in which each byte has a weight of its own."""
    total = 0
    for byte in data:
        total = (31 * total + byte) % 2**64
    return f"{len(data)} {total}"


def doors(hours):
    """The links of each door, and two moments of each of two clocks."""
    return f"{'link link closed ' * 2}{' '.join([str(now(hours))] * 4)}"


def of_drill(tell):
    """What is told of the drill of so many hours, if there is one."""
    def told(hours, *words):
        is_there = 1 <= int(hours) <= MOST_HOURS
        return tell(*(int(word) for word in (hours, *words))) if is_there else "no drill"

    return told


# What a line of `crates/format_cases` tells of a drill, by its words.
KINDS = {
    "feed": of_drill(lambda hours, variable: feed(hours, variable).hex()),
    "sum": of_drill(lambda hours, variable: weighed(feed(hours, variable))),
    "report": of_drill(lambda hours: "; ".join(report(hours).rstrip("\n").split("\n"))),
    "doors": of_drill(doors),
}
