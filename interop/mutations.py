"""Bytes that are mutated: any bytes, lines of streams at the edges of their tags, lengths and numbers, and journals.

Each function takes the source of randomness first, and gives the same for the same one.
"""

import pb_model
import streams
from pb_model import Fault, escape, unescape
from store_model import Damaged, batches, journal, renamed, switched, varint

PIECES = (*streams.PIECES, b"\x7f", b" ", b"%", b"&", b":", b"?")
NUMBERS = (0, 1, 2, 127, 128, 2**14, 2**31 - 1, 2**31, 2**32 - 1, 2**32, 2**63 - 1, 2**63, 2**64 - 1)
# Where the members of an entry of a manifest stand, and their sizes; and the size of all.
MEMBERS = ((0, 1), (1, 4), (5, 8), (13, 8), (21, 4), (25, 8), (33, 8), (41, 8))
ENTRY = 49


# Any bytes


def near(rng, old):
    """A number at an edge, or beside an old one."""
    return rng.choice((*NUMBERS, old + 1, old - 1, old * 2, old // 2, old + rng.randrange(-50, 50))) % 2**64


def other_piece(rng, data, others):
    """Bytes with a piece cut off, put in, removed, or doubled, here or elsewhere, or with the end of others."""
    at, end = sorted(rng.randrange(len(data) + 1) for _ in range(2))
    end = rng.choice((end, min(len(data), at + rng.randrange(1, 40))))
    way = rng.randrange(6)
    if way == 0:
        return rng.choice((data[:at], data[at:]))
    if way == 1:
        return data[:at] + rng.choice((rng.choice(PIECES), rng.randbytes(3), varint(rng.choice(NUMBERS)))) + data[at:]
    if way == 2:
        return data[:at] + data[end:]
    if way < 5:
        to = rng.choice((end, rng.randrange(len(data) + 1)))
        return data[:to] + data[at:end] + data[to:]
    other = rng.choice(others or (data,))
    return data[:at] + other[rng.randrange(len(other) + 1) :]


def other_lines(rng, data, _others):
    """A line comes twice, in the place of another, or not at all."""
    lines = data.split(b"\n")
    one, other = rng.randrange(len(lines)), rng.randrange(len(lines))
    way = rng.randrange(3)
    if way == 0:
        lines[one], lines[other] = lines[other], lines[one]
    elif way == 1:
        lines.insert(other, lines[one])
    else:
        del lines[one]
    return b"\n".join(lines)


def other_number(rng, data, _others):
    """A bit is flipped, or little-endian bytes are another number."""
    size, at = rng.choice((0, 1, 4, 8)), rng.randrange(len(data))
    old = int.from_bytes(data[at : at + max(size, 1)], "little")
    if size == 0:
        return data[:at] + bytes([old ^ 1 << rng.randrange(8)]) + data[at + 1 :]
    return data[:at] + near(rng, old).to_bytes(8, "little")[:size] + data[at + size :]


def mutated(rng, data, others=()):
    """Some bytes with one to three mutations."""
    for _ in range(rng.choice((1, 1, 1, 2, 3))):
        way = rng.choice((other_piece, other_piece, other_lines, other_number, other_number))
        data = way(rng, data, others) if data else rng.choice(PIECES)
    return data


# Streams


def mutated_stream(rng, data, others):
    """A stream with mutated bytes, or with fields at the edge of what they may be."""
    if rng.random() < 0.4:
        return mutated(rng, data, others)
    lines = data.split(b"\n")
    at = rng.choice([number for number, line in enumerate(lines) if line] or [0])
    lines[at] = mutated_line(rng, lines[at], others)
    return b"\n".join(lines)


def mutated_line(rng, line, others):
    try:
        message = unescape(line)
        extents = streams.extents(message)
    except Fault:
        return mutated(rng, line, others)
    way = rng.randrange(4)
    if not extents or way == 0:
        return escape(mutated(rng, message, others))
    start, end = rng.choice(extents)
    if way == 1:
        return escape(rng.choice((message[:start] + message[end:], message + message[start:end])))
    return escape(message[:start] + edge_field(rng, message[start:end]) + message[end:])


def edge_field(rng, field):
    """A field with another tag, or with another number, which is its length where it has one."""
    tag, behind = pb_model.varint(field, 0)
    if rng.random() < 0.3:
        number = rng.choice((0, 1, 2, 3, 4, 7, 15, 16, 2**29 - 1, 2**29, tag // 8))
        return varint(number * 8 + rng.choice((tag % 8, rng.randrange(8)))) + field[behind:]
    if tag % 8 not in (0, 2):
        return streams.lengthened(field[:behind], rng.randrange(10)) + field[behind:]
    number, rest = pb_model.varint(field, behind)
    return field[:behind] + streams.lengthened(varint(near(rng, number)), rng.choice((0, 0, 1, 5))) + field[rest:]


# Journals


def generations(rng, name, data):
    """The files of a journal of these bytes in some generation, with what checkpoints that were broken off leave."""
    current = rng.choice((0, 0, 1, 2, 5))
    names = [name] + [f"{name}.{number}" for number in range(1, current + 2)]
    files = {names[current]: data}
    if current or rng.random() < 0.3:
        files[f"{name}.at"] = journal([number.to_bytes(8, "little") for number in range(1, current + 1)])
    for other in (current - 1, current + 1):
        if other >= 0 and rng.random() < 0.2:
            files[names[other]] = rng.choice((b"", b"\x01", data[: len(data) // 2], data))
    return files


def mutated_journals(rng, files):
    """The files of journals by their names, of which one or two are mutated."""
    files = dict(files)
    for _ in range(rng.choice((1, 1, 1, 2))):
        name, other, way = rng.choice(sorted(files)), rng.choice(sorted(files)), rng.randrange(10)
        if way == 0:
            files[name] = rng.choice((b"", b"\x01", files[name][:2], files[other]))
        elif way == 1:
            files[rng.choice((f"{name}.at", f"{name.partition('.')[0]}.{rng.randrange(4)}", other))] = files[name]
        elif way == 2 and len(files) > 1:
            del files[name]
        elif way < 5:
            files[name] = mutated(rng, files[name], list(files.values()))
        else:
            files[name] = other_batches(rng, files[name])
    return files


def other_batches(rng, data):
    """A journal of its form with other batches."""
    try:
        parts = [batch for _, batch in batches(data)]
    except Damaged:
        return data
    if not parts:
        return journal([rng.choice((b"", b"\x01\x03", b"\x01\x04", switched(0, 1), renamed(0, 1, b"N"), (1).to_bytes(8, "little")))])
    one, other, way = rng.randrange(len(parts)), rng.randrange(len(parts)), rng.randrange(9)
    if way == 0:
        del parts[one]
    elif way == 1:
        parts[one], parts[other] = parts[other], parts[one]
    elif way == 2:
        parts[one : one + 2] = [b"".join(parts[one : one + 2])]
    elif way == 3:
        row = rng.randrange(len(parts) + 1)
        new = rng.choice((len(parts), row, rng.randrange(70_000)))
        parts.insert(one, rng.choice((switched(row, rng.randrange(3)), renamed(row, new, rng.choice((b"N", b"A-B", b"A::B", parts[other][:9]))))))
    elif way < 6:
        parts[one] = mutated(rng, parts[one], parts)
    else:
        parts[one] = other_member(rng, parts[one])
    return journal(parts)


def other_member(rng, batch):
    """A batch of a manifest with another member of one of its entries, or a batch of the catalogue with another number."""
    start = 2 if batch[:1] == b"\x01" else 0
    at, size = rng.choice(MEMBERS)
    at += start + ENTRY * rng.randrange(max(1, (len(batch) - start) // ENTRY))
    old = int.from_bytes(batch[at : at + size], "little")
    new = rng.choice((near(rng, old), old + rng.choice((-1, 1)) * 3600 * 10**9)) % 2 ** (8 * size)
    return batch[:at] + new.to_bytes(size, "little") + batch[at + size :] if at < len(batch) else batch[:-1]
