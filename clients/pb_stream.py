"""Raw PB streams: what `archappl get` writes and `archappl ingest` reads, as numpy arrays and back.

A stream is chunks, each a header and its samples. `pieces` reads one piece by piece, so that memory doesn't
grow with the stream; `series` reads all of one variable. `chunk` writes one. It needs numpy alone, and takes
the messages of EPICSEvent.proto as docs/FORMATS.md tells them.
"""

import struct
from dataclasses import dataclass, field
from datetime import date

try:
    import numpy
except ImportError as missing:
    raise ImportError(f"{missing} (apt-get install python3-numpy)") from None

import pb_columns

NAMES = ("STRING", "SHORT", "FLOAT", "ENUM", "BYTE", "INT", "DOUBLE")
TYPES = [f"SCALAR_{name}" for name in NAMES] + [f"WAVEFORM_{name}" for name in NAMES]
FIRST_YEAR, LAST_YEAR = 1991, 2499
MOST_OF_A_PIECE = 65_536
MOST_BYTES_OF_A_PIECE = 1 << 24
SECOND = 1_000_000_000
# What the elements of each type are as numpy arrays. Texts and bytes are objects.
DTYPES = {"STRING": object, "SHORT": numpy.int32, "FLOAT": numpy.float32, "ENUM": numpy.int32, "BYTE": object,
          "INT": numpy.int32, "DOUBLE": numpy.float64}
PACKED = {"FLOAT": "<f4", "INT": "<i4", "DOUBLE": "<f8"}
FORMS = {"FLOAT": "<f", "INT": "<i", "DOUBLE": "<d"}
ESCAPES = ((b"\x1b", b"\x1b\x01"), (b"\n", b"\x1b\x02"), (b"\r", b"\x1b\x03"))


class BadStream(Exception):
    """A line of a stream isn't of the form."""

    def __init__(self, line, what):
        super().__init__(f"line {line}: {what}")
        self.line = line


@dataclass
class Header:
    """What a chunk's first line tells."""

    type: int
    name: str
    year: int
    count: object = None
    headers: list = field(default_factory=list)

    @property
    def type_name(self):
        """The name of the payload type."""
        return TYPES[self.type]

    @property
    def element(self):
        """The name of the type of an element."""
        return NAMES[self.type % 7]

    @property
    def is_waveform(self):
        """Whether a value is a list."""
        return self.type >= 7


@dataclass
class Piece:
    """Samples of one chunk that stand one after another; times are nanoseconds since 1970."""

    header: Header
    times: numpy.ndarray
    values: numpy.ndarray
    severities: numpy.ndarray
    statuses: numpy.ndarray
    # The moments of the samples that have field values, each with these by their names.
    field_values: list = field(default_factory=list)

    def __len__(self):
        return len(self.times)

    @property
    def headers(self):
        """The headers by their names; the first one of a name counts."""
        return dict(reversed(self.header.headers))

    def about(self, name):
        """What is told of the variable under a name, as EGU or PREC: by its newest field value, else by a header."""
        told = (found[name] for _, found in reversed(self.field_values) if name in found)
        return next(told, self.headers.get(name, ""))

    def at(self, places):
        """The samples at some places, with all field values."""
        columns = (column[places] for column in (self.times, self.values, self.severities, self.statuses))
        return Piece(self.header, *columns, self.field_values)


# Bytes


def escape(message):
    """The line of a message."""
    for byte, pair in ESCAPES:  # 1B first, since the others bring it in
        message = message.replace(byte, pair)
    return message


def unescape(line):
    """The message of a line."""
    if b"\x1b" not in line:
        return line
    pieces = line.split(b"\x1b")
    meaning = {pair[1]: byte for byte, pair in ESCAPES}
    out = [pieces[0]]
    for piece in pieces[1:]:
        if not piece or piece[0] not in meaning:
            raise ValueError("an escape byte that escapes nothing")
        out += [meaning[piece[0]], piece[1:]]
    return b"".join(out)


def varint(number):
    """The bytes of a number of up to 64 bits, also a negative one."""
    number %= 1 << 64
    out = bytearray()
    while number > 127:
        out.append(number & 127 | 128)
        number >>= 7
    out.append(number)
    return bytes(out)


def read_varint(data, at):
    """The number at a place, and the place behind it."""
    number = shift = 0
    while True:
        if at >= len(data) or shift > 63:
            raise ValueError("a number without its end")
        byte = data[at]
        at += 1
        number |= (byte & 127) << shift
        if byte < 128:
            return number & (1 << 64) - 1, at
        shift += 7


def fields(data):
    """The number and the value of each field: a number, or bytes."""
    at = 0
    while at < len(data):
        tag, at = read_varint(data, at)
        kind = tag & 7
        if kind == 0:
            value, at = read_varint(data, at)
        elif kind in (1, 2, 5):
            size, at = read_varint(data, at) if kind == 2 else (8 if kind == 1 else 4, at)
            value = data[at : at + size]
            at += size
            if len(value) < size:
                raise ValueError("a value without its end")
        else:
            raise ValueError("a field of no known kind")
        yield tag >> 3, value


def of_bytes(number, data):
    """A field of bytes."""
    return varint(number << 3 | 2) + varint(len(data)) + data


def of_number(number, value):
    """A field of a number."""
    return varint(number << 3) + varint(value)


def zigzag(number):
    """The number that a sint32 is written as."""
    return number * 2 if number >= 0 else -2 * number - 1


def signed(number):
    """The 32-bit number that a varint stands for."""
    number &= 0xFFFFFFFF
    return number - (1 << 32) if number >> 31 else number


def unzigzag(number):
    """The number that a sint32 was."""
    number &= 0xFFFFFFFF
    return number >> 1 if number & 1 == 0 else -(number >> 1) - 1


# Reading


def read_pair(data):
    """A name and a value."""
    pair = {1: b"", 2: b""}
    pair.update((number, value) for number, value in fields(data) if number in pair)
    return text(pair[1]), text(pair[2])


def text(data):
    """Bytes as a text, which need not be UTF-8."""
    return data.decode("utf-8", "replace")


def read_header(message):
    """The header of a message."""
    last, headers = {}, []
    for number, value in fields(message):
        if number == 15:
            headers.append(read_pair(value))
        else:
            last[number] = value
    found = Header(last[1], text(last[2]), signed(last[3]), signed(last[4]) if 4 in last else None, headers)
    if found.type >= len(TYPES) or not FIRST_YEAR <= found.year <= LAST_YEAR:
        raise ValueError("a header of an unknown type or year")
    return found


def read_scalar(element, value):
    """The value of a scalar; of a float, a double or an int its bytes, so that their bits stay as they are."""
    if element == "STRING":
        return text(value)
    if element == "BYTE":
        return bytes(memoryview(value))
    if element in FORMS:
        if len(value) != struct.calcsize(FORMS[element]):
            raise ValueError("a value of another size")
        return value
    return unzigzag(value)


def read_elements(element, values):
    """The elements of a waveform, whose fields are packed or single."""
    if element == "STRING":
        return [text(value) for value in values]
    if element in FORMS:
        return numpy.frombuffer(b"".join(values), PACKED[element])
    numbers = []
    for value in values:
        if isinstance(value, int):
            numbers.append(unzigzag(value))
            continue
        at = 0
        while at < len(value):
            number, at = read_varint(value, at)
            numbers.append(unzigzag(number))
    return numpy.array(numbers, DTYPES[element])


def read_value(header, values):
    """The value that the fields of a sample make."""
    if header.element == "BYTE" or not header.is_waveform:
        if not values:
            raise ValueError("a sample without a value")
        return read_scalar(header.element, values[-1])
    return read_elements(header.element, values)


def read_field_values(data):
    """Field values by their names, of which the first of a name counts, where there is nothing else."""
    found = list(fields(data))
    if any(number != 7 for number, _ in found):
        raise ValueError("a field that is no field value")
    return dict(reversed([read_pair(value) for _, value in found]))


def read_sample(header, message):
    """Moment, value, severity, status and field values of a sample."""
    last, values, pairs = {4: 0, 5: 0}, [], []
    for number, value in fields(message):
        if number == 3:
            values.append(value)
        elif number == 7:
            pairs.append(read_pair(value))
        else:
            last[number] = value
    t = (year_start(header.year) + last[1]) * SECOND + last[2]
    if t >= 1 << 63:
        raise ValueError("a moment after the year 2262, which numpy can't hold")
    return t, read_value(header, values), signed(last[4]), signed(last[5]), dict(reversed(pairs))


# What a line raises that isn't of the form.
BAD = (ValueError, KeyError, TypeError, AttributeError, OverflowError, struct.error)


class Gathered:
    """Lines of samples of a chunk until they make a piece."""

    def __init__(self, header):
        self.header = header
        self.begin(0)
        self.is_told = False

    def begin(self, number):
        """Has no lines; the next one is that behind line `number`."""
        self.before = number
        self.lines = []
        self.size = 0

    def add(self, line):
        """One line more, and whether they are a piece."""
        self.lines.append(line)
        self.size += len(line)
        return len(self.lines) == MOST_OF_A_PIECE or self.size >= MOST_BYTES_OF_A_PIECE

    def piece(self):
        """The piece that they make."""
        found = self.at_once() or self.one_by_one()
        self.begin(self.before + len(self.lines))
        self.is_told = True
        return Piece(self.header, *found)

    def at_once(self):
        """The columns of numbers in the usual form, or nothing."""
        header = self.header
        is_usual = not header.is_waveform and header.element not in ("STRING", "BYTE") and header.year < 2262
        if not is_usual or not self.lines or not self.lines[-1].endswith(b"\n"):
            return None
        try:
            lines = [unescape(line) if b"\x1b" in line else line for line in self.lines]
        except ValueError:
            return None
        found = pb_columns.columns(header.element, lines)
        if found is None:
            return None
        seconds, nanos, values, severities, statuses, rest = found
        times = (year_start(header.year) + seconds) * SECOND + nanos
        try:
            pairs = [(int(times[place]), read_field_values(data)) for place, data in rest]
        except BAD:
            return None
        return times, values, severities, statuses, pairs

    def one_by_one(self):
        """The columns of any samples."""
        rows = []
        for number, line in enumerate(self.lines, self.before + 1):
            try:
                rows.append(read_sample(self.header, message_of(line)))
            except BAD as error:
                raise BadStream(number, error) from None
        times, values, severities, statuses, pairs = zip(*rows) if rows else ((), (), (), (), ())
        return (numpy.array(times, numpy.int64), array_of(self.header, values), numpy.array(severities, numpy.int32),
                numpy.array(statuses, numpy.int32), [one for one in zip(times, pairs) if one[1]])


def array_of(header, values):
    """Values as an array."""
    if not header.is_waveform and header.element in PACKED:
        return numpy.frombuffer(b"".join(values), PACKED[header.element])
    if not header.is_waveform and DTYPES[header.element] is not object:
        return numpy.array(values, DTYPES[header.element])
    array = numpy.empty(len(values), object)
    array[:] = list(values) or None
    return array


def message_of(line):
    """The message of a line with its newline."""
    if not line.endswith(b"\n"):
        raise ValueError("the stream ends within it")
    return unescape(line[:-1])


def pieces(stream):
    """The pieces of a stream of bytes, in order; of a chunk without samples there is one that has none."""
    gathered = None
    for number, line in enumerate(stream, 1):
        if gathered is None:
            if line == b"\n":
                continue
            try:
                gathered = Gathered(read_header(message_of(line)))
            except BAD as error:
                raise BadStream(number, error) from None
            gathered.begin(number)
        elif line == b"\n":
            if gathered.lines or not gathered.is_told:
                yield gathered.piece()
            gathered = None
        elif gathered.add(line):
            yield gathered.piece()
    if gathered is not None and (gathered.lines or not gathered.is_told):
        yield gathered.piece()


def series(stream):
    """All samples of a stream by variable, each as one piece under its first header."""
    found = {}
    for piece in pieces(stream):
        found.setdefault(piece.header.name, []).append(piece)
    return {name: joined(parts) for name, parts in found.items()}


def joined(parts):
    """Pieces of one variable as one. They are emptied, so that no more than one column is there twice."""
    columns = []
    for name in ("times", "values", "severities", "statuses"):
        columns.append(numpy.concatenate([getattr(part, name) for part in parts]))
        for part in parts:
            setattr(part, name, columns[-1][:0])
    return Piece(parts[0].header, *columns, [one for part in parts for one in part.field_values])


# Moments


def year_start(year):
    """The seconds from 1970 to a year."""
    return (date(year, 1, 1) - date(1970, 1, 1)).days * 86_400


def year_of(t):
    """The year of a moment."""
    return int(numpy.datetime64(t, "ns").astype("datetime64[Y]").astype(int)) + 1970 if t < 2**63 else LAST_YEAR


# Writing


def of_pairs(number, pairs):
    """Fields of names and values."""
    return b"".join(of_bytes(number, of_bytes(1, name.encode()) + of_bytes(2, value.encode())) for name, value in pairs)


def header_line(header):
    """The line of a header."""
    message = of_number(1, header.type) + of_bytes(2, header.name.encode()) + of_number(3, header.year)
    if header.count is not None:
        message += of_number(4, header.count)
    return escape(message + of_pairs(15, header.headers)) + b"\n"


def scalar_field(element, value):
    """The field of a scalar's value."""
    if element in ("STRING", "BYTE"):
        return of_bytes(3, value.encode() if isinstance(value, str) else value)
    if element in FORMS:
        data = value if isinstance(value, bytes) else struct.pack(FORMS[element], value)
        return varint(3 << 3 | (1 if element == "DOUBLE" else 5)) + data
    return of_number(3, zigzag(value))


def value_fields(header, value):
    """The fields of a sample's value."""
    element = header.element
    if element == "BYTE" or not header.is_waveform:
        return scalar_field(element, value)
    if element == "STRING":
        return b"".join(scalar_field(element, one) for one in value)
    if element in FORMS:
        return of_bytes(3, numpy.asarray(value, PACKED[element]).tobytes())
    return of_bytes(3, b"".join(varint(zigzag(int(one))) for one in value))


def sample_line(header, t, value, severity=0, status=0, field_values=()):
    """The line of a sample of the header's year; field values are pairs of names and texts."""
    seconds, nanos = divmod(t - year_start(header.year) * SECOND, SECOND)
    message = of_number(1, seconds) + of_number(2, nanos) + value_fields(header, value)
    if severity:
        message += of_number(4, severity)
    if status:
        message += of_number(5, status)
    return escape(message + of_pairs(7, field_values)) + b"\n"


def chunk(header, samples):
    """The bytes of a chunk: each sample is its moment, value, and maybe severity, status and field values."""
    return header_line(header) + b"".join(sample_line(header, *sample) for sample in samples) + b"\n"
