"""How `crates/format_cases` writes what comes of a case: as Rust's `{:?}` does, and bytes in hexadecimal."""

from pb_model import Event, Header

TYPE_NAMES = [
    f"{shape}_{kind}"
    for shape in ("SCALAR", "WAVEFORM")
    for kind in ("STRING", "SHORT", "FLOAT", "ENUM", "BYTE", "INT", "DOUBLE")
]
# Of each type the kind of its value.
VARIANTS = ["Str", "Short", "Float", "Enum", "Byte", "Int", "Double"]
VARIANTS += ["Strs", "Shorts", "Floats", "Enums", "Bytes", "IntList", "Doubles"]


def hexed(data):
    return data.hex() or "-"


def some(value):
    return "None" if value is None else f"Some({value})"


def variant(type_name):
    """SCALAR_INT is ScalarInt."""
    return "".join(word.capitalize() for word in type_name.split("_"))


def blob(data):
    return f"Blob {{ bytes: Long({list(data)}) }}"


def copied(data):
    """A copy of bytes: up to 30 stand in the blob itself, with zeros behind them."""
    if len(data) > 30:
        return blob(data)
    return f"Blob {{ bytes: Short({list(data.ljust(30, bytes(1)))}, {len(data)}) }}"


def blobs(items):
    return f"Blobs {{ items: [{', '.join(map(blob, items))}] }}"


def pairs(items):
    listed = ", ".join(f"({blob(name)}, {blob(val)})" for name, val in items)
    return f"Pairs {{ items: [{listed}] }}"


def value(type_number, val):
    if isinstance(val, bytes):
        shown = blob(val)
    elif not isinstance(val, list):
        shown = str(val)
    elif type_number == 7:
        shown = blobs(val)
    else:
        shown = f"Numbers {{ items: {val} }}"
    return f"{VARIANTS[type_number]}({shown})"


def event(type_number, one: Event):
    change = some(None if one.fieldactualchange is None else str(one.fieldactualchange).lower())
    return (
        f"Event {{ secs: {one.secs}, nano: {one.nano}, val: {value(type_number, one.val)},"
        f" severity: {one.severity}, status: {one.status}, repeat: {some(one.repeatcount)},"
        f" fields: {pairs(one.fieldvalues)}, actual_change: {change} }}"
    )


def header(one: Header):
    return (
        f"PayloadInfo {{ ty: {variant(TYPE_NAMES[one.type])}, name: {copied(one.name)}, year: {one.year},"
        f" count: {some(one.count)}, headers: {pairs(one.headers)} }}"
    )


# Faults. Each is what the program calls it, with its place, field, type or year.


def at(name, place):
    return f"{name} {{ at: {place} }}"


def wire(name, place):
    return f"Wire({at(name, place)})"


def field(name, number):
    return f"{name} {{ field: {number} }}"
