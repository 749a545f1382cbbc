"""The reading of the service's JSON texts with Python's own reader, which looks at their members, their order and types."""

import json
import re

MEMBERS = ["secs", "nanos", "val", "severity", "status"]
BITS = re.compile(r"0x([0-9a-f]{8}|[0-9a-f]{16})")


def is_number(value, least, most):
    return type(value) is int and least <= value <= most


def is_element(value):
    return isinstance(value, str) or is_number(value, -(2**31), 2**31 - 1)


def are_texts(pairs):
    return all(isinstance(name, str) and isinstance(val, str) for name, val in pairs)


def check_sample(sample):
    names = [name for name, _ in sample]
    assert names[:5] == MEMBERS and names[5:] in ([], ["fields"]), f"members {names}"
    secs, nanos, val, severity, status = (value for _, value in sample[:5])
    assert is_number(secs, 0, 2**34) and is_number(nanos, 0, 999_999_999), f"time {secs}, {nanos}"
    assert is_element(val) or (isinstance(val, list) and all(map(is_element, val))), f"value {val}"
    assert is_number(severity, -(2**31), 2**31 - 1) and is_number(status, -(2**31), 2**31 - 1)
    assert are_texts(sample[5][1] if names[5:] else []), "field values"
    bits = [text for text in (val if isinstance(val, list) else [val]) if str(text).startswith("0x")]
    assert all(BITS.fullmatch(text) for text in bits), f"bits {bits}"


def check_text(text):
    """A text is one object of what is known of the variable and of its samples, of which it gives the number. Objects are read as lists of pairs."""
    assert text.endswith("]}]\n"), "the text's end"
    [answer] = json.loads(text, object_pairs_hook=lambda pairs: pairs)
    assert [name for name, _ in answer] == ["meta", "data"], "the answer's members"
    meta, data = answer[0][1], answer[1][1]
    assert meta[0][0] == "name" and are_texts(meta), "meta"
    for sample in data:
        check_sample(sample)
    return len(data)
