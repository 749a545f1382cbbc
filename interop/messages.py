"""The messages of the two proto2 files beside this one, as classes of Google's Protocol Buffers.

The files have messages and enums of plain fields alone, so they are read here, and no protoc is
needed. The library checks what is made of them.
"""

import re
from pathlib import Path

from google.protobuf import descriptor_pb2, descriptor_pool, message_factory

HERE = Path(__file__).resolve().parent
PACKAGE = "rakemauve"
BLOCK = re.compile(r"(message|enum)\s+(\w+)\s*\{([^}]*)\}")
VALUE = re.compile(r"(\w+)\s*=\s*(\d+)\s*;")
FIELD = re.compile(
    r"(optional|required|repeated)\s+(\w+)\s+(\w+)\s*=\s*(\d+)\s*"
    r"(?:\[(packed|default)\s*=\s*(\w+)\])?\s*;"
)
FieldKind = descriptor_pb2.FieldDescriptorProto


def add_field(message, enums, parts, texts):
    label, kind, name, number, option, setting = parts
    kind = texts if kind == "string" else kind
    field = message.field.add(name=name, number=int(number))
    field.label = getattr(FieldKind, "LABEL_" + label.upper())
    builtin = getattr(FieldKind, "TYPE_" + kind.upper(), None)
    if builtin is not None:
        field.type = builtin
    else:
        field.type = FieldKind.TYPE_ENUM if kind in enums else FieldKind.TYPE_MESSAGE
        field.type_name = f".{PACKAGE}.{kind}"
    if option == "packed":
        field.options.packed = setting == "true"
    elif option == "default":
        field.default_value = setting


def file_descriptor(name, enums, texts):
    """What the proto2 file says. `enums` gathers the names of enums."""
    text = re.sub(r"//[^\n]*", "", (HERE / name).read_text())
    described = descriptor_pb2.FileDescriptorProto(name=name, package=PACKAGE, syntax="proto2")
    for sort, title, body in BLOCK.findall(text):
        if sort == "enum":
            enums.add(title)
            enum = described.enum_type.add(name=title)
            for value, number in VALUE.findall(body):
                enum.value.add(name=value, number=int(number))
        else:
            message = described.message_type.add(name=title)
            for parts in FIELD.findall(body):
                add_field(message, enums, parts, texts)
    return described


def load(texts="string"):
    """Name to class, for the messages of both files, and the names of the payload types by number.

    `texts` is the kind that strings are taken as. The wire has the same bytes for strings and bytes.
    """
    pool = descriptor_pool.DescriptorPool()
    enums = set()
    if hasattr(message_factory, "GetMessageClass"):
        class_of = message_factory.GetMessageClass
    else:
        class_of = message_factory.MessageFactory(pool).GetPrototype
    classes = {}
    for name in ("EPICSEvent.proto", "variants.proto"):
        described = file_descriptor(name, enums, texts)
        pool.Add(described)
        for message in described.message_type:
            full_name = f"{PACKAGE}.{message.name}"
            classes[message.name] = class_of(pool.FindMessageTypeByName(full_name))
    types = pool.FindEnumTypeByName(f"{PACKAGE}.PayloadType").values_by_number
    names = [types[number].name for number in range(len(types))]
    return classes, names


# To write with, and to read with: what is read need not be UTF-8.
CLASSES, TYPE_NAMES = load()
READERS, _ = load(texts="bytes")


def event_name(type_number):
    """The name of the messages of a payload type: SCALAR_INT has ScalarInt."""
    return "".join(word.capitalize() for word in TYPE_NAMES[type_number].split("_"))
