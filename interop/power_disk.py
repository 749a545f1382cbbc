"""Folders as a file system may leave them when the power is cut: a record of calls, and what may be left of it.

The record is what `strace` saw of the calls that change files, with their bytes. Played up to any of them
it gives folders and files that know what was synced. What a cut leaves of them is chosen at random: synced
bytes and names are there; of each write since, the bytes are there, in part, as zeros, as others, or not; of
each cut and each change of a name since, either.
"""

import re
from dataclasses import dataclass, field
from pathlib import Path

CALLS = "openat,close,write,pwrite64,writev,pwritev,ftruncate,fsync,fdatasync,mkdir,mkdirat,unlink,unlinkat,rename,renameat,renameat2"
SYNCS = ("fsync", "fdatasync")
LINE = re.compile(r"(\w+)\((.*)\) += (-?\d+)")
THREAD = re.compile(r"(\d+) +(.*)")
UNFINISHED = " <unfinished ...>"
RESUMED = re.compile(r"<\.\.\. \w+ resumed>(.*)")
TEXT = re.compile(r'"((?:\\x[0-9a-f]{2})*)"')
# How a write since the last sync may be left.
WHOLE, ABSENT, FRONT, ZEROS, OTHERS = range(5)


class Unknown(Exception):
    """A call that is not understood."""


@dataclass
class File:
    """A file: its bytes, those of its last sync, and what was done to it since."""

    content: bytearray = field(default_factory=bytearray)
    synced: bytes = b""
    since: list = field(default_factory=list)

    def write(self, at, data):
        """Bytes at a place."""
        put(self.content, at, data)
        self.since.append((at, data))

    def cut(self, length):
        """The file of another length."""
        resize(self.content, length)
        self.since.append((length, None))

    def sync(self):
        """All of it is on the disk."""
        self.synced = bytes(self.content)
        self.since = []

    def left(self, rng):
        """What a cut of the power may leave of its bytes."""
        content = bytearray(self.synced)
        for at, data in self.since:
            way = rng.choice((WHOLE, ABSENT, FRONT, ZEROS, OTHERS))
            if data is None:
                if way == WHOLE:
                    resize(content, at)
            elif way != ABSENT:
                put(content, at, damaged(rng, way, data))
        return bytes(content)


@dataclass
class Folder:
    """A folder: what is in it by name, what was at its last sync, and the names that were made or removed since."""

    names: dict = field(default_factory=dict)
    synced: dict = field(default_factory=dict)
    since: list = field(default_factory=list)

    def put(self, name, node):
        """Something of a name, or nothing."""
        if node is None:
            self.names.pop(name, None)
        else:
            self.names[name] = node
        self.since.append((name, node))

    def sync(self):
        """All names are on the disk."""
        self.synced = dict(self.names)
        self.since = []

    def left(self, rng):
        """The names that a cut of the power may leave, each as it was at some moment since the last sync."""
        names = dict(self.synced)
        for name in dict.fromkeys(name for name, _ in self.since):
            states = [names.get(name), *(node for changed, node in self.since if changed == name)]
            node = rng.choice(states)
            names.pop(name, None)
            if node is not None:
                names[name] = node
        return names


def put(content, at, data):
    """Writes bytes at a place. Between the end and the place there are zeros."""
    if len(content) < at:
        resize(content, at)
    content[at : at + len(data)] = data


def resize(content, length):
    """Cuts bytes, or makes them longer by zeros."""
    del content[length:]
    content.extend(bytes(length - len(content)))


def damaged(rng, way, data):
    """The bytes of a write as they may be left."""
    if way == FRONT:
        return data[: rng.randrange(len(data) + 1)]
    if way == ZEROS:
        return bytes(len(data))
    if way == OTHERS:
        return rng.randbytes(len(data))
    return data


# The record


def texts(arguments):
    """The texts among a call's arguments, which `strace -xx` writes in hexadecimal."""
    return [bytes.fromhex(text.replace("\\x", "")) for text in TEXT.findall(arguments)]


def lines(record):
    """The lines of a record of all threads, each with its thread, in the order in which the calls ended. A close stands where it
    began, since another thread's open may have its number before it has answered."""
    begun = {}
    for line in record.read_text().splitlines():
        thread, text = THREAD.fullmatch(line).groups()
        resumed = RESUMED.match(text)
        if resumed:
            if thread not in begun:
                continue
            text = begun.pop(thread) + resumed[1]
        elif text.endswith(UNFINISHED):
            text = text.removesuffix(UNFINISHED)
            if not text.startswith("close("):
                begun[thread] = text
                continue
            text += ") = 0"
        yield thread, text
    yield from begun.items()


def calls(record):
    """The calls of a record that were done: their names, arguments and results. Those that were made at once stand in the order in
    which they ended."""
    for _, line in lines(record):
        found = LINE.match(line)
        if found and int(found[3]) >= 0:
            yield found[1], found[2], int(found[3])


class Disk:
    """The folders below one, as the calls of some programs leave them."""

    def __init__(self, top):
        self.top = top
        self.root = Folder()
        self.open = {}

    def begin(self):
        """Another program begins, with no file open."""
        self.open = {}

    def place(self, path):
        """The folder and the last name of a path. `None` where it lies elsewhere."""
        full = (self.top / path.decode()).resolve() if not path.startswith(b"/") else Path(path.decode())
        try:
            parts = full.relative_to(self.top).parts
        except ValueError:
            return None
        folder = self.root
        for part in parts[:-1]:
            folder = folder.names.get(part)
            if not isinstance(folder, Folder):
                return None
        return folder, parts[-1] if parts else None

    def give(self, path, content):
        """A file that is there gets these bytes, and is on the disk."""
        folder, name = self.place(str(path).encode())
        node = folder.names[name]
        node.content = bytearray(content)
        node.sync()
        folder.sync()

    def call(self, name, arguments, result):
        """Does a call."""
        if name == "openat":
            self.opened(texts(arguments)[0], arguments, result)
        elif name == "close":
            self.open.pop(int(arguments), None)
        elif name in ("mkdir", "mkdirat"):
            self.named(texts(arguments)[0], Folder())
        elif name in ("unlink", "unlinkat"):
            self.named(texts(arguments)[0], None)
        elif name in ("write", "pwrite64", "ftruncate", "fsync", "fdatasync"):
            self.changed(name, arguments, result)
        elif name in ("writev", "pwritev") and int(arguments.split(",")[0]) in self.open:
            raise Unknown(f"{name}({arguments[:80]}")
        elif name.startswith("rename"):
            raise Unknown(f"{name}({arguments[:80]}")

    def opened(self, path, arguments, number):
        """A file that is opened, and made where it is absent."""
        place = self.place(path)
        if place is None:
            return
        folder, name = place
        node = folder if name is None else folder.names.get(name)
        if node is None:
            node = File()
            folder.put(name, node)
        elif "O_TRUNC" in arguments:
            node.cut(0)
        self.open[number] = node

    def named(self, path, node):
        """A name that gets something else."""
        place = self.place(path)
        if place is not None:
            place[0].put(place[1], node)

    def changed(self, name, arguments, result):
        """A change of an open file."""
        words = [word.strip() for word in TEXT.sub("", arguments).split(",")]
        node = self.open.get(int(words[0]))
        if node is None:
            return
        if name in SYNCS:
            node.sync()
        elif name == "ftruncate":
            node.cut(int(words[1]))
        elif name == "pwrite64":
            node.write(int(words[-1]), texts(arguments)[0][:result])
        else:
            raise Unknown(f"{name}({arguments[:80]}")

    def leave(self, rng, folder):
        """Writes into a folder what a cut of the power may leave."""
        write(rng, self.root, folder)


def write(rng, node, path):
    """Writes what may be left of a folder."""
    path.mkdir(exist_ok=True)
    for name, inner in node.left(rng).items():
        if isinstance(inner, Folder):
            write(rng, inner, path / name)
        else:
            (path / name).write_bytes(inner.left(rng))
