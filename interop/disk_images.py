"""A disk in memory and the images that a crash may leave of it, by docs/CRASH_RULES.md."""

from dataclasses import dataclass, field

WORD = 2**64


class Draws:
    """A sequence of bytes that a number starts."""

    def __init__(self, number):
        self.number = number

    def next(self):
        """The next byte."""
        self.number = (self.number * 6364136223846793005 + 1442695040888963407) % WORD
        return self.number >> 56


@dataclass
class File:
    """A file: what reads give, and what is uncertain of it since its last sync, or since it was made."""

    now: bytes = b""
    synced: bytes = b""
    free: set = field(default_factory=set)
    least: int = 0
    greatest: int = 0

    def write(self, at, data):
        """Bytes at a place, which may be any bytes until the next sync."""
        self.now = self.now[:at] + data + self.now[at + len(data):]
        self.free |= set(range(at, at + len(data)))
        self.greatest = max(self.greatest, len(self.now))

    def cut(self, size):
        """What is behind a place goes."""
        self.free |= set(range(size, len(self.now)))
        self.now = self.now[:size]
        self.least = min(self.least, size)

    def sync(self):
        """All of it is on the disk."""
        self.synced, self.free = self.now, set()
        self.least = self.greatest = len(self.now)

    def drawn(self, draws):
        """A content that may be left: its size, and then each byte that isn't certain."""
        size = self.least + draws.next() % (self.greatest - self.least + 1)
        certain = min(self.least, len(self.synced))
        return bytes(self.synced[i] if i < certain and i not in self.free else draws.next() for i in range(size))


@dataclass
class Name:
    """A name: its file, if it has one, and what was done to it since its last sync."""

    file: object = None
    synced: object = None
    absent: bool = True
    removed: object = None
    changed: bool = False
    opened: int = 0

    def image(self, choice, draws):
        """What a choice leaves of it."""
        now = None if self.file is None else self.file.now
        if choice == 0:
            return now
        if choice == 1:
            return self.synced
        if not self.changed:
            return now
        if draws.next() % 2 == 0 and self.absent:
            return None
        return self.removed if self.file is None else self.file.drawn(draws)


class Script:
    """A disk, and the calls that are made of it."""

    def __init__(self):
        self.begin("-", [])

    def begin(self, stop, failing):
        """An empty disk."""
        self.files, self.readers, self.asked = {}, [], 0
        self.stop = None if stop == "-" else int(stop)
        self.failing = {int(call) for call in failing}

    def fails(self):
        """Whether the next call fails."""
        self.asked += 1
        return self.asked in self.failing or (self.stop is not None and self.stop <= self.asked)

    def told(self, line):
        """What is told of a line."""
        word, *rest = line.split(" ")
        if word == "disk":
            self.begin(rest[0], rest[1:])
            return "empty"
        if word == "images":
            return "".join(self.image(choice) + "|" for choice in range(6))
        if word == "readers":
            return "".join(content[:8].hex() + "|" for content in self.readers)
        if word == "sync_each":
            answers = (self.call("sync", tuple(file.split("/", 1)), 0, b"") for file in rest)
            return next((answer for answer in answers if answer != "done"), "done")
        name = tuple(rest[0].split("/", 1))
        values = rest[1:] + ["0", ""]
        return self.call(word, name, int(values[0]), rest[2].encode() if len(rest) > 2 else b"")

    def image(self, choice):
        """The files of an image, in order of store and path."""
        draws, text = Draws(choice), ""
        for store, path in sorted(self.files):
            content = self.files[store, path].image(choice, draws)
            if content is not None:
                text += f"{store}/{path}={content.hex()} "
        return text

    def call(self, word, key, at, data):
        """A call, where it may be made."""
        name = self.files.get(key) or Name()
        size = None if name.file is None else len(name.file.now)
        free = size is not None and name.opened <= at <= size
        may = {
            "create": size is None,
            "write": free,
            "cut": free,
            "remove": size is not None,
            "open": size is not None and at <= size,
            "read": size is not None and at <= size,
        }
        if not may.get(word, True):
            return "not done"
        if self.fails():
            return "fault"
        if word in ("create", "write", "cut", "remove", "sync"):
            self.files[key] = name
        return getattr(self, word)(name, key, at, data) + "done"

    def create(self, name, key, at, data):
        """An empty file. The name may be absent until its sync."""
        name.file, name.changed, name.opened = File(), True, 0
        return ""

    def write(self, name, key, at, data):
        """Bytes at a place."""
        name.file.write(at, data)
        name.changed = True
        return ""

    def cut(self, name, key, at, data):
        """The file up to a place."""
        name.file.cut(at)
        name.changed = True
        return ""

    def remove(self, name, key, at, data):
        """No file; what it had may come back until the sync."""
        name.removed, name.file = name.file.now, None
        name.absent, name.changed, name.opened = True, True, 0
        return ""

    def sync(self, name, key, at, data):
        """What reads give, and nothing else."""
        name.changed = False
        name.absent = name.file is None
        name.synced = None if name.file is None else name.file.now
        if name.file is not None:
            name.file.sync()
        return ""

    def open(self, name, key, at, data):
        """A reader, which keeps its bytes."""
        self.readers.append(name.file.now[:at])
        name.opened = max(name.opened, at)
        return ""

    def read(self, name, key, at, data):
        """Four bytes, or as many as there are."""
        return name.file.now[at:at + 4].hex() + " "

    def size(self, name, key, at, data):
        """The size, where there is a file."""
        return "None " if name.file is None else f"Some({len(name.file.now)}) "

    def names(self, name, key, at, data):
        """The paths of a store's files, in their order."""
        return "".join(f"{path} " for (store, path), name in sorted(self.files.items()) if store == key[0] and name.file is not None)
