"""The folders of an archive that nobody uses, under its locks, and what its catalogue and its manifests list: for `mend` and `skipped`."""

import fcntl
import os
import sys
from dataclasses import dataclass
from pathlib import Path

HERE = Path(__file__).resolve().parent
# The models of the formats stand beside the outside checks, or, in a package, here.
sys.path[:0] = [str(HERE.parent / "interop"), str(HERE)]

import store_model  # noqa: E402
from store_model import CONFIGURED, Damaged, Reader  # noqa: E402

STORES = {1: ("ARCHAPPL_SHORT_TERM_FOLDER", "sts"), 2: ("ARCHAPPL_MEDIUM_TERM_FOLDER", "mts"), 3: ("ARCHAPPL_LONG_TERM_FOLDER", "lts")}
# The file of a folder that tells of which archive it is.
MARK = "archive-mark"
# The kinds of entries of a catalogue's batches.
STATE, RENAME = 2, 3


class Unusable(Exception):
    """Why nothing can be done with an archive, in words."""


@dataclass
class Row:
    """A variable under one name: its type's number, and whether it has an older or a newer name."""

    name: bytes
    type: int
    is_renamed: bool = False


def folder(variable, usual):
    return Path(os.environ.get(variable) or usual)


def content(path):
    return path.read_bytes() if path.exists() else b""


def text_of(reader):
    """Bytes of a batch with their length before them."""
    length = reader.next(4)
    reader.at += length
    return reader.data[reader.at - length : reader.at]


def rows_of(catalogue):
    """A catalogue's rows, in their order."""
    rows = []
    for _, batch in store_model.batches(catalogue):
        reader = Reader(batch)
        while reader.at < len(batch):
            kind, number = reader.next(1), reader.next(4)
            if kind == STATE:
                reader.next(1)
                continue
            if kind == RENAME:
                reader.next(4)
                rows[number].is_renamed = True
                rows.append(Row(text_of(reader), rows[number].type, True))
                continue
            rows.append(Row(text_of(reader), reader.next(1)))
            # Method, period, whether there is a count, the count.
            reader.at += 1 + 8 + 1 + 4
            for _ in range(2 * reader.next(4)):
                text_of(reader)
    return rows


def mark_in(root):
    """The identity in a folder's mark, and whether the line is there by which all stores have theirs."""
    lines = content(root / MARK).split(b"\n")
    words = lines[0].split(b" ") if len(lines) > 1 else []
    is_mark = len(words) > 2 and words[0] == b"archive" and len(words[1]) == 32
    return (words[1] if is_mark else b""), lines[1:2] == [b"marked"]


class Archive:
    """An archive's folders, under its locks. BlockingIOError is raised where another program has one."""

    def __init__(self):
        self.site = folder("ARCHAPPL_SITE_FOLDER", "site")
        self.stores = {number: folder(*names) for number, names in STORES.items()}
        if not self.site.is_dir():
            raise Unusable(f"there is no folder {self.site}: ARCHAPPL_SITE_FOLDER and so on tell where the archive is")
        marks = [root / MARK for root in self.stores.values()]
        self.locks = [open(path, "a") for path in [self.site / "lock", *filter(Path.exists, marks)]]
        for lock in self.locks:
            fcntl.flock(lock, fcntl.LOCK_EX | fcntl.LOCK_NB)
        self.compare_marks()

    def compare_marks(self):
        """Where the site has its mark, each store's folder has that of its archive: what isn't mounted isn't lost."""
        identity, is_done = mark_in(self.site)
        for root in self.stores.values():
            found, _ = mark_in(root)
            if found != identity and (found or is_done):
                raise Unusable(f"{root} isn't the archive's: not mounted?")

    def rows(self):
        """The rows of the catalogue, in their order."""
        try:
            return rows_of(content(self.site / "catalogue"))
        except Damaged as damaged:
            raise Unusable(f"{self.site / 'catalogue'} is {damaged}") from None

    def manifest(self, store):
        """The file of a store's manifest that counts."""
        name = f"manifest{store}"
        tells = self.site / f"{name}.at"
        try:
            return self.site / store_model.current_name(name, content(tells))
        except Damaged as damaged:
            raise Unusable(f"{tells} is {damaged}") from None

    def entries(self, store, rows):
        """What a store's manifest lists of these rows, by a row's number and a partition's start."""
        manifest = self.manifest(store)
        data = content(manifest)
        try:
            if manifest.suffix and len(data) < 2:
                raise Damaged(0)
            granularity, entries = store_model.listed(data)
        except Damaged as damaged:
            raise Unusable(f"{manifest} is {damaged}") from None
        if granularity not in (None, CONFIGURED[store]):
            raise Unusable(f"{manifest} was made with other partitions")
        if any(number >= len(rows) for number, _ in entries):
            raise Unusable(f"{manifest} lists a row that the catalogue hasn't: they aren't of one copy")
        return entries
