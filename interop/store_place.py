"""An archive in folders of its own, the program over them, and the comparison of both with the model."""

import itertools
import os
import subprocess
import time
from collections import Counter

import comparing
import pb_model
import store_model
import streams
from comparing import Difference, agree, compare_runs
from google_reading import compare_file
from messages import READERS
from pb_model import SECOND, Run
from store_model import CONFIGURED, HOUR, STORES

FOLDERS = ("SHORT_TERM", "MEDIUM_TERM", "LONG_TERM", "SITE")
DEFAULTS = ("sts", "mts", "lts", "site")
# The file of each folder that tells of which archive it is.
MARK = "archive-mark"
# A manifest of so many bytes, and four times those that list what it lists, begins anew at its next commit.
LONG = 1 << 20
# All of time, as moments and as words.
WHOLE = (0, pb_model.END - 1)
WHOLE_WORDS = tuple(pb_model.iso(t) for t in WHOLE)


class Place:
    """The folders below one folder, in which the program runs. Each stream is kept beside them."""

    def __init__(self, program, folder, way):
        """Of three ways: the folders that the program takes by itself, absolute ones, nested ones."""
        self.program = program
        self.folder = folder
        self.streams = 0
        # How often each command ran, how often it was killed, and how many files were read by Google's library.
        self.counts = Counter()
        # What that library has read of files.
        self.read = set()
        # The words that a run of the program begins with.
        self.before = []
        self.way = way
        self.prefix = {0: "", 1: f"{folder}/", 2: "below/more/"}[way]
        self.environment = {name: value for name, value in os.environ.items() if not name.startswith("ARCHAPPL_")}
        names = [self.prefix + name for name in DEFAULTS]
        self.settle(*names)
        if way:
            self.environment.update({f"ARCHAPPL_{title}_FOLDER": name for title, name in zip(FOLDERS, names)})

    def settle(self, *names):
        """Takes these folders as those of the three stores and of the site."""
        *stores, site = (self.folder / name for name in names)
        self.stores, self.site = dict(zip(STORES, stores)), site

    def elsewhere(self, folder):
        """The same folders below another one."""
        folder.mkdir()
        place = Place(self.program, folder, self.way)
        place.counts, place.read = self.counts, self.read
        return place

    # Runs

    def run(self, *words, data=b""):
        """A run of the program in the folder."""
        self.counts.update(words[:1])
        return comparing.run([*self.before, self.program, *words], data, cwd=self.folder, env=self.environment)

    def told(self, path):
        """A path as the program tells it."""
        return self.prefix + str(path.relative_to(self.folder / self.prefix))

    def expect(self, wanted, *words, data=b""):
        """Runs the program, which must come to what is wanted."""
        try:
            compare_runs(self.run(*words, data=data), wanted)
        except Difference as difference:
            raise Difference(f"{' '.join(words)}: {difference}") from None

    def kept(self, stream):
        """The file of a stream that is to be ingested."""
        self.streams += 1
        path = self.folder / f"stream{self.streams}.pb"
        path.write_bytes(stream)
        return path

    def ingest(self, wanted, stream):
        """Ingests a stream, which must come to what is wanted."""
        self.kept(stream)
        self.expect(wanted, "ingest", data=stream)

    def etl(self, model):
        """Moves all that is due, in the archive and in the model."""
        self.expect(model.etl(now_within_an_hour()), "etl")

    def start(self, *words, source=subprocess.DEVNULL):
        """A run of the program that has begun."""
        self.counts.update(words[:1])
        return subprocess.Popen([self.program, *words], stdin=source, stdout=subprocess.PIPE, stderr=subprocess.PIPE,
                                cwd=self.folder, env=self.environment)

    def run_killed(self, seconds, *words, source=subprocess.DEVNULL):
        """The run of a command that is killed after some time, None where it was."""
        process = self.start(*words, source=source)
        try:
            process.wait(seconds)
        except subprocess.TimeoutExpired:
            process.kill()
        output, complaint = process.communicate()
        if process.returncode >= 0:
            return Run(process.returncode, output, complaint)
        self.counts[f"{words[0]} killed"] += 1
        return None

    def ingest_killed(self, stream, seconds):
        """The run of an `ingest` that is killed after some time, None where it was."""
        with self.kept(stream).open("rb") as source:
            return self.run_killed(seconds, "ingest", source=source)

    def kills(self):
        """How many runs were killed."""
        return sum(count for name, count in self.counts.items() if name.endswith(" killed"))

    # Files

    def bytes_of(self, name):
        """The bytes of a file of the site's folder. A program that was killed before it made the file left none, which is as
        good as an empty one."""
        try:
            return (self.site / name).read_bytes()
        except FileNotFoundError:
            return b""

    def manifest_name(self, store):
        """The name of the file that counts of a store's manifest."""
        name = f"manifest{store}"
        return store_model.current_name(name, self.bytes_of(f"{name}.at"))

    def manifest(self, store):
        """The bytes of the file that counts of a store's manifest."""
        return self.bytes_of(self.manifest_name(store))

    def lengthen(self, store):
        """Lists again what a store's manifest lists, until its next commit is to begin it anew. True where it lists some."""
        _, entries = self.listed(store)
        again = [store_model.set_batch(where, entry) for where, entry in entries.items()]
        if again:
            batches = [batch for _, batch in store_model.batches(self.manifest(store))]
            few = len(again) * (5 + len(again[0]))
            times = max(LONG // few, 4) + 1
            (self.site / self.manifest_name(store)).write_bytes(store_model.journal(batches + again * times))
        return bool(again)

    def rename(self, model, number, name, is_resumed=True):
        """Writes into the catalogue what a service does that pauses a variable and gives it a new name, and resumes it mostly."""
        batches = [batch for _, batch in store_model.batches(self.bytes_of("catalogue"))]
        new = len(model.rows)
        batches += [store_model.switched(number, 1), store_model.renamed(number, new, name)]
        model.rename(number, name)
        if is_resumed:
            batches.append(store_model.switched(new, 0))
            model.rows[new].state = "running"
        (self.site / "catalogue").write_bytes(store_model.journal(batches))

    def listed(self, store):
        """The granularity of a store's manifest, and what it lists."""
        try:
            return store_model.listed(self.manifest(store))
        except store_model.Damaged as damaged:
            raise Difference(f"manifest {store}: {damaged}") from None

    def path(self, file):
        """Where a file of the model is."""
        return self.stores[file.store] / file.path.decode()

    def stored(self):
        """All files of the stores, but the marks of their folders."""
        marks = {folder / MARK for folder in self.stores.values()}
        return {path for folder in self.stores.values() for path in folder.rglob("*") if path.is_file()} - marks

    def front(self, file):
        """The listed bytes of a file as they are."""
        try:
            return self.path(file).read_bytes()[: len(file.content)]
        except FileNotFoundError:
            raise Difference(f"there is no file {self.path(file)}") from None


def now_within_an_hour(seconds=20):
    """The clock's moment, when at least so many seconds of its hour are left: a program that is run now sees no other
    partition end."""
    left = HOUR - time.time_ns() % HOUR
    if left < seconds * SECOND:
        time.sleep(left / SECOND + 0.1)
    return time.time_ns()


# What a program that was broken off leaves


def state_after_break(model, chunks, told):
    """The model with a front of the chunks, as `status` tells it after an ingest was broken off. Of the chunks behind them
    that were read the rows may be there."""
    now = time.time_ns()
    front = model.copy()
    for number in range(len(chunks) + 1):
        state = front.copy()
        for header in [None, *(chunk.header for chunk in chunks[number:])]:
            if header is not None:
                state.register(header)
            if state.status().output == told:
                return state
        for chunk in chunks[number : number + 1]:
            front.take(chunk, now)
    raise Difference(f"no front of the stream gives {told}, behind {model.status().output}")


def state_after_moves(model, place, now):
    """The model behind one of the commits of the moves that were due, as the manifests tell after an `etl` was broken off."""
    found = {store: place.listed(store)[1] for store in STORES}
    counts = [len(listed) for listed in found.values()]
    state = model.copy()
    for _ in itertools.chain([None], state.commits(now)):
        if state.file_counts() == counts and all(state.entries(store) == found[store] for store in STORES):
            return state
    raise Difference(f"no commit of the moves leaves {counts} files in the stores, from {model.file_counts()} on")


# Comparisons


def compare_whole(place, model):
    """All that the program tells of an archive, with the model."""
    place.expect(model.status(), "status")
    place.expect(model.check(), "check")
    for row in model.rows:
        place.expect(model.get(row.name, *WHOLE), "get", row.name.decode(), *WHOLE_WORDS)


def compare_gets(place, model, rng, count):
    """Random intervals of random variables."""
    for _ in range(count if model.rows else 0):
        row = rng.choice(model.rows)
        (start, end), texts = streams.interval(rng, row.chunks(model.whole(row)) or row.chunks([(0, b"")]))
        place.expect(model.get(row.name, start, end), "get", row.name.decode(), *texts)


def google_header(header):
    """The message that Google's library writes."""
    kind = READERS["PayloadInfo"]
    found = kind(type=header.type, pvname=header.name, year=header.year)
    if header.count is not None:
        found.elementCount = header.count
    for name, val in header.headers:
        found.headers.add(name=name, val=val)
    return found.SerializeToString()


def compare_listed(place, model):
    """The manifests and the listed bytes of each file with the model."""
    for store in STORES:
        granularity, entries = place.listed(store)
        agree(f"the entries of manifest {store}", entries, model.entries(store))
        if model.rows or granularity is not None:  # before the first row a kill may leave a manifest without a batch
            agree(f"the granularity of manifest {store}", granularity, CONFIGURED[store])
    for file in model.files():
        agree(f"the file {place.path(file)}", place.front(file), file.content)


def compare_swept(place, model):
    """Those that only read have removed no file. One that writes leaves of the files of variables those that are listed, and every
    other as it is."""
    files, folder = place.stored(), place.stores[1]
    mark = folder / "archive-mark"
    if not mark.is_file() or not mark.read_bytes():
        # A folder that has files and no archive's mark is taken for another's, and a cut may leave a mark without its bytes.
        return
    for command in ("status", "check"):
        place.run(command)
    agree("the files behind those that only read", place.stored(), files)
    others = [folder / "notes.txt", folder / "no" / "such:2024_01_01_00.pb"]
    for other in others:
        other.parent.mkdir(parents=True, exist_ok=True)
        other.write_bytes(b"notes")
    place.expect(Run(3, b"", b"archappl: line 1: E13\n"), "ingest")
    agree("the files behind an opening", place.stored(), {place.path(file) for file in model.files()} | set(others))
    for other in others:
        agree(f"the file {other}", other.read_bytes(), b"notes")
        other.unlink()


def compare_read(place, model):
    """What Google's library reads of the listed bytes of each file with the model, where it hasn't read these bytes before."""
    for row in model.rows:
        for file in (file for store in STORES for file in row.files(store)):
            content = place.front(file)
            if content in place.read:
                continue
            year = store_model.year_of(file.start)
            agree("Google's header", google_header(row.header(year)), pb_model.unescape(file.head[:-1]))
            compare_file(content, row.header(year), [t for t, _ in file.samples])
            place.read.add(content)
            place.counts["files"] += 1


def compare_files(place, model):
    """The files of an archive in which nothing was killed: they have what is listed and nothing else, and each is a file of
    its partition behind the header that Google's library writes."""
    compare_listed(place, model)
    compare_read(place, model)
    files = model.files()
    for file in files:
        path = place.path(file)
        agree(f"the length of {path}", path.stat().st_size, len(file.content))
        agree(f"the samples in {path}", store_model.check_file(file.content, file.span), len(file.samples))
    agree("the files", place.stored(), {place.path(file) for file in files})
