"""Sites and stores that are one archive's by their marks, and those that aren't.

Each case takes a place of its own and a source of randomness, as those of `store_folders`.
"""

import contextlib
import fcntl
import re
import shutil
import socket
import subprocess
import time

import store_streams
from comparing import Difference, agree, compare_runs
from pb_model import Run
from store_folders import READING, WRITING, Untried, ended, fault, filled, ingest_that_waits, paths_below, refused, take, wait_for_lock
from store_model import STORES, Archive
from store_place import DEFAULTS, FOLDERS, MARK, WHOLE, WHOLE_WORDS, Place, compare_files, compare_listed, compare_whole

WORDS = {0: "site", 1: "short term", 2: "medium term", 3: "long term"}
SITE_MARK = re.compile(rb"archive ([0-9a-f]{32}) site\nmarked\n")
DONE = b"marked\n"
HELD = "lock held by another program"
# The calls by which folders and marks are made.
STEPS = ("mkdir", "pwrite64", "ftruncate", "fdatasync", "fsync")


# Folders and their marks


def variable_of(store):
    """The variable of the environment that names a folder."""
    return f"ARCHAPPL_{FOLDERS[store - 1]}_FOLDER"


def folder_of(place, store):
    """A folder."""
    return place.stores[store] if store else place.site


def told_folder(place, store):
    """A folder as the program tells of it."""
    return f"{WORDS[store]} folder {place.environment.get(variable_of(store), DEFAULTS[store - 1])}"


def texts_of(place):
    """What the four marks have; nothing where one is absent."""
    paths = {store: folder_of(place, store) / MARK for store in WORDS}
    return {store: path.read_bytes() if path.exists() else b"" for store, path in paths.items()}


def marks_for(identity):
    """The marks of an archive."""
    texts = {store: f"archive {identity} {word}\n".encode() for store, word in WORDS.items()}
    texts[0] += DONE
    return texts


def compare_marks(place):
    """All folders have the marks of one archive. Its identity."""
    texts = texts_of(place)
    found = SITE_MARK.fullmatch(texts[0])
    if found is None:
        raise Difference(f"the site's mark is {texts[0]}")
    identity = found[1].decode()
    agree("the marks", texts, marks_for(identity))
    return identity


def compare_unmarked(place):
    """No folder has a mark."""
    agree("the marks", set(texts_of(place).values()), {b""})


def unmark(place):
    """Takes all marks away: an archive of a version before has none."""
    for store in WORDS:
        (folder_of(place, store) / MARK).unlink(missing_ok=True)


def content_of(place):
    """All files of the stores with their bytes, but the marks."""
    return {path: path.read_bytes() for path in place.stored()}


def marked(rng, place):
    """A model of an archive with marks that has files in each store, and its identity."""
    model = Archive()
    take(place, model, store_streams.seasons(rng, store_streams.season_variables(rng), 60))
    place.etl(model)
    return model, compare_marks(place)


def compare_told(place, model):
    """The rows and the files, with the model."""
    place.expect(model.status(), "status")
    place.expect(model.check(), "check")


def more(rng):
    """A stream of a few samples of new variables."""
    return store_streams.seasons(rng, store_streams.season_variables(rng), 2)


def over_stores(place, stores=STORES):
    """A place with a site's folder of its own, over some stores of another."""
    other = Place(place.program, place.folder / f"other{len(list(place.folder.glob('other*')))}", 1)
    other.folder.mkdir()
    other.counts = place.counts
    for store in stores:
        other.stores[store] = place.stores[store]
        other.environment[variable_of(store)] = str(place.stores[store])
    return other


# What is told


def not_mounted(place, store):
    """The fault of a folder without the archive's mark."""
    return fault(f"{told_folder(place, store)} isn't the archive's", "not mounted?")


def not_one(place, store, found, of_site):
    """The fault of a folder of another archive."""
    return fault(f"{told_folder(place, store)} of archive {found}, {told_folder(place, 0)} of {of_site}", "not one archive")


def strange(place, store):
    """The fault of a folder with files beside a site that lists none there."""
    return fault(f"{told_folder(place, store)} beside {told_folder(place, 0)}", "has files that the site doesn't list")


def marked_as(place, store, found):
    """The fault of a folder that is another one of the archive."""
    return fault(told_folder(place, store), f"marked as a {WORDS[found]} folder")


# One program at a time


def fresh(rng, place):
    """An archive gets its marks with its first samples, and keeps them. What only reads makes none."""
    compare_whole(place, Archive())
    agree("what is there", list(place.folder.iterdir()), [])
    place.etl(Archive())
    compare_unmarked(place)
    model = filled(rng, place)
    identity = compare_marks(place)
    place.etl(model)
    before = paths_below(place.folder)
    compare_whole(place, model)
    agree("what is there", paths_below(place.folder), before)
    take(place, model, more(rng))
    agree("the identity", compare_marks(place), identity)
    compare_whole(place, model)
    compare_files(place, model)


def another_site(rng, place):
    """Another site over stores of an archive, a fresh one and one of an archive of its own. Nothing of the stores is changed."""
    model, identity = marked(rng, place)
    before = content_of(place)
    for stores in (STORES, STORES[:1], STORES[1:2], STORES[2:]):
        other = over_stores(place, stores)
        refused(other, not_one(other, stores[0], identity, "none"), *WRITING)
        refused(other, not_one(other, stores[0], identity, "none"), *READING)
    apart = over_stores(place, ())
    marked(rng, apart)
    own = compare_marks(apart)
    for store in STORES:
        folder, away = apart.stores[store], apart.folder / "away"
        folder.rename(away)
        folder.symlink_to(place.stores[store])
        refused(apart, not_one(apart, store, identity, f"archive {own}"), *WRITING, *READING)
        folder.unlink()
        away.rename(folder)
    agree("what is stored", content_of(place), before)
    compare_whole(place, model)


def stores_of_none(rng, place):
    """A fresh site over stores that have files and no marks. Nothing of the stores is changed, and their own site gets them, also
    where a manifest of it has begun anew."""
    model, _ = marked(rng, place)
    place.lengthen(1)
    take(place, model, more(rng))
    agree("the manifest", place.manifest_name(1), "manifest1.1")
    unmark(place)
    before = content_of(place)
    for store in STORES:
        other = over_stores(place, (store,))
        refused(other, strange(other, store), *WRITING)
        other.expect(strange(other, store), "ingest", data=more(rng).text)
        compare_whole(other, Archive())
    agree("what is stored", content_of(place), before)
    take(place, model, more(rng))
    compare_marks(place)
    compare_whole(place, model)


def unmounted(rng, place):
    """A store's folder is away, and in its place there is nothing, an empty folder, or one with a file. Then it comes back."""
    model, identity = marked(rng, place)
    for store in STORES:
        folder, away = folder_of(place, store), place.folder / "away"
        for names in (None, (), ("A",)):
            folder.rename(away)
            if names is not None:
                folder.mkdir()
                for name in names:
                    (folder / name).write_bytes(b"x")
            before = paths_below(place.folder)
            refused(place, not_mounted(place, store), *WRITING, *READING)
            agree("what is there", paths_below(place.folder), before)
            shutil.rmtree(folder, ignore_errors=True)
            away.rename(folder)
    agree("the identity", compare_marks(place), identity)
    compare_whole(place, model)


def exchanged(rng, place):
    """Two stores' folders are exchanged, and a store's is named as the site's."""
    model, _ = marked(rng, place)
    for one, two in ((1, 2), (2, 3), (1, 3)):
        exchange(place, one, two)
        refused(place, marked_as(place, one, two), *WRITING, *READING)
        exchange(place, one, two)
    wrong = Place(place.program, place.folder, 1)
    wrong.environment[variable_of(0)] = str(place.stores[1])
    refused(wrong, marked_as(wrong, 0, 1), *WRITING, *READING)
    (place.stores[1] / "lock").unlink()
    compare_whole(place, model)


def exchange(place, one, two):
    """Exchanges two stores' folders."""
    first, second, away = folder_of(place, one), folder_of(place, two), place.folder / "away"
    first.rename(away)
    second.rename(first)
    away.rename(second)


def version_before(rng, place):
    """An archive without marks: it is read, gets none where a listed file is missing, and gets them with the next samples."""
    model, first = marked(rng, place)
    unmark(place)
    compare_whole(place, model)
    agree("what is there", [path for path in place.folder.rglob(MARK)], [])
    for path in rng.sample(sorted(place.stored()), 3):
        away = place.folder / "away"
        path.rename(away)
        for words in WRITING:
            agree("the status", place.run(*words, data=b"\n").status, 8)
        compare_unmarked(place)
        away.rename(path)
    take(place, model, more(rng))
    if compare_marks(place) == first:
        raise Difference("the identity is another archive's")
    compare_whole(place, model)
    compare_files(place, model)


def copy_of_folders(rng, place):
    """A copy of all folders is the archive. Without the site's mark it is none, and without any mark one of its own."""
    model, identity = marked(rng, place)
    copy = place.elsewhere(place.folder / "copy")
    for store in WORDS:
        shutil.copytree(folder_of(place, store), folder_of(copy, store))
    compare_whole(copy, model)
    (copy.site / MARK).unlink()
    refused(copy, not_one(copy, 1, identity, "none"), *WRITING, *READING)
    unmark(copy)
    copied = model.copy()
    take(copy, copied, more(rng))
    if compare_marks(copy) == identity:
        raise Difference("the identity is another archive's")
    compare_whole(copy, copied)
    compare_whole(place, model)


def half_made(rng, place):
    """So many marks are there, and the next one is absent, empty or torn. Another site is refused, and the own one goes on."""
    model, _ = marked(rng, place)
    group = store_streams.season_variables(rng)
    identity = f"{rng.getrandbits(128):032x}"
    lines = {**marks_for(identity), 0: marks_for(identity)[0].removesuffix(DONE)}
    for count in range(5):
        next_line = lines.get(count, DONE)
        for torn in (None, b"", next_line[:-1], bytes(len(next_line)), rng.randbytes(len(next_line))):
            unmark(place)
            for store in range(count):
                (folder_of(place, store) / MARK).write_bytes(lines[store])
            if torn is not None:
                with (folder_of(place, count % 4) / MARK).open("ab") as mark:
                    mark.write(torn)
            compare_told(place, model)
            before = content_of(place)
            other = over_stores(place)
            refused(other, not_one(other, 1, identity, "none") if count > 1 else strange(other, 1), *WRITING)
            agree("what is stored", content_of(place), before)
            shutil.rmtree(other.folder)
            take(place, model, store_streams.seasons(rng, group, 2))
            agree("whether the identity is kept", compare_marks(place) == identity, count > 0)
            compare_told(place, model)


# Kills between the steps of marking


def killed_before(place, call, number, stream):
    """Whether an ingest was killed before its call of this name and number."""
    inject = f"inject={call}:signal=SIGKILL:when={number}"
    words = ["strace", "-qq", "-o", "/dev/null", "-e", f"trace={call}", "-e", inject, place.program, "ingest"]
    with place.kept(stream.text).open("rb") as source:
        run = subprocess.run(words, stdin=source, capture_output=True, cwd=place.folder, env=place.environment, timeout=60)
    return run.returncode != 0


def killed_marking(rng, place):
    """An ingest that makes marks is killed before each of its steps in turn, in a fresh archive and in one without marks. Then another
    site comes, and then the own one."""
    if shutil.which("strace") is None:
        raise Untried("there is no strace")
    for name in ("fresh", "unmarked"):
        template = place.elsewhere(place.folder / name)
        model = Archive()
        if name == "unmarked":
            model, _ = marked(rng, template)
            unmark(template)
        stream = more(rng)
        for call in STEPS:
            kill_each(rng, place, template, model, stream, call)


def kill_each(rng, place, template, model, stream, call):
    """Kills before each call of a name, until the marks are there."""
    for number in range(1, 1000):
        tried = place.elsewhere(place.folder / "tried")
        for store in WORDS:
            if folder_of(template, store).exists():
                shutil.copytree(folder_of(template, store), folder_of(tried, store))
        is_killed = killed_before(tried, call, number, stream)
        is_marked = texts_of(tried)[0].endswith(DONE)
        tried.counts["ingest killed"] += is_killed
        compare_killed(rng, tried, model.copy(), stream)
        shutil.rmtree(tried.folder)
        if is_marked or not is_killed:
            return


def compare_killed(rng, place, model, stream):
    """Another site takes all stores of a broken marking where they are empty and without marks, and else none of them."""
    before = content_of(place)
    other = over_stores(place)
    taken = other.run("ingest", data=more(rng).text)
    if taken.status == 0:
        agree("what was stored", before, {})
        compare_marks(other)
        before = content_of(place)
        agree("the status", place.run("ingest", data=stream.text).status, 7)
        compare_marks(other)
        agree("what is stored", content_of(place), before)
        return
    agree("the status", taken.status, 7)
    agree("what is stored", content_of(place), before)
    take(place, model, stream)
    compare_marks(place)
    compare_told(place, model)
    compare_listed(place, model)


# Two programs at a time


def two_sites(rng, place):
    """Another site over each store of an ingest that waits for more: it is refused, and the ingest goes on."""
    model, identity = marked(rng, place)
    stream = store_streams.long_stream(rng, store_streams.long_variables(rng))
    middle = len(stream.text) // 2
    with ingest_that_waits(place, stream.text[:middle]) as finish:
        wait_for_lock(place)
        for store in STORES:
            other = over_stores(place, (store,))
            held = fault(place.stores[store] / MARK, HELD)
            refused(other, held, *WRITING)
            refused(other, held, *READING)
        compare_runs(finish(stream.text[middle:]), Run(0, b"", b""))
    for chunk in stream.chunks:
        model.take(chunk, time.time_ns())
    agree("the identity", compare_marks(place), identity)
    compare_whole(place, model)
    compare_files(place, model)


def two_fresh_sites(rng, place):
    """Two sites over fresh stores, one of which waits for more: the other is refused, and once it may run it finds another's stores."""
    model = Archive()
    stream = store_streams.long_stream(rng, store_streams.long_variables(rng))
    middle = len(stream.text) // 2
    other = over_stores(place)
    with ingest_that_waits(place, stream.text[:middle]) as finish:
        wait_for_lock(place)
        refused(other, fault(place.stores[1] / MARK, HELD), *WRITING)
        compare_runs(finish(stream.text[middle:]), Run(0, b"", b""))
    for chunk in stream.chunks:
        model.take(chunk, time.time_ns())
    refused(other, not_one(other, 1, compare_marks(place), "none"), *WRITING)
    compare_whole(place, model)
    compare_files(place, model)


def held_stores(rng, place):
    """Another program has the lock of a store, to read and to write."""
    model, _ = marked(rng, place)
    for store in STORES:
        path = place.stores[store] / MARK
        held = fault(place.told(path), HELD)
        with path.open() as lock:
            fcntl.flock(lock, fcntl.LOCK_SH)
            compare_whole(place, model)
            refused(place, held, *WRITING)
            fcntl.flock(lock, fcntl.LOCK_EX)
            refused(place, held, *WRITING, *READING)
    compare_whole(place, model)


def free_ports():
    """Two ports that nobody has."""
    with socket.create_server(("127.0.0.1", 0)) as one, socket.create_server(("127.0.0.1", 0)) as two:
        return one.getsockname()[1], two.getsockname()[1]


@contextlib.contextmanager
def service(place):
    """A service, which is ended by its file. What it gives is the port of feeds."""
    feeds, requests = free_ports()
    process = place.start("serve", str(feeds), str(requests), "2", "0")
    try:
        wait_for_door(process, requests)
        yield feeds
        (place.site / "stop").touch()
        agree("the service's status", ended(process, None).status, 0)
        (place.site / "stop").unlink()
    finally:
        process.kill()
        process.communicate()


def wait_for_door(process, port):
    """Returns when a service has opened its doors."""
    for _ in range(1200):
        if process.poll() is not None:
            raise Difference(f"the service ended with {process.returncode}")
        try:
            socket.create_connection(("127.0.0.1", port), 1).close()
            return
        except OSError:
            time.sleep(0.05)
    raise Difference("no door was opened")


def fed(port, stream):
    """The last line that a feed is told."""
    with socket.create_connection(("127.0.0.1", port), 60) as link:
        link.sendall(stream.text)
        link.shutdown(socket.SHUT_WR)
        told = b""
        while piece := link.recv(65536):
            told += piece
    return told.splitlines()[-1]


def beside_a_service(rng, place):
    """Another site over the stores of a service: it is refused, and all that a feed is told durable is there behind it."""
    model, _ = marked(rng, place)
    group = store_streams.season_variables(rng)
    take(place, model, store_streams.seasons(rng, group, 20))
    stream = store_streams.seasons(rng, group, 20)
    kept = sum(len(chunk.samples) for chunk in stream.chunks)
    with service(place) as feeds:
        other = over_stores(place)
        held = fault(place.stores[1] / MARK, HELD)
        refused(other, held, *WRITING)
        agree("what a feed is told", fed(feeds, stream), b"durable %d" % kept)
        other.expect(held, "ingest", data=more(rng).text)
    for chunk in stream.chunks:
        model.take(chunk, time.time_ns())
    agree("the status", place.run("check").status, 0)
    for row in model.rows:
        place.expect(model.get(row.name, *WHOLE), "get", row.name.decode(), *WHOLE_WORDS)


def told_by_a_service(rng, place):
    """A service over a store that isn't mounted, and over one that another program has: the line of the status comes first."""
    marked(rng, place)
    ports = [str(port) for port in free_ports()]
    with (place.stores[2] / MARK).open() as lock:
        fcntl.flock(lock, fcntl.LOCK_EX)
        place.expect(fault(place.told(place.stores[2] / MARK), HELD), "serve", *ports, "1", "0")
    away = place.folder / "away"
    place.stores[3].rename(away)
    place.expect(not_mounted(place, 3), "serve", *ports, "1", "0")
    away.rename(place.stores[3])


def names_of_marks(rng, place):
    """Variables that are named as marks and locks are."""
    names = (MARK, f"{MARK}:A", "archive", "archive:A", "lock", "lock:A")
    group = [store_streams.variable(rng, name, 6) for name in names]
    model = Archive()
    for _ in range(2):
        take(place, model, store_streams.seasons(rng, group, 20))
        place.etl(model)
    compare_marks(place)
    compare_whole(place, model)
    compare_files(place, model)


CASES = {
    "fresh": fresh,
    "another site": another_site,
    "stores of none": stores_of_none,
    "unmounted": unmounted,
    "exchanged": exchanged,
    "version before": version_before,
    "copy of folders": copy_of_folders,
    "half made": half_made,
    "killed marking": killed_marking,
    "two sites": two_sites,
    "two fresh sites": two_fresh_sites,
    "held stores": held_stores,
    "beside a service": beside_a_service,
    "told by a service": told_by_a_service,
    "names of marks": names_of_marks,
}
