"""Folders that other programs use, that may not be written, or in which something stands in the way.

Each case takes a place of its own and a source of randomness. One that this account can't try raises
`Untried`.
"""

import contextlib
import fcntl
import os
import shutil
import signal
import subprocess
import time

import store_streams
from comparing import agree, compare_runs
from pb_model import Run
from store_model import STORES, Archive, complaint
from store_place import (
    DEFAULTS, FOLDERS, MARK, WHOLE_WORDS, compare_files, compare_listed, compare_whole, now_within_an_hour, state_after_break,
    state_after_moves,
)

READING = (["status"], ["check"], ["get", "A", *WHOLE_WORDS])
WRITING = (["ingest"], ["etl"])
NOBODY = 65534
SMALL, LARGER = 256 * 1024, 2048 * 1024


class Untried(Exception):
    """This account can't bring about what the case needs."""


def fault(path, error):
    """What a command comes to at a fault of the disk."""
    return Run(7, b"", complaint("disk failed") + complaint(f"{path}: {error}"))


def refused(place, wanted, *commands):
    """Each command comes to a fault of the disk."""
    for words in commands:
        place.expect(wanted, *words, data=b"\n")


def filled(rng, place):
    """A model of what is ingested into a place."""
    model = Archive()
    take(place, model, store_streams.long_stream(rng, store_streams.long_variables(rng)))
    return model


def take(place, model, stream):
    """Ingests a stream."""
    place.ingest(Run(0, b"", b""), stream.text)
    for chunk in stream.chunks:
        model.take(chunk, time.time_ns())


def lock_of(place):
    """The path of the lock, as the program is told of it."""
    return place.told(place.site / "lock")


# Two programs


@contextlib.contextmanager
def ingest_that_waits(place, front):
    """An `ingest` that has read the front of a stream and waits for more. What it gives is called with the
    rest, and gives the run."""
    process = place.start("ingest", source=subprocess.PIPE)
    try:
        process.stdin.write(front)
        process.stdin.flush()
        yield lambda rest: ended(process, rest)
    finally:
        process.kill()
        process.communicate()


def ended(process, rest):
    """The run of a program that gets the rest of its input."""
    output, told = process.communicate(rest, timeout=60)
    return Run(process.returncode, output, told)


def wait_for_lock(place):
    """Returns when a program has the lock."""
    for _ in range(600):
        if place.run("status").status == 7:
            return
        time.sleep(0.05)
    raise Untried("no ingest takes the lock")


def two_ingests(rng, place):
    """A second ingest and readers beside one that runs. They are refused, and nothing is lost."""
    model = filled(rng, place)
    group = store_streams.long_variables(rng)
    first, second = store_streams.long_stream(rng, group), store_streams.long_stream(rng, group)
    middle = len(first.text) // 2
    with ingest_that_waits(place, first.text[:middle]) as finish:
        wait_for_lock(place)
        held = fault(lock_of(place), "lock held by another program")
        refused(place, held, *WRITING, *READING)
        place.expect(held, "ingest", data=second.text)
        compare_runs(finish(first.text[middle:]), Run(0, b"", b""))
    place.ingest(Run(0, b"", b""), second.text)
    for chunk in [*first.chunks, *second.chunks]:
        model.take(chunk, time.time_ns())
    compare_whole(place, model)
    compare_files(place, model)


def readers(rng, place):
    """Several programs may read, and none may write beside them."""
    model = filled(rng, place)
    held = fault(lock_of(place), "lock held by another program")
    with (place.site / "lock").open() as lock:
        fcntl.flock(lock, fcntl.LOCK_SH)
        compare_whole(place, model)
        refused(place, held, *WRITING)
        fcntl.flock(lock, fcntl.LOCK_EX)
        refused(place, held, *WRITING, *READING)
    compare_whole(place, model)


def beside_moves(rng, place):
    """An etl that is stopped on its way. All others are refused; it goes on, and all is moved."""
    model = filled(rng, place)
    for _ in range(20):
        take(place, model, store_streams.seasons(rng, store_streams.season_variables(rng), 120))
        wanted = model.etl(now_within_an_hour())
        process = place.start("etl")
        time.sleep(rng.uniform(0.005, 0.05))
        process.send_signal(signal.SIGSTOP)
        is_held = place.run("status").status == 7
        if is_held:
            refused(place, fault(lock_of(place), "lock held by another program"), *WRITING, *READING)
        process.send_signal(signal.SIGCONT)
        compare_runs(ended(process, None), wanted)
        compare_whole(place, model)
        if is_held:
            return
    raise Untried("each etl ended before it could be stopped")


# Copies

COPIES = 12


def copied_journal(site, copy, name):
    """A copy of a journal: the file that tells which of its files counts, and then those."""
    tells = site / f"{name}.at"
    with contextlib.suppress(FileNotFoundError):  # the ingest hasn't made it yet
        shutil.copyfile(tells, copy / tells.name)
    for path in site.glob(f"{name}*"):
        if path != tells:
            with contextlib.suppress(FileNotFoundError):  # the ingest no longer has it
                shutil.copyfile(path, copy / path.name)


def copied(place, folder):
    """A copy of an archive beside an ingest, in the order in which it may be taken: what a file needs is copied behind it. The marks
    are left out."""
    copy = place.elsewhere(folder)
    copy.site.mkdir(parents=True)
    for name in (*(f"manifest{store}" for store in STORES), "catalogue"):
        copied_journal(place.site, copy.site, name)
    for store, folder in place.stores.items():
        if folder.exists():
            shutil.copytree(folder, copy.stores[store], ignore=shutil.ignore_patterns(MARK), ignore_dangling_symlinks=True)
    return copy


def copies(rng, place):
    """Copies that are taken while an ingest runs: each is an archive of a front of the stream, by whole chunks."""
    model = filled(rng, place)
    place.etl(model)
    stream = store_streams.long_stream(rng, store_streams.long_variables(rng))
    taken = []
    with place.kept(stream.text).open("rb") as source:
        process = place.start("ingest", source=source)
        while process.poll() is None and len(taken) < COPIES:
            taken.append(copied(place, place.folder / f"copy{len(taken)}"))
            time.sleep(rng.uniform(0, 0.02))
        compare_runs(ended(process, None), Run(0, b"", b""))
    taken.append(copied(place, place.folder / "last"))
    for copy in taken:
        state = state_after_break(model, stream.chunks, copy.run("status").output)
        compare_whole(copy, state)
        compare_listed(copy, state)


# Folders that may not be written


def paths_below(folder):
    """All that is in a folder, with its moment of change."""
    return {path: path.stat().st_mtime_ns for path in folder.rglob("*")}


def open_folders(place, rights=0o755):
    """Gives all these rights, and files no right to be run."""
    for path in [place.folder, *place.folder.rglob("*")]:
        os.chmod(path, rights if path.is_dir() else rights & 0o666)


def close_folders(place):
    """Takes the right to write from all. Of root, who may do all, nobody is made."""
    open_folders(place, 0o555)
    if os.geteuid() == 0:
        place.before = ["setpriv", f"--reuid={NOBODY}", f"--regid={NOBODY}", "--clear-groups"]
    if place.run().status != 2:
        raise Untried("another account can't run the program")


def only_read(rng, place):
    """The commands that read, where nothing may be written, with a lock and without."""
    model = filled(rng, place)
    for locked in (True, False):
        if not locked:
            (place.site / "lock").unlink()
        close_folders(place)
        before = paths_below(place.folder)
        compare_whole(place, model)
        denied = place.told(place.site / ("catalogue.at" if locked else "lock"))
        refused(place, fault(denied, "Permission denied (os error 13)"), *WRITING)
        agree("what is there", paths_below(place.folder), before)
        place.before = []
        open_folders(place)


def no_folders(rng, place):
    """The commands that read, where no folder is there: they make none."""
    compare_whole(place, Archive())
    place.expect(Run(4, b"", complaint("no such variable")), "get", "A", *WHOLE_WORDS)
    agree("what is there", list(place.folder.iterdir()), [])


# A full disk


@contextlib.contextmanager
def small_disk(place, size):
    """A file system of so many bytes in a folder, in which all folders of the archive are."""
    small = place.folder / "small"
    small.mkdir()
    if subprocess.run(["mount", "-t", "tmpfs", "-o", f"size={size}", "tmpfs", small], capture_output=True).returncode:
        raise Untried("no file system can be mounted")
    names = [f"small/{name}" for name in DEFAULTS]
    place.environment.update({f"ARCHAPPL_{title}_FOLDER": name for title, name in zip(FOLDERS, names)})
    place.settle(*names)
    try:
        yield small
    finally:
        subprocess.run(["umount", small], check=True)


def agree_on_room(ended_at):
    """The run of a command that ended since the disk was full."""
    agree("status", ended_at.status, 7)
    lines = ended_at.complaint.split(b"\n")
    agree("complaint", lines[0] + b"\n", complaint("disk failed"))
    agree("its cause", lines[1].split(b": ")[-1], b"No space left on device (os error 28)")


def full_disk(rng, place):
    """An ingest of more than fits. What is left is a front of the stream, and can be read."""
    with small_disk(place, SMALL):
        stream = store_streams.long_stream(rng, store_streams.long_variables(rng))
        agree_on_room(place.run("ingest", data=stream.text))
        model = state_after_break(Archive(), stream.chunks, place.run("status").output)
        compare_whole(place, model)
        compare_listed(place, model)


def moved_in(place, model, small, blocks):
    """The model behind moves for which so many blocks are left. Where these are too few, it is the model behind some of their
    commits."""
    more = small / "more"
    more.write_bytes(bytes(max(0, shutil.disk_usage(small).free - 4096 * blocks)))
    now = now_within_an_hour()
    ended_at = place.run("etl")
    more.unlink()
    if ended_at.status == 0:
        compare_runs(ended_at, model.etl(now))
        return model
    agree_on_room(ended_at)
    return state_after_moves(model, place, now)


def full_of_moves(rng, place):
    """Moves for which there is little room, and which go on once there is more."""
    model = Archive()
    group = store_streams.season_variables(rng)
    with small_disk(place, LARGER) as small:
        for blocks in (0, 1, 2, 3):
            take(place, model, store_streams.seasons(rng, group, 6))
            model = moved_in(place, model, small, blocks)
            compare_whole(place, model)
            place.etl(model)
            compare_whole(place, model)
            compare_listed(place, model)


# What stands in the way


def named_folders(rng, place):
    """Variables that are empty, and names with a slash at their end."""
    for title, name in zip(FOLDERS, ("", "", "lts/", "site//")):
        place.environment[f"ARCHAPPL_{title}_FOLDER"] = name
    place.settle(*DEFAULTS)
    model = filled(rng, place)
    place.etl(model)
    compare_whole(place, model)
    compare_files(place, model)


def one_folder(rng, place):
    """Two stores in one folder, by one name and by two."""
    for site, short in (("both", "both"), ("both", "./both/"), ("both", "link")):
        place.environment.update(ARCHAPPL_SITE_FOLDER=site, ARCHAPPL_SHORT_TERM_FOLDER=short)
        if short == "link":
            (place.folder / "link").symlink_to("both")
        place.site = place.folder / site
        refused(place, fault(short.rstrip("/"), "folder of two stores"), *WRITING)
        place.site.mkdir(exist_ok=True)
        refused(place, fault(short.rstrip("/"), "folder of two stores"), *WRITING, *READING)


def no_file(rng, place):
    """A link, a pipe and a folder in the place of a file."""
    filled(rng, place)
    path = place.site / "catalogue"
    os.rename(path, path.with_name("kept"))
    wanted = fault(place.told(path), "not a regular file")
    for make, unmake in ((lambda: path.symlink_to("kept"), path.unlink), (lambda: os.mkfifo(path), path.unlink),
                         (path.mkdir, path.rmdir)):
        make()
        refused(place, wanted, *WRITING, *READING)
        unmake()


CASES = {
    "two ingests": two_ingests,
    "readers": readers,
    "beside moves": beside_moves,
    "copies": copies,
    "only read": only_read,
    "no folders": no_folders,
    "named folders": named_folders,
    "one folder": one_folder,
    "no file": no_file,
    "full disk": full_disk,
    "full disk of moves": full_of_moves,
}
