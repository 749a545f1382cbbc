"""Damage to the files of an archive, and what the program must tell of it."""

import re

import pb_model
import store_model
import streams
from comparing import agree
from pb_model import END, Run
from store_model import STORES, batches, check_file, complaint, damage_of, is_bad_line, walk
from store_place import WHOLE, WHOLE_WORDS, compare_gets, compare_whole

OPENING = (["status"], ["check"], ["ingest"], ["etl"], ["get", "A", pb_model.iso(0), pb_model.iso(0)])
JOURNALS = ("catalogue", *(f"manifest{store}" for store in STORES))
DAMAGED = re.compile(rb"archappl: damaged: (\d) (.+) at (\d+)\n")


def damaged_at(store, path, at):
    """The complaint of the first damage."""
    return complaint(f"damaged: {store} {path} at {at}")


def refused_by_all(place, wanted):
    """No command opens the archive."""
    for words in OPENING:
        place.expect(Run(8, b"", wanted), *words, data=b"\n")


# Journals and lengths, which are looked at when an archive is opened


def cut_journal(rng, place):
    """The last batch of a journal is cut off behind its open gate."""
    name = rng.choice(JOURNALS)
    path = place.site / name
    data = path.read_bytes()
    gates = [at for at, _ in batches(data)]
    if not gates:
        return
    cut = data[: rng.randrange(max(gates[-1] + 1, 2), len(data))]
    path.write_bytes(cut)
    refused_by_all(place, damaged_at(0, name, damage_of(lambda: list(batches(cut)))))


def shortened(rng, place, files):
    """Listed files are cut or removed. The first of them is told."""
    ends = {}
    for file in rng.sample(files, min(len(files), rng.choice((1, 2)))):
        path = place.path(file)
        if streams.chance(rng, 30):
            path.unlink()
            ends[file.path] = 0
        else:
            ends[file.path] = rng.randrange(len(file.content))
            path.write_bytes(file.content[: ends[file.path]])
    first = next(file for file in files if file.path in ends)
    refused_by_all(place, damaged_at(first.store, first.path.decode(), ends[first.path]))


# Bytes, which are looked at when a file is read


def other_bytes(rng, file):
    """The bytes of a file with some damage in them, as long as they were at least."""
    way = rng.randrange(10)
    if way == 0:
        return file.content + rng.randbytes(rng.randrange(1, 40))
    if way == 1:
        header = pb_model.header(pb_model.unescape(file.head[:-1]))
        header.type = rng.randrange(14)
        header.year = rng.choice((header.year, header.year + 1))
        data = store_model.header_line(header) + file.content[len(file.head) :]
    elif way == 2:
        lines = [line for _, line in file.samples]
        lines[rng.randrange(len(lines))] = rng.choice(lines)
        data = file.head + b"".join(lines)
    else:
        data = streams.damaged_bytes(rng, file.content)
    return data + rng.randbytes(max(0, len(file.content) - len(data)))


def compare_check(place, files):
    """`check` with the files as they are."""
    place.expect(check_of((file.store, file.path, file.span, place.front(file)) for file in files), "check")


def check_of(found):
    """What `check` tells of files: of each its store, its path, the span of its moments, and its listed bytes."""
    lines, wanted = [], Run(0, b"", b"")
    for store, path, span, front in found:
        at = damage_of(check_file, front, span)
        if at is None:
            lines.append(b"%d %s ok %d\n" % (store, path, check_file(front, span)))
            continue
        lines.append(b"%d %s damaged %d\n" % (store, path, at))
        if wanted.status == 0:
            wanted = Run(8, b"", damaged_at(store, path.decode(), at))
    wanted.output = b"".join(lines)
    return wanted


def compare_damaged_get(place, row):
    """All of a variable some of whose files are changed. A retrieval asks for the row's type, and not for the partition, and
    finds by search where the samples begin that it needs of a file. So it tells a bad line of one of them, or passes it by;
    a bad header is never passed by."""
    fronts = {(file.store, file.path): place.front(file) for store in STORES for file in row.files(store)}
    found = place.run("get", row.name.decode(), *WHOLE_WORDS)
    told = DAMAGED.fullmatch(found.complaint)
    if told is None:
        compare_undamaged(row, found)
        bad = [path for path, front in fronts.items() if damage_of(walk, front, (0, END), row.type) == 0]
        agree(f"the files of {row.name} that have a bad header, and of which nothing is told", bad, [])
        return
    agree("status", found.status, 8)
    front = fronts.get((int(told[1]), told[2]), b"")
    agree(f"whether {found.complaint} is so", is_bad_line(front, row.type, int(told[3])), True)


def compare_undamaged(row, found):
    """An answer in which no damage is told: events of the type that rise."""
    agree("status and complaint", (found.status, found.complaint), (0, b""))
    chunks, refused = pb_model.read_stream(found.output)
    agree("the first bad line", refused, None)
    agree("the types", {chunk.header.type for chunk in chunks}, {row.type})
    moments = [t for chunk in chunks for t, _ in chunk.samples]
    agree("whether the moments rise", all(a < b for a, b in zip(moments, moments[1:])), True)


def compare_damaged_moves(place, rest, paths):
    """Moves over an archive some of whose files are changed: they may tell damage, in a file of those variables alone, and
    the others lose nothing."""
    found = place.run("etl")
    told = DAMAGED.fullmatch(found.complaint)
    if told is None:
        agree("status and complaint", (found.status, found.complaint), (0, b""))
        agree("whether it tells what moved", re.fullmatch(rb"moved \d+ \d+\n", found.output) is not None, True)
    else:
        agree("status and output", (found.status, found.output), (8, b""))
        key = told[2].rpartition(b":")[0]
        agree(f"whether {told[2]} is of a changed variable", key in {path.rpartition(b":")[0] for path in paths}, True)
    for row in rest.rows:
        place.expect(rest.get(row.name, *WHOLE), "get", row.name.decode(), *WHOLE_WORDS)


def damaged_bytes(rng, place, model, files):
    """Bytes of listed files are changed. The variables of all other files are still told, also once all is moved."""
    chosen = rng.sample(files, min(len(files), rng.choice((1, 1, 2, 5))))
    for file in chosen:
        place.path(file).write_bytes(other_bytes(rng, file))
    compare_check(place, files)
    place.expect(model.status(), "status")
    changed = {file.path for file in chosen}
    rest = store_model.Archive()
    for row in model.rows:
        if changed.isdisjoint(file.path for store in STORES for file in row.files(store)):
            rest.rows.append(row)
        else:
            compare_damaged_get(place, row)
    compare_gets(place, rest, rng, 3)
    compare_damaged_moves(place, rest, changed)


def damage(rng, place, model):
    """Damages an archive in one way, and compares what is told of it."""
    compare_whole(place, model)
    files = model.files()
    way = rng.randrange(6)
    if way == 0:
        cut_journal(rng, place)
    elif not files:
        return
    elif way == 1:
        shortened(rng, place, files)
    else:
        damaged_bytes(rng, place, model, files)
