"""Judges the answers of a script of acts by the model of an archive, line by line.

It keeps all archives that there may be by the answers so far. An answer that none of them could have given is wrong.
"""

import re

import pb_model
from archive_model import FAULT, Archive
from pb_model import unescape
from store_model import TYPE_NAMES

# The acts that settle a doubt, but for the steps of moves: those that have refusals and a change, and the others.
REFUSING = {"register", "pause", "resume", "rename", "flush", "pin", "details"}
SETTLING = {"begin", "sweep"}
SILENT = ("settings ", "failing ", "stop ", "file ")
RIGHT = {"each call right", "each call right, some images hold more"}


class Wrong(Exception):
    """An answer that no archive could have given."""


def numbers(words):
    """Words as whole numbers."""
    return [int(word) for word in words]


def offered_bytes(word):
    """The bytes of an offered line, in parts, of which one may be a byte so many times."""
    parts = [part.split("*") for part in word.split("+")]
    return b"".join(bytes.fromhex(part[0]) * (int(part[1]) if part[1:] else 1) for part in parts)


def offered_sample(kind, year, word):
    """The sample that a line is: its moment, and itself."""
    line = offered_bytes(word)
    found = pb_model.event(kind, unescape(line))
    return pb_model.moment(year, found.secs, found.nano), line


def asked(words):
    """An act's name and its values, as the model takes them."""
    act, *rest = words
    if act == "offer":
        name, kind, year, line, now = rest
        number = TYPE_NAMES.index(kind)
        return act, (name, number, offered_sample(number, int(year), line), int(now))
    if act == "register":
        period = int(rest[3]) if rest[2] == "scan" else None
        return act, (rest[0], TYPE_NAMES.index(rest[1]), period)
    if act in ("pause", "resume", "rename", "details"):
        return act, tuple(rest)
    if act in ("pin", "get"):
        return act, (rest[0], *numbers(rest[1:]))
    if act == "done":
        return act, ()
    return act, tuple(numbers(rest))


def outcomes_of_change(old, who, act, values, may_fail):
    """What an act that settles a doubt may be answered, each answer with the archive then."""
    refusal, _, _ = getattr(old, act)(who, *values)
    if refusal:
        return [(refusal, old)]
    found = [(FAULT, old)] if may_fail else []
    again = {"settled": True} if act == "rename" else {}
    for mid in old.settled():
        refusal, change, told = getattr(mid, act)(who, *values, **again)
        if refusal:
            found.append((refusal, mid))
            continue
        if may_fail:
            found.append((FAULT, mid.copy()))
            if change:
                found.append((FAULT, mid.in_doubt(change)))
        if change:
            mid.make(change)
        found.append((told(), mid))
    return found


def outcomes_of_begin(old, who, act, values, may_fail):
    """The same of an act that makes no durable change and is never refused: the begin of a move, and a sweep."""
    found = [(FAULT, old)] if may_fail else []
    for mid in old.settled():
        if may_fail:
            found.append((FAULT, mid.copy()))
        found.append((getattr(mid, act)(who, *values), mid))
        if may_fail and act == "sweep":
            # A file that was to be removed is there still, and nothing else.
            found.append((FAULT, mid))
    return found


def stopped(archive, number):
    """An archive without that move."""
    left = archive.copy()
    left.moves.pop(number, None)
    return left


def copied(mid, number):
    """How copying goes on: some of the lines that remain, or all of them."""
    remaining = mid.remaining(mid.moves[number])
    for count in range(1, len(remaining)):
        some = mid.copy()
        some.moves[number].copied = some.moves[number].copied + remaining[:count]
        yield "copying", some
    whole = mid.copy()
    move = whole.moves[number]
    move.copied, move.stage = move.copied + remaining, "copied"
    yield "copied", whole


def step_ends(mid, number):
    """How a step of a move ends where nothing fails."""
    move = mid.moves[number]
    if move.stage == "copies":
        return list(copied(mid, number))
    change = mid.step_change(move)
    done = mid.copy()
    if change is None:
        del done.moves[number]
        return [(mid.grown(move), done)]
    if change.kind == "publishes":
        done.make(change)
        done.moves[number].stage = "published"
        return [("published", done)]
    pinned = [file for file in mid.retired(change) if mid.is_pinned(file)]
    done.make(change, pinned)
    del done.moves[number]
    return [(f"retired {move.parts}", done)]


def outcomes_of_step(old, number, may_fail):
    """What a step of a move may be answered."""
    if number not in old.moves:
        return [("no move", old)]
    found = [(FAULT, stopped(old, number))] if may_fail else []
    for mid in old.settled():
        if may_fail:
            found.append((FAULT, stopped(mid, number)))
            change = mid.step_change(mid.moves[number])
            if change:
                found.append((FAULT, stopped(mid, number).in_doubt(change)))
        ends = step_ends(mid, number)
        found += ends
        if may_fail:
            # The parts are listed no more, and a file of them that was to be removed is there still.
            found += [(FAULT, done) for answer, done in ends if answer.startswith("retired")]
    return found


def outcomes_of_move(old, who, values, may_fail):
    """What a move may be answered that is gone on with to its end."""
    found, begun = [], []
    for answer, archive in outcomes_of_begin(old, who, "begin", values, may_fail):
        (begun if answer.startswith("begun") else found).append((answer, archive))
    running = [(int(answer.split()[1]), archive) for answer, archive in begun]
    while running:
        number, archive = running.pop()
        for answer, after in outcomes_of_step(archive, number, may_fail):
            if answer in ("copied", "published"):
                running.append((number, after))
            elif answer != "copying":
                found.append((answer, after))
    return found


def outcomes_of_get(old, name, start, end, may_fail):
    """What a retrieval may give. Where it fails a front of the text went out."""
    if old.find(name) is None:
        return [("no such variable", old)]
    found = [(f"{FAULT} ", old)] if may_fail else []
    for mid in old.settled():
        got = mid.got(mid.find(name), start, end)
        found.append((got, mid))
        if may_fail:
            found.append((f"{FAULT} ", mid))
    return found


def outcomes(archive, who, act, values, may_fail):
    """What an act may be answered, each answer with the archive then."""
    if act in REFUSING:
        return outcomes_of_change(archive, who, act, values, may_fail)
    if act in SETTLING:
        return outcomes_of_begin(archive, who, act, values, may_fail)
    if act == "step":
        return outcomes_of_step(archive, *values, may_fail)
    if act == "move":
        return outcomes_of_move(archive, who, values, may_fail)
    if act == "get":
        return outcomes_of_get(archive, *values, may_fail)
    if act == "piece":
        fault = [(FAULT, archive.copy())] if may_fail else []
        return fault + [(archive.piece(who, *values), archive)]
    if act == "doors":
        return [(f"doors {archive.doors}", archive)]
    if act == "done":
        archive.doors = max(archive.doors - 1, 0)
        return [(f"doors {archive.doors}", archive)]
    return [(getattr(archive, act)(who, *values), archive)]


def is_told(answer, wanted, act):
    """Whether an answer is the wanted one. A retrieval that fails may have given some of its text."""
    return answer.startswith(wanted) if act == "get" and wanted.startswith(FAULT) else answer == wanted


class Judge:
    """All archives that there may be, as a script goes on."""

    def __init__(self):
        self.archives = [Archive()]
        self.may_fail = False
        self.is_open = True

    def keep(self, archives):
        """Keeps these archives, each once."""
        self.archives = list({archive.key(): archive for archive in archives}.values())

    def is_answered(self, line):
        """Whether the program tells something of a line. Nothing is asked of a disk that isn't opened."""
        return not line.startswith(SILENT) and (self.is_open or not line[0].isdigit())

    def take(self, line, answer):
        """Takes a line and its answer."""
        word, *rest = line.split(" ")
        if not self.is_answered(line):
            self.take_setting(word, rest)
        elif word.isdigit():
            self.take_act(line, answer)
        elif word == "open":
            self.demand(line, answer, {"opened", FAULT} if self.may_fail else {"opened"})
            self.is_open = answer == "opened"
        elif word == "power":
            self.demand(line, answer, {"opened"})
            self.keep(left for archive in self.archives for left in archive.opened_again())
            self.is_open, self.may_fail = True, False
        elif word == "images":
            self.take_images(line, answer)
        elif word == "each":
            self.demand(line, answer, RIGHT)
        else:
            self.demand(line, answer, {line})

    def take_setting(self, word, values):
        """Takes a line that nothing is told of."""
        if word == "settings":
            values = tuple(numbers(values))
            self.archives = [Archive(values[:2], values[2:])]
        self.may_fail = self.may_fail or word in ("failing", "stop")

    def demand(self, line, answer, wanted):
        """An answer must be one of these."""
        if answer not in wanted:
            raise Wrong("\n".join([line, f"  {answer}", "and not", *(f"  {one}" for one in sorted(wanted)[:5])]))

    def take_act(self, line, answer):
        """Takes an act."""
        who, *words = line.split(" ")
        act, values = asked(words)
        found = []
        for archive in self.archives:
            found += outcomes(archive.copy(), int(who), act, values, self.may_fail)
        told = [archive for wanted, archive in found if is_told(answer, wanted, act)]
        if not told:
            self.demand(line, answer, {wanted for wanted, _ in found})
        self.keep(told)

    def take_images(self, line, answer):
        """Takes what is told of six images."""
        reports = {left.reports() for archive in self.archives for left in archive.opened_again()}
        found, *others = re.split(r" \| image \d: ", answer)
        self.demand(line, found, {f"images: {report}" for report in reports})
        for other in others:
            self.demand(line, other, reports)
        self.is_open = False
