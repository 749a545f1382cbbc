"""What an archive may answer to acts, as docs/MACHINE.md has it: a model to compare with.

It is over lists of samples, and knows nothing of files but their form. A sample is its moment and its line, escaped
and without a newline; moments are nanoseconds since 1970. Stores are 1, the short term, 2, the medium term, and 3,
the long term. A failed call of the disk leaves open what was done: so after each act there may be several archives,
of which each answer leaves those that could have given it.
"""

from dataclasses import dataclass, field, replace

from pb_model import FIRST_YEAR, LAST_YEAR, Header
from store_model import AHEAD, STORES, TYPE_NAMES, header_line, key_of, partition, path_of, year_of

# How many calls of the disk the opening of an empty one takes: one for the file `adopt`; of each journal five for its file and
# five for that of its generations, and of each manifest four more, for its granularity; and then the names of each store are asked for.
OPENING = 1 + 4 * (5 + 5) + 3 * 4 + 3
ROOM = 67_108_864
LATEST = 2**64 - 1
FAULT = "disk fault"


# Lists of samples


def end_of(samples, least=0):
    """The first moment later than the last sample."""
    return samples[-1][0] + 1 if samples else least


def since(t, samples):
    """The samples from a moment on."""
    return [sample for sample in samples if sample[0] >= t]


def before(t, samples):
    """The samples before a moment."""
    return [sample for sample in samples if sample[0] < t]


def over(first, second):
    """The first, and what of the second is later."""
    return first + since(end_of(first), second)


def window(part, samples):
    """The samples of a partition."""
    return [sample for sample in samples if part[0] <= sample[0] < part[1]]


def size(samples):
    """How many bytes the lines have, each with its newline."""
    return sum(len(line) + 1 for _, line in samples)


def answered(samples, start, end):
    """The last sample before `start`, and those from `start` to `end`."""
    return before(start, samples)[-1:] + [sample for sample in samples if start <= sample[0] <= end]


def shown(content):
    """Bytes in hexadecimal digits, with a comma for each newline."""
    return ",".join(line.hex() for line in content.split(b"\n"))


# What an archive has


@dataclass
class Row:
    """A variable under one name: how it is sampled (a period, or None), and the samples that came under this name. Its
    base is the row of the name before, if it was renamed."""

    name: str
    type: int
    period: object
    base: object = None
    state: str = "running"
    next: int = 0
    tail: list = field(default_factory=list)
    held: object = None
    due: int = 0
    listed: dict = field(default_factory=lambda: {store: [] for store in STORES})

    def copy(self):
        """The same row, which may go on by itself."""
        return replace(self, tail=list(self.tail), listed=dict(self.listed))

    @property
    def durable(self):
        """All that the stores list of it, each sample once."""
        return over(over(self.listed[3], self.listed[2]), self.listed[1])

    def parts(self, store):
        """The partitions that a store lists, each by its start and end."""
        return sorted({partition(store, t) for t, _ in self.listed[store]})

    def head(self, year):
        """The line of a year's header, with its newline."""
        return header_line(Header(self.type, self.name.encode(), year, None, []))

    def raw_text(self, samples, start):
        """The text of an answer that is asked for from a moment on: each year behind its header."""
        years = {}
        for t, line in samples:
            years.setdefault(year_of(t), []).append(line + b"\n")
        if not years:
            years[min(max(year_of(start), FIRST_YEAR), LAST_YEAR)] = []
        return b"\n".join(self.head(year) + b"".join(lines) for year, lines in years.items())


@dataclass
class File:
    """A file's place and its samples."""

    row: int
    store: int
    part: tuple
    samples: list

    @property
    def place(self):
        """Its row, store and partition."""
        return self.row, self.store, self.part


@dataclass
class Pin:
    """A hold on files, as they were."""

    owner: int
    pieces: list


@dataclass
class Move:
    """A running move: of a row's samples in a store that are before `to`."""

    row: int
    store: int
    parts: int
    to: int
    stage: str = "copies"
    copied: list = field(default_factory=list)


@dataclass
class Change:
    """The one durable change of an act: `kind` is row, state, name, appends, publishes or unlists."""

    kind: str
    row: object = None
    word: object = None
    store: int = 0
    samples: list = field(default_factory=list)
    to: int = 0


def least_free(table):
    """The least number that a table doesn't have."""
    return next(number for number in range(len(table) + 1) if number not in table)


def relist(samples, files, store, listed):
    """A store's list with more samples. What limbo has of a partition that isn't listed comes back in front of them."""
    for sample in samples:
        part = partition(store, sample[0])
        back = next((file.samples for file in files if file.part == part), [])
        listed = listed + ([] if window(part, listed) else back) + [sample]
    return listed


class Archive:
    """One archive, with the settings of its stores: of the stores 1 and 2 how many partitions are held and gathered."""

    def __init__(self, hold=(5, 2), gather=(3, 1)):
        self.hold, self.gather = hold, gather
        self.rows, self.limbo, self.pins, self.moves = [], [], {}, {}
        self.doubt = None
        self.doors = 2

    def copy(self):
        """The same archive, which may go on by itself."""
        made = Archive(self.hold, self.gather)
        made.rows = [row.copy() for row in self.rows]
        made.limbo, made.pins, made.doubt, made.doors = list(self.limbo), dict(self.pins), self.doubt, self.doors
        made.moves = {number: replace(move) for number, move in self.moves.items()}
        return made

    def key(self):
        """A text that tells it from others."""
        return repr((self.rows, self.limbo, self.pins, self.moves, self.doubt, self.doors))

    def in_doubt(self, change):
        """The same with a change in doubt."""
        left = self.copy()
        left.doubt = change
        return left

    def find(self, name):
        """The number of the row of a name, None where there is none."""
        return next((i for i, row in enumerate(self.rows) if row.name == name), None)

    def line(self, i):
        """The rows of a variable under all its names, the first one first and this one last."""
        base = self.rows[i].base
        return ([] if base is None else self.line(base)) + [i]

    def durable(self, i):
        """What the stores list of a variable, each sample once."""
        samples = []
        for k in self.line(i):
            samples = over(samples, self.rows[k].durable)
        return samples

    def accepted(self, i):
        """What is durable of it, and the tail."""
        return over(self.durable(i), self.rows[i].tail)

    def limbo_of(self, row, store):
        """The files of limbo of a row and store."""
        return [file for file in self.limbo if (file.row, file.store) == (row, store)]

    # Changes

    def make(self, change, into=()):
        """Makes a change; these files go to limbo."""
        getattr(self, f"make_{change.kind}")(change)
        files = self.limbo + list(into)
        self.limbo = [file for file in files if not window(file.part, self.rows[file.row].listed[file.store])]

    def make_row(self, change):
        """A row is added."""
        self.rows.append(change.row.copy())

    def make_state(self, change):
        """A row's state is set, and it holds nothing."""
        row = self.rows[change.row]
        row.state, row.held, row.due = change.word, None, 0

    def make_name(self, change):
        """A row is added over one that is retired, with all that is known of its variable."""
        row = self.rows[change.row]
        row.state, row.held, row.due = "retired", None, 0
        self.rows.append(Row(change.word, row.type, row.period, change.row, "paused", row.next))

    def make_appends(self, change):
        """Samples of tails are listed by store 1."""
        for i, samples in change.samples:
            row = self.rows[i]
            row.listed[1] = relist(samples, self.limbo_of(i, 1), 1, row.listed[1])
            row.tail = since(end_of(samples), row.tail)

    def make_publishes(self, change):
        """Copies are listed by the next store."""
        row, store = self.rows[change.row], change.store + 1
        row.listed[store] = relist(change.samples, self.limbo_of(change.row, store), store, row.listed[store])

    def make_unlists(self, change):
        """What is before a moment leaves its store."""
        row = self.rows[change.row]
        row.listed[change.store] = since(change.to, row.listed[change.store])

    def retired(self, change):
        """The files that leave their store by a change."""
        if change.kind != "unlists":
            return []
        row = self.rows[change.row]
        return [
            File(change.row, change.store, part, window(part, row.listed[change.store]))
            for part in row.parts(change.store)
            if part[1] <= change.to
        ]

    def is_pinned(self, file):
        """Whether a pin names a file."""
        return any(piece.place == file.place for pin in self.pins.values() for piece in pin.pieces)

    def is_copied_into(self, file):
        """Whether a running move has copied into a file's partition."""
        return any(
            (move.row, move.store + 1) == (file.row, file.store) and window(file.part, move.copied)
            for move in self.moves.values()
        )

    def settled(self):
        """The archives that there may be once the doubt is settled."""
        if self.doubt is None:
            yield self.copy()
            return
        unmade = self.copy()
        unmade.doubt = None
        yield unmade
        files = self.retired(self.doubt)
        pinned = [file for file in files if self.is_pinned(file)]
        for into in [pinned] + ([files] if len(files) > len(pinned) else []):
            made = self.copy()
            made.doubt = None
            made.make(self.doubt, into)
            yield made

    def opened_again(self):
        """The archives that an opening may find when the power ends now."""
        for left in self.settled():
            left.limbo, left.pins, left.moves, left.doors = [], {}, {}, 2
            for i, row in enumerate(left.rows):
                row.tail, row.held, row.due, row.next = [], None, 0, end_of(left.durable(i))
            yield left

    # Acts. Those that settle a doubt give their refusal, their change, and how they end, each of which may be none.

    def taken(self, name):
        """Why a row can't have a name; it can where there is no reason."""
        keys = [key_of(row.name.encode()) for row in self.rows]
        if self.find(name) is not None:
            return f"name taken {self.find(name)}"
        if key_of(name.encode()) in keys:
            return f"key taken {keys.index(key_of(name.encode()))}"
        return None

    def register(self, who, name, kind, period):
        """A row for a variable."""
        refusal = self.taken(name)
        if refusal:
            return refusal, None, None
        return None, Change("row", Row(name, kind, period)), lambda: f"registered {len(self.rows) - 1}"

    def set_state(self, name, was, word, refusal):
        """The state of a row, which was another."""
        i = self.find(name)
        if i is None:
            return "no such variable", None, None
        if self.rows[i].state != was:
            return refusal, None, None
        return None, Change("state", i, word), lambda: "done"

    def pause(self, who, name):
        """A variable's samples are dropped from now on."""
        return self.set_state(name, "running", "paused", "not running")

    def resume(self, who, name):
        """They are taken again."""
        return self.set_state(name, "paused", "running", "not paused")

    def rename(self, who, name, newname, settled=False):
        """A new name for a variable. Where its row isn't paused, it is told whether that came of the doubt which this act
        settled before: at first it was paused then."""
        i = self.find(name)
        if i is None:
            return "no such variable", None, None
        row = self.rows[i]
        if row.state != "paused":
            return f"rename not paused {row.state.capitalize()} {int(settled)} 0", None, None
        refusal = self.taken(newname)
        if refusal is None and row.tail:
            durable = self.durable(i)
            last = f"Some({durable[-1][0]})" if durable else "None"
            refusal = f"not durable {row.next - 1} {last}"
        if refusal:
            return refusal, None, None
        return None, Change("name", i, newname), lambda: f"renamed {len(self.rows) - 1}"

    def held_bytes(self):
        """The bytes of all tails."""
        return sum(size(row.tail) for row in self.rows)

    def tried(self, row, sample, now):
        """Why a sample isn't accepted; it is where there is no reason."""
        if sample[0] < row.next:
            return f"dropped: NotLater {{ last: {row.next - 1} }}"
        if now + AHEAD < sample[0]:
            return f"dropped: Future {{ now: {now} }}"
        if self.held_bytes() + len(sample[1]) + 1 > ROOM:
            return f"intake full {self.held_bytes()}"
        row.tail.append(sample)
        row.next = sample[0] + 1
        return None

    def offer(self, who, name, kind, sample, now):
        """A sample comes for a variable."""
        i = self.find(name)
        if i is None:
            return "dropped: Unknown"
        row = self.rows[i]
        if row.state != "running":
            return "dropped: Paused"
        if row.type != kind:
            return "dropped: WrongType"
        if row.period is not None:
            row.held = sample
            return "held"
        return self.tried(row, sample, now) or "kept"

    def tick(self, who, i, now):
        """What a sampled row holds is tried."""
        if i >= len(self.rows):
            return "no row"
        row = self.rows[i]
        if row.period is None or row.state != "running":
            return "tick none"
        if now < row.due:
            return f"not due {row.due}"
        answer = "tick none"
        if row.held is not None:
            answer = self.tried(row, row.held, now) or f"tick kept {row.held[0]}"
        if not answer.startswith("intake full"):
            row.held, row.due = None, min(now + row.period, LATEST)
        return answer

    def flush(self, who, limit):
        """Whole tails become durable, in the order of rows."""
        batch, taken = [], 0
        for i, row in enumerate(self.rows):
            if taken < limit and row.tail:
                batch.append((i, list(row.tail)))
                taken += size(row.tail)
        count = sum(len(samples) for _, samples in batch)
        return None, Change("appends", samples=batch), lambda: f"flushed {count} {self.held_bytes()} {self.doors}"

    def move_due(self, row, store, now):
        """How many of the oldest partitions that a store lists are to move on, and where the last of them ends."""
        hold, gather = self.hold[store - 1], self.gather[store - 1]
        parts = row.parts(store)
        ripe = sum(end <= now for _, end in parts)
        chosen = ripe if hold == 0 else min(gather, ripe) if ripe >= hold else 0
        reach = end_of(row.listed[store + 1])
        covered = sum(end_of(window(part, row.listed[store])) <= reach for part in parts)
        count = max(chosen, covered)
        return count, parts[count - 1][1] if count else 0

    def begin(self, who, store, now):
        """The least row that has a move to make, and none running, begins one."""
        running = {move.row: number for number, move in reversed(self.moves.items())}
        busy = None
        for i, row in enumerate(self.rows):
            count, to = self.move_due(row, store, now)
            if count and i not in running:
                number = least_free(self.moves)
                self.moves[number] = Move(i, store, count, to)
                return f"begun {number} {i} {count}"
            if count and busy is None:
                busy = running[i]
        return f"nothing {self.doors}" if busy is None else f"busy {busy}"

    def remaining(self, move):
        """The lines that a move has left to copy."""
        row = self.rows[move.row]
        reach = end_of(move.copied, end_of(row.listed[move.store + 1]))
        left = since(reach, before(move.to, row.listed[move.store]))
        for file in self.limbo_of(move.row, move.store + 1):
            left = [
                sample for sample in left
                if not window(file.part, [sample]) or sample[0] >= end_of(file.samples, file.part[0])
            ]
        return left

    def is_covered(self, move):
        """Whether the next store has all of a move's parts."""
        row = self.rows[move.row]
        return end_of(before(move.to, row.listed[move.store])) <= end_of(row.listed[move.store + 1])

    def grown(self, move):
        """The answer where a part has grown: the listed and the published length of the oldest such part."""
        row = self.rows[move.row]
        reach = end_of(row.listed[move.store + 1])
        for part in row.parts(move.store):
            samples = window(part, row.listed[move.store])
            if end_of(samples) > reach:
                head = len(row.head(year_of(part[0])))
                return f"again {head + size(samples)} {head + size(before(reach, samples))}"
        raise AssertionError("no part has grown")

    def step_change(self, move):
        """The change that the next step of a move may make."""
        if move.stage == "copied":
            return Change("publishes", move.row, store=move.store, samples=list(move.copied))
        if move.stage == "published" and self.is_covered(move):
            return Change("unlists", move.row, store=move.store, to=move.to)
        return None

    # Pins

    def files(self, i, store):
        """The files that a store lists of a row."""
        row = self.rows[i]
        return [File(i, store, part, window(part, row.listed[store])) for part in row.parts(store)]

    def chosen(self, i, start, end):
        """The files that a pin of an interval names, those of its first name first: those before the last one stay closed
        that begins before the interval and behind all of theirs, and the last ones that begin behind it, where the tail
        does too."""
        opened, reach = [], -1
        for file in (file for k in self.line(i) for store in (3, 2, 1) for file in self.files(k, store)):
            first, last = file.samples[0][0], file.samples[-1][0]
            if reach < first < start:
                opened = []
            opened.append(file)
            reach = max(reach, last)
        tail = self.rows[i].tail
        while opened and opened[-1].samples[0][0] > max(start, end) and not (tail and tail[0][0] <= max(start, end)):
            opened.pop()
        return opened

    def pin(self, who, name, start, end):
        """A hold on a variable's files."""
        i = self.find(name)
        if i is None:
            return "no such variable", None, None
        return None, None, lambda: self.pinned(who, i, start, end)

    def pinned(self, who, i, start, end):
        """The answer of a pin that is made."""
        number, pieces = least_free(self.pins), self.chosen(i, start, end)
        self.pins[number] = Pin(who, pieces)
        tail = "".join(f" {line.hex()}" for _, line in self.rows[i].tail)
        return f"pinned {number} {self.rows[i].name} pieces {len(pieces)} tail{tail}"

    def pin_refused(self, who, number):
        """Why one may not act on a pin."""
        if number not in self.pins:
            return "no pin"
        owner = self.pins[number].owner
        return None if owner == who else f"not yours {owner}"

    def piece(self, who, number, place):
        """A reader of a piece."""
        refused = self.pin_refused(who, number)
        if refused:
            return refused
        pieces = self.pins[number].pieces
        if place >= len(pieces):
            return f"no piece {len(pieces)}"
        piece = pieces[place]
        row = self.rows[piece.row]
        path = path_of(row.name.encode(), piece.part[0], piece.store).decode()
        head = row.head(year_of(piece.part[0]))
        content = head + b"".join(line + b"\n" for _, line in piece.samples)
        return f"piece {piece.store}/{path} head {len(head)} length {len(content)} read {len(content)} {shown(content)}"

    def unpin(self, who, number):
        """A pin is given up."""
        refused = self.pin_refused(who, number)
        if refused is None:
            del self.pins[number]
        return refused or "unpinned"

    def sweep(self, who):
        """Files go that nobody needs."""
        stay = [file for file in self.limbo if self.is_pinned(file) or self.is_copied_into(file)]
        gone = len(self.limbo) - len(stay)
        self.limbo = stay
        return f"swept {gone}"

    # What is told

    def names(self, who, start, most):
        """The names of rows from a number on."""
        told = [row.name for row in self.rows[start : start + most]]
        more = " and more" if start + most < len(self.rows) else ""
        return " ".join([f"names{more}", *told])

    def described(self, i):
        """What is known of a row."""
        row, accepted = self.rows[i], self.accepted(i)
        method = "Monitor" if row.period is None else f"Scan {{ period: {row.period} }}"
        files = [len(row.parts(store)) for store in STORES]
        first, last = (f"Some({accepted[end][0]})" if accepted else "None" for end in (0, -1))
        return (
            f"described {row.name} {TYPE_NAMES[row.type]} {method} count None {row.state.capitalize()} accepted {len(accepted)}"
            f" durable {len(self.durable(i))} files {files} from {first} to {last}"
        )

    def details(self, who, name):
        """What is known of a variable."""
        i = self.find(name)
        if i is None:
            return "no such variable", None, None
        return None, None, lambda: self.described(i)

    def got(self, i, start, end):
        """The raw text of an answer."""
        row = self.rows[i]
        samples = answered(self.accepted(i), start, end)
        return f"got {len(samples)} {shown(row.raw_text(samples, start))}"

    def reports(self):
        """What is reported of its files when it is opened again."""
        lines = []
        for i, row in enumerate(self.rows):
            files = " ".join(str(len(row.parts(store))) for store in STORES)
            lines.append(f"{row.name} {TYPE_NAMES[row.type]} {row.state} samples {len(self.durable(i))} files {files}; ")
        for store in STORES:
            for i, row in enumerate(self.rows):
                for file in self.files(i, store):
                    path = path_of(row.name.encode(), file.part[0], store).decode()
                    lines.append(f"{store} {path} ok {len(file.samples)}; ")
        return "".join(lines) + "all good"
