"""Random scripts of acts, for `interop/archive_script`: several owners, failing calls of the disk, and ends of power."""

from archive_model import OPENING
from pb_model import SECOND, escape, year_start
from store_model import number_field, year_of

START = year_start(2024) * SECOND
HOUR = 3_600
LATEST = 2**64 - 1
# Two of them have one key.
NAMES = ("A:B", "A-B", "C:D", "E")
NEW_NAMES = (*NAMES, "A:C", "A-C", "F", "G:H", "I")
STEPS = (0, 1, 1, 1, 60, 1_800, HOUR, 2 * HOUR, 24 * HOUR)


def sample(value, seconds):
    """Year and line of a sample of SCALAR_INT, so many seconds behind the first of 2024."""
    year = year_of(START + seconds * SECOND)
    seconds -= year_start(year) - year_start(2024)
    message = number_field(1, seconds) + number_field(2, 0) + b"\x1d" + value.to_bytes(4, "little")
    return year, escape(message).hex()


class Writer:
    """Writes a script line by line. Its clock goes on with the samples."""

    def __init__(self, rng):
        self.rng = rng
        self.lines = []
        self.names = []
        self.seconds = rng.choice((0, 1_000, 20 * HOUR, 364 * 24 * HOUR))

    def put(self, *words):
        """Writes a line."""
        self.lines.append(" ".join(map(str, words)))

    def moment(self, seconds):
        """A moment of 2024, some of its seconds in."""
        return START + seconds * SECOND

    def name(self):
        """A name, mostly of a row."""
        return self.rng.choice(self.names if self.rng.random() < 0.95 else NAMES)

    def register(self):
        """A row, mostly monitored."""
        name = self.rng.choice(NAMES)
        self.names.append(name)
        return "register", name, "SCALAR_INT", self.rng.choice(("monitor", "monitor", f"scan {SECOND}", f"scan {100 * SECOND}"))

    def acts_of_names(self):
        """A new name, mostly for a variable that is paused and all of which is durable; and mostly it goes on then."""
        rng = self.rng
        old, new = self.name(), rng.choice(NEW_NAMES)
        self.names.append(new)
        acts = [("pause", old), ("flush", 67_108_864), ("rename", old, new), ("resume", new), self.offer_to(new)]
        return [act for act in acts if rng.random() < 0.9]

    def offer(self):
        """A sample for a variable, mostly later than those before it."""
        return self.offer_to(self.name())

    def offer_to(self, name):
        """A sample for this variable."""
        self.seconds += self.rng.choice(STEPS)
        at = max(self.seconds - self.rng.choice((0, 0, 0, 0, 5, HOUR)), 0)
        now = self.moment(self.seconds - self.rng.choice((0, 0, 0, 1_800, 1_801)) if self.seconds > HOUR else self.seconds)
        kind = self.rng.choice(["SCALAR_INT"] * 30 + ["SCALAR_FLOAT"])
        return "offer", name, kind, *sample(self.rng.randrange(1, 14), at), now

    def later(self):
        """A moment of a clock that is behind the samples, as far as partitions want it."""
        return self.moment(self.seconds + self.rng.choice((0, HOUR, 5 * HOUR, 48 * HOUR, 400 * 24 * HOUR)))

    def query(self):
        """The ends of an interval."""
        ends = [self.moment(max(self.seconds - self.rng.choice((0, 1, 100, HOUR, 30 * HOUR)), 0)) for _ in range(2)]
        return self.rng.choice(((0, LATEST), (0, LATEST), sorted(ends), ends))

    def acts_of_moves(self):
        """A move, or some steps of one, or a sweep."""
        rng = self.rng
        if rng.random() < 0.4:
            return [("move", rng.choice((1, 1, 2)), self.later())]
        if rng.random() < 0.2:
            return [("sweep",)]
        begin = ("begin", rng.choice((1, 1, 2)), self.later())
        return [begin] * rng.choice((0, 1, 1)) + [("step", rng.choice((0, 0, 0, 1)))] * rng.randrange(5)

    def acts_of_pins(self):
        """A pin, or some of its pieces, or its end."""
        rng = self.rng
        number = rng.choice((0, 0, 0, 1, 2))
        if rng.random() < 0.3:
            return [("unpin", number)]
        pin = ("pin", self.name(), *self.query())
        return [pin] * rng.choice((0, 1, 1)) + [("piece", number, place) for place in range(rng.randrange(3))]

    def act_of_rows(self):
        """What changes a row, or tells of some."""
        rng = self.rng
        return rng.choice((
            self.register,
            lambda: ("pause", self.name()),
            lambda: ("resume", self.name()),
            lambda: ("resume", self.name()),
            lambda: ("names", rng.randrange(3), rng.choice((1, 2, 9))),
            lambda: ("details", self.name()),
            lambda: ("details", self.name()),
            lambda: ("get", self.name(), *self.query()),
            lambda: ("get", self.name(), *self.query()),
            lambda: rng.choice((("doors",), ("done",))),
        ))()

    def some_acts(self):
        """A few acts that go together."""
        rng = self.rng
        chance = rng.random()
        if chance < 0.35:
            return [self.offer() for _ in range(rng.randrange(1, 4))]
        if chance < 0.5:
            return [("flush", rng.choice((1, 15, 1_000, 67_108_864, 67_108_864)))]
        if chance < 0.52:
            return self.acts_of_names()
        if chance < 0.55:
            return [("tick", rng.choice((0, 0, 1, 2)), self.moment(self.seconds + rng.choice((0, 1, 200))))]
        if chance < 0.72:
            return self.acts_of_moves()
        return self.acts_of_pins() if chance < 0.85 else [self.act_of_rows()]

    def acts(self, count):
        """So many times some acts, of three owners."""
        for _ in range(count):
            who = self.rng.choice((0, 0, 1, 2))
            for act in self.some_acts():
                self.put(who, *act)

    def rows(self):
        """Two rows at first."""
        for _ in range(2):
            self.put(0, *self.register())

    def disk(self):
        """What is said of the disk in front of the first opening: where its calls fail, if they do."""
        rng = self.rng
        if rng.random() < 0.7:
            hold, gather = [rng.randrange(4) for _ in range(2)], [rng.randrange(1, 4) for _ in range(2)]
            self.put("settings", *hold, *gather)
        chance = rng.random()
        if chance < 0.5:
            self.put("failing", *sorted({rng.randrange(OPENING - 2, OPENING + 170) for _ in range(rng.choice((1, 1, 2, 4)))}))
        elif chance < 0.65:
            self.put("stop", rng.randrange(OPENING - 2, OPENING + 220))

    def lives(self):
        """A few lives, and what their images hold."""
        self.put("open")
        self.rows()
        self.acts(self.rng.choice((10, 25, 40)))
        for _ in range(self.rng.choice((0, 1, 2))):
            self.put("images")
            self.put("power", self.rng.randrange(6))
            self.acts(self.rng.choice((5, 20)))
        self.put("images")

    def loops(self):
        """A few acts, of which each call of the disk goes wrong in turn."""
        self.put("open")
        self.rows()
        self.acts(self.rng.randrange(3, 9))
        self.put("each call fails")
        self.put("each call stops")


def script(rng, number):
    """A script as its lines."""
    writer = Writer(rng)
    writer.put("script", "random", number)
    if rng.random() < 0.04:
        writer.loops()
    else:
        writer.disk()
        writer.lives()
    return writer.lines


