"""Scripts of commits and checkpoints of a journal over a disk in memory, as `crates/format_cases` reads them, and what must come of each.

Each script stands here with its number of calls, worked out by hand: the first load of a journal takes ten calls, a commit four and a
checkpoint ten. What images hold where one of them fails, or all from it on, is told by a model: the disk of `disk_images.py`, and a
journal's calls and files by docs/FORMATS.md. Other scripts may import it.
"""


from disk_images import Script

IMAGES = 6
# Scripts, each with the number of its calls.
SCRIPTS = [
    ("stops +a +bb =ccc", 28),
    ("fails +a +bb =ccc +d", 32),
    ("stops =a =bb", 30),
    ("fails +a =bb =ccc +d", 38),
    ("stops +a =bb +c =d", 38),
    ("fails =a +bb =c", 34),
]


class Failed(Exception):
    """A call of the disk failed."""


class Disk:
    """A disk of which calls fail."""

    def __init__(self, stop, failing):
        self.calls = Script()
        self.calls.begin(stop, failing)

    def do(self, word, path, at=0, data=b""):
        """A call of a file."""
        told = self.calls.call(word, ("0", path), at, data)
        if told == "fault":
            raise Failed
        assert told != "not done", f"{word} {path} {at}"
        return told[: -len("done")].strip()

    def write_synced(self, path, at, data):
        """Bytes at a place, and a sync."""
        self.do("write", path, at, data)
        self.do("sync", path)

    def has(self, path):
        """The size of a file, none where there is no file."""
        told = self.do("size", path)
        return None if told == "None" else int(told[len("Some(") : -1])

    def files(self, choice):
        """What each file of an image has."""
        words = (word.split("=") for word in self.calls.image(choice).split())
        return {name.removeprefix("0/"): bytes.fromhex(content) for name, content in words}


def batches(content):
    """The batches of a file: those behind open gates, from its front on."""
    found, place = [], 0
    while len(content) > 1 and content[place] == 1:
        length = int.from_bytes(content[place + 1 : place + 5], "little")
        found.append(content[place + 5 : place + 5 + length])
        place += 5 + length
    return found


def held(files):
    """The batches of a journal, as a text with a space before each."""
    generation = len(batches(files.get("J.at", b"")))
    content = files.get(name_of(generation), b"")
    if generation and len(content) < 2:
        return "bad"
    return "".join(" " + batch.decode() for batch in batches(content))


def name_of(generation):
    """The name of a generation's file."""
    return f"J.{generation}" if generation else "J"


class Gates:
    """A file of batches."""

    def __init__(self, path, place=0):
        self.path = path
        self.place = place
        self.behind = 0
        self.sound = True

    def make(self, disk):
        """The file of no batches."""
        disk.do("sync", self.path)
        assert disk.has(self.path) is None
        disk.do("create", self.path)
        disk.write_synced(self.path, 0, b"\0")

    def commit(self, disk, batch):
        """One batch more."""
        frame = len(batch).to_bytes(4, "little") + batch + b"\0"
        self.sound, self.behind = False, len(frame)
        disk.write_synced(self.path, self.place + 1, frame)
        disk.write_synced(self.path, self.place, b"\1")
        self.place, self.sound = self.place + self.behind, True

    def review(self, disk):
        """Whether the batch that failed is there."""
        disk.do("sync", self.path)
        size = disk.has(self.path)
        is_there = size is not None and size > self.place + self.behind and disk.do("read", self.path, self.place).startswith("01")
        self.place += self.behind if is_there else 0
        self.sound = True
        return is_there


class Journal:
    """A journal with checkpoints."""

    def __init__(self, disk):
        self.disk = disk
        self.generation = 0
        self.at, self.current = Gates("J.at"), Gates("J")
        self.next = self.old = None
        self.at.make(disk)
        self.current.make(disk)

    def step(self, step):
        """A commit, or a checkpoint."""
        batch = step[1:].encode()
        if step[0] == "+":
            self.current.commit(self.disk, batch)
        else:
            self.checkpoint(batch)

    def checkpoint(self, batch):
        """The next generation's file, then its number, then the old file goes."""
        path = name_of(self.generation + 1)
        self.next = Gates(path, len(batch) + 5)
        if self.disk.has(path) is None:
            self.disk.do("create", path)
        else:
            self.disk.do("cut", path)
        self.disk.write_synced(path, 0, b"\1" + len(batch).to_bytes(4, "little") + batch + b"\0")
        self.at.commit(self.disk, (self.generation + 1).to_bytes(8, "little"))
        self.go_over()

    def go_over(self):
        """The next generation's file is the current one."""
        self.old, self.current, self.next = self.current, self.next, None
        self.generation += 1
        self.disk.do("remove", self.old.path)
        self.disk.do("sync", self.old.path)
        self.old = None

    def review(self):
        """Whether the step that failed was made."""
        if self.old is not None:
            if self.disk.has(self.old.path) is not None:
                self.disk.do("remove", self.old.path)
            self.disk.do("sync", self.old.path)
            self.old = None
            return True
        if self.next is None:
            return self.current.review(self.disk)
        if self.at.sound or not self.at.review(self.disk):
            self.next = None
            return False
        self.go_over()
        return True


class Found:
    """How many images held the batches from before a step and from after it, and what else one held."""

    def __init__(self):
        self.before = self.after = 0
        self.wrong = ""
        self.looks = []

    def look(self, disk, before, after):
        """Looks at the images of a disk."""
        all_held = [held(disk.files(choice)) for choice in range(IMAGES)]
        self.looks.append(all_held)
        for choice, batches_held in enumerate(all_held):
            if batches_held == before:
                self.before += 1
            elif batches_held == after:
                self.after += 1
            else:
                self.wrong += f", image {choice} {batches_held}"


def ran(disk, steps, found):
    """The journal is loaded, and each step made; whether a call failed."""
    before, has_failed = "", False
    try:
        journal = Journal(disk)
    except Failed:
        found.look(disk, "", "")
        return True
    for step in steps:
        after = f"{before} {step[1:]}" if step[0] == "+" else f" {step[1:]}"
        try:
            journal.step(step)
            is_made = True
        except Failed:
            has_failed = True
            found.look(disk, before, after)
            try:
                is_made = journal.review()
            except Failed:
                return True
        before = after if is_made else before
    if has_failed:
        found.look(disk, before, before)
    return has_failed


def told(script, is_verbose):
    """What is told of a script, and the number of its calls."""
    how, *steps = script.split(" ")
    found, call = Found(), 0
    while True:
        call += 1
        disk = Disk(str(call) if how == "stops" else "-", [] if how == "stops" else [call])
        found.looks = []
        if not ran(disk, steps, found):
            return f"{call - 1} calls, {found.before} images before and {found.after} after{found.wrong}", call - 1
        if is_verbose:
            print(f"{script}, call {call}: " + "; ".join("|".join(texts) for texts in found.looks))


def rows(is_verbose=False):
    """Each script with the line that must come of it, and whether the model makes as many calls as were worked out, and no image holds
    anything else."""
    for script, worked in SCRIPTS:
        line, calls = told(script, is_verbose)
        is_right = calls == worked and "image " not in line
        if not is_right:
            print(f"{script}: the model tells {line}, worked out were {worked} calls and no other image")
        yield script, line, is_right
