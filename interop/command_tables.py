"""The tables of `command_cases`: lines of streams by their names, rows, and cases of acts with what each must come to."""

import re
from dataclasses import dataclass, field
from pathlib import Path

TABLES = Path(__file__).resolve().parent / "command_cases"


def of_text(text):
    """Bytes as a table writes them: ASCII, with `\\n` and `\\x` and two digits for others."""
    return text.encode().decode("unicode_escape").encode("latin-1")


def rows(name):
    """The rows of a table of columns, behind the one of their titles."""
    lines = (TABLES / name).read_text().splitlines()
    return [line.split("\t") for line in lines[1:]]


LINES = {name: of_text(text) for name, text, _ in rows("lines.tsv")}


def stream(names):
    """The lines of these names, each as often as it says behind a `*`, or so many of its first bytes as it says behind a `/`."""
    text = bytearray()
    for word in names.split():
        name, mark, number = re.fullmatch(r"(.+?)(?:([*/])(\d+))?", word).groups()
        line = LINES[name]
        text += line * int(number or 1) if mark != "/" else line[: int(number)]
    return bytes(text)


@dataclass
class Act:
    """An act of a case: its first word, what stands behind it, and the lines below it, as pairs of words and texts."""

    word: str
    text: str
    below: list = field(default_factory=list)

    def texts(self, word):
        """The texts of the lines that begin with a word."""
        return [text for first, text in self.below if first == word]

    def text_of(self, word, default=""):
        """The text of the line that begins with a word."""
        return next(iter(self.texts(word)), default)

    @property
    def input(self):
        """What a run reads."""
        return stream(self.text_of("input"))

    @property
    def status(self):
        """The status that it ends with."""
        return int(self.text_of("status", "0"))

    @property
    def output(self):
        """What it writes."""
        written = "".join(f"{text}\n" for text in self.texts("output"))
        return written.encode() + stream(self.text_of("lines"))

    @property
    def complaint(self):
        """What it writes to standard error, where that is taken."""
        return "".join(f"archappl: {text}\n" for text in self.texts("complaint")).encode()


@dataclass
class Case:
    """Acts over one archive, one after another."""

    name: str
    acts: list = field(default_factory=list)


def cases(name):
    """The cases of a table. How far a line stands in says what it belongs to."""
    found = []
    for line in (TABLES / name).read_text().splitlines():
        word, _, text = line.strip().partition(" ")
        depth = len(line) - len(line.lstrip())
        if word in ("", "#"):
            continue
        if depth == 0:
            found.append(Case(text))
        elif depth == 2:
            found[-1].acts.append(Act(word, text))
        else:
            found[-1].acts[-1].below.append((word, text))
    return found
