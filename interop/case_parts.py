"""The stored cases of `crates/format_cases`: parts of its `stdin` and `stdout`, each made by a script of its own, and runs of the program."""

import subprocess
from pathlib import Path

CRATE = Path(__file__).resolve().parent.parent / "crates" / "format_cases"
PROGRAM = CRATE / "out" / "format_cases"
FORMATS, DISK, HTTP = "cases of formats", "cases of a disk", "cases of HTTP"
# In the order of the files, in which each part stands behind its line.
PARTS = (FORMATS, DISK, HTTP)


def parts(file):
    """The lines of each part of a stored file."""
    found, part = {part: [] for part in PARTS}, FORMATS
    for line in (CRATE / file).read_text().split("\n")[:-1]:
        if line in PARTS:
            part = line
        else:
            found[part].append(line)
    return found


def store(file, part, lines):
    """Puts these lines in place of a part's."""
    found = parts(file) | {part: lines}
    (CRATE / file).write_text("".join(f"{line}\n" for part in PARTS for line in (part, *found[part])))


def run(program, part, cases):
    """What the program writes of some cases of a part."""
    text = "".join(f"{line}\n" for line in (part, *cases))
    done = subprocess.run([program], input=text, capture_output=True, encoding="utf-8", timeout=120)
    if done.returncode:
        print(f"the program ended with {done.returncode}: {done.stderr}")
    return done.stdout.split("\n")[1:-1]
