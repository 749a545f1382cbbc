"""What the script of commands of `command_cases/script.txt` leaves behind some of its steps, and its rest."""

import comparing
from comparing import Difference, agree
from pb_model import Run, read_stream


def fronts(text):
    """What may be given of a variable: the header in front of all its samples, and its lines up to each of them."""
    chunks, _ = read_stream(text)
    found, front = [chunks[0].line], b""
    for number, chunk in enumerate(chunks):
        front += (b"\n" if number else b"") + chunk.line
        for _, line in chunk.samples:
            front += line
            found.append(front)
    agree("the last front", found[-1], text)
    return found


def samples_in(place, act, least, most):
    """How many samples of a variable are given: a front of them, of so many at least and at most. As long as none was
    durable there may be no row."""
    found = place.run(act.text.split(" "))
    if found.status == 4 and least == 0 and not found.output:
        return None
    whole = fronts(act.output)
    agree("status of get", found.status, 0)
    if found.output not in whole[least : most + 1]:
        raise Difference(f"{act.text}: not {least} to {most} samples: {found.output}")
    return whole.index(found.output)


def look(place, steps, least, most):
    """Commands that only read: of each variable there is a front of its samples, which `status` counts; and `check` finds
    each file whole that `status` counts."""
    gets = [step.act for step in steps if step.words[0] == "get"]
    counts = [samples_in(place, act, *ends) for act, *ends in zip(gets, least, most)]
    status, check = place.run(["status"]), place.run(["check"])
    agree("statuses", (status.status, check.status), (0, 0))
    rows = [line.split(" files ") for line in status.output.decode().splitlines()]
    titles = ("A:B SCALAR_INT", "C:D SCALAR_DOUBLE")
    wanted = [f"{title} running samples {count}" for title, count in zip(titles, counts) if count is not None]
    agree("the rows", [row for row, _ in rows], wanted)
    files = check.output.decode().splitlines()
    agree("files that are whole", [" ok " in line for line in files], [True] * len(files))
    agree("files", len(files), sum(int(number) for _, numbers in rows for number in numbers.split(" ")))


def durable(steps, done):
    """How many samples are durable once so many steps were done."""
    return steps[done - 1].durable if done else [0, 0]


def go_on(place, steps, done):
    """The rest of the script. Moves that are asked for once more tell of those alone that were left."""
    for number, step in enumerate(steps[done:], done):
        found = place.run(step.words, step.act.input)
        agree(f"status of {step.act.text}", found.status, 0)
        if number > done or step.words != ["etl"]:
            comparing.compare_runs(found, Run(0, step.act.output, b""))
    look(place, steps, *[durable(steps, len(steps))] * 2)
