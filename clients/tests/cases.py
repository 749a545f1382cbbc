"""What all cases of `clients/check` stand on: programs that they start and that end with them, and limits of time.

A limit begins anew as long as what is waited for gets on, so that a machine with much at work fails no case.
"""

import ctypes
import os
import signal
import subprocess
import sys
import tempfile
import time
from pathlib import Path

CLIENTS = Path(__file__).resolve().parent.parent
# How long anything may go on without getting anywhere, and how long in any case, in seconds.
PATIENCE, MOST = 120, 1_200
# All programs that a check starts have this variable, with the check's number.
MARK = "CLIENTS_CHECK"
LIBC = ctypes.CDLL(None)
PR_SET_PDEATHSIG = 1


class Failed(Exception):
    """A case that didn't come to what is wanted."""


def want(what, found, wanted):
    """Raises `Failed` where two values differ."""
    if found != wanted:
        raise Failed(f"{what}: {found!r:.2000}, and not {wanted!r:.2000}")


class Limit:
    """A limit of time that begins anew whenever `progress` gives something else."""

    def __init__(self, progress):
        self.progress, self.last = progress, progress()
        self.end = time.monotonic() + MOST
        self.until = time.monotonic() + PATIENCE

    def is_over(self):
        """Whether it is over."""
        found, now = self.progress(), time.monotonic()
        if found != self.last:
            self.last, self.until = found, now + PATIENCE
        return now > min(self.until, self.end)


def wait_for(what, is_so, progress=lambda: None):
    """Waits until something is so, as long as it gets on."""
    limit = Limit(progress)
    while not is_so():
        if limit.is_over():
            raise Failed(f"{what} wasn't so, and nothing moved for {PATIENCE} seconds")
        time.sleep(0.02)


# Programs


def end_with_parent():
    """The system ends this process where the one that started it ends, however that ends."""
    LIBC.prctl(PR_SET_PDEATHSIG, signal.SIGKILL)


def started(words, **how):
    """A program that doesn't outlive the check."""
    return subprocess.Popen(words, preexec_fn=end_with_parent, **how)  # pylint: disable=subprocess-popen-preexec-fn


def used(process):
    """How much of the processor a process used; nothing where it is gone."""
    try:
        return Path(f"/proc/{process.pid}/stat").read_text().rpartition(")")[2].split()[11:13]
    except OSError:
        return None


def told_by(process):
    """What a process writes until it ends, which it has to while it gets on."""
    limit = Limit(lambda: used(process))
    while True:
        try:
            return process.communicate(timeout=1)
        except subprocess.TimeoutExpired:
            if limit.is_over():
                process.kill()
                raise Failed(f"{process.args} doesn't end: {process.communicate()}") from None


def status_of(process):
    """The status of a process at its end, which has to come while it gets on."""
    wait_for(f"the end of {process.args}", lambda: process.poll() is not None, lambda: used(process))
    return process.returncode


def ran(words, data=b"", status=0, **how):
    """What a program writes, and what it complains of."""
    pipe = subprocess.PIPE
    # A file and no pipe: behind its first limit of time `communicate` sends no more of what it was given.
    with tempfile.TemporaryFile() as given:
        given.write(data)
        given.seek(0)
        with started(words, stdin=given, stdout=pipe, stderr=pipe, **how) as process:
            wrote, complained = told_by(process)
    want(f"the status of {words} ({complained.decode()!r})", process.returncode, status)
    return wrote, complained.decode()


def run(*words, data=b"", status=0, environment=None):
    """What a client writes, and what it complains of."""
    return ran([sys.executable, CLIENTS / words[0], *words[1:]], data, status, env=environment)


def left_of(number):
    """The processes that a check of this number started and that are there."""
    found = []
    for process in Path("/proc").glob("[0-9]*"):
        try:
            if f"{MARK}={number}".encode() in (process / "environ").read_bytes().split(b"\0"):
                found.append(int(process.name))
        except OSError:
            continue  # it has ended, or is another's
    return [one for one in found if one != os.getpid()]
