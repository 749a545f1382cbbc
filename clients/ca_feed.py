#!/usr/bin/python3
"""Brings variables of Channel Access into a service of `archappl`.

Usage: clients/ca_feed.py [--server HOST:FEEDPORT:HTTPPORT] [--file NAMES] [NAME ..]

Subscribes to each variable, and sends its changes once a second as samples, with the time stamp, the severity
and the status of the record; a variable that the archive doesn't have is registered first, with the type that
the channel has. The unit and the decimals (EGU and PREC) go with the first sample of each hour, and with the next
one where they change. A sample is kept until the service has told that it is durable, and is sent again after a
lost connection: the archive drops what it has already. Channels that are lost come back by themselves. Ctrl-C or
SIGTERM ends it, once all is durable or --patience is over.

Where to look for channels is told by EPICS_CA_ADDR_LIST and the other variables of Channel Access.
"""

import argparse
import queue
import signal
import sys
import threading
import time
from collections import deque

import archappl
import pb_stream
from archappl import ArchiverError, FeedRefused, Refused

try:
    import ca_monitors
    from ca_monitors import CHANGED, CONNECTED, DESCRIBED, LOST
except ImportError as missing:
    sys.exit(f"ca_feed: {missing} (apt-get install python3-pyepics)")

# A line of a stream may have so many bytes.
LONGEST_LINE = 16_777_216
# The archive drops samples that are further ahead of its clock.
AHEAD = 1_800 * pb_stream.SECOND


def tell(line):
    """A line for whoever looks on."""
    print(f"ca_feed: {line}", file=sys.stderr, flush=True)


def some(names):
    """A number of names, and the first of them."""
    names = sorted(names)
    return f"{len(names)} of them: {', '.join(names[:5])}{', ..' if len(names) > 5 else ''}"


class Variable:
    """A variable, and its samples that weren't told durable."""

    def __init__(self, name):
        self.name = name
        self.type = None
        self.last = -1
        # How many samples had a time stamp that an archive doesn't take.
        self.unusable = 0
        # Whether the archive has it under its type; why it is left out, if it is.
        self.is_registered = False
        self.left_out = None
        # The unit and the decimals, and the hour with whose first sample they went, and what they were then.
        self.about = []
        self.went = None
        # The year and the line of each sample.
        self.waiting = deque()

    def header(self, year):
        """The header of a chunk."""
        return pb_stream.Header(self.type, self.name, year, None, self.about)

    def take(self, t, values, severity, status):
        """Has one sample more, if the archive would take it. After each connection the last one comes once more."""
        if t == self.last:
            return
        # A record that was never processed has the time stamp 1990; one of the future would keep all later ones out.
        year = pb_stream.year_of(t)
        if t < self.last or year < pb_stream.FIRST_YEAR or t > time.time_ns() + AHEAD:
            self.unusable += 1
            return
        header = self.header(year)
        went, self.went = self.went, (t // archappl.HOUR, self.about)
        field_values = self.about if went != self.went else ()
        line = pb_stream.sample_line(header, t, ca_monitors.value_of(header, values), severity, status, field_values)
        if len(line) > LONGEST_LINE:
            self.leave_out(f"a sample has {len(line)} bytes, more than a line may have")
            return
        self.last = t
        self.waiting.append((year, line))

    def leave_out(self, why):
        """Takes no more samples of it."""
        self.left_out = why
        self.waiting.clear()
        tell(f"{self.name} is left out: {why}")

    def chunks(self):
        """How many samples each chunk of what waits has, and its bytes: one for each year."""
        lines = {}
        for year, line in self.waiting:
            lines.setdefault(year, []).append(line)
        for year, found in lines.items():
            yield len(found), pb_stream.header_line(self.header(year)) + b"".join(found) + b"\n"


class Bridge:
    """The variables, where they come from, and where they go."""

    def __init__(self, options):
        self.options = options
        self.events = queue.SimpleQueue()
        self.variables = {name: Variable(name) for name in options.names}
        self.monitors = ca_monitors.Monitors(options.names, self.events)
        self.not_connected = set(options.names)
        self.durable = self.given_up = 0
        self.trouble = None

    # Channel Access

    def take(self):
        """Takes what came from Channel Access."""
        lost = set()
        while True:
            try:
                what, name, told = self.events.get_nowait()
            except queue.Empty:
                break
            if what == CONNECTED:
                self.connected(name)
            elif what == LOST:
                lost.add(name)
                self.not_connected.add(name)
            elif what == DESCRIBED:
                self.variables[name].about = ca_monitors.about(*told)
            elif what == CHANGED and self.variables[name].left_out is None:
                self.variables[name].take(*ca_monitors.sample(*told))
        lost &= self.not_connected
        if lost:
            tell(f"channels are lost, {some(lost)}")
        self.bound()

    def connected(self, name):
        """Subscribes to a channel that is there."""
        variable = self.variables[name]
        self.not_connected.discard(name)
        found = self.monitors.subscribe(name)
        if found is None:
            variable.leave_out("its channel is of no known type")
        elif variable.type is None:
            variable.type = found
        elif variable.type != found:
            variable.leave_out(f"its channel was {pb_stream.TYPES[variable.type]}, and is {pb_stream.TYPES[found]}")

    def waiting(self):
        """How many samples wait."""
        return sum(len(variable.waiting) for variable in self.variables.values())

    def bound(self):
        """Gives the oldest samples of the longest lists up where more wait than may."""
        over = self.waiting() - self.options.most
        while over > 0:
            longest = max(self.variables.values(), key=lambda variable: len(variable.waiting))
            count = min(over, max(1, len(longest.waiting) // 10))
            for _ in range(count):
                longest.waiting.popleft()
            over -= count
            self.given_up += count
            tell(f"{longest.name}: more than {self.options.most} samples wait, so {count} old ones are given up")

    # The archive

    def register(self):
        """Registers what the archive doesn't have."""
        for variable in self.variables.values():
            if variable.type is None or variable.is_registered or variable.left_out:
                continue
            type_name = pb_stream.TYPES[variable.type]
            try:
                found = self.type_in_archive(variable.name, type_name)
            except Refused as refused:
                if refused.status >= 500:
                    raise
                variable.leave_out(f"the archive doesn't take it: {refused}")
                continue
            if found != type_name:
                variable.leave_out(f"the archive has it as {found}, and its channel is {type_name}")
            variable.is_registered = True
            # An archive that is new knows no unit.
            variable.went = None

    def type_in_archive(self, name, type_name):
        """The type under which the archive has a variable, which is registered where it isn't there."""
        try:
            return archappl.details(self.options.server, name)["type"]
        except Refused as refused:
            if refused.word != "E26":
                raise
        archappl.archive(self.options.server, name, type_name)
        return type_name

    def send(self):
        """Sends what waits as one feed, and forgets what was told durable."""
        chunks = [(variable, count, data) for variable in self.variables.values() if variable.is_registered
                  for count, data in variable.chunks()]
        if not chunks:
            return
        try:
            told = archappl.send(self.options.server, (data for _, _, data in chunks))
        except FeedRefused as refused:
            self.refused(chunks, refused)
            return
        self.durable += told.durable
        for (variable, count, _), (_, _, dropped) in zip(chunks, told.chunks):
            self.forget(variable, count)
            if dropped:
                # The archive has them already, maybe without the unit.
                variable.went = None

    def refused(self, chunks, refused):
        """Gives the chunk of a bad line up; those before it are durable. After a fault of the disk all are kept."""
        if refused.told.last.split()[0] != "refused":
            raise refused
        done = len(refused.told.chunks)
        self.durable += refused.told.sum(0)
        for variable, count, _ in chunks[: done + 1]:
            self.forget(variable, count)
        if done < len(chunks):
            self.given_up += chunks[done][1]
            tell(f"{chunks[done][0].name}: {chunks[done][1]} samples are given up: {refused}")

    @staticmethod
    def forget(variable, count):
        """The first samples of a variable needn't be kept any more."""
        for _ in range(count):
            variable.waiting.popleft()

    # Both

    def round(self):
        """Takes what came, and brings it to the archive: whether the archive could be asked."""
        self.take()
        try:
            self.register()
            self.send()
        except ArchiverError as error:
            if str(error) != self.trouble:
                tell(f"{error}; {self.waiting()} samples wait")
            self.trouble = str(error)
            # What comes back may be another archive.
            for variable in self.variables.values():
                variable.is_registered = False
            return False
        if self.trouble:
            tell("the service is there again")
        self.trouble = None
        return True

    def run(self, is_over):
        """Goes on until it is told to end, and tells whether all is durable then."""
        told_at = time.monotonic() + 10
        while not is_over.wait(self.options.every):
            self.round()
            if told_at and time.monotonic() > told_at:
                told_at = None
                if self.not_connected:
                    tell(f"there are no channels of {some(self.not_connected)}")
        self.take()
        self.monitors.close()
        until = time.monotonic() + self.options.patience
        while not (self.round() and not self.waiting()) and time.monotonic() < until:
            time.sleep(0.2)
        left = self.waiting()
        unusable = sum(variable.unusable for variable in self.variables.values())
        tell(f"{self.durable} samples are durable, {left} weren't told durable, {self.given_up} were given up, "
             f"{unusable} had a time stamp that no archive takes")
        return left == 0


def options_of_words():
    """The words of the command line."""
    parser = argparse.ArgumentParser(description=__doc__.split("\n")[0])
    archappl.add_server(parser)
    parser.add_argument("--file", help="a file with a name in each line; empty ones and those with # are passed over")
    parser.add_argument("--every", type=float, default=1.0, metavar="SECONDS", help="how often samples are sent")
    parser.add_argument("--most", type=int, default=1_000_000, help="so many samples may wait; older ones are given up")
    parser.add_argument("--patience", type=float, default=10.0, metavar="SECONDS", help="how long it tries at its end")
    parser.add_argument("names", nargs="*", metavar="NAME")
    options = parser.parse_args()
    if options.file:
        try:
            with open(options.file, encoding="utf-8") as lines:
                options.names += [line.strip() for line in lines if line.strip() and not line.startswith("#")]
        except (OSError, UnicodeDecodeError) as error:
            parser.error(str(error))
    options.names = list(dict.fromkeys(options.names))
    if not options.names:
        parser.error("no variables are named")
    return options


def main():
    """Runs until it is told to end."""
    options = options_of_words()
    is_over = threading.Event()

    def end(number, _):
        """The first signal ends it in order, a second one at once."""
        is_over.set()
        signal.signal(number, signal.SIG_DFL)

    for number in (signal.SIGINT, signal.SIGTERM):
        signal.signal(number, end)
    return 0 if Bridge(options).run(is_over) else 1


if __name__ == "__main__":
    sys.exit(main())
