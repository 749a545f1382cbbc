"""The folders of a case, and runs of the program over them, with inputs that break off and outputs that nobody takes."""

import os
import re
import socket
import struct
import subprocess
import threading
from pathlib import Path

from comparing import Difference
from pb_model import Run

STORES = ("sts", "mts", "lts")
# The file of each folder that tells of which archive it is.
MARK = "archive-mark"
SECONDS = 60
# A pipe keeps writes of at most so many bytes apart.
MOST_APART = 4096


class CasePlace:
    """A folder in which the program takes the folders that it takes by itself."""

    def __init__(self, program, folder):
        self.program = program
        self.folder = Path(folder)
        self.environment = {name: text for name, text in os.environ.items() if not name.startswith("ARCHAPPL_")}

    def start(self, words, before=(), **streams):
        """Starts the program."""
        return subprocess.Popen([*before, self.program, *words], cwd=self.folder, env=self.environment, **streams)

    def run(self, words, data=b"", most=None, stdin="", stdout="", stderr="", before=()):
        """A run over some input, which comes in pieces of so many bytes where that is said."""
        with Source(data, most, stdin) as source, Sink(stdout) as sink, Sink(stderr) as complaints:
            with self.start(words, before, stdin=source.given, stdout=sink.given, stderr=complaints.given) as process:
                giving = threading.Thread(target=source.give)
                giving.start()
                try:
                    output, complaint = process.communicate(timeout=SECONDS)
                finally:
                    process.kill()
                    giving.join()
        return Run(process.returncode, output or b"", complaint or b"")

    def files(self):
        """All files of the three stores but the marks of their folders, by their paths."""
        found = (path for store in STORES for path in (self.folder / store).rglob("*") if path.is_file())
        return {str(path.relative_to(self.folder)): path.read_bytes() for path in found if path.name != MARK}


class Source:
    """What a program is given to read: all at once, in pieces, behind which the connection is reset, or a folder."""

    def __init__(self, data, most, way):
        self.data = data
        self.most = most
        self.way = way

    def __enter__(self):
        self.to = None
        if self.way == "folder":
            self.given = os.open("/", os.O_RDONLY)
        elif self.way == "reset":
            self.given = reset_connection(self.data)
        else:
            self.given, self.to = os.pipe2(os.O_CLOEXEC | (os.O_DIRECT if self.most else 0))
        return self

    def give(self):
        """Writes the input to a program that has begun. One that ends before it has read all is not at fault."""
        if self.to is None:
            return
        os.close(self.given)
        self.given = None
        try:
            for at in range(0, len(self.data), self.most or MOST_APART):
                os.write(self.to, self.data[at : at + (self.most or MOST_APART)])
        except BrokenPipeError:
            pass
        os.close(self.to)
        self.to = None

    def __exit__(self, *_):
        for number in (self.given, self.to):
            if number is not None:
                os.close(number)


def reset_connection(data):
    """A connection that gives these bytes, and then an error."""
    with socket.create_server(("127.0.0.1", 0)) as server:
        here = socket.create_connection(server.getsockname())
        there, _ = server.accept()
    there.sendall(data)
    there.setsockopt(socket.SOL_SOCKET, socket.SO_LINGER, struct.pack("ii", 1, 0))
    there.close()
    return here.detach()


class Sink:
    """What takes a program's output: all of it, or nothing, since it is full or nobody reads it."""

    def __init__(self, way):
        self.way = way

    def __enter__(self):
        if self.way == "full":
            self.given = os.open("/dev/full", os.O_WRONLY)
        elif self.way == "closed":
            reader, self.given = os.pipe()
            os.close(reader)
        else:
            self.given = subprocess.PIPE
        return self

    def __exit__(self, *_):
        if self.given != subprocess.PIPE:
            os.close(self.given)


# Services

# A line of a service's log, by its time, and why one ends that a file asks to.
LOG = re.compile(rb"archappl: [0-9-]{10}T[0-9:]{8}Z (.*\n)")
ENDS = b"to end, since site/stop is there\n"


class Service:
    """A service over a place's folders, by two free ports, until it is to end."""

    def __init__(self, place, before=()):
        self.place = place
        self.before = before

    def __enter__(self):
        self.ports = free_ports(2)
        feeds, requests = self.ports
        words = ["serve", str(feeds), str(requests), "1", "0"]
        streams = {"stdin": subprocess.DEVNULL, "stdout": subprocess.PIPE, "stderr": subprocess.PIPE}
        self.process = self.place.start(words, self.before, bufsize=0, **streams)
        self.told = self.process.stderr.readline()
        if not LOG.fullmatch(self.told) or b"Z listening on " not in self.told:
            raise Difference(f"a service tells {self.told}")
        return self

    def asked(self, kind, data):
        """What is written to a connection of a feed, or of a request, that sends this and no more."""
        port = self.ports[0] if kind == "feed" else self.ports[1]
        with socket.create_connection(("127.0.0.1", port), timeout=SECONDS) as link:
            link.sendall(data)
            link.shutdown(socket.SHUT_WR)
            return b"".join(iter(lambda: link.recv(65536), b""))

    def end(self):
        """Asks it to end. It gives the run."""
        stop = self.place.folder / "site" / "stop"
        stop.touch()
        output, complaint = self.process.communicate(timeout=SECONDS)
        stop.unlink()
        if ENDS not in LOG.findall(complaint):
            raise Difference(f"a service that is to end tells {complaint}")
        return Run(self.process.returncode, output, LOG.sub(b"", complaint))

    def __exit__(self, *_):
        self.process.kill()
        self.process.communicate()


def free_ports(number):
    """Ports that nothing uses now."""
    servers = [socket.create_server(("127.0.0.1", 0)) for _ in range(number)]
    ports = [server.getsockname()[1] for server in servers]
    for server in servers:
        server.close()
    return ports
