"""A service of `archappl` over folders of its own, for tests."""

import os
import socket
import subprocess
import tempfile
from pathlib import Path

from cases import Failed, ran, started, status_of, used, wait_for, want


class Service:
    """A service, from its start to its end, and once more if wanted."""

    def __init__(self, program, workers=4):
        self.program = program
        self.workers = workers
        self.room = tempfile.TemporaryDirectory(prefix="clients-check-")
        self.folder = Path(self.room.name)
        self.environment = {name: text for name, text in os.environ.items() if not name.startswith("ARCHAPPL_")}
        for name in ("SITE", "SHORT_TERM", "MEDIUM_TERM", "LONG_TERM"):
            self.environment[f"ARCHAPPL_{name}_FOLDER"] = str(self.folder / name.lower())
        self.ports = free_ports()
        self.address = f"127.0.0.1:{self.ports[0]}:{self.ports[1]}"
        self.log = self.folder / "told"
        self.process = None

    def __enter__(self):
        return self.start()

    def __exit__(self, *_):
        self.kill()
        self.room.cleanup()

    def start(self):
        """Starts it, and waits until its doors are open."""
        words = [self.program, "serve", *map(str, self.ports), str(self.workers), "0"]
        with self.log.open("wb") as log:
            self.process = started(words, stdin=subprocess.DEVNULL, stdout=log, stderr=log, env=self.environment)
        wait_for("the service listens", self.listens, lambda: used(self.process))
        return self

    def listens(self):
        """Whether its doors are open."""
        if b"listening" in self.log.read_bytes():
            return True
        if self.process.poll() is not None:
            raise Failed(f"the service doesn't listen: {self.log.read_text()}")
        return False

    def kill(self):
        """Kills it, as a power cut would."""
        if self.process and self.process.poll() is None:
            self.process.kill()
            self.process.wait()

    def stop(self):
        """Ends it by the file `stop`."""
        stop = self.folder / "site" / "stop"
        stop.touch()
        want("the status of the service", status_of(self.process), 0)
        stop.unlink()

    def archappl(self, *words, data=b""):
        """What another command writes over the same folders, where the service doesn't run."""
        return ran([self.program, *words], data, env=self.environment)[0]


def free_ports(number=2):
    """Ports of the loopback that nobody has."""
    listeners = [socket.create_server(("127.0.0.1", 0)) for _ in range(number)]
    ports = [listener.getsockname()[1] for listener in listeners]
    for listener in listeners:
        listener.close()
    return ports
