"""A small server of Channel Access over the loopback, for tests.

It answers searches over UDP, and over TCP what a client of monitors asks: versions, channels, subscriptions, a
read, an echo. The layouts are those of the Channel Access protocol specification, written apart from the client.
"""

import socket
import struct
import threading

VERSION, EVENT_ADD, EVENT_CANCEL, SEARCH, CLEAR, READ_NOTIFY, CREATE, ACCESS, ECHO = 0, 1, 2, 6, 12, 15, 18, 22, 23
MINOR = 13
NORMAL = 1
# By the number of the type: the padding between the time stamp and the value, and the form of an element.
FORMS = {0: (0, "40s"), 1: (2, "h"), 2: (0, "f"), 3: (2, "H"), 4: (3, "B"), 5: (0, "i"), 6: (4, "d")}
STRING, SHORT, FLOAT, ENUM, CHAR, LONG, DOUBLE = range(7)
TIME, GRAPHIC = 14, 21
EPOCH = 631_152_000
# Of what a subscription may be told: values, the archive's values, alarms, properties.
VALUES, PROPERTIES = 1 | 2 | 4, 8


def message(command, kind=0, count=0, first=0, second=0, payload=b""):
    """A message: a head of 16 bytes, or 24 where it is long, and a payload of a multiple of 8 bytes."""
    payload += bytes(-len(payload) % 8)
    if len(payload) < 0xFFF0 and count < 0xFFFF:
        return struct.pack(">HHHHII", command, len(payload), kind, count, first, second) + payload
    return struct.pack(">HHHHIIII", command, 0xFFFF, kind, 0, first, second, len(payload), count) + payload


def messages(data):
    """The messages of a datagram: command, type, count, the two parameters and the payload."""
    while len(data) >= 16:
        command, size, kind, count, first, second = struct.unpack_from(">HHHHII", data)
        yield command, kind, count, first, second, data[16 : 16 + size]
        data = data[16 + size :]


class Channel:
    """A variable, its newest value, and who subscribed to it."""

    def __init__(self, kind, room):
        self.kind = kind
        self.room = room
        self.elements, self.moment, self.severity, self.status = [], (0, 0), 0, 0
        self.unit, self.decimals = b"", 0
        self.subscriptions = []

    def value(self, kind):
        """The payload and the number of elements of a type with or without the time."""
        elements = list(self.elements)
        padding, form = FORMS[self.kind]
        if kind >= GRAPHIC:
            elements = elements[:1]
        data = b"".join(struct.pack(f">{form}", one) for one in elements)
        if kind >= GRAPHIC:
            # Decimals of floats alone, the unit, six limits, and of one byte a byte more.
            decimals = struct.pack(">hh", self.decimals, 0) if self.kind in (FLOAT, DOUBLE) else b""
            limits = bytes(6 * struct.calcsize(f">{form}") + (self.kind == CHAR))
            data = struct.pack(">HH", self.status, self.severity) + decimals + struct.pack("8s", self.unit) + limits + data
        elif kind >= TIME:
            data = struct.pack(">HHII", self.status, self.severity, *self.moment) + bytes(padding) + data
        return data, len(elements)


class Peer:
    """A connection of a client."""

    def __init__(self, server, link):
        self.server = server
        self.link = link
        self.lines = link.makefile("rb")
        self.lock = threading.Lock()
        self.channels = {}

    def send(self, data):
        """Sends messages whole, since two threads may do so."""
        with self.lock:
            try:
                self.link.sendall(data)
            except OSError:
                pass

    def close(self):
        """Ends the connection."""
        try:
            self.link.shutdown(socket.SHUT_RDWR)
        except OSError:
            pass
        self.link.close()

    def serve(self):
        """Answers until the connection ends."""
        self.send(message(VERSION, 0, MINOR))
        try:
            while head := self.lines.read(16):
                command, size, kind, count, first, second = struct.unpack(">HHHHII", head)
                if size == 0xFFFF:
                    size, count = struct.unpack(">II", self.lines.read(8))
                self.answer(command, kind, count, first, second, self.lines.read(size))
        except (OSError, struct.error, ValueError):
            pass

    def answer(self, command, kind, count, first, second, payload):
        """Answers one message."""
        if command == CREATE:
            self.create(first, payload.split(b"\0")[0].decode())
        elif command == EVENT_ADD:
            with self.server.lock:
                channel = self.channels[first]
                mask = struct.unpack_from(">H", payload, 12)[0]
                channel.subscriptions.append((self, kind, second, mask))
                self.send(self.event(channel, kind, second))
        elif command == EVENT_CANCEL:
            with self.server.lock:
                found = self.channels[first].subscriptions
                found[:] = [one for one in found if one[:3] != (self, kind, second)]
            self.send(message(EVENT_ADD, kind, count, NORMAL, second))
        elif command == READ_NOTIFY:
            data, number = self.channels[first].value(kind)
            self.send(message(READ_NOTIFY, kind, number, NORMAL, second, data))
        elif command == CLEAR:
            self.channels.pop(first)
            self.send(message(CLEAR, 0, 0, first, second))
        elif command == ECHO:
            self.send(message(ECHO))

    def create(self, client_id, name):
        """A channel for a name that is there."""
        channel = self.server.channels.get(name)
        if channel is None:
            return
        server_id = len(self.channels) + 1
        self.channels[server_id] = channel
        created = message(CREATE, channel.kind, channel.room, client_id, server_id)
        self.send(message(ACCESS, 0, 0, client_id, 3) + created)

    @staticmethod
    def event(channel, kind, subscription):
        """The message of a change."""
        data, number = channel.value(kind)
        return message(EVENT_ADD, kind, number, NORMAL, subscription, data)


class ChannelServer:
    """Variables by name, and the sockets by which they are served."""

    def __init__(self):
        self.channels = {}
        self.lock = threading.RLock()
        self.search_port = None
        self.is_open = threading.Event()
        self.threads = []
        self.peers = []

    def add(self, name, kind, elements, moment, room=None):
        """A variable with its first value; elements are a list, a moment is nanoseconds since 1970."""
        self.channels[name] = Channel(kind, room or len(elements))
        self.post(name, elements, moment)

    def start(self):
        """Opens the sockets: the port for searches stays the same from one start to the next."""
        udp = socket.socket(socket.AF_INET, socket.SOCK_DGRAM)
        udp.bind(("127.0.0.1", self.search_port or 0))
        self.search_port = udp.getsockname()[1]
        tcp = socket.create_server(("127.0.0.1", 0))
        self.is_open.set()
        self.threads = [threading.Thread(target=work, args=(udp, tcp), daemon=True)
                        for work in (self.search, self.accept)]
        for thread in self.threads:
            thread.start()

    def stop(self):
        """Closes them, and all connections with them."""
        self.is_open.clear()
        for thread in self.threads:
            thread.join()
        with self.lock:
            peers, self.peers = self.peers, []
            for channel in self.channels.values():
                channel.subscriptions.clear()
        for peer in peers:
            peer.close()

    def search(self, udp, tcp):
        """Answers searches of names that are here."""
        port = tcp.getsockname()[1]
        # It looks up now and then whether it is to end, since a socket that another thread closes goes on waiting.
        udp.settimeout(0.1)
        with udp:
            while self.is_open.is_set():
                try:
                    data, sender = udp.recvfrom(65_536)
                except TimeoutError:
                    continue
                if reply := self.found(data, port):
                    udp.sendto(reply, sender)

    def found(self, data, port):
        """The reply to a datagram of searches; none where no name is here."""
        begin = reply = b""
        for command, kind, _, first, second, payload in messages(data):
            if command == VERSION:
                begin = message(VERSION, kind, MINOR, first)
            elif command == SEARCH and payload.split(b"\0")[0].decode() in self.channels:
                reply += message(SEARCH, port, 0, 0xFFFFFFFF, second, struct.pack(">H", MINOR))
        return reply and begin + reply

    def accept(self, _, tcp):
        """Takes connections."""
        tcp.settimeout(0.1)
        with tcp:
            while self.is_open.is_set():
                try:
                    link, _ = tcp.accept()
                except TimeoutError:
                    continue
                peer = Peer(self, link)
                with self.lock:
                    self.peers.append(peer)
                threading.Thread(target=peer.serve, daemon=True).start()

    def post(self, name, elements, moment, severity=0, status=0):
        """Gives a variable a new value, and tells who subscribed."""
        with self.lock:
            channel = self.channels[name]
            channel.elements = elements
            seconds, nanos = divmod(moment, 1_000_000_000)
            channel.moment = (seconds - EPOCH, nanos)
            channel.severity, channel.status = severity, status
            self.tell(channel, VALUES)

    def describe(self, name, unit, decimals=0):
        """Gives a variable a unit, as bytes, and decimals, and tells who subscribed to them."""
        with self.lock:
            channel = self.channels[name]
            channel.unit, channel.decimals = unit, decimals
            self.tell(channel, PROPERTIES)

    @staticmethod
    def tell(channel, which):
        """Tells those that subscribed to changes of this kind."""
        for peer, kind, subscription, mask in channel.subscriptions:
            if mask & which:
                peer.send(peer.event(channel, kind, subscription))

    def subscribers(self, name):
        """How many subscriptions to its values a variable has."""
        with self.lock:
            return sum(bool(mask & VALUES) for _, _, _, mask in self.channels[name].subscriptions)

    def environment(self):
        """The variables by which a client finds this server and no other."""
        return {"EPICS_CA_ADDR_LIST": "127.0.0.1", "EPICS_CA_AUTO_ADDR_LIST": "NO",
                "EPICS_CA_SERVER_PORT": str(self.search_port)}
