"""The loads of load.py: connections of ACME, in a process of their own, which never wait for one of them."""

import collections
import itertools
import multiprocessing
import os
import random
import selectors
import socket
import struct
import time

from peer import HEAD, HEARTBEAT, Peer, frame

PORT = 9283
READ, WRITE = selectors.EVENT_READ, selectors.EVENT_WRITE
MIB = 1 << 20

# What a row of a listing and the end of one have in common, 9 bytes each.
ROW, END = b"ACME row ", b"\x81\x07ACME ok"

# Texts of 1 MiB: one that is JSON and no frame of OCPP, and one of as many readings as it has room for.
NO_FRAME = "[" + "0," * ((MIB - 3) // 2) + "0]"
METER_VALUES = (
    '[2,"3","MeterValues",{"connectorId":1,"meterValue":[{"timestamp":"2026-01-01T00:00:00Z","sampledValue":[%s]}]}]'
)
SMALLEST = '{"value":"1"}'
STATUS = '[2,"4","StatusNotification",{"connectorId":1,"errorCode":"NoError","status":"Available"}]'
READINGS = METER_VALUES % ",".join([SMALLEST] * ((MIB - len(METER_VALUES)) // (len(SMALLEST) + 1)))


class Link:
    """A connection of a load. It sends its head, and once that is answered what it is given."""

    buffer = bytearray(8 + MIB)
    room = memoryview(buffer)[8:]

    def __init__(self, head):
        self.head = head
        self.left = memoryview(head)
        self.answer = None
        self.has_ended = False
        self.rows = self.ends = 0
        self.last = bytes(8)
        self.stream = socket.socket(socket.AF_INET, socket.SOCK_STREAM | socket.SOCK_NONBLOCK)
        self.stream.setsockopt(socket.IPPROTO_TCP, socket.TCP_NODELAY, 1)
        # it ends by a reset, so that the system keeps no port for it
        self.stream.setsockopt(socket.SOL_SOCKET, socket.SO_LINGER, struct.pack("ii", 1, 0))
        self.stream.connect_ex(("127.0.0.1", PORT))

    def give(self):
        """Sends of what is left what the system takes."""
        try:
            self.left = self.left[self.stream.send(self.left) :]
        except BlockingIOError:
            pass
        except OSError:
            self.has_ended = True

    def hear(self):
        """Reads the answer to the head."""
        try:
            words = self.stream.recv(4096).split(b" ", 2)
        except BlockingIOError:
            return
        except OSError:
            words = []
        self.answer = words[1].decode() if len(words) > 2 else "end"
        self.has_ended = self.answer != "101"

    def take(self):
        """Reads once, and counts the rows and the ends of listings."""
        try:
            size = self.stream.recv_into(self.room)
        except BlockingIOError:
            return
        except OSError:
            size = 0
        if size == 0:
            self.has_ended = True
            return
        # the last bytes before, so that what is cut in two counts too
        self.buffer[:8] = self.last
        self.rows += self.buffer.count(ROW, 0, size + 8)
        self.ends += self.buffer.count(END, 0, size + 8)
        self.last = bytes(self.buffer[size : size + 8])


class Crowd:
    """The connections of a load."""

    def __init__(self):
        self.selector = selectors.DefaultSelector()
        self.links = []

    def open(self, head, is_late=False):
        """A new connection. Its head is sent as soon as it is connected, or later."""
        link = Link(head)
        if not is_late:
            link.give()
        self.selector.register(link.stream, WRITE if link.left else READ, link)
        return link

    def close(self, link):
        self.selector.unregister(link.stream)
        link.stream.close()

    def replace(self, link):
        """Connects anew in place of one that has ended."""
        self.close(link)
        self.links[self.links.index(link)] = self.open(link.head)

    def listen(self, link):
        link.take()
        if link.has_ended:
            self.close(link)

    def greet(self, link):
        """Goes on with a handshake."""
        if not link.left:
            link.hear()
            return
        link.give()
        if not link.left:
            self.selector.modify(link.stream, READ, link)

    def connect(self, paths, at_once=200, seconds=60, pause=0):
        """Connects under each path, so many at a time. The first of them send their heads after a pause, if there is
        one. How many were answered what, and after which time the last was admitted."""
        heads = (HEAD.format(path).encode() for path in paths)
        began, took, answers = time.perf_counter(), 0.0, collections.Counter()
        waiting = {self.open(head, pause > 0) for head in itertools.islice(heads, at_once)}
        time.sleep(pause)
        while waiting and time.perf_counter() < began + seconds:
            for key, _ in self.selector.select(1):
                link = key.data
                if link not in waiting:
                    self.listen(link)
                    continue
                self.greet(link)
                if link.answer or link.has_ended:
                    waiting.remove(link)
                    waiting.update(self.open(head) for head in itertools.islice(heads, 1))
                    answers[link.answer or "end"] += 1
                    if link.has_ended:
                        self.close(link)
                    else:
                        self.links.append(link)
                        took = time.perf_counter() - began
        for link in waiting:
            answers["none"] += 1
            self.close(link)
        return answers, took

    def read(self, links, ends, patience):
        """Reads until each of these links has so many ends of listings or has ended, or nothing comes for so many
        seconds. The fewest rows, the fewest ends, and how many links have ended."""
        while not all(link.ends >= ends or link.has_ended for link in links):
            events = self.selector.select(patience)
            if not events:
                break
            for key, _ in events:
                self.listen(key.data)
        return (
            min(link.rows for link in links),
            min(link.ends for link in links),
            sum(link.has_ended for link in links),
        )

    def flood(self, seconds, first, rest, is_reading=True):
        """Sends the first bytes on each link and then the rest again and again, without a pause for so long, and
        connects anew where a link ends. Without a rest it is over once all have sent the first. How many ended."""
        wanted = WRITE | READ if is_reading else WRITE
        for link in self.links:
            if link.answer:
                self.begin(link, first, wanted)
        end, ended = time.perf_counter() + seconds, 0
        while time.perf_counter() < end and (rest or any(link.left or not link.answer for link in self.links)):
            for key, events in self.selector.select(0.05):
                link = key.data
                if link.answer:
                    self.pour(link, events, rest)
                else:
                    self.greet(link)
                    if link.answer == "101":
                        self.begin(link, first, wanted)
                if link.has_ended:
                    ended += 1
                    self.replace(link)
        return ended

    def begin(self, link, first, wanted):
        link.left = memoryview(first)
        self.selector.modify(link.stream, wanted, link)

    def pour(self, link, events, rest):
        if events & READ:
            link.take()
        if events & WRITE and not link.has_ended:
            link.left = link.left or memoryview(rest)
            if link.left:
                link.give()
            if not link.left and not rest:
                self.selector.modify(link.stream, READ, link)

    def hold(self, seconds, text):
        """Sends on each link a text but for its last byte, and then the last bytes at once; so on for so long. How many
        links ended."""
        most, last = frame(text)[:-1], memoryview(frame(text)[-1:])
        end, ended = time.perf_counter() + seconds, 0
        while time.perf_counter() < end:
            ended += self.flood(10, most, b"")
            # the server reads what has come
            time.sleep(0.2)
            for link in self.links:
                if link.answer and not link.left:
                    link.left = last
                    link.give()
        return ended


def paths(count, first=0):
    return [f"/ocpp/ACME/S{n:05}" for n in range(first, first + count)]


# What loads do. Each gives the result of a phase, and goes on when the next phase begins.


def load_listings(stations, operators, askers, ends, line, patience):
    """Stations connect, operators connect, and so many of them ask for a listing at once."""
    crowd = Crowd()
    crowd.connect(paths(stations))
    known = len(crowd.links)
    answers, _ = crowd.connect(["/operator/ACME"] * operators)
    links = crowd.links[known:]
    yield known, answers
    for link in links[:askers]:
        link.stream.send(frame(line))
    first = crowd.read(links[:askers], ends, patience)
    # what the others are told
    crowd.read(links, ends, 0.5)
    yield first


def load_deaf(line, times, patience):
    """An operator asks for a listing so many times, and reads only in the next phase."""
    crowd = Crowd()
    crowd.connect(["/operator/ACME"])
    (link,) = crowd.links
    link.stream.send(frame(line) * times)
    yield link.stream.getsockname()[1]
    yield crowd.read([link], times, patience)


def load_flood(kind, count, seconds):
    """Stations send what is hostile for so long."""
    crowd = Crowd()
    if kind == "garbage":
        garbage = random.Random(1).randbytes(16384)
        crowd.links = [crowd.open(garbage) for _ in range(count)]
    else:
        crowd.connect(paths(count))
    flood = FLOODS[kind]() if kind in FLOODS else None
    yield len(crowd.links)
    yield crowd.flood(seconds, *flood) if flood else crowd.hold(seconds, NO_FRAME)


# What is sent first, what is sent again and again, and whether it is read meanwhile.
FLOODS = {
    "empty fragments": lambda: (frame("", 0x01), frame("", 0x00) * 100_000),
    "texts of 1 MiB": lambda: (b"", frame(NO_FRAME)),
    "pings": lambda: (b"", frame("x" * 125, 0x89) * 8000),
    "heartbeats, not reading": lambda: (b"", frame(HEARTBEAT) * 40_000, False),
    "readings of 1 MiB": lambda: (b"", frame(READINGS)),
    "statuses": lambda: (b"", frame(STATUS)),
    "garbage": lambda: (b"", b"x"),
}
HELD = "last bytes held back"
HOSTILE = [kind for kind in FLOODS if kind != "statuses"]


def load_nothing(seconds):
    """A processor is busy for so long, and nothing is sent."""
    end = time.perf_counter() + seconds
    while time.perf_counter() < end:
        pass
    yield None


def load_connects(count, first, at_once, pause=0):
    """Stations connect, so many at once."""
    crowd = Crowd()
    yield crowd.connect(paths(count, first), at_once, 30, pause)


def load_readings(count):
    """A station sends so many texts of readings, each when the one before it is answered. How many were taken."""
    taken, peer = 0, None
    for _ in range(count):
        try:
            peer = peer or Peer(PORT, "/ocpp/ACME/S00000", 60)
            taken += peer.ask(READINGS).startswith("[3")
        except (OSError, SystemExit):
            peer = None
    yield taken


def drive(pipe, load, words):
    """The process of a load. It lets V go first, except where it is alone with the server."""
    if load is not load_connects:
        os.nice(10)
    phases = load(*words)
    while pipe.recv():
        pipe.send(next(phases))


class Load:
    """A load in a process of its own."""

    def __init__(self, load, *words):
        self.pipe, theirs = multiprocessing.Pipe()
        self.process = multiprocessing.Process(target=drive, args=(theirs, load, words), daemon=True)
        self.process.start()
        theirs.close()

    def begin(self):
        """The next phase begins."""
        self.began = time.perf_counter()
        self.pipe.send(True)

    def end(self):
        """What the phase gives, and when it began and ended."""
        result = self.pipe.recv()
        return result, (self.began, time.perf_counter())

    def phase(self):
        """The same of the next phase."""
        self.begin()
        return self.end()

    def __enter__(self):
        return self

    def __exit__(self, *_):
        self.process.kill()
        self.process.join()
