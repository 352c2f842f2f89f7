"""Measures a server with many connected stations, from several addresses of loopback: the time until all are connected,
the memory and the processor's time that they take, what one more connect and close cost, and how long a heartbeat waits
where one station in a hundred sends at once, and where all do. The file is in memory, if TMPDIR names such a folder.

    ulimit -n 110000; TMPDIR=/dev/shm python3 bench/connections.py crates/central/out/central [--stations 10000]
"""

import argparse
import os
import random
import select
import socket
import statistics
import subprocess
import sys
import tempfile
import time
from pathlib import Path

sys.path.insert(0, str(Path(__file__).resolve().parent.parent / "checks"))

from peer import BOOT, HEAD, HEARTBEAT, Peer, frame  # noqa: E402

PORT = 9381
# How many stations have one address of loopback, and how many connect at once.
BY_ADDRESS = 20_000
AT_ONCE = 500
# The network of the addresses, another one in each run: for a minute a port is not free that was used.
NETWORK = random.randrange(1, 255)
# How many stations come and go.
GUESTS = 50


def path(n):
    return f"/ocpp/{'AB'[n % 2]}/CP{n:05}"


def added(count):
    """Adds the stations."""
    for k, operator in enumerate("AB"):
        peer = Peer(PORT, f"/operator/{operator}", patience=60)
        names = [f"CP{n:05}" for n in range(count) if n % 2 == k]
        for at in range(0, len(names), 1000):
            part = names[at : at + 1000]
            peer.stream.sendall(b"".join(frame(f"station add {name} Accepted 300") for name in part))
            for _ in part:
                assert peer.next().endswith(" ok")
        peer.stream.close()


def opened(n):
    stream = socket.socket()
    stream.bind((f"127.0.{NETWORK}.{2 + n // BY_ADDRESS}", 0))
    stream.connect(("127.0.0.1", PORT))
    stream.sendall(HEAD.format(path(n)).encode())
    return stream


def answers(streams, sent, patience=60):
    """How long each stream waits for its next bytes, in milliseconds."""
    poll = select.epoll()
    by_number = {stream.fileno(): stream for stream in streams}
    for number in by_number:
        poll.register(number, select.EPOLLIN)
    waits = []
    while by_number:
        events = poll.poll(patience)
        if not events:
            sys.exit(f"{len(by_number)} streams aren't answered")
        now = time.perf_counter()
        for number, _ in events:
            if not by_number.pop(number).recv(4096):
                sys.exit("the server closed a connection")
            poll.unregister(number)
            waits.append((now - sent[number]) * 1000)
    return waits


def asked(streams, text):
    data, sent = frame(text), {}
    for stream in streams:
        sent[stream.fileno()] = time.perf_counter()
        stream.sendall(data)
    return answers(streams, sent)


def spent(server):
    words = Path(f"/proc/{server.pid}/stat").read_text().rsplit(")", 1)[1].split()
    return (int(words[11]) + int(words[12])) / os.sysconf("SC_CLK_TCK")


def resident(server):
    lines = Path(f"/proc/{server.pid}/status").read_text().splitlines()
    return next(int(line.split()[1]) for line in lines if line.startswith("VmRSS:")) / 1024


def told(name, waits):
    waits = sorted(waits)
    median, last = statistics.median(waits), waits[len(waits) * 99 // 100]
    print(f"{name}: p50 {median:.2f} ms, p99 {last:.2f} ms, longest {waits[-1]:.2f} ms")


def measure(server, count):
    added(count + GUESTS)
    before, began = resident(server), time.perf_counter()
    streams = []
    for at in range(0, count, AT_ONCE):
        part = [opened(n) for n in range(at, min(at + AT_ONCE, count))]
        answers(part, dict.fromkeys((stream.fileno() for stream in part), began))
        streams += part
    seconds = time.perf_counter() - began
    print(f"{count} stations connect in {seconds:.1f} s, {count / seconds:.0f} a second")
    for at in range(0, count, AT_ONCE):
        asked(streams[at : at + AT_ONCE], BOOT)
    print(f"memory: {(resident(server) - before) * 1024 / count:.1f} KiB a station, {resident(server):.0f} MiB in all")
    was = spent(server)
    time.sleep(5)
    print(f"idle: {(spent(server) - was) / 5 * 100:.1f} % of a processor")
    was, times = spent(server), 500
    for n in range(times):
        stream = opened(count + n % GUESTS)
        stream.recv(4096)
        stream.close()
    time.sleep(0.5)
    print(f"a connect and a close: {(spent(server) - was) / times * 1000:.2f} ms of the processor")
    part = random.Random(1).sample(streams, max(1, count // 100))
    told("heartbeats of 1 %", [wait for _ in range(20) for wait in asked(part, HEARTBEAT)])
    told("heartbeats of all", asked(streams, HEARTBEAT))


def main():
    parser = argparse.ArgumentParser()
    parser.add_argument("program")
    parser.add_argument("--stations", type=int, default=10_000)
    given = parser.parse_args()
    words = ["--operators", "A,B", "--log", "none"]
    if given.stations > 20_000:
        words += ["--connections-per-operator", "100000"]
    with tempfile.TemporaryDirectory() as folder:
        db = os.path.join(folder, "db")
        server = subprocess.Popen([given.program, "serve", "--port", str(PORT), "--db", db, *words])
        try:
            time.sleep(1)
            measure(server, given.stations)
        finally:
            server.kill()


if __name__ == "__main__":
    main()
