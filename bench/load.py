"""Starts a server, connects stations over loopback, and has some of them send for some seconds, one call
in flight each. It prints the messages per second, the times of the answers (the median, and that of one in a hundred),
and the processor time of the server per message.

    python3 bench/load.py "crates/central/out/central serve --db /dev/shm/load.db" --stations 1000 --active 1000
    python3 bench/load.py "crates/central/out/central serve --db /dev/shm/load.db" --stations 1000 --active 1 --action heartbeat

The file is a new one for each run.

`--action` is heartbeat, session (a start, five MeterValues and a stop), or meter: MeterValues alone. With `--active 0`
it measures what idle connections cost the server. `--sync-takes 3.5` adds 3.5 ms to each sync (needs gcc). With
`--beside` a station of another operator sends a heartbeat every 20 ms, and the times of its answers are printed.
"""

import argparse
import itertools
import os
import select
import shlex
import socket
import statistics
import subprocess
import sys
import tempfile
import time

sys.path.append(os.path.join(os.path.dirname(__file__), "..", "checks"))
from peer import HEARTBEAT, Peer
from preloaded import Preloaded

TIME = "2026-01-01T00:00:00Z"
READING = '{"timestamp":"%s","sampledValue":[{"value":"%d"}]}'


def heartbeats(station):
    while True:
        yield '[2,"1","Heartbeat",{}]'


def sessions(station):
    for meter in itertools.count(0, 10):
        answer = yield (
            '[2,"1","StartTransaction",{"connectorId":1,"idTag":"T%d","meterStart":%d,"timestamp":"%s"}]'
            % (station, meter, TIME)
        )
        number = int(answer.split('"transactionId":')[1].split("}")[0])
        for reading in range(5):
            yield '[2,"1","MeterValues",{"connectorId":1,"transactionId":%d,"meterValue":[%s]}]' % (
                number,
                READING % (TIME, meter + reading),
            )
        yield '[2,"1","StopTransaction",{"meterStop":%d,"transactionId":%d,"timestamp":"%s"}]' % (
            meter + 9,
            number,
            TIME,
        )


def readings(station):
    for value in itertools.count():
        yield '[2,"1","MeterValues",{"connectorId":1,"meterValue":[%s]}]' % (READING % (TIME, value))


ACTIONS = {"heartbeat": heartbeats, "session": sessions, "meter": readings}

# The seconds between two heartbeats of another operator's station.
QUIET = 0.02


def environment(folder, sync_takes):
    """That of the server, whose syncs take so many milliseconds more."""
    if not sync_takes:
        return None
    disk = Preloaded(folder, "slow_disk", "SLOW_DISK", "Q")
    disk.write(int(sync_takes * 1e6))
    return disk.environment


def started(command, port, environment):
    words = shlex.split(command) + ["--port", str(port), "--operators", "ACME,BETA"]
    server = subprocess.Popen(words, env=environment)
    for _ in range(200):
        try:
            socket.create_connection(("127.0.0.1", port)).close()
            return server
        except ConnectionRefusedError:
            time.sleep(0.05)
    sys.exit("the server doesn't listen")


def connected(port, operator, count):
    console = Peer(port, f"/operator/{operator}")
    stations = []
    for station in range(count):
        console.ask(f"station add S{station} Accepted 300")
        console.ask(f"tag put T{station} - 0 -")
        peer = Peer(port, f"/ocpp/{operator}/S{station}")
        peer.ask('[2,"1","BootNotification",{"chargePointVendor":"V","chargePointModel":"M"}]')
        stations.append(peer)
    return console, stations


def beats(port):
    """The times of heartbeats of a station of BETA, as a process that is told when to end."""
    words = [sys.executable, __file__, "", "--port", str(port), "--beats"]
    return subprocess.Popen(words, stdin=subprocess.PIPE, stdout=subprocess.PIPE, text=True)


def beat(port):
    """Sends heartbeats until standard input ends, and prints the times of their answers."""
    _, (station,) = connected(port, "BETA", 1)
    times = []
    print("ready", flush=True)
    while not select.select([sys.stdin], [], [], QUIET)[0]:
        station.ask(HEARTBEAT)
        times.append(time.perf_counter() - station.sent_at)
    print(*times)


def said(times):
    """The median, and the time that one in a hundred exceeds, in milliseconds."""
    ordered = sorted(times)
    return f"{1000 * statistics.median(ordered):.2f} ms, p99 {1000 * ordered[len(ordered) * 99 // 100]:.2f} ms"


def loaded(stations, action, seconds):
    """The times of the answers."""
    poll, by_number, times = select.epoll(), {}, []
    for number, peer in enumerate(stations):
        peer.calls = ACTIONS[action](number)
        by_number[peer.stream.fileno()] = peer
        poll.register(peer.stream.fileno(), select.EPOLLIN)
        peer.send(next(peer.calls))
    end = time.perf_counter() + seconds
    while time.perf_counter() < end:
        for number, _ in poll.poll(0.1):
            peer = by_number[number]
            peer.read()
            if (answer := peer.text()) is not None:
                times.append(time.perf_counter() - peer.sent_at)
                peer.send(peer.calls.send(answer))
    return times


def spent(server):
    """The seconds of processor time of a process so far."""
    with open(f"/proc/{server.pid}/stat") as stat:
        words = stat.read().rsplit(")", 1)[1].split()
    return (int(words[11]) + int(words[12])) / os.sysconf("SC_CLK_TCK")


def measure(words, server):
    _, stations = connected(words.port, "ACME", words.stations)
    active = words.stations if words.active is None else words.active
    other = beats(words.port) if words.beside else None
    if other:
        other.stdout.readline()
    before, began = spent(server), time.perf_counter()
    times = loaded(stations[:active], words.action, words.seconds)
    took, used = time.perf_counter() - began, spent(server) - before
    if not times:
        print(f"{words.stations} idle stations: {100 * used / took:.2f} % of a processor")
        return
    print(
        f"{words.stations} stations, {active} sending ({words.action}): {len(times) / took:.0f} messages a "
        f"second, median {said(times)}, {1e6 * used / len(times):.1f} us of processor a message"
    )
    if other:
        heard, _ = other.communicate()
        print(f"  another operator's heartbeats: median {said([float(word) for word in heard.split()])}")


def main():
    parser = argparse.ArgumentParser(description=__doc__.split("\n\n")[0])
    parser.add_argument("server", help="the command that serves, without its port and operators")
    parser.add_argument("--port", type=int, default=9180)
    parser.add_argument("--stations", type=int, default=100)
    parser.add_argument("--active", type=int)
    parser.add_argument("--action", choices=ACTIONS, default="heartbeat")
    parser.add_argument("--seconds", type=float, default=3)
    parser.add_argument("--sync-takes", type=float, default=0)
    parser.add_argument("--beside", action="store_true")
    parser.add_argument("--beats", action="store_true", help=argparse.SUPPRESS)
    words = parser.parse_args()
    if words.beats:
        beat(words.port)
        return
    with tempfile.TemporaryDirectory() as folder:
        server = started(words.server, words.port, environment(folder, words.sync_takes))
        try:
            measure(words, server)
        finally:
            server.kill()


if __name__ == "__main__":
    main()
