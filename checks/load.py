"""Measures what one operator's connections cost another's. V is a station of BETA that sends Heartbeats one after the
other; ACME loads the server meanwhile, with many connections, listings, floods and storms of connects. A figure is V's
longest wait, the 99th percentile and the median of its waits, whether all lines arrive, the time of a storm, the
processor time of idle connections, or the memory of the server. Some figures have a bound, and some only tell.
`BOUNDS` has the bounds: those of a small run are wide, since `.ci/run` makes it beside other work.

    python3 checks/load.py crates/central/out/central [--small] [--only lines,deaf]

It prints a line for each figure, then `N passed, M failed`. Its status is 1 where one is over its bound. Each scenario
has a server of its own over a new file, in the folder for temporary files (the variable TMPDIR names another). In a
small run the file is in memory, where a sync doesn't wait for a disk, and a scenario with a figure over its bound is
measured up to twice more, since the machine itself may stand still for as long: what the server does comes again.

V and the load are processes of their own, and the load has a lower priority. The time for which the server and V
itself wait for a processor is the machine's, not the server's. So the bound is of V's longest wait without that time,
and the longest with it stands beside.
"""

import argparse
import array
import contextlib
import gc
import itertools
import math
import multiprocessing
import os
import resource
import shutil
import socket
import subprocess
import sys
import tempfile
import time

from harness import Counts, copy_database, memory, remove_database, spent
from loads import (
    HELD,
    HOSTILE,
    METER_VALUES,
    PORT,
    Load,
    load_connects,
    load_deaf,
    load_flood,
    load_listings,
    load_nothing,
    load_readings,
)
from peer import BOOT, HEARTBEAT, Peer

# The most that a figure may be: what the design promises, on a machine without other work, and what is wanted of a
# small run on any machine, where a server that serves nobody for a second fails. Waits are in ms, and V's are without
# those for a processor. A storm is in s, and idle connections take that part of a processor. An event is one step, so V
# may wait for one that takes long: a listing of 100,000 rows takes 160 ms, a text of 1 MiB 20 to 40, one of readings 70.
BOUNDS = {
    "wait": (50, 500),
    "wait in a flood": (20, 500),
    "order": (1000, 2000),
    "one listing": (400, 500),
    "texts of 1 MiB": (100, 500),
    "last bytes held back": (100, 500),
    "readings of 1 MiB": (200, 8000),
    "median": (0.2, 10),
    "storm": (10, None),
    "idle": (0.02, 0.2),
}

# The folder of files in memory, if there is one that has room.
MEMORY = "/dev/shm" if os.path.isdir("/dev/shm") and shutil.disk_usage("/dev/shm").free >= 1 << 30 else None

# The station that waits.


def lag(file):
    """For how many seconds a process has waited for a processor so far."""
    with contextlib.suppress(OSError):
        return int(os.pread(file, 100, 0).split()[1]) / 1e9
    return 0.0


def watch(pipe, path, server, patience, is_over):
    """The process of a station that sends Heartbeats one after the other until it is over. For each: when it was
    answered, how long it took, and how long the server and this process have waited for a processor so far."""
    gc.disable()
    peer = Peer(PORT, path, patience)
    peer.ask(BOOT)
    lags = [os.open(f"/proc/{process}/schedstat", os.O_RDONLY) for process in (server, "self")]
    notes, is_lost, is_late = array.array("d"), False, False
    pipe.send(True)
    while not (is_over.value or is_lost or is_late):
        try:
            peer.ask(HEARTBEAT)
        except TimeoutError:
            is_late = True
        except (OSError, SystemExit):
            is_lost = True
        end = time.perf_counter()
        notes.extend((end, end - peer.sent_at, lag(lags[0]), lag(lags[1])))
    pipe.send((notes, is_lost))


class Watch:
    """A station that sends Heartbeats one after the other, in a process of its own. It ends where it waits too long."""

    def __init__(self, server, patience, path="/ocpp/BETA/V"):
        self.is_over = multiprocessing.RawValue("b", 0)
        self.pipe, theirs = multiprocessing.Pipe()
        words = (theirs, path, server.pid, patience, self.is_over)
        self.process = multiprocessing.Process(target=watch, args=words, daemon=True)
        self.process.start()
        theirs.close()
        self.pipe.recv()

    def __enter__(self):
        return self

    def __exit__(self, *_):
        self.is_over.value = True
        try:
            self.notes, self.is_lost = self.pipe.recv()
        except EOFError:
            self.notes, self.is_lost = array.array("d"), True
        self.process.join()

    def during(self, window):
        """Its waits in that time in ms, the longest first. With each is for how long the server and it waited for a
        processor."""
        (began, ended), found, before = window, [], None
        for end, wait, *now in zip(*[iter(self.notes)] * 4):
            if end >= began and end - wait <= ended:
                server, own = (late - early for late, early in zip(now, before or now))
                found.append((1000 * wait, 1000 * server, 1000 * own))
            before = now
        return sorted(found, reverse=True)


def without_lags(noted):
    wait, server, own = noted
    return max(wait - server - own, 0.0)


# The servers and the figures.


class Run(Counts):
    def __init__(self, program, folder, is_small):
        self.program = program
        self.folder = folder
        self.is_small = is_small
        self.patience = 20
        self.files = 0

    def size(self, large, small):
        return small if self.is_small else large

    def most(self, what):
        return self.size(*BOUNDS[what])

    def allows(self, name, count):
        """Whether so many connections may be open in one process."""
        most = resource.getrlimit(resource.RLIMIT_NOFILE)[0]
        if count + 100 <= most:
            return True
        self.skip(name, f"{count:,} connections, and {most:,} files may be open")
        return False

    def tell(self, name, what, number, unit="", most=None, exactly=None):
        """A figure, and whether it is within its bound if it has one."""
        shown = f"{number:,}" if isinstance(number, int) else f"{number:,.2f}"
        bound, verdict = "", ""
        if most is not None or exactly is not None:
            bound = f"at most {most:,.4g}" if exactly is None else f"wanted {exactly:,}"
            is_ok = number <= most if exactly is None else number == exactly
            self.passed += is_ok
            self.failed += not is_ok
            verdict = "ok" if is_ok else "OVER"
        print(f"{name:<12}{what:<80}{shown:>13} {unit:<4}{bound:<16}{verdict}".rstrip(), flush=True)

    def tell_waits(self, name, what, watch, window, most=None):
        """What V waited for in that time."""
        waits = watch.during(window) or [(math.inf, 0.0, 0.0)]
        longest, server, own = waits[0]
        for_processors = f"(for a processor: server {server:.1f}, V {own:.1f})"
        without = math.inf if watch.is_lost else max(map(without_lags, waits))
        self.tell(name, f"{what}: V's longest wait without those for a processor", without, "ms", most)
        self.tell(name, f"{what}: the longest with them {for_processors}", longest, "ms")
        self.tell(name, f"{what}: 99th percentile", waits[len(waits) // 100][0], "ms")
        self.tell(name, f"{what}: median of {len(waits):,} waits", waits[len(waits) // 2][0], "ms")

    def new_file(self, lines):
        """A database with the records that these lines put. It is made in memory, where a sync is free."""
        self.files += 1
        name = f"load-{os.getpid()}-{self.files}.db"
        draft = os.path.join(MEMORY or self.folder, "draft-" + name)
        script = "\n".join(["1 BETA station add V Accepted 300", *lines]).encode()
        words = [self.program, "replay", "--operators", "ACME,BETA", "--db", draft]
        ran = subprocess.run(words, input=script, capture_output=True)
        if ran.returncode or any(wrong in ran.stdout for wrong in (b" refused ", b"bad line", b" send [4,")):
            sys.exit(f"replay: status {ran.returncode}, {ran.stderr.decode()}")
        path = os.path.join(self.folder, name)
        copy_database(draft, path)
        remove_database(draft)
        return path

    def started(self, db, room):
        """A server that listens, which may have so many bytes of memory; None where it doesn't start."""

        def limit():
            if room:
                resource.setrlimit(resource.RLIMIT_AS, (room, room))

        words = [self.program, "serve", "--port", str(PORT), "--db", db, "--operators", "ACME,BETA"]
        server = subprocess.Popen(words, stderr=subprocess.DEVNULL, preexec_fn=limit)
        end = time.perf_counter() + 60
        while server.poll() is None and time.perf_counter() < end:
            with contextlib.suppress(ConnectionRefusedError):
                socket.create_connection(("127.0.0.1", PORT)).close()
                return server
            time.sleep(0.02)
        server.kill()
        return None

    @contextlib.contextmanager
    def serve(self, *lines, rooms=(None,)):
        """A server over a new file with those records, which has the first of those sizes of memory at which it starts.
        It is ended afterwards."""
        db = self.new_file(itertools.chain(*lines))
        server = next(filter(None, (self.started(db, room) for room in rooms)), None)
        if not server:
            sys.exit("the server doesn't start")
        try:
            yield server
        finally:
            server.kill()
            server.wait()
            remove_database(db)

    def watch(self, server):
        return Watch(server, self.patience)


# Records.


def stations(count):
    """Stations that have booted."""
    for n in range(count):
        yield f"1 ACME station add S{n:05} Accepted 300"
        yield f"1 ACME connect S{n:05}"
        yield f"1 ACME frame S{n:05} {BOOT}"


def tags(count):
    return (f"1 ACME tag put K{n:06} - 0 -" for n in range(count))


def readings(count):
    """Readings of the first station, of which a listing has 130 bytes each."""
    text = METER_VALUES % ",".join(['{"value":"%s"}' % ("x" * 22)] * 500)
    return (f"1 ACME frame S00000 {text}" for _ in range(count // 500))


# The scenarios.


def measure_calm(run):
    """No load, and one that the server has nothing to do with: what V waits for on this machine."""
    with run.serve() as server, run.watch(server) as v, Load(load_nothing, 1) as load:
        began = time.perf_counter()
        time.sleep(1)
        _, busy = load.phase()
    run.tell_waits("calm", "without a load", v, (began, busy[0]))
    run.tell_waits("calm", "beside a busy process", v, busy)


def measure_lines(run):
    """Many operators' connections, of which one asks for a listing."""
    count, rows = run.size(1000, 64), 1000
    if not run.allows("lines", count):
        return
    words = (0, count, 1, 1, "list tags", run.patience)
    with run.serve(tags(rows)) as server, run.watch(server) as v, Load(load_listings, *words) as load:
        (_, answers), connecting = load.phase()
        (got, _, _), listing = load.phase()
    for answer, number in sorted(answers.items()):
        run.tell("lines", f"connections of {count:,} that are answered {answer}", number)
    run.tell_waits("lines", "while they connect", v, connecting, run.most("wait"))
    run.tell_waits("lines", "while one lists", v, listing, run.most("wait"))
    run.tell("lines", "rows at the one that asked", got, exactly=rows)


def measure_listing(run):
    """One long listing beside many stations."""
    count, rows = run.size(9000, 500), run.size(100_000, 10_000)
    if not run.allows("listing", count):
        return
    words = (count, 1, 1, 1, "list tags", run.patience)
    records = stations(count), tags(rows)
    with run.serve(*records) as server, run.watch(server) as v, Load(load_listings, *words) as load:
        (known, _), connecting = load.phase()
        (got, ends, _), listing = load.phase()
    run.tell("listing", "stations connected", known, exactly=count)
    run.tell_waits("listing", "while stations connect", v, connecting)
    run.tell_waits("listing", "while it is listed", v, listing, run.most("one listing"))
    run.tell("listing", "rows that arrive", got, exactly=rows)
    run.tell("listing", "ends of the listing that arrive", ends, exactly=1)
    run.tell("listing", "the time until all have arrived", listing[1] - listing[0], "s")


def measure_consoles(run):
    """Many operators' connections that ask at once. Each is told what all are."""
    count, rows = run.size(30, 10), run.size(5000, 1000)
    words = (0, count, count, count, "list tags", run.patience)
    with run.serve(tags(rows)) as server, run.watch(server) as v, Load(load_listings, *words) as load:
        load.phase()
        (got, ends, ended), listing = load.phase()
    run.tell_waits("consoles", "while they list", v, listing, run.most("wait"))
    run.tell("consoles", "rows that arrive at each, the fewest", got, exactly=count * rows)
    run.tell("consoles", "ends of listings that arrive at each, the fewest", ends, exactly=count)
    run.tell("consoles", "connections that ended", ended, exactly=0)
    run.tell("consoles", "the time until all have arrived", listing[1] - listing[0], "s")


def measure_shares(run):
    """Operators share by what their events cost: consoles that list all at once, whose rows are told to each of them, and
    many stations whose messages are synced. Another operator's order and V wait for the event in progress at most."""
    count, rows = run.size(32, 8), run.size(20_000, 2000)
    words = (0, count, count, count, "list tags", run.patience)
    with run.serve(tags(rows)) as server, run.watch(server) as v, Load(load_listings, *words) as load:
        load.phase()
        load.begin()
        time.sleep(0.2)
        order, longest = Peer(PORT, "/operator/BETA", run.patience), 0.0
        for _ in range(3):
            order.ask("list tags")
            longest = max(longest, time.perf_counter() - order.sent_at)
        _, listing = load.end()
    run.tell("shares", "an order beside consoles that list: its longest wait", 1000 * longest, "ms", run.most("order"))
    run.tell_waits("shares", "beside consoles that list", v, listing, run.most("order"))
    count, seconds = run.size(500, 50), run.size(3, 1)
    words = ("statuses", count, seconds)
    with run.serve(stations(count)) as server, run.watch(server) as v, Load(load_flood, *words) as load:
        load.phase()
        _, window = load.phase()
    run.tell_waits("shares", f"beside {count} stations whose messages are synced", v, window, run.most("wait in a flood"))


def is_held(port):
    """Whether the server has its connection from that port of a client open."""
    ends = f":{PORT:04X}", f":{port:04X}"
    with open("/proc/net/tcp") as rows:
        for _, here, there, state, *_ in map(str.split, rows):
            if here.endswith(ends[0]) and there.endswith(ends[1]):
                return state == "01"
    return False


def measure_deaf(run):
    """An operator's connection that reads late, and one that never reads."""
    rows, seconds = run.size(100_000, 15_000), run.size(3, 1)
    records = [*stations(1), *readings(rows)]
    line = "list readings S00000"
    with run.serve(records) as server, run.watch(server) as v, Load(load_deaf, line, 1, run.patience) as load:
        _, (began, _) = load.phase()
        time.sleep(seconds)
        held = resident(server)
        (got, ends, _), (_, ended) = load.phase()
    run.tell_waits("deaf", "late to read", v, (began, ended))
    run.tell("deaf", "the server's memory before it reads", held, "MiB")
    run.tell("deaf", f"rows that arrive after {seconds} s", got, exactly=rows)
    run.tell("deaf", "ends of the listing that arrive", ends, exactly=1)
    times = run.size(3, 15)
    with run.serve(records) as server, run.watch(server) as v, Load(load_deaf, line, times, run.patience) as load:
        port, (began, _) = load.phase()
        while (is_open := is_held(port)) and time.perf_counter() < began + run.patience:
            time.sleep(0.05)
        ended, held = time.perf_counter(), resident(server)
        time.sleep(1)
        lives = server.poll() is None
    run.tell_waits("deaf", "never reading", v, (began, ended))
    run.tell("deaf", f"never reading: still open after {ended - began:.1f} s", int(is_open), exactly=0)
    run.tell("deaf", "never reading: the server's memory", held, "MiB")
    tell_life(run, "deaf", v, lives, ended)


def resident(server):
    """The MiB of memory of a server, 0 of one that has ended."""
    with contextlib.suppress(StopIteration):
        return memory(server) / 1024
    return 0.0


def tell_life(run, name, v, lives, since):
    """Whether the server lives on and serves V."""
    run.tell(name, "the server lives", int(lives), exactly=1)
    waits = v.during((since + 0.1, math.inf))
    run.tell(name, "V is served after it", int(len(waits) > 1 and not v.is_lost), exactly=1)


def measure_hostile(run):
    """Stations that send what costs much, as fast as they can."""
    count, seconds = run.size(50, 20), run.size(3, 1)
    for kind in (*HOSTILE, HELD):
        words = (kind, count, seconds)
        with run.serve(stations(count)) as server, run.watch(server) as v, Load(load_flood, *words) as load:
            load.phase()
            ended, window = load.phase()
            held, lives = resident(server), server.poll() is None
        run.tell_waits("hostile", kind, v, window, run.most(kind if kind in BOUNDS else "wait in a flood"))
        run.tell("hostile", f"{kind}: connections that ended", ended)
        run.tell("hostile", f"{kind}: the server's memory", held, "MiB")
        run.tell("hostile", f"{kind}: the server lives", int(lives), exactly=1)


def measure_storm(run):
    """Stations that connect at once: half of them over a server, all over another, and all with their requests late."""
    whole, took = run.size(10_000, 1000), []
    for count, pause in ((whole // 2, 0), (whole, 0), (whole, 0.3)):
        if not run.allows("storm", count):
            return
        with run.serve(stations(count)), Load(load_connects, count, 0, count, pause) as load:
            (answers, seconds), _ = load.phase()
        what = f"{count:,} stations" + (f" that ask {pause} s later" if pause else "")
        for answer in sorted({"101", *answers}):
            wanted = count if answer == "101" else None
            run.tell("storm", f"{what}: answered {answer}", answers[answer], exactly=wanted)
        took.append(seconds if answers["101"] == count else math.inf)
        run.tell("storm", f"{what}: the time until all are answered 101", took[-1], "s", run.most("storm"))
    # a connect that finds the system's queue full is tried again after a second
    most = run.size(min(10, 1 + 3 * took[0]), None)
    run.tell("storm", f"{whole:,} stations: 1 s and 3 times the time of half as many", took[1], "s", most)


def measure_crowd(run):
    """Many stations, of which one sends; and then none."""
    count, seconds = run.size(10_000, 1000), run.size(10, 3)
    if not run.allows("crowd", count):
        return
    with run.serve(stations(count)) as server, Load(load_connects, count - 1, 1, 200) as load:
        (answers, _), _ = load.phase()
        with Watch(server, run.patience, "/ocpp/ACME/S00000") as one:
            time.sleep(run.size(3, 2))
        before = spent(server)
        time.sleep(seconds)
        idle = spent(server) - before
    waits = one.during((0, math.inf)) or [(math.inf, 0.0, 0.0)]
    middle = waits[len(waits) // 2][0]
    run.tell("crowd", "other stations connected", answers["101"], exactly=count - 1)
    run.tell("crowd", f"median of {len(waits):,} waits of the one that sends", middle, "ms", run.most("median"))
    run.tell("crowd", "its longest wait", waits[0][0], "ms")
    run.tell("crowd", f"processor time of {seconds} s in which nothing is sent", idle, "s", run.most("idle") * seconds)


def measure_memory(run):
    """A station that sends many readings, also to a server that has little memory."""
    count = run.size(50, 3)
    with run.serve(stations(1)) as server, run.watch(server) as v, Load(load_readings, count) as load:
        before = resident(server)
        taken, window = load.phase()
        held = resident(server)
    run.tell_waits("memory", f"{count} MiB of readings", v, window)
    run.tell("memory", f"texts of 1 MiB of {count} that were taken", taken, exactly=count)
    run.tell("memory", "the server's memory before them", before, "MiB")
    run.tell("memory", "the server's memory after them", held, "MiB")
    rooms = [megabytes * 10**6 for megabytes in range(400, 2100, 100)]
    with (
        run.serve(stations(1), rooms=rooms) as server,
        run.watch(server) as v,
        Load(load_readings, count) as load,
    ):
        room = resource.prlimit(server.pid, resource.RLIMIT_AS)[0] // 10**6
        taken, (_, ended) = load.phase()
        time.sleep(1)
        lives = server.poll() is None
    run.tell("memory", "a server that may have so much", room, "MB")
    run.tell("memory", f"little memory: texts of 1 MiB of {count} that were taken", taken)
    tell_life(run, "memory", v, lives, ended)


SCENARIOS = {
    "calm": measure_calm,
    "lines": measure_lines,
    "listing": measure_listing,
    "consoles": measure_consoles,
    "shares": measure_shares,
    "deaf": measure_deaf,
    "hostile": measure_hostile,
    "storm": measure_storm,
    "crowd": measure_crowd,
    "memory": measure_memory,
}


def measure(run, name):
    try:
        SCENARIOS[name](run)
    except (EOFError, OSError, SystemExit) as error:
        run.failed += 1
        print(f"{name:<12}can't be measured: {error!r}", flush=True)


def main():
    parser = argparse.ArgumentParser(description=__doc__.split("\n\n")[0])
    parser.add_argument("program")
    parser.add_argument("--small", action="store_true", help="smaller sizes and wider bounds, in under two minutes")
    parser.add_argument("--only", default=",".join(SCENARIOS), help="these scenarios alone, parted by commas")
    words = parser.parse_args()
    files = resource.getrlimit(resource.RLIMIT_NOFILE)[1]
    resource.setrlimit(resource.RLIMIT_NOFILE, (files, files))
    with tempfile.TemporaryDirectory(dir=MEMORY if words.small else None) as folder:
        run = Run(os.path.abspath(words.program), folder, words.small)
        for name in words.only.split(","):
            for left in reversed(range(3 if words.small else 1)):
                before = run.passed, run.failed
                measure(run, name)
                if run.failed == before[1] or not left:
                    break
                print(f"{name:<12}is measured again", flush=True)
                run.passed, run.failed = before
    run.end()


if __name__ == "__main__":
    main()
