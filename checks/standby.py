"""What a server writes to its journal, and what a standby makes of it.

A day of two operators and eight stations over a server with a journal, which is killed at random moments; a follower is fed
the journal as it grows, and is killed now and then. After each kill the server opens its file and its journal again, and all
listings of both operators are compared with those of a server over the follower's file. Then: which lines an event has, which
journals are refused, a standby that serves at the end of its input, and a journal that can't be written.

    python3 checks/standby.py crates/central/out/central [KILLS] [SEED] [WORDS..]

WORDS, as `--commit each`, are handed to each server.
"""

import contextlib
import glob
import hashlib
import os
import re
import resource
import signal
import socket
import subprocess
import sys
import tempfile
import threading
import time

import kills
from harness import begun, copy_database, remove_database
from kills import OPERATORS, STATIONS, Checks
from peer import BOOT, Peer

OPERATOR_LIST = "ACME,BETA"
# where a server over the follower's file listens
STANDBY_PORT = 9290
# further options of each server
WORDS = sys.argv[4:]
OF_OPERATORS = ("stations", "tags", "grants", "granted", "uses", "readers", "open")
OF_STATIONS = ("connectors", "transactions", "readings", "reservations", "reports", "locallist")


def words(program, port, db, *more):
    return [program, "serve", "--port", str(port), "--db", db, "--operators", OPERATOR_LIST, "--log", "none", *WORDS, *more]


def ended(process):
    process.kill()
    process.wait()


def listings(port):
    """All rows of all listings of both operators."""
    found = {}
    for op in OPERATORS:
        peer = Peer(port, f"/operator/{op}")
        names = [*OF_OPERATORS, *(f"{what} {name}" for what in OF_STATIONS for name in STATIONS[op])]
        found.update({(op, name): peer.lines("all", f"list {name}") for name in names})
    return found


def files_of(journal):
    """The files of a journal, in their order. The last is written to."""
    return [*sorted(glob.glob(f"{glob.escape(journal)}.2*")), journal]


def whole(journal):
    """All bytes of a journal that nobody writes to."""
    data = b""
    for name in files_of(journal):
        with open(name, "rb") as file:
            data += file.read()
    return data


class Reader:
    """Reads a journal from a place on, as it grows, from file to file."""

    def __init__(self, journal, place):
        self.journal = journal
        for name in files_of(journal):
            self.file = open(name, "rb")
            size = os.path.getsize(name)
            if place < size or name == journal:
                break
            self.file.close()
            place -= size
        self.file.seek(place)

    def read(self):
        """What has come."""
        # once another file has the name, nothing more comes to this one
        files = [name for name in files_of(self.journal) if os.path.exists(name)]
        data = self.file.read()
        later = [files[place + 1 :] for place, name in enumerate(files) if self.is_open(name)]
        if data or not later or not later[0]:
            return data
        self.file.close()
        self.file = open(later[0][0], "rb")
        return self.file.read()

    def is_open(self, name):
        with contextlib.suppress(FileNotFoundError):
            return os.path.samestat(os.stat(name), os.fstat(self.file.fileno()))
        return False


class Follower:
    """A process that follows a journal from a place on. A thread hands it what comes."""

    def __init__(self, program, db, journal, place):
        self.reader = Reader(journal, place)
        self.is_over = threading.Event()
        follow = [program, "follow", "--db", db, "--operators", OPERATOR_LIST, "--journal", "-"]
        self.process = subprocess.Popen(follow, stdin=subprocess.PIPE, stderr=subprocess.PIPE)
        self.thread = threading.Thread(target=self.feed)
        self.thread.start()

    def feed(self):
        with contextlib.suppress(BrokenPipeError):
            while True:
                is_last = self.is_over.is_set()
                data = self.reader.read()
                self.process.stdin.write(data)
                self.process.stdin.flush()
                if data:
                    continue
                if is_last:
                    break
                time.sleep(0.005)
        with contextlib.suppress(BrokenPipeError):
            self.process.stdin.close()

    def end(self):
        """Hands it the rest. Its status, and what it says."""
        self.is_over.set()
        self.thread.join()
        self.process.wait()
        return self.process.returncode, self.process.stderr.read().decode()

    def kill(self):
        self.process.kill()
        self.end()


def last_begin(journal):
    """Where the last server of a journal begins."""
    return max(match.start() for match in re.finditer(rb"^begins .*\n", whole(journal), re.M))


class Day(Checks):
    """Kills of a server with a journal, and of what follows it."""

    def __init__(self, program, folder, seed):
        super().__init__(program, folder, seed)
        self.journal = os.path.join(folder, "journal")
        self.standby = os.path.join(folder, "standby.db")
        # where the standby begins
        self.place = 0
        size = ("--journal-size", "100000")
        kills.server_words = lambda program, db: words(program, kills.PORT, db, "--journal", self.journal, *size)

    def one_kill(self, number):
        base = os.path.join(self.folder, "base.db")
        copy_database(self.standby, base)
        follower = Follower(self.program, self.standby, self.journal, self.place) if number > 1 else None
        dies = follower is not None and self.random.random() < 0.3
        killer = threading.Timer(self.random.uniform(0.02, 0.4), follower.kill) if dies else None
        if killer:
            killer.start()
        super().one_kill(number)
        if killer:
            killer.join()
        if dies or follower is None:
            # it begins again where it began before
            copy_database(base, self.standby)
            follower = Follower(self.program, self.standby, self.journal, self.place)
        status, says = follower.end()
        # nothing has changed since the last server began
        self.place = last_begin(self.journal)
        self.check(f"kill {number}: the follower", status == 0, says)
        self.compare(number)

    def compare(self, number):
        """The listings over the server's file and over the follower's."""
        server = begun(subprocess.Popen(words(self.program, STANDBY_PORT, self.db)), STANDBY_PORT)
        of_server = listings(STANDBY_PORT)
        ended(server)
        standby = begun(subprocess.Popen(words(self.program, STANDBY_PORT, self.standby)), STANDBY_PORT)
        of_standby = listings(STANDBY_PORT)
        ended(standby)
        differ = {name: (rows, of_standby[name]) for name, rows in of_server.items() if rows != of_standby[name]}
        self.check(f"kill {number}: the standby", not differ, differ)


def without_confirmations(data):
    """The lines of a journal but those that say again how many changes are on record."""
    return b"".join(line for line in data.splitlines(keepends=True) if not line.startswith(b"turn 0 "))


def turn(before, after, *lines):
    """Lines and the mark of their turn."""
    digest = hashlib.sha1("".join(f"{line}\n" for line in lines).encode()).hexdigest()
    return [*lines, f"turn {len(lines)} {before} {after} {digest}"]


class Lines:
    """One server after the other over a file and its journal, and followers of what they wrote."""

    def __init__(self, checks, program, folder):
        self.check, self.program, self.folder = checks.check, program, folder
        self.db = self.path("lines.db")
        self.journal = self.path("lines.journal")

    def path(self, name):
        return os.path.join(self.folder, name)

    def serve(self, *more, db=None, journal=None, limit=None):
        """A server that keeps a journal, once it listens or has ended. Its files grow up to a limit."""
        command = words(self.program, kills.PORT, db or self.db, "--journal", journal or self.journal, *more)
        process = subprocess.Popen(command, stderr=subprocess.PIPE, preexec_fn=limited(limit) if limit else None)
        while process.poll() is None and not list(listening_for(kills.PORT)):
            time.sleep(0.01)
        return process

    def refused(self, what, says, **options):
        """A server that doesn't start, and says why."""
        process = self.serve(**options)
        seen = process.communicate(timeout=20)[1].decode()
        self.check(what, process.returncode == 2 and seen.endswith(says), (process.returncode, seen))

    def follow(self, data, operators=OPERATOR_LIST):
        """What a follower of these bytes ends with: its status, what it says, and how many rows its stations have."""
        db = self.path("followed.db")
        remove_database(db)
        command = [self.program, "follow", "--db", db, "--operators", operators, "--journal", "-"]
        process = subprocess.run(command, input=data, stderr=subprocess.PIPE, timeout=60)
        return process.returncode, process.stderr.decode()

    def run(self):
        self.look_at_lines()
        self.look_at_files()
        self.look_at_followers()
        self.look_at_sizes()
        self.look_at_a_limit()
        self.look_at_failures()
        self.look_at_a_takeover()

    def look_at_lines(self):
        """The lines of a session, with M for moments."""
        server = self.serve()
        desk = Peer(kills.PORT, "/operator/ACME")
        desk.order("1", "station add CP01 Accepted 300")
        desk.ask("tag put TAG1 - 0 -")
        station = Peer(kills.PORT, "/ocpp/ACME/CP01")
        station.ask(BOOT)
        station.ask('[2,"3",\n"Heartbeat",{}]')
        desk.ask("no order")
        desk.ask("call CP01 ClearCache {}")
        call = station.next()
        station.send('[3,"1",{"status":"Accepted"}]')
        desk.next()
        server.kill()
        server.wait()
        self.check("the call", call == '[2,"1","ClearCache",{}]', call)
        with open(self.journal, "rb") as journal:
            lines = without_confirmations(journal.read()).decode().splitlines()
        moment = iter([line.split(" ", 1)[0] for line in lines if line[0].isdigit()] + ["0"] * 8)
        expected = [
            "begins 0 ACME,BETA",
            *turn(0, 1, f"{next(moment)} ACME station add CP01 Accepted 300"),
            *turn(1, 2, f"{next(moment)} ACME tag put TAG1 - 0 -"),
            *turn(2, 2, f"{next(moment)} ACME connect CP01"),
            *turn(2, 3, f"{next(moment)} ACME frame CP01 {BOOT}"),
            *turn(3, 3, f'{next(moment)} ACME quoted CP01 "[2,\\"3\\",\\n\\"Heartbeat\\",{{}}]"'),
            *turn(3, 3, f"{next(moment)} ACME call CP01 ClearCache {{}}"),
            *turn(3, 3, f'{next(moment)} ACME frame CP01 [3,"1",{{"status":"Accepted"}}]'),
        ]
        self.check("the lines", lines == expected, lines)

    def look_at_files(self):
        """Which journals a server begins in."""
        server = self.serve()
        server.kill()
        server.wait()
        with open(self.journal) as journal:
            self.check("another begin", re.search(r"\nturn . 3 3 [0-9a-f]{40}\nbegins 3 ACME,BETA\n$", journal.read()))
        other = self.path("other.db")
        head = "fault Journal: "
        changes = f"{head}another number of changes is on record\n{self.journal}\n"
        self.refused("the journal of other records", changes, db=other)
        foreign = self.path("foreign")
        with open(foreign, "w") as file:
            file.write("a line\n")
        self.refused("a file that is no journal", f"{head}it is no journal\n{foreign}\n", journal=foreign)
        with open(foreign, "w") as file:
            file.write("beginning")
        self.refused("a part of no mark", f"{head}it is no journal\n{foreign}\n", journal=foreign)
        begun = self.path("begun")
        for part in ("b", "begins 3 AC", "continues 1 3", "begi\udcff", "begi\udcff\udcff\n", "con\udcff\nbegin\udcff\nbeg"):
            left = part.encode("utf-8", "surrogateescape")
            with open(begun, "wb") as file:
                file.write(left)
            server = self.serve(journal=begun)
            server.kill()
            server.wait()
            with open(begun, "rb") as journal:
                data = journal.read()
            end = b"begins 3 ACME,BETA\n" if left.endswith(b"\n") else b"\xff\nbegins 3 ACME,BETA\n"
            self.check(f"a first line that is cut: {part!r}", data == left + end, data)
        nowhere = self.path("nowhere/journal")
        self.refused("no folder", f"{head}the file can't be opened\n{nowhere}\n", journal=nowhere)
        for cut in ("\n1704067200 ACME li", "\n1704067200 ACME list tags\ntur"):
            with open(self.journal, "rb+") as journal:
                journal.seek(-1, os.SEEK_END)
                journal.write(cut.encode())
            server = self.serve()
            server.kill()
            server.wait()
            with open(self.journal, "rb") as journal:
                data = journal.read()
            end = f"{cut}\udcff\nbegins 3 ACME,BETA\n".encode("utf-8", "surrogateescape")
            self.check(f"a line that is cut: {cut}", data.endswith(end), data[-200:])

    def look_at_followers(self):
        """What a follower makes of a journal, and which it refuses."""
        with open(self.journal, "rb") as journal:
            data = without_confirmations(journal.read())
        told = "follows: 3 changes on record\n"
        self.check("the journal", self.follow(data) == (0, told), self.follow(data))
        lines = data.splitlines(keepends=True)
        place = lines.index(next(line for line in lines if b"connect" in line))
        gap = (2, "fault Follow: Gap\n")
        self.check("a line left out", self.follow(b"".join(lines[:place] + lines[place + 1 :])) == gap)
        self.check("a line twice", self.follow(b"".join(lines[:place] + [lines[place]] + lines[place:])) == gap)
        altered = data.replace(b"connect CP01", b"connect CP02")
        self.check("a line that was altered", self.follow(altered) == gap)
        changes = (2, "fault Follow: Changes\n")
        self.check("a change left out", self.follow(b"".join(lines[:1] + lines[3:])) == changes)
        self.check("another begin", self.follow(data.replace(b"begins 3", b"begins 4", 1)) == changes)
        other = (2, "fault Follow: Operators\nthe journal is of ACME,BETA\n")
        self.check("other operators", self.follow(data, "ACME") == other)
        cut = (0, told + "warning: the last line of the journal is cut\n")
        self.check("a line that is cut", self.follow(data + b"1704067200 ACME li") == cut)
        waiting = (0, told + "warning: 1 events at the end of the journal have no mark, and were told to nobody\n")
        self.check("an event without a mark", self.follow(data + b"1704067200 ACME list tags\n") == waiting)
        self.check("a line that is no entry", self.follow(data + b"\xff\n") == (0, told))
        self.check("an event before a server begins", self.follow(b"".join(lines[1:])) == gap)
        self.check("a mark before a server begins", self.follow(b"taken 0 0 0\n" + data) == gap)
        self.check("the next file", self.follow(data + b"continues 1 3 ACME,BETA\n") == (0, told))
        self.check("a file left out", self.follow(data + b"continues 2 3 ACME,BETA\n") == gap)
        self.check("the next file of others", self.follow(data + b"continues 1 4 ACME,BETA\n") == changes)
        self.check("the next file alone", self.follow(b"continues 1 0 ACME,BETA\n") == gap)

    def look_at_sizes(self):
        """A journal in files of a size, which is followed as it grows."""
        db, journal, standby = self.path("sizes.db"), self.path("sizes.journal"), self.path("sizes_standby.db")
        server = self.serve("--journal-size", "5000", db=db, journal=journal)
        desk = Peer(kills.PORT, "/operator/ACME")
        follower = Follower(self.program, standby, journal, 0)
        # where no file can be made, it is told once, and the one of now grows
        os.mkdir(f"{journal}.next")
        for number in range(300):
            desk.ask(f"tag put A{number:03} - 0 -")
            time.sleep(0.001)
        os.rmdir(f"{journal}.next")
        self.check("no file can be begun", files_of(journal) == [journal], files_of(journal))
        end = time.monotonic() + 20
        number = 0
        while len(files_of(journal)) < 5 and time.monotonic() < end:
            desk.ask(f"tag put B{number:05} - 0 -")
            number += 1
        rows = desk.lines("1", "list tags")
        server.kill()
        warned = f"warning: the next file of the journal {journal} can't be begun\n"
        says = server.communicate()[1].decode()
        self.check("what the server says", says == warned, says)
        followed = follower.end()
        self.check("the follower", followed[0] == 0 and followed[1].endswith(f" {number + 300} changes on record\n"), followed)
        files = files_of(journal)
        self.check("some files", len(files) == 5, files)
        heads = []
        for name in files:
            with open(name) as file:
                heads.append(file.readline())
        counted = [f"continues {place} " for place in range(1, len(files))]
        self.check("their first lines", all(map(str.startswith, heads, ["begins 0 ", *counted])), heads)
        self.check("the owner alone", {os.stat(name).st_mode & 0o777 for name in files} == {0o600})
        data = whole(journal).decode()
        puts = re.findall(r" tag put (\S+)", data)
        wanted = [*(f"A{place:03}" for place in range(300)), *(f"B{place:05}" for place in range(number))]
        self.check("each event once", puts == wanted, (len(puts), len(wanted)))
        process = begun(subprocess.Popen(words(self.program, STANDBY_PORT, standby)), STANDBY_PORT)
        seen = Peer(STANDBY_PORT, "/operator/ACME").lines("1", "list tags")
        ended(process)
        self.check("the standby of files", seen == rows and len(rows) == number + 301, (len(seen), len(rows)))
        # a stop between two names: the file has its second name, and none has the first
        os.rename(journal, f"{journal}.29991231T235959Z")
        server = self.serve("--journal-size", "5000", db=db, journal=journal)
        server.kill()
        server.wait()
        with open(journal) as file:
            self.check("a stop between two names", file.read() == f"begins {number + 300} ACME,BETA\n")

    def look_at_a_limit(self):
        """A journal that can't grow. What is answered is there."""
        db, journal = self.path("limit.db"), self.path("limit.journal")
        server = self.serve(db=db, journal=journal, limit=400_000)
        desk = Peer(kills.PORT, "/operator/ACME")
        answered = 0
        with contextlib.suppress(SystemExit, OSError):
            for answered in range(20_000):
                desk.order(str(answered), f"list readings {'X' * 200}")
        says = server.communicate(timeout=20)[1].decode()
        seen = server.returncode == 2 and says == f"fault Journal: it can't be written\n{journal}\n"
        self.check("a journal that can't grow", seen, (server.returncode, says))
        with open(journal, "rb") as file:
            lines = file.read().count(b"list readings X")
        self.check("what is answered is in the journal", lines >= answered > 1000, (lines, answered))
        server = self.serve(db=db, journal=journal)
        seen = server.poll() is None
        server.kill()
        self.check("the journal goes on with room", seen, server.communicate()[1].decode())

    def look_at_failures(self):
        """A follower whose file can't grow, and one whose input fails. The records are those up to there."""
        data = whole(self.path("sizes.journal"))
        db = self.path("full.db")
        command = [self.program, "follow", "--db", db, "--operators", OPERATOR_LIST, "--journal"]
        options = {"stderr": subprocess.PIPE, "timeout": 60}
        process = subprocess.run([*command, "-"], input=data, preexec_fn=limited(600_000), **options)
        says = process.stderr.decode().splitlines()[-1]
        self.check("a full disk", (process.returncode, says) == (2, "fault Follow: Store"), process)
        server = begun(subprocess.Popen(words(self.program, STANDBY_PORT, db)), STANDBY_PORT)
        rows = Peer(STANDBY_PORT, "/operator/ACME").lines("1", "list tags")
        ended(server)
        tags = [row.split(" ")[3].strip('"') for row in rows[:-1]]
        puts = re.findall(r" tag put (\S+)", data.decode())
        self.check("what a full disk leaves", tags == sorted(puts[: len(tags)], key=str.lower) and tags, (tags[:2], rows[:2]))
        process = subprocess.run([*command, self.folder], **options)
        says = process.stderr.decode().splitlines()[-1]
        self.check("an input that fails", (process.returncode, says) == (2, "fault Follow: Read"), process)

    def look_at_a_takeover(self):
        """A standby that serves once its input ends."""
        db, journal, standby = self.path("first.db"), self.path("first.journal"), self.path("second.db")
        server = self.serve(db=db, journal=journal)
        desk = Peer(kills.PORT, "/operator/ACME")
        command = words(self.program, STANDBY_PORT, standby, "--follow", "-")
        follower = subprocess.Popen(command, stdin=subprocess.PIPE, stderr=subprocess.PIPE)
        for number in range(200):
            desk.ask(f"tag put T{number:03} - 0 -")
            if number == 100:
                with open(journal, "rb") as file:
                    place = follower.stdin.write(file.read())
                follower.stdin.flush()
        rows = desk.lines("1", "list tags")
        server.kill()
        server.wait()
        with open(journal, "rb") as file:
            file.seek(place)
            follower.stdin.write(file.read())
        self.check("it doesn't serve yet", not list(listening_for(STANDBY_PORT)))
        begun_at = time.monotonic()
        follower.stdin.close()
        begun(follower, STANDBY_PORT)
        peer = Peer(STANDBY_PORT, "/operator/ACME")
        seen = peer.lines("1", "list tags")
        took = time.monotonic() - begun_at
        self.check("the standby serves", seen == rows and len(rows) == 201, seen[:3])
        self.check("it serves within 2 s", took < 2, took)
        ended(follower)


def listening_for(port):
    """Who answers a health check at a port. One that follows listens, and serves nobody."""
    with contextlib.suppress(OSError):
        with socket.create_connection(("127.0.0.1", port), timeout=0.2) as stream:
            stream.sendall(b"GET /health HTTP/1.1\r\nHost: 127.0.0.1\r\n\r\n")
            if stream.recv(100):
                yield port


def limited(size):
    """Has a process's files grow up to so many bytes, with an error and without a signal."""

    def limit():
        signal.signal(signal.SIGXFSZ, signal.SIG_IGN)
        resource.setrlimit(resource.RLIMIT_FSIZE, (size, size))

    return limit


def main():
    count = int(sys.argv[2]) if len(sys.argv) > 2 else 50
    seed = sys.argv[3] if len(sys.argv) > 3 else "1"
    with tempfile.TemporaryDirectory() as folder:
        day = Day(os.path.abspath(sys.argv[1]), folder, seed)
        Lines(day, day.program, folder).run()
        day.begin()
        for number in range(1, count + 1):
            day.one_kill(number)
        steps = sum(load.steps for load in day.loads)
        size = len(whole(day.journal))
        print(f"{count} kills, {steps} changes acknowledged, {day.made} of {day.in_flight} in flight found made")
        print(f"a journal of {size} bytes in {len(files_of(day.journal))} files, {size // max(steps, 1)} a change")
    day.end()


if __name__ == "__main__":
    main()
