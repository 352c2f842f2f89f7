"""Kills the server at random moments under a load of eight stations and two operators, and opens its file again each
time. All that was acknowledged is to be on record, and what was in flight whole or not at all. Each stopped transaction
that began with a granted tag has settled one use, and numbers go on. Then kills it as it opens copies of files of each
earlier schema: each has that schema or this one, whole, and its records. Prints how many of the changes in flight were
found made, how many uses there are, how many of the copies were found with this schema, then `N passed, M failed`.

    python3 checks/kills.py crates/central/out/central [KILLS] [SEED] [WORDS..]

The words are handed to `serve`.
"""

import contextlib
import itertools
import json
import os
import random
import re
import shutil
import sqlite3
import subprocess
import sys
import tempfile
import threading
import time

from harness import EARLIER, MORE, SCHEMA, SCRIPTS, Counts, begun, copy_database
from peer import BOOT, Peer

PORT = 9289
# More words for `serve`.
WORDS = sys.argv[4:] if __name__ == "__main__" else []
OPERATORS = {"ACME": "BETA", "BETA": "ACME"}
STATIONS = {op: [f"CP{n}" for n in range(1, 5)] for op in OPERATORS}
AT = '"timestamp":"2024-01-01T00:00:00Z"'
MS = 1704067200000
EXPIRY = 4070908800
GONE = (SystemExit, OSError)
STATUSES = {
    "Diagnostics": ("Idle", "Uploaded", "UploadFailed", "Uploading"),
    "Firmware": ("Downloaded", "DownloadFailed", "Installing", "Installed"),
}


def granted_tag(owner, name):
    """The tag that an owner grants to the other operator, for a station of the other with this name."""
    return f"ROAM{owner}{name}"


class Load:
    """What one peer does, step by step, and the rows of the lists that its steps change."""

    def __init__(self, owner, lists, seed):
        self.owner = owner
        self.random = random.Random(seed)
        # rows by listing, as they are acknowledged
        self.rows = {name: [] for name in lists}
        # the rows of the lists that a request in flight changes, once it is made
        self.flight = {}
        self.steps = 0

    def run(self, turn):
        """Steps until the server is gone."""
        self.flight = {}
        with contextlib.suppress(*GONE):
            self.peer = Peer(PORT, self.path, patience=10)
            self.begin()
            while not turn.is_set():
                self.flight = self.step()
                self.rows.update(self.flight)
                self.flight = {}
                self.steps += 1

    def found(self, listed):
        """Whether the lists are as acknowledged (0), or with the change in flight (1), or neither (None)."""
        if all(listed[name] == rows for name, rows in self.rows.items()):
            return 0
        made = {**self.rows, **self.flight}
        return 1 if self.flight and all(listed[name] == rows for name, rows in made.items()) else None


def number_of(row):
    """The number of a transaction or of a reading."""
    return int(row.split(" ")[4])


def last_number(rows):
    return number_of(rows[-1]) if rows else 0


class Station(Load):
    """Starts and stops transactions, and sends readings and reports. A stop has a reading too. Some are closed instead.
    Its operator forgets its history, now and then."""

    def __init__(self, op, name, seed):
        lists = [f"{what} {name}" for what in ("transactions", "readings", "connectors", "reports")]
        super().__init__(op, lists, seed)
        self.op, self.name, self.path = op, name, f"/ocpp/{op}/{name}"
        self.transactions, self.readings, self.connectors, self.reports = self.rows
        self.granted = granted_tag(OPERATORS[op], name)
        # of each transaction that was stopped: the second before which its stop wasn't sent, and that in which it was answered
        self.stops = {}
        # the Wh of each that began with the granted tag, and is stopped
        self.energy = {}
        # how many rows were forgotten
        self.forgotten = 0
        # what its meter shows, another value at each step, also after one that a kill cut off
        self.meter = 0

    def begin(self):
        now = int(time.time())
        self.stops = {number: (sent, now if seen is None else seen) for number, (sent, seen) in self.stops.items()}
        self.desk = Peer(PORT, f"/operator/{self.op}", patience=10)
        self.ask(BOOT)

    def close(self, number, meter):
        """Closes a transaction as its operator."""
        answer = self.desk.order(self.name, f"transaction close {self.name} {number} {meter}")
        if answer != [self.op, "ok"]:
            raise AssertionError(f"{self.name}: transaction {number}: {answer}")

    def stopping(self, number):
        """A stop is about to be sent. The moment of its turn may be of the second before."""
        self.stops[number] = (int(time.time()) - 1, None)

    def stopped(self, number):
        self.stops[number] = (self.stops[number][0], int(time.time()))

    def old(self, until):
        """The transactions and the readings that one order forgets up to a second. None where a stop may have come in it
        or not."""
        rows, readings = self.rows[self.transactions], self.rows[self.readings]
        over = set()
        for number in (number_of(row) for row in rows if not row.endswith(" - - - -")):
            sent, seen = self.stops[number]
            if seen < until:
                over.add(number)
            elif sent < until:
                return None
        stays = {str(number) for number in map(number_of, rows) if number not in over}
        # the readings of a meter value have one text, and those of the next another
        values = [list(value) for _, value in itertools.groupby(readings, lambda row: row.split(" ")[-1])]
        old = [row for value in values[:-1][:250] for row in value if row.split(" ")[6] not in stays]
        if old:
            return [], old
        named = {row.split(" ")[6] for row in readings}
        return [row for row in rows[:-1][:250] if number_of(row) in over and str(number_of(row)) not in named], []

    def forget(self):
        """Its operator forgets what is so old as can be told. What is on record then."""
        self.note()
        now = int(time.time())
        for until in range(now - 1, now - 9, -1):
            if (old := self.old(until)) is not None:
                break
        else:
            return {}
        gone, readings = map(set, old)
        self.flight = {
            self.transactions: [row for row in self.rows[self.transactions] if row not in gone],
            self.readings: [row for row in self.rows[self.readings] if row not in readings],
        }
        answer = self.desk.lines(self.name, f"forget {self.name} {until}")
        counts = f"{self.op} row forgotten {self.name} {len(gone)} {len(readings)}"
        if answer != [counts, f"{self.op} ok"]:
            raise AssertionError(f"{self.name}: forget: {answer}, not {counts}")
        self.forgotten += len(gone) + len(readings)
        return self.flight

    def ask(self, text):
        """The answer to a text. Calls of the server that come before it are accepted."""
        self.peer.send(text)
        while True:
            message = json.loads(self.peer.next())
            if message[0] != 2:
                return message
            self.peer.send(f'[3,"{message[1]}",{{"status":"Accepted"}}]')

    def reading(self, value, transaction, after=0):
        number = last_number(self.rows[self.readings]) + 1 + after
        return (
            f"{self.op} row reading {self.name} {number} 1 {transaction} {MS} Sample.Periodic Raw "
            f'Energy.Active.Import.Register - Outlet - {value * 1_000_000} "{value}"'
        )

    def note(self):
        """Keeps the Wh of its transactions on record that are stopped and began with the granted tag."""
        words = [row.split(" ") for row in self.rows[self.transactions] if f' "{self.granted}" ' in row]
        self.energy.update({int(row[4]): int(row[11]) - int(row[8]) for row in words if row[11] != "-"})

    def energies(self):
        """The Wh of its transactions that are stopped and began with the granted tag, of those that are forgotten too."""
        self.note()
        return [self.energy[number] for number in sorted(self.energy)]

    def step(self):
        self.meter += 1
        rows = self.rows[self.transactions]
        number = last_number(rows)
        is_open = bool(rows) and rows[-1].endswith(" - - - -")
        what = self.random.choice(("turn", "turn", "meter", "status", "report", "forget"))
        if what == "forget":
            return self.forget()
        if what == "report":
            kind = self.random.choice(list(STATUSES))
            status = self.random.choice(STATUSES[kind])
            front = f"{self.op} row report {self.name} {kind} "
            others = [row for row in self.rows[self.reports] if not row.startswith(front)]
            flight = {self.reports: sorted([*others, f"{front}{status} T"])}
            text = f'[2,"r","{kind}StatusNotification",{{"status":"{status}"}}]'
        elif what == "status":
            status = self.random.choice(("Available", "Charging", "Faulted"))
            flight = {self.connectors: [f"{self.op} row connector {self.name} 1 {status} NoError {MS} - - -"]}
            text = f'[2,"n","StatusNotification",{{"connectorId":1,"errorCode":"NoError","status":"{status}",{AT}}}]'
        elif what == "meter":
            value, count = self.meter, self.random.randint(1, 3)
            added = [self.reading(value, "-", n) for n in range(count)]
            flight = {self.readings: self.rows[self.readings] + added}
            values = ",".join([f'{{"value":"{value}"}}'] * count)
            text = (
                f'[2,"m","MeterValues",{{"connectorId":1,"meterValue":[{{"sampledValue":[{values}],{AT}}}]}}]'
            )
        elif is_open and self.random.random() < 0.3:
            value = self.meter
            self.flight = {self.transactions: rows[:-1] + [f"{rows[-1].removesuffix(' - - - -')} {value} T Other -"]}
            self.stopping(number)
            self.close(number, value)
            self.stopped(number)
            return self.flight
        elif is_open:
            head = rows[-1].removesuffix(" - - - -")
            value = self.meter
            flight = {
                self.transactions: rows[:-1] + [f"{head} {value} {MS} Local -"],
                self.readings: self.rows[self.readings] + [self.reading(value, number)],
            }
            data = f'"transactionData":[{{"sampledValue":[{{"value":"{value}"}}],{AT}}}]'
            text = f'[2,"e","StopTransaction",{{"meterStop":{value},{AT},"transactionId":{number},{data}}}]'
        else:
            meter = self.meter
            tag = self.random.choice((f"OWN{self.name}", self.granted))
            row = f'{self.op} row transaction {self.name} {number + 1} 1 "{tag}" Accepted {meter} {MS} - - - - -'
            flight = {self.transactions: rows + [row]}
            text = f'[2,"s","StartTransaction",{{"connectorId":1,"idTag":"{tag}","meterStart":{meter},{AT}}}]'
        self.flight = flight
        is_stop = "StopTransaction" in text
        if is_stop:
            self.stopping(number)
        answer = self.ask(text)
        if answer[0] != 3:
            raise AssertionError(f"{self.name}: {answer}")
        if is_stop:
            self.stopped(number)
        return flight


class Operator(Load):
    """Puts and drops tags, grants them and takes them back, reserves connectors and sends local lists."""

    def __init__(self, op, seed):
        lists = ["tags", "grants", *(f"{what} {name}" for name in STATIONS[op] for what in ("reservations", "locallist"))]
        super().__init__(op, lists, seed)
        self.op, self.path = op, f"/operator/{op}"
        granted = [granted_tag(op, name) for name in STATIONS[op]]
        own = [f"OWN{name}" for name in STATIONS[op]]
        self.rows["tags"] = [f'{op} row tag "{tag}" - 0 -' for tag in sorted(granted + own)]
        self.rows["grants"] = [f'{op} row grant "{tag.lower()}" {OPERATORS[op]} -' for tag in granted]
        self.rows.update({f"locallist {name}": [f"{op} row locallist {name} 0"] for name in STATIONS[op]})
        self.version = 0

    def begin(self):
        pass

    def answer(self, text):
        """The answer to an order, or the end of the call that it makes."""
        answer = self.peer.order("desk", text)
        if answer[1] == "refused":
            return "refused " + answer[3]
        if len(answer) == 2:
            return "ok"
        while (line := self.peer.next().split(" "))[2:3] != ["done"]:
            pass
        return " ".join(line[4:])

    def step(self):
        name = f"T{self.random.randint(1, 6)}"
        station = self.random.choice(STATIONS[self.op])
        tags, grants = self.rows["tags"], self.rows["grants"]
        tag = f'{self.op} row tag "{name}" - 0 -'
        grant = f'{self.op} row grant "{name.lower()}" {OPERATORS[self.op]} -'
        what = self.random.choice(("put", "drop", "grant", "revoke", "reserve", "cancel", "list"))
        if what == "put":
            flight, text = {"tags": sorted({*tags, tag})}, f"tag put {name} - 0 -"
        elif what == "drop":
            flight = {"tags": [row for row in tags if row != tag], "grants": [row for row in grants if row != grant]}
            text = f"tag drop {name}"
        elif what == "grant":
            made = sorted({*grants, grant}) if tag in tags else grants
            flight, text = {"grants": made}, f"grant {name} {OPERATORS[self.op]} -"
        elif what == "revoke":
            flight = {"grants": [row for row in grants if row != grant]}
            text = f"revoke {name} {OPERATORS[self.op]}"
        elif what == "list":
            self.version += 1
            entry = f'{{"idTag":"{name}","idTagInfo":{{"status":"Accepted"}}}}'
            rows = [f"{self.op} row locallist {station} {self.version}", f"{self.op} row localtag {station} {entry}"]
            flight = {f"locallist {station}": rows}
            text = (
                f'call {station} SendLocalList {{"listVersion":{self.version},"localAuthorizationList":[{entry}],'
                '"updateType":"Full"}'
            )
        else:
            flight, text = self.reservation(what, station)
        self.flight = flight
        answer = self.answer(text)
        # one that is refused, and a call whose station isn't connected yet, changes nothing
        return flight if answer == "ok" or answer == 'Answer {"status":"Accepted"}' else {}

    def reservation(self, what, station):
        name = f"reservations {station}"
        row = f'{self.op} row reservation {station} 1 1 "OWN{station}" - {EXPIRY}'
        if what == "reserve":
            text = (
                f'call {station} ReserveNow {{"connectorId":1,"expiryDate":"2099-01-01T00:00:00Z","idTag":"OWN{station}",'
                '"reservationId":1}'
            )
            return {name: [row]}, text
        return {name: []}, f'call {station} CancelReservation {{"reservationId":1}}'


def server_words(program, db):
    return [program, "serve", "--port", str(PORT), "--db", db, "--operators", "ACME,BETA", "--log", "none", *WORDS]


class Server:
    def __init__(self, program, db):
        self.process = begun(subprocess.Popen(server_words(program, db)), PORT)

    def kill(self):
        self.process.kill()
        self.process.wait()


def row_of(line):
    """A row of a listing, with T for the moment of a report and of a close."""
    line = re.sub(r"^(\S+ row transaction .*) \d+ Other -$", r"\1 T Other -", line)
    return re.sub(r"^(\S+ row report .*) \d+$", r"\1 T", line)


def listing(peer, name):
    """The rows of a listing."""
    peer.send(f"list {name}")
    rows = []
    while not (line := peer.next()).endswith(" ok"):
        rows.append(row_of(line))
    return rows


@contextlib.contextmanager
def copied(db, folder):
    """SQLite over a copy of the database."""
    path = os.path.join(folder, "copy.db")
    copy_database(db, path)
    with contextlib.closing(sqlite3.connect(path)) as database:
        yield database


def whole(db, folder):
    """What SQLite finds wrong in a copy of the database, if anything."""
    with copied(db, folder) as database:
        return database.execute("PRAGMA integrity_check").fetchall()


def schema(db, folder):
    """The number of the schema of a database, and its tables beside those of schema 1."""
    with copied(db, folder) as database:
        tables = [name for (name,) in database.execute("SELECT name FROM sqlite_master WHERE type = 'table' ORDER BY name")]
        number = database.execute("SELECT number FROM hub_meta WHERE name = 'schema'").fetchone()[0]
        return number, [name for name in tables if name in MORE[SCHEMA]]


def records_of(name):
    """The listings of the file of an earlier schema: operator, name and rows of each."""
    script = SCRIPTS / name
    asked = re.findall(r"^\d+ (\S+) list (.*)$", script.with_suffix(".script").read_text(), re.M)
    blocks = re.split(r"^\S+ ok\n", script.with_suffix(".expected").read_text(), flags=re.M)[:-1]
    rows = [[row_of(line) for line in block.splitlines() if line.split(" ")[1] == "row"] for block in blocks[-len(asked) :]]
    return [(op, name, listed) for (op, name), listed in zip(asked, rows)]


class Checks(Counts):
    def __init__(self, program, folder, seed):
        self.program, self.folder = program, folder
        self.db = os.path.join(folder, "hub.db")
        self.random = random.Random(seed)
        self.loads = [Operator(op, f"{seed}{op}") for op in OPERATORS]
        self.loads += [Station(op, name, f"{seed}{op}{name}") for op in OPERATORS for name in STATIONS[op]]
        self.uses = {}
        self.in_flight = self.made = 0

    def check(self, what, passes, seen=""):
        if passes:
            self.passed += 1
        else:
            self.failed += 1
            print(f"{what}\n  {seen}", flush=True)

    def begin(self):
        """The stations are added, and each has a tag that stays, and one that the other operator grants."""
        server = Server(self.program, self.db)
        for op in OPERATORS:
            peer = Peer(PORT, f"/operator/{op}")
            for name in STATIONS[op]:
                peer.ask(f"station add {name} Accepted 300")
                peer.ask(f"tag put OWN{name} - 0 -")
                peer.ask(f"tag put {granted_tag(op, name)} - 0 -")
                peer.ask(f"grant {granted_tag(op, name)} {OPERATORS[op]} -")
        server.kill()

    def one_kill(self, number):
        server = Server(self.program, self.db)
        turn = threading.Event()
        threads = [threading.Thread(target=load.run, args=(turn,)) for load in self.loads]
        for thread in threads:
            thread.start()
        time.sleep(self.random.uniform(0.02, 0.4))
        server.kill()
        turn.set()
        for thread in threads:
            thread.join()
        self.look(number)

    def look(self, number):
        """What is on record after a kill."""
        self.check(f"kill {number}: the database", whole(self.db, self.folder) == [("ok",)])
        server = Server(self.program, self.db)
        peers = {op: Peer(PORT, f"/operator/{op}") for op in OPERATORS}
        for load in self.loads:
            listed = {name: listing(peers[load.owner], name) for name in load.rows}
            found = load.found(listed)
            differ = {name: (listed[name], rows) for name, rows in load.rows.items() if listed[name] != rows}
            self.check(f"kill {number}: {load.path}", found is not None, (differ, load.flight))
            self.in_flight += bool(load.flight)
            self.made += found == 1
            load.rows.update(listed)
        for owner, host in OPERATORS.items():
            self.look_at_uses(number, listing(peers[owner], "uses"), owner, host)
        server.kill()

    def look_at_uses(self, number, uses, owner, host):
        """An owner's uses are numbered without gaps, and those of each tag are the energies of the transactions on record
        that began with it and are stopped."""
        words = [row.split(" ") for row in uses]
        counted = [[owner, "row", "use", str(place), host] for place in range(1, len(words) + 1)]
        self.check(f"kill {number}: the uses of {owner}", [use[:5] for use in words] == counted, uses)
        stations = [load for load in self.loads if load.owner == host and isinstance(load, Station)]
        for load in stations:
            settled = [int(use[7]) for use in words if use[5] == f'"{load.granted.lower()}"']
            self.check(f"kill {number}: uses at {load.path}", settled == load.energies(), (settled, load.energies()))
        self.uses[owner] = len(words)

    def kill_as_it_opens(self, number, earlier, records):
        """Kills the server as it opens a copy of the file of an earlier schema. Whether the copy has this schema then."""
        db = os.path.join(self.folder, f"earlier{number}.db")
        shutil.copy(SCRIPTS / f"{EARLIER[earlier]}.db", db)
        process = subprocess.Popen(server_words(self.program, db))
        time.sleep(self.random.uniform(0, 0.02))
        process.kill()
        process.wait()
        found = schema(db, self.folder)
        self.check(f"kill {number} at the start: the schema", found in [(n, MORE[n]) for n in (earlier, SCHEMA)], found)
        self.check(f"kill {number} at the start: the database", whole(db, self.folder) == [("ok",)])
        server = Server(self.program, db)
        peers = {op: Peer(PORT, f"/operator/{op}") for op in OPERATORS}
        listed = [(op, name, listing(peers[op], name)) for op, name, _ in records]
        self.check(f"kill {number} at the start: the records", listed == records, listed)
        more = [listing(peers[op], "uses") for op in OPERATORS if earlier < 3]
        more += [listing(peers["ACME"], "reports CP01")] if earlier == 1 else []
        self.check(f"kill {number} at the start: no records of later schemas", not any(more), more)
        server.kill()
        return found[0] == SCHEMA


def main():
    kills = int(sys.argv[2]) if len(sys.argv) > 2 else 200
    seed = sys.argv[3] if len(sys.argv) > 3 else "1"
    with tempfile.TemporaryDirectory() as folder:
        checks = Checks(os.path.abspath(sys.argv[1]), folder, seed)
        checks.begin()
        for number in range(1, kills + 1):
            checks.one_kill(number)
        steps = sum(load.steps for load in checks.loads)
        print(f"{kills} kills, {steps} changes acknowledged, {checks.made} of {checks.in_flight} in flight found made")
        forgotten = sum(load.forgotten for load in checks.loads if isinstance(load, Station))
        print(f"{sum(checks.uses.values())} uses on record, {forgotten} rows forgotten")
        records = {number: records_of(name) for number, name in EARLIER.items()}
        earlier = [(number, number % len(EARLIER) + 1) for number in range(1, kills + 1)]
        migrated = sum(checks.kill_as_it_opens(number, old, records[old]) for number, old in earlier)
        print(f"{kills} kills at the start, {migrated} files found with schema {SCHEMA}")
    checks.end()


if __name__ == "__main__":
    main()
