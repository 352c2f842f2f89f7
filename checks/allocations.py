"""Checks that a refused allocation costs no more than the event that met it, or its turn where changes are committed
together. Each allocation of replays, of the opening of a file of each earlier schema, of a session at the server, of one
at a server with a journal and of what follows that is refused once, by refusing_malloc.c under the built program. Prints
a line for each scenario, then `N passed, M failed`. With --small it refuses fewer.

    python3 checks/allocations.py crates/central/out/central [--small]

What is refused are the calls of the C library's allocator, so the program has to be linked to that dynamically.
"""

import collections
import contextlib
import os
import re
import shutil
import sqlite3
import subprocess
import sys
import tempfile
import time
from pathlib import Path

from harness import EARLIER, MORE, SCHEMA, SCRIPTS, TIME, Counts, listening, remove_database
from peer import BOOT, Peer
from preloaded import Preloaded

PORT = 9287
REPLAYED = (
    "stations/boot_and_heartbeat",
    "transactions/start_repeated",
    "commands/calls_of_a_station",
    "reservations/reservations",
    "local_lists/local_list_of_a_station",
    "reports/reports_of_a_station",
    "uses/use_of_a_granted_tag",
    "uses/use_of_a_closed_transaction",
    "history/uses_outlive_what_is_forgotten",
)
NEVER, ALWAYS = 0, (1 << 64) - 1
ANSWER = re.compile(r'(.* frame \S+ \[3,")(\d+)(".*)', re.DOTALL)
SERVED_LINE = re.compile(r"\[(INFO |WARN |ERROR) .*|fault NoMemory")

# What is on record before the session, and what each of its stations sends.
RECORDED = """\
1704067200 ACME station add CP01 Accepted 300
1704067200 ACME tag put SIM1 - 0 -
1704067200 BETA station add CP02 Accepted 300
1704067200 BETA tag put SIM1 - 0 -
"""
PATHS = {"ACME": "/ocpp/ACME/CP01", "BETA": "/ocpp/BETA/CP02"}
LISTED = {"ACME": "list transactions CP01", "BETA": "list transactions CP02"}
AT = '"timestamp":"2024-01-01T00:00:00Z"'
TEXTS = (
    BOOT,
    '[2,"2","Authorize",{"idTag":"SIM1"}]',
    f'[2,"3","StartTransaction",{{"connectorId":1,"idTag":"SIM1","meterStart":0,{AT}}}]',
    f'[2,"4","MeterValues",{{"connectorId":1,"meterValue":[{{"sampledValue":[{{"value":"5"}}],{AT}}}],"transactionId":1}}]',
    f'[2,"5","StopTransaction",{{"idTag":"SIM1","meterStop":9,{AT},"transactionId":1}}]',
    '[2,"6","FirmwareStatusNotification",{"status":"Installed"}]',
)


class Allocator(Preloaded):
    """The library under the program."""

    def __init__(self, folder):
        super().__init__(folder, "refusing_malloc", "REFUSING_MALLOC", "4Q")

    def refuse(self, first, last):
        self.write(0, first, last, 0)

    @property
    def count(self):
        return self.read()[0]

    @property
    def refused(self):
        return self.read()[3]


class Checks(Counts):
    def __init__(self, program, folder, small):
        self.program = program
        self.folder = folder
        self.small = small
        self.allocator = Allocator(folder)
        self.files = 0

    def new_file(self):
        """The path of a database that isn't there yet."""
        self.files += 1
        return os.path.join(self.folder, f"{self.files}.db")

    def check(self, what, fault, seen=""):
        """Counts a check, in which no fault is a pass."""
        if not fault:
            self.passed += 1
        else:
            self.failed += 1
            print(f"{what}: {fault}\n  {seen}")

    def replay(self, lines, db=None, first=NEVER, last=NEVER, commit="each"):
        """The status of a replay, its output and its errors. The allocations from the first to the last are refused."""
        words = [self.program, "replay", "--operators", "ACME,BETA", *(["--db", db] if db else []), "--commit", commit]
        self.allocator.refuse(first, last)
        ran = subprocess.run(
            words, input=lines.encode(), capture_output=True, timeout=60, env=self.allocator.environment
        )
        return ran.returncode, ran.stdout.decode(errors="replace"), ran.stderr.decode(errors="replace")


def spread(first, last, count):
    """So many numbers from the first to the last, evenly spread, or all where they are fewer."""
    span = last - first + 1
    return [first + n * span // count for n in range(count)] if span > count else list(range(first, last + 1))


def steps_of(script):
    """The lines of a script in steps. The answer of a station is of the step of the line before it."""
    steps = []
    for line in script.splitlines(keepends=True):
        if ANSWER.match(line):
            steps[-1].append(line)
        else:
            steps.append([line])
    return steps


def joined(steps):
    return "".join(line for step in steps for line in step)


def rest_of(steps, done):
    """The lines after so many steps, for a new process: stations connect again, and calls are counted from 1."""
    before = [line for step in steps[:done] for line in step]
    calls = sum(" call " in line for line in before)
    connects = [line for line in before if " connect " in line]
    return "".join(connects) + "".join(
        ANSWER.sub(lambda found: f"{found[1]}{int(found[2]) - calls}{found[3]}", line)
        for step in steps[done:]
        for line in step
    )


def records(db):
    """All rows of a database, and whether SQLite finds it whole."""
    with contextlib.closing(sqlite3.connect(db)) as database:
        tables = database.execute("SELECT name FROM sqlite_master WHERE type = 'table' ORDER BY name").fetchall()
        rows = {table: sorted(database.execute(f"SELECT * FROM {table}"), key=repr) for (table,) in tables}
        return rows, database.execute("PRAGMA integrity_check").fetchall()


def counted(rows):
    """Takes the count of changes out of the rows of a database, and gives it."""
    counts = [row for row in rows["hub_meta"] if row[0] == "changes"]
    rows["hub_meta"] = [row for row in rows["hub_meta"] if row not in counts]
    return sum(count for _, count in counts)


def ending(ran, whole):
    """How a replay ended whose whole output would be that, or None where it may not end so."""
    status, text, errors = ran
    if (status, errors) == (0, ""):
        return "whole" if text == whole else None
    if not text:
        return start_fault(status, errors)
    is_front = whole.startswith(text) and text.endswith("\n")
    return "fault NoMemory after lines" if (status, errors, is_front) == (2, "fault NoMemory\n", True) else None


def start_fault(status, errors):
    """How a run ended that printed nothing, or None where it may not end so."""
    return "fault NoMemory, nothing printed" if (status, errors) == (2, "fault NoMemory\n") else None


class Script:
    """A script of events, and what it gives where nothing is refused."""

    def __init__(self, checks, name):
        self.name = name
        self.steps = steps_of((SCRIPTS / f"{name}.script").read_text())
        self.lines = joined(self.steps)
        self.whole = (SCRIPTS / f"{name}.expected").read_text()
        parts = [checks.replay(joined(self.steps[:done]))[1] for done in range(len(self.steps) + 1)]
        self.ends = [part.count("\n") for part in parts]

    def done(self, text):
        """How many steps have all their lines in an output."""
        count = text.count("\n")
        return max(done for done, end in enumerate(self.ends) if end <= count)


def numbers_of(checks, first, count):
    """The allocations that are refused, from the first to the last of them."""
    if not checks.small:
        return list(range(first, count + 1))
    return [*range(first, min(first + 50, count + 1)), *spread(first + 50, count, 150)]


def told(scenario, count, endings):
    """Prints how the runs of a scenario ended."""
    seen = ", ".join(f"{times} {how}" for how, times in endings.most_common())
    print(f"{scenario}: {count} allocations, {endings.total()} refused runs: {seen}", flush=True)


def check_in_memory(checks, script, last_of, what):
    """Replays in memory, of which each refuses the allocations from one number on, up to the last."""
    scenario = f"{script.name} in memory, {what}"
    wanted = (0, script.whole, "")
    checks.check(scenario, checks.replay(script.lines) != wanted and "a run that isn't refused")
    count = checks.allocator.count
    endings = collections.Counter()
    for number in numbers_of(checks, 1, count):
        ran = checks.replay(script.lines, first=number, last=last_of(number))
        how = ending(ran, script.whole)
        endings[how or "OTHERWISE"] += 1
        checks.check(f"{scenario}, allocation {number}", not how and "another end", ran)
        checks.check(f"{scenario}, allocation {number}", not checks.allocator.refused and "nothing was refused")
    told(scenario, count, endings)


def check_over_a_file(checks, script, start, commit):
    """Replays over a file, of which each refuses one allocation after so many. After a fault another replay goes on, and
    leaves the records of a whole run. A change whose answer couldn't be printed is made again, and is counted twice."""
    scenario = f"{script.name} over a file, --commit {commit}, one refused"
    db = checks.new_file()
    whole = checks.replay(script.lines, db, commit=commit)
    checks.check(scenario, whole != (0, script.whole, "") and "a run that isn't refused")
    count, wanted = checks.allocator.count, records(db)
    changes = counted(wanted[0])
    endings = collections.Counter()
    for number in numbers_of(checks, start + 1, count):
        db = checks.new_file()
        ran = checks.replay(script.lines, db, number, number, commit)
        how = ending(ran, script.whole)
        endings[how or "OTHERWISE"] += 1
        checks.check(f"{scenario}, allocation {number}", not how and "another end", ran)
        rest = checks.replay(rest_of(script.steps, script.done(ran[1])), db)
        checks.check(f"{scenario}, allocation {number}", (rest[0], rest[2]) != (0, "") and "the rest", rest)
        kept = records(db)
        more = counted(kept[0]) - changes
        checks.check(f"{scenario}, allocation {number}", kept != wanted and "other records", (ran, rest, kept))
        checks.check(f"{scenario}, allocation {number}", more not in (0, 1) and "another count", (ran, rest, more))
        remove_database(db)
    told(scenario, count, endings)


def check_replays(checks):
    """All scripts. The start over a file is the same for each, so its allocations are refused with the first alone."""
    start = 0
    for name in REPLAYED:
        script = Script(checks, name)
        check_in_memory(checks, script, lambda number: number, "one refused")
        check_in_memory(checks, script, lambda _: ALWAYS, "all refused from one on")
        check_over_a_file(checks, script, start, "each")
        check_over_a_file(checks, script, start, "turn")
        checks.replay("", checks.new_file())
        start = checks.allocator.count


def schema(db):
    """The number of the schema of a database, and its tables beside those of schema 1."""
    rows = records(db)[0]
    return dict(rows["hub_meta"])["schema"], sorted(table for table in rows if table in MORE[SCHEMA])


def check_earlier_schema(checks, earlier):
    """Copies of a file of an earlier schema are opened, each with one allocation refused. Each has that schema or
    this one then, whole, and a replay over it lists what was on record."""
    scenario = f"a file of schema {earlier} is opened, one refused"
    script = SCRIPTS / EARLIER[earlier]
    lines, wanted = (script.with_suffix(end).read_text() for end in (".opened", ".opened_expected"))

    def opened(number):
        db = checks.new_file()
        shutil.copy(script.with_suffix(".db"), db)
        return db, checks.replay("", db, number, number)

    _, ran = opened(NEVER)
    checks.check(scenario, ran != (0, "", "") and "a run that isn't refused", ran)
    count = checks.allocator.count
    endings = collections.Counter()
    for number in numbers_of(checks, 1, count):
        db, ran = opened(number)
        how, found = ending(ran, ""), schema(db)
        endings[f"{how or 'OTHERWISE'}, schema {found[0]}"] += 1
        checks.check(f"{scenario}, allocation {number}", not how and "another end", ran)
        is_whole = found in [(n, MORE[n]) for n in (earlier, SCHEMA)]
        checks.check(f"{scenario}, allocation {number}", not is_whole and "the schema", found)
        again = checks.replay(lines, db)
        checks.check(f"{scenario}, allocation {number}", again != (0, wanted, "") and "other records", again)
        remove_database(db)
    told(scenario, count, endings)


def copied(checks, recorded):
    """The path of a copy of a file."""
    db = checks.new_file()
    for end in ("", "-wal"):
        if os.path.exists(recorded + end):
            shutil.copy(recorded + end, db + end)
    return db


class Server:
    """A server over a file, with or without a journal. It listens, or has ended, once it is made."""

    def __init__(self, checks, db, first, keeps=False, commit="turn"):
        self.allocator = checks.allocator
        self.db = db
        self.allocator.refuse(first, first)
        self.log = tempfile.TemporaryFile("w+")
        words = [checks.program, "serve", "--port", str(PORT), "--db", self.db, "--operators", "ACME,BETA"]
        words += ["--commit", commit]
        words += ["--journal", f"{db}.journal"] if keeps else []
        self.process = subprocess.Popen(
            words, stdout=self.log, stderr=self.log, stdin=subprocess.DEVNULL, env=self.allocator.environment
        )
        while self.lives() and not list(listening(PORT)):
            time.sleep(0.005)
        self.rest()

    def lives(self):
        return self.process.poll() is None

    def rest(self):
        """Waits until the server waits, so that all that it does for an event is done."""
        while self.lives():
            with contextlib.suppress(FileNotFoundError), open(f"/proc/{self.process.pid}/stat") as stat:
                if stat.read().rsplit(")", 1)[1].split()[0] == "S":
                    return
            time.sleep(0.001)

    def errors(self):
        # by a handle of its own: the server writes on at the end of the one that it has
        with open(f"/proc/self/fd/{self.log.fileno()}") as log:
            return log.read()

    def end(self):
        self.process.kill()
        self.process.wait()

    def close(self):
        self.end()
        self.log.close()
        remove_database(self.db)
        Path(f"{self.db}.journal").unlink(missing_ok=True)


class Session:
    """Two stations in turns: what each is told, and whose event met the refused allocation."""

    def __init__(self, server):
        self.server = server
        self.peers = {}
        self.told = {who: [] for who in PATHS}
        self.met = None
        for text in (None, *TEXTS):
            for who in PATHS:
                if text is None or who in self.peers:
                    self.act(who, text)

    def act(self, who, text):
        """A station connects, or sends a text and reads what it is told."""
        before = self.server.allocator.refused
        said = self.said(who, text)
        self.server.rest()
        self.told[who].append(said)
        if said.startswith("ended"):
            self.peers.pop(who, None)
        if self.server.allocator.refused > before:
            self.met = who

    def said(self, who, text):
        try:
            if text is None:
                self.peers[who] = Peer(PORT, PATHS[who], patience=5)
                return "connected"
            return TIME.sub("T", self.peers[who].ask(text))
        except (SystemExit, ConnectionError) as end:
            return f"ended: {end}"
        except TimeoutError:
            return "ended: NO ANSWER"

    def fault(self, usual, commit):
        """What is wrong with a session, if anything is. Where the changes of a turn are gone all connections end."""
        is_lost = commit == "turn" and not self.peers
        for who, said in self.told.items():
            ended = said[-1].startswith("ended")
            if "NO ANSWER" in said[-1]:
                return f"{who} waits in vain"
            if who != self.met and said != usual.told[who] and not is_lost:
                return f"{who} is told otherwise, and its event met nothing"
            if said[: -1 if ended else None] != usual.told[who][: len(said) - ended]:
                return f"{who} is told otherwise"
        return None


def listed(who):
    """The transactions of an operator's station, on a new connection."""
    peer = Peer(PORT, f"/operator/{who}", patience=5)
    return [peer.ask(LISTED[who]), peer.next()]


def afterwards(server, session, usual):
    """What is wrong after a session, if anything is: those that ended go through it anew, and new peers are served."""
    if not server.lives():
        return f"the server ended with {server.process.returncode}"
    for who in PATHS:
        if who not in session.peers:
            again = [session.said(who, text) for text in (None, *TEXTS)]
            if again != usual.told[who]:
                return f"{who} is told otherwise when it is back: {again}"
    for who in PATHS:
        try:
            rows = listed(who)
        except (SystemExit, OSError) as end:
            return f"a new connection of {who}: {end}"
        if rows != usual.rows[who]:
            return f"{who} has other transactions: {rows}"
    wrong = [line for line in server.errors().splitlines() if not SERVED_LINE.fullmatch(line)]
    return f"the log has {wrong}" if wrong else None


def usual_session(checks, recorded, keeps=False, commit="turn"):
    """A session without a refusal: the session, its allocations at the start and in all."""
    server = Server(checks, copied(checks, recorded), NEVER, keeps, commit)
    with contextlib.closing(server):
        started = checks.allocator.count
        usual = Session(server)
        count = checks.allocator.count
        usual.rows = {who: listed(who) for who in PATHS}
        whole = all(len(said) == 1 + len(TEXTS) and "ended" not in said[-1] for said in usual.told.values())
        checks.check("a session that isn't refused", not whole and "it ended", usual.told)
    return usual, started, count


def served(checks, recorded, number, usual, commit):
    """How a session with that allocation refused went, and what was wrong, if anything was."""
    server = Server(checks, copied(checks, recorded), number, commit=commit)
    with contextlib.closing(server):
        if not server.lives():
            status, errors = server.process.returncode, server.errors()
            how = start_fault(status, errors)
            return how, None if how else (f"status {status} at the start", errors)
        session = Session(server)
        ends = f"{len(PATHS) - len(session.peers)} connections ended"
        fault = session.fault(usual, commit) or afterwards(server, session, usual)
        faults = re.findall(r"^fault .*", server.errors(), re.MULTILINE)
        seen = (session.told, server.errors())
        return f"{ends}, {faults[0] if faults else 'no fault'}", fault and (fault, session.met, seen)


def check_serve(checks, commit):
    """Sessions at the server, of which each refuses one allocation."""
    recorded = checks.new_file()
    made = checks.replay(RECORDED, recorded)
    checks.check("records", made != (0, "ACME ok\n" * 2 + "BETA ok\n" * 2, "") and "not made", made)
    usual, started, count = usual_session(checks, recorded, commit=commit)
    start, session = (3, 12) if checks.small else (20, 80)
    endings = collections.Counter()
    for number in spread(1, started, start) + spread(started + 1, count, session):
        how, fault = served(checks, recorded, number, usual, commit)
        endings["OTHERWISE" if fault else how] += 1
        checks.check(f"a session, --commit {commit}, allocation {number}", fault and fault[0], fault)
    told(f"a session, --commit {commit}, of which {started} at the start", count, endings)


def follow(checks, recorded, data, number=NEVER):
    """Follows a journal over a copy of a file: the status and the errors, the rows, and how many changes are on record."""
    db = copied(checks, recorded)
    words = [checks.program, "follow", "--db", db, "--operators", "ACME,BETA", "--journal", "-"]
    checks.allocator.refuse(number, number)
    ran = subprocess.run(words, input=data, capture_output=True, timeout=60, env=checks.allocator.environment)
    rows, _ = records(db)
    changes = counted(rows)
    remove_database(db)
    return (ran.returncode, ran.stderr.decode()), rows, changes


def kept(checks, recorded, number, usual):
    """How a session with a journal went in which that allocation was refused, what was wrong, and the journal. What was
    told is in the journal, and its follower has the rows of the server."""
    db = copied(checks, recorded)
    server = Server(checks, db, number, keeps=True)
    try:
        session = Session(server) if server.lives() else None
        says = server.errors()
        how = "served on" if server.lives() else (re.findall("^fault .*", says, re.MULTILINE) or ["no fault"])[-1]
        fault = afterwards(server, session, usual) if server.lives() else None
        if not server.lives() and (server.process.returncode, how.split(":")[0]) not in ENDS:
            fault = f"it ended with {server.process.returncode}: {says}"
        server.end()
        # the next server says whether the last turn was taken
        again = Server(checks, db, NEVER, keeps=True)
        fault = fault or (None if again.lives() else f"it doesn't begin again: {again.errors()}")
        again.end()
        again.log.close()
        data = Path(f"{db}.journal").read_bytes()
        rows, _ = records(db)
        counted(rows)
        ran, found, _ = follow(checks, recorded, data)
        fault = fault or (f"a follower: {ran}" if ran[0] else None) or ("other rows" if found != rows else None)
        return how, fault, data
    finally:
        server.close()


# How a server with a journal may end where an allocation is refused.
ENDS = ((2, "fault NoMemory"), (2, "fault Journal"))


def check_journal(checks):
    """Sessions at a server with a journal, and followers of one, of which each refuses one allocation."""
    recorded = checks.new_file()
    checks.replay(RECORDED, recorded)
    usual, started, count = usual_session(checks, recorded, keeps=True)
    start, session = (3, 12) if checks.small else (20, 150)
    endings = collections.Counter()
    for number in spread(1, started, start) + spread(started + 1, count, session):
        how, fault, _ = kept(checks, recorded, number, usual)
        endings["OTHERWISE" if fault else how] += 1
        checks.check(f"a session with a journal, allocation {number}", fault, number)
    told(f"a session with a journal, of which {started} at the start", count, endings)
    check_follow(checks, recorded, kept(checks, recorded, NEVER, usual)[2])


def check_follow(checks, recorded, data):
    """A follower leaves the rows after some of the first marks of its journal."""
    places = [match.end() for match in re.finditer(b"^turn .*\n", data, re.MULTILINE)]
    states = {changes: rows for _, rows, changes in (follow(checks, recorded, data[:place]) for place in (0, *places))}
    follow(checks, recorded, data)
    count = checks.allocator.count
    endings = collections.Counter()
    for number in numbers_of(checks, 1, count):
        (status, errors), rows, changes = follow(checks, recorded, data, number)
        name = errors.splitlines()[-1] if status else "followed"
        seen = (status, errors, changes)
        is_end = status == 0 and changes == max(states) or (status, name) == (2, "fault NoMemory")
        checks.check(f"a follower, allocation {number}", not is_end and "another end", seen)
        checks.check(f"a follower, allocation {number}", rows != states.get(changes) and "other rows", seen)
        endings[f"{name}, {changes} changes"] += 1
    told("a follower", count, endings)


def main():
    counts = Counts()
    if not counts.can("refused allocations", "gcc"):
        counts.end()
    with tempfile.TemporaryDirectory() as folder:
        checks = Checks(os.path.abspath(sys.argv[1]), folder, "--small" in sys.argv[2:])
        checks.replay("")
        if not checks.allocator.count:
            sys.exit("the program's allocations aren't those of the C library, so none can be refused")
        check_replays(checks)
        for earlier in EARLIER:
            check_earlier_schema(checks, earlier)
        for commit in ("each", "turn"):
            check_serve(checks, commit)
        check_journal(checks)
    checks.end()


if __name__ == "__main__":
    main()
