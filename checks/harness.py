"""What the checks of the built program share: how they count, run the program and serve, and what they know of its files."""

import contextlib
import os
import re
import resource
import shutil
import signal
import socket
import sqlite3
import subprocess
import sys
import time
from pathlib import Path

from peer import BOOT, Peer

SCRIPTS = Path(__file__).resolve().parent.parent / "tests" / "check_cases" / "data" / "scripts"
# The number of the schema, and a file of each earlier one, in SCRIPTS.
SCHEMA = 5
EARLIER = {
    1: "databases/records_in_each_list",
    2: "databases/records_of_schema_2",
    3: "databases/records_of_schema_3",
    4: "databases/records_of_schema_4",
}
# The tables that each schema has beside those of schema 1, by name.
MORE = {
    1: [],
    2: ["hub_report"],
    3: ["hub_report", "hub_tx_owner", "hub_use"],
    4: ["hub_meter_value", "hub_report", "hub_tx_owner", "hub_use"],
    5: ["hub_meter_value", "hub_reader", "hub_report", "hub_tx_owner", "hub_use"],
}

# How the names of a database's files end: the file, its log, its count of changes, and what is there while one is made, or
# while SQLite has it open.
ENDS = ("", "-wal", "-count", ".new", "-shm")

PORT = 9281
NOT_FOUND = f"fault Stream\n127.0.0.1:{PORT}: the handshake was answered 404: no such operator or station is known there\n"
TIME = re.compile(r"\d{4}-\d\d-\d\dT\d\d:\d\d:\d\dZ")

# What the simulated station prints, with T for each time.
SESSION = """\
> [2,"s1","BootNotification",{"chargePointModel":"SimModel","chargePointVendor":"SimVendor"}]
< [3,"s1",{"currentTime":"T","interval":300,"status":"Accepted"}]
> [2,"s2","StatusNotification",{"connectorId":0,"errorCode":"NoError","status":"Available"}]
< [3,"s2",{}]
> [2,"s3","Authorize",{"idTag":"SIM1"}]
< [3,"s3",{"idTagInfo":{"status":"Accepted"}}]
> [2,"s4","StartTransaction",{"connectorId":1,"idTag":"SIM1","meterStart":0,"timestamp":"T"}]
< [3,"s4",{"idTagInfo":{"status":"Accepted"},"transactionId":1}]
> [2,"s5","MeterValues",{"connectorId":1,"meterValue":[{"sampledValue":[{"unit":"Wh","value":"500"}],"timestamp":"T"}],"transactionId":1}]
< [3,"s5",{}]
> [2,"s6","MeterValues",{"connectorId":1,"meterValue":[{"sampledValue":[{"unit":"Wh","value":"1000"}],"timestamp":"T"}],"transactionId":1}]
< [3,"s6",{}]
> [2,"s7","StopTransaction",{"idTag":"SIM1","meterStop":1000,"reason":"Local","timestamp":"T","transactionId":1}]
< [3,"s7",{"idTagInfo":{"status":"Accepted"}}]
"""


# Debian has servers in folders that the PATH of a user may lack.
FOLDERS = os.pathsep.join((os.environ.get("PATH", os.defpath), "/usr/sbin", "/sbin"))


def path_of(*names):
    """The path of the first of these commands that is there."""
    return next(filter(None, (shutil.which(name, path=FOLDERS) for name in names)), None)


class Counts:
    """How many checks passed and failed, and how much was skipped."""

    passed = failed = skipped = 0

    def skip(self, what, why):
        """Names what isn't checked. The gate counts these lines."""
        self.skipped += 1
        print(f"skipped: {what}: {why}", flush=True)

    def can(self, what, *needed):
        """Whether all these commands are there, which that needs. Else it is skipped."""
        missing = [name for name in needed if not path_of(name)]
        if missing:
            self.skip(what, f"no {', '.join(missing)} (tools/check-tools)")
        return not missing

    def end(self):
        """Prints the counts, and ends with status 1 where a check failed."""
        print(f"{self.passed} passed, {self.failed} failed" + (f", {self.skipped} skipped" if self.skipped else ""))
        sys.exit(1 if self.failed else 0)


class Checks(Counts):
    port = PORT

    def __init__(self, program, folder):
        self.program = program
        self.folder = folder
        self.files = 0

    def new_file(self):
        """The path of a database that isn't there yet."""
        self.files += 1
        return os.path.join(self.folder, f"{self.files}.db")

    def check(self, what, got, wanted):
        if got == wanted:
            self.passed += 1
        else:
            self.failed += 1
            print(f"{what}\n  wanted {wanted!r}\n  got    {got!r}")

    def run(self, *words, lines=b""):
        """The status of a run on those lines, its output and its errors."""
        ran = subprocess.run([self.program, *words], input=lines, capture_output=True, timeout=60)
        return ran.returncode, ran.stdout.decode(), ran.stderr.decode()

    @contextlib.contextmanager
    def serve(self, *words, db=None, files=4096, errors=None):
        """A server that listens, over that file or a new one, which is ended afterwards. It may have so many files open."""
        server = subprocess.Popen(
            [self.program, "serve", "--port", str(PORT), "--db", db or self.new_file(), *words],
            stderr=errors or subprocess.DEVNULL,
            preexec_fn=lambda: prepare(files),
        )
        try:
            wait_for(PORT)
            yield server
        finally:
            server.kill()
            server.wait()

    def fault(self, what, words, fault, detail):
        """A run ends with that fault, and with that detail on the line after it."""
        self.check(what, self.run(*words.split(" ")), (2, "", f"fault {fault}\n{detail}\n"))

    def ends(self, what, words, status, text):
        code, _, errors = self.run(*words.split(" "))
        self.check(f"{what}: status", code, status)
        self.check(f"{what}: {text}", text in errors, True)


def prepare(files):
    """Lets a process that begins have so many files open, and end by SIGINT, which a shell's background jobs ignore."""
    resource.setrlimit(resource.RLIMIT_NOFILE, (files, files))
    signal.signal(signal.SIGINT, signal.SIG_DFL)


def wait_for(port):
    for _ in range(200):
        try:
            socket.create_connection(("127.0.0.1", port)).close()
            return
        except ConnectionRefusedError:
            time.sleep(0.02)
    sys.exit("the server doesn't listen")


def begun(process, port):
    """A process that serves, once it listens."""
    while process.poll() is None and not list(listening(port)):
        time.sleep(0.002)
    if process.poll() is not None:
        sys.exit(f"{process.args[0]} ended with {process.returncode}")
    return process


def files_of(db):
    """The files of a database that there are."""
    return [path for path in (Path(db + end) for end in ENDS) if path.exists()]


def remove_database(db):
    for path in files_of(db):
        path.unlink()


def copy_database(db, to):
    """Copies the files of a database in the place of another."""
    remove_database(to)
    for path in files_of(db):
        shutil.copyfile(path, to + str(path)[len(db) :])


def faults_of(db):
    """What SQLite finds wrong in a database, if anything."""
    with contextlib.closing(sqlite3.connect(db)) as database:
        return database.execute("PRAGMA integrity_check").fetchall()


def connected(*stations):
    """An operator, and stations that have booted."""
    operator, peers = Peer(PORT, "/operator/ACME"), []
    for station in stations:
        operator.ask(f"station add {station} Accepted 300")
        peers.append(Peer(PORT, f"/ocpp/ACME/{station}"))
        peers[-1].ask(BOOT)
    return operator, *peers


def memory(server):
    with open(f"/proc/{server.pid}/status") as status:
        return next(int(line.split()[1]) for line in status if line.startswith("VmRSS:"))


def spent(server):
    """The seconds of processor time of a server."""
    with open(f"/proc/{server.pid}/stat") as stat:
        words = stat.read().rsplit(")", 1)[1].split()
    return (int(words[11]) + int(words[12])) / os.sysconf("SC_CLK_TCK")


def listening(port):
    """The addresses on which somebody listens at a port."""
    for table in ("/proc/net/tcp", "/proc/net/tcp6"):
        with contextlib.suppress(FileNotFoundError), open(table) as rows:
            for row in list(rows)[1:]:
                address, at = row.split()[1].split(":")
                if int(at, 16) == port and row.split()[3] == "0A":
                    yield address
