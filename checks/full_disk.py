"""Checks the server over a disk that is full: reads are answered, each change ends the connection that asked for it and
is acknowledged to nobody, and once there is room changes are taken again. The system refuses all writes to files that
go past a limit (RLIMIT_FSIZE), which is moved while the server runs. Prints `N passed, M failed`.

    python3 checks/full_disk.py crates/central/out/central [WORDS..]

The words are handed to `serve`.
"""

import os
import re
import resource
import subprocess
import sys
import tempfile
import time

from harness import TIME, Checks, begun
from peer import BOOT, HEARTBEAT, Peer, close_code, health

PORT = 9288
AT = '"timestamp":"2024-01-01T00:00:00Z"'
AUTHORIZE = '[2,"3","Authorize",{"idTag":"SIM1"}]'
STATUS = '[2,"6","StatusNotification",{"connectorId":1,"errorCode":"NoError","status":"Available"}]'
REPORT = '[2,"8","FirmwareStatusNotification",{"status":"Installed"}]'
LISTS = (
    "list transactions CP01",
    "list open",
    "list tags",
    "list readings CP01",
    "list connectors CP01",
    "list reports CP01",
    "list stations",
)
MOST_TAGS = 5000
ANSWERS = {
    HEARTBEAT: '[3,"2",{"currentTime":"T"}]',
    AUTHORIZE: '[3,"3",{"idTagInfo":{"status":"Accepted"}}]',
    STATUS: '[3,"6",{}]',
    REPORT: '[3,"8",{}]',
}


def start(number):
    """A start with a tag of BETA, whose stop settles a use."""
    return f'[2,"4","StartTransaction",{{"connectorId":1,"idTag":"ROAM","meterStart":{number},{AT}}}]'


def stop(number):
    return f'[2,"5","StopTransaction",{{"meterStop":{number + 1},{AT},"transactionId":{number}}}]'


def meter(number):
    return (
        f'[2,"7","MeterValues",{{"connectorId":1,"meterValue":[{{"sampledValue":[{{"value":"{number}"}}],{AT}}}],'
        f'"transactionId":{number}}}]'
    )


class Server:
    def __init__(self, program, folder):
        self.db = os.path.join(folder, "hub.db")
        read, write = os.pipe()
        words = [program, "serve", "--port", str(PORT), "--db", self.db, "--operators", "ACME,BETA", "--log", "none", *sys.argv[2:]]
        # SIGXFSZ stays ignored, as Python has it, so that a write past the limit is refused and ends nothing
        self.process = subprocess.Popen(words, stderr=write, restore_signals=False)
        os.close(write)
        os.set_blocking(read, False)
        self.read = read
        begun(self.process, PORT)

    def limit(self, size):
        """From now on no write to a file goes past that size."""
        most = resource.prlimit(self.process.pid, resource.RLIMIT_FSIZE)[1]
        resource.prlimit(self.process.pid, resource.RLIMIT_FSIZE, (most if size is None else size, most))

    def size(self):
        """The size of the larger one of the database's file and its log."""
        return max(os.path.getsize(path) for path in (self.db, f"{self.db}-wal") if os.path.exists(path))

    def errors(self):
        """The lines on standard error since they were last read."""
        try:
            return os.read(self.read, 1 << 20).decode().splitlines()
        except BlockingIOError:
            return []


def answer(peer, text):
    """What a peer is answered, with T for each time, or how its connection ended."""
    try:
        return TIME.sub("T", peer.ask(text))
    except (SystemExit, ConnectionError):
        return "ended"
    except TimeoutError:
        return "no answer"


def station(name="CP01"):
    return Peer(PORT, f"/ocpp/ACME/{name}", patience=5)


def operator(name="ACME"):
    return Peer(PORT, f"/operator/{name}", patience=5)


def lines(peer, line):
    """The lines of a listing."""
    peer.send(line)
    rows = [peer.next()]
    while not re.fullmatch(r"\S+ ok", rows[-1]):
        rows.append(peer.next())
    return rows[:-1]


def records():
    """What is listed to ACME, and the uses of BETA's tags."""
    return [lines(operator(), line) for line in LISTS] + [lines(operator("BETA"), "list uses")]


def new_second():
    """Waits until faults are told again, of which at most 20 are in a second."""
    time.sleep(1.1)


def refused(checks, server, what, peer, text):
    """A change ends its connection with 1011, a fault is named, and the health check fails."""
    server.errors()
    peer.send(text)
    checks.check(f"{what} while the disk is full", close_code(peer), (0x88, 1011))
    checks.check(f"{what}: the fault", set(server.errors()), {"fault Store"})
    checks.check(f"{what}: the health", health(PORT), "HTTP/1.1 503 Service Unavailable")


def check_full(checks, server, size):
    """While no write goes past that size, which is too small for any change."""
    new_second()
    before = records()
    server.limit(size)
    for text, wanted in ANSWERS.items():
        if text not in (STATUS, REPORT):
            checks.check("a read while the disk is full", answer(station(), text), wanted)
    checks.check("listings while the disk is full", records(), before)
    number = len(before[0]) + 1
    refused(checks, server, "a start", station(), start(number))
    refused(checks, server, "a stop that settles a use", station(), stop(1))
    refused(checks, server, "a report on a connector", station(), STATUS)
    refused(checks, server, "a report on an update", station(), REPORT)
    refused(checks, server, "a boot", station(), BOOT)
    refused(checks, server, "a tag", operator(), "tag put SIM2 - 0 -")
    refused(checks, server, "a station", operator(), "station add CP09 Accepted 300")
    checks.check("a refusal", answer(operator(), "tag drop SIM9"), "ACME refused 3 NoSuchTag")
    checks.check("another operator", answer(operator("BETA"), "list stations"), "BETA ok")
    checks.check("no connection is left", answer(operator(), "call CP01 ClearCache {}"), "ACME refused 7 NotConnected")
    checks.check("listings after what was refused", records(), before)
    return number


def check_filling(checks, server, more):
    """While files may grow by so many bytes, tags are put until one isn't acknowledged. Those on record are those that
    were acknowledged."""
    new_second()
    before = len(lines(operator(), "list tags"))
    server.limit(server.size() + more)
    server.errors()
    peer, count = operator(), 0
    while count < MOST_TAGS and answer(peer, f"tag put F{more}_{count} - 0 -") == "ACME ok":
        count += 1
    checks.check(f"after {count} tags the disk is full", set(server.errors()), {"fault Store"})
    checks.check(f"tags on record after {count}", len(lines(operator(), "list tags")), before + count)
    return len(lines(operator(), "list transactions CP01")) + 1


def check_room(checks, server, number):
    """Once there is room, changes are taken, and their numbers follow those on record."""
    server.limit(None)
    server.errors()
    peer = station()
    for text, wanted in ANSWERS.items():
        checks.check("with room", answer(peer, text), wanted)
    started = f'[3,"4",{{"idTagInfo":{{"status":"Accepted"}},"transactionId":{number}}}]'
    checks.check("a start with room", answer(peer, start(number)), started)
    checks.check("a reading with room", answer(peer, meter(number)), '[3,"7",{}]')
    checks.check("a stop with room", answer(peer, stop(number)), '[3,"5",{}]')
    checks.check("a tag with room", answer(operator(), f"tag put N{number} - 0 -"), "ACME ok")
    transactions = lines(operator(), "list transactions CP01")
    checks.check("transactions on record", len(transactions), number)
    uses = [" ".join(row.split(" ")[2:5]) for row in lines(operator("BETA"), "list uses")]
    checks.check("uses on record", uses, [f"use {place} ACME" for place in range(1, number)])
    checks.check("no fault", server.errors(), [])


def check_all(checks, program, folder):
    server = Server(program, folder)
    try:
        for line in ("station add CP01 Accepted 300", "tag put SIM1 - 0 -"):
            checks.check(line, answer(operator(), line), "ACME ok")
        for line in ("tag put ROAM - 0 -", "grant ROAM ACME -", "tag put OPEN - 0 -", "grant OPEN ACME -"):
            checks.check(line, answer(operator("BETA"), line), "BETA ok")
        booted = '[3,"1",{"currentTime":"T","interval":300,"status":"Accepted"}]'
        checks.check("a boot", answer(station(), BOOT), booted)
        opened = '[3,"4",{"idTagInfo":{"status":"Accepted"},"transactionId":1}]'
        checks.check("a start that stays open", answer(station(), start(1).replace("ROAM", "OPEN")), opened)
        for size in (0, 1024, 4096):
            check_room(checks, server, check_full(checks, server, size))
        for more in (0, 300, 600, 1500):
            check_room(checks, server, check_filling(checks, server, more))
        checks.check("the server goes on", server.process.poll(), None)
        listed = records()
    finally:
        server.process.kill()
        server.process.wait()
    again = Server(program, folder)
    try:
        checks.check("after a restart", records(), listed)
        checks.check("the stop of the first start", answer(station(), stop(1)), '[3,"5",{}]')
        last = [re.sub(r" \d+ 1$", " T 1", row) for row in lines(operator("BETA"), "list uses")[len(listed[-1]) :]]
        checks.check("its use", last, [f'BETA row use {len(listed[-1]) + 1} ACME "open" T 1'])
    finally:
        again.process.kill()
        again.process.wait()


def main():
    with tempfile.TemporaryDirectory() as folder:
        checks = Checks(os.path.abspath(sys.argv[1]), folder)
        check_all(checks, checks.program, folder)
    checks.end()


if __name__ == "__main__":
    main()
