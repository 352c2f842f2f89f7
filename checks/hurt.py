"""Checks that a database that is hurt says so. The disk fails while the server runs, by failing_disk.c under the
program: where syncs fail the server closes its connections with 1011 and ends, and where writes fail it closes them and
goes on. Parts of the log of a database are changed or lost: it is opened with --accept-loss alone, and the fault says how
many changes are gone. With --page-sums each changed bit of the database file is found. Nobody but its owner may read its
files. Prints `N passed, M failed`.

    python3 checks/hurt.py crates/central/out/central
"""

import contextlib
import os
import re
import sqlite3
import subprocess
import sys
import tempfile
from pathlib import Path

from disk import Disk
from harness import TIME, Checks, copy_database, faults_of, files_of, wait_for
from peer import BOOT, CLOSE, HEARTBEAT, Peer, close_code, health

PORT = 9286
# The modes of the files of a database, by the ends of their names.
MODES = {"": "0o600", "-wal": "0o600", "-count": "0o600"}
TAGS = 40
FRAME = 24
LOG_HEAD = 32


class Server:
    def __init__(self, program, db, disk=None, words=()):
        command = [program, "serve", "--port", str(PORT), "--db", db, "--operators", "ACME,BETA", "--log", "none", *words]
        self.process = subprocess.Popen(command, stderr=subprocess.PIPE, env=disk and disk.environment)
        wait_for(PORT)

    def ends(self):
        """The status with which it ends by itself, and what it wrote."""
        errors = self.process.communicate(timeout=20)[1].decode()
        return self.process.returncode, errors

    def kill(self):
        self.process.kill()
        self.process.communicate()


def copied(db, folder, name):
    """A copy of a database."""
    path = os.path.join(folder, name)
    copy_database(db, path)
    return path


def put(line):
    return Peer(PORT, "/operator/ACME").ask(line)


def tags_of(program, db, words=()):
    """The tags of ACME that a replay finds, or its fault."""
    ran = subprocess.run(
        [program, "replay", "--db", db, "--operators", "ACME,BETA", *words],
        input=b"1704067200 ACME list tags\n",
        capture_output=True,
        timeout=60,
    )
    if ran.returncode:
        return ran.returncode, ran.stderr.decode()
    return re.findall(r'row tag "(\w+)"', ran.stdout.decode())


def started(checks, disk, words=()):
    """A server over a new file with a tag, and the connections of a station and of another operator."""
    db = checks.new_file()
    server = Server(checks.program, db, disk, words)
    for line in ("station add CP01 Accepted 300", "tag put SIM1 - 0 -"):
        checks.check(line, put(line), "ACME ok")
    station, other = Peer(PORT, "/ocpp/ACME/CP01"), Peer(PORT, "/operator/BETA")
    booted = '[3,"1",{"currentTime":"T","interval":300,"status":"Accepted"}]'
    checks.check("a boot", TIME.sub("T", station.ask(BOOT)), booted)
    checks.check("the health before", health(PORT), "HTTP/1.1 200 OK")
    return db, server, station, other


def check_syncs(checks, disk, words=()):
    """Syncs fail under a change: the server ends. What was acknowledged before is on record afterwards, and a journal fits."""
    db, server, station, other = started(checks, disk, words)
    disk.fail(syncs=True)
    operator = Peer(PORT, "/operator/ACME")
    operator.send("tag put SIM2 - 0 -")
    for who, peer in (("the one that asked", operator), ("a station", station), ("another operator", other)):
        checks.check(f"syncs fail: the close of {who}", close_code(peer), (CLOSE, 1011))
    checks.check("syncs fail: the end", server.ends(), (2, "fault Store: the database failed\n"))
    disk.fail()
    server = Server(checks.program, db, words=words)
    tags = [row.split(" ")[3] for row in Peer(PORT, "/operator/ACME").lines("w", "list tags")[:-1]]
    checks.check("syncs fail: what was acknowledged", tags[0], '"SIM1"')
    checks.check("syncs fail: what was not", tags[1:] in ([], ['"SIM2"']), True)
    checks.check("syncs fail: a change afterwards", put("tag put SIM3 - 0 -"), "ACME ok")
    server.kill()


def check_writes(checks, disk):
    """Writes fail under a change: it is refused, all connections are closed with its turn, and the server goes on. The next
    change is refused alone."""
    db, server, station, other = started(checks, disk)
    disk.fail(writes=True)
    operator = Peer(PORT, "/operator/ACME")
    operator.send("tag put SIM2 - 0 -")
    for who, peer in (("the one that asked", operator), ("a station", station), ("another operator", other)):
        checks.check(f"writes fail: the close of {who}", close_code(peer), (CLOSE, 1011))
    checks.check("writes fail: the health", health(PORT), "HTTP/1.1 503 Service Unavailable")
    operator, station, other = (Peer(PORT, path) for path in ("/operator/ACME", "/ocpp/ACME/CP01", "/operator/BETA"))
    operator.send("tag put SIM2 - 0 -")
    checks.check("writes fail again: the close of the one that asked", close_code(operator), (CLOSE, 1011))
    checks.check("writes fail: a station", TIME.sub("T", station.ask(HEARTBEAT)), '[3,"2",{"currentTime":"T"}]')
    checks.check("writes fail: another operator", other.ask("list tags"), "BETA ok")
    disk.fail()
    checks.check("writes fail: a change afterwards", put("tag put SIM3 - 0 -"), "ACME ok")
    server.kill()
    checks.check("writes fail: what is on record", tags_of(checks.program, db), ["SIM1", "SIM3"])


def check_modes(checks):
    os.umask(0o022)
    db = checks.new_file()
    server = Server(checks.program, db)
    checks.check("a change", put("tag put SIM1 - 0 -"), "ACME ok")
    checks.check("the modes of its files", {path.name[len(Path(db).name) :]: oct(path.stat().st_mode & 0o777) for path in files_of(db)}, MODES)
    server.kill()


def frames_of(log):
    """How many frames of a log are used, and their size."""
    size = FRAME + int.from_bytes(log[8:12], "big")
    count = 0
    while log[LOG_HEAD + count * size + 8 :][:8] == log[16:24]:
        count += 1
    return count, size


def flipped(db, share):
    """One bit of the log is flipped, at this share of what is used of it."""
    path = f"{db}-wal"
    log = bytearray(Path(path).read_bytes())
    count, size = frames_of(log)
    place = LOG_HEAD + int(count * share) * size + FRAME + 100
    log[place] ^= 1
    Path(path).write_bytes(log)


def check_loss(checks, what, db, hurt, least=1):
    """A database whose log is hurt is refused, and taken with --accept-loss. The fault says how many changes are gone."""
    hurt(db)
    copy = copied(db, checks.folder, "copy.db")
    found = tags_of(checks.program, db, ("--accept-loss",))
    lost = TAGS - len(found)
    checks.check(f"{what}: some are gone", lost >= least, True)
    checks.check(f"{what}: the first ones are left", found, sorted(f"T{number:02}" for number in range(TAGS))[: len(found)])
    fault = f"fault Store: the log lacks {lost} changes\n{copy}-count\n"
    checks.check(f"{what}: it is refused", tags_of(checks.program, copy), (2, fault))
    checks.check(f"{what}: once more", tags_of(checks.program, copy), (2, fault))
    checks.check(f"{what}: it is taken", tags_of(checks.program, copy, ("--accept-loss",)), found)
    checks.check(f"{what}: and then as any", tags_of(checks.program, copy), found)


def check_losses(checks):
    db = checks.new_file()
    server = Server(checks.program, db)
    operator = Peer(PORT, "/operator/ACME")
    for number in range(TAGS):
        checks.check("a tag", operator.ask(f"tag put T{number:02} - 0 -"), "ACME ok")
    server.kill()
    every = [f"T{number:02}" for number in range(TAGS)]
    checks.check("after a kill", tags_of(checks.program, copied(db, checks.folder, "killed.db")), every)
    for percent in (90, 60, 30, 0):
        copy = copied(db, checks.folder, f"flipped{percent}.db")
        check_loss(checks, f"a bit at {percent} %", copy, lambda copy: flipped(copy, percent / 100))
    copy = copied(db, checks.folder, "cut.db")
    check_loss(checks, "half of the log", copy, lambda copy: os.truncate(f"{copy}-wal", os.path.getsize(f"{copy}-wal") // 8))
    copy = copied(db, checks.folder, "lost.db")
    check_loss(checks, "no log", copy, lambda copy: os.remove(f"{copy}-wal"), TAGS)
    copy = copied(db, checks.folder, "unmarked.db")
    os.remove(f"{copy}-count")
    checks.check("without a mark", tags_of(checks.program, copy), every)
    copy = copied(db, checks.folder, "no_count.db")
    Path(f"{copy}-count").write_bytes(b"%20s\n" % b"forty")
    checks.check("a mark without a count", tags_of(checks.program, copy), (2, f"fault Store: the mark has no count\n{copy}-count\n"))
    checks.check("which is accepted", tags_of(checks.program, copy, ("--accept-loss",)), every)
    copy = copied(db, checks.folder, "behind.db")
    Path(f"{copy}-count").write_bytes(b"%020d\n" % 3)
    checks.check("a mark that is behind", tags_of(checks.program, copy), every)
    checks.check("is put right", Path(f"{copy}-count").read_bytes(), b"%020d\n" % TAGS)


def check_sums(checks):
    """Where the pages of a new file end in sums, each changed bit of a page is found as the file is opened. A file that is
    there stays as it is."""
    db, plain = checks.new_file(), checks.new_file()
    tags = [f"T{number:03}" for number in range(480)]
    lines = "".join(f"1704067200 ACME tag put {tag} - 0 -\n" for tag in tags).encode()
    for path, words in ((db, ["--page-sums"]), (plain, [])):
        ran = subprocess.run([checks.program, "replay", "--operators", "ACME", "--db", path, *words], input=lines, capture_output=True)
        checks.check("tags", (ran.returncode, ran.stdout), (0, b"ACME ok\n" * len(tags)))
    checks.check("room for sums", (Path(db).read_bytes()[20], Path(plain).read_bytes()[20]), (8, 0))
    read = copied(db, checks.folder, "read.db")
    with contextlib.closing(sqlite3.connect(read)) as database:
        checks.check("sqlite3 reads it", database.execute("SELECT count(*) FROM hub_tag").fetchone(), (len(tags),))
    checks.check("and finds it whole", faults_of(read), [("ok",)])
    checks.check("it is taken", tags_of(checks.program, db), tags)
    checks.check("a file without sums is taken", tags_of(checks.program, plain, ("--page-sums",)), tags)
    checks.check("and has none", Path(plain).read_bytes()[20], 0)
    for suffix in ("-wal", "-count"):
        os.remove(db + suffix)
    page = int.from_bytes(Path(db).read_bytes()[16:18], "big")
    pages = os.path.getsize(db) // page
    for number in range(1, pages, max(1, pages // 20)):
        copy = copied(db, checks.folder, "changed.db")
        content = bytearray(Path(copy).read_bytes())
        content[number * page + 7 * number % page] ^= 1 << number % 8
        Path(copy).write_bytes(content)
        checks.check(f"a bit of page {number + 1}", tags_of(checks.program, copy), (2, f"fault Store: a page of the file is damaged\n{copy}\n"))


def main():
    with tempfile.TemporaryDirectory() as folder:
        checks = Checks(os.path.abspath(sys.argv[1]), folder)
        check_modes(checks)
        check_losses(checks)
        check_sums(checks)
        if checks.can("what a failing disk leads to", "gcc"):
            disk = Disk(folder)
            check_syncs(checks, disk)
            check_syncs(checks, disk, ("--journal", os.path.join(folder, "journal")))
            check_writes(checks, disk)
    checks.end()


if __name__ == "__main__":
    main()
