"""Stops the program at each call on its files, and opens the file again: the records found are those after the
events that were answered, or after one more; with `--commit turn` those after the turns that were answered, or after one
more. A stop is a disk whose calls fail from one on, by failing_disk.c under the program. It leaves what was written; or
that and half of what the first call that fails was to write; or what was synced. The scripts are those of
tests/check_cases/data/scripts/stopped, and the openings of files of each earlier schema. Prints how many stops there were
of each, then `N passed, M failed`. With --small one call in four is stopped, in turns one in eight. Needs gcc.

    python3 checks/stops.py crates/central/out/central [--small]
"""

import os
import shutil
import socket
import subprocess
import sys
import tempfile
from pathlib import Path

from disk import Disk
from harness import EARLIER, SCRIPTS, Checks, Counts, faults_of, files_of, remove_database

STOPPED = SCRIPTS / "stopped"
LISTS = (STOPPED / "lists.txt").read_text()
# A script whose log is copied into the database file under way has so many times the calls of another.
LONG, OF_LONG = "log_is_copied", 23
KINDS = ("written", "half written", "synced")
# How many lines of a script each read gives where it is replayed in turns.
TURN = 3


class Stops(Checks):
    def __init__(self, program, folder):
        super().__init__(program, folder)
        self.synced = os.path.join(folder, "synced")
        os.mkdir(self.synced)
        self.disk = Disk(folder, self.synced)

    def replay(self, lines, db=None, fails=False, commit="each"):
        """The status of a replay, and what it writes."""
        words = [self.program, "replay", "--operators", "ACME,BETA", *(["--db", db] if db else []), "--commit", commit]
        given = {"stdin": in_turns(lines)} if commit == "turn" else {"input": lines.encode()}
        environment = self.disk.environment if fails else None
        ran = subprocess.run(words, capture_output=True, timeout=60, env=environment, **given)
        return ran.returncode, ran.stdout.decode()

    def stopped(self, lines, db, calls, kind, commit="each"):
        """What a replay writes that is stopped after so many calls, of whose files then is left what that kind leaves."""
        shutil.rmtree(self.synced)
        os.mkdir(self.synced)
        for path in files_of(db):
            shutil.copy(path, self.kept(path))
        self.disk.stop_after(calls, kind == "half written")
        status, written = self.replay(lines, db, True, commit)
        if kind == "synced":
            self.lose(db)
        return status, written

    def lose(self, db):
        """Leaves of the files of a database what was synced. Of one that never was its name is left."""
        for path in files_of(db):
            kept = self.kept(path)
            path.write_bytes(kept.read_bytes() if kept.exists() else b"")

    def kept(self, path):
        """Where there is a copy of a file as it was synced."""
        return Path(self.synced, str(path.stat().st_ino))

    def found(self, what, db, wanted):
        """Checks that a file opens with one of those lists of records, and that SQLite finds it whole."""
        status, listed = self.replay(LISTS, db)
        self.check(f"{what}: status", status, 0)
        self.check(f"{what}: the records", listed in wanted, True)
        self.check(f"{what}: whole", faults_of(db), [("ok",)])
        remove_database(db)


def in_turns(lines):
    """A socket of which each read gives the lines of a turn."""
    ours, theirs = socket.socketpair(socket.AF_UNIX, socket.SOCK_SEQPACKET)
    rows = lines.splitlines(keepends=True)
    with ours:
        for first in range(0, len(rows), TURN):
            ours.send("".join(rows[first : first + TURN]).encode())
    return theirs


def fronts(checks, script):
    """What is written, and what is listed, after each number of the events of a script."""
    lines = script.splitlines(keepends=True)
    for taken in range(len(lines) + 1):
        front = "".join(lines[:taken])
        _, written = checks.replay(front)
        _, all_written = checks.replay(front + LISTS)
        yield written, all_written.removeprefix(written)


def wanted_by_output(pairs, step):
    """The lists of records that may be found after a stop, by what was written before it, where so many lines are committed
    together."""
    wanted = {}
    for taken in range(0, len(pairs) - 1 + step, step):
        written, listed = pairs[min(taken, len(pairs) - 1)]
        wanted.setdefault(written, set()).update({listed, pairs[min(taken + step, len(pairs) - 1)][1]})
    return wanted


def check_script(checks, name, one_in):
    script = (STOPPED / f"{name}.script").read_text()
    pairs = list(fronts(checks, script))
    for commit, step, least in (("each", 1, one_in), ("turn", TURN, 2 * one_in if one_in > 1 else 1)):
        check_commits(checks, name, script, wanted_by_output(pairs, step), commit, least)


def check_commits(checks, name, script, wanted, commit, one_in):
    db = checks.new_file()
    checks.disk.count()
    status, _ = checks.replay(script, db, True, commit)
    checks.check(f"{name}, {commit}: a run that isn't stopped", status, 0)
    count = checks.disk.calls
    remove_database(db)
    for kind in KINDS:
        for calls in range(0, count, one_in):
            what, db = f"{name}, {commit}, {kind}, after {calls} calls", checks.new_file()
            status, written = checks.stopped(script, db, calls, kind, commit)
            checks.check(f"{what}: what was written", written in wanted, True)
            checks.found(what, db, wanted.get(written, ()))
        print(f"{name}, {commit}, {kind}: one in {one_in} of {count} calls", flush=True)


def check_earlier(checks, schema, one_in):
    source = (SCRIPTS / EARLIER[schema]).with_suffix(".db")
    db = checks.new_file()
    shutil.copy(source, db)
    checks.disk.count()
    checks.replay("", db, fails=True)
    count = checks.disk.calls
    _, listed = checks.replay(LISTS, db)
    for kind in KINDS:
        for calls in range(0, count, one_in):
            db = checks.new_file()
            shutil.copy(source, db)
            checks.stopped("", db, calls, kind)
            checks.found(f"schema {schema}, {kind}, after {calls} calls", db, {listed})
        print(f"schema {schema}, {kind}: one in {one_in} of {count} calls", flush=True)


def main():
    counts = Counts()
    if not counts.can("what is on record after a stop", "gcc"):
        counts.end()
    one_in = 4 if "--small" in sys.argv[2:] else 1
    with tempfile.TemporaryDirectory() as folder:
        checks = Stops(os.path.abspath(sys.argv[1]), folder)
        for schema in EARLIER:
            check_earlier(checks, schema, one_in)
        for script in sorted(STOPPED.glob("*.script")):
            name = script.stem
            check_script(checks, name, one_in * OF_LONG if name == LONG else one_in)
    checks.end()


if __name__ == "__main__":
    main()
