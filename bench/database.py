"""Prints what a database in a file costs: to open one, and lines over it, by how many rows it has. The figures are
processor time, the best of some rounds. The file is on /dev/shm, so a sync of it is free.

    python3 bench/database.py crates/central/out/central
"""

import argparse
import os
import shutil
import sqlite3
import subprocess
import tempfile
import time

OPERATORS = "ACME,BETA"
STATION = """1704067200 ACME station add CP01 Accepted 300
1704067200 ACME connect CP01
1704067200 ACME frame CP01 [2,"b","BootNotification",{"chargePointModel":"M","chargePointVendor":"V"}]
"""
CONNECT = "1704067200 ACME connect CP01\n"
LINES = {
    "Heartbeat": '1704067200 ACME frame CP01 [2,"h","Heartbeat",{}]\n',
    "Authorize": '1704067200 ACME frame CP01 [2,"a","Authorize",{"idTag":"K500"}]\n',
    "MeterValues": '1704067200 ACME frame CP01 [2,"m","MeterValues",{"connectorId":1,"meterValue":[{"timestamp":"2024-01-01T00:00:00Z","sampledValue":[{"value":"1"}]}]}]\n',
    "tag put": "1704067200 ACME tag put K500 - 0 -\n",
}


def spent(program, db, lines):
    """The seconds of processor time of a replay, its seconds by the clock, and its peak of memory in MiB."""
    began = time.monotonic()
    child = subprocess.Popen(
        [program, "replay", "--operators", OPERATORS, "--db", db], stdin=subprocess.PIPE, stdout=subprocess.DEVNULL
    )
    child.stdin.write(lines.encode())
    child.stdin.close()
    _, status, usage = os.wait4(child.pid, 0)
    if status:
        raise SystemExit(f"status {status}")
    took = usage.ru_utime + usage.ru_stime
    return took, time.monotonic() - began, usage.ru_maxrss / 1024


def filled(program, db, tags, readings):
    """A file with a station, so many tags of ACME and so many readings."""
    spent(program, db, STATION)
    database = sqlite3.connect(db)
    database.executemany(
        "INSERT INTO hub_tag VALUES ('ACME', ?, ?, NULL, NULL, 0, NULL)", ((f"k{n}", f"K{n}") for n in range(tags))
    )
    database.executemany(
        """INSERT INTO hub_meter_value VALUES ('ACME', 'CP01', ?, 1, NULL, 0, 1, '[{"value":"1"}]')""",
        ((n,) for n in range(1, readings + 1)),
    )
    database.commit()
    database.execute("PRAGMA wal_checkpoint(TRUNCATE)")
    database.close()


def spent_on_copy(program, db, lines):
    """The same over a copy of the file."""
    copy = db + ".copy"
    shutil.copyfile(db, copy)
    found = spent(program, copy, lines)
    for path in (copy, copy + "-wal", copy + "-count"):
        os.remove(path)
    return found


def measure(program, db, rounds, count):
    """The least seconds to open the file, and the least microseconds of each line over it."""
    opening = min(spent_on_copy(program, db, CONNECT) for _ in range(rounds))
    print(f"  opened in {opening[0]:.3f} s of processor, {opening[1]:.3f} s by the clock, {opening[2]:.0f} MiB")
    for name, line in LINES.items():
        whole = min(spent_on_copy(program, db, CONNECT + line * count)[0] for _ in range(rounds))
        print(f"  {name}: {(whole - opening[0]) / count * 1e6:.1f} us")


def main():
    parser = argparse.ArgumentParser()
    parser.add_argument("program")
    parser.add_argument("--rounds", type=int, default=3)
    parser.add_argument("--count", type=int, default=50_000)
    parser.add_argument("--rows", default="1000,100000")
    wanted = parser.parse_args()
    for rows in map(int, wanted.rows.split(",")):
        with tempfile.TemporaryDirectory(dir="/dev/shm") as folder:
            db = os.path.join(folder, "bench.db")
            filled(wanted.program, db, rows, rows)
            print(f"{rows} tags and {rows} readings, {os.path.getsize(db) / 1e6:.1f} MB")
            measure(wanted.program, db, wanted.rounds, wanted.count)


if __name__ == "__main__":
    main()
