"""Prints what a year of charging leaves in a file, month by month: its size, and the time and the memory of a start, where
nothing goes and where each night all goes that is older than 90 days. The file should be on a disk in memory, as a
session is 6 changes. A month takes some 10 to 20 s.

    python3 bench/year.py crates/central/out/central [--stations 200] [--days 365] [--sessions 1] [--folder /dev/shm]
"""

import argparse
import os
import resource
import subprocess
import tempfile
import time

BEGIN = 1704067200
DAY = 86400
MONTH = 30
KEPT = 90
READING = '{{"value":"{0}"}},{{"value":"7.2","measurand":"Power.Active.Import","unit":"kW"}},{{"value":"16.1","measurand":"Current.Import","unit":"A"}}'


def iso(moment):
    return time.strftime("%Y-%m-%dT%H:%M:%SZ", time.gmtime(moment))


def session(station, number, moment, tag):
    """A session of an hour: a start, four MeterValues of three readings, and a stop."""
    front = f"ACME frame {station} "
    yield f'{moment} {front}[2,"s","StartTransaction",{{"connectorId":1,"idTag":"{tag}","meterStart":{number},"timestamp":"{iso(moment)}"}}]'
    for quarter in range(1, 5):
        at = moment + 900 * quarter - 60
        values = READING.format(number + quarter)
        yield (
            f'{at} {front}[2,"m","MeterValues",{{"connectorId":1,"transactionId":{number},"meterValue":'
            f'[{{"timestamp":"{iso(at)}","sampledValue":[{values}]}}]}}]'
        )
    end = moment + 3600
    yield f'{end} {front}[2,"e","StopTransaction",{{"meterStop":{number + 9},"timestamp":"{iso(end)}","transactionId":{number}}}]'


def begin(stations):
    for n in range(stations):
        yield f"{BEGIN} ACME tag put T{n} - 0 -"
        yield f"{BEGIN} ACME station add CP{n} Accepted 300"


def connect(stations, moment):
    for n in range(stations):
        yield f"{moment} ACME connect CP{n}"
        yield f'{moment} ACME frame CP{n} [2,"b","BootNotification",{{"chargePointVendor":"V","chargePointModel":"M"}}]'


def days(stations, sessions, first, last, forgets):
    """The lines of some days. At the end of each what is too old goes, by as many orders as can be needed for sessions and
    their four meter values each."""
    for day in range(first, last):
        moment = BEGIN + day * DAY
        for turn in range(sessions):
            lists = [list(session(f"CP{n}", day * sessions + turn + 1, moment + turn * 7200 + n, f"T{n}")) for n in range(stations)]
            yield from sorted((line for each in lists for line in each), key=lambda line: int(line.split(" ", 1)[0]))
        if forgets and day > KEPT:
            for n in range(stations):
                for _ in range(4 * sessions // 250 + sessions // 250 + 2):
                    yield f"{moment + DAY - 1} ACME forget CP{n} {moment - KEPT * DAY}"


def run(program, db, lines):
    """The seconds of a run, its processor time and its peak memory in MiB."""
    words = [program, "replay", "--operators", "ACME", "--db", db]
    before, begun = resource.getrusage(resource.RUSAGE_CHILDREN), time.monotonic()
    child = subprocess.Popen(words, stdin=subprocess.PIPE, stdout=subprocess.DEVNULL)
    for line in lines:
        child.stdin.write(line.encode() + b"\n")
    child.stdin.close()
    _, status, used = os.wait4(child.pid, 0)
    if status:
        raise SystemExit(f"status {status}")
    after = resource.getrusage(resource.RUSAGE_CHILDREN)
    processor = after.ru_utime + after.ru_stime - before.ru_utime - before.ru_stime
    return time.monotonic() - begun, processor, used.ru_maxrss / 1024


def main():
    parser = argparse.ArgumentParser()
    parser.add_argument("program")
    parser.add_argument("--stations", type=int, default=200)
    parser.add_argument("--days", type=int, default=365)
    parser.add_argument("--sessions", type=int, default=1)
    parser.add_argument("--folder", default="/dev/shm")
    wanted = parser.parse_args()
    with tempfile.TemporaryDirectory(dir=wanted.folder) as folder:
        files = {forgets: os.path.join(folder, f"{forgets}.db") for forgets in (False, True)}
        for db in files.values():
            run(wanted.program, db, begin(wanted.stations))
        for first in range(0, wanted.days, MONTH):
            last = min(first + MONTH, wanted.days)
            for forgets, db in files.items():
                lines = [*connect(wanted.stations, BEGIN + first * DAY), *days(wanted.stations, wanted.sessions, first, last, forgets)]
                _, processor, _ = run(wanted.program, db, lines)
                size = os.path.getsize(db) / 1e6
                seconds, _, memory = run(wanted.program, db, [])
                what = "90 days kept" if forgets else "all kept"
                print(f"day {last:3}  {what:12}  {size:7.1f} MB  a start {seconds:5.2f} s, {memory:6.1f} MiB  {processor / len(lines) * 1e6:5.1f} us a line", flush=True)


if __name__ == "__main__":
    main()
