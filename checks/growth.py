"""Checks that no event reads a history: the same lines cost about as much over a file with 100 rows of a kind as over
one with 10,000. So do orders on the history of a station with 5,300 meter values and with 10,000, and of one with 30
meter values of 20,000 readings and with 100, more than all of these orders take, where none of them may go and where all
may. Each order takes at most 20 ms, and where it lists 20,000 readings 100 ms. Prints the growth of each kind, then
`N passed, M failed`. The figures are processor time of replays, without the opening of the file, the best of some rounds.

    python3 checks/growth.py crates/central/out/central
"""

import os
import resource
import shutil
import sqlite3
import subprocess
import sys
import tempfile

from harness import Counts, remove_database

OPERATORS = "ACME,BETA"
FEW, MANY = 100, 10_000
MOST = 2.0
ROUNDS = 4
# FULL and LONG are the numbers of meter values in the two histories that are compared, with one reading and with READINGS
# readings each. Each order is given ORDERS times. It may take LONGEST seconds, and LISTS where it lists READINGS readings.
# Costs below SHORT seconds aren't compared, since the time to open a file varies by more.
FULL, LONG, READINGS, ORDERS, LONGEST, LISTS, SHORT = (5_300, MANY), (30, 100), 20_000, 20, 0.020, 0.100, 0.005
AT = "2024-01-01T00:00:00Z"
MS = 1704067200000
MEMORY = "/dev/shm" if os.path.isdir("/dev/shm") else None

# What is on record beside the rows of a kind.
RECORDED = f"""\
1704067200 ACME station add CP01 Accepted 300
1704067200 ACME connect CP01
1704067200 ACME frame CP01 [2,"b","BootNotification",{{"chargePointModel":"M","chargePointVendor":"V"}}]
1704067200 ACME tag put OWN - 0 -
1704067200 BETA tag put ROAM - 0 -
1704067200 BETA grant ROAM ACME -
"""
CONNECT = "1704067200 ACME connect CP01\n"


def start(number, tag="OWN", at=AT):
    return (
        f'1704067200 ACME frame CP01 [2,"s","StartTransaction",{{"connectorId":1,"idTag":"{tag}",'
        f'"meterStart":{number},"timestamp":"{at}"}}]\n'
    )


def stop(number):
    return (
        f'1704067200 ACME frame CP01 [2,"e","StopTransaction",{{"meterStop":9,"timestamp":"{AT}",'
        f'"transactionId":{number}}}]\n'
    )


def sessions(rows, tag="OWN"):
    """Starts and stops that follow so many transactions, each start at one time."""
    return "".join(start(-number, tag) + stop(number) for number in range(rows + 1, rows + 301))


def meter_values(rows):
    line = f'1704067200 ACME frame CP01 [2,"m","MeterValues",{{"connectorId":1,"meterValue":[{{"timestamp":"{AT}","sampledValue":[{{"value":"1"}}]}}]}}]\n'
    return line * 600


def tags(rows):
    """Each put of a tag drops what is kept of it, so that it is looked up."""
    return "1704067200 ACME tag put K5 - 0 -\n1704067200 ACME frame CP01 [2,\"a\",\"Authorize\",{\"idTag\":\"K5\"}]\n" * 600


def granted_tags(rows):
    return "1704067200 BETA tag put K5 - 0 -\n1704067200 ACME frame CP01 [2,\"a\",\"Authorize\",{\"idTag\":\"K5\"}]\n" * 600


def transactions(step):
    """So many stopped transactions, each so many milliseconds after the one before."""
    row = "INSERT INTO hub_tx VALUES ('ACME', 'CP01', ?1, 1, 'own', ?1, ?2, 'OWN', NULL, 'Accepted', 1704067200, 0, 0, 9, ?2, 'Local', NULL, 1704067200)"
    return lambda rows: [(row, [(number, MS + step * number) for number in range(1, rows + 1)])]


def of_rows(text):
    return lambda rows: [(text, [(number,) for number in range(1, rows + 1)])]


def grants(rows):
    numbers = [(f"t{number}", f"T{number}") for number in range(rows)]
    return [
        ("INSERT INTO hub_tag VALUES ('BETA', ?1, ?2, NULL, NULL, 0, NULL)", numbers),
        ("INSERT INTO hub_grant VALUES ('BETA', ?1, 'ACME', NULL)", [number[:1] for number in numbers]),
    ]


KINDS = {
    "starts of other times": (transactions(1000), sessions),
    "starts of one time": (transactions(0), sessions),
    "readings": (of_rows("INSERT INTO hub_meter_value VALUES ('ACME', 'CP01', ?, 1, NULL, 0, 1, '[{\"value\":\"1\"}]')"), meter_values),
    "tags": (of_rows("INSERT INTO hub_tag VALUES ('ACME', 't' || ?1, 'T' || ?1, NULL, NULL, 0, NULL)"), tags),
    "granted tags": (grants, granted_tags),
    "uses": (of_rows("INSERT INTO hub_use VALUES ('BETA', ?, 'ACME', 'roam', 1704067200, 9)"), lambda rows: sessions(0, "ROAM")),
}


def meter_values_of(at, readings):
    """Meter values without a transaction, each at the time `at` (milliseconds since 1970) and with `readings` readings."""
    sampled = ",".join(['{"value":"1"}'] * readings)
    row = f"INSERT INTO hub_meter_value VALUES ('ACME', 'CP01', ?, 1, NULL, {at}, {readings}, '[{sampled}]')"
    return lambda rows: [(row, [(1 + readings * number,) for number in range(rows)])]


# Of each history: the two numbers of meter values, the meter values, and the most seconds of an order that lists those
# that may go. All but the last may go where they are from before the order, and none where they are from after it.
HISTORIES = {
    "all may go": (FULL, meter_values_of(MS - 1, 1), LONGEST),
    "none may go": (FULL, meter_values_of(MS + 10**12, 1), LONGEST),
    "all may go, many readings": (LONG, meter_values_of(MS - 1, READINGS), LISTS),
    "none may go, many readings": (LONG, meter_values_of(MS + 10**12, READINGS), LONGEST),
}
ORDERS_ON_HISTORY = {
    "list forgettable": "1704067200 ACME list forgettable CP01 1704067200\n",
    "forget": "1704067200 ACME forget CP01 1704067200\n",
    "forget with ends": "1704067200 ACME forget CP01 1704067200 0 0\n",
    "station drop": "1704067200 ACME station drop CP01\n1704067200 ACME station add CP01 Accepted 300\n",
}


def spent(program, db, lines):
    """The seconds of processor time of a replay. Nothing is refused in it but a station that is dropped with its history,
    or added again."""
    before = resource.getrusage(resource.RUSAGE_CHILDREN)
    words = [program, "replay", "--operators", OPERATORS, "--db", db]
    ran = subprocess.run(words, input=lines.encode(), capture_output=True, timeout=300)
    after = resource.getrusage(resource.RUSAGE_CHILDREN)
    output = ran.stdout.replace(b" refused 9 NotAllowedNow", b"").replace(b" refused 2 StationExists", b"")
    if ran.returncode or any(wrong in output for wrong in (b" refused ", b"bad line", b" send [4,")):
        sys.exit(f"replay: status {ran.returncode}, {ran.stderr.decode()}")
    return after.ru_utime + after.ru_stime - before.ru_utime - before.ru_stime


def filled(program, folder, name, statements):
    """A file with the rows of these statements."""
    db = os.path.join(folder, f"{name.replace(' ', '_')}.db")
    spent(program, db, RECORDED)
    database = sqlite3.connect(db)
    for text, values in statements:
        database.executemany(text, values)
    database.commit()
    database.execute("PRAGMA wal_checkpoint(TRUNCATE)")
    database.close()
    return db


def spent_on_copy(program, db, lines):
    copy = db + ".copy"
    shutil.copyfile(db, copy)
    found = spent(program, copy, lines)
    remove_database(copy)
    return found


def costs(program, folder, name):
    """What the lines of a kind cost by the number of rows: few, and many. Each is measured in turn."""
    found = {}
    for rows in (FEW, MANY):
        db = filled(program, folder, f"{name} {rows}", KINDS[name][0](rows))
        lines = KINDS[name][1](rows if "starts" in name else 0)
        opening = min(spent_on_copy(program, db, CONNECT) for _ in range(ROUNDS))
        found[rows] = min(spent_on_copy(program, db, CONNECT + lines) for _ in range(ROUNDS)) - opening
    return found[FEW], found[MANY]


def costs_of_orders(program, folder, history):
    """For each order its name, its cost over few and over many meter values, the cost below which these aren't compared,
    and the most that it may cost."""
    found = {name: [] for name in ORDERS_ON_HISTORY}
    sizes, statements, listing = HISTORIES[history]
    for rows in sizes:
        db = filled(program, folder, f"{history} {rows}", statements(rows))
        opening = min(spent_on_copy(program, db, "1704067200 * tick\n") for _ in range(ROUNDS))
        for name, line in ORDERS_ON_HISTORY.items():
            least = min(spent_on_copy(program, db, line * ORDERS) for _ in range(ROUNDS))
            found[name].append((least - opening) / ORDERS)
    most = {"list forgettable": listing}
    return [(f"{name}, {history}", few, many, SHORT, most.get(name, LONGEST)) for name, (few, many) in found.items()]


def tell(name, few, many, short, most):
    """Whether a cost grows by less than MOST or stays below `short`, and is at most `most`."""
    # A clock of the processor that counts by the millisecond may show none.
    growth = many / max(few, 0.001)
    print(f"{name}: {few * 1000:.1f} ms and {many * 1000:.1f} ms, growth {growth:.2f}")
    return (growth < MOST or many <= short) and many <= most


def main():
    program = os.path.abspath(sys.argv[1])
    counts = Counts()
    with tempfile.TemporaryDirectory(dir=MEMORY) as folder:
        told = [tell(name, *costs(program, folder, name), 0, float("inf")) for name in KINDS]
        for history in HISTORIES:
            told += [tell(*order) for order in costs_of_orders(program, folder, history)]
    counts.passed += told.count(True)
    counts.failed += told.count(False)
    counts.end()


if __name__ == "__main__":
    main()
