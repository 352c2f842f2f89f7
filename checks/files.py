"""Checks the built program over databases in files, by the scripts of tests/check_cases. Each script writes what it is to
write, in memory and over a new file; scripts go on over the file that one before them left, and over files of earlier versions of the
program. Each database of data/databases is opened: what the program says of it is in its opened.txt, and one that is
refused stays as it is. Prints `N passed, M failed`.

    python3 checks/files.py crates/central/out/central
"""

import contextlib
import os
import re
import shutil
import sqlite3
import sys
import tempfile
from pathlib import Path

from harness import SCRIPTS, Checks

OPENED = SCRIPTS / "databases" / "opened.txt"
EARLIER_FORM = SCRIPTS / "databases" / "records_of_schema_3_earlier.db"
# What is told of a bad line.
REASON = re.compile(r"line \d+: ")
# The most bytes of a log without a change.
EMPTY_LOG = 41
LISTS = "".join(
    f"1704067200 ACME list {name}\n"
    for name in ("stations", "tags", "connectors CP01", "transactions CP01", "readings CP01", "readings CP01 7")
)


class Files(Checks):
    def replay(self, lines, db=None, operators="ACME,BETA"):
        """What a replay writes, and after it the line of its fault, if there is one."""
        _, output, errors = self.run("replay", "--operators", operators, *(["--db", db] if db else []), lines=lines)
        return output + "".join([line for line in errors.splitlines(keepends=True) if not REASON.match(line)][:1])


def operators_of(script):
    names = script.with_suffix(".operators")
    return names.read_text().rstrip("\n") if names.exists() else "ACME,BETA"


def check_each(checks):
    """Each script in memory and over a new file, and the script that goes on over it."""
    scripts = sorted(path for path in SCRIPTS.glob("*/*.script") if path.with_suffix(".expected").exists())
    checks.check("more than 150 scripts", len(scripts) > 150, True)
    for script in scripts:
        db, operators = checks.new_file(), operators_of(script)
        wanted = script.with_suffix(".expected").read_bytes().decode()
        checks.check(f"{script.stem}, in memory", checks.replay(script.read_bytes(), None, operators), wanted)
        checks.check(script.stem, checks.replay(script.read_bytes(), db, operators), wanted)
        later = script.with_suffix(".later")
        if later.exists():
            run_between(db, script.with_suffix(".between"))
            got = checks.replay(later.read_bytes(), db, operators)
            checks.check(f"{script.stem}, later", got, script.with_suffix(".later_expected").read_bytes().decode())


def run_between(db, statements):
    if statements.exists():
        with contextlib.closing(sqlite3.connect(db)) as database:
            database.executescript(statements.read_text())


def check_earlier(checks):
    """Two scripts over each file that an earlier version of the program made, and over that of schema 3 in its earlier
    form, which has the same records."""
    files = [(script, script.with_suffix(".db")) for script in sorted(SCRIPTS.glob("*/*.opened"))]
    files.append((EARLIER_FORM.with_name("records_of_schema_3.opened"), EARLIER_FORM))
    for script, file in files:
        db = checks.new_file()
        shutil.copy(file, db)
        for part in ("opened", "again"):
            got = checks.replay(script.with_suffix(f".{part}").read_bytes(), db, operators_of(script))
            wanted = script.with_suffix(f".{part}_expected").read_bytes().decode()
            checks.check(f"{file.stem}, {part}", got, wanted)


def said(checks, path):
    """What the program says of the database in a file."""
    fault = re.match(r"fault Store: (.*)\n", checks.replay(b"", path))
    return fault.group(1) if fault else "taken"


def told(checks, path):
    """What the program says of a copy of a database, and whether the file stays as it was."""
    db = checks.new_file()
    shutil.copy(path, db)
    answer = said(checks, db)
    log = Path(f"{db}-wal")
    is_kept = Path(db).read_bytes() == path.read_bytes() and not (log.exists() and log.stat().st_size > EMPTY_LOG)
    return f"{path.stem}: {answer}, {'as it was' if is_kept else 'changed'}"


def check_databases(checks):
    wanted = OPENED.read_text().splitlines()
    got = [told(checks, path) for path in sorted(SCRIPTS.glob("databases/*.db"))]
    folder = Path(checks.folder, "folder")
    folder.mkdir()
    got += [f"a folder: {said(checks, folder)}", f"in no folder: {said(checks, Path(checks.folder, 'none', 'new.db'))}"]
    checks.check("databases", [line.split(":")[0] for line in got], [line.split(":")[0] for line in wanted])
    for line, want in zip(got, wanted):
        checks.check("a database", line, want)


def check_many(checks):
    """1,000 tags and 2,000 transactions, over a file that is closed and opened before they are listed."""
    front = "1704067200 ACME station add CP01 Accepted 300\n1704067200 ACME connect CP01\n"
    front += '1704067200 ACME frame CP01 [2,"b","BootNotification",{"chargePointModel":"M","chargePointVendor":"V"}]\n'
    front += "".join(f"1704067200 ACME tag put T{number} - 0 -\n" for number in range(1000))
    for number in range(1, 2001):
        at = f'"timestamp":"2024-01-01T{number // 3600:02}:{number // 60 % 60:02}:{number % 60:02}Z"'
        values = f'"transactionData":[{{{at},"sampledValue":[{{"value":"{number}"}}]}}]'
        start = f'"connectorId":1,"idTag":"T{number % 1000}","meterStart":{number},{at}'
        front += f'1704067200 ACME frame CP01 [2,"s{number}","StartTransaction",{{{start}}}]\n'
        stop = f'"meterStop":{number},{at},"transactionId":{number},{values}'
        front += f'1704067200 ACME frame CP01 [2,"e{number}","StopTransaction",{{{stop}}}]\n'
    db = checks.new_file()
    got = checks.replay(front.encode(), db) + checks.replay(LISTS.encode(), db)
    checks.check("many rows", got == checks.replay((front + LISTS).encode()), True)


def main():
    with tempfile.TemporaryDirectory() as folder:
        checks = Files(os.path.abspath(sys.argv[1]), folder)
        check_each(checks)
        check_earlier(checks)
        check_databases(checks)
        check_many(checks)
    checks.end()


if __name__ == "__main__":
    main()
