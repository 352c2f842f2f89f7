"""The built program over databases: which files it takes, those of earlier schemas, what a restart and SQLite itself find,
and what docs/OPERATIONS.md does with `sqlite3`. programs.py calls `check_databases`.
"""

import contextlib
import os
import re
import shutil
import signal
import sqlite3
from pathlib import Path

from harness import EARLIER, PORT, SCHEMA, SCRIPTS, connected, faults_of
from peer import BOOT, Peer

NUMBER = "SELECT number FROM hub_meta WHERE name = 'schema'"


def made(checks, *statements):
    """A database that SQLite makes by these statements."""
    path = checks.new_file()
    database = sqlite3.connect(path)
    for statement in statements:
        database.execute(statement)
    database.commit()
    database.close()
    return path


def check_refused(checks):
    """A file that can't be used is named before the operators are looked at, and stays as it is."""
    meta = "CREATE TABLE hub_meta (name TEXT, number INTEGER)"
    later = made(checks, meta, f"INSERT INTO hub_meta VALUES ('schema', {SCHEMA + 1})")
    other = made(checks, "CREATE TABLE hub_tag (op TEXT)")
    text = checks.new_file()
    Path(text).write_text("no database\n" * 100)
    closed = "the file can't be opened"
    faults = {
        later: ("a later version of the program made the database", ""),
        other: ("the database is not one of this program", ""),
        text: ("the file is no database, or its rows don't obey its schema", ""),
        checks.folder: (closed, ": it is a folder"),
        os.path.join(checks.folder, "none", "new.db"): (closed, ": its folder doesn't exist"),
        os.path.join(text, "new.db"): (closed, ": what should be its folder is a file"),
    }
    for path, (fault, why) in faults.items():
        before = os.path.isfile(path) and Path(path).read_bytes()
        for command in (["replay"], ["serve", "--port", str(PORT), "--turns", "0"]):
            got = checks.run(*command, "--operators", "A,A", "--db", path)
            checks.check(f"{command[0]} over {path}", got, (2, "", f"fault Store: {fault}\n{path}{why}\n"))
        after = os.path.isfile(path) and Path(path).read_bytes()
        checks.check(f"{path} stays", before == after, True)


def check_earlier_schemas(checks):
    """A file of each earlier schema is replayed: its records are as they were, and it has this schema then."""
    for number, name in EARLIER.items():
        script, db = SCRIPTS / name, checks.new_file()
        shutil.copy(script.with_suffix(".db"), db)
        for part in ("opened", "again"):
            wanted = script.with_suffix(f".{part}_expected").read_text()
            got = checks.run("replay", "--operators", "ACME,BETA", "--db", db, lines=script.with_suffix(f".{part}").read_bytes())
            checks.check(f"a file of schema {number}, {part}", got, (0, wanted, ""))
        with contextlib.closing(sqlite3.connect(db)) as database:
            checks.check("the number", database.execute(NUMBER).fetchall(), [(SCHEMA,)])
        checks.check("integrity_check", faults_of(db), [("ok",)])


def check_first_schema(checks):
    """A file of schema 1 is served: its records are as they were, and it has this schema then."""
    served = checks.new_file()
    shutil.copy(SCRIPTS / "databases" / "records_in_each_list.db", served)
    with checks.serve("--operators", "ACME,BETA", db=served):
        acme, station = Peer(PORT, "/operator/ACME"), Peer(PORT, "/ocpp/ACME/CP01")
        checks.check("no reports", acme.ask("list reports CP01"), "ACME ok")
        report = '[2,"1","FirmwareStatusNotification",{"status":"Installed"}]'
        checks.check("a report is taken", station.ask(report), '[3,"1",{}]')
        row = re.sub(r"\d+$", "T", acme.ask("list reports CP01"))
        checks.check("it is listed", [row, acme.next()], ["ACME row report CP01 Firmware Installed T", "ACME ok"])
        row = acme.ask("list locallist CP01")
        checks.check("the version of the local list", row, "ACME row locallist CP01 7")
    with contextlib.closing(sqlite3.connect(served)) as database:
        checks.check("the number", database.execute(NUMBER).fetchall(), [(SCHEMA,)])
        rows = database.execute("SELECT op, station, kind, status FROM hub_report").fetchall()
        checks.check("the report in SQL", rows, [("ACME", "CP01", "Firmware", "Installed")])
    checks.check("integrity_check", faults_of(served), [("ok",)])


def check_two_runs(checks):
    """A replay goes on where the one before it ended."""
    db = checks.new_file()
    replay = ["replay", "--operators", "ACME", "--db", db]
    checks.check("a first run", checks.run(*replay, lines=b"1 ACME tag put K1 - 0 -\n"), (0, "ACME ok\n", ""))
    row = 'ACME row tag "K1" - 0 -\nACME ok\n'
    checks.check("a second run", checks.run(*replay, lines=b"2 ACME list tags\n"), (0, row, ""))
    others = ["replay", "--operators", "BETA", "--db", db]
    checks.check("another operator's run", checks.run(*others, lines=b"2 BETA list tags\n"), (0, "BETA ok\n", ""))


def check_uses(checks):
    """An owner that isn't hosted gets the uses of its tags all the same, and is shown them once it is hosted again."""
    db = checks.new_file()
    begin = 1704067200

    def replay(operators, *lines):
        words = ["replay", "--operators", operators, "--db", db]
        return checks.run(*words, lines="".join(f"{begin} {line}\n" for line in lines).encode())

    def start(number):
        times = f'"meterStart":{number},"timestamp":"2024-01-01T00:00:00Z"'
        return f'ACME frame CP01 [2,"s{number}","StartTransaction",{{"connectorId":1,"idTag":"K2",{times}}}]'

    def stop(number):
        times = '"meterStop":1000,"timestamp":"2024-01-01T01:00:00Z"'
        return f'ACME frame CP01 [2,"e{number}","StopTransaction",{{{times},"transactionId":{number}}}]'

    station = ("ACME station add CP01 Accepted 300", "ACME connect CP01", f"ACME frame CP01 {BOOT}")
    code, _, errors = replay("ACME,BETA", "BETA tag put K2 - 0 -", "BETA grant K2 ACME -", *station, start(1))
    checks.check("a start with a granted tag", (code, errors), (0, ""))
    told = [f'ACME CP01 send [3,"{name}",{{{text}}}]\n' for name, text in (
        ("e1", ""), ("s2", '"idTagInfo":{"status":"Accepted"},"transactionId":2'), ("e2", ""))]
    alone = replay("ACME", "ACME connect CP01", stop(1), start(2), stop(2))
    checks.check("stops while the owner isn't hosted", alone, (0, "".join(told), ""))
    rows = "".join(f'BETA row use {number} ACME "k2" {begin} {1000 - number}\n' for number in (1, 2))
    for operators in ("ACME,BETA", "BETA"):
        checks.check("its uses once it is hosted again", replay(operators, "BETA list uses"), (0, rows + "BETA ok\n", ""))
    with contextlib.closing(sqlite3.connect(db)) as database:
        kept = database.execute("SELECT op, number, host, tag_key, moment, wh FROM hub_use ORDER BY number").fetchall()
        checks.check("the uses in SQL", kept, [("BETA", number, "ACME", "k2", begin, 1000 - number) for number in (1, 2)])


def check_restart(checks):
    """Records outlive a server that is ended, and one that is killed. Two servers have no file in common."""
    db = checks.new_file()
    for sign in (signal.SIGTERM, signal.SIGKILL, signal.SIGINT):
        with checks.serve("--operators", "ACME", db=db) as server:
            acme, station = connected("CP01")
            checks.check("a tag is put", acme.ask(f"tag put {sign.name} - 0 -"), "ACME ok")
            second = checks.run("serve", "--port", "9282", "--db", db, "--operators", "ACME", "--turns", "0")
            fault = f"fault Store: another process has the database open\n{db}\n"
            checks.check("a second server", second, (2, "", fault))
            server.send_signal(sign)
            server.wait(10)
            checks.check(f"{sign.name} ends it", server.returncode, -sign)
    with checks.serve("--operators", "ACME", db=db):
        acme = Peer(PORT, "/operator/ACME")
        rows = [acme.ask("list tags")] + [acme.next() for _ in range(3)]
        wanted = [f'ACME row tag "{name}" - 0 -' for name in ("SIGINT", "SIGKILL", "SIGTERM")]
        checks.check("all tags are there", rows, [*wanted, "ACME ok"])
    check_with_sqlite(checks, db)


def check_with_sqlite(checks, db):
    """SQLite itself reads a file that the program wrote, and finds it whole."""
    database = sqlite3.connect(db)
    checks.check("integrity_check", faults_of(db), [("ok",)])
    checks.check("foreign_key_check", database.execute("PRAGMA foreign_key_check").fetchall(), [])
    tags = database.execute("SELECT id_tag FROM hub_tag WHERE op = 'ACME' ORDER BY tag_key").fetchall()
    checks.check("the tags in SQL", tags, [("SIGINT",), ("SIGKILL",), ("SIGTERM",)])
    database.close()


def check_forms(checks):
    """A file of either form of schema 3, or of schema 4, is taken, and has the tables, the indexes and the number of a new
    one then."""
    words, new = ["replay", "--operators", "ACME", "--db"], checks.new_file()
    checks.check("a new file", checks.run(*words, new), (0, "", ""))
    for name in ("third", "third_with_an_earlier_index", "fourth"):
        db = checks.new_file()
        shutil.copy(SCRIPTS / "databases" / f"{name}.db", db)
        checks.check(name, checks.run(*words, db, lines=b"1 ACME list open\n"), (0, "ACME ok\n", ""))
        checks.check("its tables and indexes", schema_in(db), schema_in(new))
        with contextlib.closing(sqlite3.connect(db)) as database:
            checks.check("its number", database.execute(NUMBER).fetchall(), [(SCHEMA,)])


def page_size(db):
    database = sqlite3.connect(db)
    size = database.execute("PRAGMA page_size").fetchone()[0]
    database.close()
    return size


def check_pages(checks):
    """A new file has small pages, and one that is there keeps its own until sqlite3 changes them, as OPERATIONS says."""
    words = ["replay", "--operators", "ACME", "--db"]
    put, row = b"1 ACME tag put K1 - 0 -\n", (0, 'ACME row tag "K1" - 0 -\nACME ok\n', "")
    small, empty, drafted = checks.new_file(), checks.new_file(), checks.new_file()
    Path(empty).touch()
    Path(f"{drafted}.new").write_text("left by a crash")
    for db, size in ((small, 1024), (empty, 4096), (drafted, 4096)):
        checks.check("a tag is put", checks.run(*words, db, lines=put), (0, "ACME ok\n", ""))
        checks.check(f"pages of {size}", page_size(db), size)
    checks.check("no draft is left", os.path.exists(f"{small}.new"), False)
    checks.check("another's draft stays", Path(f"{drafted}.new").read_text(), "left by a crash")
    vacuum(empty, "PRAGMA journal_mode = DELETE", "PRAGMA page_size = 1024")
    checks.check("smaller pages", page_size(empty), 1024)
    for db in (small, empty, drafted):
        checks.check("the tag is there", checks.run(*words, db, lines=b"2 ACME list tags\n"), row)


def vacuum(db, *settings):
    """SQLite writes the file anew, with these settings."""
    with contextlib.closing(sqlite3.connect(db, isolation_level=None)) as database:
        for statement in (*settings, "VACUUM", "PRAGMA journal_mode = WAL"):
            database.execute(statement).fetchall()


def schema_in(db):
    """The names and texts of the tables and indexes, in their order."""
    with contextlib.closing(sqlite3.connect(db)) as database:
        return database.execute("SELECT name, sql FROM sqlite_schema ORDER BY rowid").fetchall()


def check_vacuum(checks):
    """After VACUUM a file of an earlier schema is migrated, and one of this schema is taken as it is, each with its rows."""
    words = ["replay", "--operators", "ACME,BETA", "--db"]
    new = checks.new_file()
    checks.check("a new file", checks.run(*words, new), (0, "", ""))
    for name in EARLIER.values():
        script, db = SCRIPTS / name, checks.new_file()
        shutil.copy(script.with_suffix(".db"), db)
        for part in ("opened", "again"):
            vacuum(db)
            wanted = script.with_suffix(f".{part}_expected").read_text()
            got = checks.run(*words, db, lines=script.with_suffix(f".{part}").read_bytes())
            checks.check(f"{name} after VACUUM, {part}", got, (0, wanted, ""))
            checks.check(f"its tables and indexes, {part}", schema_in(db), schema_in(new))
        vacuum(db)
        checks.check("the order after VACUUM", schema_in(db), schema_in(new))


def check_databases(checks):
    check_refused(checks)
    check_earlier_schemas(checks)
    check_first_schema(checks)
    check_two_runs(checks)
    check_uses(checks)
    check_restart(checks)
    check_forms(checks)
    check_pages(checks)
    check_vacuum(checks)
