#!/usr/bin/env python3
"""Makes the databases in tests/check_cases/data/scripts/databases: files of other programs, of later versions and of odd
shapes.

Run it at the top of the repository, after a change of the tables. It reads their texts from
crates/sql_tables/src. The files are written by SQLite itself, all but records_in_each_list.db and
records_of_schema_2.db, records_of_schema_3.db and records_of_schema_4.db. Those have schemas 1 to 4: each is what
`central replay --db` of that version made of the script of its name, with rows in each table. They are never made anew.
records_of_schema_3_earlier.db has the records of that of schema 3 in the earlier form of it.
"""
import os
import re
import shutil
import sqlite3

FOLDER = "tests/check_cases/data/scripts/databases"
SUBJECTS = (
    "meta", "stations", "connectors", "tags", "grants", "txs", "readings", "reservations", "lists", "list_entries",
    "reports", "tx_owners", "uses", "meter_values", "readers",
)
CONSTANT = re.compile(r'^pub const (CREATE\w*): &str =\s+"(.*)";$', re.M)
MADE = {
    f"{subject}.{name}": text
    for subject in SUBJECTS
    for name, text in CONSTANT.findall(open(f"crates/sql_tables/src/{subject}.rt").read())
}
# all tables, and after them the further indexes
TEXTS = dict(sorted(MADE.items(), key=lambda made: not made[0].endswith(".CREATE")))
META = TEXTS["meta.CREATE"]
NUMBER = "INSERT INTO hub_meta VALUES ('schema', %d)"
# the tables and indexes of each schema, in their order
EARLIER_INDEX = "txs.CREATE_EARLIER_IS_OPEN"
EARLIER_HAS = ("txs.CREATE_EARLIER_START_AT", "readings.CREATE_TRANSACTION")
THIRD_HAS = ("tx_owners.CREATE", "uses.CREATE", "txs.CREATE_IS_OPEN")
FOURTH_HAS = ("meter_values.CREATE", "txs.CREATE_START_AT", "meter_values.CREATE_TRANSACTION")
OURS_HAS = ("readers.CREATE",)


def tables_without(*names):
    """The texts of all tables and indexes but these."""
    return [text for name, text in TEXTS.items() if name not in names]


FIRST_TABLES = tables_without("reports.CREATE", *THIRD_HAS, *FOURTH_HAS, *OURS_HAS)
SECOND_TABLES = tables_without(*THIRD_HAS, *FOURTH_HAS, *OURS_HAS)
THIRD_TABLES = tables_without(EARLIER_INDEX, *FOURTH_HAS, *OURS_HAS)
FOURTH_TABLES = tables_without(EARLIER_INDEX, *EARLIER_HAS, *OURS_HAS)
TABLES = tables_without(EARLIER_INDEX, *EARLIER_HAS)
FIRST = FIRST_TABLES + [NUMBER % 1]
SECOND = SECOND_TABLES + [NUMBER % 2]
THIRD = THIRD_TABLES + [NUMBER % 3]
FOURTH = FOURTH_TABLES + [NUMBER % 4]
# the further indexes from the one on that the earlier form of schema 3 has otherwise, by their names
EARLIER_INDEXES = {
    "hub_tx_is_open": TEXTS[EARLIER_INDEX],
    "hub_tx_start_at": TEXTS["txs.CREATE_EARLIER_START_AT"],
    "hub_reading_transaction": TEXTS["readings.CREATE_TRANSACTION"],
}
OURS = TABLES + [NUMBER % 5]
STATION = (
    "INSERT INTO hub_station VALUES"
    " ('ACME', 'CP01', 'Accepted', 300, 'Fresh', NULL, NULL, NULL, NULL, NULL, NULL, NULL, NULL, NULL, NULL)"
)
TAG = "INSERT INTO hub_tag VALUES ('ACME', 'k1', 'K1', NULL, NULL, 0, NULL)"
REPORT = "INSERT INTO hub_report VALUES ('ACME', 'CP01', 'Firmware', 'Installed', 1704067200)"
TX = (
    "INSERT INTO hub_tx VALUES ('ACME', 'CP01', 1, 1, 'k2', 100, 1704067200000, 'K2', NULL, 'Accepted', 1704067200, 1, 1,"
    " NULL, NULL, NULL, NULL, NULL)"
)
OWNER = "INSERT INTO hub_tx_owner VALUES ('ACME', 'CP01', 1, 'BETA')"
USE = "INSERT INTO hub_use VALUES ('BETA', 1, 'ACME', 'k2', 1704067200, 1500)"
READING = (
    "INSERT INTO hub_reading VALUES ('ACME', 'CP01', %d, 1, NULL, 1704067200000, 'Sample.Periodic', 'Raw',"
    " 'Energy.Active.Import.Register', NULL, 'Outlet', NULL, '1')"
)
METER_VALUE = "INSERT INTO hub_meter_value VALUES ('ACME', 'CP01', 1, 1, NULL, 1704067200000, 1, '[{\"value\":\"1\"}]')"
SECOND_ROWS = [STATION, TAG, REPORT]
THIRD_ROWS = SECOND_ROWS + [TX, OWNER, USE, *(READING % number for number in (1, 2, 4, 2147483647))]
READER = "INSERT INTO hub_reader VALUES ('ACME', 'CP01', 'tolerant')"
FOURTH_ROWS = SECOND_ROWS + [TX, OWNER, USE, METER_VALUE]
ROWS = FOURTH_ROWS + [READER]


def with_text(texts, old, new):
    """The statements with one text in place of another."""
    return [TEXTS[new] if text == TEXTS[old] else text for text in texts]


EARLIER_THIRD = with_text(THIRD, "txs.CREATE_IS_OPEN", EARLIER_INDEX)


def database(name, statements, vacuum=False):
    """A database that is made by these statements, and maybe written anew."""
    path = os.path.join(FOLDER, name + ".db")
    if os.path.exists(path):
        os.remove(path)
    made = sqlite3.connect(path)
    made.execute("PRAGMA page_size = 512")
    for statement in statements:
        made.execute(statement)
    made.commit()
    if vacuum:
        made.execute("VACUUM")
    made.close()


def in_earlier_form(name, of):
    """A copy of a database of schema 3, in the earlier form of it."""
    path = os.path.join(FOLDER, name + ".db")
    shutil.copy(os.path.join(FOLDER, of + ".db"), path)
    made = sqlite3.connect(path)
    for index in EARLIER_INDEXES:
        made.execute(f"DROP INDEX {index}")
    for text in EARLIER_INDEXES.values():
        made.execute(text)
    made.commit()
    made.close()


def raw(name, content):
    """A file of these bytes."""
    with open(os.path.join(FOLDER, name + ".db"), "wb") as file:
        file.write(content)


def meta(*values, columns="name TEXT, number INTEGER"):
    """The statements that make a hub_meta with these columns and rows."""
    return ["CREATE TABLE hub_meta (%s)" % columns] + ["INSERT INTO hub_meta VALUES (%s)" % value for value in values]


raw("empty_file", b"")
raw("no_database", b"T ACME add CP01\n" * 64)
raw("half_a_header", b"SQLite format 3\0")
database("no_table", ["CREATE TABLE t (a)", "DROP TABLE t"])
database("tag_without_meta", [TEXTS["tags.CREATE"]])
database("report_without_meta", [TEXTS["reports.CREATE"]])
database("use_without_meta", [TEXTS["uses.CREATE"]])
database("other_program", ["CREATE TABLE person (name TEXT)", "INSERT INTO person VALUES ('A')"])
database("later_version", [META, NUMBER % 9])
database("later_version_with_other_tables", [META, NUMBER % 6, "CREATE TABLE person (name TEXT)"])
database("later_version_with_our_tables", TABLES + [NUMBER % 6])
database("meta_without_row", [META])
database("meta_with_two_rows", meta("'schema', 2", "'other', 2"))
database("meta_with_0", meta("'schema', 0"))
database("meta_with_a_negative_number", meta("'schema', -1"))
database("meta_with_a_text", meta("'schema', 'one'"))
database("meta_with_null", meta("'schema', NULL"))
database("meta_with_two_numbers", meta("2, 2", columns="version INTEGER, number INTEGER"))
database("meta_of_one_column", meta("9", columns="version INTEGER"))
database("meta_as_a_view", ["CREATE TABLE t (number INTEGER)", "INSERT INTO t VALUES (2)", "CREATE VIEW hub_meta AS SELECT number FROM t"])
database("ours", OURS)
database("ours_with_rows", OURS + ROWS)
database("ours_after_vacuum", OURS + ROWS, vacuum=True)
database("ours_with_a_table_last", FOURTH_TABLES + [TEXTS["readers.CREATE"], NUMBER % 5])
database("ours_without_a_table", [text for text in OURS if text != TEXTS["reservations.CREATE"]])
database("ours_without_an_index", [text for text in OURS if text != TEXTS["txs.CREATE_IN_USE"]])
database("ours_with_another_table", OURS + ["CREATE TABLE person (name TEXT)"])
database("ours_with_another_column", [text.replace("until INTEGER", "until INTEGER, note TEXT") for text in OURS])
in_earlier_form("records_of_schema_3_earlier", "records_of_schema_3")
database("ours_with_an_earlier_index", with_text(OURS, "txs.CREATE_IS_OPEN", EARLIER_INDEX))
database("ours_with_the_index_of_readings", with_text(OURS, "meter_values.CREATE_TRANSACTION", "readings.CREATE_TRANSACTION"))
database("ours_with_an_earlier_index_of_starts", with_text(OURS, "txs.CREATE_START_AT", "txs.CREATE_EARLIER_START_AT"))
database("ours_with_the_number_1", TABLES + [NUMBER % 1])
database("ours_with_the_number_2", TABLES + [NUMBER % 2])
database("ours_with_the_number_3", TABLES + [NUMBER % 3])
database("ours_with_the_number_4", TABLES + [NUMBER % 4])
database("fourth", FOURTH)
database("fourth_with_rows", FOURTH + FOURTH_ROWS)
database("fourth_after_vacuum", FOURTH + FOURTH_ROWS, vacuum=True)
database("fourth_with_readings_left", FOURTH + FOURTH_ROWS + [READING % 1, READING % 2147483648])
database("fourth_without_a_table", [text for text in FOURTH if text != TEXTS["meter_values.CREATE"] and text != TEXTS["meter_values.CREATE_TRANSACTION"]])
database("fourth_with_an_index_of_schema_3", with_text(FOURTH, "txs.CREATE_START_AT", "txs.CREATE_EARLIER_START_AT"))
database("fourth_with_the_number_3", FOURTH_TABLES + [NUMBER % 3])
database("fourth_with_the_number_5", FOURTH_TABLES + [NUMBER % 5])
database("third", THIRD)
database("third_with_rows", THIRD + THIRD_ROWS)
database("third_after_vacuum", THIRD + THIRD_ROWS, vacuum=True)
database("third_with_a_number_past_the_last", THIRD + [STATION, READING % 2147483648])
database("third_with_a_reading_of_no_station", THIRD + [READING % 1])
database("third_without_a_table", [text for text in THIRD if text != TEXTS["uses.CREATE"]])
database("third_with_a_table_of_ours", THIRD + [TEXTS["meter_values.CREATE"]])
database("third_with_an_earlier_index", EARLIER_THIRD)
database("third_with_an_earlier_index_after_vacuum", EARLIER_THIRD + THIRD_ROWS, vacuum=True)
database("third_with_an_earlier_index_and_rows", EARLIER_THIRD + THIRD_ROWS)
database("third_with_an_earlier_index_and_the_number_2", EARLIER_THIRD[:-1] + [NUMBER % 2])
database("third_with_an_earlier_index_and_the_number_4", EARLIER_THIRD[:-1] + [NUMBER % 4])
database("third_with_an_earlier_index_last", [text for text in THIRD if text != TEXTS["txs.CREATE_IS_OPEN"]] + [TEXTS[EARLIER_INDEX]])
database("third_with_the_index_of_ours", THIRD_TABLES[:-1] + [TEXTS["meter_values.CREATE"], TEXTS["meter_values.CREATE_TRANSACTION"], NUMBER % 3])
database("third_with_the_number_4", THIRD_TABLES + [NUMBER % 4])
database("second", SECOND)
database("second_with_rows", SECOND + SECOND_ROWS)
database("second_after_vacuum", SECOND + SECOND_ROWS, vacuum=True)
database("second_with_tables_last", FIRST_TABLES + [TEXTS["reports.CREATE"], NUMBER % 2])
database("second_without_a_table", [text for text in SECOND if text != TEXTS["reports.CREATE"]])
database("second_with_a_table_of_ours", SECOND + [TEXTS["tx_owners.CREATE"]])
database("second_with_a_later_index", with_text(SECOND, EARLIER_INDEX, "txs.CREATE_IS_OPEN"))
database("second_with_the_number_3", SECOND_TABLES + [NUMBER % 3])
database("first", FIRST)
database("first_with_rows", FIRST + [STATION, TAG])
database("first_after_vacuum", FIRST + [STATION, TAG], vacuum=True)
database("first_without_a_table", [text for text in FIRST if text != TEXTS["reservations.CREATE"]])
database("first_without_an_index", [text for text in FIRST if text != TEXTS["txs.CREATE_IN_USE"]])
database("first_with_another_table", FIRST + ["CREATE TABLE person (name TEXT)"])
database("first_with_another_column", [text.replace("until INTEGER", "until INTEGER, note TEXT") for text in FIRST])
database("first_with_the_number_2", FIRST_TABLES + [NUMBER % 2])
