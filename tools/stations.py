#!/usr/bin/env python3
"""Writes what adds the stations of a CSV file: the lines for `central ask`, and their passwords for the proxies.

    python3 tools/stations.py STATIONS.csv OPERATOR FOLDER [--make-passwords]

The first line of the CSV file (UTF-8, parted by commas) is `station,policy,interval` or
`station,policy,interval,password`. FOLDER is made, for its owner alone, and has these files then:

    orders         a line `station add` for each station: central ask --port P --operator OPERATOR < FOLDER/orders
    nginx          NAME:HASH for each station, for the operator's file of passwords (auth_basic_user_file)
    haproxy        user OPERATOR.NAME password HASH for each station, for a userlist
    passwords.csv  the passwords that --make-passwords made, for the stations

Without passwords it has the orders alone. --make-passwords makes one for each station that has none. A hash is made by
`openssl passwd -5` (SHA-256 with a salt). Bad lines are told by number, and then nothing is written and the status is
1. No cell of the file is ever printed, since a cell may be a password.
"""

import argparse
import csv
import os
import re
import secrets
import subprocess
import sys
from pathlib import Path

COLUMNS = ["station", "policy", "interval"]
HEADS = (COLUMNS, [*COLUMNS, "password"])
# What the server takes as an operator's name, and what the rules of the proxies pass as a station's
# (docs/OPERATIONS.md, A TLS proxy).
OPERATOR = re.compile("[A-Za-z0-9_-]{1,32}")
STATION = re.compile("[A-Za-z0-9_.-]+")
LONGEST_NAME = 48
POLICIES = ("Accepted", "Pending", "Rejected")
LONGEST_INTERVAL = 86_400
# The lengths of a password for HTTP Basic authentication in OCPP 1.6's security extension.
SHORTEST_PASSWORD, LONGEST_PASSWORD = 16, 40
PASSWORD = re.compile(f"[!-~]{{{SHORTEST_PASSWORD},{LONGEST_PASSWORD}}}")


class Refused(Exception):
    """Says why nothing is written, a line for each reason."""


def name_fault(name):
    """What is wrong with a station's name, or nothing."""
    if not 1 <= len(name) <= LONGEST_NAME:
        return f"the name of a station has 1 to {LONGEST_NAME} characters"
    if not STATION.fullmatch(name):
        return "the rules of the proxies pass letters of ASCII, digits, _, . and - in the name of a station"
    return "a proxy takes the names . and .. for folders" if name in (".", "..") else None


def row_faults(row, needs_password):
    """What is wrong with the cells of a line."""
    if fault := name_fault(row["station"]):
        yield fault
    if row["policy"] not in POLICIES:
        yield "the policy is Accepted, Pending or Rejected"
    if not re.fullmatch("[0-9]{1,5}", row["interval"]) or int(row["interval"]) > LONGEST_INTERVAL:
        yield f"the interval is a number of seconds from 0 to {LONGEST_INTERVAL}"
    if row.get("password"):
        if not PASSWORD.fullmatch(row["password"]):
            yield f"a password has {SHORTEST_PASSWORD} to {LONGEST_PASSWORD} characters from ! to ~"
    elif needs_password:
        yield "the password is missing (--make-passwords makes one)"


def read_rows(lines, makes_passwords):
    """The rows of a CSV file by the names of their columns. All bad lines are told at once."""
    reader = csv.reader(lines, strict=True)
    head = next(reader, [])
    if head not in HEADS:
        raise Refused("line 1: the columns are station,policy,interval or station,policy,interval,password")
    rows, faults, first = [], [], {}
    for cells in reader:
        number, row = reader.line_num, dict(zip(head, cells))
        if not cells:
            continue
        if len(cells) != len(head):
            faults.append(f"line {number}: {len(cells)} cells where {len(head)} are wanted")
            continue
        faults += [f"line {number}: {fault}" for fault in row_faults(row, "password" in head and not makes_passwords)]
        if first.setdefault(row["station"], number) != number:
            faults.append(f"line {number}: the station of line {first[row['station']]} again")
        rows.append(row)
    if faults or not rows:
        raise Refused("\n".join(faults or ["the file has no station"]))
    return rows


def hashes(passwords):
    """A salted hash of each password. They are handed to openssl by its standard input, which no other user sees."""
    lines = "".join(f"{password}\n" for password in passwords)
    ran = subprocess.run(["openssl", "passwd", "-5", "-stdin"], input=lines, capture_output=True, text=True)
    found = ran.stdout.splitlines()
    if ran.returncode or len(found) != len(passwords) or not all(line.startswith("$5$") for line in found):
        raise Refused(f"openssl passwd -5 ended with status {ran.returncode}: {ran.stderr.strip()}")
    return found


def files_of(rows, operator, makes_passwords):
    """The texts of the files, by name."""
    texts = {"orders": "".join(f"station add {row['station']} {row['policy']} {row['interval']}\n" for row in rows)}
    made = [row for row in rows if makes_passwords and not row.get("password")]
    for row in made:
        row["password"] = secrets.token_hex(16)
    if made:
        texts["passwords.csv"] = "station,password\n" + "".join(f"{row['station']},{row['password']}\n" for row in made)
    if all(row.get("password") for row in rows):
        pairs = list(zip((row["station"] for row in rows), hashes([row["password"] for row in rows])))
        texts["nginx"] = "".join(f"{name}:{found}\n" for name, found in pairs)
        texts["haproxy"] = "".join(f"    user {operator}.{name} password {found}\n" for name, found in pairs)
    return texts


def write(folder, texts):
    """Makes the folder with these files, for its owner alone."""
    os.umask(0o077)
    folder.mkdir()
    for name, text in texts.items():
        (folder / name).write_text(text)


def options():
    parser = argparse.ArgumentParser(description=__doc__, formatter_class=argparse.RawDescriptionHelpFormatter)
    parser.add_argument("stations", type=Path, metavar="STATIONS.csv")
    parser.add_argument("operator", metavar="OPERATOR")
    parser.add_argument("folder", type=Path, metavar="FOLDER")
    parser.add_argument("--make-passwords", action="store_true", help="makes a password for each station that has none")
    return parser.parse_args()


def run(given):
    if not OPERATOR.fullmatch(given.operator):
        raise Refused("OPERATOR: the name of an operator has 1 to 32 letters of ASCII, digits, _ and -")
    if given.folder.exists():
        raise Refused(f"{given.folder} is there already")
    try:
        with open(given.stations, encoding="utf-8-sig", newline="") as lines:
            rows = read_rows(lines, given.make_passwords)
    except UnicodeDecodeError:
        raise Refused(f"{given.stations} is not UTF-8") from None
    except csv.Error as error:
        raise Refused(f"{given.stations} is no CSV file: {error}") from None
    texts = files_of(rows, given.operator, given.make_passwords)
    write(given.folder, texts)
    print(f"{len(rows)} stations. {given.folder} has {', '.join(sorted(texts))}.")


def main():
    try:
        run(options())
    except (Refused, OSError) as error:
        sys.exit(str(error))


if __name__ == "__main__":
    main()
