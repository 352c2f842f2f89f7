"""A server with made-up records of one operator, for check.py: its lines are those of docs/TABLES.md."""

import base64
import hashlib
import itertools
import json
import re
import socket
import socketserver
import struct
import threading
import time

START = 1704067200000
NOW = int(time.time()) * 1000
ORDER = re.compile(r"#([A-Za-z0-9_-]{1,32}) (.*)", re.S)
OF_STATIONS = ("connectors", "reports", "reservations", "locallist", "transactions", "readings")


def quoted(text):
    return "-" if text is None else json.dumps(text, ensure_ascii=False)


def compact(value):
    return json.dumps(value, ensure_ascii=False, separators=(",", ":"))


class Records:
    """The rows of an operator, as they stand after `row `, by the words of their listing. A server that hasn't `has_readers`
    is older."""

    def __init__(self):
        self.rows = {"stations": [], "readers": [], "tags": [], "grants": [], "granted": [], "uses": []}
        self.connected = {}
        self.opened = {}
        self.left = {}
        self.has_readers = True

    # What is put on record.

    def station(self, name, state="Accepted", policy="Accepted", boot=None, calls=None):
        text = "-" if boot is None else compact(boot)
        self.rows["stations"].append(f"station {name} {state} {policy} 300 {text}")
        for what in OF_STATIONS:
            self.rows[f"{what} {name}"] = self.left.pop(f"{what} {name}", [])
        self.rows[f"locallist {name}"] = [f"locallist {name} 0"]
        if calls is not None:
            self.connected[name] = calls

    def connector(self, name, number, status="Available", error="NoError", info=None, vendor=None, code=None):
        texts = " ".join(quoted(text) for text in (info, vendor, code))
        self.replace(f"connectors {name}", f"connector {name} {number} ", f"{status} {error} {START} {texts}")

    def report(self, name, kind, status, moment=START // 1000):
        self.rows[f"reports {name}"].append(f"report {name} {kind} {status} {moment}")

    def transaction(self, name, number, tag, at=START, stop=None, status="Accepted", connector=1, meter=120000):
        end = "- - - -" if stop is None else f"{stop[0]} {stop[1]} {stop[2]} {quoted(stop[3])}"
        key = f"transaction {name} {number} "
        self.replace(f"transactions {name}", key, f"{connector} {quoted(tag)} {status} {meter} {at} - {end}")
        self.opened.pop((name, number), None)
        if stop is None:
            self.opened[name, number] = key

    def reading(self, name, transaction, at, measurand, phase, unit, micro, text):
        rows = self.rows[f"readings {name}"]
        number = int(rows[-1].split(" ")[2]) + 1 if rows else 1
        rows.append(f"reading {name} {number} 1 {transaction} {at} Sample.Periodic Raw {measurand} "
                    f"{phase} Outlet {unit} {micro} {quoted(text)}")

    def reservation(self, name, number, connector, tag, parent, expiry):
        self.replace(f"reservations {name}", f"reservation {name} {number} ",
                     f"{connector} {quoted(tag)} {quoted(parent)} {expiry}")

    def local_list(self, name, version, entries):
        self.rows[f"locallist {name}"] = [f"locallist {name} {version}",
                                          *(f"localtag {name} {compact(entry)}" for entry in entries)]

    def tag(self, text, parent=None, blocked=0, expiry="-"):
        self.replace("tags", f"tag {quoted(text)} ", f"{quoted(parent)} {blocked} {expiry}")

    def grant(self, tag, receiver, until="-"):
        self.replace("grants", f"grant {quoted(tag)} {receiver} ", until)

    def use(self, host, tag, moment, wh):
        self.rows["uses"].append(f"use {len(self.rows['uses']) + 1} {host} {quoted(tag)} {moment} {wh}")

    def replace(self, listing, key, rest):
        """Puts a row in the place of the one with its key."""
        rows = self.rows[listing]
        place = next((index for index, row in enumerate(rows) if row.startswith(key)), len(rows))
        rows[place:place + 1] = [f"{key}{rest}"]

    def drop(self, listing, key):
        """Drops the rows whose key begins so, and tells whether there were any."""
        before = self.rows[listing]
        self.rows[listing] = [row for row in before if not row.startswith(key)]
        return len(self.rows[listing]) < len(before)

    # What orders are answered. None is a command that is taken.

    def answer(self, line):
        words = line.split(" ")
        if not self.has_readers and words[:2] in (["list", "readers"], ["station", "reader"]):
            return ["bad line"]
        if words[0] == "list":
            return self.listing(words[1:])
        if words[0] == "call":
            return self.call(words[1])
        known = {"station add": self.add, "station policy": self.policy, "station reader": self.reader,
                 "station drop": self.unadd, "tag put": self.put, "tag drop": self.unput, "grant": self.give,
                 "revoke": self.take, "transaction close": self.close, "forget": self.forget}
        name = words[0] if words[0] in known else " ".join(words[:2])
        return known[name](*words[len(name.split(" ")):]) if name in known else ["bad line"]

    def call(self, name):
        if f"connectors {name}" not in self.rows:
            return ["refused 1 NoSuchStation"]
        return None if name in self.connected else ["refused 7 NotConnected"]

    def add(self, name, policy, interval):
        if int(interval) > 86400:
            return ["refused 12 BadField interval"]
        if f"connectors {name}" in self.rows:
            return ["refused 2 StationExists"]
        self.station(name, "Fresh", policy)
        return ["ok"]

    def policy(self, name, policy, _):
        if policy == "Rejected" and any(key[0] == name for key in self.opened):
            return ["refused 13 HasOpenTransactions"]
        return ["ok"]

    def reader(self, name, reader):
        if f"connectors {name}" not in self.rows:
            return ["refused 1 NoSuchStation"]
        self.replace("readers", f"reader {name} ", reader)
        return ["ok"]

    def unadd(self, name):
        """What is left of its history stays, unlisted, for a station that is added again."""
        if f"connectors {name}" not in self.rows:
            return ["refused 1 NoSuchStation"]
        if any(key[0] == name for key in self.opened):
            return ["refused 13 HasOpenTransactions"]
        if name in self.connected or any(self.forgettable(name, int(time.time()))):
            return ["refused 9 NotAllowedNow"]
        self.drop("stations", f"station {name} ")
        self.drop("readers", f"reader {name} ")
        gone = {what: self.rows.pop(f"{what} {name}") for what in OF_STATIONS}
        self.left.update({f"{what} {name}": gone[what] for what in ("transactions", "readings")})
        return ["ok"]

    def put(self, text, parent, blocked, expiry):
        self.tag(text, None if parent == "-" else parent, blocked, expiry)
        return ["ok"]

    def unput(self, text):
        self.drop("grants", f"grant {quoted(text)} ")
        return ["ok"] if self.drop("tags", f"tag {quoted(text)} ") else ["refused 3 NoSuchTag"]

    def give(self, text, receiver, until):
        if receiver == "ACME":
            return ["refused 5 SelfGrant"]
        if receiver not in ("BETA", "GAMMA"):
            return ["refused 4 NoSuchOperator"]
        self.grant(text, receiver, until)
        return ["ok"]

    def take(self, text, receiver):
        return ["ok"] if self.drop("grants", f"grant {quoted(text)} {receiver} ") else ["refused 6 NoSuchGrant"]

    def close(self, name, number, meter):
        if f"connectors {name}" not in self.rows:
            return ["refused 1 NoSuchStation"]
        if (name, int(number)) not in self.opened:
            return ["refused 11 NoSuchTransaction"]
        row = self.found((name, int(number))).split(" ")
        del self.opened[name, int(number)]
        stop = f"{row[6] if meter == '-' else meter} {NOW} Other -"
        self.replace(f"transactions {name}", f"transaction {name} {number} ", f"{' '.join(row[3:9])} {stop}")
        return ["ok"]

    def forget(self, name, until, reading=None, transaction=None):
        if f"connectors {name}" not in self.rows:
            return ["refused 1 NoSuchStation"]
        if int(until) > time.time():
            return ["refused 12 BadField until"]
        over, values = self.forgettable(name, int(until))
        if reading is not None:
            over = [number for number in over if int(number) <= int(transaction)]
            values = [numbers for numbers in values if int(numbers[0]) <= int(reading)]
        gone = [number for numbers in values for number in numbers]
        self.rows[f"readings {name}"] = self.without(f"readings {name}", gone)
        self.rows[f"transactions {name}"] = self.without(f"transactions {name}", over)
        return [f"row forgotten {name} {len(over)} {len(gone)}", "ok"]

    def forgettable(self, name, until):
        """The numbers of the transactions that may go, or those of the readings of each meter value that may. Looks at
        the first 250 rows, and at no meter value after the one that brings the readings to 1,000. Consecutive readings of
        one connector, transaction and time stand for a meter value. The time at which a stop came isn't kept here, so the
        stop's own time stands for it."""
        readings = [row.split(" ") for row in self.rows[f"readings {name}"]]
        values = [list(rows) for _, rows in itertools.groupby(readings, lambda words: words[3:6])]
        transactions = [row.split(" ") for row in self.rows[f"transactions {name}"]]
        stops = {words[2]: words[10] for words in transactions}

        def is_before(at):
            return at != "-" and int(at) < until * 1000

        ends = itertools.accumulate(len(rows) for rows in values)
        looked_at = [rows for rows, end in zip(values[:-1][:250], ends) if end - len(rows) < 1000]
        old = [rows for rows in looked_at if is_before(stops.get(rows[0][4], rows[0][5]))]
        if old:
            return [], [[words[2] for words in rows] for rows in old]
        named = {words[4] for words in readings}
        return [words[2] for words in transactions[:-1][:250] if is_before(words[10]) and words[2] not in named], []

    def without(self, listing, numbers):
        """The rows that have none of these numbers."""
        dropped = set(numbers)
        return [row for row in self.rows[listing] if row.split(" ")[2] not in dropped]

    def listing(self, words):
        if words == ["connections"]:
            return [f"row connection {name} {calls}" for name, calls in sorted(self.connected.items())] + ["ok"]
        if words == ["open"]:
            return [f"row {self.found(key)}" for key in sorted(self.opened)] + ["ok"]
        rows = self.rows.get(" ".join(words[:2]))
        if rows is None:
            return ["refused 1 NoSuchStation"]
        if words[0] == "readings" and len(words) == 3:
            rows = [row for row in rows if row.split(" ")[4] == words[2]]
        if words[0] == "transactions" and len(words) == 3:
            rows = [row for row in rows if int(row.split(" ")[2]) >= int(words[2])]
        return [f"row {row}" for row in rows] + ["ok"]

    def found(self, key):
        rows = self.rows[f"transactions {key[0]}"]
        return next(row for row in reversed(rows) if row.startswith(self.opened[key]))

    def accepted(self, name, action, payload):
        """What a command changes that a station has accepted."""
        if action == "ReserveNow":
            expiry = int(time.mktime(time.strptime(payload["expiryDate"], "%Y-%m-%dT%H:%M:%SZ")) - time.timezone)
            self.reservation(name, payload["reservationId"], payload["connectorId"], payload["idTag"],
                             payload.get("parentIdTag"), expiry)
        elif action == "CancelReservation":
            self.drop(f"reservations {name}", f"reservation {name} {payload['reservationId']} ")
        elif action == "SendLocalList":
            entries = payload.get("localAuthorizationList", [])
            self.local_list(name, payload["listVersion"], entries if payload["updateType"] == "Full" else self.changed(name, entries))

    def changed(self, name, changes):
        """The entries of a station's local list after changes to it."""
        kept = [json.loads(row.split(" ", 2)[2]) for row in self.rows[f"locallist {name}"][1:]]
        entries = {entry["idTag"].lower(): entry for entry in [*kept, *changes]}
        return [entry for _, entry in sorted(entries.items()) if "idTagInfo" in entry]


class Mock(socketserver.ThreadingTCPServer):
    """The server. `before` are lines of another console that come before each answer. `outcome` ends each call; where
    it is None no call ends. An `is_old` server knows no words of orders. One that `is_hung` answers nothing, not even a
    Close, until it is stopped. A listing that is among `too_long` ends its connection with code 1011, or, where it
    `breaks`, without a Close."""

    allow_reuse_address = True
    daemon_threads = True

    def __init__(self, records, port=0):
        super().__init__(("127.0.0.1", port), Peer)
        self.records, self.peers, self.heard, self.paths = records, [], [], []
        self.port = self.server_address[1]
        self.lock = threading.RLock()
        self.calls = 0
        self.outcome = 'Answer {"status":"Accepted"}'
        self.before = []
        self.is_old = self.is_hung = self.breaks = False
        self.too_long = set()
        self.freed = threading.Event()
        threading.Thread(target=self.serve_forever, args=(0.05,), daemon=True).start()

    def tell(self, *lines):
        with self.lock:
            for peer in list(self.peers):
                for line in lines:
                    peer.send(f"ACME {line}")

    def repaired(self, name, action, code, field):
        """Tells that a request of a station was read with repairs."""
        self.tell(f"{name} repaired {action} {code} {field}")

    def take(self, peer, text):
        """Answers a text of a peer, in one step. What an order with a word is answered stands between two marks."""
        match = ORDER.fullmatch(text)
        if self.is_hung:
            return None
        with self.lock:
            self.tell(*self.before)
            if self.is_old or (text.startswith("#") and not match):
                return peer.send("bad line")
            word, line = match.groups() if match else (None, text)
            self.heard.append(line)
            if line in self.too_long:
                return peer.request.shutdown(socket.SHUT_RDWR) if self.breaks else peer.close(1011)
            if word:
                peer.send(f"#{word} begin")
            action = self.answer(peer, line)
            if word:
                peer.send(f"#{word} end")
            if action and self.outcome:
                self.end(*action)
        return None

    def answer(self, peer, line):
        """The station, the action and the JSON of a command that is taken; else None."""
        answer = self.records.answer(line)
        if answer == ["bad line"]:
            return peer.send("bad line")
        if answer is not None:
            return self.tell(*answer)
        self.calls += 1
        self.tell(f"ok {self.calls}")
        return line.split(" ", 3)[1:]

    def end(self, name, action, text):
        if self.outcome == 'Answer {"status":"Accepted"}':
            self.records.accepted(name, action, json.loads(text))
        self.tell(f"{name} done {self.calls} {self.outcome}")

    def stop(self):
        self.freed.set()
        self.shutdown()
        self.server_close()
        for peer in list(self.peers):
            peer.request.shutdown(socket.SHUT_RDWR)


class Peer(socketserver.StreamRequestHandler):
    """A connection of a console (RFC 6455)."""

    def handle(self):
        head = {}
        path = self.rfile.readline().decode().split(" ")[1]
        while (line := self.rfile.readline().decode().strip()):
            name, _, value = line.partition(":")
            head[name.lower()] = value.strip()
        if path != "/operator/ACME" or head.get("sec-websocket-protocol") != "ocpp1.6":
            return self.wfile.write(b"HTTP/1.1 404 Not Found\r\nContent-Length: 0\r\n\r\n")
        digest = hashlib.sha1((head["sec-websocket-key"] + "258EAFA5-E914-47DA-95CA-C5AB0DC85B11").encode()).digest()
        self.wfile.write(("HTTP/1.1 101 Switching Protocols\r\nUpgrade: websocket\r\nConnection: Upgrade\r\n"
                          "Sec-WebSocket-Protocol: ocpp1.6\r\nSec-WebSocket-Accept: "
                          f"{base64.b64encode(digest).decode()}\r\n\r\n").encode())
        self.server.paths.append(path)
        self.server.peers.append(self)
        try:
            while (text := self.receive()) is not None:
                self.server.take(self, text)
        except OSError:
            pass
        if self.server.is_hung:
            self.server.freed.wait(60)
        self.server.peers.remove(self)

    def receive(self):
        """The next text; None at a Close or at the end."""
        head = self.rfile.read(2)
        if len(head) < 2 or head[0] & 15 == 8:
            return None
        size = head[1] & 127
        if size == 126:
            size = struct.unpack(">H", self.rfile.read(2))[0]
        elif size == 127:
            size = struct.unpack(">Q", self.rfile.read(8))[0]
        mask = self.rfile.read(4)
        data = self.rfile.read(size)
        return bytes(byte ^ mask[index % 4] for index, byte in enumerate(data)).decode()

    def close(self, code):
        """Sends a Close. What comes until the other end's Close is read and has no answer."""
        self.wfile.write(b"\x88\x02" + struct.pack(">H", code))
        while self.receive() is not None:
            pass
        self.request.shutdown(socket.SHUT_RDWR)

    def send(self, text):
        data = text.encode()
        size = len(data)
        head = bytes([129, size]) if size < 126 else b"\x81\x7e" + struct.pack(">H", size)
        try:
            self.wfile.write(head + data)
        except OSError:
            pass
