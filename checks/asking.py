"""The operator's tools of the built program, `ask` and `forget`, and the words of orders. programs.py calls `check_asking`."""

import contextlib
import csv
import os
import re
import socket
import subprocess
import threading
from pathlib import Path

from harness import NOT_FOUND, PORT, connected
from peer import BOOT, Peer

# Why a line has no form.
BAD_LINES = {
    "list": "a word is missing after 'list'; `central ask help` lists the lines",
    "#1 list tags": "'#1' begins no line; `central ask help` lists the lines",
    "list tag": "'tag' doesn't follow 'list'; `central ask help` lists the lines",
    "list tags now": "the line goes on after its end; expected: list tags",
    "station add CP01": "POLICY is missing; expected: station add ST POLICY INTERVAL",
    "station add CP01 Acepted 300": "'Acepted' is no POLICY, which is Accepted, Pending or Rejected; expected: station add ST POLICY INTERVAL",
    "tag put K1 - 2 -": "'2' is no 0|1, which is 0, or 1 for a tag that is blocked; expected: tag put TAG PARENT 0|1 EXPIRY",
    "list transactions CP01 x": "'x' is no N, which is the number of a transaction; expected: list transactions ST N",
    "list transactions CP01 0": "a value is out of its bounds (docs/TABLES.md, Lines); expected: list transactions ST N",
    "call CP01 Restart {}": "'Restart' is no ACTION, which is a command of the central system, as ClearCache or Reset; expected: call ST ACTION JSON",
    "call CP01 Reset {}": "the JSON is none, or lacks a member of that command or has one of another type (docs/TABLES.md, Commands); expected: call ST ACTION JSON",
}

# How a station answers a call, and whether it then did what it was called for.
OUTCOMES = [
    ('[3,"%s",{"status":"Rejected"}]', False),
    ('[3,"%s",{"status":"Perhaps"}]', False),
    ('[4,"%s","GenericError","",{}]', False),
    ('[3,"%s",{"status":"Accepted"}]', True),
]


def check_ask(checks):
    """The operator's tool: a line, lines of standard input, a command that is followed to its end."""
    ask = ["ask", "--port", str(PORT), "--operator", "ACME"]
    nobody = f"fault Stream\n127.0.0.1:{PORT}: Connection refused (os error 111)\n"
    checks.check("nobody listens", checks.run(*ask, "list tags"), (2, "", nobody))
    with checks.serve("--operators", "ACME"):
        checks.check("a line", checks.run(*ask, "tag put K1 - 0 -"), (0, "ACME ok\n", ""))
        checks.check("a listing", checks.run(*ask, "list tags"), (0, 'ACME row tag "K1" - 0 -\nACME ok\n', ""))
        refused = "ACME refused 7 NotConnected\n"
        for line, why in BAD_LINES.items():
            checks.check(line, checks.run(*ask, line), (3, "bad line\n", why + "\n"))
        lines = "".join(f"tag put K{n} - 0 -\n" for n in range(1000)).encode()
        checks.check("lines", checks.run(*ask, lines=lines), (0, "ACME ok\n" * 1000, ""))
        mixed = checks.run(*ask, lines=b"station add CP01 Accepted 300\n\ncall CP01 ClearCache {}\nlist grants\n")
        checks.check("lines of which one is refused", mixed, (3, "ACME ok\n" + refused + "ACME ok\n", ""))
        station = Peer(PORT, "/ocpp/ACME/CP01")
        station.ask(BOOT)
        waiting = subprocess.Popen(
            [checks.program, *ask, "--wait", "call CP01 ClearCache {}"], stdout=subprocess.PIPE, text=True
        )
        checks.check("its call", station.next(), '[2,"1","ClearCache",{}]')
        station.send('[3,"1",{"status":"Accepted"}]')
        told = waiting.communicate(timeout=10)[0].splitlines()
        checks.check("a command to its end", told, ["ACME ok 1", 'ACME CP01 done 1 Answer {"status":"Accepted"}'])
        checks.check("its status", waiting.returncode, 0)
        for sent, taken in OUTCOMES:
            waiting = subprocess.Popen([checks.program, *ask, "--wait", "call CP01 ClearCache {}"], stdout=subprocess.PIPE)
            number = re.match(r'\[2,"(\d+)"', station.next())[1]
            station.send(sent % number)
            waiting.communicate(timeout=10)
            checks.check(f"the status after {sent}", waiting.returncode, 0 if taken else 3)
        checks.check("another path", checks.run(*ask[:-1], "BETA", "list tags"), (2, "", NOT_FOUND))


def check_forget(checks):
    """The history of an operator's stations goes in orders of 1,000 readings, and what was recorded of late stays."""
    forget = ["forget", "--port", str(PORT), "--operator", "ACME", "--before"]
    db, begin, at = checks.new_file(), 1704067200, '"timestamp":"2024-01-01T00:00:00Z"'
    sampled = ",".join(['{"value":"1"}'] * 5)
    values = ",".join([f'{{{at},"sampledValue":[{sampled}]}}'] * 60)
    texts = [
        BOOT,
        f'[2,"s","StartTransaction",{{"connectorId":1,"idTag":"=K1","meterStart":0,{at}}}]',
        *[f'[2,"m{n}","MeterValues",{{"connectorId":1,"transactionId":1,"meterValue":[{values}]}}]' for n in range(7)],
        f'[2,"e","StopTransaction",{{"meterStop":1,"transactionId":1,{at}}}]',
        f'[2,"t","StartTransaction",{{"connectorId":1,"idTag":"K1","meterStart":1,{at}}}]',
        f'[2,"v","MeterValues",{{"connectorId":1,"transactionId":2,"meterValue":[{{{at},"sampledValue":[{{"value":"1"}}]}}]}}]',
    ]
    lines = ["tag put =K1 - 0 -", "station add CP01 Accepted 300", "station add CP02 Accepted 300", "connect CP01", *(f"frame CP01 {text}" for text in texts)]
    filled = checks.run("replay", "--operators", "ACME,BETA", "--db", db, lines="".join(f"{begin} ACME {line}\n" for line in lines).encode())
    checks.check("a history of 2024", (filled[0], filled[2]), (0, ""))
    with checks.serve("--operators", "ACME,BETA", db=db):
        checks.check("before it", checks.run(*forget, "99999d"), (0, "all 0 0\n", ""))
        acme, export = Peer(PORT, "/operator/ACME"), os.path.join(checks.folder, "gone")
        old = acme.lines("old", f"list forgettable CP01 {begin + 1}")
        checks.check("what the next order takes", (len(old), old[0].split(" ")[2:5], old[-1]), (1001, ["reading", "CP01", "1"], "ACME ok"))
        gone = "CP01 0 1000\nCP01 0 1000\nCP01 0 100\nCP01 1 0\nall 1 2100\n"
        checks.check("what is older than 90 days", checks.run(*forget, "90d", "--export", export), (0, gone, ""))
        written = [f"{export}-{name}.csv" for name in ("transactions", "readings")]
        transactions, readings = (list(csv.reader(Path(path).read_bytes().decode().splitlines())) for path in written)
        checks.check("the transactions that went", (len(transactions), transactions[0][:3]), (2, ["station", "number", "connector"]))
        row = ["CP01", "1", "1", "=K1", "Accepted", "0", str(begin * 1000), "", "1", str(begin * 1000), "Local", ""]
        checks.check("one of them", transactions[1], ["'=K1" if word == "=K1" else word for word in row])
        checks.check("the readings that went", [int(row[1]) for row in readings[1:]], list(range(1, 2101)))
        checks.check("no file for it", checks.run(*forget, "90d", "--export", "/none/gone")[:2], (2, ""))
        checks.check("nothing is left", checks.run(*forget, "90d"), (0, "all 0 0\n", ""))
        rows = acme.lines("a", "list transactions CP01")[:-1] + acme.lines("b", "list readings CP01")[:-1]
        checks.check("the last stay", [row.split(" ")[2:5] for row in rows], [["transaction", "CP01", "2"], ["reading", "CP01", "2101"]])
        checks.check("no stations", checks.run(*forget[:4], "BETA", "--before", "0d"), (0, "all 0 0\n", ""))
        checks.check("no such operator", checks.run(*forget[:4], "GAMMA", "--before", "90d"), (2, "", NOT_FOUND))
    for days in ("90", "d", "-1d", "1.5d", "90days", "100000d"):
        checks.ends(f"--before {days}", f"{' '.join(forget)}={days}", 1, f"invalid value '{days}' for '--before <DAYS>'")
    checks.ends("no --before", " ".join(forget[:-1]), 1, "--before")


class Between(threading.Thread):
    """A proxy before the server, for one client. Before it passes a text on that begins so, it does something once."""

    def __init__(self, word, act):
        super().__init__(daemon=True)
        self.word, self.act = word.encode(), act
        self.listener = socket.create_server(("127.0.0.1", 0))
        self.port = self.listener.getsockname()[1]
        self.start()

    def run(self):
        client = self.listener.accept()[0]
        server = socket.create_connection(("127.0.0.1", PORT))
        back = threading.Thread(target=self.passes_on, args=(server, client, lambda data: None), daemon=True)
        back.start()
        self.passes_on(client, server, self.looks)
        back.join()

    def passes_on(self, source, target, look):
        with contextlib.suppress(OSError):
            while data := source.recv(65536):
                look(data)
                target.sendall(data)
            target.shutdown(socket.SHUT_WR)

    def looks(self, data):
        """Each text of this client is one frame of its own, under 126 bytes long (RFC 6455, section 5.2)."""
        if data[0] == 0x81 and self.act:
            text = bytes(byte ^ data[2 + place % 4] for place, byte in enumerate(data[6:]))
            if self.word in text:
                act, self.act = self.act, None
                act()


def check_written(checks):
    """What comes after a listing stays until it is listed and written too, and each row is written once."""
    db, begin, at = checks.new_file(), 1704067200, '"timestamp":"2024-01-01T00:00:00Z"'
    start = f'[2,"s","StartTransaction",{{"connectorId":1,"idTag":"K1","meterStart":0,{at}}}]'

    def values(count, words=""):
        sampled = ",".join(['{"value":"1"}'] * count)
        return f'[2,"m","MeterValues",{{"connectorId":1,{words}"meterValue":[{{{at},"sampledValue":[{sampled}]}}]}}]'

    again = start.replace('"s"', '"t"').replace('"meterStart":0', '"meterStart":1')
    stop = f'[2,"e","StopTransaction",{{"meterStop":1,"transactionId":1,{at}}}]'
    texts = [BOOT, start, values(999, '"transactionId":1,'), stop, again, values(1, '"transactionId":2,')]
    lines = ["tag put K1 - 0 -", "station add CP01 Accepted 300", "connect CP01", *(f"frame CP01 {text}" for text in texts)]
    filled = checks.run("replay", "--operators", "ACME", "--db", db, lines="".join(f"{begin} ACME {line}\n" for line in lines).encode())
    checks.check("999 readings and two transactions", (filled[0], filled[2]), (0, ""))
    with checks.serve("--operators", "ACME", db=db):
        station = Peer(PORT, "/ocpp/ACME/CP01")
        between = Between("forget CP01", lambda: [station.ask(values(1)) for _ in range(2)])
        words = ["forget", "--port", str(between.port), "--operator", "ACME", "--before", "90d", "--export", os.path.join(checks.folder, "late")]
        gone = "CP01 0 999\nCP01 0 1\nCP01 1 0\nall 1 1000\n"
        checks.check("readings come between", checks.run(*words), (0, gone, ""))
        lines = Path(f"{words[-1]}-readings.csv").read_bytes().decode().splitlines()
        checks.check("each is written", [int(row[1]) for row in list(csv.reader(lines))[1:]], [*range(1, 1000), 1001])


def check_ask_beside(checks):
    """What the operator's other consoles ask for, and how their calls end, is no answer to a line of `ask`."""
    ask = [checks.program, "ask", "--port", str(PORT), "--operator", "ACME"]
    pipes = {"stdin": subprocess.PIPE, "stdout": subprocess.PIPE, "stderr": subprocess.DEVNULL, "text": True}
    with checks.serve("--operators", "ACME"):
        console, station = connected("CP01")
        refused = "ACME refused 3 NoSuchTag\n"
        runs = {"tag drop X\n": (3, refused), "list grants\n": (0, "ACME ok\n"), "list\n": (3, "bad line\n")}
        asking = [subprocess.Popen(ask, **pipes) for _ in runs]
        for each, line in zip(asking, runs):
            each.stdin.write(line * 1000)
        for each, (line, (status, text)) in zip(asking, runs.items()):
            told = each.communicate(timeout=60)[0]
            checks.check(f"{line.strip()}, beside others", (each.returncode, told), (status, text * 1000))
        heard = [console.next() for _ in range(2000)]
        checks.check("a console hears all", sorted(set(heard)), ["ACME ok", "ACME refused 3 NoSuchTag"])
        waiting = subprocess.Popen([*ask, "--wait", "call CP01 ClearCache {}"], **pipes)
        checks.check("its call", station.next(), '[2,"1","ClearCache",{}]')
        checks.check("it is taken", console.next(), "ACME ok 1")
        console.ask("call CP01 UnlockConnector {\"connectorId\":1}")
        console.ask("list stations")
        station.send('[3,"1",{"status":"Rejected"}]')
        told = waiting.communicate(timeout=10)[0].splitlines()
        checks.check("its end alone", told, ["ACME ok 1", 'ACME CP01 done 1 Answer {"status":"Rejected"}'])
        checks.check("its status", waiting.returncode, 3)


def check_words(checks):
    """The sender of an order with a word is told where the answer begins and where it ends, and no other console."""
    with checks.serve("--operators", "ACME"):
        acme, other = Peer(PORT, "/operator/ACME"), Peer(PORT, "/operator/ACME")
        for order, answer in (("tag put K1 - 0 -", ["ACME ok"]), ("list tags", ['ACME row tag "K1" - 0 -', "ACME ok"])):
            acme.send(f"#a-1_Z {order}")
            wanted = ["#a-1_Z begin", *answer, "#a-1_Z end"]
            checks.check(f"{order} with a word", [acme.next() for _ in wanted], wanted)
            checks.check(f"{order}, at another console", [other.next() for _ in answer], answer)
        acme.send("#2 list everything")
        checks.check("a bad line with a word", [acme.next() for _ in range(3)], ["#2 begin", "bad line", "#2 end"])
        checks.check("a bad word", acme.ask(f"#{'x' * 33} list tags"), "bad line")
        checks.check("none of it at another console", other.ask("list grants"), "ACME ok")


def check_asking(checks):
    check_ask(checks)
    check_forget(checks)
    check_written(checks)
    check_ask_beside(checks)
    check_words(checks)
