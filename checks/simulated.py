"""The simulated stations of the built program: one that stays and takes remote starts and stops, several sessions, fleets,
and the words of `sim`. programs.py calls `check_simulated`.
"""

import contextlib
import re
import subprocess
import threading
import time

from harness import TIME
from peer import BOOT, Peer

# A station that has run for so many seconds is ended.
PATIENCE = 120

# What a station prints that stays and is started and stopped from afar, with T for each time, in the parts between which it
# waits. Transaction 1 is another one that is open on record.
BOOTED = """\
> [2,"s1","BootNotification",{"chargePointModel":"SimModel","chargePointVendor":"SimVendor"}]
< [3,"s1",{"currentTime":"T","interval":300,"status":"Accepted"}]
> [2,"s2","StatusNotification",{"connectorId":0,"errorCode":"NoError","status":"Available"}]
< [3,"s2",{}]
"""
STARTED = """\
< [2,"1","RemoteStartTransaction",{"connectorId":1,"idTag":"CARD7"}]
> [3,"1",{"status":"Accepted"}]
> [2,"s3","StartTransaction",{"connectorId":1,"idTag":"CARD7","meterStart":0,"timestamp":"T"}]
< [3,"s3",{"idTagInfo":{"status":"Accepted"},"transactionId":2}]
> [2,"s4","MeterValues",{"connectorId":1,"meterValue":[{"sampledValue":[{"unit":"Wh","value":"500"}],"timestamp":"T"}],"transactionId":2}]
< [3,"s4",{}]
> [2,"s5","MeterValues",{"connectorId":1,"meterValue":[{"sampledValue":[{"unit":"Wh","value":"1000"}],"timestamp":"T"}],"transactionId":2}]
< [3,"s5",{}]
"""
AGAIN = """\
< [2,"2","RemoteStartTransaction",{"idTag":"CARD7"}]
> [3,"2",{"status":"Rejected"}]
"""
OTHER = """\
< [2,"3","RemoteStopTransaction",{"transactionId":1}]
> [3,"3",{"status":"Rejected"}]
"""
STOPPED = """\
< [2,"4","RemoteStopTransaction",{"transactionId":2}]
> [3,"4",{"status":"Accepted"}]
> [2,"s6","StopTransaction",{"idTag":"CARD7","meterStop":1000,"reason":"Remote","timestamp":"T","transactionId":2}]
< [3,"s6",{"idTagInfo":{"status":"Accepted"}}]
"""
ANOTHER_CONNECTOR = """\
< [2,"5","RemoteStartTransaction",{"connectorId":2,"idTag":"CARD7"}]
> [3,"5",{"status":"Rejected"}]
"""


class Station:
    """A run of `sim`, whose lines are read one by one."""

    def __init__(self, checks, *words):
        command = [checks.program, "sim", "--port", str(checks.port), *words]
        self.run = subprocess.Popen(command, stdout=subprocess.PIPE, stderr=subprocess.PIPE, text=True)
        self.timer = threading.Timer(PATIENCE, self.run.kill)
        self.timer.start()

    def lines(self, count):
        return TIME.sub("T", "".join(self.run.stdout.readline() for _ in range(count)))

    def line_with(self, text):
        """Whether a line comes that has that text."""
        return any(text in line for line in iter(self.run.stdout.readline, ""))

    def end(self):
        """Its status once it has ended, what it printed last, and its errors."""
        text, errors = self.run.communicate()
        self.timer.cancel()
        return self.run.returncode, text, errors


@contextlib.contextmanager
def station(checks, *words):
    """A run of `sim` that is ended afterwards."""
    run = Station(checks, *words)
    try:
        yield run
    finally:
        run.run.kill()
        run.end()


def command(acme, number, text):
    """The answer of a station to that command of an operator, which is its call of that number."""
    taken = acme.ask(f"call {text}")
    while taken.startswith("ACME refused"):
        # the station is connected, and its boot isn't answered yet
        time.sleep(0.1)
        taken = acme.ask(f"call {text}")
    while not (line := acme.next()).startswith("ACME CP") or f" done {number} " not in line:
        pass
    return taken, line.split(" ", 4)[4]


# Transaction 1, which stays open.
OLD = '[2,"3","StartTransaction",{"connectorId":1,"idTag":"OLD","meterStart":0,"timestamp":"2026-01-01T00:00:00Z"}]'

# The commands of an operator, what the station answers them, and what it prints meanwhile.
STEPS = (
    ('RemoteStartTransaction {"connectorId":1,"idTag":"CARD7"}', "Accepted", STARTED),
    ('RemoteStartTransaction {"idTag":"CARD7"}', "Rejected", AGAIN),
    ('RemoteStopTransaction {"transactionId":1}', "Rejected", OTHER),
    ('RemoteStopTransaction {"transactionId":2}', "Accepted", STOPPED),
    ('RemoteStartTransaction {"connectorId":2,"idTag":"CARD7"}', "Rejected", ANOTHER_CONNECTOR),
)


def check_remote(checks):
    """A station that stays takes a remote start while no session runs, and the stop of its transaction alone."""
    with checks.serve("--operators", "ACME") as server:
        acme = Peer(checks.port, "/operator/ACME", PATIENCE)
        for order in ("station add CP01 Accepted 300", "tag put CARD7 - 0 -", "tag put OLD - 0 -"):
            acme.ask(order)
        first = Peer(checks.port, "/ocpp/ACME/CP01", PATIENCE)
        first.ask(BOOT)
        first.ask(OLD)
        first.stream.close()
        with station(checks, "--path", "/ocpp/ACME/CP01", "--stay") as run:
            checks.check("a station boots", run.lines(BOOTED.count("\n")), BOOTED)
            for number, (text, status, wanted) in enumerate(STEPS, 1):
                answer = (f"ACME ok {number}", f'Answer {{"status":"{status}"}}')
                checks.check(text, command(acme, number, f"CP01 {text}"), answer)
                checks.check(f"what it prints of {text}", run.lines(wanted.count("\n")), wanted)
            rows = [re.sub(r"\d{13}", "T", row) for row in acme.lines("r", "list transactions CP01")]
            checks.check("its transaction", 'ACME row transaction CP01 2 1 "CARD7" Accepted 0 T - 1000 T Remote "CARD7"' in rows, True)
            server.kill()
            ended = f"fault Stream\n127.0.0.1:{checks.port}: the connection has ended\n"
            checks.check("the server ends", run.end(), (2, "", ended))


def check_heartbeats(checks):
    """A station that stays sends heartbeats at the interval of its boot, in a transaction too, and is refused with it."""
    with checks.serve("--operators", "ACME"):
        acme = Peer(checks.port, "/operator/ACME", PATIENCE)
        for order in ("station add CP01 Accepted 1", "station add CP02 Rejected 1", "tag put CARD7 - 0 -"):
            acme.ask(order)
        with station(checks, "--path", "/ocpp/ACME/CP01", "--stay") as run:
            checks.check("a heartbeat", run.line_with('"Heartbeat",{}]'), True)
            checks.check("its answer", run.line_with('[3,"s3",{"currentTime":'), True)
            taken = command(acme, 1, 'CP01 RemoteStartTransaction {"idTag":"CARD7"}')
            checks.check("a start between", taken, ("ACME ok 1", 'Answer {"status":"Accepted"}'))
            checks.check("its start", run.line_with('"StartTransaction",'), True)
            checks.check("a heartbeat in a transaction", run.line_with('"Heartbeat",{}]'), True)
        code, text, errors = run_of(checks, "--path", "/ocpp/ACME/CP02", "--stay")
        checks.check("a boot that is refused", (code, text.count("\n"), errors), (3, 2, ""))


def run_of(checks, *words):
    """The status of a run of `sim`, its output and its errors."""
    run = Station(checks, *words)
    return run.end()


def check_sessions(checks):
    """Several sessions, with the tag that is given. A session follows one whose tag is refused."""
    with checks.serve("--operators", "ACME"):
        acme = Peer(checks.port, "/operator/ACME", PATIENCE)
        for order in ("station add CP01 Accepted 300", "tag put CARD7 - 0 -"):
            acme.ask(order)
        path = ("--path", "/ocpp/ACME/CP01", "--sessions")
        code, text, errors = run_of(checks, *path, "3", "--tag", "CARD7")
        found = [text.count(part) for part in ('"BootNotification"', '"Authorize",{"idTag":"CARD7"}', '"StopTransaction",{"idTag":"CARD7"')]
        checks.check("three sessions", (code, found, errors), (0, [1, 3, 3], ""))
        checks.check("the last call", '> [2,"s17","StopTransaction",' in text, True)
        meters = [int(meter) for meter in re.findall(r'"meterSt(?:art|op)":(\d+)', text)]
        checks.check("its meter counts on", meters, [0, 1000, 1000, 2000, 2000, 3000])
        checks.check("its readings", re.findall(r'"value":"(\d+)"', text), ["500", "1000", "1500", "2000", "2500", "3000"])
        checks.check("its transactions", len(acme.lines("r", "list transactions CP01")) - 1, 3)
        code, text, _ = run_of(checks, *path, "2", "--tag", "CARD8")
        checks.check("an unknown tag", (code, text.count('"Authorize"'), text.count('"StartTransaction"')), (3, 2, 0))
        code, text, _ = run_of(checks, *path, "0")
        checks.check("no session", (code, text.count("\n")), (0, 4))
        with station(checks, *path, "1", "--tag", "CARD7", "--stay") as run:
            checks.check("a session before it stays", run.line_with('"reason":"Local"'), True)
            checks.check("its stop", run.line_with('[3,"s7",'), True)
            taken = command(acme, 1, 'CP01 RemoteStartTransaction {"idTag":"CARD7"}')
            checks.check("a start after it", taken, ("ACME ok 1", 'Answer {"status":"Accepted"}'))


def last_line(text):
    return text.splitlines()[-1] if text else ""


def check_fleets(checks):
    """Stations side by side: how far they are, and the status where some are refused or lost."""
    with checks.serve("--operators", "ACME"):
        acme = Peer(checks.port, "/operator/ACME", PATIENCE)
        for number in range(1, 21):
            acme.ask(f"station add CP{number} Accepted 300")
            acme.ask(f"tag put SIM{number} - 0 -")
        path = ("--path", "/ocpp/ACME/CP", "--stations")
        code, text, errors = run_of(checks, *path, "20", "--sessions", "2")
        wanted = "20 stations: 20 connected, 40 sessions done, 0 refused, 0 lost"
        checks.check("a fleet of 20", (code, last_line(text), errors), (0, wanted, ""))
        rows = sum(len(acme.lines("r", f"list transactions CP{number}")) - 1 for number in range(1, 21))
        checks.check("its transactions", rows, 40)
        acme.ask("tag put SIM7 - 1 -")
        wanted = "20 stations: 20 connected, 19 sessions done, 1 refused, 0 lost"
        code, text, errors = run_of(checks, *path, "20")
        checks.check("a blocked tag", (code, last_line(text), errors), (3, wanted, ""))
        wanted = "21 stations: 20 connected, 19 sessions done, 1 refused, 1 lost"
        code, text, errors = run_of(checks, *path, "21")
        unknown = f"fault Stream\n127.0.0.1:{checks.port}: the handshake was answered 404: no such operator or station is known there\n"
        checks.check("an unknown station", (code, last_line(text), errors), (2, wanted, unknown))
        code, text, _ = run_of(checks, *path, "1")
        checks.check("a fleet of 1", (code, text.count('"SIM1"'), text.count("\n")), (0, 3, 14))
        with station(checks, *path, "2", "--stay") as run:
            checks.check("a fleet that stays", run.line_with("2 stations: 2 connected, 0 sessions done, 0 refused, 0 lost"), True)
            started = command(acme, 1, 'CP2 RemoteStartTransaction {"idTag":"SIM1"}')[1]
            checks.check("a remote start of one of them", started, 'Answer {"status":"Accepted"}')
            while not (row := [row.split(" ") for row in acme.lines("r", "list open") if row.startswith("ACME row")]):
                time.sleep(0.1)
            time.sleep(0.5)
            text = f'CP2 RemoteStopTransaction {{"transactionId":{row[0][4]}}}'
            checks.check("its stop", command(acme, 2, text)[1], 'Answer {"status":"Accepted"}')
            checks.check("its session", run.line_with("2 stations: 2 connected, 1 sessions done, 0 refused, 0 lost"), True)


def check_words(checks):
    """Words that are refused by name."""
    sim = f"sim --port {checks.port} --path /ocpp/ACME/CP"
    long = "T" * 21
    for words, text in (
        (f"--tag {long}", f"invalid value '{long}' for '--tag <TAG>': longer than 20 characters\n"),
        (f"--stations 10 --tag {long[:19]}", f"invalid value '{long[:19]}' for '--tag <TAG>': longer than 20 characters with the number of a station\n"),
        ("--sessions 1000001", "invalid value '1000001' for '--sessions <N>': 1000001 is not in 0..=1000000\n"),
        ("--stations 0", "invalid value '0' for '--stations <N>': 0 is not in 1..=1000\n"),
        ("--stations 1001", "invalid value '1001' for '--stations <N>': 1001 is not in 1..=1000\n"),
    ):
        checks.ends(f"sim {words}", f"{sim} {words}", 1, text)
    nobody = "fault Stream\n127.0.0.1:9: Connection refused (os error 111)\n"
    lost = "2 stations: 0 connected, 0 sessions done, 0 refused, 2 lost"
    code, text, errors = checks.run("sim", "--port", "9", "--path", "/ocpp/ACME/CP", "--stations", "2")
    checks.check("nobody listens to a fleet", (code, last_line(text), errors), (2, lost, nobody))


def check_simulated(checks):
    check_words(checks)
    check_remote(checks)
    check_heartbeats(checks)
    check_sessions(checks)
    check_fleets(checks)
