"""Checks how the built program tells what it does and how it ends: the metrics, a log that nobody reads
or that would grow too fast, and the file that ends it. Prints `N passed, M failed`.

    python3 checks/serving.py crates/central/out/central
"""

import contextlib
import fcntl
import os
import re
import socket
import subprocess
import sys
import tempfile
import threading
import time
from pathlib import Path

from harness import PORT, Checks, memory
from peer import BOOT, HEAD, HEARTBEAT, Peer, frame

REQUEST = "{} {} HTTP/1.1\r\nHost: 127.0.0.1\r\n\r\n"
# The code of a close as the server ends.
AWAY = (1001).to_bytes(2, "big")
METER = '[2,"m{0}","MeterValues",{{"connectorId":1,"meterValue":[{{"timestamp":"2026-11-28T00:00:00Z","sampledValue":[{{"value":"{0}"}}]}}]}}]'


def answer(method, path):
    """The head and the body of the answer to a request."""
    with socket.create_connection(("127.0.0.1", PORT), timeout=10) as stream:
        stream.sendall(REQUEST.format(method, path).encode())
        data = b""
        while more := stream.recv(65536):
            data += more
    head, _, body = data.partition(b"\r\n\r\n")
    return head.decode(), body.decode()


def samples(text):
    """The values of the metrics, by name and labels."""
    return {line.rsplit(" ", 1)[0]: float(line.rsplit(" ", 1)[1]) for line in text.splitlines() if line[:1] != "#"}


def check_metrics(checks):
    with checks.serve("--operators", "BETA,ACME", "--log", "none"):
        acme = Peer(PORT, "/operator/ACME")
        acme.ask("station add CP01 Accepted 300")
        station = Peer(PORT, "/ocpp/ACME/CP01")
        station.ask(BOOT)
        for _ in range(10):
            station.ask(HEARTBEAT)
        with contextlib.suppress(OSError), socket.create_connection(("127.0.0.1", PORT)) as stream:
            stream.sendall(HEAD.format("/ocpp/ACME/CP09").encode())
            stream.recv(4096)
        acme.send('call CP01 Reset {"type":"Soft"}')
        time.sleep(1.1)
        head, text = answer("GET", "/metrics")
        checks.check("GET: status", head.split("\r\n")[0], "HTTP/1.1 200 OK")
        found = samples(text)
        for name, value in {
            'doxeguir_info{version="0.1.0"}': 1,
            'doxeguir_connections{operator="ACME",kind="station"}': 1,
            'doxeguir_connections{operator="ACME",kind="operator"}': 1,
            'doxeguir_connections{operator="BETA",kind="station"}': 0,
            'doxeguir_commands_in_flight{operator="ACME"}': 1,
            'doxeguir_connected_total{operator="ACME"}': 2,
            'doxeguir_ended_total{operator="ACME"}': 0,
            'doxeguir_events_total{operator="ACME",kind="frame"}': 11,
            'doxeguir_events_total{operator="ACME",kind="order"}': 2,
            'doxeguir_events_total{operator="BETA",kind="frame"}': 0,
            'doxeguir_faults_total{operator="ACME",kind="Store"}': 0,
            'doxeguir_refused_total{cause="unknown"}': 1,
            "doxeguir_unsent_bytes": 0,
        }.items():
            checks.check(name, found.get(name), value)
        for name in ("file_bytes", "log_bytes", "uptime_seconds", "busy_seconds_total", "longest_turn_seconds", "processor_seconds_total"):
            checks.check(f"{name} is above 0", found.get(f"doxeguir_{name}", 0) > 0, True)
        checks.check("it has waited too", found["doxeguir_busy_seconds_total"] < found["doxeguir_uptime_seconds"], True)
        check_form(checks, text)
        head, body = answer("HEAD", "/metrics")
        checks.check("HEAD", (head.split("\r\n")[0], body), ("HTTP/1.1 200 OK", ""))
        checks.check("POST", answer("POST", "/metrics")[0].split("\r\n")[0], "HTTP/1.1 405 Method Not Allowed")
        checks.check("another path", answer("GET", "/metrics/")[0].split("\r\n")[0], "HTTP/1.1 404 Not Found")
        checks.check("the command is sent", '"Reset"' in station.next(), True)
        checks.check("the station is served", '"currentTime"' in station.ask(HEARTBEAT), True)


def check_form(checks, text):
    """The text is as Prometheus has it, by its own tool too."""
    lines = [line for line in text.splitlines() if not re.fullmatch(r'doxeguir_[a-z_]+(\{[a-z]+="[^"\\]*"(,[a-z]+="[^"\\]*")*\})? [0-9.]+', line)]
    checks.check("other lines", [line for line in lines if not re.match("# (HELP|TYPE) doxeguir_", line)], [])
    if checks.can("the form of the metrics, by promtool", "promtool"):
        told = subprocess.run(["promtool", "check", "metrics"], input=text, capture_output=True, text=True, timeout=30)
        checks.check("promtool", (told.returncode, told.stdout, told.stderr), (0, "", ""))


def check_unread(checks):
    """Nobody reads standard error: the pipe is full after a page. Stations are served as before."""
    reads, writes = os.pipe()
    fcntl.fcntl(writes, fcntl.F_SETPIPE_SZ, 4096)
    with checks.serve("--operators", "ACME", errors=writes):
        acme = Peer(PORT, "/operator/ACME")
        acme.ask("station add CP01 Accepted 300")
        for _ in range(600):
            with contextlib.suppress(OSError), socket.create_connection(("127.0.0.1", PORT), timeout=5) as stream:
                stream.sendall(HEAD.format("/ocpp/ACME/CP09").encode())
                stream.recv(4096)
        station = Peer(PORT, "/ocpp/ACME/CP01")
        checks.check("a boot is answered", '"Accepted"' in station.ask(BOOT), True)
        time.sleep(1.1)
        left_out = samples(answer("GET", "/metrics")[1])["doxeguir_left_out_lines_total"]
        checks.check("lines are left out", left_out > 100, True)
    os.close(reads)
    os.close(writes)


def check_rate(checks):
    """Of 600 refusals at once 20 lines a second are written, and how many were left out."""
    path = checks.new_file()
    with open(path, "w") as log, checks.serve("--operators", "ACME", errors=log):
        began = time.monotonic()
        for _ in range(600):
            with contextlib.suppress(OSError), socket.create_connection(("127.0.0.1", PORT), timeout=5) as stream:
                stream.sendall(HEAD.format("/ocpp/ACME/CP09").encode())
                stream.recv(4096)
        seconds = int(time.monotonic() - began) + 2
        time.sleep(2.1)
    lines = Path(path).read_text().splitlines()
    refused = sum("refused: unknown (404)" in line for line in lines)
    left_out = sum(int(line.split()[-4]) for line in lines if line.endswith(" lines left out"))
    checks.check("each is written or left out", refused + left_out, 600)
    checks.check("at most 20 a second", refused <= 20 * seconds, True)


def closes(peer):
    """The texts that come before the close of a connection, and its code."""
    texts, data = [], peer.data
    with contextlib.suppress(OSError):
        while more := peer.stream.recv(65536):
            data += more
    while data:
        size, at = data[1], 2
        if size == 126:
            size, at = int.from_bytes(data[2:4], "big"), 4
        body, kind, data = data[at : at + size], data[0], data[at + size :]
        if kind == 0x88:
            return texts, body[:2]
        texts.append(body.decode())
    return texts, None


def send_readings(stream, stop):
    """Sends readings until the stream is closed, and makes the file that ends the server after some of them."""
    with contextlib.suppress(OSError):
        for n in range(100_000):
            stream.sendall(frame(METER.format(n)))
            if n == 50:
                Path(stop).touch()


def check_stop(checks):
    """A server is ended by its file in the midst of messages: what is on record was answered, and each gets 1001."""
    db, path, stop = checks.new_file(), checks.new_file(), checks.new_file()
    Path(stop).touch()
    with open(path, "w") as log, checks.serve("--operators", "ACME", "--stop-file", stop, db=db, errors=log) as server:
        checks.check("a file that is there at the start is removed", os.path.exists(stop), False)
        acme = Peer(PORT, "/operator/ACME")
        acme.ask("station add CP01 Accepted 300")
        station = Peer(PORT, "/ocpp/ACME/CP01")
        station.ask(BOOT)
        sender = threading.Thread(target=send_readings, args=(station.stream, stop))
        sender.start()
        texts, code = closes(station)
        sender.join()
        checks.check("the station is closed with 1001", code, AWAY)
        checks.check("the operator is closed with 1001", closes(acme)[1], AWAY)
        checks.check("status", server.wait(timeout=10), 0)
    checks.check("the file is gone", os.path.exists(stop), False)
    lines = Path(path).read_text().splitlines()
    checks.check("the log's last line", lines[-1].endswith("Z central ends: 2 connections closed"), True)
    answered = sum(text.startswith('[3,"m') for text in texts)
    _, listed, _ = checks.run("replay", "--operators", "ACME", "--db", db, lines=b"1795824000 ACME list readings CP01\n")
    checks.check("what is on record was answered", listed.count(" row reading "), answered)
    checks.check("some were answered", answered > 0, True)


def check_bound(checks):
    """Of the stations of one operator three are connected at most; another's are served, and one that comes again."""

    def admitted(path):
        with contextlib.suppress(OSError), socket.create_connection(("127.0.0.1", PORT), timeout=5) as stream:
            stream.sendall(HEAD.format(path).encode())
            return stream.recv(4096)[9:12].decode()

    with checks.serve("--operators", "ACME,BETA", "--connections-per-operator", "3"):
        for operator in ("ACME", "BETA"):
            for n in range(5):
                Peer(PORT, f"/operator/{operator}").ask(f"station add CP{n} Accepted 300")
        peers = [Peer(PORT, f"/ocpp/ACME/CP{n}") for n in range(3)]
        checks.check("a fourth", admitted("/ocpp/ACME/CP3"), "503")
        checks.check("another operator's", admitted("/ocpp/BETA/CP3"), "101")
        checks.check("one that is connected", admitted("/ocpp/ACME/CP2"), "101")
        peers[0].stream.close()
        answers = []
        while answers[-1:] != ["101"] and len(answers) < 100:
            time.sleep(0.1)
            answers.append(admitted("/ocpp/ACME/CP3"))
        checks.check("a fourth after one has left", answers[-1], "101")


def close_code(peer):
    """The code with which the server closes a connection, where this is the next thing that it sends."""
    with contextlib.suppress(OSError):
        head = peer.stream.recv(4, socket.MSG_WAITALL)
        return int.from_bytes(head[2:4], "big") if head[:1] == b"\x88" else None


def rows(peer, line):
    """How many rows a listing has."""
    answer, count = peer.ask(line), 0
    while " row " in answer:
        answer, count = peer.next(), count + 1
    return count if answer.endswith(" ok") else answer


def check_long_listings(checks):
    """A listing has 1,000 rows at most, of which a reading counts as two, and more for a long text. A longer one ends its
    connection, and no other."""
    values = '[2,"1","MeterValues",{"connectorId":1,"transactionId":%d,"meterValue":[{"timestamp":"2026-01-01T00:00:00Z","sampledValue":[%s]}]}]'
    with checks.serve("--operators", "ACME,BETA", "--longest-listing", "1000"):
        acme, beta = Peer(PORT, "/operator/ACME"), Peer(PORT, "/operator/BETA")
        for n in range(1000):
            acme.ask(f"tag put K{n} - 0 -")
        checks.check("1,000 tags", rows(acme, "list tags"), 1000)
        acme.ask("tag put K - 0 -")
        acme.send("list tags")
        checks.check("one more", close_code(acme), 1011)
        acme = Peer(PORT, "/operator/ACME")
        acme.ask("station add CP01 Accepted 300")
        station = Peer(PORT, "/ocpp/ACME/CP01")
        station.ask(BOOT)
        station.ask(values % (7, ",".join(['{"value":"1"}'] * 499)))
        station.ask(values % (8, '{"value":"1"}'))
        checks.check("500 readings", rows(acme, "list readings CP01"), 500)
        station.ask(values % (9, '{"value":"' + "1" * 64 + '"}'))
        checks.check("those of a transaction", rows(acme, "list readings CP01 7"), 499)
        checks.check("those of another", rows(acme, "list readings CP01 9"), 1)
        acme.send("list readings CP01")
        checks.check("one more reading", close_code(acme), 1011)
        checks.check("the station", station.ask(HEARTBEAT)[:6], '[3,"2"')
        checks.check("another operator", beta.ask("list tags"), "BETA ok")
        checks.check("health", answer("GET", "/health")[0].split(" ")[1], "200")


def check_waiting_calls(checks):
    """Stations are sent calls of 1 MB each and answer none. One of each is in flight, and others wait until those of all
    stations have 16 MiB."""
    call = 'call CP{0:02} DataTransfer {{"vendorId":"V","data":"' + "x" * 1_000_000 + '"}}'
    with checks.serve("--operators", "ACME") as server:
        acme = Peer(PORT, "/operator/ACME", patience=30)
        for n in range(20):
            acme.ask(f"station add CP{n:02} Accepted 300")
        stations = [Peer(PORT, f"/ocpp/ACME/CP{n:02}") for n in range(20)]
        for station in stations:
            station.ask(BOOT)
        answers = [acme.ask(call.format(n)) for _ in range(4) for n in range(20)]
        taken = sum(" ok " in answer for answer in answers)
        checks.check("calls that are taken: 20 in flight, and 17 that wait", taken, 37)
        checks.check("the others find the queue full", sum("QueueFull" in answer for answer in answers), 43)
        checks.check("they take less than 200 MiB", memory(server) < 200 << 10, True)


def main():
    with tempfile.TemporaryDirectory() as folder:
        checks = Checks(os.path.abspath(sys.argv[1]), folder)
        check_metrics(checks)
        check_unread(checks)
        check_rate(checks)
        check_bound(checks)
        check_waiting_calls(checks)
        check_long_listings(checks)
        check_stop(checks)
    checks.end()


if __name__ == "__main__":
    main()
