"""Checks the built program: its statuses and texts, its databases, and over loopback a charging session of a
simulated station that an operator watches, restarts and hostile peers. Prints `N passed, M failed`. Its checks are here
and in databases.py, asking.py, simulated.py and heads.py.

    python3 checks/programs.py crates/central/out/central
"""

import contextlib
import re
import socket
import sys
import tempfile
import threading
import time

from asking import check_asking
from databases import check_databases
from harness import NOT_FOUND, PORT, SESSION, TIME, Checks, connected, listening, memory, spent
from heads import check_heads
from peer import BOOT, HEAD, HEARTBEAT, Peer, frame
from simulated import check_simulated

# What the second lines of faults say, and the warnings of an address and of names.
NO_NAME = "can't be a name: 1 to 32 letters, digits, - and _"
IN_USE = "Address already in use (os error 98)"
WARNED = "may be reached from other machines, and the server authenticates nobody (docs/OPERATIONS.md, A TLS proxy)"
NO_STATION = "has no station on record, and another operator has: a name of --operators may be misspelled"
NOT_HOSTED = "has stations on record and is not hosted: a name of --operators may be misspelled"
MOST = 1 << 20


def check_statuses(checks):
    db = checks.new_file()
    serve = f"serve --port {PORT} --db {db} --turns 0 --operators"
    checks.check("0 turns", checks.run(*serve.split(" "), "ACME", "--log", "errors"), (0, "", ""))
    checks.ends("no such log", f"{serve} A --log all", 1, "--log")
    checks.fault("an operator twice", f"{serve} A,B,A", "BadOperators", '--operators: "A" comes twice')
    checks.fault("an operator with no name", f"{serve} A,", "BadOperators", f'--operators: "" {NO_NAME}')
    checks.fault("a name with a tab", f"{serve} A\tB", "BadOperators", f'--operators: "A\\tB" {NO_NAME}')
    checks.ends("no operators", f"serve --port {PORT} --db {db}", 1, "--operators")
    checks.ends("no file", f"serve --port {PORT} --operators A", 1, "--db")
    checks.ends("no port", f"serve --operators A --db {db}", 1, "--port")
    for port in (0, 65536, 99999):
        refused = f"error: invalid value '{port}' for '--port <P>': {port} is not in 1..=65535\n"
        for words in (f"serve --operators A --db {db}", "sim --path /ocpp/A/S", "ask --operator A"):
            checks.ends(f"port {port}", f"{words} --port {port}", 1, refused)
    checks.ends("no port", f"serve --port P --operators A --db {db}", 1, "invalid value 'P' for '--port <P>'")
    many = "invalid value '1000001' for '--turns <N>': 1000001 is not in 0..=1000000"
    checks.ends("too many turns", f"serve --port {PORT} --operators A --db {db} --turns 1000001", 1, many)
    checks.ends("no such command", "charge", 1, "charge")
    nobody = "127.0.0.1:9: Connection refused (os error 111)"
    checks.fault("nobody listens", "sim --port 9 --path /ocpp/ACME/CP01", "Stream", nobody)
    no_station = "127.0.0.1:9: the path is no station's, as /ocpp/OPERATOR/STATION is"
    checks.fault("no station's path", "sim --port 9 --path /operator/ACME", "Stream", no_station)
    checks.fault("no path", "sim --port 9 --path ocpp", "Stream", "127.0.0.1:9: the path can't be asked for")
    with socket.create_server(("127.0.0.1", PORT)):
        checks.fault("a port in use", f"{serve} ACME", "Stream", f"127.0.0.1:{PORT}: {IN_USE}")
        checks.fault("the port before the operators", f"{serve} A,A", "Stream", f"127.0.0.1:{PORT}: {IN_USE}")
    code, text, _ = checks.run("--version")
    checks.check("--version", (code, text.split(" ")[0]), (0, "central"))


def check_help(checks):
    """The help of each command has an example, its statuses, and where more is written."""
    code, text, errors = checks.run("--help")
    commands = ("replay", "serve", "sim", "ask", "forget")
    checks.check("--help", (code, errors, all(f"  {word} " in text for word in commands)), (0, "", True))
    for word, statuses in zip(commands, (4, 3, 4, 4, 4)):
        code, text, errors = checks.run(word, "--help")
        checks.check(f"{word} --help", (code, errors, text[-2:].count("\n")), (0, "", 1))
        for part in (f"  central {word} --", "docs/OPERATIONS.md", *(f"\n  {status}  " for status in range(statuses))):
            checks.check(f"{word} --help has {part}", part in text, True)
    text = checks.run("serve", "--help")[1]
    for part in ("--bind <ADDRESS>", "[default: 127.0.0.1]", "authenticates nobody"):
        checks.check(f"serve --help has {part}", part in text, True)


def check_bind(checks):
    """Where the server listens, and the warning of an address that other machines may reach."""
    db = checks.new_file()
    serve = f"serve --port {PORT} --db {db} --operators ACME --turns 0 --log none --bind"
    for address in ("127.0.0.1", "127.0.0.2"):
        checks.check(f"--bind {address}", checks.run(*serve.split(" "), address), (0, "", ""))
    for word in ("localhost", "127.0.0.1:9180", "1.2.3"):
        refused = f"error: invalid value '{word}' for '--bind <ADDRESS>': not an IP address\n"
        checks.ends(f"--bind {word}", f"{serve} {word}", 1, refused)
    warning = f"warning: 0.0.0.0:{PORT} {WARNED}\n"
    checks.check("--bind 0.0.0.0", checks.run(*serve.split(" "), "0.0.0.0"), (0, "", warning))
    nowhere = "fault Stream\n192.0.2.1:9281: Cannot assign requested address (os error 99)\n"
    checks.check("--bind 192.0.2.1", checks.run(*serve.split(" "), "192.0.2.1"), (2, "", nowhere))
    with tempfile.TemporaryFile("w+") as errors:
        with checks.serve("--operators", "ACME", "--bind", "0.0.0.0", errors=errors):
            checks.check("where it listens", list(listening(PORT)), ["00000000"])
            checks.check("it serves", Peer(PORT, "/operator/ACME").ask("list stations"), "ACME ok")
        errors.seek(0)
        told = errors.read().splitlines()
        checks.check("it warns first", told[0], warning.rstrip("\n"))
        checks.check("its log has the address", f" serves ACME on 0.0.0.0:{PORT}, records in " in told[1], True)


def check_names(checks):
    """A start warns of hosted operators without stations where others have some, and of operators with some that aren't
    hosted."""
    db = checks.new_file()
    serve = f"serve --port {PORT} --db {db} --turns 0 --log none --operators"
    checks.check("no stations", checks.run(*serve.split(" "), "ACME,BETA"), (0, "", ""))
    with checks.serve("--operators", "ACNE,BETA", db=db):
        for name, station in (("ACNE", "CP01"), ("ACNE", "CP02"), ("BETA", "CP01")):
            added = Peer(PORT, f"/operator/{name}").ask(f"station add {station} Accepted 300")
            checks.check(f"{name} has {station}", added, f"{name} ok")
    checks.check("all names", checks.run(*serve.split(" "), "BETA,ACNE"), (0, "", ""))
    told = f"warning: ACNE {NOT_HOSTED}\nwarning: ACME {NO_STATION}\n"
    checks.check("a name in place of another", checks.run(*serve.split(" "), "ACME,BETA"), (0, "", told))
    told = f"warning: ACNE {NOT_HOSTED}\nwarning: BETA {NOT_HOSTED}\n"
    checks.check("none of the names", checks.run(*serve.split(" "), "ACME"), (0, "", told))
    told = f"warning: BETA {NOT_HOSTED}\n"
    checks.check("one of the names", checks.run(*serve.split(" "), "ACNE"), (0, "", told))


def check_strict(checks):
    """The status tells of bad lines where that is asked for. An operator and a station may be named as such a line begins."""
    replay, lines = ["replay", "--operators", "bad", "--strict"], b"1 bad list tags\n"
    named = b"1 bad station add line Accepted 300\n1 bad connect line\n1 bad frame line [2,\"1\",\"Heartbeat\",{}]\n"
    checks.check("no bad line", checks.run(*replay, lines=lines), (0, "bad ok\n", ""))
    moment = "'nothing' is no MOMENT, which is a number of seconds since 1970; expected: MOMENT OP ..\n"
    checks.check("a bad line", checks.run(*replay, lines=b"nothing\n" + lines), (3, "bad line 1\nbad ok\n", f"line 1: {moment}"))
    checks.check("a bad line that doesn't count", checks.run(*replay[:3], lines=b"nothing\n"), (0, "bad line 1\n", f"line 1: {moment}"))
    checks.check("no bad line of that station", checks.run(*replay, lines=named), (0, checks.run(*replay, lines=named)[1], ""))
    db = checks.new_file()
    over_a_file = checks.run(*replay, "--db", db, lines=lines + b"nothing\n")
    checks.check("over a file", over_a_file, (3, "bad ok\nbad line 2\n", f"line 2: {moment}"))
    check_reasons(checks, replay)


# Lines, and what is told of each.
BAD_SCRIPT_LINES = {
    "1 bad station add CP01 Acepted 300": "'Acepted' is no POLICY, which is Accepted, Pending or Rejected; expected: station add ST POLICY INTERVAL",
    "1 worse list tags": "'worse' is no operator of --operators",
    "1 bad connect": "ST is missing; expected: connect ST",
    "1 bad frame CP01": "TEXT is missing; expected: frame ST TEXT",
    "1 bad disconnect CP01 now": "the line goes on after its end; expected: disconnect ST",
    "1 bad call CP01 Frob {}": "'Frob' is no ACTION, which is a command of the central system, as ClearCache or Reset; expected: call ST ACTION JSON",
    "1 * tock": "after * the line has tick alone",
    "1": "'' is no operator of --operators",
    "-1 bad list tags": "'-1' is no MOMENT, which is a number of seconds since 1970; expected: MOMENT OP ..",
}


def check_reasons(checks, replay):
    """Why a line is bad is told of the first twenty, of those behind long ones too, and not of one that wasn't kept."""
    script = "".join(f"{line}\n" for line in BAD_SCRIPT_LINES)
    told = "".join(f"line {number}: {why}\n" for number, why in enumerate(BAD_SCRIPT_LINES.values(), 1))
    checks.check("why lines are bad", checks.run(*replay, lines=script.encode())[2], told)
    checks.check("of twenty", checks.run(*replay, lines=b"x\n" * 30)[2].count("\n"), 20)
    checks.check("not UTF-8", checks.run(*replay, lines=b"1 bad \xff\n")[2], "line 1: it isn't UTF-8\n")
    comments = b"\n".join([b"1 bad frame CP01 " + b"x" * 1000] * 5000)
    late = checks.run(*replay, lines=comments + b"\n1 bad lst tags\n")[2]
    checks.check("after much", late.splitlines(), ["line 5001: 'lst' begins no line; `central ask help` lists the lines"])


def log_of(checks, level, talk):
    """The lines of the log of a server to whom peers talk so, with T for each time and P for each port but its own."""
    db = checks.new_file()
    path = checks.new_file()
    with open(path, "w") as log, checks.serve("--operators", "ACME", "--log", level, db=db, errors=log):
        talk()
        Peer(PORT, "/operator/ACME").ask("list stations")
    with open(path) as log:
        text = TIME.sub("T", log.read()).replace(f"from 127.0.0.1:{PORT}", "from ?")
    text = re.sub(r"from 127\.0\.0\.1:\d+", "from P", text)
    return [re.sub(r"in \d+ ms", "in N ms", line).replace(db, "FILE") for line in text.splitlines()]


def raw(head, rest=b""):
    """Sends a head, and the rest once it is answered; then reads up to the end of the stream. The answer to the head."""
    answer = b""
    with socket.create_connection(("127.0.0.1", PORT), timeout=5) as stream:
        stream.sendall(head.encode())
        with contextlib.suppress(OSError):
            answer = stream.recv(4096)
            if answer and rest:
                stream.sendall(rest)
            while stream.recv(4096):
                pass
    return answer


def check_log(checks):
    """What the log tells of connections, at each of its levels. No line has a text that a peer sent."""

    def talk():
        acme = Peer(PORT, "/operator/ACME")
        acme.ask("station add CP01 Accepted 300")
        first = Peer(PORT, "/ocpp/ACME/CP01")
        second = Peer(PORT, "/ocpp/ACME/CP01")
        second.ask(BOOT)
        raw(HEAD.format("/ocpp/ACME/CP09%0Afault"))
        raw(HEAD.format("/ocpp/ACME/CP01").replace("Sec-WebSocket-Protocol: ocpp1.6\r\n", ""))
        raw(HEAD.format("/operator/ACME").replace("Sec-WebSocket-Version: 13\r\n", ""))
        raw("no request\r\n\r\n")
        raw(HEAD.format("/operator/ACME"), b"\x81\x81\0\0\0\0\xff")
        second.stream.close()
        first.stream.close()
        time.sleep(0.3)

    start = f"[INFO  central::journal] T central 0.1.0 serves ACME on 127.0.0.1:{PORT}, records in FILE, opened in N ms, stations on record: 0"
    wrong = [
        "[WARN  central::journal] T station ACME/CP09\\nfault from P refused: unknown (404)",
        "[WARN  central::journal] T station ACME/CP01 from P refused: no subprotocol ocpp1.6",
        "[WARN  central::journal] T connection from P refused: no handshake (405 or 426)",
        "[WARN  central::journal] T connection from P refused: no request (400)",
        "[WARN  central::journal] T operator ACME ended: not UTF-8 (1007)",
    ]
    lines = log_of(checks, "connections", talk)
    checks.check("the log begins", lines[:1], [start])
    checks.check("what went wrong", [line for line in lines if line.startswith("[WARN")][1:], wrong)
    for wanted in (
        "[INFO  central::journal] T operator ACME from P connected",
        "[INFO  central::journal] T station ACME/CP01 from P connected",
        "[INFO  central::journal] T station ACME/CP01 replaced by another connection",
        "[INFO  central::journal] T station ACME/CP01 ended: the stream ended",
    ):
        checks.check(wanted, wanted in lines, True)
    lines = log_of(checks, "errors", talk)
    checks.check("errors alone", lines[1:], wrong)
    checks.check("no log", log_of(checks, "none", talk), [])


def check_turns(checks):
    began = time.monotonic()
    with checks.serve("--operators", "ACME", "--turns", "1000000") as server:
        checks.check("1000000 turns: status", server.wait(60), 0)
    print(f"1000000 turns took {time.monotonic() - began:.1f} s")


def check_session(checks):
    with checks.serve("--operators", "ACME,BETA"):
        acme, beta = Peer(PORT, "/operator/ACME"), Peer(PORT, "/operator/BETA")
        checks.check("a station is added", acme.ask("station add CP01 Accepted 300"), "ACME ok")
        checks.check("a tag is put", acme.ask("tag put SIM1 - 0 -"), "ACME ok")
        unknown = checks.run("sim", "--port", str(PORT), "--path", "/ocpp/ACME/CP02")
        checks.check("an unknown station", unknown, (2, "", NOT_FOUND))
        unknown = checks.run("sim", "--port", str(PORT), "--path", "/ocpp/BETA/CP01")
        checks.check("another operator's station", unknown, (2, "", NOT_FOUND))
        sim = ["sim", "--port", str(PORT), "--path", "/ocpp/ACME/CP01"]
        for order, status in (("tag put SIM1 - 1 -", 3), ("station policy CP01 Rejected 300", 3), ("tag put SIM1 - 0 -", 3), ("station policy CP01 Accepted 300", 0)):
            checks.check(order, acme.ask(order), "ACME ok")
            if status:
                checks.check(f"a session after {order}", checks.run(*sim)[0], status)
        code, text, errors = checks.run(*sim)
        checks.check("a session: status", (code, errors), (0, ""))
        checks.check("a session", TIME.sub("T", text), SESSION)
        row = acme.ask("list transactions CP01")
        checks.check("its transaction", row.startswith('ACME row transaction CP01 1 1 "SIM1" Accepted 0 '), True)
        checks.check("the end of the list", acme.next(), "ACME ok")
        checks.check("another operator's list", beta.ask("list stations"), "BETA ok")


def check_operators(checks):
    """An operator has 32 connections, and one more when one of these has ended. Another operator is let in."""
    with checks.serve("--operators", "ACME,BETA"):
        acme = [Peer(PORT, "/operator/ACME") for _ in range(32)]
        refused = raw(HEAD.format("/operator/ACME"))
        checks.check("connection 33", refused.startswith(b"HTTP/1.1 503 "), True)
        checks.check("another operator", Peer(PORT, "/operator/BETA").ask("list stations"), "BETA ok")
        acme.pop().stream.close()
        time.sleep(0.2)
        acme.append(Peer(PORT, "/operator/ACME"))
        checks.check("one more when one has ended", acme[-1].ask("list stations"), "ACME ok")
        checks.check("each hears each line", [peer.next() for peer in acme[:-1]], ["ACME ok"] * 31)


def check_listings(checks):
    """What a peer doesn't read at once waits for it, up to a bound. Beyond that its connection ends, and no other."""
    with checks.serve("--operators", "ACME,BETA"):
        acme = Peer(PORT, "/operator/ACME")
        for tag in range(2000):
            acme.ask(f"tag put {tag:020} - 0 -")
        late, deaf = Peer(PORT, "/operator/ACME"), Peer(PORT, "/operator/ACME")
        checks.check("60 listings", listings(acme, 60, ask=True), (120_000, 60))
        checks.check("60 listings, read late", listings(late, 60), (120_000, 60))
        late.stream.close()
        checks.check("240 listings", listings(acme, 240, ask=True), (480_000, 240))
        checks.check("one that never reads has ended", ends(deaf), True)
        checks.check("another operator", Peer(PORT, "/operator/BETA").ask("list stations"), "BETA ok")


def listings(peer, count, ask=False):
    """Reads so many listings of tags, and asks for each before if it is to. How many rows and ends there are."""
    rows = found = 0
    for _ in range(count):
        if ask:
            peer.send("list tags")
        while (end := peer.data.find(b"ACME ok")) < 0:
            peer.data += peer.stream.recv(MOST)
        rows += peer.data.count(b"ACME row tag ", 0, end)
        found += 1
        peer.data = peer.data[end + 7 :]
    return rows, found


def ends(peer):
    """Whether the stream of a peer ends once all is read."""
    with contextlib.suppress(ConnectionResetError):
        while peer.stream.recv(MOST):
            pass
    return True


def check_clock(checks):
    """An event has the time at which it is taken, also after a wait."""
    with checks.serve("--operators", "ACME"):
        Peer(PORT, "/operator/ACME").ask("station add CP01 Accepted 300")
        station = Peer(PORT, "/ocpp/ACME/CP01")
        station.ask(BOOT)
        for _ in range(4):
            time.sleep(0.7)
            sent = time.strftime("%Y-%m-%dT%H:%M:%SZ", time.gmtime())
            answer = station.ask(HEARTBEAT)
            checks.check("the time of a heartbeat", TIME.search(answer).group() >= sent, True)


def check_arrivals(checks):
    """However bytes arrive, what they hold is served without a wait."""
    beat = frame(HEARTBEAT)
    echo = '[2,"3","DataTransfer",{"vendorId":"org.example.echo","data":"' + "x" * 10000 + '"}]'
    with checks.serve("--operators", "ACME"):
        acme = Peer(PORT, "/operator/ACME")
        acme.ask("station add CP01 Accepted 300")
        station = Peer(PORT, "/ocpp/ACME/CP01")
        station.ask(BOOT)
        began = time.monotonic()
        station.stream.sendall(beat * 3)
        checks.check("calls in one segment", [station.next()[:5] for _ in range(3)], ['[3,"2'] * 3)
        checks.check("a text longer than a read", station.ask(echo)[:6], '[3,"3"')
        station.stream.sendall(beat[:9])
        time.sleep(0.1)
        station.stream.sendall(beat[9:])
        checks.check("a call in two segments", station.next()[:5], '[3,"2')
        checks.check("arrivals in less than half a second", time.monotonic() - began < 0.5, True)
        station.stream.sendall(beat)
        station.stream.shutdown(socket.SHUT_WR)
        time.sleep(0.3)
        answer = acme.ask("call CP01 ClearCache {}")
        checks.check("the end of a stream", answer, "ACME refused 7 NotConnected")


def slowest_heartbeat(station, seconds):
    """The most seconds that a heartbeat takes, of those sent one after the other for so long."""
    slowest, end = 0.0, time.monotonic() + seconds
    while time.monotonic() < end:
        station.ask(HEARTBEAT)
        slowest = max(slowest, time.perf_counter() - station.sent_at)
    return slowest


def flood(stream, first, rest):
    """Sends without a pause and reads nothing, until the connection ends."""
    with contextlib.suppress(OSError):
        stream.sendall(first)
        while True:
            stream.sendall(rest)


def check_floods(checks):
    """A peer that sends without a pause neither holds the server nor makes it grow."""
    empty = b"\0\x80\0\0\0\0"
    ping = b"\x89\xfd\0\0\0\0" + b"x" * 125
    floods = {
        "empty fragments": (b"\x01" + empty[1:], empty * 100_000),
        "pings": (b"", ping * 10_000),
        "heartbeats": (b"", frame(HEARTBEAT) * 10_000),
    }
    for what, (first, rest) in floods.items():
        with checks.serve("--operators", "ACME") as server:
            _, hostile, station = connected("CP01", "CP02")
            before = memory(server)
            sender = threading.Thread(target=flood, args=(hostile.stream, first, rest), daemon=True)
            sender.start()
            slowest = slowest_heartbeat(station, 2)
            checks.check(f"{what}: others are answered in half a second", slowest < 0.5, True)
            checks.check(f"{what}: memory", memory(server) - before < 16_384, True)
        sender.join()


def check_silent(checks):
    """Clients that connect and say nothing keep nobody out."""
    with checks.serve("--operators", "ACME"):
        began = time.monotonic()
        silent = [socket.create_connection(("127.0.0.1", PORT)) for _ in range(1500)]
        checks.check("an operator beside them", Peer(PORT, "/operator/ACME").ask("list stations"), "ACME ok")
        checks.check("all in less than 2 seconds", time.monotonic() - began < 2, True)
        for stream in silent:
            stream.close()


def check_files(checks):
    """Where no file can be opened connections wait, and the others are served."""
    with tempfile.TemporaryFile("w+") as errors:
        with checks.serve("--operators", "ACME", "--log", "none", files=40, errors=errors):
            _, station = connected("CP01")
            more = [socket.create_connection(("127.0.0.1", PORT)) for _ in range(60)]
            slowest = slowest_heartbeat(station, 1.5)
            checks.check("no file left: others are answered", slowest < 0.5, True)
            for stream in more:
                stream.close()
            checks.check("files again", Peer(PORT, "/operator/ACME").ask("list stations")[:8], "ACME row")
        errors.seek(0)
        told = errors.read().splitlines()
        no_file = f"127.0.0.1:{PORT}: Too many open files (os error 24)"
        checks.check("no file left is told", set(zip(told[::2], told[1::2])), {("fault Stream", no_file)})
        checks.check("once a second", len(told) <= 8, True)


def check_idle(checks):
    """An idle server waits. It listens on loopback alone."""
    with checks.serve("--operators", "ACME") as server:
        peers = connected(*(f"CP{n:02}" for n in range(20)))
        before = spent(server)
        time.sleep(2)
        checks.check("an idle server takes under 2 % of a processor", spent(server) - before < 0.04, True)
        checks.check("where it listens", list(listening(PORT)), ["0100007F"])
        checks.check("all are there", len(peers), 21)


def main():
    with tempfile.TemporaryDirectory() as folder:
        checks = Checks(sys.argv[1], folder)
        check_all(checks)
    checks.end()


def check_all(checks):
    check_statuses(checks)
    check_help(checks)
    check_bind(checks)
    check_names(checks)
    check_strict(checks)
    check_databases(checks)
    check_asking(checks)
    check_log(checks)
    check_turns(checks)
    check_session(checks)
    check_simulated(checks)
    check_heads(checks)
    check_operators(checks)
    check_listings(checks)
    check_clock(checks)
    check_arrivals(checks)
    check_floods(checks)
    check_silent(checks)
    check_files(checks)
    check_idle(checks)


if __name__ == "__main__":
    main()
