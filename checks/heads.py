"""How the built program answers heads of requests, also of clients that are no stations, and what is no message after
them. programs.py calls `check_heads`. A case is a head, or a change of a good one, and the answer that is wanted. An
answer is compared as a whole: its status, its fields, what comes after them, and that the connection ends.
"""

import contextlib
import socket
import time

from peer import BOOT, HEARTBEAT, Peer, frame

# A good head. A case changes some of its lines.
STATION = "GET /ocpp/ACME/CP01 HTTP/1.1"
OPERATOR = "GET /operator/ACME HTTP/1.1"
HOST = "Host: a"
UPGRADE = "Upgrade: websocket"
CONNECTION = "Connection: Upgrade"
KEY = "Sec-WebSocket-Key: dGhlIHNhbXBsZSBub25jZQ=="
VERSION = "Sec-WebSocket-Version: 13"
OCPP = "Sec-WebSocket-Protocol: ocpp1.6"
GOOD = (STATION, HOST, UPGRADE, CONNECTION, KEY, VERSION, OCPP)

# The origins whose pages are served, and fields that name them.
ORIGINS = "https://console.example,null"
SERVED = ("Origin: https://console.example", "origin:null", "Origin: \tnull ", "Origin: null\nOrigin: null")
FOREIGN = (
    "https://other.example",
    "https://console.example:8443",
    "http://console.example",
    "https://CONSOLE.example",
    "https://console.example/",
    "https://console.example, null",
    "NULL",
    "",
    "null\nOrigin: https://other.example",
)

# The fields of answers (the answer to the key is that of RFC 6455, section 1.3).
AGREED = {"sec-websocket-protocol": "ocpp1.6"}
SWITCHED = {"connection": "Upgrade", "upgrade": "websocket", "sec-websocket-accept": "s3pPLMBiTxaQ9kYGzzhZRbK+xOo="}
SHORT = {"connection": "close", "content-length": "0"}
OWN_FIELDS = {
    405: {"allow": "GET, HEAD"},
    426: {"connection": "close, Upgrade", "sec-websocket-version": "13", "upgrade": "websocket"},
}

# Heads without an upgrade, as they are written but for the ends of lines.
PLAIN = [
    (200, "GET /health HTTP/1.1\nHost: a"),
    (200, "HEAD /health HTTP/1.1\nHost: a"),
    (200, "GET /health HTTP/1.0"),
    (200, "HEAD /health HTTP/1.0"),
    (200, "GET /health?a=b HTTP/1.1\nHost: a"),
    (200, "GET /health HTTP/1.1\nHost: a\nConnection: keep-alive\nUser-Agent: b\nAccept: */*"),
    (200, "GET /health HTTP/1.1\nhost:a"),
    (404, "GET / HTTP/1.1\nHost: a"),
    (404, "GET / HTTP/1.0"),
    (404, "HEAD / HTTP/1.1\nHost: a"),
    (404, "POST / HTTP/1.1\nHost: a"),
    (404, "GET /health/ HTTP/1.1\nHost: a"),
    (404, "GET /healthy HTTP/1.1\nHost: a"),
    (404, "GET /ocpp/ACME HTTP/1.1\nHost: a"),
    (404, "GET /ocpp/ACME/CP01/ HTTP/1.1\nHost: a"),
    (404, "GET /operator HTTP/1.1\nHost: a"),
    (404, "GET /operator/ACME/CP01 HTTP/1.1\nHost: a"),
    (405, "POST /health HTTP/1.1\nHost: a"),
    (405, "POST /health HTTP/1.0"),
    (405, "OPTIONS /health HTTP/1.1\nHost: a"),
    (405, "DELETE /ocpp/ACME/CP01 HTTP/1.1\nHost: a"),
    (405, "PUT /operator/ACME HTTP/1.1\nHost: a"),
    (405, "get /health HTTP/1.1\nHost: a"),
    (426, "GET /ocpp/ACME/CP01 HTTP/1.1\nHost: a"),
    (426, "GET /ocpp/ACME/CP01 HTTP/1.0"),
    (426, "HEAD /ocpp/ACME/CP01 HTTP/1.1\nHost: a"),
    (426, "GET /operator/ACME HTTP/1.1\nHost: a"),
    (426, "GET /operator/ACME HTTP/1.0"),
    # the path has the form, whoever is known
    (426, "GET /ocpp/ACME/CP09 HTTP/1.1\nHost: a"),
    (426, "GET /operator/GAMMA HTTP/1.1\nHost: a"),
    (400, "GET /health HTTP/1.1"),
    (400, "GET / HTTP/1.1"),
    (400, "GET /health HTTP/1.1\nHost: a\nHost: a"),
    (400, "GET /health HTTP/1.1\nHost: a\nhost: b"),
    (400, "GET http:// HTTP/1.1\nHost: a"),
    (400, "GET /<health> HTTP/1.1\nHost: a"),
    (400, "no request"),
    (400, "GET /health HTTP/1.1\nHost: a\nno field"),
    (400, "GET /health HTTP/1.1\nHost: a\nno field: a"),
    (400, "GET /health HTTP/2.0\nHost: a"),
    (400, "GET /health\nHost: a"),
]

# First bytes that are no head: a greeting of TLS, zeros, a frame.
NO_HEADS = [b"\x16\x03\x01\x02\x00\x01\x00\x01\xfc\x03\x03", bytes(16), frame(HEARTBEAT)]

# Other lines in place of one of a good head, with which it is admitted just the same.
ADMITTED = {
    STATION: [
        "GET /ocpp/ACME/CP01?a=b HTTP/1.1",
        "GET /ocpp/ACME/CP%30%31 HTTP/1.1",
        "GET http://a/ocpp/ACME/CP01 HTTP/1.1",
        OPERATOR,
    ],
    HOST: ["host: b:9000", "HOST:a", "X-Forwarded-For: 10.0.0.1\nHost: a\nUser-Agent: b", *(f"Host: a\n{line}" for line in SERVED)],
    UPGRADE: [
        "upgrade: WEBSOCKET",
        "Upgrade:websocket",
        "Upgrade: h2c, websocket",
        "Upgrade: websocket,h2c",
        "Upgrade: h2c\nUpgrade: websocket",
        "Upgrade: websocket\nUpgrade: h2c",
        "Upgrade: \t h2c\t, \t websocket \t",
    ],
    CONNECTION: [
        "CONNECTION: upgrade",
        "Connection: keep-alive, Upgrade",
        "Connection: upgrade,keep-alive",
        "Connection: keep-alive\nConnection: Upgrade",
        "Connection:\tkeep-alive\t,\tUpgrade\t",
    ],
    KEY: ["sec-websocket-key:\t dGhlIHNhbXBsZSBub25jZQ== \t"],
    VERSION: ["SEC-WEBSOCKET-VERSION:13", "Sec-WebSocket-Version: \t13\t "],
    OCPP: [
        "sec-websocket-protocol:ocpp1.6",
        "Sec-WebSocket-Protocol: ocpp2.0.1, ocpp1.6",
        "Sec-WebSocket-Protocol: ocpp1.6,ocpp1.5",
        "Sec-WebSocket-Protocol: ocpp2.0.1\nSec-WebSocket-Protocol: ocpp1.6",
        "Sec-WebSocket-Protocol: \tocpp2.0.1\t,\tocpp1.6\t",
    ],
}

# Changes of a good head with which it is refused; an empty line is left out. BETA has as many connections as it may.
REFUSED = [
    (400, {HOST: ""}),
    (400, {HOST: "Host: a\nHost: b"}),
    (404, {STATION: "GET / HTTP/1.1"}),
    (404, {STATION: "GET /health HTTP/1.1"}),
    (404, {STATION: "GET /ocpp/ACME HTTP/1.1"}),
    (404, {STATION: "GET /ocpp/ACME/CP01/ HTTP/1.1"}),
    (404, {STATION: "GET /operators/ACME HTTP/1.1"}),
    (404, {STATION: "GET /ocpp/ACME/CP09 HTTP/1.1"}),
    (404, {STATION: "GET /ocpp/BETA/CP01 HTTP/1.1"}),
    (404, {STATION: "GET /ocpp/GAMMA/CP01 HTTP/1.1"}),
    (404, {STATION: "GET /operator/GAMMA HTTP/1.1"}),
    (503, {STATION: "GET /operator/BETA HTTP/1.1"}),
    (405, {STATION: "POST /ocpp/ACME/CP01 HTTP/1.1"}),
    (426, {STATION: "HEAD /ocpp/ACME/CP01 HTTP/1.1"}),
    (426, {STATION: "GET /ocpp/ACME/CP01 HTTP/1.0"}),
    (426, {UPGRADE: ""}),
    (426, {UPGRADE: "Upgrade: h2c"}),
    (426, {UPGRADE: "Upgrade: websockets"}),
    (426, {CONNECTION: ""}),
    (426, {CONNECTION: "Connection: keep-alive"}),
    (426, {CONNECTION: "Connection: close, upgraded"}),
    (426, {VERSION: ""}),
    (426, {VERSION: "Sec-WebSocket-Version: 12"}),
    (426, {VERSION: "Sec-WebSocket-Version: 013"}),
    (426, {VERSION: "Sec-WebSocket-Version: 13, 8"}),
    (426, {VERSION: "Sec-WebSocket-Version: 13\nSec-WebSocket-Version: 13"}),
    (426, {VERSION: "Sec-WebSocket-Version: 8\nSec-WebSocket-Version: 13"}),
    (400, {KEY: ""}),
    (400, {KEY: f"{KEY}\n{KEY}"}),
    (400, {KEY: "Sec-WebSocket-Key:"}),
    (400, {KEY: "Sec-WebSocket-Key: dGhlIHNhbXBsZSBub25jZQ"}),
    (400, {KEY: "Sec-WebSocket-Key: dGhlIHNhbXBsZSBub25j"}),
    (400, {KEY: "Sec-WebSocket-Key: dGhlIHNhbXBsZSBub25jZWU="}),
    (400, {KEY: "Sec-WebSocket-Key: dGhlIHNhbXBsZSBub25j!Q=="}),
    *((403, {HOST: f"Host: a\nOrigin: {origin}"}) for origin in FOREIGN),
    *((403, {STATION: OPERATOR, HOST: f"Host: a\nOrigin: {origin}"}) for origin in FOREIGN),
    # what is looked at first
    (404, {STATION: "GET / HTTP/1.1", HOST: "Host: a\nOrigin: http://a"}),
    (400, {HOST: "Origin: http://a"}),
    (403, {HOST: "Host: a\nOrigin: http://a", VERSION: "", KEY: ""}),
    (403, {STATION: "GET /ocpp/ACME/CP09 HTTP/1.1", HOST: "Host: a\nOrigin: http://a"}),
    (426, {UPGRADE: "", HOST: "Host: a\nOrigin: http://a"}),
    (404, {STATION: "GET / HTTP/1.1", VERSION: "", KEY: ""}),
    (400, {STATION: "GET / HTTP/1.1", HOST: ""}),
    (426, {VERSION: "", KEY: ""}),
    (426, {STATION: "GET /ocpp/ACME/CP09 HTTP/1.1", VERSION: ""}),
    (400, {STATION: "GET /ocpp/ACME/CP09 HTTP/1.1", KEY: ""}),
    (400, {STATION: "GET /operator/BETA HTTP/1.1", KEY: ""}),
    (404, {STATION: "GET /ocpp/ACME/CP09 HTTP/1.1", OCPP: ""}),
]

# What a station offers that isn't OCPP 1.6.
OTHERS = [
    "",
    "Sec-WebSocket-Protocol: ocpp2.0.1",
    "Sec-WebSocket-Protocol: ocpp1.5\nSec-WebSocket-Protocol: ocpp2.0",
    "Sec-WebSocket-Protocol: ocpp1.60",
    "Sec-WebSocket-Protocol: OCPP1.6",
]

# What a station offers that is read tolerantly, and what it is answered.
TOLERATED = {
    "ocpp1.6": "ocpp1.6",
    "OCPP1.6": "OCPP1.6",
    "ocpp1.6j": "ocpp1.6j",
    "ocpp1.6j, OCPP1.6": "OCPP1.6",
    "OCPP1.6, ocpp1.6": "ocpp1.6",
    "ocpp1.6J": None,
    "ocpp2.0.1": None,
}

# What a client sends that is no message, and the code with which its connection is closed (RFC 6455, section 7.4.1).
BREACHES = [
    (1007, "a text that isn't UTF-8", b"\x81\x81\0\0\0\0\xff"),
    (1007, "a text that ends within a character", b"\x01\x81\0\0\0\0\xc3\x80\x80\0\0\0\0"),
    (1002, "a frame without a mask", b"\x81\x02{}"),
    (1002, "the first reserved bit", b"\xc1\x80\0\0\0\0"),
    (1002, "the second reserved bit", b"\xa1\x80\0\0\0\0"),
    (1002, "the third reserved bit", b"\x91\x80\0\0\0\0"),
    (1002, "a reserved opcode", b"\x83\x80\0\0\0\0"),
    (1002, "a reserved opcode of control frames", b"\x8b\x80\0\0\0\0"),
    (1002, "a continuation of nothing", b"\x80\x80\0\0\0\0"),
    (1002, "a text within a text", b"\x01\x80\0\0\0\0\x81\x80\0\0\0\0"),
    (1002, "a ping in parts", b"\x09\x80\0\0\0\0"),
    (1002, "a length of 2 in 16 bits", b"\x81\xfe\0\x02\0\0\0\0{}"),
    (1002, "a length of 2 in 64 bits", b"\x81\xff" + bytes(7) + b"\x02\0\0\0\0{}"),
    (1002, "a length with the first of 64 bits", b"\x81\xff\x80" + bytes(6) + b"\x01\0\0\0\0a"),
    (1002, "a close of one byte", b"\x88\x81\0\0\0\0\x03"),
    (1002, "a close with the code 1005", b"\x88\x82\0\0\0\0\x03\xed"),
    (1007, "a close whose reason isn't UTF-8", b"\x88\x83\0\0\0\0\x03\xe8\xff"),
    (1002, "a ping of 126 bytes", b"\x89\xfe\0\x7e\0\0\0\0" + bytes(126)),
]


def head_of(lines):
    return "\r\n".join([*lines, "", ""]).encode()


def changed(changes):
    """A good head with other lines in the place of some."""
    lines = (part for line in GOOD for part in changes.get(line, line).split("\n"))
    return head_of(filter(None, lines))


def padded(size):
    """A head of so many bytes."""
    head = "GET /health HTTP/1.1", "Host: a", "A: "
    return head_of([*head[:2], head[2] + "a" * (size - len(head_of(head)))])


def of_fields(count):
    return head_of(["GET /health HTTP/1.1", "Host: a", *(f"A: {n}" for n in range(count - 1))])


def exchange(port, *parts, until=None):
    """Sends these parts, each a while after the one before it, and reads until that comes or the stream ends: the
    status, the fields, and what comes after them. A stream that doesn't end within 5 seconds has `no end`."""
    data = b""
    with socket.create_connection(("127.0.0.1", port), timeout=5) as stream:
        stream.setsockopt(socket.IPPROTO_TCP, socket.TCP_NODELAY, 1)
        with contextlib.suppress(ConnectionError):
            for number, part in enumerate(parts):
                time.sleep(0.05 if number else 0)
                stream.sendall(part)
            try:
                while not (until and until in data) and (more := stream.recv(65536)):
                    data += more
            except TimeoutError:
                data += b"no end"
    head, _, rest = data.partition(b"\r\n\r\n")
    status, *fields = head.decode("latin-1").split("\r\n")
    words, named = status.split(" "), [field.partition(": ") for field in fields]
    code = int(words[1]) if words[0] == "HTTP/1.1" and len(words) > 2 else status
    return code, sorted((name.lower(), value) for name, _, value in named), rest


def answer(status):
    """The answer that makes no connection. Nothing comes after it."""
    return status, sorted((SHORT | OWN_FIELDS.get(status, {})).items()), b""


def close_code(rest):
    """The code of a close frame without a reason or with one, 0 where it has none; or the bytes that are none."""
    if rest[:1] != b"\x88" or len(rest) != 2 + rest[1]:
        return rest
    return int.from_bytes(rest[2:4], "big")


def check_plain(checks):
    for status, text in PLAIN:
        checks.check(text, exchange(checks.port, head_of(text.split("\n"))), answer(status))
    for first in NO_HEADS:
        checks.check(f"first bytes {first[:12]}", exchange(checks.port, first), answer(400))
    sizes = {
        "8,192 bytes": (200, padded(8192)),
        "8,193 bytes": (431, padded(8193)),
        "20,000 bytes": (431, padded(20_000)),
        "a path without an end": (431, b"GET /" + b"a" * 20_000),
        "64 fields": (200, of_fields(64)),
        "65 fields": (431, of_fields(65)),
    }
    for what, (status, head) in sizes.items():
        checks.check(f"a head of {what}", exchange(checks.port, head), answer(status))


def check_refused(checks):
    """Refused heads, and nothing is taken that comes after them in the same segment."""
    for status, changes in REFUSED:
        checks.check(f"refused: {changes}", exchange(checks.port, changed(changes) + frame(BOOT)), answer(status))
    lost = changed({STATION: OPERATOR, KEY: ""}) + frame("tag put LOST - 0 -")
    checks.check("a line after a refused head", exchange(checks.port, lost), answer(400))
    checks.check("it is not done", Peer(checks.port, "/operator/ACME").ask("list tags"), "ACME ok")


def check_admitted(checks):
    agreed = 101, sorted((SWITCHED | AGREED).items()), b""
    for line, others in ADMITTED.items():
        for other in (line, *others):
            got = exchange(checks.port, changed({line: other}), until=b"\r\n\r\n")
            checks.check(f"admitted: {other}", got, agreed)
    for other in OTHERS:
        *got, rest = exchange(checks.port, changed({OCPP: other}) + frame(BOOT))
        checks.check(f"a station offers {other!r}", (*got, close_code(rest)), (101, sorted(SWITCHED.items()), 1008))
        got = exchange(checks.port, changed({STATION: OPERATOR, OCPP: other}), until=b"\r\n\r\n")
        checks.check(f"an operator offers {other!r}", got, (101, sorted(SWITCHED.items()), b""))


def check_tolerant(checks):
    """A station that is read tolerantly may offer the subprotocol by another name, and is answered that."""
    operator = Peer(checks.port, "/operator/ACME")
    checks.check("a tolerant reader", operator.ask("station reader CP01 tolerant"), "ACME ok")
    for other, answered in TOLERATED.items():
        fields = SWITCHED | ({"sec-websocket-protocol": answered} if answered else {})
        until = b"\r\n\r\n" if answered else None
        got = exchange(checks.port, changed({OCPP: f"Sec-WebSocket-Protocol: {other}"}), until=until)
        checks.check(f"a tolerant station offers {other}", got[:2], (101, sorted(fields.items())))
    checks.check("a strict reader", operator.ask("station reader CP01 strict"), "ACME ok")


def check_segments(checks):
    """However a head and what follows it arrive, both are served."""
    head, boot = changed({}), frame(BOOT)
    whole = head + boot + frame(HEARTBEAT)
    for cut in (0, len(head) - 1, len(head), len(head) + 1, len(head) + 7, len(head + boot), len(whole) - 1):
        status, _, rest = exchange(checks.port, whole[:cut], whole[cut:], until=b'[3,"2",')
        checks.check(f"a head and two frames, cut at {cut}", (status, rest.count(b"[3,")), (101, 2))
    line = changed({STATION: OPERATOR}) + frame("list tags")
    checks.check("a head and a line", exchange(checks.port, line, until=b"ACME ok")[::2], (101, b"\x81\x07ACME ok"))
    for status, cut in ((101, changed({})), (200, head_of(["GET /health HTTP/1.1", "Host: a"]))):
        checks.check(f"heads in two parts, those not answered {status}", cuts_without(checks.port, cut, status), [])


def cuts_without(port, head, status):
    """Where the head may be cut so that its two parts are not answered with that status."""
    streams = [socket.create_connection(("127.0.0.1", port), timeout=5) for _ in head[1:]]
    for cut, stream in enumerate(streams, 1):
        stream.sendall(head[:cut])
    time.sleep(0.3)
    for cut, stream in enumerate(streams, 1):
        stream.sendall(head[cut:])
    wanted = f"HTTP/1.1 {status} ".encode()
    answers = [stream.recv(4096) for stream in streams]
    for stream in streams:
        stream.close()
    return [(cut, answer) for cut, answer in enumerate(answers, 1) if not answer.startswith(wanted)]


def check_breaches(checks):
    for code, what, sent in BREACHES:
        status, _, rest = exchange(checks.port, changed({}), sent)
        checks.check(what, (status, close_code(rest)), (101, code))


def check_at_once(checks):
    """Heads that come at once are answered without a wait."""
    paths = "/operator/ACME", "/operator/BETA"
    heads = [changed({STATION: f"GET {path} HTTP/1.1"}) for path in paths * 32]
    with checks.serve("--operators", "ACME,BETA"):
        streams = [socket.create_connection(("127.0.0.1", checks.port), timeout=10) for _ in heads]
        began = time.monotonic()
        for stream, head in zip(streams, heads):
            stream.sendall(head)
        answered = [b" 101 " in stream.recv(4096) for stream in streams]
        checks.check("64 handshakes", answered, [True] * 64)
        checks.check("64 handshakes in less than a second", time.monotonic() - began < 1, True)


def check_heads(checks):
    check_at_once(checks)
    with checks.serve("--operators", "ACME,BETA", "--origin", ORIGINS):
        Peer(checks.port, "/operator/ACME").ask("station add CP01 Accepted 300")
        beta = [Peer(checks.port, "/operator/BETA") for _ in range(32)]
        check_plain(checks)
        check_refused(checks)
        check_admitted(checks)
        check_tolerant(checks)
        check_segments(checks)
        check_breaches(checks)
        checks.check("the others are there", [peer.ask("list tags") for peer in beta[:1]], ["BETA ok"])
