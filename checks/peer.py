"""A client of the server: a station or an operator, over loopback, with Python's library alone."""

import socket
import sys
import time

HEAD = (
    "GET {} HTTP/1.1\r\nHost: 127.0.0.1\r\nUpgrade: websocket\r\nConnection: Upgrade\r\n"
    "Sec-WebSocket-Key: dGhlIHNhbXBsZSBub25jZQ==\r\nSec-WebSocket-Version: 13\r\n"
    "Sec-WebSocket-Protocol: ocpp1.6\r\n\r\n"
)

# What a station sends.
BOOT = '[2,"1","BootNotification",{"chargePointVendor":"V","chargePointModel":"M"}]'
HEARTBEAT = '[2,"2","Heartbeat",{}]'


def frame(text, first=0x81):
    """A text as a client sends it, with 0 as its masking key (RFC 6455, sections 5.2 and 5.3). Another first byte makes
    a part of a text or a ping of it."""
    payload = text.encode()
    size = len(payload)
    if size < 126:
        length = bytes([0x80 | size])
    else:
        length = b"\xfe" + size.to_bytes(2, "big") if size < 65536 else b"\xff" + size.to_bytes(8, "big")
    return bytes([first]) + length + b"\0\0\0\0" + payload


# The first byte of a close frame.
CLOSE = 0x88


class Peer:
    """One connection. Its texts are read whole. A read in which nothing comes for the seconds of its patience fails."""

    def __init__(self, port, path, patience=10):
        self.stream = socket.create_connection(("127.0.0.1", port), timeout=patience)
        self.stream.setsockopt(socket.IPPROTO_TCP, socket.TCP_NODELAY, 1)
        self.stream.sendall(HEAD.format(path).encode())
        self.data = b""
        while b"\r\n\r\n" not in self.data:
            self.read()
        head, self.data = self.data.split(b"\r\n\r\n", 1)
        if b" 101 " not in head:
            sys.exit(f"{path}: {head.decode()}")

    def read(self):
        data = self.stream.recv(65536)
        if not data:
            sys.exit("the server closed a connection")
        self.data += data

    def send(self, text):
        self.sent_at = time.perf_counter()
        self.stream.sendall(frame(text))

    def text(self):
        """The next text, if it is there."""
        if len(self.data) < 2:
            return None
        size, start = self.data[1] & 127, 2
        if size > 125:
            start = 4 if size == 126 else 10
            size = int.from_bytes(self.data[2:start], "big")
        if len(self.data) < start + size:
            return None
        first, text, self.data = self.data[0], self.data[start : start + size], self.data[start + size :]
        if first == CLOSE:
            sys.exit("the server closed a connection")
        return text.decode()

    def lines(self, word, text):
        """The lines that an order of an operator is answered, which has a word of its own."""
        self.send(f"#{word} {text}")
        while self.next() != f"#{word} begin":
            pass
        return list(iter(self.next, f"#{word} end"))

    def order(self, word, text):
        """The words of the last of these lines."""
        return self.lines(word, text)[-1].split(" ")

    def next(self):
        """The next text, as soon as it is there."""
        while (text := self.text()) is None:
            self.read()
        return text

    def ask(self, text):
        self.send(text)
        return self.next()


def close_code(peer):
    """The first byte of the next frame, and the code of a close frame in it."""
    while len(peer.data) < 4:
        peer.read()
    return peer.data[0], int.from_bytes(peer.data[2:4], "big")


def health(port):
    """The status line of a health check."""
    with socket.create_connection(("127.0.0.1", port), timeout=5) as stream:
        stream.sendall(b"GET /health HTTP/1.1\r\nHost: 127.0.0.1\r\n\r\n")
        return stream.recv(4096).decode().split("\r\n")[0]
