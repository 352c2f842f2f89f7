#!/usr/bin/env python3
"""Carries a journal through a stream of NATS JetStream, which three servers keep.

    tail -c +1 -F JOURNAL | python3 tools/journal_relay.py publish --servers HOST:PORT,.. --stream NAME --source SOURCE
    python3 tools/journal_relay.py read --servers HOST:PORT,.. --stream NAME | central follow --journal - ..

`publish` appends what comes on standard input, from the first byte of a journal on, to the stream, which is made with
three replicas if there is none. Each message has the number that the stream is to have then, so that of two publishers
one is refused. The stream keeps with each message whose it is (SOURCE) and how many bytes of the journal it ends at: a
publisher that is started again goes on behind the last of them. Where the last message is of another source, `--after N`
says that this journal goes on behind the message N of the other; without it that is refused.

`read` writes the bytes of all messages to standard output, from the first on or from `--from N`, and waits for more. It
ends where --while PID is gone and no more messages come, and with any other end of its input. `last` prints the number and
the source of the last message.

Status 0: its input has ended. 3: the stream is another's, or a message is missing. 2: no server could be reached for a
minute. It needs nothing but Python. Neither TLS nor passwords: the servers of NATS are reached on loopback or over a
private network.
"""

import argparse
import base64
import json
import os
import select
import socket
import sys
import time

# the most bytes of a message; JetStream takes 1 MiB
LONGEST = 262_144
# how long an answer is waited for, and how long a server is looked for
ANSWER_SECONDS, SEARCH_SECONDS = 5, 60
# how often a reader looks for the next message
LOOK_SECONDS = 0.01
NO_MESSAGE, NO_STREAM, STREAM_EXISTS = 10037, 10059, 10058


class Refused(Exception):
    """What the stream says is no fault of the connection."""


class Connection:
    """A connection to a server of NATS, on which requests are answered one by one."""

    def __init__(self, address):
        host, port = address.rsplit(":", 1)
        self.socket = socket.create_connection((host, int(port)), timeout=ANSWER_SECONDS)
        self.socket.setsockopt(socket.IPPROTO_TCP, socket.TCP_NODELAY, 1)
        self.input = self.socket.makefile("rb")
        self.line()
        self.inbox = f"_INBOX.{os.urandom(12).hex()}"
        options = {"verbose": False, "pedantic": False, "headers": True, "no_responders": True, "lang": "python", "version": "1"}
        self.socket.sendall(f"CONNECT {json.dumps(options)}\r\nSUB {self.inbox} 1\r\nPING\r\n".encode())
        while self.line() != b"PONG":
            pass

    def line(self):
        line = self.input.readline()
        if not line.endswith(b"\r\n"):
            raise OSError("the connection has ended")
        if line.startswith(b"-ERR"):
            raise OSError(line.decode().strip())
        return line[:-2]

    def ask(self, subject, data, headers=None):
        """The answer to a request, as JSON."""
        if headers:
            head = "NATS/1.0\r\n" + "".join(f"{name}: {value}\r\n" for name, value in headers.items()) + "\r\n"
            start = f"HPUB {subject} {self.inbox} {len(head)} {len(head) + len(data)}\r\n{head}".encode()
        else:
            start = f"PUB {subject} {self.inbox} {len(data)}\r\n".encode()
        self.socket.sendall(start + data + b"\r\n")
        while True:
            words = self.line().split(b" ")
            if words[0] == b"PING":
                self.socket.sendall(b"PONG\r\n")
            if words[0] in (b"MSG", b"HMSG"):
                body = self.input.read(int(words[-1]) + 2)[:-2]
                if words[0] == b"HMSG":
                    raise OSError(f"no answer: {body[: int(words[-2])].decode().strip()}")
                return json.loads(body)


class Stream:
    """A stream, by whichever of its servers answers."""

    def __init__(self, servers, name):
        self.servers, self.name = servers, name
        self.connection = None

    def ask(self, subject, data, headers=None):
        """The answer to a request, which may be made twice where a connection ends."""
        end = time.monotonic() + SEARCH_SECONDS
        while True:
            try:
                if not self.connection:
                    self.connection = Connection(self.servers[0])
                answer = self.connection.ask(subject, data, headers)
                # a stream whose leader isn't elected
                if answer.get("error", {}).get("code") != 503:
                    return answer
            except (OSError, ValueError) as error:
                self.connection = None
                self.servers = [*self.servers[1:], self.servers[0]]
                if time.monotonic() > end:
                    sys.exit(say(f"no server of NATS answers: {error}", 2))
            time.sleep(0.05)

    def make(self):
        replicas = min(3, len(self.servers))
        config = {"name": self.name, "subjects": [self.name], "num_replicas": replicas, "storage": "file", "retention": "limits"}
        error = self.ask(f"$JS.API.STREAM.CREATE.{self.name}", json.dumps(config).encode()).get("error")
        if error and error.get("err_code") != STREAM_EXISTS:
            raise Refused(error.get("description"))

    def get(self, what):
        """A message: its number, its headers and its bytes, or `None` where there is none."""
        answer = self.ask(f"$JS.API.STREAM.MSG.GET.{self.name}", json.dumps(what).encode())
        error = answer.get("error")
        if error:
            if error.get("err_code") in (NO_MESSAGE, NO_STREAM):
                return None
            raise Refused(error.get("description"))
        message = answer["message"]
        head = base64.b64decode(message.get("hdrs", "")).decode()
        headers = dict(line.split(": ", 1) for line in head.split("\r\n") if ": " in line)
        return message["seq"], headers, base64.b64decode(message.get("data", ""))

    def last(self):
        """The number of the last message, its source, and how many bytes of its journal it ends at."""
        message = self.get({"last_by_subj": self.name})
        if not message:
            return 0, "", 0
        return message[0], message[1].get("Source", ""), int(message[1].get("End", 0))

    def append(self, data, source, end, before):
        """Appends bytes as the message behind that number. Its number."""
        headers = {"Nats-Expected-Last-Sequence": before, "Source": source, "End": end}
        answer = self.ask(self.name, data, headers)
        error = answer.get("error")
        if not error:
            return answer["seq"]
        # an answer may have been lost, and the message be there
        number, whose, bytes_there = self.last()
        if (number, whose, bytes_there) == (before + 1, source, end):
            return number
        raise Refused(f"{error.get('description')}: the last message is {number}, of {whose}")


def say(text, status):
    print(f"journal_relay: {text}", file=sys.stderr)
    return status


def publish(stream, options):
    stream.make()
    number, whose, end = stream.last()
    if whose not in ("", options.source):
        if options.after != number:
            raise Refused(f"the last message is {number}, of {whose}: --after {number} goes on behind it")
        end = 0
    skipped = end
    while data := os.read(0, LONGEST):
        passed = min(skipped, len(data))
        skipped -= passed
        data = data[passed:]
        if data:
            end += len(data)
            number = stream.append(data, options.source, end, number)
    return 0


def is_gone(process):
    try:
        os.kill(process, 0)
    except ProcessLookupError:
        return True
    return False


def read(stream, options):
    number = options.first
    out = select.poll()
    out.register(1, select.POLLERR | select.POLLHUP)
    while True:
        was_gone = options.process is not None and is_gone(options.process)
        message = stream.get({"seq": number})
        if message:
            sys.stdout.buffer.write(message[2])
            sys.stdout.buffer.flush()
            number += 1
        elif stream.last()[0] >= number:
            # it may have come since
            if not stream.get({"seq": number}):
                raise Refused(f"message {number} is gone")
        elif was_gone or out.poll(0):
            return 0
        else:
            time.sleep(LOOK_SECONDS)


def last(stream, _options):
    number, whose, end = stream.last()
    print(number, whose or "-", end)
    return 0


def main():
    parser = argparse.ArgumentParser(description=__doc__, formatter_class=argparse.RawDescriptionHelpFormatter)
    parser.add_argument("what", choices=["publish", "read", "last"])
    parser.add_argument("--servers", required=True, help="HOST:PORT of each server, with commas between them")
    parser.add_argument("--stream", required=True, help="the name of the stream, of letters and digits")
    parser.add_argument("--source", default="", help="whose journal is published, such as the name of the machine")
    parser.add_argument("--after", type=int, help="the message of another source behind which this journal goes on")
    parser.add_argument("--from", dest="first", type=int, default=1, help="the first message that is read")
    parser.add_argument("--while", dest="process", type=int, help="the process with whose end reading ends")
    options = parser.parse_args()
    if options.what == "publish" and not options.source:
        parser.error("publish needs --source")
    stream = Stream(options.servers.split(","), options.stream)
    try:
        sys.exit({"publish": publish, "read": read, "last": last}[options.what](stream, options))
    except Refused as refused:
        sys.exit(say(refused, 3))
    except BrokenPipeError:
        sys.exit(0)


if __name__ == "__main__":
    main()
