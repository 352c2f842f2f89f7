"""Measures what one operator takes of a server, and what others are left; also by versions without these bounds.

long    a station of A sends MeterValues of 20 KB in fragments of 16 bytes, without a pause: how long calls of 20 KB of
        a station of B wait, one after the other, for 60 s at most
reader  16 consoles of A read, but stay 0.5 MB behind, while another one lists 0.25 MB 16 times: the memory
calls   128 calls of 1 MB for 32 stations that answer none, by `replay`, where no time goes by, so that no call ends
bound   300 stations of A connect, of which 100 may (`--connections-per-operator`), and then 10 of B
log     10,000 connects are answered 404, and nobody reads standard error, a pipe

    TMPDIR=/dev/shm python3 bench/shares.py crates/central/out/central [--only long,log] [--port 9690]

For `reader` the system may hold little of what is sent, as in a network of its own:

    unshare -n sh -c 'ip link set lo up; echo "4096 16384 131072" > /proc/sys/net/ipv4/tcp_wmem; exec python3 ..'
"""

import argparse
import collections
import contextlib
import multiprocessing
import os
import re
import select
import socket
import subprocess
import sys
import tempfile
import threading
import time
from pathlib import Path

sys.path.insert(0, str(Path(__file__).resolve().parent.parent / "checks"))

from connections import resident  # noqa: E402
from harness import wait_for  # noqa: E402
from loads import METER_VALUES  # noqa: E402
from peer import BOOT, HEAD, Peer, frame  # noqa: E402

METER = METER_VALUES % '{"value":"%s"}'
TRANSFER = '{"vendorId":"V","data":"%s"}'
SET_UP = [("station add ", " Accepted 300"), ("connect ", ""), ("frame ", f" {BOOT}")]
BOUND = "--connections-per-operator"


class Bench:
    def __init__(self, given, folder):
        self.program, self.folder, self.port = given.program, folder, given.port

    @contextlib.contextmanager
    def serve(self, *words, errors=subprocess.DEVNULL, stations=1):
        """A server over a new file, on a port of its own, with so many stations of each operator. It is ended later."""
        self.port += 1
        words = ["--port", str(self.port), "--db", f"{self.folder}/{self.port}", "--operators", "A,B", *words]
        server = subprocess.Popen([self.program, "serve", *words], stderr=errors)
        try:
            wait_for(self.port)
            for operator in "AB":
                console = Peer(self.port, f"/operator/{operator}", 60)
                for n in range(stations):
                    console.ask(f"station add CP{n:03} Accepted 300")
                console.stream.close()
            yield server
        finally:
            server.kill()
            server.wait()

    def booted(self, operator):
        station = Peer(self.port, f"/ocpp/{operator}/CP000", 60)
        station.ask(BOOT)
        return station

    def connect(self, path, patience=600):
        """What a connect is answered, and its stream, for which the system holds little."""
        stream = socket.socket()
        stream.settimeout(patience)
        stream.setsockopt(socket.SOL_SOCKET, socket.SO_RCVBUF, 65_536)
        stream.setsockopt(socket.IPPROTO_TCP, socket.TCP_MAXSEG, 1000)
        with contextlib.suppress(OSError):
            stream.connect(("127.0.0.1", self.port))
            stream.sendall(HEAD.format(path).encode())
            return stream.recv(4096)[9:12].decode(), stream
        return "nothing", stream


def pieces(text, size):
    """A text in fragments of so many bytes."""
    parts = [text[at : at + size] for at in range(0, len(text), size)]
    firsts = [0x01, *[0x00] * (len(parts) - 2), 0x80]
    return b"".join(map(frame, parts, firsts))


def flood(stream, data):
    """Sends that again and again, and reads what comes."""
    os.nice(10)
    stream.setblocking(False)
    left = memoryview(data)
    while True:
        reads, writes, _ = select.select([stream], [stream], [])
        if reads and not stream.recv(65_536):
            return
        if writes:
            left = left[stream.send(left) :] or memoryview(data)


def measure_long(bench):
    with bench.serve():
        data = pieces(METER % ("1" * 20_000), 16)
        process = multiprocessing.Process(target=flood, args=(bench.booted("A").stream, data), daemon=True)
        station, waits = bench.booted("B"), []
        process.start()
        time.sleep(2)
        text, end = f'[2,"d","DataTransfer",{TRANSFER % ("x" * 20_000)}]', time.monotonic() + 60
        with contextlib.suppress(TimeoutError):
            while len(waits) < 50 and time.monotonic() < end:
                station.ask(text)
                waits.append(time.perf_counter() - station.sent_at)
        told = f"median {sorted(waits)[len(waits) // 2]:.2f} s, longest {max(waits):.2f} s" if waits else "none in 60 s"
        print(f"long: {len(waits)} calls answered, {told}")
        process.kill()


def read_late(stream, told):
    """Reads what was told but for the last bytes."""
    got = 0
    with contextlib.suppress(OSError):
        while True:
            if told[0] - got > 500_000:
                got += len(stream.recv(65_536))
            else:
                time.sleep(0.02)


def measure_reader(bench):
    with bench.serve() as server:
        console, station, told = Peer(bench.port, "/operator/A", 600).stream, bench.booted("A"), [0]
        for _ in range(5):
            station.ask(METER % ("1" * 50_000))
        for _ in range(16):
            threading.Thread(target=read_late, args=(bench.connect("/operator/A")[1], told), daemon=True).start()
        for _ in range(16):
            print(f"reader: {told[0] / 1e6:.2f} MB told, {resident(server):.0f} MiB of memory", flush=True)
            console.sendall(frame("list readings CP000"))
            last = b""
            while last != b"\x81\x04A ok":
                more = console.recv(1 << 20)
                told[0] += len(more)
                last = (last + more)[-6:]


def measure_calls(bench):
    words, path = ["replay", "--operators", "A", "--db", f"{bench.folder}/calls"], Path(bench.folder, "told")
    with path.open("wb") as told:
        replay = subprocess.Popen([bench.program, *words], stdin=subprocess.PIPE, stdout=told)
    for n in range(32):
        replay.stdin.write("".join(f"1 A {first}CP{n:03}{rest}\n" for first, rest in SET_UP).encode())
    data, noted = TRANSFER % ("x" * 1_000_000), []
    for count in range(128):
        # it is written once those before it are read
        replay.stdin.write(f"1 A call CP{count % 32:03} DataTransfer {data}\n".encode())
        replay.stdin.flush()
        noted.append(round(resident(replay)))
    replay.communicate()
    answers = collections.Counter(re.findall("^A (ok(?= )|refused .*)", path.read_text(), re.MULTILINE))
    print(f"calls: {dict(answers)}; MiB of memory after each 16: {noted[15::16]}")


def measure_bound(bench):
    told = subprocess.run([bench.program, "serve", "--help"], capture_output=True, text=True).stdout
    with bench.serve(*([BOUND, "100"] if BOUND in told else []), stations=300):
        paths = [f"{operator}/CP{n:03}" for operator, count in (("A", 300), ("B", 10)) for n in range(count)]
        found = [(path[0], *bench.connect(f"/ocpp/{path}")) for path in paths]
        print("bound:", dict(collections.Counter(f"{operator} {answer}" for operator, answer, _ in found)))


def measure_log(bench):
    _, writes = os.pipe()
    with bench.serve(errors=writes):
        count, answer = 0, "404"
        while count < 10_000 and answer == "404":
            answer, stream = bench.connect("/ocpp/A/CP999", 10)
            stream.close()
            count += answer == "404"
        print(f"log: {count:,} connects are answered 404, the last one {answer}")


def main():
    parser = argparse.ArgumentParser()
    parser.add_argument("program")
    parser.add_argument("--only", default="long,reader,calls,bound,log")
    parser.add_argument("--port", type=int, default=9690)
    given = parser.parse_args()
    with tempfile.TemporaryDirectory() as folder:
        for name in given.only.split(","):
            globals()[f"measure_{name}"](Bench(given, folder))


if __name__ == "__main__":
    main()
