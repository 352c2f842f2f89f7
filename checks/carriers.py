"""How a journal comes to a standby: over a pipe, over ssh, and through a stream of NATS JetStream on three servers.

In each way a server with a journal serves fifty stations that charge; it is killed at a random moment, the standby serves
what has come, and every start and stop that a station was answered is on record there. With NATS one of its three servers
is killed on the way; then the standby's journal goes on in the stream, and the first server, which begins again, is ended
once its own journal is refused there.

    python3 checks/carriers.py crates/central/out/central [SEED]

It needs nats-server, and ssh and sshd, which listens on loopback with keys of its own. A way whose commands are missing is
skipped.
"""

import contextlib
import os
import random
import shutil
import signal
import subprocess
import sys
import tempfile
import threading
import time
from pathlib import Path

from harness import Counts, begun, path_of
from peer import BOOT, Peer
from standby import ended, listening_for, words

PRIMARY, STANDBY = 9291, 9292
SSH_PORT = 9293
NATS_PORTS = (9294, 9295, 9296)
CLUSTER_PORTS = (9297, 9298, 9299)
STATIONS = [f"CP{number:02}" for number in range(1, 51)]
TIME = "2026-01-01T00:00:00Z"
RELAY = Path(__file__).resolve().parent.parent / "tools/journal_relay.py"


class Charging(threading.Thread):
    """A station that begins and ends transactions, and keeps what it was answered."""

    def __init__(self, name):
        super().__init__()
        self.name = name
        self.started, self.stopped = [], []

    def run(self):
        with contextlib.suppress(SystemExit, OSError):
            peer = Peer(PRIMARY, f"/ocpp/ACME/{self.name}")
            peer.ask(BOOT)
            while True:
                fields = f'"connectorId":1,"idTag":"TAG","meterStart":0,"timestamp":"{TIME}"'
                answer = peer.ask(f'[2,"1","StartTransaction",{{{fields}}}]')
                number = int(answer.split('"transactionId":')[1].split("}")[0].split(",")[0])
                self.started.append(number)
                fields = f'"connectorId":1,"transactionId":{number},"meterValue":[{{"timestamp":"{TIME}","sampledValue":[{{"value":"5"}}]}}]'
                peer.ask(f'[2,"2","MeterValues",{{{fields}}}]')
                fields = f'"transactionId":{number},"meterStop":10,"timestamp":"{TIME}"'
                peer.ask(f'[2,"3","StopTransaction",{{{fields}}}]')
                self.stopped.append(number)
                time.sleep(0.01)


class Carriers(Counts):
    def __init__(self, program, seed):
        self.program = os.path.abspath(program)
        self.random = random.Random(seed)

    def check(self, what, passes, seen=""):
        self.passed += bool(passes)
        self.failed += not passes
        if not passes:
            print(f"FAILED {what}: {seen}")

    def serve(self, folder, name, port, *more, **options):
        """A server of that name, with a journal."""
        files = ["--journal", f"{folder}/{name}.journal", "--stop-file", f"{folder}/{name}.stop"]
        return subprocess.Popen(words(self.program, port, f"{folder}/{name}.db", *files, *more), **options)

    def day(self, what, carrier):
        """Stations charge at a server, which is killed; what they were answered is at the standby. `carrier` begins what
        carries a journal while a process runs, and gives the commands whose output is the standby's input."""
        with tempfile.TemporaryDirectory() as folder, carrier(folder) as carried:
            primary = begun(self.serve(folder, "primary", PRIMARY), PRIMARY)
            desk = Peer(PRIMARY, "/operator/ACME")
            desk.ask("tag put TAG - 0 -")
            for name in STATIONS:
                desk.ask(f"station add {name} Accepted 300")
            source = carried.begin(f"{folder}/primary.journal", primary.pid)
            standby = self.serve(folder, "standby", STANDBY, "--follow", "-", stdin=source.stdout)
            stations = [Charging(name) for name in STATIONS]
            for station in stations:
                station.start()
            time.sleep(self.random.uniform(1, 2))
            carried.hurt()
            time.sleep(self.random.uniform(1, 2))
            self.check(f"{what}: it doesn't serve yet", not list(listening_for(STANDBY)))
            killed = time.monotonic()
            ended(primary)
            for station in stations:
                station.join()
            begun(standby, STANDBY)
            self.look(what, stations)
            took = time.monotonic() - killed
            starts = sum(len(station.started) for station in stations)
            print(f"{what}: {starts} starts answered; served and compared {took:.1f} s after the kill")
            carried.fence(self, folder)
            ended(standby)

    def look(self, what, stations):
        desk = Peer(STANDBY, "/operator/ACME")
        for station in stations:
            rows = [line.split(" ") for line in desk.lines("1", f"list transactions {station.name}")]
            rows = [row for row in rows if row[1:3] == ["row", "transaction"]]
            on_record = {int(row[4]): row for row in rows}
            starts = [number for number in station.started if number not in on_record]
            self.check(f"{what}: starts of {station.name}", station.started and not starts, (starts, rows[:1]))
            stops = [number for number in station.stopped if "10" not in on_record.get(number, [])]
            self.check(f"{what}: stops of {station.name}", not stops, (stops, rows[:1]))


class Carried:
    """What carries a journal. It is left as it is on the way."""

    def hurt(self):
        pass

    def fence(self, checks, folder):
        pass


class Pipe(Carried):
    def begin(self, journal, process):
        return subprocess.Popen(["tail", f"--pid={process}", "-c", "+1", "-F", journal], stdout=subprocess.PIPE)


@contextlib.contextmanager
def pipe(_folder):
    yield Pipe()


class Ssh(Carried):
    def __init__(self, folder):
        self.folder = folder

    def begin(self, journal, process):
        remote = f"tail --pid={process} -c +1 -F {journal}"
        options = ["StrictHostKeyChecking=no", "UserKnownHostsFile=/dev/null", "LogLevel=ERROR", "ServerAliveInterval=5"]
        flags = [word for option in options for word in ("-o", option)]
        command = ["ssh", "-p", str(SSH_PORT), "-i", f"{self.folder}/key", *flags, "127.0.0.1", remote]
        return subprocess.Popen(command, stdin=subprocess.DEVNULL, stdout=subprocess.PIPE)


@contextlib.contextmanager
def ssh(folder):
    for name in ("host", "key"):
        subprocess.run(["ssh-keygen", "-q", "-t", "ed25519", "-N", "", "-f", f"{folder}/{name}"], check=True)
    shutil.copy(f"{folder}/key.pub", f"{folder}/authorized")
    os.makedirs("/run/sshd", exist_ok=True)
    lines = [f"Port {SSH_PORT}", "ListenAddress 127.0.0.1", f"HostKey {folder}/host", f"AuthorizedKeysFile {folder}/authorized"]
    lines += ["StrictModes no", "PidFile none", "UsePAM no"]
    Path(folder, "sshd").write_text("\n".join(lines) + "\n")
    with server([path_of("sshd"), "-D", "-e", "-f", f"{folder}/sshd"], SSH_PORT):
        yield Ssh(folder)


class Nats(Carried):
    def __init__(self, folder, servers):
        self.folder, self.servers = folder, servers
        addresses = ",".join(f"127.0.0.1:{port}" for port in NATS_PORTS)
        self.relay = [sys.executable, str(RELAY), "--servers", addresses, "--stream", "doxeguir"]

    def publish(self, journal, process, *more):
        tail = subprocess.Popen(["tail", f"--pid={process}", "-c", "+1", "-F", journal], stdout=subprocess.PIPE)
        return subprocess.Popen([*self.relay, "publish", *more], stdin=tail.stdout, stderr=subprocess.PIPE)

    def begin(self, journal, process):
        self.publisher = self.publish(journal, process, "--source", "primary")
        while self.last()[0] == "0":
            time.sleep(0.05)
        reads = [*self.relay, "read", "--while", str(self.publisher.pid)]
        reader = subprocess.Popen(reads, stdout=subprocess.PIPE)
        # a process that has ended is gone once it is waited for
        threading.Thread(target=self.publisher.wait).start()
        return reader

    def last(self):
        return subprocess.run([*self.relay, "last"], stdout=subprocess.PIPE, check=True).stdout.decode().split()

    def hurt(self):
        """One of the three servers ends."""
        self.servers[0].send_signal(signal.SIGKILL)

    def fence(self, checks, folder):
        """The standby's journal goes on in the stream, and the first server is ended."""
        number, source, _end = self.last()
        checks.check("the stream", source == "primary", source)
        journals = {name: f"{folder}/{name}.journal" for name in ("primary", "standby")}
        one = self.publish(journals["standby"], os.getpid(), "--source", "standby", "--after", number)
        while self.last()[1] != "standby":
            time.sleep(0.05)
        primary = begun(checks.serve(folder, "primary", PRIMARY), PRIMARY)
        other = self.publish(journals["primary"], primary.pid, "--source", "primary")
        other.wait(timeout=20)
        says = other.stderr.read().decode()
        checks.check("the first server's journal", other.returncode == 3 and ", of standby" in says, (other.returncode, says))
        Path(f"{folder}/primary.stop").touch()
        primary.wait(timeout=20)
        checks.check("the first server is ended", primary.returncode == 0, primary.returncode)
        # two that append at once: one of them is refused
        late = self.publish(journals["standby"], os.getpid(), "--source", "late", "--after", self.last()[0])
        Peer(STANDBY, "/operator/ACME").ask("tag put LATE - 0 -")
        time.sleep(1)
        codes = [one.poll(), late.poll()]
        checks.check("one of two publishers", sorted(codes, key=str) == [3, None], codes)
        for process in (one, late):
            process.kill()


@contextlib.contextmanager
def nats(folder):
    routes = ", ".join(f"nats://127.0.0.1:{port}" for port in CLUSTER_PORTS)
    with contextlib.ExitStack() as stack:
        servers = []
        for place, (port, cluster) in enumerate(zip(NATS_PORTS, CLUSTER_PORTS)):
            lines = [f"server_name: n{place}", f"listen: 127.0.0.1:{port}", f"jetstream {{ store_dir: {folder}/nats{place} }}"]
            lines.append(f"cluster {{ name: doxeguir, listen: 127.0.0.1:{cluster}, routes: [{routes}] }}")
            Path(folder, f"nats{place}").mkdir()
            Path(folder, f"nats{place}.conf").write_text("\n".join(lines) + "\n")
            servers.append(stack.enter_context(server(["nats-server", "-c", f"{folder}/nats{place}.conf"], port)))
        yield Nats(folder, servers)


@contextlib.contextmanager
def server(command, port):
    """A server of others, once it listens."""
    process = subprocess.Popen(command, stdout=subprocess.DEVNULL, stderr=subprocess.DEVNULL)
    yield begun(process, port)
    process.kill()
    process.wait()


def main():
    checks = Carriers(sys.argv[1], sys.argv[2] if len(sys.argv) > 2 else "1")
    checks.day("a pipe", pipe)
    if checks.can("a journal over ssh", "ssh", "ssh-keygen", "sshd"):
        checks.day("ssh", ssh)
    if checks.can("a journal over NATS", "nats-server"):
        checks.day("NATS", nats)
    checks.end()


if __name__ == "__main__":
    main()
