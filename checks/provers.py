"""What the provers of a step take, by crate: seconds of processor, and the most memory of a process. They are read from
/proc once a second, so what a prover does in its last second is not counted.
"""

import collections
import contextlib
import os
import re
import threading
from pathlib import Path

EACH = 1
TICKS = os.sysconf("SC_CLK_TCK")
MOST_MEMORY = re.compile(r"^VmHWM:\s+(\d+) kB$", re.MULTILINE)


class Provers(threading.Thread):
    """Watches the provers below a process, until it is stopped."""

    def __init__(self, process):
        super().__init__(daemon=True)
        self.process, self.is_over = process, threading.Event()
        # by a process's number and its begin
        self.crates, self.seconds, self.memory = {}, {}, {}

    def run(self):
        while not self.is_over.wait(EACH):
            running = dict(filter(None, map(stat_of, Path("/proc").glob("[0-9]*"))))
            for number, (_, begun, seconds) in running.items():
                if is_below(number, self.process, running):
                    self.look((number, begun), seconds)

    def look(self, prover, seconds):
        folder = Path("/proc", str(prover[0]))
        with contextlib.suppress(FileNotFoundError, ProcessLookupError):
            if prover not in self.crates and (crate := crate_of(folder)):
                self.crates[prover] = crate
            if prover in self.crates and (memory := MOST_MEMORY.search((folder / "status").read_text())):
                self.seconds[prover], self.memory[prover] = seconds, int(memory[1]) << 10

    def stop(self):
        """The crates, the dearest first: name, seconds, and the most bytes of a process."""
        self.is_over.set()
        self.join()
        seconds, memory = collections.Counter(), collections.Counter()
        for prover, crate in self.crates.items():
            seconds[crate] += self.seconds.get(prover, 0)
            memory[crate] = max(memory[crate], self.memory.get(prover, 0))
        return [(crate, spent, memory[crate]) for crate, spent in seconds.most_common()]


def stat_of(folder):
    """The number of a process, and its parent, its begin and its seconds of processor, if it is still there."""
    try:
        words = (folder / "stat").read_text().rsplit(")", 1)[1].split()
    except OSError:
        return None
    return int(folder.name), (int(words[1]), words[19], (int(words[11]) + int(words[12])) / TICKS)


def is_below(number, process, running):
    """Whether a process was begun by that one, or by one below it."""
    while number in running and number != process:
        number = running[number][0]
    return number == process


def crate_of(folder):
    """The crate that a process proves, if it is a prover. `rt` tries a wrong body in a folder rt-edit-.."""
    words = (folder / "cmdline").read_bytes().split(b"\0")
    if not words[0].endswith(b"/rattle") or b"--crate-name" not in words:
        return None
    name = words[words.index(b"--crate-name") + 1].decode()
    place = Path(os.readlink(folder / "cwd")).name
    return f"{name}, wrong bodies" if place.startswith("rt-edit-") else name
