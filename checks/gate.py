#!/usr/bin/env python3
"""The test command: proves every crate, and runs every test.

    python3 checks/gate.py             `rt ci`, and the test programs in tests/
    python3 checks/gate.py --program   also what checks the files that are kept, the console and the built program

The last line is `N passed, M failed, K skipped`, over all steps. A step that prints no such line counts as one. What a
step skips it names in a line `skipped: WHAT: WHY`. The steps after one that fails are skipped. Before the last line come
what each step took, what the prover of each dear crate took, and all that was skipped.
"""

import os
import re
import subprocess
import sys
import time
from pathlib import Path

from provers import Provers

ROOT = Path(__file__).resolve().parent.parent
PROGRAM = "crates/central/out/central"
CONSOLE = ["python3", "console/check.py"]
COUNTS = re.compile(r"^(\d+) passed, (\d+) failed\b")
SKIPPED = re.compile(r"^skipped: (.*)")
# Crates whose provers take fewer seconds aren't told.
DEAR = 60

FILES = [
    # whether docs/MODEL.md lists the definitions as they stand
    ["python3", "docs/model.py", "--check"],
    # whether the wrong bodies that rt ci doesn't try can be applied, and were refused of each crate as it stands
    ["python3", "checks/wrong_bodies.py", "--check"],
]
TESTS = [["rt", "ci"], ["python3", "tests/run.py"]]
OF_PROGRAM = [
    # the scripts over files, files of earlier versions, and which databases are taken
    ["python3", "checks/files.py", PROGRAM],
    # how frames of hostile stations are answered
    ["python3", "checks/hostile.py", PROGRAM],
    # what is served over a full disk
    ["python3", "checks/full_disk.py", PROGRAM],
    ["python3", "checks/full_disk.py", PROGRAM, "--commit", "each"],
    # what is on record after a stop at a call on a file
    ["python3", "checks/stops.py", PROGRAM, "--small"],
    # what is told where the disk fails, and where changes are gone
    ["python3", "checks/hurt.py", PROGRAM],
    # what is on record after kills
    ["python3", "checks/kills.py", PROGRAM, "20"],
    ["python3", "checks/kills.py", PROGRAM, "10", "2", "--commit", "each"],
    # what a server writes to its journal, and what a standby makes of it
    ["python3", "checks/standby.py", PROGRAM, "10"],
    ["python3", "checks/standby.py", PROGRAM, "5", "2", "--commit", "each"],
    # how the server tells what it does, what it bounds, and how it ends
    ["python3", "checks/serving.py", PROGRAM],
    # the program's statuses and texts, and sessions over sockets
    ["python3", "checks/programs.py", PROGRAM],
    # what one operator's connections cost another's stations
    ["python3", "checks/load.py", PROGRAM, "--small"],
    # a new operator's first steps: the scripts first-look and tools/stations.py
    ["python3", "checks/first_steps.py", PROGRAM],
    # a session on the page, over the program
    [*CONSOLE, "--program", PROGRAM],
]


class Step:
    """A step that was run: how many passed and failed, what was skipped, and what it took."""

    def __init__(self, words):
        """Runs it. It prints what it has to say as it goes."""
        self.name, self.skipped, counts, begun = " ".join(words), [], None, time.monotonic()
        print(f"$ {self.name}", flush=True)
        step = subprocess.Popen(words, cwd=ROOT, stdout=subprocess.PIPE, text=True, errors="replace")
        provers = Provers(step.pid)
        provers.start()
        for line in step.stdout:
            print(line, end="", flush=True)
            counts = COUNTS.match(line) or counts
            self.skipped += SKIPPED.findall(line)
        _, ended, usage = os.wait4(step.pid, 0)
        step.returncode = os.WEXITSTATUS(ended) if os.WIFEXITED(ended) else -os.WTERMSIG(ended)
        self.crates = provers.stop()
        self.clock, self.processor, self.memory = time.monotonic() - begun, usage.ru_utime + usage.ru_stime, usage.ru_maxrss << 10
        self.passed, failed = map(int, counts.groups()) if counts else (int(step.returncode == 0), 0)
        self.failed = failed or int(step.returncode != 0)
        print(f"{self.name}: status {step.returncode}, {self.clock:.0f} s", flush=True)


def tell_costs(steps):
    print("Processor, clock, and the memory of the largest process:")
    for step in steps:
        print(f"{step.processor:9,.0f} s {step.clock:7,.0f} s {step.memory / 1e9:6.1f} GB  {step.name}")
    print(f"{sum(step.processor for step in steps):9,.0f} s {sum(step.clock for step in steps):7,.0f} s            all")
    for crate, seconds, memory in (taken for step in steps for taken in step.crates if taken[1] >= DEAR):
        print(f"{seconds:9,.0f} s           {memory / 1e9:6.1f} GB  the prover, {crate}")


def main():
    steps, skipped = [], []
    for words in [*FILES, CONSOLE, *TESTS, *OF_PROGRAM] if "--program" in sys.argv[1:] else TESTS:
        if steps and steps[-1].failed:
            skipped.append(f"{' '.join(words)}: a step before it failed")
            continue
        steps.append(Step(words))
        skipped += [f"{steps[-1].name}: {what}" for what in steps[-1].skipped]
    tell_costs(steps)
    print("".join(f"skipped: {what}\n" for what in skipped), end="")
    passed, failed = sum(step.passed for step in steps), sum(step.failed for step in steps)
    print(f"{passed} passed, {failed} failed, {len(skipped)} skipped")
    return 1 if failed else 0


if __name__ == "__main__":
    sys.exit(main())
