"""Runs commands over one script in turn, for some rounds, and prints the best of each: the lines
per second of processor time, the microseconds per line, the ratio to the last command's, and the
most memory that it was seen to hold. Processor time is what other work on the machine moves least.

    python3 bench/run.py script "crates/central/out/central replay --operators ACME,BETA" ["PEER .."]

With --less, `script` begins with the lines of another script, and what those take is taken off:
the figures are those of the lines behind them, and say little where the first lines take longer.

    python3 bench/run.py --less setup script ..
"""

import argparse
import os
import shlex
import subprocess
import sys
import threading


def watch_memory(pid, most, ended):
    """Keeps the peak of a process in MiB, which is to be had only while it runs."""
    while not ended.wait(0.005):
        with open(f"/proc/{pid}/status") as status:
            for line in status:
                if line.startswith("VmHWM:"):
                    most[0] = max(most[0], int(line.split()[1]) / 1024)


def measured(command, script):
    """The seconds of processor time, and the peak of the memory in MiB."""
    most, ended = [0.0], threading.Event()
    with open(script, "rb") as source:
        words = shlex.split(command)
        child = subprocess.Popen(words, stdin=source, stdout=subprocess.DEVNULL)
        watcher = threading.Thread(target=watch_memory, args=(child.pid, most, ended))
        watcher.start()
        os.waitid(os.P_PID, child.pid, os.WEXITED | os.WNOWAIT)
        ended.set()
        watcher.join()
        _, status, usage = os.wait4(child.pid, 0)
    if status != 0:
        sys.exit(f"{command}: status {status}")
    return usage.ru_utime + usage.ru_stime, most[0]


def best(rounds):
    spent, memory = zip(*rounds)
    return min(spent), max(memory)


def count_lines(script):
    with open(script, "rb") as source:
        return sum(1 for _ in source)


def main():
    parser = argparse.ArgumentParser()
    parser.add_argument("--rounds", type=int, default=5)
    parser.add_argument("--less")
    parser.add_argument("script")
    parser.add_argument("commands", nargs="+")
    wanted = parser.parse_args()
    whole = {command: [] for command in wanted.commands}
    front = {command: [(0.0, 0.0)] for command in wanted.commands}
    lines = count_lines(wanted.script)
    if wanted.less:
        lines -= count_lines(wanted.less)
        front = {command: [] for command in wanted.commands}
    for _ in range(wanted.rounds):
        for command in wanted.commands:
            whole[command].append(measured(command, wanted.script))
            if wanted.less:
                front[command].append(measured(command, wanted.less))
    found = []
    for command in wanted.commands:
        spent, memory = best(whole[command])
        less_spent, _ = best(front[command])
        found.append((command, (spent - less_spent) / lines * 1e6, memory))
    least = found[-1][1]
    for command, micros, memory in found:
        figures = f"{1e6 / micros:12,.0f} lines/s {micros:8.2f} us/line {micros / least:6.2f} x"
        print(f"{figures} {memory:8.1f} MiB  {command}")


if __name__ == "__main__":
    main()
