"""Prints what the same 570 sessions cost, in microseconds a line, with 100, 1,000 and 10,000 transactions on
record: of other stations, and of the one station whose sessions they are. A command reads the transactions
first; what it then takes is the processor time until it waits for more input. The best of some rounds.

    python3 bench/growth.py "crates/central/out/central replay --operators ACME,BETA" ["PEER .."]
"""

import argparse
import shlex
import subprocess
import time

import sessions

SESSIONS = 570
HISTORIES = (100, 1_000, 10_000)
CASES = {"other stations": (100, False), "the same station": (1, True)}


def time_of(pid):
    """The processor time of a process so far, in nanoseconds."""
    with open(f"/proc/{pid}/schedstat") as schedule:
        return int(schedule.read().split()[0])


def is_waiting(pid):
    with open(f"/proc/{pid}/stat") as status:
        return status.read().rsplit(")", 1)[1].split()[0] == "S"


def hand(child, lines):
    """Writes lines, and waits until the process waits for more."""
    child.stdin.write(lines)
    child.stdin.flush()
    last = -1
    while True:
        time.sleep(0.01)
        now = time_of(child.pid)
        if now == last and is_waiting(child.pid):
            return now
        last = now


def measured(command, front, tail):
    """The nanoseconds of the tail."""
    child = subprocess.Popen(shlex.split(command), stdin=subprocess.PIPE, stdout=subprocess.DEVNULL)
    before = hand(child, front)
    after = hand(child, tail)
    child.stdin.close()
    child.wait()
    return after - before


def text_of(lines):
    return "".join(line + "\n" for line in lines).encode()


def scripts(stations, history, own):
    front = text_of(sessions.lines(stations, 0, history, own))
    whole = text_of(sessions.lines(stations, SESSIONS, history, own))
    return front, whole[len(front) :]


def main():
    parser = argparse.ArgumentParser()
    parser.add_argument("--rounds", type=int, default=5)
    parser.add_argument("commands", nargs="+")
    wanted = parser.parse_args()
    for name, (stations, own) in CASES.items():
        found = {command: {} for command in wanted.commands}
        made = {history: scripts(stations, history, own) for history in HISTORIES}
        for _ in range(wanted.rounds):
            for history, (front, tail) in made.items():
                for command in wanted.commands:
                    micros = measured(command, front, tail) / 1e3 / (7 * SESSIONS)
                    found[command][history] = min(micros, found[command].get(history, micros))
        for command, micros in found.items():
            figures = "  ".join(f"{history:6,}: {micros[history]:6.2f} us" for history in HISTORIES)
            growth = micros[HISTORIES[-1]] / micros[HISTORIES[0]]
            print(f"{name:18} {figures}  growth {growth:5.2f}  {command}")


if __name__ == "__main__":
    main()
