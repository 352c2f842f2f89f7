"""Writes a script of questions for id tags: two operators put tags, half of them with a parent, and
stations of both ask for them in turn.

    python3 bench/authorizations.py --tags 2000 --stations 100 --asks 100000 > script
"""

import argparse
import sys

from heartbeats import OPERATORS, START, lines as stations_booted


def lines(tags, stations, asks):
    yield from stations_booted(stations, 0)
    for operator in OPERATORS:
        yield f"{START} {operator} tag put PARENT - 0 -"
    for i in range(tags):
        parent = "PARENT" if i // 2 % 2 else "-"
        yield f"{START} {OPERATORS[i % 2]} tag put TAG{i // 2:05} {parent} 0 -"
    for ask in range(asks):
        station = ask % stations
        tag = ask * 7919 % (tags // 2)
        yield (
            f"{START + ask // stations} {OPERATORS[station % 2]} frame CP{station:05} "
            f'[2,"{ask}","Authorize",{{"idTag":"tag{tag:05}"}}]'
        )


def main():
    parser = argparse.ArgumentParser()
    parser.add_argument("--tags", type=int, default=2_000)
    parser.add_argument("--stations", type=int, default=100)
    parser.add_argument("--asks", type=int, default=100_000)
    wanted = parser.parse_args()
    for line in lines(wanted.tags, wanted.stations, wanted.asks):
        sys.stdout.write(line + "\n")


if __name__ == "__main__":
    main()
