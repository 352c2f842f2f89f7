"""Writes a script of connects: stations are added, and then connect in a shuffled order, so many of them.

    python3 bench/connects.py --stations 10000 --connects 10000 > script
"""

import random

from heartbeats import OPERATORS, START, write_script


def lines(stations, connects):
    named = [(OPERATORS[i % 2], f"CP{i:05}") for i in range(stations)]
    for operator, station in named:
        yield f"{START} {operator} station add {station} Accepted 300"
    random.Random(1).shuffle(named)
    for operator, station in named[:connects]:
        yield f"{START} {operator} connect {station}"


if __name__ == "__main__":
    write_script(lines, stations=10_000, connects=10_000)
