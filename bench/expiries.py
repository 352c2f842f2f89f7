"""Writes a script of ticks that end calls: stations connect, each has so many calls, and each tick ends one a station.

    python3 bench/expiries.py --stations 10000 --calls 2 > script
"""

from heartbeats import START, lines as booted, write_script
from ticks import calls as calls_to_all


def lines(stations, calls):
    yield from booted(stations, 0)
    for _ in range(calls):
        yield from calls_to_all(stations)
    for tick in range(calls):
        yield f"{START + 30 * (tick + 1)} * tick"


if __name__ == "__main__":
    write_script(lines, stations=10_000, calls=2)
