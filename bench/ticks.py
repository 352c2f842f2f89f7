"""Writes a script of ticks: stations boot, each has a call in flight, and no tick finds one that is due.

    python3 bench/ticks.py --stations 1000 --ticks 100000 > script
"""

from heartbeats import OPERATORS, START, lines as booted, write_script


def calls(stations):
    """A call to each station."""
    for place in range(stations):
        yield f"{START} {OPERATORS[place % 2]} call CP{place:05} ClearCache {{}}"


def lines(stations, ticks):
    yield from booted(stations, 0)
    yield from calls(stations)
    for _ in range(ticks):
        yield f"{START + 29} * tick"


if __name__ == "__main__":
    write_script(lines, stations=1000, ticks=100_000)
