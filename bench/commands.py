"""Writes a script of commands: stations boot, and then each is sent a command and answers it, in turn.

    python3 bench/commands.py --stations 100 --commands 50000 > script
"""

from heartbeats import OPERATORS, START, lines as booted, write_script


def lines(stations, commands):
    yield from booted(stations, 0)
    for place in range(commands):
        operator, station = OPERATORS[place % stations % 2], f"CP{place % stations:05}"
        moment, number = START + place // stations, place // stations + 1
        yield f"{moment} {operator} call {station} ClearCache {{}}"
        yield f'{moment} {operator} frame {station} [3,"{number}",{{"status":"Accepted"}}]'


if __name__ == "__main__":
    write_script(lines, stations=100, commands=50_000)
