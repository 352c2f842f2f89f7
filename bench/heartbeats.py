"""Writes a script of heartbeats: stations of two operators boot, and then beat in turn.

    python3 bench/heartbeats.py --stations 100 --beats 100000 > script
"""

import argparse
import sys

OPERATORS = ["ACME", "BETA"]
START = 1_704_067_200
BOOT = '{"chargePointModel":"M","chargePointVendor":"V"}'


def lines(stations, beats):
    named = [(OPERATORS[i % 2], f"CP{i:05}") for i in range(stations)]
    for operator, station in named:
        yield f"{START} {operator} station add {station} Accepted 300"
        yield f"{START} {operator} connect {station}"
        yield f'{START} {operator} frame {station} [2,"b","BootNotification",{BOOT}]'
    for beat in range(beats):
        operator, station = named[beat % stations]
        yield f'{START + beat // stations} {operator} frame {station} [2,"{beat}","Heartbeat",{{}}]'


def write_script(lines, **counts):
    """Writes the lines for some counts, each of which has an option of its name and this default."""
    parser = argparse.ArgumentParser()
    for name, count in counts.items():
        parser.add_argument(f"--{name}", type=int, default=count)
    for line in lines(**vars(parser.parse_args())):
        sys.stdout.write(line + "\n")


if __name__ == "__main__":
    write_script(lines, stations=100, beats=100_000)
