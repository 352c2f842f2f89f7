"""Writes a script of charging sessions: a start, five MeterValues of three readings, and a stop,
at stations of two operators in turn. With --history, that many transactions of other stations are
begun and stopped first, or with --own as well of the same stations.

    python3 bench/sessions.py --stations 100 --sessions 5000 > script
    python3 bench/sessions.py --stations 100 --sessions 570 --history 10000 > script
    python3 bench/sessions.py --stations 100 --sessions 0 --history 10000 > setup
"""

import argparse
import sys

from heartbeats import OPERATORS, START, lines as stations_booted

TIME = '"timestamp":"2024-01-01T00:00:00Z"'
SAMPLED = '{"value":"%d","unit":"Wh"},{"value":"230.1","unit":"V"},{"value":"16","unit":"A"}'


def frame(operator, station, number, action, payload):
    return f'{START} {operator} frame {station} [2,"{number}","{action}",{{{payload}}}]'


def started(operator, station, tag, meter):
    payload = f'"connectorId":1,"idTag":"{tag}","meterStart":{meter},{TIME}'
    return frame(operator, station, "s", "StartTransaction", payload)


def stopped(operator, station, tag, number, meter):
    payload = f'"idTag":"{tag}","meterStop":{meter},{TIME},"transactionId":{number}'
    return frame(operator, station, "e", "StopTransaction", payload)


def metered(operator, station, number, meter):
    values = f'"meterValue":[{{"sampledValue":[{SAMPLED % meter}],{TIME}}}]'
    payload = f'"connectorId":1,"transactionId":{number},{values}'
    return frame(operator, station, "m", "MeterValues", payload)


def old_stations(history):
    named = [(OPERATORS[i % 2], f"OLD{i:03}") for i in range(10)]
    for operator, station in named:
        yield f"{START} {operator} station add {station} Accepted 300"
        yield f"{START} {operator} connect {station}"
        boot = '"chargePointModel":"M","chargePointVendor":"V"'
        yield frame(operator, station, "b", "BootNotification", boot)
    yield from ended(named, history)


def ended(named, count):
    """So many transactions of those stations in turn, begun and stopped."""
    for i in range(count):
        operator, station = named[i % len(named)]
        number = i // len(named) + 1
        yield started(operator, station, f"OLD{i % 50}", i)
        yield stopped(operator, station, f"OLD{i % 50}", number, i + 1)


def lines(stations, sessions, history, own=False):
    for operator in OPERATORS:
        for i in range(50):
            yield f"{START} {operator} tag put OLD{i} - 0 -"
            yield f"{START} {operator} tag put TAG{i} - 0 -"
    yield from old_stations(0 if own else history)
    yield from stations_booted(stations, 0)
    named = [(OPERATORS[i % 2], f"CP{i:05}") for i in range(stations)]
    before = history if own else 0
    yield from ended(named, before)
    for session in range(before, before + sessions):
        operator, name = named[session % stations]
        number = session // stations + 1
        tag = f"TAG{session % 50}"
        yield started(operator, name, tag, session)
        for i in range(5):
            yield metered(operator, name, number, session + i)
        yield stopped(operator, name, tag, number, session + 9)


def main():
    parser = argparse.ArgumentParser()
    parser.add_argument("--stations", type=int, default=100)
    parser.add_argument("--sessions", type=int, default=5000)
    parser.add_argument("--history", type=int, default=0)
    parser.add_argument("--own", action="store_true")
    wanted = parser.parse_args()
    for line in lines(wanted.stations, wanted.sessions, wanted.history, wanted.own):
        sys.stdout.write(line + "\n")


if __name__ == "__main__":
    main()
