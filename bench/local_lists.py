"""Writes a script of local lists: a station takes over a list, and changes of every second entry.

    python3 bench/local_lists.py --entries 10000 --updates 20 > script
"""

import random

from heartbeats import OPERATORS, START, lines as booted, write_script


def update(version, kind, entries):
    return f'{{"listVersion":{version},"localAuthorizationList":[{",".join(entries)}],"updateType":"{kind}"}}'


def lines(entries, updates):
    yield from booted(1, 0)
    tags = [f"{place:06}" for place in range(entries)]
    random.Random(1).shuffle(tags)
    known = [f'{{"idTag":"{tag}","idTagInfo":{{"status":"Accepted"}}}}' for tag in tags]
    for place in range(updates):
        kind, sent = ("Differential", known[::2]) if place % 2 else ("Full", known)
        yield f"{START} {OPERATORS[0]} call CP00000 SendLocalList {update(place + 1, kind, sent)}"
        yield f'{START} {OPERATORS[0]} frame CP00000 [3,"{place + 1}",{{"status":"Accepted"}}]'


if __name__ == "__main__":
    write_script(lines, entries=10_000, updates=20)
