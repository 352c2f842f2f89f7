"""Writes a script of questions for id tags at stations of ACME, which owns them or, with --granted 1,
which BETA owns and granted to it.

    python3 bench/granted_tags.py --tags 10000 --granted 1 --asks 100000 > script
"""

from heartbeats import OPERATORS, START, lines as booted, write_script


def lines(tags, granted, asks):
    host, other = OPERATORS
    yield from booted(1, 0)
    owner = other if granted else host
    for tag in range(tags):
        yield f"{START} {owner} tag put TAG{tag:05} - 0 -"
    if granted:
        for tag in range(tags):
            yield f"{START} {owner} grant TAG{tag:05} {host} -"
    for ask in range(asks):
        yield f'{START} {host} frame CP00000 [2,"{ask}","Authorize",{{"idTag":"tag{ask * 7919 % tags:05}"}}]'


if __name__ == "__main__":
    write_script(lines, tags=10_000, granted=1, asks=100_000)
