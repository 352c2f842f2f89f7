"""Writes a script of new id tags of two operators in turn, in the order of their keys or shuffled.

    python3 bench/tags.py --puts 100000 > script
    python3 bench/tags.py --puts 100000 --shuffled 1 > script
"""

import random

from heartbeats import OPERATORS, START, write_script


def lines(puts, shuffled):
    places = list(range(puts))
    if shuffled:
        random.Random(1).shuffle(places)
    for place in places:
        yield f"{START} {OPERATORS[place % 2]} tag put TAG{place:06} - 0 -"


if __name__ == "__main__":
    write_script(lines, puts=100_000, shuffled=0)
