"""Sends frames of hostile stations to the built program, by `central replay`. Each has to be answered as
frame_rules.py has it, and no other operator may be told or keep anything else because of them. Prints for each kind of
frames how they were answered, then `N passed, M failed`. One seed gives one run.

    python3 checks/hostile.py crates/central/out/central [--seed N] [--frames N] [--small]
"""

import argparse
import json
import os
import random
import re
import subprocess
import tempfile
import time
from collections import Counter

from frame_rules import SILENT, Operator, Station, written
from good_events import BOOT, Script
from harness import Counts
from hostile_frames import COMMANDS, MOST, chosen, wrong_answers

import repair_rules

OPERATORS = "ACME,BETA,GAMMA"
BLOCK = 50
TAGS = [("K1", None, False, None), ("K2", "k1", False, None), ("K3", None, False, 2000000000), ("K4", "B", False, None)]
TAGS += [("B", None, True, None), ("OLD", None, False, 5)]
POLICIES = {"S1": "Accepted", "S2": "Accepted", "S3": "Accepted", "S4": "Pending", "S5": "Rejected"}
FRESH = [f"F{n}" for n in range(40)]

# How often a frame is that of each station: S6 is read tolerantly, S7 isn't connected, and nobody has added the last one.
# The others have stations of the same names.
WEIGHTS = {"S1": 30, "S2": 20, "S3": 20, "S4": 6, "S5": 4, "S6": 30, "F": 4, "S7": 1, "nobody-é": 1}

TEXT = r'"(?:[^"\\\x00-\x1f]|\\.)*"'
MAYBE = f"(?:-|{TEXT})"
NUMBER = r"(?:-|-?\d+)"
ROWS = [
    r"station \S+ (Fresh|Accepted|Pending|Rejected) (Accepted|Pending|Rejected) \d+ (-|\{.*\})",
    f"tag {TEXT} {MAYBE} [01] {NUMBER}",
    rf"grant {TEXT} \S+ {NUMBER}",
    rf"granted \S+ {TEXT} {MAYBE} [01] {NUMBER}",
    rf"use \d+ \S+ {TEXT} \d+ -?\d+",
    rf"connector \S+ \d+ [A-Za-z]+ [A-Za-z]+ -?\d+ {MAYBE} {MAYBE} {MAYBE}",
    rf"transaction \S+ \d+ \d+ {TEXT} [A-Za-z]+ -?\d+ -?\d+ {NUMBER} (- - - -|-?\d+ -?\d+ [A-Za-z]+ {MAYBE})",
    rf"reading \S+ \d+ \d+ {NUMBER} -?\d+ [\w.]+ (Raw|SignedData) [\w.]+ [\w-]+ \w+ (-|\w+) {NUMBER} {TEXT}",
    rf"reservation \S+ -?\d+ \d+ {TEXT} {MAYBE} \d+",
    r"locallist \S+ \d+",
    r"localtag \S+ \{.*\}",
    r"report \S+ (Diagnostics|Firmware) [A-Za-z]+ \d+",
    r"connection \S+ \d+",
    r"reader \S+ (strict|tolerant)",
    r"forgotten \S+ \d+ \d+",
]
OUTCOME = rf"(Answer \{{.*\}}|BadAnswer [A-Za-z]+ [A-Za-z]+|Error \[{TEXT},{TEXT}\]|Timeout|Disconnected)"
FORMS = [
    r"\S+ \S+ send \[[234],.*\]",
    rf"\S+ \S+ done \d+ {OUTCOME}",
    r"\S+ \S+ turned",
    r"\S+ \S+ repaired [A-Za-z]+ [A-Za-z]+ [A-Za-z]+",
    r"\S+ refused \d+ [A-Za-z]+( [A-Za-z]+)?",
    rf"\S+ row ({'|'.join(ROWS)})",
    r"\S+ ok( \d+)?",
    r"bad line \d+",
]
# What is told of bad lines, of twenty at most.
REASONS = re.compile(rb"(line \d+: [^\x00-\x1f\x7f]{1,9000}\n){0,20}")
FORM = re.compile("|".join(f"(?:{form})" for form in FORMS), re.DOTALL)


class Checks(Counts):
    def __init__(self, program, seed):
        self.program, self.seed = program, seed
        self.kinds = {}

    def check(self, what, is_right, *details):
        self.passed += bool(is_right)
        self.failed += not is_right
        if not is_right and self.failed <= 20:
            print(f"{what} (seed {self.seed})")
            for detail in details:
                print(f"  {cut(detail)}")
        return is_right

    def count(self, kind, line):
        """Counts a frame of a kind by how it was answered."""
        self.kinds.setdefault(kind, Counter())[answered_how(line)] += 1

    def replay(self, what, lines, *options):
        """The lines of output of a replay."""
        began = time.monotonic()
        words = [self.program, "replay", "--operators", OPERATORS, *options]
        ran = subprocess.run(words, input=b"\n".join(lines) + b"\n", capture_output=True)
        found = ran.stdout.decode(errors="backslashreplace").split("\n")
        seconds = time.monotonic() - began
        print(f"{what}: {len(lines)} lines in {seconds:.1f} s, {len(found) - 1} lines of output")
        self.check(f"{what}: status", ran.returncode == 0, ran.returncode)
        self.check(f"{what}: errors", REASONS.fullmatch(ran.stderr), ran.stderr)
        self.check(f"{what}: the last line ends", found.pop() == "")
        for line in found:
            if not FORM.fullmatch(line):
                self.check(f"{what}: a line of no form", False, line)
        return found


def cut(value):
    value = value if type(value) is str else repr(value)
    return value if len(value) <= 400 else f"{value[:300]} .. {value[-80:]} ({len(value)} characters)"


def answered_how(line):
    """How a frame was answered, in a word."""
    if line is None:
        return "ignored"
    if line.startswith("send [4,"):
        return json.loads(line[5:])[2]
    words = {"send": "answered", "repaired": "repaired", "done": "ends a call", "turned": "turned", "bad": "bad line"}
    return words[line.split(" ", 1)[0]]


def is_bad(line):
    """Whether a line has too many bytes or isn't UTF-8."""
    try:
        line.decode()
    except UnicodeDecodeError:
        return True
    return len(line) > MOST


class Tape:
    """Lines of a replay, and what is known of those of hostile stations: `blocks` has events between two marks."""

    def __init__(self, operator):
        self.operator = operator
        self.lines = []
        self.blocks = [[]]

    def add(self, *lines):
        self.lines += [line.encode() for line in lines]

    def frame(self, kind, station, data, moment):
        line = f"{moment} {self.operator} frame {station} ".encode() + data
        self.lines.append(line)
        bad = f"bad line {len(self.lines)}" if is_bad(line) else None
        self.blocks[-1].append((kind, station, data.removesuffix(b"\r"), moment, bad))

    def tell(self, line, *told):
        """A line of the operator, and what it is told."""
        self.add(line)
        self.blocks[-1].append(told)

    def mark(self, station, moment):
        """A good event, with whose answer a block ends."""
        number = f"live {len(self.blocks)}"
        self.add(f'{moment} {self.operator} frame {station} [2,"{number}","Heartbeat",{{}}]')
        self.blocks.append([])
        return number


def hostile_world():
    """The stations of GAMMA, as they are once set up."""
    world = Operator(TAGS)
    for station, policy in POLICIES.items():
        world.stations[station] = Station(policy, policy)
    for station in FRESH:
        world.stations[station] = Station("Accepted")
    world.stations["S6"] = Station("Accepted", "Accepted", repairs=repair_rules)
    world.stations["S7"] = Station("Accepted", is_connected=False)
    return world


def set_up(world, moment):
    """The lines that make the stations of GAMMA so."""
    for tag, parent, is_blocked, expiry in world.tags.values():
        yield f"{moment} GAMMA tag put {tag} {parent or '-'} {int(is_blocked)} {'-' if expiry is None else expiry}"
    for name, station in world.stations.items():
        yield f"{moment} GAMMA station add {name} {station.policy} 300"
        if station.repairs:
            yield f"{moment} GAMMA station reader {name} tolerant"
        if station.is_connected:
            yield f"{moment} GAMMA connect {name}"
        if station.state != "Fresh":
            yield f"{moment} GAMMA frame {name} {BOOT}"


def station_of(rng, place):
    """The station of the next frame; those that are fresh take turns, since a good boot is their last."""
    station = rng.choices(list(WEIGHTS), WEIGHTS.values())[0]
    return FRESH[int(place * len(FRESH))] if station == "F" else station


def whole_lines(operator, station, moment):
    """Frames that fill lines up to the bound, and one byte more."""
    before = len(f"{moment} {operator} frame {station} ")
    head, tail = '[2,"h","MeterValues",{"connectorId":0,"meterValue":[{"sampledValue":[{"value":"', '"}]@}]}]'
    tail = tail.replace("@", ',"timestamp":"2024-01-01T00:00:00Z"')
    yield (head + "x" * (MOST - before - len(head) - len(tail)) + tail).encode()
    head, tail = '[2,"h","DataTransfer",{"vendorId":"org.example.echo","data":"', '"}]'
    for size in (MOST - 5, MOST, MOST + 1):
        yield (head + "x" * (size - before - len(head) - len(tail)) + tail).encode()
    yield head.encode() + "é".encode() * ((MOST - before - len(head) - len(tail)) // 2) + tail.encode()
    yield b"[" * (MOST - before)
    yield b" " * (MOST - before - 1) + b"\r"
    yield b'[2,"' + b"i" * (MOST - before - 20) + b'","Heartbeat"]'


def calls_in_flight(tape, rng, called, moment):
    """A command, and hostile answers to it, right ones twice. An error ends it, if nothing before did."""
    station, action = rng.choice(["S1", "S2", "S3"]), rng.choice(list(COMMANDS))
    called[station] += 1
    number = called[station]
    call = written([2, str(number), action])[:-1] + f",{COMMANDS[action]}]"
    tape.tell(
        f"{moment} GAMMA call {station} {action} {COMMANDS[action]}",
        (station, number, action),
        f"GAMMA ok {number}",
        f"GAMMA {station} send {call}",
    )
    frames = [frame for frame in rng.sample(wrong_answers(rng, action), 2) for _ in range(rng.choice([1, 1, 2]))]
    for frame in (*frames, b'[4,"@N@","GenericError",null]'):
        tape.frame("answers in flight", station, frame.replace(b"@N@", str(number).encode()), moment)


def hostile_tape(script, rng, count, most_large):
    """The good events of ACME and BETA, and between them blocks of hostile frames of GAMMA's stations, of which so many
    at most fill a line."""
    tape, world, called = Tape("GAMMA"), hostile_world(), Counter()
    tape.add(*script.before, *set_up(world, script.begin))
    tape.mark("S1", script.begin)
    groups = count // 50
    frames = chosen(rng, count - 4 * groups)
    blocks = -(-len(frames) // BLOCK)
    large = list(whole_lines("GAMMA", "S1", script.begin))[:most_large]
    for block in range(blocks):
        done, due = (len(script.groups) * at // blocks for at in (block, block + 1))
        moment = script.groups[done][0]
        for kind, frame in frames[block * BLOCK : block * BLOCK + BLOCK]:
            tape.frame(kind, station_of(rng, block / blocks), frame, moment)
        for frame in large[len(large) * block // blocks : len(large) * (block + 1) // blocks]:
            tape.frame("whole lines", "S1", frame, script.begin)
        for _ in range(groups * block // blocks, groups * (block + 1) // blocks):
            calls_in_flight(tape, rng, called, moment)
        tape.mark("S1", moment)
        for at in range(done, due):
            tape.add(*script.groups[at][1])
    tape.add(*script.after)
    return tape, world


def check_blocks(checks, tape, world, lines):
    """Each hostile frame of a tape is followed by the line that the rules have, or by none; a good event after each
    block is answered."""
    at = 0
    for place, block in enumerate(tape.blocks[:-1]):
        mark = f'GAMMA S1 send [3,"live {place + 1}",'
        end = next((end for end in range(at, len(lines)) if lines[end].startswith(mark)), None)
        if place:
            check_block(checks, world, block, lines[at:end])
        if not checks.check(f"the good event after block {place}", end is not None, mark):
            return
        at = end + 1


def check_block(checks, world, block, lines):
    """What follows the frames of a block. Of a block one failure is told, since all after it may follow from it."""
    at = 0
    for event in block:
        if type(event[0]) is tuple:
            (station, number, action), *told = event
            world.stations[station].flight = number, action
            if not checks.check("a command", lines[at : at + 2] == told, told, lines[at : at + 2]):
                return
            at += 2
            continue
        kind, station, data, moment, bad = event
        got = lines[at : at + 2]
        found = matching(world, station, data, moment, bad, got)
        wanted = [line for line, _ in possible(world, station, data, moment, bad)] if found is None else None
        if not checks.check(f"{kind}, from {station}", found is not None, data, f"wanted {wanted}", f"got {got}"):
            return
        line, change = found
        at += len(lines_of(station, line, bad))
        checks.count(kind, line)
        if change:
            change()
    checks.check("no line is left", at == len(lines), lines[at : at + 3])


def possible(world, station, data, moment, bad):
    return [(bad, None)] if bad else world.after(station, data, moment)


def matching(world, station, data, moment, bad, got):
    """What follows a frame, of what is possible: the lines that were found, or none where that alone is possible."""
    for line, change in possible(world, station, data, moment, bad):
        wanted = lines_of(station, line, bad)
        if got[: len(wanted)] == wanted:
            return line, change
    return None


def lines_of(station, line, bad):
    """The lines of output that a frame of a station of GAMMA is followed by."""
    if line is None or bad:
        return [line] if line else []
    return [f"GAMMA {station} {part}" for part in line.split("\n")]


def check_rows(checks, world, lines):
    """GAMMA has the records that the frames made: the numbers of its transactions, readings and open transactions, and
    the reports of its stations."""
    rows = Counter(" ".join(line.split(" ", 4)[2:4]) for line in lines if line.startswith("GAMMA row "))
    begun = [line for line in lines if re.match("GAMMA row transaction .* - - - -$", line)]
    still = Counter(line.split(" ", 4)[3] for line in begun)
    for name, station in world.stations.items():
        for what, number in (("transaction", station.last), ("reading", station.readings)):
            checks.check(f"{what}s of {name}", rows[f"{what} {name}"] == number, rows[f"{what} {name}"], number)
        checks.check(f"open transactions of {name}", still[name] == len(station.open), still[name], station.open)
        wanted = [f"{kind} {status} {moment}" for kind, (status, moment) in sorted(station.reports.items())]
        front = f"GAMMA row report {name} "
        listed = [line.removeprefix(front) for line in lines if line.startswith(front)]
        checks.check(f"reports of {name}", listed == wanted, listed, wanted)
        state = f"GAMMA row station {name} {station.state} {station.policy} "
        checks.check(f"the state of {name}", any(line.startswith(state) for line in lines), state)


def listings_of(world, moment):
    for what in ("stations", "tags", "grants", "granted", "uses"):
        yield f"{moment} GAMMA list {what}"
    for what in ("connectors", "transactions", "readings", "reservations", "locallist", "reports"):
        for name in world.stations:
            yield f"{moment} GAMMA list {what} {name}"


def check_isolation(checks, script, good, rng, count):
    """Hostile stations of a third operator: what the two others are told is what they are told without them."""
    tape, world = hostile_tape(script, rng, count, most_large=8)
    tape.add(*listings_of(world, script.end))
    lines = checks.replay("with a hostile operator", tape.lines)
    others = [line for line in lines if line.startswith(("ACME ", "BETA "))]
    check_same(checks, "ACME and BETA beside a hostile operator", others, good)
    mine = [line for line in lines if not line.startswith(("ACME ", "BETA "))]
    check_blocks(checks, tape, world, mine)
    check_rows(checks, world, mine)


def check_file(checks, script, rng, count):
    """Hostile texts are kept in a file as in memory: the records are listed by a second run over the file."""
    tape, world = hostile_tape(script, rng, count, most_large=1)
    listings = [line.encode() for line in listings_of(world, script.end)]
    with tempfile.TemporaryDirectory() as folder:
        file = ("--db", os.path.join(folder, "hostile.db"))
        wanted = checks.replay("in memory", tape.lines + listings)
        kept = checks.replay("over a file", tape.lines, *file)
        rows = checks.replay("listings of the file", listings, *file)
    check_same(checks, "a file beside the memory", kept + rows, wanted)


def check_same(checks, what, got, wanted):
    place = next((at for at, pair in enumerate(zip(got, wanted)) if pair[0] != pair[1]), min(len(got), len(wanted)))
    checks.check(what, got == wanted, f"line {place + 1} of them", got[place : place + 1], wanted[place : place + 1])


def changes_nothing(found):
    """Whether a frame is ignored, or answered with an error or as a heartbeat is."""
    line = found[0][0]
    if len(found) > 1 or line is None or line.startswith(("send [4,", "turned")):
        return len(found) == 1
    return list(json.loads(line[5:])[2]) == ["currentTime"]


def is_of_a_call(data):
    """Whether a text may be an answer to a call that is in flight."""
    return re.match(rb'[\s\[]*[34]\s*,\s*"[1-9]\d*"', data) is not None


def harmless(script, rng, count):
    """Frames of the stations of ACME and BETA that change nothing, and the line that follows each, or none."""
    world = Operator()
    world.stations = {name: Station(*more) for name, *more in script.stations}
    for kind, data in chosen(rng, count):
        operator, name = rng.choice(["ACME", "BETA"]), rng.choice(script.stations)[0]
        line = f"{script.begin} {operator} frame {name} ".encode() + data
        found = SILENT if is_bad(line) else world.after(name, data.removesuffix(b"\r"), script.begin)
        if changes_nothing(found) and not is_of_a_call(data):
            yield kind, line, found[0][0] and f"{operator} {name} {found[0][0]}"


def own_lines(script, frames):
    """The good events with those frames between them, and a kind, a line and its answer of each frame."""
    lines, sent = [line.encode() for line in script.before], []
    for at, (_, group) in enumerate(script.groups):
        first, last = (len(frames) * place // len(script.groups) for place in (at, at + 1))
        for kind, line, answer in frames[first:last]:
            lines.append(line)
            sent.append((kind, line, f"bad line {len(lines)}" if is_bad(line) else answer))
        lines += [line.encode() for line in group]
    return lines + [line.encode() for line in script.after], sent


def check_own(checks, script, good, rng, count):
    """Frames of the two operators' own stations that change nothing: all that the operators are told besides is the
    same, in the same order, and with it the listings."""
    frames = list(harmless(script, rng, count * 3 // 2))[:count]
    lines, sent = own_lines(script, frames)
    found = checks.replay("with hostile frames of their own stations", lines)
    answers = [(kind, line, answer) for kind, line, answer in sent if answer]
    own, at = [], 0
    for line in found:
        if at < len(answers) and line == answers[at][2]:
            at += 1
        else:
            own.append(line)
    checks.passed += at + len(sent) - len(answers)
    checks.check("answers to frames that change nothing", at == len(answers), *answers[at : at + 1])
    check_same(checks, "ACME and BETA beside frames that change nothing", own, good)
    for kind, _, answer in sent:
        checks.count(kind, answer and re.sub(r"^(ACME|BETA) \S+ ", "", answer))


def check_good(checks, script):
    """The good events by themselves: each is taken, and each listing has rows."""
    good = checks.replay("without hostile frames", [line.encode() for line in script.lines()])
    wrong = [line for line in good if re.match(r"\S+ refused|bad line|\S+ \S+ turned|\S+ \S+ send \[4", line)]
    checks.check("good events are taken", not wrong, *wrong[:3])
    kinds = {line.split(" ")[2] for line in good if " row " in line}
    checks.check("kinds of rows", len(kinds) == len(ROWS), sorted(kinds))
    return good


def told_by_kinds(checks):
    for kind, ways in checks.kinds.items():
        told = ", ".join(f"{ways[way]} {way}" for way in sorted(ways, key=lambda way: -ways[way]))
        print(f"{kind}: {sum(ways.values())} frames: {told}")


def main():
    options = argparse.ArgumentParser()
    options.add_argument("program")
    options.add_argument("--seed", type=int, default=1)
    options.add_argument("--frames", type=int)
    options.add_argument("--small", action="store_true")
    given = options.parse_args()
    count = given.frames or (5000 if given.small else 100_000)
    checks, rng = Checks(given.program, given.seed), random.Random(given.seed)
    script = Script(rounds=12 if count < 50_000 else 60)
    good = check_good(checks, script)
    check_isolation(checks, script, good, rng, count * 4 // 5)
    check_own(checks, script, good, rng, count // 5)
    check_file(checks, script, rng, count // 20)
    told_by_kinds(checks)
    checks.end()


if __name__ == "__main__":
    main()
