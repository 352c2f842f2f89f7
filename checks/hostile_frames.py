"""Frames of hostile stations, by kinds. Each kind is a function of a source of random numbers that yields frames as
bytes without a line feed."""

import copy
import json

from frame_rules import ANSWERS, NOT_SUPPORTED

TIME = "2024-01-01T00:00:00Z"
MOST = 1 << 20

VALUES = [
    {
        "timestamp": TIME,
        "sampledValue": [
            {"value": "1.5", "unit": "kWh"},
            {
                "value": "é\"\\",
                "context": "Sample.Clock",
                "format": "Raw",
                "measurand": "Voltage",
                "phase": "L1-N",
                "location": "EV",
                "unit": "V",
            },
        ],
    },
    {"timestamp": "2024-01-01T00:15:00.5+01:00", "sampledValue": [{"value": ""}]},
]

# Frames that are taken, of each action that is read.
GOOD = [
    ("Authorize", {"idTag": "K1"}),
    ("BootNotification", {"chargePointModel": "M", "chargePointVendor": "V"}),
    (
        "BootNotification",
        {
            "chargeBoxSerialNumber": "B",
            "chargePointModel": "M",
            "chargePointSerialNumber": "S",
            "chargePointVendor": "V",
            "firmwareVersion": "1.0",
            "iccid": "8",
            "imsi": "9",
            "meterSerialNumber": "N",
            "meterType": "T",
        },
    ),
    ("DataTransfer", {"vendorId": "org.example.echo", "messageId": "echo", "data": "\u0000é\n"}),
    ("DiagnosticsStatusNotification", {"status": "Uploading"}),
    ("FirmwareStatusNotification", {"status": "Installed"}),
    ("Heartbeat", {}),
    ("MeterValues", {"connectorId": 1, "transactionId": 1, "meterValue": VALUES}),
    ("StartTransaction", {"connectorId": 1, "idTag": "K2", "meterStart": 0, "reservationId": 5, "timestamp": TIME}),
    (
        "StatusNotification",
        {
            "connectorId": 1,
            "errorCode": "NoError",
            "info": "i",
            "status": "Available",
            "timestamp": TIME,
            "vendorId": "V",
            "vendorErrorCode": "e",
        },
    ),
    ("StopTransaction", {"meterStop": 10, "timestamp": TIME, "transactionId": 1}),
    (
        "StopTransaction",
        {
            "idTag": "K1",
            "meterStop": 10,
            "timestamp": TIME,
            "transactionId": 2,
            "reason": "Remote",
            "transactionData": VALUES[1:],
        },
    ),
]
OTHERS = [(action, {"connectorId": 1, "status": "Installed"}) for action in [*NOT_SUPPORTED, "Frob"]]

# Good answers of stations to each command, and the JSON of a command.
COMMANDS = {
    "ChangeAvailability": '{"connectorId":1,"type":"Operative"}',
    "ChangeConfiguration": '{"key":"k","value":"v"}',
    "ClearCache": "{}",
    "DataTransfer": '{"vendorId":"V"}',
    "GetConfiguration": '{"key":["k"]}',
    "GetLocalListVersion": "{}",
    "RemoteStartTransaction": '{"idTag":"K3"}',
    "ReserveNow": '{"connectorId":1,"expiryDate":"2030-01-01T00:00:00Z","idTag":"K3","reservationId":5}',
    "Reset": '{"type":"Soft"}',
    "SendLocalList": (
        '{"listVersion":1,"localAuthorizationList":[{"idTag":"A","idTagInfo":{"status":"Accepted"}}],'
        '"updateType":"Full"}'
    ),
    "TriggerMessage": '{"requestedMessage":"Heartbeat"}',
    "UnlockConnector": '{"connectorId":1}',
}
GOOD_ANSWERS = {action: {"status": "Accepted"} for action in ANSWERS} | {
    "DataTransfer": {"status": "Accepted", "data": "é"},
    "GetConfiguration": {
        "configurationKey": [{"key": "k", "readonly": True, "value": "v"}, {"key": "", "readonly": False}],
        "unknownKey": ["u", ""],
    },
    "GetLocalListVersion": {"listVersion": -1},
    "UnlockConnector": {"status": "Unlocked"},
}

WRONG = 'null true false 0 -1 1.5 1e400 "" "x" [] {} [{}] [null] [[]] nan'.split()
NUMBERS = [
    *"0 1 -1 255 256 -0 0.1 1.0 1e2 1E+2 1e308 -1e308 1e309 1e-400 0e999 1e99999999999 00 01 +1 1. .5 0x1 1_0".split(),
    *"1.7976931348623158e308 1.7976931348623159e308 - -- 1e 1e+ Infinity -Infinity NaN 1,0 ٥".split(),
    *(str(number + more) for number in (2**31, 2**32, 2**53, 2**63, 2**64) for more in (-1, 0, 1)),
    *(str(-number + more) for number in (2**31, 2**53, 2**63, 2**64) for more in (-1, 0, 1)),
    *("1" * length for length in (20, 21, 308, 310, 5000)),
    "0." + "1" * 5000,
    "0." + "0" * 400 + "1e400",
    "1" + "0" * 300 + "e-300",
]
STRINGS = [
    *r"\ud800 \udfff \ud83d\ude00 \ude00\ud83d \ud83d\ud83d\ude00 \uD83Dx \u0000 \u00 \u \u+123 \u00e9".split(),
    *r"\u{41} \x41 \0 \' \" \\ \ \/ \b\f\n\r\t \uFEFF \u007f".split(),
    *(chr(code) for code in (0, 1, 9, 13, 31, 127, 128, 0x85, 0xA0, 0x2028, 0xFEFF, 0xFFFD, 0xFFFE, 0xFFFF, 0x10FFFF)),
    *("é", "e\u0301", "\u202e", "\U0001f600", "İ", "ß", "' OR 1=1 --", "%s%n"),
    *("K1 ", " K1", "k1", "K\u0131", "\u212a1"),
    *"accepted Celcius 2024-01-01 2024-01-01T00:00:00 2024-02-30T00:00:00Z 2024-01-01T24:00:00Z".split(),
    *"2016-12-31T23:59:60Z 9999-12-30T22:00:00Z 9999-12-31T23:59:59Z 0000-01-01T00:00:00Z -000001-01-01T00:00Z".split(),
    *"2024-01-01T00:00:00.0004999Z 1969-12-31T23:59:59.9995Z 2024-01-01T00:00:00+99:99 2024-01-01t00:00:00z".split(),
    *"2024-01-01T00:00:00Z[UTC] 20240101T000000Z ٢٠٢٤-01-01T00:00:00Z T Z 1704067200".split(),
]
LENGTHS = (1, 19, 20, 21, 24, 25, 26, 49, 50, 51, 254, 255, 256, 1000)
BLANKS = [" ", "\t", "\r", "\v", "\f", "\0", "\x85", "\xa0", "\u2028", "\u3000", "\ufeff", "\u200b", " \t\r "]
BLANKS += ["/**/", "#"]
DEPTHS = (1, 100, 122, 123, 124, 125, 126, 127, 128, 129, 200)
TYPES = ["0", "1", "2", "3", "4", "5", "-2", "2.0", "2e0", '"2"', "null", "true", "[2]", "99", "02", str(2**64 + 2)]


def text_of(*items):
    return json.dumps(items, ensure_ascii=False, separators=(",", ":"))


def calls():
    """The text of a call of each action."""
    return [text_of(2, "h", action, payload) for action, payload in GOOD + OTHERS]


def texts():
    """Texts of all good frames: calls, results and errors."""
    results = [text_of(3, "9", answer) for answer in GOOD_ANSWERS.values()]
    return [*calls(), *results, text_of(4, "9", "GenericError", "d", {})]


def lines_only(frames):
    """Those as bytes that have no line feed."""
    for frame in frames:
        data = frame if type(frame) is bytes else frame.encode()
        if b"\n" not in data:
            yield data


def paths(value, above=()):
    """The places of all members and items within a value."""
    found = []
    if type(value) in (dict, list):
        for at in value if type(value) is dict else range(len(value)):
            found += [(*above, at), *paths(value[at], (*above, at))]
    return found


def with_change(payload, path, change):
    """A copy in which the change was made to the container of a place, which it is handed with the place within it."""
    changed = copy.deepcopy(payload)
    place = changed
    for at in path[:-1]:
        place = place[at]
    change(place, path[-1])
    return changed


def replaced(action, payload, path, token):
    """The text of a call where a token stands at a place."""
    marked = with_change(payload, path, lambda place, at: place.__setitem__(at, "@@"))
    return text_of(2, "h", action, marked).replace('"@@"', token)


def good(rng):
    for action, payload in GOOD:
        for connector in range(4):
            changed = {**payload, "connectorId": connector} if "connectorId" in payload else payload
            for number in range(4):
                more = {name: number for name in ("transactionId", "meterStart") if name in changed}
                yield text_of(2, f"good {connector}", action, {**changed, **more})


def truncated(rng):
    for frame in texts():
        data = frame.encode()
        for at in range(len(data)):
            yield data[:at]
            if rng.random() < 0.2:
                yield data[at:]


def some_byte(rng):
    return bytes([rng.choice([*b'"{}[]:,\\/ \t\r\0\x1f\x7f019eE+-.tfnu\x80\xc0\xe9\xf0\xff', rng.randrange(256)])])


def changed(rng):
    for frame in texts():
        data = frame.encode()
        for at in range(len(data)):
            yield data[:at] + some_byte(rng) + data[at + 1 :]


def inserted(rng):
    for frame in texts():
        data = frame.encode()
        for at in range(len(data) + 1):
            yield data[:at] + some_byte(rng) + data[at:]


def dropped(rng):
    for frame in texts():
        data = frame.encode()
        for at in range(len(data)):
            yield data[:at] + data[at + 1 :]


def crossed(rng):
    """The beginning of a frame and the end of another, or a frame with several changes."""
    frames = [frame.encode() for frame in texts()]
    for _ in range(2000):
        one, other = rng.choice(frames), rng.choice(frames)
        yield one[: rng.randrange(len(one))] + other[rng.randrange(len(other)) :]
        data = bytearray(one)
        for _ in range(rng.randrange(2, 6)):
            data[rng.randrange(len(data))] = some_byte(rng)[0]
        yield bytes(data)


def not_utf8(rng):
    wrong = [b"\xff", b"\xc0\x80", b"\xed\xa0\x80", b"\xe2\x82", b"\xf4\x90\x80\x80", b"\x80", b"\xf8\x88\x80\x80\x80"]
    for frame in calls():
        for bad in wrong:
            at = rng.randrange(len(frame))
            yield frame[:at].encode() + bad + frame[at:].encode()


def nested(rng):
    for action, payload in GOOD + OTHERS[:2]:
        for depth in (*DEPTHS, *([10_000] if action in ("Heartbeat", "MeterValues") else [])):
            lists, objects = "[" * depth + "]" * depth, '{"a":' * depth + "1" + "}" * depth
            for token in (lists, objects):
                yield text_of(2, "h", action, {**payload, "zz": "@@"}).replace('"@@"', token)
                yield text_of(2, "h", action, "@@").replace('"@@"', token)
                yield text_of(2, "h", action, payload, "@@").replace('"@@"', token)
                for path in paths(payload)[:3]:
                    yield replaced(action, payload, path, token)
    for depth in (*DEPTHS, 10_000):
        yield from ("[" * depth, "[" * depth + "]" * depth, '{"a":' * depth, "[2," * depth + "]" * depth)


def long_texts(rng):
    """Texts around the lengths that count, in letters of 1, 2 and 4 bytes."""
    for action, payload in GOOD:
        for path in paths(payload):
            for length in LENGTHS:
                letter = rng.choice(["a", "é", "\U0001f600", r"\u0000", r"\ud83d\ude00", "e\u0301"])
                yield replaced(action, payload, path, '"' + letter * length + '"')
        for length in (1000, 10_000):
            yield text_of(2, "h", action, {**payload, "n" * length: "v" * length})
            yield text_of(2, "h", action, {**payload, **{f"n{n}": n for n in range(length // 10)}})


def wrong_types(rng):
    for action, payload in GOOD:
        for path in paths(payload):
            for token in WRONG:
                yield replaced(action, payload, path, token)
        for token in WRONG:
            yield text_of(2, "h", action, "@@").replace('"@@"', token)


def missing(rng):
    for action, payload in GOOD:
        for path in paths(payload):
            yield text_of(2, "h", action, with_change(payload, path, lambda place, at: place.pop(at)))
        yield text_of(2, "h", action, {})


def unknown(rng):
    for action, payload in GOOD:
        for path in paths(payload):
            if type(path[-1]) is not str:
                continue
            for name in (path[-1].upper(), path[-1] + " ", path[-1] + "\0", "", "__proto__"):
                yield text_of(2, "h", action, with_change(payload, path, lambda place, at: place.__setitem__(name, 1)))
                renamed = with_change(payload, path, lambda place, at: place.__setitem__(name, place.pop(at)))
                yield text_of(2, "h", action, renamed)


def doubled(rng):
    """A member that is there twice, the wrong value first or last."""
    for action, payload in GOOD:
        for path in paths(payload):
            if type(path[-1]) is not str:
                continue
            for token in (*WRONG, '"K1"', "7"):
                member = f"{json.dumps(path[-1])}:{token}"
                last = with_change(payload, path, lambda place, at: place.__setitem__("@@", 0))
                first = with_change(payload, path, put_first)
                for marked in (last, first):
                    yield text_of(2, "h", action, marked).replace('"@@":0', member)


def put_first(place, at):
    members = dict(place)
    place.clear()
    place["@@"] = 0
    place.update(members)


def numbers(rng):
    for action, payload in GOOD:
        for path in paths(payload):
            is_number = type(path[-1]) is str and (path[-1].endswith("Id") or path[-1].startswith("meterSt"))
            for token in NUMBERS if is_number else rng.sample(NUMBERS, 3):
                yield replaced(action, payload, path, token)


def changed_slightly(rng, value):
    """Tokens in the place of a value, as stations of several vendors send them."""
    yield from ('""', '" "', '"0"', "0.0", '"2024-01-01 00:00:00"', '"01/01/2024"', "1704067200", '"Occupied"', '"Unknown"')
    if type(value) is int:
        yield from (f'"{value}"', f'"00{value}"', f"{value}.0", f"{value}.000", f"{value}.5", f'"{value}.0"', f'" {value}"', f"{value}e0")
    elif type(value) is str and value:
        yield from (json.dumps(text) for text in (value.upper(), value.lower(), f" {value}\t", value * 60, f"{value}\u00a0", value.title()))
        yield from rng.sample(["12", "-0.5", "230.10", "1E2", "0.1", "00"], 3)


def nearly_good(rng):
    """A value or two as stations of several vendors send them."""
    for action, payload in GOOD:
        for path in paths(payload):
            place = payload
            for at in path:
                place = place[at]
            for token in changed_slightly(rng, place):
                yield replaced(action, payload, path, token)
                if "connectorId" in payload:
                    yield replaced(action, {**payload, "connectorId": "1"}, path, token)


def strings(rng):
    for action, payload in GOOD:
        for path in paths(payload):
            for string in STRINGS:
                yield replaced(action, payload, path, f'"{string}"')


def ids(rng):
    letters = ["a", "7", "é", "\U0001f600", "e\u0301", " ", '\\"', r"\u0000", r"\ud83d\ude00"]
    for length in (*range(41), 100, 1000, 10_000):
        for letter in letters if length < 100 else letters[:3]:
            name = f'"{letter * length}"'
            action, payload = rng.choice(GOOD + OTHERS)
            yield text_of(2, "@@", action, payload).replace('"@@"', name)
            yield text_of(2, "@@", action).replace('"@@"', name)
            yield text_of(3, "@@", {}).replace('"@@"', name)
            yield text_of(4, "@@", "E", "").replace('"@@"', name)
    for string in STRINGS:
        yield f'[2,"{string}","Heartbeat",{{}}]'
        yield f'[3,"{string}",{{}}]'
    for token in WRONG + NUMBERS:
        yield from (f'[2,{token},"Heartbeat",{{}}]', f"[3,{token},{{}}]", f'[4,{token},"E","",{{}}]')


def actions(rng):
    for length in (*range(41), 1000, 10_000):
        for letter in ("a", "é", "\U0001f600", r"\u0000"):
            yield f'[2,"h","{letter * length}",{{}}]'
    for action, payload in GOOD + OTHERS:
        names = [action[:-1], action + "s", action.lower(), action.upper(), " " + action, action + " ", action + "\0"]
        names += [action.replace("a", "а"), action + "\u200b", action + "Conf", action + ".req", "\ufeff" + action]
        for name in names:
            yield text_of(2, "h", name, payload)
    for string in STRINGS:
        yield f'[2,"h","{string}",{{}}]'
    for token in WRONG + NUMBERS:
        yield f'[2,"h",{token},{{}}]'


def message_types(rng):
    for frame in texts():
        for token in TYPES:
            yield f"[{token}{frame[2:]}"


def sizes(rng):
    """Arrays of 0 to 7 items: beginnings of frames, and frames with more items."""
    more = [None, "E", "", {}, [], 0, {}, "x"]
    for frame in texts():
        items = json.loads(frame)
        for size in range(8):
            yield text_of(*(items + more)[:size])
            yield text_of(*(items + rng.sample(more, 8))[:size])
        for at in range(len(items)):
            yield text_of(*items[:at], *items[at + 1 :])
            yield text_of(*items[:at], items[at], items[at], *items[at + 1 :])
    yield from ("[]", "[2]", "[3]", "[4]", '[2,"h"]', "[,]", "[2,]", '[2,"h",,{}]', '[2,"h","Heartbeat",{},]')


def no_arrays(rng):
    yield from WRONG + NUMBERS
    yield from (f'"{string}"' for string in STRINGS)
    for frame in texts():
        yield from ('{"a":' + frame + "}", json.dumps(frame), frame[1:-1], frame + frame, frame + ",")
        yield "[" + frame + "]"
        yield from (frame.replace("[", "{").replace("]", "}"), frame.replace('"', "'"), frame + "\0", "GET / HTTP/1.1")


def blanks(rng):
    yield from ("", *BLANKS)
    for frame in texts():
        for blank in BLANKS:
            yield from (blank + frame, frame + blank)
            yield from (frame.replace(",", blank + "," + blank), frame.replace(":", blank + ":"))


def answers(rng):
    """Results and errors for calls that aren't in flight."""
    for name in ("0", "-1", "01", "1 ", "+1", "1.0", "0x1", "999999", "２", str(2**31), str(2**64), "", "h"):
        for answer in GOOD_ANSWERS.values():
            yield text_of(3, name, answer)
        yield from (text_of(3, name, None), text_of(4, name, "E", ""), text_of(4, name, "E", None, 5), text_of(4, name))


KINDS = {
    "taken": good,
    "truncated": truncated,
    "a byte changed": changed,
    "a byte inserted": inserted,
    "a byte dropped": dropped,
    "crossed": crossed,
    "not UTF-8": not_utf8,
    "nested": nested,
    "lengths": long_texts,
    "wrong types": wrong_types,
    "members missing": missing,
    "members unknown": unknown,
    "members doubled": doubled,
    "numbers": numbers,
    "nearly good": nearly_good,
    "strings": strings,
    "ids": ids,
    "actions": actions,
    "message types": message_types,
    "sizes of arrays": sizes,
    "no arrays": no_arrays,
    "blanks": blanks,
    "answers to nothing": answers,
}

# Kinds that differ from one time to the next.
RANDOM = ("a byte changed", "a byte inserted", "crossed")


def chosen(rng, count):
    """So many pairs of a kind and a frame, in any order: of each kind as many as of the others, or all that it has.
    Random kinds fill what is left."""
    found = {kind: list(lines_only(KINDS[kind](rng))) for kind in KINDS}
    left, pairs = count, []
    by_size = sorted(found, key=lambda kind: (kind in RANDOM, len(found[kind])))
    for place, kind in enumerate(by_size):
        share = left // (len(by_size) - place)
        while kind in RANDOM and len(found[kind]) < share:
            found[kind] += lines_only(KINDS[kind](rng))
        part = rng.sample(found[kind], min(share, len(found[kind])))
        pairs += [(kind, frame) for frame in part]
        left -= len(part)
    rng.shuffle(pairs)
    return pairs


def wrong_answers(rng, action):
    """Texts that answer a call of number @N@ of an action, of which some end it."""
    payload = GOOD_ANSWERS[action]
    answer = text_of(3, "@N@", payload)
    results = [answer, text_of(3, "0@N@", payload), text_of(3, "@N@", payload, {}), '[3,"@N@"]', "[3,@N@,{}]"]
    for path in paths(payload):
        marked = with_change(payload, path, lambda place, at: place.__setitem__(at, "@@"))
        tokens = [f'"{string}"' for string in (*rng.sample(STRINGS, 5), "é" * 51)]
        for token in (*WRONG, *rng.sample(NUMBERS, 5), *tokens):
            results.append(text_of(3, "@N@", marked).replace('"@@"', token))
        results.append(text_of(3, "@N@", with_change(payload, path, lambda place, at: place.pop(at))))
    for token in WRONG:
        results += [f'[3,"@N@",{token}]', f'[4,"@N@",{token},""]', f'[4,"@N@","E",{token}]']
        results.append(f'[4,"@N@","E","",{token}]')
    results += ['[4,"@N@"]', '[4,"@N@","E"]', text_of(4, "@N@", "E" * 1000, "é\n" * 500, {}), '[4,"@N@","E","",{},{}]']
    results += [f'[4,"@N@","{string}","{string}"]' for string in STRINGS]
    return list(lines_only(results))
