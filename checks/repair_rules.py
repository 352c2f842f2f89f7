"""What docs/TABLES.md says of repairs: what a tolerant reader reads in place of the payload of a call. hostile.py compares
the program with it."""

import json
import re
import string
from datetime import datetime, timezone

from frame_rules import METER_VALUE, REQUESTS, SAMPLED_VALUE, TYPE, choices, outcomes, read_json

BLANKS = "".join(map(chr, [*range(9, 14), 32, 0x85, 0xA0, 0x1680, *range(0x2000, 0x200B), 0x2028, 0x2029, 0x202F, 0x205F, 0x3000]))
LOWER = str.maketrans(string.ascii_uppercase, string.ascii_lowercase)

# What is left out of its object or its list.
GONE = object()


class Number(str):
    """The text of a number."""


class Members(list):
    """The members of an object, as pairs."""


def read(data):
    """A JSON text whose numbers stay texts."""
    return json.loads(data.decode(), parse_int=Number, parse_float=Number, object_pairs_hook=Members)


def text_of(value):
    """The JSON text of such a value."""
    if type(value) is Number:
        return str(value)
    if type(value) is Members:
        return "{" + ",".join(f"{json.dumps(name)}:{text_of(member)}" for name, member in value) + "}"
    if type(value) is list:
        return "[" + ",".join(map(text_of, value)) + "]"
    return json.dumps(value)


def integer(value):
    if type(value) is Number:
        front, _, fraction = value.partition(".")
        return Number(front) if not fraction.strip("0") else value
    if type(value) is str and re.fullmatch("[0-9]+", value):
        return Number(value.lstrip("0") or "0")
    return value


def shortened(most):
    return lambda value: value[:most] if type(value) is str else value


def alike(names, value):
    """The name that a text is, whatever its letter case and the blanks round it."""
    lowered = value.strip(BLANKS).translate(LOWER)
    return next((name for name in names if name.translate(LOWER) == lowered), None)


def named(names, default=None):
    def repair(value):
        found = alike(names, value) if type(value) is str else None
        if found is not None or value is None:
            return found
        return value if default is None else default

    return repair


def time(moment):
    """A text with a digit in it may be a time, and is kept."""

    def repair(value):
        if value is None or (type(value) is str and re.search("[0-9]", value)):
            return value
        return datetime.fromtimestamp(moment, timezone.utc).strftime("%Y-%m-%dT%H:%M:%SZ")

    return repair


def by_table(table, value):
    if type(value) is not Members:
        return value
    repaired = ((name, table.get(name, lambda member: member)(member)) for name, member in value)
    return Members(pair for pair in repaired if pair[1] is not GONE)


def items(repair, value):
    return [item for item in map(repair, value) if item is not GONE] if type(value) is list else value


def sampled_name(names):
    def repair(value):
        if type(value) is str and not value.strip(BLANKS):
            return GONE
        return named(names)(value)

    return repair


def is_unnamed(names, value):
    if type(value) is not str:
        return value is not None
    return bool(value.strip(BLANKS)) and alike(names, value) is None


SAMPLED_NAMES = choices(SAMPLED_VALUE.table)
SAMPLED_TABLE = {name: sampled_name(names) for name, names in SAMPLED_NAMES.items()}
SAMPLED_TABLE["value"] = lambda value: str(value) if type(value) is Number else value


def sampled_value(value):
    if type(value) is Members and any(name in SAMPLED_NAMES and is_unnamed(SAMPLED_NAMES[name], member) for name, member in value):
        return GONE
    return by_table(SAMPLED_TABLE, value)


def meter_value(moment):
    table = {"timestamp": time(moment), "sampledValue": lambda value: items(sampled_value, value)}

    def repair(value):
        repaired = by_table(table, value)
        is_read = type(repaired) is Members and None in METER_VALUE(read_json(text_of(repaired).encode()))
        return repaired if is_read else GONE

    return repair


def meter_values(moment):
    def repair(value):
        if value is None:
            return value
        return items(meter_value(moment), value) if type(value) is list else GONE

    return repair


def table_of(action, moment):
    if action == "BootNotification":
        lengths = {"chargeBoxSerialNumber": 25, "chargePointModel": 20, "chargePointSerialNumber": 25, "chargePointVendor": 20}
        lengths |= {"firmwareVersion": 50, "iccid": 20, "imsi": 20, "meterSerialNumber": 25, "meterType": 25}
        return {name: shortened(most) for name, most in lengths.items()}
    names = choices(REQUESTS.get(action, []))
    statuses = {"DiagnosticsStatusNotification": ["status"], "FirmwareStatusNotification": ["status"], "StopTransaction": ["reason"]}
    table = {name: named(names[name]) for name in statuses.get(action, [])}
    integers = {
        "MeterValues": ["connectorId", "transactionId"], "StatusNotification": ["connectorId"],
        "StartTransaction": ["connectorId", "meterStart", "reservationId"], "StopTransaction": ["meterStop", "transactionId"],
    }
    table |= dict.fromkeys(integers.get(action, []), integer)
    if action in ("StartTransaction", "StatusNotification", "StopTransaction"):
        table["timestamp"] = time(moment)
    if action == "StatusNotification":
        table |= {"errorCode": named(names["errorCode"], "OtherError"), "status": named(names["status"], "Unavailable")}
        table |= {"info": shortened(50), "vendorErrorCode": shortened(50)}
    lists = {"MeterValues": "meterValue", "StopTransaction": "transactionData"}
    return table | ({lists[action]: meter_values(moment)} if action in lists else {})


def repaired(action, data, moment):
    """The payload of a call's text, repaired."""
    payload = read(data)[3]
    return read_json(text_of(by_table(table_of(action, moment), payload)).encode()) or {}


def faults_of(action, payload):
    """What may come of a repaired payload. Its times are read."""
    return [fault for fault in outcomes(REQUESTS[action], payload) if fault != (TYPE, "timestamp")]
