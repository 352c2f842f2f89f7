"""What docs/RULES.md says of the frames of an operator's stations: how each is answered, and what it changes.
hostile.py compares the program with it."""

import json
import math
import re
from datetime import datetime, timedelta, timezone

TYPE, BOUND, OCCURS = "TypeConstraintViolation", "PropertyConstraintViolation", "OccurenceConstraintViolation"

# The kind of each report.
KINDS = {"DiagnosticsStatusNotification": "Diagnostics", "FirmwareStatusNotification": "Firmware"}

# No answer, and no change.
SILENT = [(None, None)]

POLICIES = ("Accepted", "Pending", "Rejected")

NOT_SUPPORTED = (
    "CancelReservation ChangeAvailability ChangeConfiguration ClearCache ClearChargingProfile GetCompositeSchedule "
    "GetConfiguration GetDiagnostics GetLocalListVersion RemoteStartTransaction RemoteStopTransaction ReserveNow Reset "
    "SendLocalList SetChargingProfile TriggerMessage UnlockConnector UpdateFirmware"
).split()

STRICT_TIME = re.compile(r"(\d{4}-\d\d-\d\dT\d\d:\d\d:\d\d)(?:\.(\d{1,9}))?(?:Z|([+-])(\d\d):(\d\d))", re.ASCII)
STRING = re.compile(r'"(?:[^"\\]|\\.)*"', re.DOTALL)


class Unread(Exception):
    """The text isn't JSON as it is read."""


def whole(digits):
    """A number without point and exponent: an integer where 64 bits hold it, signed or unsigned."""
    if digits != "-0" and len(digits) <= 20 and -(2**63) <= int(digits) < 2**64:
        return int(digits)
    return real(digits)


def real(digits):
    number = float(digits)
    if math.isinf(number):
        raise ValueError("too large")
    return number


def no_constant(name):
    raise ValueError(name)


def depth(text):
    """How many arrays and objects of a JSON text are within one another at most."""
    if text.count("[") + text.count("{") < 128:
        return 0
    most = level = 0
    for mark in re.findall(r"[\[\]{}]", STRING.sub("", text)):
        level += 1 if mark in "[{" else -1
        most = max(most, level)
    return most


def has_lone_surrogate(text):
    """Whether a string of a JSON text has one."""
    if "\\ud" not in text and "\\uD" not in text:
        return False
    try:
        for string in STRING.findall(text):
            json.loads(string, strict=False).encode()
    except UnicodeEncodeError:
        return True
    return False


def read_json(data):
    """The value of a JSON text; floats are no integers, and of equal names the last counts."""
    try:
        text = data.decode()
        value = json.loads(text, parse_int=whole, parse_float=real, parse_constant=no_constant)
    except (ValueError, RecursionError):
        raise Unread from None
    if depth(text) > 127 or has_lone_surrogate(text):
        raise Unread
    return value


def written(value):
    """JSON as it is written: without blanks, members in the order of their names."""
    return json.dumps(value, ensure_ascii=False, sort_keys=True, separators=(",", ":"))


def time_of(text):
    """The milliseconds since 1970 of a time in the usual form; None of any other text, which may be a time or not."""
    form = STRICT_TIME.fullmatch(text)
    if not form or not "0001" < text[:4] < "9999" or form[0].endswith("-00:00"):
        return None
    clock, fraction, sign, hours, minutes = form.groups()
    try:
        at = datetime.fromisoformat(clock).replace(tzinfo=timezone.utc)
    except ValueError:
        return None
    if sign:
        if int(hours) > 23 or int(minutes) > 59:
            return None
        away = timedelta(hours=int(hours), minutes=int(minutes))
        at += away if sign == "-" else -away
    seconds = (at - datetime(1970, 1, 1, tzinfo=timezone.utc)) // timedelta(seconds=1)
    return seconds * 1000 + int((fraction or "0").ljust(9, "0")) // 10**6


# A kind yields what may come of a value: a fault, as its code and the member's name (None: the member's own), or None,
# where the value may be taken. It yields both only of a time that may be read or not.


def text(most=None):
    def kind(value):
        if type(value) is not str:
            yield TYPE, None
        else:
            yield (BOUND, None) if most is not None and len(value) > most else None

    return kind


def integer(least, last):
    def kind(value):
        if type(value) is not int:
            yield TYPE, None
        else:
            yield None if least <= value <= last else (BOUND, None)

    return kind


def choice(names):
    taken = set(names.split())

    def kind(value):
        if type(value) is not str:
            yield TYPE, None
        else:
            yield None if value in taken else (BOUND, None)

    kind.names = names.split()
    return kind


def boolean(value):
    yield None if type(value) is bool else (TYPE, None)


def time(value):
    if type(value) is not str or not re.search("[0-9]", value):
        yield TYPE, None
    elif time_of(value) is not None:
        yield None
    else:
        yield TYPE, None
        yield None


def each(values, outcomes):
    """What may come of values that are read one after the other."""
    for value in values:
        taken = False
        for fault in outcomes(value):
            taken = taken or fault is None
            if fault:
                yield fault
        if not taken:
            return
    yield None


def list_of(item, least=0):
    def kind(value):
        if type(value) is not list:
            yield TYPE, None
        elif len(value) < least:
            yield OCCURS, None
        else:
            yield from each(value, item)

    return kind


def object_of(*table):
    def kind(value):
        if type(value) is dict:
            yield from outcomes(table, value)
        else:
            yield TYPE, None

    kind.table = table
    return kind


def choices(table):
    """The names that each choice of a table has."""
    return {name: kind.names for name, kind, _ in table if hasattr(kind, "names")}


def outcomes(table, members):
    """What may come of an object by its table, whose lines are a name, a kind, and whether it is required."""

    def of_line(line):
        name, kind, is_required = line
        value = members.get(name)
        if value is None:
            yield (OCCURS, name) if is_required else None
        else:
            for fault in kind(value):
                yield fault and (fault[0], fault[1] or name)

    return each(table, of_line)


INT_32, INT_64 = integer(-(2**31), 2**31 - 1), integer(-(2**63), 2**63 - 1)
FROM_0, FROM_1 = integer(0, 255), integer(1, 255)

SAMPLED_VALUE = object_of(
    ("value", text(), True),
    (
        "context",
        choice(
            "Interruption.Begin Interruption.End Other Sample.Clock Sample.Periodic Transaction.Begin Transaction.End "
            "Trigger"
        ),
        False,
    ),
    ("format", choice("Raw SignedData"), False),
    (
        "measurand",
        choice(
            "Current.Export Current.Import Current.Offered Energy.Active.Export.Register Energy.Active.Import.Register "
            "Energy.Reactive.Export.Register Energy.Reactive.Import.Register Energy.Active.Export.Interval "
            "Energy.Active.Import.Interval Energy.Reactive.Export.Interval Energy.Reactive.Import.Interval Frequency "
            "Power.Active.Export Power.Active.Import Power.Factor Power.Offered Power.Reactive.Export "
            "Power.Reactive.Import RPM SoC Temperature Voltage"
        ),
        False,
    ),
    ("phase", choice("L1 L2 L3 N L1-N L2-N L3-N L1-L2 L2-L3 L3-L1"), False),
    ("location", choice("Body Cable EV Inlet Outlet"), False),
    (
        "unit",
        choice("Wh kWh varh kvarh W kW VA kVA var kvar A V Celsius Celcius Fahrenheit K Percent"),
        False,
    ),
)
METER_VALUE = object_of(("timestamp", time, True), ("sampledValue", list_of(SAMPLED_VALUE, 1), True))

REQUESTS = {
    "Authorize": [("idTag", text(20), True)],
    "BootNotification": [
        ("chargeBoxSerialNumber", text(25), False),
        ("chargePointModel", text(20), True),
        ("chargePointSerialNumber", text(25), False),
        ("chargePointVendor", text(20), True),
        ("firmwareVersion", text(50), False),
        ("iccid", text(20), False),
        ("imsi", text(20), False),
        ("meterSerialNumber", text(25), False),
        ("meterType", text(25), False),
    ],
    "DataTransfer": [("vendorId", text(255), True), ("messageId", text(50), False), ("data", text(), False)],
    "DiagnosticsStatusNotification": [("status", choice("Idle Uploaded UploadFailed Uploading"), True)],
    "FirmwareStatusNotification": [
        (
            "status",
            choice("Downloaded DownloadFailed Downloading Idle InstallationFailed Installing Installed"),
            True,
        ),
    ],
    "Heartbeat": [],
    "MeterValues": [
        ("connectorId", FROM_0, True),
        ("transactionId", INT_32, False),
        ("meterValue", list_of(METER_VALUE, 1), True),
    ],
    "StartTransaction": [
        ("connectorId", FROM_1, True),
        ("idTag", text(20), True),
        ("meterStart", INT_64, True),
        ("reservationId", INT_32, False),
        ("timestamp", time, True),
    ],
    "StatusNotification": [
        ("connectorId", FROM_0, True),
        (
            "errorCode",
            choice(
                "ConnectorLockFailure EVCommunicationError GroundFailure HighTemperature InternalError "
                "LocalListConflict NoError OtherError OverCurrentFailure OverVoltage PowerMeterFailure "
                "PowerSwitchFailure ReaderFailure ResetFailure UnderVoltage WeakSignal"
            ),
            True,
        ),
        ("info", text(50), False),
        (
            "status",
            choice(
                "Available Preparing Charging SuspendedEVSE SuspendedEV Finishing Reserved Unavailable Faulted"
            ),
            True,
        ),
        ("timestamp", time, False),
        ("vendorId", text(255), False),
        ("vendorErrorCode", text(50), False),
    ],
    "StopTransaction": [
        ("idTag", text(20), False),
        ("meterStop", INT_64, True),
        ("timestamp", time, True),
        ("transactionId", INT_32, True),
        (
            "reason",
            choice(
                "DeAuthorized EmergencyStop EVDisconnected HardReset Local Other PowerLoss Reboot Remote SoftReset "
                "UnlockCommand"
            ),
            False,
        ),
        ("transactionData", list_of(METER_VALUE), False),
    ],
}


def status(names):
    return [("status", choice(names), True)]


ANSWERS = {
    "ChangeAvailability": status("Accepted Rejected Scheduled"),
    "ChangeConfiguration": status("Accepted Rejected RebootRequired NotSupported"),
    "ClearCache": status("Accepted Rejected"),
    "DataTransfer": status("Accepted Rejected UnknownMessageId UnknownVendorId") + [("data", text(), False)],
    "GetConfiguration": [
        (
            "configurationKey",
            list_of(object_of(("key", text(50), True), ("readonly", boolean, True), ("value", text(500), False))),
            False,
        ),
        ("unknownKey", list_of(text(50)), False),
    ],
    "GetLocalListVersion": [("listVersion", INT_32, True)],
    "RemoteStartTransaction": status("Accepted Rejected"),
    "ReserveNow": status("Accepted Faulted Occupied Rejected Unavailable"),
    "Reset": status("Accepted Rejected"),
    "SendLocalList": status("Accepted Failed NotSupported VersionMismatch"),
    "TriggerMessage": status("Accepted Rejected NotImplemented"),
    "UnlockConnector": status("Unlocked UnlockFailed NotSupported"),
}


def key_of(tag):
    """The key of a tag: its ASCII letters are lowered."""
    return tag.encode().lower().decode()


def instant(moment):
    return datetime.fromtimestamp(moment, timezone.utc).strftime("%Y-%m-%dT%H:%M:%SZ")


def send(*items):
    return "send " + written(items)


def error(name, code, description=""):
    """An error that answers a call, and changes nothing."""
    return send(4, name, code, description, {}), None


def readings_in(values):
    return sum(len(value["sampledValue"]) for value in values)


class Station:
    """What counts of a station for the answers to its frames."""

    def __init__(self, policy, state="Fresh", is_connected=True, repairs=None):
        self.policy, self.state, self.is_connected = policy, state, is_connected
        # what a tolerant reader repairs, the module repair_rules
        self.repairs = repairs
        self.last = self.readings = 0
        self.starts = {}
        self.open = set()
        self.reports = {}
        self.called = 0
        self.flight = None

    def may_send(self, action):
        if self.state in ("Fresh", "Rejected"):
            return action == "BootNotification"
        return self.state == "Accepted" or action not in ("Authorize", "StartTransaction")


class Operator:
    """An operator whose stations send frames. `after` gives what may follow a frame: pairs of the line, without the
    names of the operator and of the station, or None, and of what it changes here, a function or None."""

    def __init__(self, tags=(), interval=300):
        self.tags = {key_of(tag[0]): tag for tag in tags}
        self.interval = interval
        self.stations = {}
        self.used = {}

    def after(self, name, data, moment):
        station = self.stations.get(name)
        if station is None or not station.is_connected:
            return [("turned", None)]
        try:
            items = read_json(data)
        except Unread:
            return SILENT
        if type(items) is not list or len(items) < 2 or type(items[0]) is not int or type(items[1]) is not str:
            return SILENT
        if items[0] == 2:
            return self.after_call(name, items, data, moment)
        return after_answer(station, items)

    def after_call(self, name, items, data, moment):
        station, number = self.stations[name], items[1]
        if len(items) != 4 or type(items[2]) is not str or type(items[3]) not in (dict, type(None)) or len(number) > 36:
            return [error(number, "FormationViolation")]
        action, payload = items[2], items[3] or {}
        if action in NOT_SUPPORTED:
            return [error(number, "NotSupported")]
        if action not in REQUESTS:
            return [error(number, "NotImplemented")]
        if not station.may_send(action):
            return [error(number, "SecurityError")]
        found = []
        for fault in outcomes(REQUESTS[action], payload):
            if not fault:
                found += self.answered(name, items, payload, moment)
            elif station.repairs:
                found += self.after_repair(name, items, data, moment, fault)
            else:
                found.append(error(number, *fault))
        return found

    def answered(self, name, items, payload, moment):
        taken = self.taken(name, items[2], payload, moment)
        return [(send(3, items[1], answer), change) for answer, change in taken]

    def after_repair(self, name, items, data, moment, fault):
        """What may follow a call that the strict reader refuses for that fault. A repair is told in a line of its own."""
        repairs, action = self.stations[name].repairs, items[2]
        payload, told = repairs.repaired(action, data, moment), f"repaired {action} {fault[0]} {fault[1]}\n"
        found = []
        for other in repairs.faults_of(action, payload):
            if other:
                found.append(error(items[1], *other))
            else:
                found += [(told + line, change) for line, change in self.answered(name, items, payload, moment)]
        return found

    def taken(self, name, action, payload, moment):
        """What may be answered to a call whose payload is taken, and what it changes."""
        station = self.stations[name]
        if action == "BootNotification":
            answer = {"currentTime": instant(moment), "interval": self.interval, "status": station.policy}
            return [(answer, lambda: setattr(station, "state", station.policy))]
        if action == "Heartbeat":
            return [({"currentTime": instant(moment)}, None)]
        if action == "Authorize":
            return [({"idTagInfo": self.judged(payload["idTag"], moment)}, None)]
        if action == "DataTransfer":
            return [(echoed(payload), None)]
        if action == "StartTransaction":
            return self.started(name, payload, moment)
        if action == "StopTransaction":
            tag = payload.get("idTag")
            answer = {} if tag is None else {"idTagInfo": self.judged(tag, moment)}
            return [(answer, lambda: self.stop(name, payload))]
        if action in KINDS:
            return [({}, lambda: station.reports.update({KINDS[action]: (payload["status"], moment)}))]
        more = readings_in(payload["meterValue"]) if action == "MeterValues" else 0
        return [({}, lambda: setattr(station, "readings", station.readings + more))]

    def judged(self, tag, moment, start=None):
        """The judgement of a tag; of a start, which is the pair of its station and its number, for that start."""
        key = key_of(tag)
        if key not in self.tags:
            return {"status": "Invalid"}
        _, parent, is_blocked, expiry = self.tags[key]
        above = parent and self.tags.get(key_of(parent))
        found = "Accepted"
        if is_blocked or (above and above[2]):
            found = "Blocked"
        elif expiry is not None and moment >= expiry:
            found = "Expired"
        elif start and self.used.get(key, set()) - {start}:
            found = "ConcurrentTx"
        info = {"status": found, "parentIdTag": parent, "expiryDate": None if expiry is None else instant(expiry)}
        return {name: value for name, value in info.items() if value is not None}

    def started(self, name, payload, moment):
        """A start is repeated or new. It may be both where a time isn't in the usual form."""
        station = self.stations[name]
        start = payload["connectorId"], key_of(payload["idTag"]), payload["meterStart"]
        at = time_of(payload["timestamp"])
        found = []

        def answer(number):
            return {"idTagInfo": self.judged(payload["idTag"], moment, (name, number)), "transactionId": number}

        for number, before in station.starts.get(start, []):
            if at == before and at is not None:
                return [*found, (answer(number), None)]
            if at is None or before is None:
                found.append((answer(number), None))
        new = answer(station.last + 1)
        return [*found, (new, lambda: self.begin(name, start, at, new["idTagInfo"]["status"]))]

    def begin(self, name, start, at, found):
        station = self.stations[name]
        station.last += 1
        station.starts.setdefault(start, []).append((station.last, at))
        station.open.add(station.last)
        if found == "Accepted":
            self.used.setdefault(start[1], set()).add((name, station.last))

    def stop(self, name, payload):
        station, number = self.stations[name], payload["transactionId"]
        if number in station.open:
            station.open.remove(number)
            station.readings += readings_in(payload.get("transactionData") or [])
            for starts in self.used.values():
                starts.discard((name, number))


def echoed(payload):
    """The answer to a DataTransfer."""
    if payload["vendorId"] != "org.example.echo":
        return {"status": "UnknownVendorId"}
    if payload.get("messageId") not in (None, "echo"):
        return {"status": "UnknownMessageId"}
    data = payload.get("data")
    return {"status": "Accepted"} if data is None else {"data": data, "status": "Accepted"}


def after_answer(station, items):
    """What may follow a result or an error: the end of the call in flight, or nothing."""
    if not station.flight or items[1] != str(station.flight[0]):
        return SILENT
    number, action = station.flight

    def end():
        station.flight = None

    if items[0] == 4 and len(items) in (4, 5) and type(items[2]) is str and type(items[3]) in (str, type(None)):
        return [(f"done {number} Error {written([items[2], items[3] or ''])}", end)]
    if items[0] != 3 or len(items) != 3 or type(items[2]) not in (dict, type(None)):
        return SILENT
    found = []
    for fault in outcomes(ANSWERS[action], items[2] or {}):
        if fault:
            found.append((f"done {number} BadAnswer {fault[0]} {fault[1]}", end))
        else:
            found.append((f"done {number} Answer {written(known(action, items[2] or {}))}", end))
    return found


def known(action, payload):
    """The members of an answer that its action has."""
    members = {name: payload[name] for name, _, _ in ANSWERS[action] if payload.get(name) is not None}
    if "configurationKey" in members:
        members["configurationKey"] = [
            {name: entry[name] for name in ("key", "readonly", "value") if entry.get(name) is not None}
            for entry in members["configurationKey"]
        ]
    return members
