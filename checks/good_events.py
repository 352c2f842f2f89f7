"""Good events of two operators and their stations, for hostile.py."""

BOOT = '[2,"b","BootNotification",{"chargePointModel":"M","chargePointVendor":"V"}]'
WHEN = "2024-01-01T00:00:00Z"
LISTINGS = ("connectors", "transactions", "readings", "reservations", "locallist", "reports")


class Script:
    """`before` sets up, each of `groups` is a moment and lines with nothing in between, `after` lists all."""

    begin = 1704067200

    # Name, policy, state, whether it is connected.
    stations = [
        ("S1", "Accepted", "Accepted", True),
        ("S2", "Accepted", "Accepted", True),
        ("S3", "Accepted", "Accepted", True),
        ("S4", "Pending", "Pending", True),
        ("S5", "Rejected", "Rejected", True),
        ("S6", "Accepted", "Fresh", True),
        ("S7", "Accepted", "Fresh", False),
    ]

    def __init__(self, rounds):
        self.before, self.groups = [], []
        self.called, self.begun, self.frames = {}, {}, 0
        self.moment = self.begin
        for operator in ("ACME", "BETA"):
            self.before += self.set_up(operator)
        for turn in range(rounds):
            for operator in ("ACME", "BETA"):
                self.records(operator, turn)
                self.session(operator, f"S{turn % 3 + 1}", turn)
                self.commands(operator, f"S{turn % 3 + 1}", turn)
        self.end = self.moment + 100
        self.after = [line for operator in ("ACME", "BETA") for line in self.listings(operator)]

    def lines(self):
        return [*self.before, *(line for _, lines in self.groups for line in lines), *self.after]

    def set_up(self, operator):
        other = "BETA" if operator == "ACME" else "ACME"
        for tag in ("K0 - 0 -", "K1 K0 0 -", "K2 - 0 2000000000", "K3 K1 0 -", "BLOCKED - 1 -", "OLD - 0 5"):
            yield f"{self.begin} {operator} tag put {tag}"
        yield f"{self.begin} {operator} tag put {operator} - 0 -"
        yield f"{self.begin} {operator} grant {operator} {other} -"
        for name, policy, state, is_connected in self.stations:
            yield f"{self.begin} {operator} station add {name} {policy} 300"
            if is_connected:
                yield f"{self.begin} {operator} connect {name}"
            if state != "Fresh":
                yield f"{self.begin} {operator} frame {name} {BOOT}"

    def group(self, *lines):
        self.moment += 1
        self.groups.append((self.moment, [f"{self.moment} {line}" for line in lines]))

    def frame(self, operator, station, action, payload):
        self.frames += 1
        self.group(f'{operator} frame {station} [2,"g{self.frames}","{action}",{payload}]')

    def command(self, operator, station, action, payload, answer=None):
        """A command, and in a group of its own the answer, or a tick at which it is too late for one."""
        number = self.called[operator, station] = self.called.get((operator, station), 0) + 1
        self.group(f"{operator} call {station} {action} {payload}")
        if answer is None:
            self.moment += 30
            self.group("* tick")
        else:
            self.group(f'{operator} frame {station} [3,"{number}",{answer}]')

    def records(self, operator, turn):
        other = "BETA" if operator == "ACME" else "ACME"
        self.group(f"{operator} tag put T{turn} K0 {turn % 2} -")
        self.group(f"{operator} grant T{turn} {other} {self.moment + 1000}")
        self.group(f"{operator} station add D{turn % 2} Pending 300")
        self.group(f"{operator} station drop D{turn % 2}")
        if turn % 3 == 2:
            self.group(f"{operator} revoke T{turn - 1} {other}")
            self.group(f"{operator} tag drop T{turn - 2}")
        if turn % 6 == 5:
            self.group(f"{operator} disconnect S2", f"{operator} connect S2")
        self.group(f"{operator} station policy S3 Accepted {turn}")
        self.group(f"{operator} station reader S3 strict")
        self.frame(operator, "S3", "BootNotification", f'{{"chargePointModel":"M{turn}","chargePointVendor":"V"}}')
        self.frame(operator, "S4", "Heartbeat", "{}")

    def session(self, operator, station, turn):
        """A transaction with readings; each tenth stays open, each tenth is closed by its operator, and one of five begins with
        a tag of the other operator. After each twelfth what is old is forgotten."""
        number = self.begun[operator, station] = self.begun.get((operator, station), 0) + 1
        other = "BETA" if operator == "ACME" else "ACME"
        values = f'[{{"timestamp":"{WHEN}","sampledValue":[{{"value":"{turn}.5","unit":"kWh"}},{{"value":"é"}}]}}]'
        status = '"errorCode":"NoError","status":"Charging","info":"\\u00e9","timestamp":"2024-01-01T01:00:00+01:00"'
        self.frame(operator, station, "StatusNotification", f'{{"connectorId":{turn % 4},{status}}}')
        uploaded = ("Uploading", "UploadFailed", "Uploaded", "Idle")[turn % 4]
        self.frame(operator, station, "DiagnosticsStatusNotification", f'{{"status":"{uploaded}"}}')
        if turn % 2:
            self.frame(operator, station, "FirmwareStatusNotification", '{"status":"Installed"}')
        for tag in (f"K{turn % 4}", other, "BLOCKED", "nobody"):
            self.frame(operator, station, "Authorize", f'{{"idTag":"{tag}"}}')
        reserve = f'"connectorId":1,"expiryDate":"2030-01-01T00:00:00Z","idTag":"K0","reservationId":{turn}'
        self.command(operator, station, "ReserveNow", f"{{{reserve}}}", '{"status":"Accepted"}')
        tag = other if turn % 5 == 1 else f"K{turn % 4}"
        start = f'"connectorId":1,"idTag":"{tag}","meterStart":{turn},"timestamp":"{WHEN}"'
        named = f',"reservationId":{turn}' if turn % 2 else ""
        self.frame(operator, station, "StartTransaction", f"{{{start}{named}}}")
        members = f'"connectorId":1,"transactionId":{number},"meterValue":{values}'
        self.frame(operator, station, "MeterValues", f"{{{members}}}")
        if turn % 5 != 4:
            stop = f'"meterStop":99,"timestamp":"{WHEN}","transactionId":{number},"transactionData":{values}'
            self.frame(operator, station, "StopTransaction", f"{{{stop}}}")
        elif turn % 2:
            self.group(f"{operator} transaction close {station} {number} {'-' if turn % 4 == 1 else turn}")
        if turn % 12 == 11:
            self.group(f"{operator} forget {station} {self.moment - 100}{' 999 99' if turn % 24 == 11 else ''}")

    def commands(self, operator, station, turn):
        entry = f'{{"idTag":"L{turn % 7}","idTagInfo":{{"status":"Accepted","parentIdTag":"K0"}}}}'
        kind = "Differential" if turn % 4 else "Full"
        update = f'"listVersion":{turn + 1},"localAuthorizationList":[{entry}],"updateType":"{kind}"'
        self.command(operator, station, "SendLocalList", f"{{{update}}}", '{"status":"Accepted"}')
        unlocked = None if turn % 6 == 3 else '{"status":"Unlocked"}'
        self.command(operator, station, "UnlockConnector", '{"connectorId":1}', unlocked)
        if turn % 4 == 2:
            self.command(operator, station, "CancelReservation", f'{{"reservationId":{turn}}}', '{"status":"Accepted"}')

    def listings(self, operator):
        for what in ("stations", "readers", "connections", "tags", "grants", "granted", "uses", "open"):
            yield f"{self.end} {operator} list {what}"
        for what in LISTINGS:
            for name, *_ in self.stations:
                yield f"{self.end} {operator} list {what} {name}"
