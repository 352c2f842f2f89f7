"""Cases of the forms: the lines that they send, what they say, and what changes on the page."""

import json
import socket
import time

from desk_cases import opened
from mock_server import NOW, START

TAKEN = "Taken."
HELD = "Taken. It, or a tag whose parent it is, is in 1 local list."
UNHELD = "Taken. It is in no local list of a station."
DROP = ("Forget its history first. This can't be undone: its connectors, reservations, local list and reports go with it. Its last session and the "
        "readings that it sent last stay on record and aren't listed, so that the numbers of a station that is added again go on.")
NOT_DROPPED = "Refused, NotAllowedNow: the station is connected, or history of it is left to forget."
ENDS = [
    ('Answer {"status":"Rejected"}', "Done: Rejected"), ("Timeout", "Timeout: no answer within 30 s"),
    ("Disconnected", "Disconnected: the station has left"), ('Error ["NotSupported","no such thing"]', "Error: NotSupported, no such thing"),
    ("BadAnswer OccurenceConstraintViolation status", "Invalid answer: OccurenceConstraintViolation status"),
]


def check_orders(cases):
    """Forms of tags, grants and stations."""
    _, mock = opened(cases)
    wanted = [
        ("tags", "tags", "Put an id tag", None, dict(tag="K7", parent="P1", until="2024-01-01T01:00:00", blocked=True), TAKEN, "tag put K7 P1 1 1704067200"),
        ("tags", "tags", "Put an id tag", None, dict(tag="K9"), TAKEN, "tag put K9 - 0 -"),
        ("tags", "tags", "Change", "K2", dict(parent=""), HELD, f"tag put K2 - 0 {START // 1000 + 3650 * 86400}"),
        ("tags", "tags", "Block", "K1", {}, HELD, "tag put K1 - 1 -"),
        ("tags", "tags", "Unblock", "K3", {}, UNHELD, "tag put K3 - 0 -"),
        ("tags", "tags", "Grant", "K1", dict(receiver="BETA", until=""), TAKEN, "grant K1 BETA -"),
        ("tags", "tags", "Grant", "K1", dict(receiver="ACME"), "Refused, SelfGrant: a tag cannot be granted to its own operator.", "grant K1 ACME -"),
        ("tags", "grants", "Grant an id tag", None, dict(tag="K2", receiver="GAMMA", until="2024-07-01T02:00:00"), TAKEN, "grant K2 GAMMA 1719792000"),
        ("tags", "grants", "Revoke", "K1", {}, "closed", "revoke K1 BETA"),
        ("tags", "tags", "Drop", "K9", {}, UNHELD, "tag drop K9"),
        ("stations", "stations", "Add a station", None, dict(station="S9", policy="Pending", interval="60"), TAKEN, "station add S9 Pending 60"),
        ("stations", "stations", "Add a station", None, dict(station="S9"), "Refused, StationExists: this operator already has a station of that name.",
         "station add S9 Accepted 300"),
        ("station/S9", "others", "Set its policy", None, dict(policy="Rejected", interval="0"), TAKEN, "station policy S9 Rejected 0"),
        ("station/NORTH-01", "others", "Set its policy", None, dict(policy="Rejected"),
         "Refused, HasOpenTransactions: the station has an open transaction.", "station policy NORTH-01 Rejected 300"),
        ("station/S9", "others", "Set its reader", None, dict(reader="tolerant"), TAKEN, "station reader S9 tolerant"),
        ("station/S9", "others", "Set its reader", None, dict(reader="strict"), TAKEN, "station reader S9 strict"),
        ("stations", "sessions", "Close", "NORTH-01 / 2", {}, "closed", "transaction close NORTH-01 2 130856"),
    ]
    for view, section, button, row, values, said, line in wanted:
        cases.go(view)
        seen = cases.order(section, button, values, row)
        cases.check(f"{line}: what the form says", seen == said, seen)
        cases.check(f"{line}: the line", line in mock.heard, mock.heard[-3:])
    cases.go("tags")
    tags = [row[:3] for row in cases.rows("tags")]
    cases.check("the tables have the changes", tags == [
        ["K1", "–", "Blocked"], ["K2", "–", "Accepted"], ["K3", "–", "Accepted"], ["K7", "P1", "Blocked"], ["P1", "–", "Accepted"]], tags)
    cases.check("and the grants", [row[:2] for row in cases.rows("grants")] == [["K2", "BETA"], ["K2", "GAMMA"]], cases.rows("grants"))
    cases.go("stations")
    cases.check("and the stations", cases.rows("stations")[-1][0] == "S9", cases.rows("stations"))
    cases.check("and no session that was closed", cases.rows("sessions") == [], cases.rows("sessions"))
    mock.stop()


def check_commands(cases):
    """A form for each command of stations."""
    _, mock = opened(cases)
    cases.go("station/NORTH-01")
    wanted = [
        ("commands", "Start a session", dict(idTag="K1"), {"idTag": "K1"}, "RemoteStartTransaction"),
        ("commands", "Start a session", dict(idTag="K1", connectorId="2"), {"connectorId": 2, "idTag": "K1"}, "RemoteStartTransaction"),
        ("commands", "Stop a session", {}, {"transactionId": 2}, "RemoteStopTransaction"),
        ("commands", "Cancel a reservation", dict(reservationId="4"), {"reservationId": 4}, "CancelReservation"),
        ("commands", "Unlock a connector", dict(connectorId="3"), {"connectorId": 3}, "UnlockConnector"),
        ("commands", "Change availability", dict(connectorId="0", type="Inoperative"), {"connectorId": 0, "type": "Inoperative"}, "ChangeAvailability"),
        ("commands", "Reset the station", dict(type="Hard"), {"type": "Hard"}, "Reset"),
        ("commands", "Ask for a message", dict(requestedMessage="MeterValues", connectorId="1"), {"connectorId": 1, "requestedMessage": "MeterValues"}, "TriggerMessage"),
        ("commands", "Ask for a message", dict(requestedMessage="Heartbeat"), {"requestedMessage": "Heartbeat"}, "TriggerMessage"),
        ("others", "Read the configuration", {}, {}, "GetConfiguration"),
        ("others", "Read the configuration", dict(key="A\n B \n\n"), {"key": ["A", "B"]}, "GetConfiguration"),
        ("others", "Change the configuration", dict(key="A", value='x "y"'), {"key": "A", "value": 'x "y"'}, "ChangeConfiguration"),
        ("others", "Clear the cache of id tags", {}, {}, "ClearCache"),
        ("others", "Send vendor data", dict(vendorId="org.example", data="a\nb"), {"data": "a\nb", "vendorId": "org.example"}, "DataTransfer"),
        ("others", "Ask for the version of the local list", {}, {}, "GetLocalListVersion"),
        ("ownReports", "Ask for a report", {}, {"requestedMessage": "FirmwareStatusNotification"}, "TriggerMessage"),
    ]
    for section, button, values, payload, action in wanted:
        said = cases.order(section, button, values)
        more = "The station has not left yet." if action == "Reset" else ""
        cases.check(f"{action}: its end is said", said == f"Call {mock.calls}: Done: Accepted.{more}", said)
        line = f"call NORTH-01 {action} {json.dumps(payload, separators=(',', ':'))}"
        cases.check(f"{action}: the line", mock.heard.count(line) == 1, [one for one in mock.heard if one.startswith("call")][-1])
    check_holdings(cases, mock)
    check_ends(cases, mock)
    mock.stop()


def check_holdings(cases, mock):
    """Reservations and local lists."""
    cases.check("the reservation is gone", cases.is_at_rest() and cases.rows("ownReservations") == [], cases.rows("ownReservations"))
    values = dict(connectorId="3", idTag="K 1", parentIdTag="P1", expiryDate="2027-01-01T01:00:00", reservationId="9")
    cases.order("ownReservations", "Reserve", values)
    line = 'call NORTH-01 ReserveNow {"connectorId":3,"expiryDate":"2027-01-01T00:00:00Z","idTag":"K 1","parentIdTag":"P1","reservationId":9}'
    cases.check("ReserveNow: the line", line in mock.heard, mock.heard[-4:])
    cases.is_at_rest()
    row = ["9", "3", "K 1", "P1", "2027-01-01 01:00:00 00:00:00 UTC", "Cancel"]
    cases.check("ReserveNow: the table", cases.rows("ownReservations") == [row], cases.rows("ownReservations"))
    cases.order("connectors", "Reserve", dict(idTag="K1"), "1")
    sent = json.loads(next(one for one in reversed(mock.heard) if "ReserveNow" in one).split(" ", 3)[3])
    cases.check("ReserveNow of a connector's row", (sent["connectorId"], sent["reservationId"]) == (1, 10), sent)
    soon = time.mktime(time.strptime(sent["expiryDate"], "%Y-%m-%dT%H:%M:%SZ")) - time.timezone
    cases.check("ReserveNow: for an hour", abs(soon - time.time() - 3600) < 60, sent)
    cases.is_at_rest()
    cases.order("ownReservations", "Cancel", {}, "9")
    cases.check("CancelReservation of a row", 'call NORTH-01 CancelReservation {"reservationId":9}' in mock.heard, mock.heard[-3:])
    check_list(cases, mock)


def check_list(cases, mock):
    """SendLocalList: its entries are rows, at first those on record."""
    browser = cases.browser
    cases.click("ownList", "Send a list")
    cases.click("fields", "Add an entry")
    cases.fill(dict(idTag="K9", status="Expired", parentIdTag="P1", expiryDate="2026-06-01T02:00:00"), 2)
    browser.run("document.querySelectorAll('#fields .entry button')[1].click()")
    cases.send()
    entries = [{"idTag": "K1", "idTagInfo": {"expiryDate": "2030-01-01T00:00:00Z", "status": "Accepted"}},
               {"idTag": "K9", "idTagInfo": {"expiryDate": "2026-06-01T00:00:00Z", "parentIdTag": "P1", "status": "Expired"}}]
    compact = json.dumps(entries, separators=(",", ":"))
    line = f'call NORTH-01 SendLocalList {{"listVersion":7,"localAuthorizationList":{compact},"updateType":"Full"}}'
    cases.check("SendLocalList: the line", line in mock.heard, mock.heard[-3:])
    browser.run("document.getElementById('form').close()")
    cases.is_at_rest()
    cases.check("SendLocalList: the table", [row[0] for row in cases.rows("ownList")] == ["K1", "K9"], cases.rows("ownList"))
    cases.click("ownList", "Send a list")
    cases.click("fields", "Remove all")
    cases.click("fields", "Add all id tags of this operator")
    browser.wait("document.querySelectorAll('#fields .entry').length > 0")
    tags = browser.run("[...document.querySelectorAll('#fields .entry [name=idTag]')].map(one => one.value)")
    statuses = browser.run("[...document.querySelectorAll('#fields .entry [name=status]')].map(one => one.value)")
    cases.check("all own tags at once", (tags, statuses) == (["K1", "K2", "K3", "P1"], ["Accepted", "Accepted", "Blocked", "Accepted"]), [tags, statuses])
    cases.fill(dict(status=""), 1)
    browser.run("document.getElementById('send').click()")
    fault = browser.run("document.querySelectorAll('#fields .entry [name=status]')[1].validationMessage")
    cases.check("a full list takes nothing off", fault == "A full list has nothing to take off.", fault)
    cases.fill(dict(updateType="Differential"))
    cases.send()
    sent = json.loads(mock.heard[-1 - mock.heard[::-1].index(next(one for one in reversed(mock.heard) if "SendLocalList" in one))].split(" ", 3)[3])
    cases.check("a differential one does", sent["localAuthorizationList"][1] == {"idTag": "K2"} and sent["listVersion"] == 8, sent)
    browser.run("document.getElementById('form').close()")


def check_ends(cases, mock):
    """How calls end, and refusals, are said at the form that made the order."""
    browser = cases.browser
    for outcome, text in ENDS:
        mock.outcome = outcome
        said = cases.order("commands", "Unlock a connector", {})
        cases.check(f"the end of a call: {outcome}", said == f"Call {mock.calls}: {text}.", said)
    mock.outcome = None
    said = cases.order("commands", "Unlock a connector", {}, stays=True)
    cases.check("a call that is taken", said == f"Taken as call {mock.calls}. The station has not answered yet.", said)
    cases.check("calls in flight are counted", browser.wait("document.getElementById('ended').textContent === 'Calls and log (1 in flight)'"))
    mock.outcome = 'Answer {"configurationKey":[{"key":"A","readonly":true,"value":"1"},{"key":"B","readonly":false}],"unknownKey":["C","D"]}'
    mock.end("NORTH-01", "UnlockConnector", "{}")
    pairs = "[...document.querySelectorAll('#answer dl div')].map(one => one.textContent)"
    cases.check("its end is said later", browser.wait(f"{pairs}.join() === 'A1 (read-only),B(no value),unknownKeyC, D'", 3), browser.run(pairs))
    browser.shot("form-answer", whole=False)
    browser.run("document.getElementById('form').close()")
    mock.outcome = 'Answer {"status":"Accepted"}'
    cases.go("station/NORTH-10")
    cases.click("commands", "Reset the station")
    note = cases.text("note")
    cases.check("a station without a connection is told", note.startswith("The station is offline, so the server will refuse this."), note)
    said = cases.send()
    cases.check("and the refusal is said at the form", said == "Refused, NotConnected: the station is not connected.", said)
    browser.run("document.getElementById('form').close()")
    cases.go("stations")
    mock.records.add = lambda *_: ["refused 12 BadField interval"]
    said = cases.order("stations", "Add a station", dict(station="S1"), stays=True)
    cases.check("a field that is refused is named", said == 'Refused, BadField: the field "Interval, s" is out of its limits (interval).', said)
    cases.check("and marked", browser.run("document.querySelector('#fields [aria-invalid]').name") == "interval")
    browser.shot("form-refused", whole=False)
    cases.fill(dict(interval="60"))
    cases.check("until it is changed", browser.run("document.querySelector('#fields [aria-invalid]') === null"))
    browser.run("document.getElementById('form').close()")
    cases.go("calls")
    cases.check("a line by hand", cases.free("list tags") == "Rows: 4", cases.text("said"))
    said = cases.free("lost stations")
    cases.check("a line of no form", said == "Refused, bad line: the server does not read this as an order.", said)


def forgotten(cases, values, stays=False):
    """Sends the form that forgets. Gives what it says once it sends no more."""
    browser = cases.browser
    cases.click("others", "Forget its history")
    cases.fill(values)
    browser.run("document.getElementById('send').click()")
    browser.wait("!/^(Sent\\.|Forgotten so far.*)?$/.test(document.getElementById('answer').textContent)")
    said = cases.text("answer")
    if not stays:
        browser.run("document.getElementById('form').close()")
    cases.is_at_rest()
    return said


def check_forget(cases):
    """A press forgets all that is old: it is sent as often as rows go, and what is left is listed from the start."""
    browser, mock = opened(cases)
    browser.run("{ const pace = document.getElementById('pace'); pace.value = '0'; pace.dispatchEvent(new Event('change')); }")
    for minute in range(2340):
        mock.records.reading("NORTH-01", 1, START - 7000000 + minute // 3, "SoC", "-", "Percent", 5000000, "5")
    mock.records.reading("NORTH-01", 2, NOW, "SoC", "-", "Percent", 6000000, "6")
    cases.go("station/NORTH-01/1")
    cases.check("what is old is shown", len(cases.rows("history")) == 2 and "1–15 of 2,340." in cases.text("readings"), cases.text("readings")[-200:])
    check_question(cases, mock)
    asked = len(mock.heard)
    mock.before = ["row forgotten NORTH-01 700 800", "ok", "row forgotten NORTH-01 0 0", "ok", "refused 12 BadField until"]
    browser.run("window.told = []; new MutationObserver(() => told.push(document.getElementById('answer').textContent))"
                ".observe(document.getElementById('answer'), { childList: true })")
    said = forgotten(cases, dict(until="2024-01-01T01:00:00"))
    mock.before = []
    cases.check("forget: what the form says", said == "1 session and 2,340 readings are forgotten.", said)
    wanted = [f"forget NORTH-01 {START // 1000}"] * 7 + ["list readings NORTH-01 1", "list transactions NORTH-01 1"]
    cases.check("forget: the lines, and what is listed anew", mock.heard[asked:] == wanted, mock.heard[asked:])
    told = [f"Forgotten so far: {text}. Closing this form stops it." for text in (
        # the 61 meter values of the running session are among the first 250
        *(f"0 sessions and {count} readings" for count in ("567", "1,134", "1,701", "2,268", "2,340")), "1 session and 2,340 readings")]
    cases.check("forget: what it tells in between", browser.run("told") == ["Sent.", *told, said], browser.run("told"))
    cases.check("forget: the sessions that are left", [row[0] for row in cases.rows("history")] == ["2"], cases.rows("history"))
    cases.check("forget: the readings are gone", cases.rows("readings") == [] and "No readings." in cases.text("readings"), cases.rows("readings"))
    cases.go("station/NORTH-01/2")
    cases.check("forget: those of the running session stay", "1–15 of 248." in cases.text("readings"), cases.text("readings")[-200:])
    said = forgotten(cases, dict(until="2024-01-01T01:00:01"))
    cases.check("forget: nothing is left", said == "Nothing was so old.", said)
    cases.check("forget: which is asked once", mock.heard.count(f"forget NORTH-01 {START // 1000 + 1}") == 1, mock.heard[-3:])
    check_forget_ends(cases, mock)
    mock.stop()


def check_question(cases, mock):
    """It isn't sent by the press that opens its form, and a second Enter closes the form."""
    browser = cases.browser
    cases.click("others", "Forget its history")
    note = cases.text("note")
    cases.check("forget: it asks first", note.startswith("Is all saved that is still needed? This can't be undone: export"), note)
    words = cases.text("preview").split(" ")
    cases.check("forget: 90 days at first", words[:2] == ["forget", "NORTH-01"] and abs(int(words[2]) - time.time() + 90 * 86400) < 60, words)
    cases.check("forget: what does harm isn't at hand", browser.run("document.activeElement.id") == "cancel", browser.run("document.activeElement.id"))
    browser.shot("form-forget", whole=False)
    browser.press("Enter", text="\r")
    cases.check("forget: Enter closes the form", browser.wait("!document.getElementById('form').open"))
    cases.click("others", "Forget its history")
    cases.fill(dict(until="2024-01-01T01:00:00", reading="7"))
    cases.check("forget: up to a reading", cases.text("preview") == f"forget NORTH-01 {START // 1000} 7 2147483647", cases.text("preview"))
    cases.fill(dict(reading="0", transaction="1"))
    cases.check("forget: up to a session", cases.text("preview") == f"forget NORTH-01 {START // 1000} 0 1", cases.text("preview"))
    cases.fill(dict(until=""))
    browser.run("document.getElementById('send').click()")
    cases.check("forget: the time is required", browser.run("document.querySelector('#fields [name=until]').validity.valueMissing"))
    browser.run("document.getElementById('form').close()")
    cases.is_at_rest()
    cases.check("forget: nothing was sent", not any(line.startswith("forget") for line in mock.heard), mock.heard[-3:])


def check_forget_ends(cases, mock):
    """Refusals, at first and after rows that went; a form that is closed; a connection that is lost."""
    browser, records = cases.browser, mock.records
    late = dict(until="2099-01-01T01:00:00")
    said = forgotten(cases, late, stays=True)
    cases.check("forget: a time to come is refused", said == 'Refused, BadField: the field "Before" is out of its limits (until).', said)
    cases.check("forget: and marked", browser.run("document.querySelector('#fields [aria-invalid]').name") == "until")
    cases.check("forget: and not sent again", mock.heard.count("forget NORTH-01 4070908800") == 1, mock.heard[-3:])
    browser.run("document.getElementById('form').close()")
    said = cases.free("forget NORTH-99 5")
    cases.check("forget: a station that isn't there", said == "Refused, NoSuchStation: this operator has no station of that name.", said)
    before = len(mock.heard)
    cases.check("forget: a line by hand", cases.free(f"forget NORTH-01 {START // 1000}") == "Rows: 1", cases.text("said"))
    cases.is_at_rest()
    cases.check("forget: after which all is listed too", "list transactions NORTH-01 1" in mock.heard[before:], mock.heard[before:])
    taken = ["row forgotten NORTH-01 1 999", "ok"]

    def answers(*kept):
        """Answers of the server, the last one as often as it is asked."""
        rest = list(kept)
        records.forget = lambda *_: rest.pop(0) if len(rest) > 1 else rest[0]

    answers(taken, taken, ["refused 1 NoSuchStation"])
    said = forgotten(cases, {})
    cases.check("forget: a refusal after rows that went", said == "Refused, NoSuchStation: this operator has no station of that name."
                "2 sessions and 1,998 readings are forgotten.", said)
    answers(["refused 1 NoSuchStation"])
    before = len(mock.heard)
    said = forgotten(cases, {})
    cases.check("forget: no such station", said == "Refused, NoSuchStation: this operator has no station of that name.", said)
    cases.check("forget: it is sent once", len(mock.heard) == before + 1, mock.heard[before:])
    check_broken_off(cases, mock, taken, answers)


def check_broken_off(cases, mock, taken, answers):
    browser = cases.browser
    answers(taken)
    cases.click("others", "Forget its history")
    browser.run("document.getElementById('send').click()")
    cases.check("forget: it goes on while rows go", browser.wait("/^Forgotten so far: [0-9,]{2,} sessions/.test(document.getElementById('answer').textContent)"))
    browser.run("document.getElementById('form').close()")
    cases.is_at_rest()
    sent = [line for line in mock.heard if line.startswith("forget")]
    time.sleep(0.3)
    cases.check("forget: a form that is closed stops it", [line for line in mock.heard if line.startswith("forget")] == sent, len(sent))
    cases.check("forget: what is left is listed then", sorted(mock.heard[-2:]) == ["list readings NORTH-01 2", "list transactions NORTH-01 1"], mock.heard[-3:])
    loss = [taken, taken]

    def lose(*_):
        if not loss:
            for peer in mock.peers:
                peer.request.shutdown(socket.SHUT_RDWR)
        return loss.pop() if loss else ["ok"]

    mock.records.forget = lose
    said = forgotten(cases, {})
    cases.check("forget: a loss is told", said == "The connection was lost before the answer. The order may have been taken."
                "2 sessions and 1,998 readings are forgotten.", said)
    mock.heard.clear()
    cases.check("connects again by itself", cases.is_connected())
    cases.is_at_rest()
    asked = [line for line in mock.heard if "transactions" in line]
    cases.check("forget: after a loss the sessions are listed from the start", asked == ["list transactions NORTH-01 1"], asked)
    cases.check("forget: and not taken up again", not any(line.startswith("forget") for line in mock.heard), mock.heard)


def dropped(cases, station):
    """Sends the form that drops a station. Gives what it said before and after."""
    cases.go(f"station/{station}")
    cases.click("others", "Drop the station")
    note, said = cases.text("note"), cases.send()
    cases.close()
    cases.is_at_rest()
    return note, said


def check_drop(cases):
    """A station is dropped once nothing stands in the way, and the page goes back to the others."""
    browser, mock = opened(cases)
    browser.run("{ const pace = document.getElementById('pace'); pace.value = '0'; pace.dispatchEvent(new Event('change')); }")
    mock.records.transaction("NORTH-10", 1, "K1", START, (131500, START + 1000, "Local", None))
    mock.records.transaction("NORTH-10", 2, "K1", START + 2000)
    for number in (1, 2):
        mock.records.reading("NORTH-10", number, START + 500, "SoC", "-", "Percent", 5000000, "5")
    cases.poll()
    check_kept(cases, mock)
    mock.records.close("NORTH-10", "2", "-")
    cases.poll()
    check_drop_question(cases, mock)
    seen = dropped(cases, "NORTH-10")
    cases.check("drop: history that is left", seen == (DROP, NOT_DROPPED), seen)
    cases.check("drop: the page stays where it is refused", browser.run("state.view") == "station")
    said = forgotten(cases, dict(until="2024-01-02T00:00:00"))
    cases.check("drop: its history goes first", said == "1 session and 1 reading are forgotten.", said)
    before = len(mock.heard)
    seen = dropped(cases, "NORTH-10")
    cases.check("drop: taken", seen == (DROP, "closed"), seen)
    cases.check("drop: the page goes to the stations", browser.run("[state.view, location.hash]") == ["stations", "#/stations"], browser.run("location.hash"))
    cases.check("drop: and lists them anew", mock.heard[before:] == ["station drop NORTH-10", "list stations", "list readers"], mock.heard[before:])
    cases.check("drop: it is gone", [row[0] for row in cases.rows("stations")] == ["NORTH-01", "NORTH-02", "ok"], cases.rows("stations"))
    cases.check("drop: and so is the way to it", browser.run("document.getElementById('opened').hidden"))
    browser.shot("dropped")
    check_added_again(cases, mock)
    check_drop_ends(cases, mock)
    mock.stop()


def check_kept(cases, mock):
    """What stands in the way is said beforehand, and the refusal after."""
    refusal = "Refused, HasOpenTransactions: the station has an open transaction."
    for station, bars, said in (("NORTH-01", "is connected and has 1 running session", refusal), ("NORTH-02", "is connected", NOT_DROPPED),
                                ("NORTH-10", "has 1 running session", refusal)):
        seen = dropped(cases, station)
        cases.check(f"drop: {station} {bars}", seen == (f"The station {bars}, so the server will refuse this. {DROP}", said), seen)
        cases.check(f"drop: the line for {station}", mock.heard.count(f"station drop {station}") == 1, mock.heard[-3:])
    cases.check("drop: nothing went", len(mock.records.rows["stations"]) == 4, mock.records.rows["stations"])


def check_drop_question(cases, mock):
    """It isn't sent by the press that opens its form, and a second Enter closes the form."""
    browser = cases.browser
    mock.heard.clear()
    cases.go("station/NORTH-10")
    cases.click("others", "Drop the station")
    cases.check("drop: the line is shown", cases.text("preview") == "station drop NORTH-10", cases.text("preview"))
    cases.check("drop: what does harm isn't at hand", browser.run("document.activeElement.id") == "cancel", browser.run("document.activeElement.id"))
    browser.shot("form-drop", whole=False)
    browser.size(420, 900)
    cases.fits("drop", 420)
    browser.shot("form-drop-420", whole=False)
    browser.size(1280, 900)
    browser.press("Enter", text="\r")
    cases.check("drop: Enter closes the form", browser.wait("!document.getElementById('form').open"))
    cases.check("drop: nothing was sent", not any(line.startswith("station drop") for line in mock.heard), mock.heard[-3:])


def check_added_again(cases, mock):
    """A station that is added under the name is a new one, whose numbers go on."""
    browser = cases.browser
    said = cases.order("stations", "Add a station", dict(station="NORTH-10"))
    row = next(row for row in cases.rows("stations") if row[0] == "NORTH-10")
    cases.check("drop: it can be added again", (said, row[:6]) == (TAKEN, ["NORTH-10", "Offline", "–", "–", "–", "Fresh"]), row)
    mock.heard.clear()
    cases.go("station/NORTH-10")
    cases.check("drop: all of it is listed", "list transactions NORTH-10 1" in mock.heard and "list connectors NORTH-10" in mock.heard, mock.heard)
    cases.check("drop: its last session is there again", [row[0] for row in cases.rows("history")] == ["2"], cases.rows("history"))
    cases.check("drop: and no connector", cases.rows("connectors") == [] and "No reports on connectors." in cases.text("connectors"), cases.text("connectors"))
    mock.records.unadd("NORTH-10")
    seen = dropped(cases, "NORTH-10")
    cases.check("drop: no such station", seen[1] == "Refused, NoSuchStation: this operator has no station of that name.", seen)
    browser.run("refreshAll()")
    cases.is_at_rest()
    cases.check("drop: by another console", cases.text("facts") == "This operator has no station of that name.", cases.text("facts"))
    cases.check("drop: whose records aren't shown", cases.rows("history") == [] and "Not loaded." in cases.text("history"), cases.text("history"))
    cases.go("tags")
    cases.check("drop: nor the way to it", browser.run("document.getElementById('opened').hidden"))


def check_drop_ends(cases, mock):
    """A form that is closed before the answer; lines by hand."""
    browser = cases.browser
    close = "document.getElementById('send').click(); document.getElementById('form').close()"
    drop = mock.records.unadd

    def drop_late(name):
        time.sleep(0.3)
        return drop(name)

    mock.records.unadd = drop_late
    for name, away, view in (("SOLD-1", "", "stations"), ("SOLD-2", "; location.hash = '#/tags'", "tags")):
        mock.records.station(name)
        browser.run("poll(true)")
        cases.is_at_rest()
        cases.go(f"station/{name}")
        cases.click("others", "Drop the station")
        browser.run(close + away)
        browser.wait(f"state.view === '{view}' && !stationNames().includes('{name}')", 3)
        cases.is_at_rest()
        seen = browser.run("[state.view, document.getElementById('opened').hidden]")
        cases.check(f"drop: a form that is closed, {view}", seen == [view, True], seen)
    cases.go("calls")
    said = cases.free("station drop NORTH-02")
    cases.check("drop: a refusal of a line by hand", said == NOT_DROPPED, said)
    cases.check("drop: a line by hand", cases.free("station drop ok") == TAKEN, cases.text("said"))
    cases.is_at_rest()
    cases.check("drop: after which the stations are listed too", browser.run("stationNames()") == ["NORTH-01", "NORTH-02"], browser.run("stationNames()"))
    mock.records.call = lambda _: ["refused 9 NotAllowedNow"]
    said = cases.free("call NORTH-01 ClearCache {}")
    cases.check("drop: that refusal of a call", said == "Refused, NotAllowedNow: the state of the station does not allow this command.", said)


CASES = (check_orders, check_commands, check_forget, check_drop)
