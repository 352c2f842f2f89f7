"""Cases of id tags: their status as it is judged, the entries of local lists that are made of them, and the local lists
that hold one that is blocked or dropped."""

import json

from desk_cases import opened
from mock_server import NOW
from records import small_records

PAST, LATER = NOW // 1000 - 60, NOW // 1000 + 86400


def family_records():
    """A blocked parent with a child, one whose parent is named in other letters, an expired tag, and three local lists."""
    records = small_records()
    records.tag("Fleet", None, 1)
    records.tag("Car1", "Fleet")
    records.tag("Car2", "FLEET", 0, PAST)
    records.tag("Old", "P1", 0, PAST)
    records.tag("New", None, 0, LATER)
    records.rows["granted"] = [f'granted BETA "B7" - 0 {PAST}', 'granted BETA "B8" - 1 -']
    records.grant("Old", "GAMMA", PAST)

    def entry(tag, status="Accepted", **more):
        return {"idTag": tag, "idTagInfo": {"status": status, **more}}

    records.local_list("NORTH-01", 6, [entry("K1"), entry("k3"), entry("KID", parentIdTag="P1"), entry("Gone", expiryDate="2024-01-01T00:00:00Z")])
    records.local_list("NORTH-02", 3, [entry("K1", "Blocked"), entry("K2")])
    records.local_list("NORTH-10", 2, [entry("K1")])
    return records


def check_judged(cases):
    """The tables tell the status of tags, and a list of all of them has the same."""
    browser, mock = opened(cases, records=family_records)
    cases.go("tags")
    seen = {row[0]: row[2] for row in cases.rows("tags")}
    cases.check("the status of tags", seen == {
        "Car1": "Blocked by its parent", "Car2": "Blocked by its parent", "Fleet": "Blocked", "K1": "Accepted", "K2": "Accepted", "K3": "Blocked",
        "New": "Accepted", "Old": "Expired", "P1": "Accepted"}, seen)
    tones = browser.run("[...document.querySelectorAll('#tags tbody tr')].filter(row => row.cells[2].querySelector('.bad')).map(row => row.cells[0].textContent)")
    cases.check("what isn't accepted is marked", tones == ["Car1", "Car2", "Fleet", "K3", "Old"], tones)
    cases.check("so it is of granted tags", [row[3] for row in cases.rows("granted")] == ["Expired", "Blocked"], cases.rows("granted"))
    cases.check("and of grants", [row[3] for row in cases.rows("grants")] == ["Granted", "Ended"], cases.rows("grants"))
    browser.shot("tags-judged")
    cases.go("station/NORTH-01")
    seen = {row[0]: row[1] for row in cases.rows("ownList")}
    cases.check("an entry whose expiry has passed", seen == {"Gone": "Accepted, expired", "K1": "Accepted", "k3": "Accepted", "KID": "Accepted"}, seen)
    mock.records.tag("Late", "Fleet")
    cases.click("ownList", "Send a list")
    cases.click("fields", "Remove all")
    cases.click("fields", "Add all id tags of this operator")
    browser.wait("document.querySelectorAll('#fields .entry').length > 0")
    cases.send()
    sent = json.loads(next(line for line in reversed(mock.heard) if "SendLocalList" in line).split(" ", 3)[3])["localAuthorizationList"]
    infos = {entry["idTag"]: (entry["idTagInfo"]["status"], entry["idTagInfo"].get("parentIdTag"), "expiryDate" in entry["idTagInfo"]) for entry in sent}
    cases.check("all own tags: their status, parent and expiry", infos == {
        "K1": ("Accepted", None, False), "K2": ("Accepted", "P1", True), "K3": ("Blocked", None, False), "P1": ("Accepted", None, False),
        "Fleet": ("Blocked", None, False), "Car1": ("Blocked", "Fleet", False), "Car2": ("Blocked", "FLEET", True), "Old": ("Expired", "P1", True),
        "New": ("Accepted", None, True), "Late": ("Blocked", "Fleet", False)}, infos)
    cases.close()
    mock.stop()


def holders(cases):
    return cases.browser.run("[...document.querySelectorAll('#holders li')].map(one => [...one.childNodes].map(node => node.textContent).filter(Boolean).join(' | '))")


def check_holders(cases):
    """Where a tag is blocked or dropped, the stations that hold it are named, and are sent a change."""
    browser, mock = opened(cases, records=family_records)
    cases.go("tags")
    said = cases.order("tags", "Block", {}, "K1", stays=True)
    cases.check("blocked: the lists are counted", said == "Taken. It, or a tag whose parent it is, is in 3 local lists.", said)
    seen = holders(cases)
    cases.check("blocked: the stations are named", seen == [
        "NORTH-01: K1 Accepted, now Blocked | Send the change", "NORTH-02: K1 Blocked, now Blocked | up to date",
        "NORTH-10: K1 Accepted, now Blocked | offline: send it once it is back"], seen)
    browser.shot("holders", whole=False)
    browser.size(420, 900)
    cases.fits("blocked: holders", 420)
    browser.shot("holders-420", whole=False)
    browser.size(1280, 900)
    cases.check("blocked: nothing was sent unasked", not any(line.startswith("call") for line in mock.heard))
    cases.click("holders", "Send the change")
    cases.check("blocked: the end is said", browser.wait("document.querySelector('#holders .good')?.textContent === 'Done: Accepted'", 5), holders(cases))
    line = 'call NORTH-01 SendLocalList {"listVersion":7,"localAuthorizationList":[{"idTag":"K1","idTagInfo":{"status":"Blocked"}}],"updateType":"Differential"}'
    cases.check("blocked: the line", line in mock.heard, mock.heard[-4:])
    cases.check("blocked: it is sent once", browser.run("document.querySelectorAll('#holders button').length") == 0)
    cases.check("blocked: the rest of the list stays", len(mock.records.rows["locallist NORTH-01"]) == 5, mock.records.rows["locallist NORTH-01"])
    cases.close()
    check_dropped(cases, mock)
    mock.stop()


def check_dropped(cases, mock):
    """A dropped tag is taken off; a child of a blocked parent is blocked; several stations are sent their changes at once."""
    browser = cases.browser
    cases.order("tags", "Drop", {}, "K3", stays=True)
    cases.check("dropped: it is named in any letters", holders(cases) == ["NORTH-01: k3 Accepted, now taken off | Send the change"], holders(cases))
    cases.click("holders", "Send the change")
    browser.wait("document.querySelector('#holders .good')")
    sent = [line for line in mock.heard if "SendLocalList" in line]
    cases.check("dropped: it is taken off", '"localAuthorizationList":[{"idTag":"k3"}]' in sent[-1], sent)
    cases.close()
    mock.records.tag("Kid", "P1")
    mock.records.connected["NORTH-10"] = 0
    mock.records.local_list("NORTH-10", 4, [{"idTag": "Kid", "idTagInfo": {"status": "Accepted"}}])
    cases.poll()
    cases.order("tags", "Block", {}, "P1", stays=True)
    seen = holders(cases)
    cases.check("a parent: its children are found", seen == [
        "NORTH-01: KID Accepted, now Blocked | Send the change", "NORTH-02: K2 Accepted, now Blocked | Send the change",
        "NORTH-10: Kid Accepted, now Blocked | Send the change"], seen)
    before = len(mock.heard)
    cases.click("holders", "Send the change to 3 connected stations")
    cases.check("a parent: all are sent their change", browser.wait("document.querySelectorAll('#holders .good').length === 3", 5), holders(cases))
    sent = [line for line in mock.heard[before:] if line.startswith("call")]
    cases.check("a parent: with its idTag", len(sent) == 3 and all('"parentIdTag":"P1","status":"Blocked"' in line or '"status":"Blocked","parentIdTag":"P1"' in line
                                                                    for line in sent), sent)
    cases.close()
    cases.click("tags", "Lists", "P1")
    said = "document.getElementById('answer').textContent"
    cases.check("the lists of a tag at any time", browser.wait(f"{said} === 'It, or a tag whose parent it is, is in 3 local lists.'", 3), browser.run(said))
    cases.check("and all are up to date", [one.split(" | ")[1] for one in holders(cases)] == ["up to date"] * 3, holders(cases))
    cases.close()


CASES = (check_judged, check_holders)
