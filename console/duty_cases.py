"""Cases of a dispatcher's work: faults, stations that are offline, stops, narrow windows, wrong texts, long lists."""

import re
import time

from desk_cases import opened
from mock_server import NOW
from records import small_records
from tools import quoted

FAULTS = (("Faulted", "NoError"), ("Faulted", "GroundFailure"), ("Charging", "HighTemperature"), ("Available", "OtherError"))
COUNT = "[...document.querySelectorAll('#stations button')].find(one => one.textContent.endsWith({}))"
WIDE_TAGS = [f"W{number:02d}{'W' * 17}" for number in range(30)]


def faulty_records():
    """Stations with faults of each kind, every other one offline, and some without a fault whose vendor is called Default."""
    records = small_records()
    for index in range(40):
        status, error = FAULTS[index % 4] if index < 24 else ("Available", "NoError")
        boot = {"chargePointModel": "M", "chargePointVendor": "Default" if index >= 36 else "Vendor"}
        records.station(f"F{index:02d}", boot=boot, calls=0 if index % 2 else None)
        records.connector(f"F{index:02d}", 1, status, error)
    return records


def check_faults(cases):
    """The count of faults is a button: pressed, the table has each station that is counted, and no other."""
    browser, mock = opened(cases, records=faulty_records)
    button = COUNT.format(quoted("with a fault"))
    cases.check("faults: they are counted", browser.run(f"{button}.textContent") == "25 with a fault", browser.run(f"{button}.textContent"))
    wanted = ["NORTH-01", *(f"F{index:02d}" for index in range(24))]
    browser.run(f"{button}.focus()")
    browser.press("Enter", text="\r")
    names = "rowsOf(TABLES.stations).map(row => row.station)"
    cases.check("faults: the count sets the filter", sorted(browser.run(names)) == sorted(wanted), browser.run(names))
    cases.check("faults: it is pressed, and has the focus", browser.run(f"{button}.ariaPressed === 'true' && document.activeElement === {button}"))
    cases.check("faults: it is told below the table", browser.run("TABLES.stations.count.textContent").startswith("1–15 of 25 with a fault."))
    browser.shot("faults")
    browser.press("Enter", text="\r")
    cases.check("faults: pressed again it shows all", len(browser.run(names)) == 44, len(browser.run(names)))
    browser.run("{ const filter = document.querySelector('#stations input'); filter.value = 'fault'; filter.dispatchEvent(new Event('input')); }")
    found = browser.run(names)
    cases.check("faults: the filter finds each that is counted", set(wanted) <= set(found), sorted(set(wanted) - set(found)))
    browser.run("{ const filter = document.querySelector('#stations input'); filter.value = ''; filter.dispatchEvent(new Event('input')); }")
    browser.run(f"{COUNT.format(quoted('offline'))}.click()")
    cases.check("offline: its count is a filter too", len(browser.run(names)) == 22, len(browser.run(names)))
    mock.stop()


def check_offline(cases):
    """What an offline station told last is dimmed, with the time that it is of."""
    browser, mock = opened(cases, "UTC")
    cases.go("station/NORTH-01/2")
    mock.records.connected.pop("NORTH-01")
    cases.poll()
    cases.go("stations")
    row = cases.rows("stations")[0]
    last = browser.run(f"stampText({NOW - 6 * 60000})")
    cases.check("offline: when it was last seen", re.fullmatch(r"Offline last seen [\d:]{8} \([\d:]{8} UTC\)", row[1]), row)
    cases.check("offline: its connectors", row[2].endswith("Available: #3 last known at 2024-01-01 00:00:00 (00:00:00 UTC)"), row)
    cases.check("offline: its sessions", row[3].endswith(f"70 % last known at {last}"), row)
    old = "[...document.querySelectorAll('#{0} tbody tr:first-child > *')].filter(cell => getComputedStyle(cell.querySelector('bdi') ?? cell).color === muted).length"
    browser.run("window.muted = getComputedStyle(document.querySelector('.utc, .hint')).color")
    cases.check("offline: they are dimmed", browser.run(old.format("stations")) >= 2, browser.run(old.format("stations")))
    power = browser.run("document.querySelector('#sessions tbody tr').cells[3].textContent")
    cases.check("offline: the power is the last known", power == "11.279last known", power)
    cases.check("offline: the power is dimmed", browser.run(old.format("sessions")) >= 3, browser.run(old.format("sessions")))
    browser.shot("offline")
    cases.go("station/NORTH-01")
    hint = browser.run("document.querySelector('#connectors .hint').textContent")
    cases.check("offline: its own page", hint == "Offline: last known at 2024-01-01 00:00:00 (00:00:00 UTC).", hint)
    browser.shot("offline-station")
    mock.records.connected["NORTH-01"] = 0
    cases.poll()
    cases.go("stations")
    cases.check("offline: no longer once it is back", "last" not in " ".join(cases.rows("stations")[0]), cases.rows("stations")[0])
    mock.stop()


def check_stop(cases):
    """A stop that a station has accepted can't be sent again by the next press."""
    browser, mock = opened(cases)
    said = cases.order("sessions", "Stop", {}, "NORTH-01 / 2", stays=True)
    cases.check("stop: its end", said == "Call 1: Done: Accepted.", said)
    cases.check("stop: the button isn't armed", browser.run("document.getElementById('send').ariaDisabled") == "true")
    browser.shot("stop-done", whole=False)
    browser.run("document.getElementById('send').click()")
    browser.press("Enter", text="\r")
    cases.is_at_rest()
    sent = [line for line in mock.heard if "RemoteStop" in line]
    cases.check("stop: a second press sends nothing", len(sent) == 1, sent)
    cases.close()
    labels = "[...document.querySelectorAll('#sessions tbody button')].map(one => [one.textContent, one.disabled])"
    cases.check("stop: nor is that of its row", browser.wait(f"JSON.stringify({labels}) === '[[\"Stopping\",true],[\"Close\",false]]'", 3), browser.run(labels))
    browser.run("state.calls.get('NORTH-01 1').ended -= 60000; renderNow()")
    cases.check("stop: it can be sent again later", browser.run(labels)[0] == ["Stop again", False], browser.run(labels))
    mock.outcome = 'Answer {"status":"Rejected"}'
    cases.go("station/NORTH-01")
    cases.order("commands", "Stop a session", {}, stays=True)
    cases.check("stop: one that was rejected can be sent again", browser.run("document.getElementById('send').ariaDisabled") == "false")
    cases.close()
    mock.outcome = None
    cases.order("commands", "Stop a session", {}, stays=True)
    cases.check("stop: one in flight can't", browser.run("document.getElementById('send').ariaDisabled") == "true")
    cases.close()
    mock.outcome = 'Answer {"status":"Accepted"}'
    cases.order("commands", "Unlock a connector", dict(connectorId="1"), stays=True)
    cases.fill(dict(connectorId="2"))
    cases.check("a change of the form arms it", browser.run("document.getElementById('send').ariaDisabled") == "false")
    cases.close()
    mock.stop()


def check_narrow(cases):
    """In a window of 420 px each button of a row is in sight, whatever the table is scrolled to."""
    browser, mock = opened(cases)
    browser.size(420, 900)
    out = """[...document.querySelectorAll('main tbody button')].filter(one => one.offsetParent !== null).filter(one => {
        one.scrollIntoView({ block: 'center', inline: 'nearest' });
        one.closest('.scroll').scrollLeft = 0;
        const { left, right, top, bottom } = one.getBoundingClientRect(), box = one.closest('.scroll').getBoundingClientRect();
        return left < box.left || right > box.right || document.elementFromPoint((left + right) / 2, (top + bottom) / 2) !== one;
    }).map(one => one.getAttribute('aria-label'))"""
    count = "[...document.querySelectorAll('main tbody button')].filter(one => one.offsetParent !== null).length"
    for view, least in (("stations", 2), ("station/NORTH-01", 14), ("records", 6), ("tags", 20), ("calls", 0)):
        cases.go(view)
        cases.check(f"{view} at 420 px: the buttons of rows", browser.run(count) >= least, browser.run(count))
        cases.check(f"{view} at 420 px: each is in sight", browser.run(out) == [], browser.run(out))
    browser.size(1280, 900)
    mock.stop()


def check_formats(cases):
    """A text of the wrong form is told which form is wanted."""
    browser, mock = opened(cases)
    fault = "document.querySelector('#fields [name={}]').validationMessage"
    for name, field, wrong, told, right in (
            ("station add", "station", "a b", "Enter 1 to 48 ASCII characters without a space.", "S1"),
            ("tag put", "tag", "a b", "Enter 1 to 20 characters without a space.", "K1"),
            ("tag put", "parent", "x" * 21, "Enter 1 to 20 characters without a space.", ""),
            ("grant", "receiver", "B/C", "Enter 1 to 32 letters, digits, - or _.", "BETA"),
            ("ReserveNow", "idTag", "x" * 21, "Enter 1 to 20 characters.", "K 1"),
            ("ChangeConfiguration", "value", "x" * 501, "Enter at most 500 characters.", "")):
        browser.run(f"openForm({quoted(name)})")
        cases.fill({field: wrong})
        seen = browser.run(fault.format(field))
        cases.check(f"{name}, {field}: a wrong text", seen == told, seen)
        cases.fill({field: right})
        seen = browser.run(fault.format(field))
        cases.check(f"{name}, {field}: a right one", seen == "", seen)
        cases.close()
    browser.run("openForm('tag put')")
    cases.fill(dict(tag="a b"))
    browser.run("document.getElementById('send').click()")
    cases.check("nothing of the wrong form is sent", not any(line.startswith("tag put") for line in mock.heard))
    cases.close()
    mock.stop()
    browser.load("server=127.0.0.1:1&operator=A%2FB")
    browser.run("document.getElementById('open').click()")
    seen = browser.run("document.getElementById('connect').elements.operator.validationMessage")
    cases.check("the operator: a wrong text", seen == "Enter 1 to 32 letters, digits, - or _.", seen)


def listed_records():
    records = small_records()
    records.local_list("NORTH-01", 1, [{"idTag": tag, "idTagInfo": {"status": "Accepted", "parentIdTag": tag}} for tag in WIDE_TAGS])
    return records


def check_long_lists(cases):
    """The rows on a page are chosen. A local list and its form show whole ids."""
    browser, mock = opened(cases, records=listed_records)
    cases.go("station/NORTH-01")
    size = "document.querySelector('#ownList .bar select')"
    cases.check("a page has ten entries at first", len(cases.rows("ownList")) == 10, len(cases.rows("ownList")))
    cases.check("few rows need no choice", browser.run("TABLES.history.sizes.hidden"))
    browser.run(f"{size}.value = '50'; {size}.dispatchEvent(new Event('change'))")
    cases.check("the rows on a page are chosen", [row[0] for row in cases.rows("ownList")] == WIDE_TAGS, len(cases.rows("ownList")))
    cut = "[...document.querySelectorAll('{}')].filter(one => one.scrollWidth > one.clientWidth).length"
    for width in (1280, 420):
        browser.size(width, 900)
        cases.check(f"the list at {width} px cuts no id", browser.run(cut.format("#ownList tbody .text")) == 0)
        cases.click("ownList", "Send a list")
        time.sleep(0.2)
        fields = "#fields .entry [name=idTag], #fields .entry [name=parentIdTag]"
        cases.check(f"the form at {width} px cuts no id", browser.run(cut.format(fields)) == 0, browser.run(cut.format(fields)))
        browser.shot(f"long-ids-{width}", whole=False)
        cases.close()
    browser.size(1280, 900)
    mock.stop()


CASES = (check_faults, check_offline, check_stop, check_narrow, check_formats, check_long_lists)
