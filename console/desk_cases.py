"""Cases of what the page shows and asks: stations, sessions, history, readings, two consoles, sorting, CSV, widths."""

import csv
import io
import os
import re
import tempfile
import time
from pathlib import Path

from mock_server import Mock, NOW
from records import BEGUN, TOTALS, USES, USES_CSV, small_records
from tools import quoted

ZONE = "Europe/Berlin"
# The head of a column in a CSV file: words that begin in lower case, and a unit in brackets.
HEAD = re.compile(r"[a-z][\w ]*( \([\w%]+\))?")
VIEWS = ("stations", "station/NORTH-01", "station/NORTH-01/2", "sessions", "records", "tags", "uses", "calls")
FIRST = ["list connections", "list open", "list stations",
         *(f"list connectors {name}" for name in ("NORTH-01", "NORTH-02", "NORTH-10", "ok")),
         "list readings NORTH-01 2", "list readers"]


def utc(moment):
    return time.strftime("%Y-%m-%d %H:%M:%S", time.gmtime(moment))


def both(moment, hours=1):
    """A moment as a cell has it: the local time of a zone so many hours before UTC, and the UTC."""
    local, other = utc(moment + hours * 3600), utc(moment)
    return f"{local} {other[11:] if local[:10] == other[:10] else other} UTC"


def opened(cases, zone=ZONE, records=small_records):
    """A server with records and the page over it, once its first poll has ended."""
    browser, mock = cases.browser, Mock(records())
    browser.size(1280, 900)
    browser.open(f"127.0.0.1:{mock.port}", "ACME", zone)
    cases.check("connects", cases.is_connected(), cases.text("status"))
    cases.check("the first poll ends", cases.is_idle())
    return browser, mock


def check_stations(cases):
    """A station's row, the running sessions, and the page of a station."""
    browser, mock = opened(cases)
    cases.check("what the first poll asks", mock.heard == FIRST, mock.heard)
    hours = round((int(browser.run(f"-new Date({BEGUN}).getTimezoneOffset()"))) / 60)
    rows = cases.rows("stations")
    cases.check("stations", [row[:6] for row in rows] == [
        ["NORTH-01", "Connected", "Faulted (GroundFailure): #2 Charging: #1 Available: #3", "#1, 1 h 05 min, 10.856 kWh, 11.279 kW, 70 %", "2", "Accepted"],
        ["NORTH-02", "Connected", "Available: #1", "–", "0", "Pending"],
        ["NORTH-10", "Offline", "Unavailable: station last known at 2024-01-01 01:00:00 (00:00:00 UTC)", "–", "–", "Accepted"],
        ["ok", "Offline", "–", "–", "–", "Fresh"]], rows)
    cases.check("a sum of the stations", browser.run("[...document.querySelector('#stations .hint').children].map(one => one.textContent)")
                == ["2 connected", "2 offline", "1 with a fault", "Running sessions: 1. Calls waiting: 2."])
    last = both((BEGUN + 59 * 60000) // 1000, hours)
    cases.check("running sessions", cases.rows("sessions") == [
        ["NORTH-01 / 2", "1 h 05 min", "10.856", "11.279", "70", "1", "K2", "Accepted", both(BEGUN // 1000, hours), last, "StopClose"]], cases.rows("sessions"))
    for number in range(2, 8):
        mock.records.transaction("NORTH-02", number, "K1", NOW, connector=number)
    cases.poll()
    seen = cases.rows("stations")[1][3]
    cases.check("of many sessions the latest", seen == "#7, 0 min #6, 0 min #5, 0 min #4, 0 min and 2 more", seen)
    mock.heard.clear()
    browser.run("document.querySelector('#stations tbody a').click()")
    cases.check("a station is opened", browser.wait("state.view === 'station' && state.history.has('NORTH-01')"))
    cases.is_at_rest()
    wanted = {"list tags", "list readers", "list reservations NORTH-01", "list locallist NORTH-01", "list reports NORTH-01", "list connectors NORTH-01", "list transactions NORTH-01 1"}
    cases.check("what is asked when a station is opened", wanted <= set(mock.heard), mock.heard)
    check_station(cases, hours)
    mock.stop()


def check_station(cases, hours):
    browser = cases.browser
    facts = browser.run("[...document.querySelectorAll('#facts dl div')].map(one => one.textContent)")
    cases.check("what is known of a station", facts[0] == "ConnectionConnected" and "chargePointModelModel 7" in facts, facts)
    rows = cases.rows("connectors")
    cases.check("connectors", rows[2] == [
        "2", "Faulted", "GroundFailure", "StartReserveUnlockAvailability", "2024-01-01 01:00:00 00:00:00 UTC", "checked at 08:00", "Vendor", "E-17"], rows)
    rows = cases.rows("history")
    cases.check("sessions, the latest first", [row[0] for row in rows] == ["2", "1"], rows)
    cases.check("a running session", rows[0][4:8] == [both(BEGUN // 1000, hours), "running", "10.856", "–"], rows[0])
    cases.check("a session that has ended", rows[1][4:9] == [
        "2023-12-31 23:00:00 22:00:00 UTC", "2024-01-01 00:00:00 2023-12-31 23:00:00 UTC", "11.5", "Local", "120,000"], rows[1])
    rows = cases.rows("ownReports")
    cases.check("reports of a station", rows == [
        ["Diagnostics", "Uploading", "2024-01-01 01:00:59 00:00:59 UTC"], ["Firmware", "Installed", "2024-01-01 01:00:00 00:00:00 UTC"]], rows)
    rows = cases.rows("ownReservations")
    cases.check("reservations of a station", rows == [["4", "3", "K2", "P1", both(NOW // 1000 + 3600, hours), "Cancel"]], rows)
    rows = cases.rows("ownList")
    cases.check("a local list", [row[:3] for row in rows] == [["K1", "Accepted", "–"], ["K2", "Blocked", "P1"]], rows)
    cases.check("its version", "Version on record: 6" in cases.text("ownList"))
    cases.go("records")
    lists = [row[:3] for row in cases.rows("lists")]
    cases.check("the local lists of all stations", lists == [["NORTH-01", "6", "2"], ["NORTH-02", "0", "0"], ["NORTH-10", "0", "0"], ["ok", "0", "0"]], lists)
    reports = [row[:3] for row in cases.rows("reports")]
    cases.check("the reports of all stations", reports == [
        ["NORTH-01", "Diagnostics", "Uploading"], ["NORTH-01", "Firmware", "Installed"], ["NORTH-02", "Firmware", "InstallationFailed"]], reports)


def check_readings(cases):
    """The charts and the table of a session's readings. Energies without a unit stand among those in kWh."""
    browser, mock = opened(cases)
    cases.go("station/NORTH-01/2")
    cases.check("a chosen session is charted", browser.wait("document.querySelectorAll('#readings figure').length === 3"))
    lines = browser.run("[...document.querySelectorAll('#readings figure')].map(one => one.querySelectorAll('polyline').length)")
    cases.check("a line for each measurand and phase", lines == [1, 3, 1], lines)
    units = browser.run("[...document.querySelectorAll('#readings svg[role=img]')].map(one => [...one.querySelectorAll('text')].pop().textContent)")
    cases.check("units stand on the axes", units == ["kWh", "W", "Percent"], units)
    ticks = browser.run("[...document.querySelectorAll('#readings figure')].map(one => one.querySelectorAll('text').length)")
    cases.check("axes have a few ticks", all(6 <= count <= 14 for count in ticks), ticks)
    text = browser.run("document.querySelector('#readings desc').textContent").replace("\u2068", "").replace("\u2069", "")
    cases.check("energy without a unit is Wh", text.startswith("Energy.Active.Import.Register: 60 readings") and text.endswith("last 130.856, lowest 120, highest 130.856 kWh."), text)
    hints = browser.run("[...document.querySelectorAll('#readings div > p.hint')].map(one => one.textContent)")
    cases.check("what isn't charted is told", hints[-1] == "Readings without a number, not charted: 1", hints)
    rows = cases.rows("readings")
    cases.check("readings, the latest first", rows[0][1:5] == ["Voltage", "L1-N", "about 230 V", "Sample.Periodic"], rows[0])
    cases.check("an energy without a unit in the table", [row[3] for row in rows if row[1].startswith("Energy")][:3]
                == ["130856 Wh", "130672 Wh", "130.488 kWh"], [row[3] for row in rows])
    mock.records.reading("NORTH-01", 2, BEGUN + 3660000, "SoC", "-", "Percent", 80000000, "80")
    browser.run("state.facts.get('NORTH-01 2').at -= 60000")
    cases.poll()
    shown = "[...document.querySelectorAll('#readings desc')].some(one => one.textContent.includes('SoC\u2069: 7 readings'))"
    cases.check("a poll charts a new reading", browser.wait(shown, 5))
    asked = {line for line in mock.heard if line.startswith("list readings")}
    cases.check("readings are asked for by session", asked == {"list readings NORTH-01 2"}, asked)
    mock.stop()


def check_poll(cases):
    """What polls ask: connections, open transactions and connectors. History comes from the last number on, once."""
    browser, mock = opened(cases)
    browser.run("{ const pace = document.getElementById('pace'); pace.value = '0'; pace.dispatchEvent(new Event('change')); }")
    cases.go("station/NORTH-01")
    records = mock.records

    def after(*changes):
        """The orders of a poll, or of more, after changes; of history and connectors and the rest apart."""
        mock.heard.clear()
        for change in changes:
            change()
        cases.poll()
        cases.is_at_rest()
        return [line for line in mock.heard if not line.startswith("list connectors")]

    polls = ["list connections", "list open"]
    for index in range(3):
        seen = after()
        cases.check(f"poll {index}: nothing but connections, open transactions and connectors", seen == polls, seen)
        of_connected = {f"list connectors {name}" for name in ("NORTH-01", "NORTH-02")}
        cases.check(f"poll {index}: connectors", of_connected <= set(mock.heard), mock.heard)
    asked = after(lambda: records.transaction("NORTH-01", 2, "K2", BEGUN, (135000, NOW, "Remote", None)))
    cases.check("the end of a session asks for the history from it", asked == [*polls, "list transactions NORTH-01 2"], asked)
    cases.check("and shows it", cases.rows("history")[0][6:8] == ["15", "Remote"], cases.rows("history"))
    cases.check("and not again", after() == polls)
    asked = after(lambda: records.transaction("NORTH-01", 3, "K1", NOW))
    cases.check("a new session needs no history", asked == [*polls, "list readings NORTH-01 3"], asked)
    cases.check("and is shown", [row[0] for row in cases.rows("history")] == ["3", "2", "1"])
    asked = after(lambda: records.transaction("NORTH-01", 4, "K1", NOW, (120000, NOW, "Local", None)), lambda: records.transaction("NORTH-01", 5, "K1", NOW))
    cases.check("a gap is filled from the last number", [line for line in asked if "transactions" in line] == ["list transactions NORTH-01 3"], asked)
    cases.check("and is shown too", [row[0] for row in cases.rows("history")] == ["5", "4", "3", "2", "1"])
    records.transaction("NORTH-01", 6, "K1", NOW, (120000, NOW, "Local", None))
    asked = after(lambda: records.connector("NORTH-01", 1, "Available"))
    cases.check("a connector's report asks for what came and went", asked == [*polls, "list transactions NORTH-01 5"], asked)
    check_more_polls(cases, mock, after, polls)
    mock.stop()


def check_more_polls(cases, mock, after, polls):
    browser = cases.browser
    cases.go("stations")
    mock.heard.clear()
    cases.go("station/NORTH-01")
    asked = [line for line in mock.heard if "transactions" in line]
    cases.check("a station that is opened again asks from the last number", asked == ["list transactions NORTH-01 6"], asked)
    mock.heard.clear()
    browser.run("document.getElementById('refresh').click()")
    cases.is_at_rest()
    asked = [line for line in mock.heard if "transactions" in line]
    cases.check("so does a refresh of all", asked == ["list transactions NORTH-01 6"], asked)
    cases.check("a refresh of all lists stations and tags", {"list stations", "list tags"} <= set(mock.heard), mock.heard)
    cases.go("stations")
    asked = after(lambda: mock.records.connected.update({"NORTH-10": 1}))
    cases.check("a station that connects is looked up", asked == [*polls, "list stations"] and cases.rows("stations")[2][1] == "Connected", asked)
    after()
    asked = after(lambda: mock.records.connected.pop("NORTH-02"))
    cases.check("one that leaves is asked for its connectors once more", "list connectors NORTH-02" in mock.heard and cases.rows("stations")[1][1].startswith("Offline last seen "), mock.heard)
    after()
    counts = [after() == polls and f"list connectors {name}" in mock.heard for _ in range(12) for name in ["ok"]]
    cases.check("one without a connection now and then", counts.count(True) == 1, counts)


def check_consoles(cases):
    """Another console of the operator: its answers are no answers to this one."""
    browser, mock = opened(cases)
    mock.before = ["row tag \"EVIL\" - 0 -", "ok", "row station EVIL Fresh Accepted 300 -", "ok", "refused 3 NoSuchTag", "ok 99",
                   "row transaction NORTH-01 9 1 \"EVIL\" Accepted 1 1 - - - - -", "ok"]
    cases.go("tags")
    seen = [row[0] for row in cases.rows("tags")]
    cases.check("rows of another console are no rows of a table", seen == ["K1", "K2", "K3", "P1"], seen)
    cases.check("a refusal of another console is none of an order", cases.order("tags", "Put an id tag", {"tag": "K8"}) == "Taken.")
    said = cases.order("tags", "Grant", {"receiver": "NOBODY"}, "K8")
    cases.check("an answer of another console is none of an order", said == "Refused, NoSuchOperator: no operator of that name is hosted.", said)
    mock.before = []
    browser.run("document.getElementById('refresh').click()")
    cases.is_at_rest()
    cases.check("no call of another console is this one's", browser.run("state.calls.size") == 0)
    cases.check("nor are its sessions", browser.run("!state.history.has('NORTH-01') && openOf('NORTH-01').length") == 1)
    check_second(cases, mock)
    mock.stop()


def check_second(cases, mock):
    """A second console, without words, over the same server."""
    browser = cases.browser
    browser.run(f"window.other = new WebSocket('ws://127.0.0.1:{mock.port}/operator/ACME', 'ocpp1.6'); window.heard = [];"
                "other.onmessage = ({ data }) => heard.push(data); new Promise(resolve => { other.onopen = resolve; })")
    browser.run("for (let index = 0; index < 20; index += 1) other.send(index % 2 ? 'list tags' : 'tag drop K9');")
    said = [cases.order("tags", "Put an id tag", {"tag": f"K{number}"}) for number in (10, 11, 12)]
    cases.check("orders among those of another console", said == ["Taken."] * 3, said)
    browser.run("other.send('call NORTH-01 ClearCache {}')")
    cases.check("the end of another console's call is shown", browser.wait("state.calls.has('NORTH-01 1')"))
    cases.go("calls")
    rows = cases.rows("calls")
    cases.check("as that of a call that isn't this one's", rows[0][:3] == ["NORTH-01 / 1", "Done: Accepted", "–"], rows)
    cases.check("the other one hears no words", browser.run("heard.length > 20 && !heard.some(line => line.startsWith('#'))"))
    log = browser.run("logs.own")
    cases.check("the log has what it was refused", any(line.endswith("other < ACME refused 3 NoSuchTag") for line in log), log[-5:])
    cases.check("and not its listings", not any("row" in line for line in log), log)
    browser.run("document.getElementById('polled').click()")
    cases.check("which it shows when asked", browser.wait("document.getElementById('lines').textContent.includes('other < ACME row tag')"))
    browser.run("other.send('lost'); other.close()")
    cases.check("a bad line of another console isn't heard", cases.free("list tags") == "Rows: 8", cases.text("said"))
    mock.tell("ok done 41 Timeout", "row done 42 Timeout", "refused done 43 Timeout", "ok turned")
    shown = "[...document.querySelectorAll('#calls tbody th')].slice(0, 3).map(cell => cell.textContent).join()"
    cases.check("stations with the names of answers", browser.wait(f"{shown} === 'refused / 43,row / 42,ok / 41'", 3), cases.rows("calls"))


def check_sorting(cases):
    """Columns sort by a button in their head, numbers as numbers, texts with their numbers, what is none at the end."""
    browser, mock = opened(cases)
    order = "[...document.querySelectorAll('#stations tbody tr')].map(row => row.cells[0].textContent)"
    sorts = "[...document.querySelectorAll('#stations thead th')].map(head => head.getAttribute('aria-sort'))"
    head = "[...document.querySelectorAll('#stations thead button')].find(one => one.textContent.startsWith({}))"

    def press(name):
        browser.run(f"{head.format(quoted(name))}.focus()")
        browser.press("Enter", text="\r")
        return browser.run(order), [value for value in browser.run(sorts) if value]

    cases.check("sorted at first", browser.run(sorts)[0] == "ascending", browser.run(sorts))
    cases.check("names, the other way", press("Station") == (["ok", "NORTH-10", "NORTH-02", "NORTH-01"], ["descending"]), browser.run(order))
    cases.check("names again", press("Station") == (["NORTH-01", "NORTH-02", "NORTH-10", "ok"], ["ascending"]), browser.run(order))
    cases.check("the focus stays in the head", browser.run("document.activeElement.textContent") == "Station\u00a0▲", browser.run("document.activeElement.textContent"))
    cases.check("faults first", press("Connectors")[0] == ["NORTH-01", "NORTH-10", "NORTH-02", "ok"], browser.run(order))
    cases.check("none last", press("Calls")[0] == ["NORTH-02", "NORTH-01", "NORTH-10", "ok"], browser.run(order))
    cases.check("none last either way", press("Calls")[0] == ["NORTH-01", "NORTH-02", "NORTH-10", "ok"], browser.run(order))
    cases.go("uses")
    uses = cases.rows("uses")
    cases.check("uses, the latest first", [row[0] for row in uses] == [str(number) for number in range(10, 0, -1)], uses)
    cases.check("a use", uses[-1] == ["1", "BETA", "k1", "2024-01-01 02:00:00 01:00:00 UTC", "1,500"], uses[-1])
    cases.click("uses", "Energy, Wh")
    energies = [int(row[4].replace(",", "")) for row in cases.rows("uses")]
    cases.check("numbers of 64 bits sort as numbers", energies == sorted(energies) and energies[0] == -(2**63), energies)
    cases.check("totals of months and hosts", cases.rows("totals") == TOTALS, cases.rows("totals"))
    cases.check("a total is of all uses of its month and host", sum(int(row[2]) for row in TOTALS) == len(USES))
    mock.stop()


def check_csv(cases):
    """Each table as a CSV file: that of the uses to the byte, the others as a reader of CSV finds them."""
    browser, mock = opened(cases)
    mock.records.tag('=HYPERLINK("x")')
    mock.records.tag("-1+1", "@p")
    mock.records.reading("NORTH-01", 2, NOW, "SoC", "-", "Percent", -5000000, "-5")
    for view in VIEWS[2:]:
        cases.go(view)
    text = browser.run("csvOf(TABLES.uses)")
    cases.check("the CSV of the uses", text == "".join(line + "\r\n" for line in USES_CSV), text)
    names = browser.run("Object.keys(TABLES)")
    for name in names:
        rows = list(csv.reader(io.StringIO(browser.run(f"csvOf(TABLES.{name})"), newline="")))
        heads = browser.run(f"(TABLES.{name}.fields ?? TABLES.{name}.columns).length")
        cases.check(f"the CSV of {name} has heads of one style", all(HEAD.fullmatch(field) for field in rows[0]), rows[0])
        count = browser.run(f"TABLES.{name}.rows().length")
        cases.check(f"the CSV of {name}", len(rows) == count + 1 and {len(row) for row in rows} == {heads}, rows[:2])
        wild = [field for row in rows[1:] for field in row if field[:1] in "=+-@" and field and not field.lstrip("-").replace(".", "").isdigit()]
        cases.check(f"the CSV of {name} has no formula", not wild, wild)
    tags = [row[0] for row in csv.reader(io.StringIO(browser.run("csvOf(TABLES.tags)")))]
    cases.check("a tag that is no formula", {"'=HYPERLINK(\"x\")", "'-1+1"} <= set(tags), tags)
    cases.check("quotes are doubled", '"\'=HYPERLINK(""x"")"' in browser.run("csvOf(TABLES.tags)"))
    cases.check("a filter holds for the file", browser.run("TABLES.tags.filter = 'k2'; csvOf(TABLES.tags).split('\\r\\n').length") == 3)
    browser.run("TABLES.tags.filter = ''")
    with tempfile.TemporaryDirectory() as folder:
        browser.command("Page.setDownloadBehavior", behavior="allow", downloadPath=folder)
        cases.go("uses")
        cases.click("uses", "CSV")
        file = Path(folder) / "uses-ACME.csv"
        end = time.monotonic() + 5
        while not file.exists() and time.monotonic() < end:
            time.sleep(0.05)
        cases.check("a click downloads it", file.exists() and file.read_bytes() == text.encode(), os.listdir(folder))
    mock.stop()


def check_keyboard(cases):
    """Labels, the focus, and a form without a mouse."""
    browser, mock = opened(cases)
    cases.go("station/NORTH-01")
    names = browser.run("""[...document.querySelectorAll('input, select, textarea')]
        .filter(one => one.labels.length === 0 || one.labels[0].textContent.trim() === '').map(one => one.name || one.id)""")
    cases.check("each field has a label", names == [], names)
    unnamed = browser.run("[...document.querySelectorAll('button, a, section, table')].filter(one => !one.textContent.trim() && !one.ariaLabel).length")
    cases.check("each button has a name", unnamed == 0, unnamed)
    browser.run("document.querySelector('nav a').focus()")
    browser.press("Enter", text="\r")
    cases.check("a view by the keyboard", browser.wait("state.view === 'stations'"))
    cases.check("its link is marked", browser.run("document.querySelector('nav a[aria-current=page]').textContent") == "Stations")
    browser.run("document.querySelector('#stations tbody a').focus()")
    browser.run("renderNow(); mock = state.connections.set('ok', { calls: '1' }); renderNow()")
    cases.check("the focus stays when a table changes", browser.run("document.activeElement.textContent") == "NORTH-01")
    browser.press("Enter", text="\r")
    cases.check("Enter opens a station", browser.wait("state.view === 'station' && !document.getElementById('view-station').hidden"))
    cases.go("tags")
    browser.run("[...document.querySelectorAll('#tags tbody button')].find(one => one.textContent === 'Drop').focus()")
    browser.press("Enter", text="\r")
    cases.check("Enter opens a form", browser.wait("document.getElementById('form').open"))
    cases.check("and what does harm isn't at hand", browser.run("document.activeElement.id") == "cancel", browser.run("document.activeElement.id"))
    browser.press("Escape")
    cases.check("Escape closes it", browser.wait("!document.getElementById('form').open"))
    cases.check("the focus is back", browser.run("document.activeElement.textContent") == "Drop", browser.run("document.activeElement.outerHTML"))
    cases.check("nothing was sent", not any(line.startswith("tag") for line in mock.heard))
    mock.stop()


def take_pictures(cases, front, views=VIEWS):
    """Pictures of each view at 1280, 420 and 820 px; at each nothing is wider than the window."""
    browser = cases.browser
    for name, width, height in (("1280", 1280, 900), ("420", 420, 900), ("820", 820, 1100)):
        for dark in (False, True):
            browser.size(width, height, dark)
            for view in views if not dark else views[:4]:
                cases.go(view)
                time.sleep(0.3)
                cases.fits(f"{view} at {width} px", width)
                browser.shot(f"{front}-{view.replace('/', '-')}-{name}{'-dark' if dark else ''}")
    browser.size(1280, 900)


def check_windows(cases):
    browser, mock = opened(cases)
    take_pictures(cases, "desk")
    browser.size(420, 900)
    cases.go("stations")
    inside = browser.run("[...document.querySelectorAll('#view-stations .scroll')].map(one => one.scrollWidth > one.clientWidth)")
    cases.check("tables scroll inside their box", inside == [True, True], inside)
    for name in ("SendLocalList", "ReserveNow", "Reset", "GetConfiguration", "station reader", "forget"):
        for width in (1280, 420):
            browser.size(width, 900)
            browser.run(f"openForm({quoted(name)}, {{ fixed: {{ station: 'NORTH-01' }} }})")
            time.sleep(0.2)
            box = browser.run("(({ left, right, top, bottom }) => [left >= 0, right <= innerWidth, top >= 0, bottom <= innerHeight])(document.getElementById('form').getBoundingClientRect())")
            cases.check(f"{name} at {width} px stands in the window", all(box), box)
            wide = browser.run("(({ scrollWidth, clientWidth }) => scrollWidth <= clientWidth)(document.getElementById('form'))")
            cases.check(f"{name} at {width} px has nothing wider than itself", wide)
            browser.shot(f"form-{name.replace(' ', '-')}-{width}", whole=False)
            browser.run("document.getElementById('form').close()")
    mock.stop()


CASES = (check_stations, check_readings, check_poll, check_consoles, check_sorting, check_csv, check_keyboard, check_windows)
