"""Cases of the sessions of all stations over a range of dates."""

import csv
import io

from desk_cases import ZONE, opened
from mock_server import START, Mock
from records import many_records, small_records

DAY = 86400000
SAID = "document.getElementById('span-said').textContent"


def span_records():
    records = small_records()
    records.transaction("NORTH-02", 2, "b7", START + 3 * DAY, (125000, START + 3 * DAY + 60000, "Local", None))
    records.transaction("NORTH-02", 3, "K1", START + 4 * DAY - 3600001, (121000, START + 4 * DAY, "EVDisconnected", None), connector=2)
    records.transaction("NORTH-02", 4, "K1", START + 4 * DAY - 3600000, (122000, START + 4 * DAY, "EVDisconnected", None))
    return records


def ask(cases, first, last, by="at"):
    browser = cases.browser
    browser.run(f"{{ const {{ from, to, by }} = document.getElementById('span').elements; from.value = '{first}'; to.value = '{last}'; by.value = '{by}';"
                " to.dispatchEvent(new Event('input', { bubbles: true })); }")
    browser.run("document.getElementById('span-list').click()")


def check_span(cases):
    """One press lists the sessions of all stations whose start is on one of the days of the page's zone."""
    browser, mock = opened(cases, ZONE, span_records)
    cases.go("sessions")
    cases.check("span: no file of nothing", browser.run("document.querySelector('#ranged .csv').disabled"))
    browser.shot("span-before")
    ask(cases, "2023-12-31", "2024-01-04")
    cases.check("span: it ends", browser.wait(f"{SAID}.startsWith('Listed: 4 of 4 stations.')", 5), browser.run(SAID))
    asked = [line for line in mock.heard if "transactions" in line]
    cases.check("span: each station is asked once", asked == [f"list transactions {name} 1" for name in ("NORTH-01", "NORTH-02", "NORTH-10", "ok")], asked)
    cases.check("span: the sums", browser.run(SAID) == "Listed: 4 of 4 stations. 4 sessions, 17.5 kWh.", browser.run(SAID))
    rows = [[row[index] for index in (0, 1, 2, 3, 6, 7)] for row in cases.rows("ranged")]
    cases.check("span: the rows", rows == [
        ["NORTH-01", "1", "K1", "ACME", "11,500", "Local"], ["NORTH-02", "1", "k9", "–", "0", "DeAuthorized"], ["NORTH-02", "1", "b7", "BETA", "5,000", "Local"],
        ["NORTH-02", "2", "K1", "ACME", "1,000", "EVDisconnected"]], rows)
    browser.shot("span")
    text = browser.run("csvOf(TABLES.ranged)")
    cases.check("span: the file", list(csv.reader(io.StringIO(text, newline="")))[:2] == [
        ["station", "connector", "tag", "owner", "started at (UTC)", "stopped at (UTC)", "energy (Wh)", "reason"],
        ["NORTH-01", "1", "K1", "ACME", "2023-12-31 22:00:00", "2023-12-31 23:00:00", "11500", "Local"]], text)
    cases.check("span: its name", browser.run("TABLES.ranged.file()") == "sessions-ACME-2023-12-31-2024-01-04")
    ask(cases, "2024-01-01", "2024-01-01", "stopAt")
    cases.check("span: by the stop", browser.wait(f"{SAID} === 'Listed: 4 of 4 stations. 1 session, 11.5 kWh.'", 5), browser.run(SAID))
    ask(cases, "2024-01-05", "2024-01-04")
    fault = browser.run("document.getElementById('span').elements.to.validationMessage")
    cases.check("span: days in the wrong order are told", fault == "Enter a day that is not before the first one.", fault)
    cases.check("span: readings and history aren't kept", browser.run("state.history.size") == 0)
    check_span_loss(cases, mock)
    mock.stop()


def check_span_loss(cases, mock):
    """The connection is lost over a long listing: that station is named, and the others are asked again."""
    browser = cases.browser
    mock.too_long = {"list transactions NORTH-02 1"}
    ask(cases, "2023-12-31", "2024-01-04")
    browser.wait("document.getElementById('span-missing').textContent !== ''", 8)
    cases.check("span: a long listing is passed over", browser.wait(f"{SAID} === 'Listed: 3 of 4 stations. 1 session, 11.5 kWh.'", 8), browser.run(SAID))
    missing = cases.text("span-missing")
    cases.check("span: and its station is named", missing.startswith("NORTH-02: the server ended the connection (code 1011)"), missing)
    cases.check("span: it is asked for once", mock.heard.count("list transactions NORTH-02 1") == 3, mock.heard.count("list transactions NORTH-02 1"))
    cases.check("span: the file is named so", browser.run("TABLES.ranged.file()").endswith("-incomplete"))
    browser.shot("span-missing")
    mock.too_long = set()


def check_span_stop(cases):
    """A thousand stations: a few orders at a time, with progress, until Stop is pressed."""
    browser, mock = cases.browser, Mock(many_records())
    browser.open(f"127.0.0.1:{mock.port}", "ACME")
    cases.is_idle(60)
    cases.go("sessions")
    browser.run("{ const pace = document.getElementById('pace'); pace.value = '0'; pace.dispatchEvent(new Event('change')); }")
    cases.is_at_rest()
    browser.run("window.most = 0; window.usual = sendWaiting; setInterval(() => { most = Math.max(most, [...link.asked.values()].filter(one => one.line.includes('transactions')).length); }, 1)")
    ask(cases, "2024-01-01", "2024-01-01")
    cases.check("span of many: progress", browser.wait(f"/^Listing: [1-9]\\d* of 1,000 stations\\./.test({SAID})", 5), browser.run(SAID))
    browser.run("document.getElementById('span-stop').click()")
    cases.check("span of many: Stop", browser.wait(f"/^Stopped, not all are listed: \\d+ of 1,000 stations\\./.test({SAID})", 3), browser.run(SAID))
    cases.is_at_rest()
    count = len([line for line in mock.heard if "transactions" in line])
    cases.check("span of many: no more is asked", 0 < count < 1000, count)
    cases.check("span of many: few at a time", 0 < browser.run("most") <= 3, browser.run("most"))
    ask(cases, "2024-01-01", "2024-01-01")
    cases.check("span of many: all", browser.wait(f"{SAID}.startsWith('Listed: 1,000 of 1,000 stations. 5,000 sessions')", 30), browser.run(SAID))
    spent = browser.run("(() => { const began = performance.now(); renderNow(); return performance.now() - began; })()")
    cases.check("span of many: a view takes less than 200 ms", spent < 200, spent)
    mock.stop()


CASES = (check_span, check_span_stop)
