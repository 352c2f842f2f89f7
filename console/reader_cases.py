"""Cases of the readers of stations, and of requests that were repaired."""

import csv
import io
import re

from desk_cases import FIRST, opened
from records import small_records
from tools import quoted

TAKEN = "Taken."
NOTE = "Tolerant: a request that is refused is repaired and read again, as docs/TABLES.md, Repairs, has it."
NAMES = ["NORTH-01", "NORTH-02", "NORTH-10", "ok"]
MARKED = ["NORTH-01", "NORTH-02tolerant", "NORTH-10", "ok"]
METER = ("MeterValues", "TypeConstraintViolation", "transactionId")
START_TIME = ("StartTransaction", "TypeConstraintViolation", "timestamp")
HIDDEN = "document.getElementById({}).hidden"


def mixed_records():
    """One station is tolerant, and for one strict was chosen."""
    records = small_records()
    records.reader("NORTH-02", "tolerant")
    records.reader("NORTH-10", "strict")
    return records


def older_records():
    records = mixed_records()
    records.has_readers = False
    return records


def names(cases):
    """The first cells of the stations, with their marks."""
    return [row[0] for row in cases.rows("stations")]


def fact(cases):
    """What the page of a station says of its reader."""
    facts = cases.browser.run("[...document.querySelectorAll('#facts dl div')].map(one => one.textContent)")
    return next((text.removeprefix("Reader") for text in facts if text.startswith("Reader")), None)


def stop_polls(cases):
    cases.browser.run("{ const pace = document.getElementById('pace'); pace.value = '0'; pace.dispatchEvent(new Event('change')); }")
    cases.is_at_rest()


def refresh(cases):
    cases.browser.run("document.getElementById('refresh').click()")
    return cases.is_at_rest()


def check_marks(cases):
    """The stations that are tolerant have a mark, which the filter finds, and a file has the reader of each."""
    browser, mock = opened(cases, records=mixed_records)
    stop_polls(cases)
    cases.check("readers: the tolerant one is marked", names(cases) == MARKED, names(cases))
    cases.check("readers: the rest of its row is as ever", cases.rows("stations")[1][1:6] == ["Connected", "Available: #1", "–", "0", "Pending"],
                cases.rows("stations")[1])
    for text, found in (("Tolerant", MARKED[1:2]), ("toler", MARKED[1:2]), ("strict", []), ("", MARKED)):
        browser.run(f"{{ const filter = document.querySelector('#stations input'); filter.value = {quoted(text)}; filter.dispatchEvent(new Event('input')); }}")
        cases.check(f"readers: the filter {text!r}", names(cases) == found, names(cases))
    file = list(csv.reader(io.StringIO(browser.run("csvOf(TABLES.stations)"), newline="")))
    cases.check("readers: the file has them", [[row[0], row[-1]] for row in file] == [
        ["station", "reader"], ["NORTH-01", "strict"], ["NORTH-02", "tolerant"], ["NORTH-10", "strict"], ["ok", "strict"]], file)
    for dark in (False, True):
        browser.size(420, 900, dark)
        cases.fits("readers", 420)
        inside = browser.run("(mark => mark.getBoundingClientRect().right <= mark.closest('.scroll').getBoundingClientRect().right)"
                             "(document.querySelector('#stations tbody .side'))")
        cases.check("readers: the mark is in sight at 420 px", inside)
        browser.shot(f"readers-420{'-dark' if dark else ''}", whole=False)
        browser.size(1280, 900, dark)
        browser.shot(f"readers-1280{'-dark' if dark else ''}", whole=False)
    browser.size(1280, 900)
    check_listed_anew(cases, mock)
    mock.stop()


def check_listed_anew(cases, mock):
    """When readers are listed again, and what goes with a station."""
    browser = cases.browser
    mock.before = ["row reader NORTH-01 tolerant", "ok"]
    refresh(cases)
    cases.check("readers: rows of another console are none", names(cases) == MARKED, names(cases))
    mock.before = []
    mock.records.reader("ok", "tolerant")
    mock.heard.clear()
    cases.poll()
    cases.check("readers: a poll doesn't ask for them", "list readers" not in mock.heard and names(cases) == MARKED, mock.heard)
    cases.go("tags")
    cases.go("stations")
    cases.check("readers: the view of the stations does", names(cases) == [*MARKED[:3], "oktolerant"], names(cases))
    mock.repaired("ok", *METER)
    mock.records.unadd("ok")
    browser.run("listSoon('stations')")
    cases.is_at_rest()
    kept = "[state.readers.has('ok'), state.repairs.has('ok')]"
    cases.check("readers: what was kept of a dropped station goes", browser.run(kept) == [False, False], browser.run(kept))


def check_reader_form(cases):
    """The form begins with the reader that the station has, and the readers are asked for after it."""
    browser, mock = opened(cases)
    stop_polls(cases)
    cases.go("station/NORTH-01")
    cases.check("reader: strict at first", fact(cases) == "strict", fact(cases))
    cases.click("others", "Set its reader")
    field = "document.querySelector('#fields [name=reader]')"
    options = browser.run(f"[...{field}.options].map(one => one.value)")
    cases.check("reader: strict is the first choice", (options, browser.run(f"{field}.value")) == (["strict", "tolerant"], "strict"), options)
    cases.check("reader: what tolerant means", cases.text("note") == NOTE, cases.text("note"))
    cases.check("reader: the line is shown", cases.text("preview") == "station reader NORTH-01 strict", cases.text("preview"))
    cases.close()
    for reader in ("tolerant", "strict"):
        mock.heard.clear()
        said = cases.order("others", "Set its reader", dict(reader=reader))
        cases.check(f"reader: {reader} is taken", said == TAKEN, said)
        cases.check(f"reader: {reader}, what is sent", mock.heard == [f"station reader NORTH-01 {reader}", "list readers"], mock.heard)
        cases.check(f"reader: {reader} is shown", fact(cases) == reader, fact(cases))
        cases.click("others", "Set its reader")
        cases.check(f"reader: {reader} is chosen in the form", browser.run(f"{field}.value") == reader, browser.run(f"{field}.value"))
        cases.close()
    cases.go("calls")
    cases.check("reader: a line by hand", cases.free("station reader NORTH-01 tolerant") == TAKEN, cases.text("said"))
    cases.go("station/NORTH-01")
    cases.check("reader: which the page of the station shows", fact(cases) == "tolerant", fact(cases))
    mock.records.reader = lambda *_: ["refused 1 NoSuchStation"]
    mock.heard.clear()
    said = cases.order("others", "Set its reader", dict(reader="strict"))
    cases.check("reader: a refusal", said == "Refused, NoSuchStation: this operator has no station of that name.", said)
    cases.check("reader: after which nothing is asked", mock.heard == ["station reader NORTH-01 strict"], mock.heard)
    mock.stop()


def check_older(cases):
    """A server that knows no readers: the page shows none, has no form for them, and says nothing."""
    browser, mock = opened(cases, records=older_records)
    stop_polls(cases)
    cases.check("older: what the first poll asks", mock.heard == FIRST, mock.heard)

    def is_quiet():
        return cases.is_connected(1) and browser.run(HIDDEN.format("'notice'")) and not any("bad line" in line for line in browser.run("logs.own"))

    cases.check("older: nothing is said", is_quiet(), [cases.text("status"), cases.text("notice")])
    cases.check("older: no marks", names(cases) == NAMES, names(cases))
    file = list(csv.reader(io.StringIO(browser.run("csvOf(TABLES.stations)"), newline="")))
    cases.check("older: no readers in the file", {row[-1] for row in file[1:]} == {""}, file)
    cases.go("station/NORTH-02")
    cases.check("older: nor on the page of a station", fact(cases) is None and len(cases.rows("connectors")) == 1, fact(cases))
    cases.check("older: and no form for them", browser.run(HIDDEN.format("'set-reader'")))
    browser.run("document.getElementById('more').open = true")
    browser.shot("older")
    mock.records.has_readers = True
    refresh(cases)
    cases.check("older: a newer one in its place", fact(cases) == "tolerant" and not browser.run(HIDDEN.format("'set-reader'")), fact(cases))
    browser.shot("reader")
    mock.records.has_readers = False
    refresh(cases)
    cases.check("older: one that goes back", fact(cases) is None and browser.run(HIDDEN.format("'set-reader'")) and is_quiet(), fact(cases))
    cases.go("stations")
    cases.check("older: no marks then", names(cases) == NAMES, names(cases))
    cases.go("calls")
    said = cases.free("list readers")
    cases.check("older: a line by hand", said == "Refused, bad line: the server does not read this as an order.", said)
    mock.stop()


def check_repairs(cases):
    """Repairs are counted by action, fault and member, the latest first."""
    browser, mock = opened(cases, "UTC", mixed_records)
    stop_polls(cases)
    cases.go("station/NORTH-02")
    cases.check("repairs: nothing where there are none", browser.run(HIDDEN.format("'ownRepairs'")))
    for repair in (METER, METER, START_TIME, METER):
        mock.repaired("NORTH-02", *repair)
    mock.repaired("NORTH-01", *START_TIME)
    shown = "[...document.querySelectorAll('#ownRepairs tbody tr')].map(row => [...row.cells].slice(0, 4).map(cell => cell.textContent))"
    wanted = [[*METER, "3"], [*START_TIME, "1"]]
    cases.check("repairs: they are counted, the latest first", browser.wait(f"JSON.stringify({shown}) === {quoted(compact(wanted))}", 3), browser.run(shown))
    last = cases.rows("ownRepairs")[0][4]
    cases.check("repairs: with the time of the last", re.fullmatch(r"[\d-]{10} [\d:]{8} [\d:]{8} UTC", last), last)
    cases.check("repairs: the section is shown", not browser.run(HIDDEN.format("'ownRepairs'")))
    take_pictures(cases)
    mock.repaired("NORTH-02", *START_TIME)
    wanted = [[*START_TIME, "2"], [*METER, "3"]]
    cases.check("repairs: a further one", browser.wait(f"JSON.stringify({shown}) === {quoted(compact(wanted))}", 3), browser.run(shown))
    cases.go("station/NORTH-01")
    cases.check("repairs: those of another station", browser.run(shown) == [[*START_TIME, "1"]], browser.run(shown))
    cases.go("station/NORTH-10")
    cases.check("repairs: and of one that has none", browser.run(HIDDEN.format("'ownRepairs'")) and browser.run(shown) == [], browser.run(shown))
    check_bounds(cases, mock)
    check_lines(cases, mock)
    mock.stop()


def compact(rows):
    return "[" + ",".join("[" + ",".join(quoted(text) for text in row) + "]" for row in rows) + "]"


def take_pictures(cases):
    browser = cases.browser
    for width in (1280, 420):
        for dark in (False, True):
            browser.size(width, 900, dark)
            cases.fits("repairs", width)
            browser.shot(f"repairs-{width}{'-dark' if dark else ''}")
    browser.size(1280, 900)


def check_bounds(cases, mock):
    """Of a station the latest 20 are kept."""
    browser = cases.browser
    for number in range(25):
        mock.repaired("NORTH-10", "BootNotification", "PropertyConstraintViolation", f"member{number}")
    mock.repaired("NORTH-10", "BootNotification", "PropertyConstraintViolation", "member7")
    members = "rowsOf(TABLES.ownRepairs).map(row => row.member)"
    kept = [f"member{number}" for number in (7, *range(24, 7, -1), 6, 5)]
    cases.check("repairs: the latest 20 are kept", browser.wait(f"JSON.stringify({members}) === {quoted('[' + ','.join(map(quoted, kept)) + ']')}", 3),
                browser.run(members))
    cases.is_at_rest()
    cases.check("repairs: ten on a page", len(cases.rows("ownRepairs")) == 10 and "1–10 of 20." in cases.text("ownRepairs"), cases.text("ownRepairs"))
    file = list(csv.reader(io.StringIO(browser.run("csvOf(TABLES.ownRepairs)"), newline="")))
    cases.check("repairs: a file of them", file[0] == ["action", "fault", "member", "count", "last seen at (UTC)"] and len(file) == 21, file[:2])


def check_lines(cases, mock):
    """Their lines are no answers, no ends of calls and none of another console, whatever the station is called."""
    browser = cases.browser
    mock.before = ["NORTH-01 repaired MeterValues TypeConstraintViolation value"]
    listing = mock.records.listing
    mock.records.listing = lambda words: ["NORTH-02 repaired MeterValues TypeConstraintViolation value", *listing(words)]
    cases.go("tags")
    cases.check("repairs: within an answer", [row[0] for row in cases.rows("tags")] == ["K1", "K2", "K3", "P1"], cases.rows("tags"))
    cases.check("repairs: before that to a form", cases.order("tags", "Put an id tag", dict(tag="K8")) == TAKEN)
    mock.before, mock.records.listing = [], listing
    counts = "['NORTH-01', 'NORTH-02'].map(name => [...state.repairs.get(name).values()].at(-1)).map(({ member, count }) => member === 'value' && count > 0)"
    cases.check("repairs: they are counted there too", browser.run(counts) == [True, True], browser.run(counts))
    mock.tell(*(f"{name} repaired MeterValues TypeConstraintViolation value" for name in ("ok", "row", "refused")))
    cases.check("repairs: stations with the names of answers", browser.wait("['ok', 'row', 'refused'].every(name => state.repairs.has(name))", 3))
    cases.check("repairs: no call is ended", browser.run("state.calls.size") == 0)
    logs = browser.run("[logs.all, logs.own].map(lines => lines.filter(line => line.includes(' repaired ')))")
    cases.check("repairs: the log keeps their lines with those of listings", len(logs[0]) > 30 and logs[1] == [], logs[1])
    cases.check("repairs: and as no other console's", not any("other <" in line for line in logs[0]), logs[0])
    browser.run("changeServer('ws://127.0.0.1:1/operator/ACME')")
    cases.check("repairs: another server has none of them", browser.run("[state.repairs.size, state.readers]") == [0, None], browser.run("state.repairs.size"))


CASES = (check_marks, check_reader_form, check_older, check_repairs)
