"""Cases of hostile texts: elements, handlers, directions of lines, and what the policy of the page refuses."""

import csv
import io
from html.parser import HTMLParser

from desk_cases import opened
from records import HEBREW, NASTY, NASTY_WORD, TURNED, nasty_records, turned_records
from tools import quoted

SHOWN = "a\\u202eb\\u2067c\\u200fd"
TURNS = "/[\\u061c\\u200e\\u200f\\u202a-\\u202e\\u2066-\\u2069]/"


class Elements(HTMLParser):
    def __init__(self):
        super().__init__()
        self.names, self.handlers = [], []

    def handle_starttag(self, name, attributes):
        self.names.append(name)
        self.handlers += [key for key, _ in attributes if key.startswith("on")]


def check_nasty(cases):
    """Texts that would be elements, handlers or members of JavaScript's objects are shown as they are."""
    browser, mock = opened(cases, "UTC", nasty_records)
    mock.tell(f"{NASTY_WORD} done 1 Answer {quoted({'status': NASTY})}", f"{NASTY_WORD} done 2 Error {quoted([NASTY, NASTY])}",
              f"{NASTY_WORD} done 3 BadAnswer {NASTY_WORD} {NASTY_WORD}", f"{NASTY_WORD} turned", f"refused 12 BadField {NASTY_WORD}",
              f"{NASTY_WORD} done 4 Answer {quoted({'configurationKey': [5, None, {'key': NASTY}], NASTY: NASTY})}", f"row {NASTY}", NASTY,
              f"{NASTY_WORD} repaired {NASTY_WORD} {NASTY_WORD} {NASTY_WORD}", f"{NASTY_WORD} repaired __proto__ constructor -", "__proto__ repaired x y z",
              f"{NASTY_WORD} repaired x {NASTY}", f"{NASTY_WORD} repaired x y")
    rows = cases.rows("stations")
    cases.check("nasty texts: a station and its reader", rows[0][0] == NASTY_WORD + NASTY_WORD and rows[0][6:9] == [NASTY] * 3, rows)
    browser.run("location.hash = placeOf('station', " + quoted(NASTY_WORD) + ", '1')")
    cases.check("nasty texts: its page", browser.wait("state.view === 'station' && document.querySelectorAll('#readings figure').length > 0"))
    cases.is_at_rest()
    cases.check("nasty texts: a connector", cases.rows("connectors")[0][-3:] == [NASTY] * 3, cases.rows("connectors"))
    cases.check("nasty texts: a session", cases.rows("history")[-1][2] == NASTY, cases.rows("history"))
    cases.check("nasty texts: a local list", [row[0] for row in cases.rows("ownList")].count(NASTY) == 1, cases.rows("ownList"))
    reports = [row[:3] for row in cases.rows("ownReports")]
    cases.check("nasty texts: reports", [NASTY_WORD, NASTY_WORD, "2024-01-01 00:00:00 00:00:00 UTC"] in reports and ["constructor", "__proto__", "x"] in reports, reports)
    cases.check("nasty texts: its reader", f"Reader{NASTY_WORD}" in cases.text("facts"), cases.text("facts"))
    repairs = [row[:4] for row in cases.rows("ownRepairs")]
    cases.check("nasty texts: repairs", repairs == [["__proto__", "constructor", "-", "1"], [*[NASTY_WORD] * 3, "1"]], repairs)
    check_dump(cases, "nasty station")
    browser.shot("nasty-station-1280")
    browser.size(420, 900)
    cases.fits("nasty station", 420)
    browser.shot("nasty-station-420")
    cases.click("others", "Set its reader")
    browser.run("document.getElementById('send').click()")
    cases.check("nasty texts: a reader that isn't known has to be chosen anew", browser.run("document.querySelector('#fields [name=reader]').validity.valueMissing")
                and not any(line.startswith("station") for line in mock.heard), mock.heard[-3:])
    cases.close()
    mock.outcome = f"Answer {quoted({'status': NASTY, 'data': NASTY})}"
    said = cases.order("commands", "Reset the station", {}, stays=True)
    cases.check("nasty texts: an end at the form", said.startswith(f"Call 1: Done: {NASTY}."), said)
    check_dump(cases, "nasty form")
    browser.run("document.getElementById('form').close()")
    for view in ("sessions", "records", "tags", "uses", "calls"):
        cases.go(view)
        check_dump(cases, f"nasty {view}")
        cases.fits(f"nasty {view}", 420)
    check_nasty_lists(cases, mock)
    mock.stop()
    browser.load("server=%3Cimg%20src=x%3E&operator=%22%3E%3Cimg%20src=x%20onerror=window.ran=1%3E#/station/%zz/<img>")
    browser.run("document.getElementById('open').click()")
    check_dump(cases, "nasty query")
    cases.check("nasty query: no connection", cases.text("status").startswith("Not connected"), cases.text("status"))


def check_nasty_lists(cases, mock):
    browser = cases.browser
    cases.check("nasty texts: an end of a call", f"Done: {NASTY}" in [row[1] for row in cases.rows("calls")], cases.rows("calls"))
    cases.go("uses")
    uses = [["2", "constructor", "=" + NASTY, "x", "y"], ["1", NASTY_WORD, NASTY, "2024-01-01 00:00:00 00:00:00 UTC", "1"]]
    cases.check("nasty texts: uses", cases.rows("uses") == uses, cases.rows("uses"))
    totals = [["x", "constructor", "1", "0"], ["2024-01", NASTY_WORD, "1", "0.001"]]
    cases.check("nasty texts: totals", cases.rows("totals") == totals, cases.rows("totals"))
    read = list(csv.reader(io.StringIO(browser.run("csvOf(TABLES.uses)"), newline="")))[1:]
    cases.check("nasty texts: the CSV has them", [row[1:3] for row in read] == [["constructor", "'=" + NASTY], [NASTY_WORD, NASTY]], read)
    cases.go("sessions")
    browser.run("{ const { from, to } = document.getElementById('span').elements; from.value = '2024-01-01'; to.value = '2024-01-01'; }")
    browser.run("document.getElementById('span-list').click()")
    cases.check("nasty texts: the sessions of all stations", browser.wait("span.all === 1 && !span.isRunning", 5)
                and [row[:3] for row in cases.rows("ranged")] == [[NASTY_WORD, "1", NASTY]] * 2, cases.rows("ranged"))
    check_dump(cases, "nasty sessions")
    cases.go("tags")
    mock.records.local_list(NASTY_WORD, 1, [{"idTag": NASTY, "idTagInfo": {"status": NASTY, "expiryDate": NASTY}}, {"idTag": [1]}, {NASTY: NASTY}])
    cases.click("tags", "Lists", NASTY)
    said = "document.getElementById('holders').textContent"
    cases.check("nasty texts: the lists that hold a tag", browser.wait(f"{said}.includes({quoted(NASTY)})", 5), browser.run(said))
    check_dump(cases, "nasty lists")
    cases.close()
    mock.records.unput = lambda *_: [f"refused 99 {NASTY_WORD} {NASTY}"]
    cases.click("tags", "Drop", NASTY)
    seen = cases.send()
    cases.check("nasty texts: a refusal", seen == f"Refused, {NASTY_WORD}: no description ({NASTY}).", seen)
    check_dump(cases, "nasty refusal")
    browser.run("document.getElementById('form').close()")


def check_dump(cases, name):
    document = cases.browser.command("DOM.getDocument")["root"]["nodeId"]
    dump = Elements()
    dump.feed(cases.browser.command("DOM.getOuterHTML", nodeId=document)["outerHTML"])
    other = {"img", "iframe", "object", "embed", "b", "i", "audio", "video", "foreignobject"} & set(dump.names)
    cases.check(f"{name}: no element of them", not other and dump.names.count("script") == 1, other)
    cases.check(f"{name}: no handler of them", dump.handlers == [], dump.handlers)
    cases.check(f"{name}: nothing ran", cases.browser.run("typeof window.ran") == "undefined")


def check_directions(cases):
    """Signs that turn the direction of a line are shown as escapes, and letters from the right turn nothing else."""
    browser, mock = opened(cases, "UTC", turned_records)
    cases.check("signs of direction are escapes", cases.rows("stations")[0][6] == SHOWN, cases.rows("stations"))
    cases.check("letters stay letters", cases.rows("stations")[0][7] == HEBREW, cases.rows("stations"))
    cases.check("nor does a reader", cases.rows("stations")[0][0] == f"EAST-01{SHOWN}", cases.rows("stations"))
    mock.repaired("EAST-01", HEBREW, TURNED, TURNED)
    mock.tell(f'EAST-01 done 7 Error ["NotSupported",{quoted(TURNED)}]', "EAST-01 done 8 Error [\"" + HEBREW + "\",\"1 2\"]")
    for view in ("stations", "station/EAST-01/1", "records", "tags", "calls"):
        cases.go(view)
        seen = browser.run(f"document.getElementById('view-{view.split('/')[0]}').innerText.match({TURNS})")
        cases.check(f"{view}: no sign turns a line", seen is None, seen)
        isolated = browser.run("[...document.querySelectorAll('bdi')].every(one => getComputedStyle(one).unicodeBidi === 'isolate')")
        cases.check(f"{view}: texts stand apart", isolated and browser.run("document.querySelectorAll('bdi').length > 0"))
    browser.run("document.getElementById('polled').click()")
    browser.wait("document.getElementById('lines').textContent.includes('row connector EAST-01')")
    browser.run("poll()")
    cases.is_at_rest()
    check_order_of_signs(cases)
    cases.go("tags")
    cases.click("tags", "Drop", SHOWN)
    cases.check("a form shows escapes", SHOWN in cases.text("form-about"), cases.text("form-about"))
    browser.shot("turned-form", whole=False)
    cases.send()
    cases.check("and sends the tag as it is", f"tag drop {TURNED}" in mock.heard, mock.heard[-3:])
    cases.close()
    cases.go("stations")
    browser.shot("turned")
    mock.stop()


def check_order_of_signs(cases):
    """In a line of the log each sign stands to the right of the one before it, or below it."""
    places = cases.browser.run("""(() => {
        const line = [...document.querySelectorAll('#lines li')].find(one => one.textContent.includes('row connector EAST-01'));
        const node = line.firstChild, range = document.createRange();
        return [...node.data].map((_, index) => { range.setStart(node, index); range.setEnd(node, index + 1);
            const { left, top } = range.getBoundingClientRect(); return [top, left]; });
    })()""")
    cases.check("a line of the log keeps its order", len(places) > 40 and places == sorted(places), places[:5])


def check_holds(cases):
    """The policy of the page is in force: it refuses handlers, other scripts, HTML of texts and requests."""
    browser, faults = cases.browser, len(cases.browser.faults)
    ways = {
        "handlers": "const made = document.createElement('p'); made.setAttribute('onclick', 'window.ran = 1'); made.click()",
        "other scripts": "document.head.append(Object.assign(document.createElement('script'), { text: 'window.ran = 1' }))",
        "HTML of texts": "document.body.innerHTML = '<b>text</b>'",
    }
    for name, code in ways.items():
        refused = browser.run(f"(() => {{ try {{ {code}; return false; }} catch (fault) {{ return fault instanceof TypeError; }} }})()")
        cases.check(f"the policy refuses {name}", refused and browser.run("typeof window.ran") == "undefined")
    cases.check("the policy refuses requests", browser.run("fetch('http://127.0.0.1:9/').then(() => false, () => true)")
                and any("Content Security Policy" in fault for fault in browser.faults[faults:]), browser.faults[faults:])
    del browser.faults[faults:]


CASES = (check_nasty, check_directions, check_holds)
