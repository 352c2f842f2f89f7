"""Cases of the link: a server that hangs, one that ends the connection over a long listing, calls that outlive a reload,
and a station that is reset."""

from desk_cases import opened
from mock_server import Mock
from records import BOOT, small_records
from tools import quoted

STATUS = "document.getElementById('status')"


def check_silence(cases):
    """A server that hangs is told, and its connection is given up, though its peer never answers a close."""
    browser, mock = opened(cases)
    mock.is_hung = True
    browser.run("poll(); setTimeout(() => { link.moved -= 5000; }, 300)")
    cases.check("hung: the header tells the silence", browser.wait(f"/^No answer since .* from ws:/.test({STATUS}.textContent)", 3), cases.text("status"))
    cases.check("hung: and isn't green", browser.run(f"{STATUS}.className") == "warn", browser.run(f"{STATUS}.className"))
    browser.shot("hung")
    browser.run("link.moved -= 20000")
    cases.check("hung: the link goes down at once", browser.wait(f"{STATUS}.textContent === 'Connection lost'", 3), cases.text("status"))
    cases.check("hung: and is shown as lost", browser.run(f"{STATUS}.className") == "bad" and browser.run("document.getElementById('main').className") == "stale")
    mock.stop()


def check_silence_ends(cases):
    """Disconnect needs no answer either, nor does a connection that is never made. A late answer ends the silence."""
    browser, mock = opened(cases)
    mock.is_hung = True
    browser.run("document.getElementById('close').click()")
    cases.check("hung: Disconnect is at once", browser.wait(f"{STATUS}.textContent === 'Disconnected'", 2), cases.text("status"))
    mock.stop()
    browser, mock = opened(cases)
    with mock.lock:
        browser.run("poll(); setTimeout(() => { link.moved -= 5000; }, 300)")
        cases.check("slow: the silence is told", browser.wait(f"{STATUS}.textContent.startsWith('No answer since')", 3), cases.text("status"))
    cases.check("slow: an answer ends it", browser.wait(f"{STATUS}.className === 'good'", 3) and cases.is_connected(1), cases.text("status"))
    for pace, asked in (("60", ["list connections"]), ("0", [])):
        browser.run(f"{{ const pace = document.getElementById('pace'); pace.value = '{pace}'; pace.dispatchEvent(new Event('change')); }}")
        cases.is_at_rest()
        mock.heard.clear()
        browser.run("link.moved -= 11000")
        browser.wait("false", 2)
        cases.check(f"a refresh of {pace} s: what a quiet link is asked", mock.heard == asked, mock.heard)
    mock.stop()


def check_long_listing(cases):
    """A listing at which the server ends the connection is told, and isn't asked for again unasked."""
    browser, mock = opened(cases)
    mock.too_long = {"list uses"}
    cases.go("uses")
    told = "document.getElementById('notice').textContent"
    cases.check("1011: the listing is named", browser.wait(f"{told}.startsWith('list uses: the server ended the connection (code 1011)')", 5), browser.run(told))
    cases.check("1011: connects again", cases.is_connected())
    cases.is_at_rest()
    cases.check("1011: it isn't asked for again", mock.heard.count("list uses") == 1, mock.heard)
    browser.shot("too-long")
    mock.too_long = set()
    browser.run("document.getElementById('refresh').click()")
    cases.is_at_rest()
    cases.check("1011: Refresh all asks for it", len(cases.rows("uses")) == 10 and browser.run("document.getElementById('notice').hidden"), cases.rows("uses"))
    mock.too_long, mock.breaks = {"list uses"}, True
    mock.heard.clear()
    browser.run("document.getElementById('refresh').click()")
    cases.check("lost: the listing is named after three losses", browser.wait(f"{told}.startsWith('list uses: the connection was lost 3 times')", 15), browser.run(told))
    cases.check("lost: connects again", cases.is_connected())
    cases.is_at_rest()
    cases.check("lost: it was asked for three times", mock.heard.count("list uses") == 3, mock.heard.count("list uses"))
    mock.stop()


def check_reload(cases):
    """Calls and their ends outlive a reload of the page, without what stations answered."""
    browser, mock = opened(cases)
    browser.run("sessionStorage.clear()")
    cases.go("station/NORTH-01")
    cases.order("commands", "Unlock a connector", {})
    mock.outcome = 'Answer {"configurationKey":[{"key":"AuthorizationKey","readonly":false,"value":"geheim"}]}'
    cases.order("others", "Read the configuration", {})
    mock.outcome = None
    cases.order("others", "Clear the cache of id tags", {})
    mock.tell("NORTH-01 done 88 Timeout")
    browser.command("Page.reload")
    browser.wait("document.readyState === 'complete' && document.getElementById('zone')?.textContent !== ''")
    browser.run("document.getElementById('open').click()")
    cases.check("reload: connects", cases.is_connected())
    cases.is_idle()
    cases.go("calls")
    rows = [row[:4] for row in cases.rows("calls")]
    cases.check("reload: the calls are shown", rows == [
        ["NORTH-01 / 3", "Unknown: this page was disconnected", "ClearCache", "–"], ["NORTH-01 / 2", "Done", "GetConfiguration", "not kept over a reload"],
        ["NORTH-01 / 1", "Done: Accepted", "UnlockConnector", "not kept over a reload"]], rows)
    stored = browser.run("JSON.stringify(Object.values(sessionStorage))")
    cases.check("reload: no answer is stored", "geheim" not in stored and "UnlockConnector" in stored, stored)
    mock.tell('NORTH-01 done 3 Answer {"status":"Rejected"}')
    cases.check("reload: an end that comes later is shown", browser.wait("endOfCall(state.calls.get('NORTH-01 3'))[0] === 'Done: Rejected'", 3))
    browser.run("for (let index = 0; index < 500; index += 1) keepCall({ station: 'S', number: String(index), action: 'Reset', since: 1 }); saveCalls()")
    kept = browser.run("JSON.parse(Object.values(sessionStorage)[0]).length")
    cases.check("reload: so many are stored at most", kept == 200, kept)
    mock.stop()
    check_other_server(cases)


def check_other_server(cases):
    """The calls of one server aren't shown as those of another."""
    browser, mock = cases.browser, Mock(small_records())
    browser.open(f"127.0.0.1:{mock.port}", "ACME")
    cases.is_idle()
    cases.go("calls")
    cases.check("reload: another server has none of them", cases.rows("calls") == [], cases.rows("calls"))
    browser.run("sessionStorage.clear()")
    mock.stop()


def check_reset(cases):
    """After a Reset the station is seen to leave, to come back, and with which boot on record."""
    browser, mock = opened(cases)
    cases.go("station/NORTH-01")
    said = cases.order("commands", "Reset the station", {}, stays=True)
    cases.check("reset: its end", said == "Call 1: Done: Accepted.The station has not left yet.", said)
    boot = "document.getElementById('answer').textContent.split('Accepted.')[1]"
    mock.records.connected.pop("NORTH-01")
    cases.check("reset: it leaves", browser.wait(f"/^Left at .*\\. It is not back yet\\.$/.test({boot})", 4), browser.run(boot))
    mock.records.rows["stations"][0] = mock.records.rows["stations"][0].replace(BOOT["firmwareVersion"], "1.5.0")
    mock.records.connected["NORTH-01"] = 0
    cases.check("reset: it is back", browser.wait(f"/^Left at .*\\. Connected again at .*\\. Boot on record: Vendor, Model 7, 1\\.5\\.0\\.$/.test({boot})", 8), browser.run(boot))
    browser.shot("reset", whole=False)
    cases.close()
    cases.go("calls")
    shown = "document.querySelector('#calls tbody tr').cells[4].textContent"
    cases.check("reset: the boot is among the calls", browser.wait(f"{shown}.endsWith('Boot on record: Vendor, Model 7, 1.5.0.')", 6), browser.run(shown))
    browser.run("{ const pace = document.getElementById('pace'); pace.value = '0'; pace.dispatchEvent(new Event('change')); }")
    cases.is_at_rest()
    asked = len(mock.heard)
    browser.wait("false", 2.5)
    cases.check("reset: the watch ends", mock.heard[asked:] == [], mock.heard[asked:])
    cases.check("reset: another call has no boot", browser.run(f"bootText({quoted(dict(action='ClearCache', outcome='Answer'))})") is None)
    mock.stop()


CASES = (check_silence, check_silence_ends, check_long_listing, check_reload, check_reset)
