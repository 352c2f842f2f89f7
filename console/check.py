#!/usr/bin/env python3
"""Checks console/index.html in headless Chromium against a server of its own, or over a real one.

    check.py                                      all cases
    check.py --program crates/central/out/central a charging session over the built program, with a second console
    check.py --server HOST:PORT --operator OP     a running server: connection and pictures alone
    check.py --write-hash                         writes the hash of the script into the policy of the page

Pictures of the page go to the folder that --pictures names, else to /tmp/console.
"""
# ruff: noqa: E402
import argparse
import base64
import hashlib
import re
import sys
import time
from pathlib import Path

# the cases share modules with the checks of the program
sys.path.append(str(Path(__file__).resolve().parent.parent / "checks"))

import desk_cases
import duty_cases
import form_cases
import hostile_cases
import link_cases
import program_cases
import reader_cases
import span_cases
import tag_cases
from browser import CHROMIUM, PAGE, Browser
from harness import path_of
from mock_server import Mock
from records import many_records, small_records
from tools import Cases, quoted


def check_policy(cases):
    """What the text of the page has, and hasn't."""
    page = PAGE.read_text()
    cases.check("the policy has the hash of the script", f"'sha256-{script_hash(page)}'" in page)
    script = page.split("<script>")[1]
    uses = [word for word in ("innerHTML", "outerHTML", "insertAdjacentHTML", "document.write", "eval(", "DOMParser") if word in script]
    cases.check("the script makes no HTML of texts", not uses, uses)
    cases.check("the page loads nothing", not re.search(r"""(src|href)=["'](?!#)|@import|url\(""", page))
    cases.check("a proxy's buffer has room for the page", len(page.encode()) < 180000, len(page.encode()))


def check_address(cases):
    """A server that the page's address names is connected to by a person alone, and what can't be an address is told."""
    browser, mock = cases.browser, Mock(small_records())
    browser.size(1280, 900)
    browser.load(f"server=127.0.0.1:{mock.port}&operator=ACME")
    time.sleep(0.3)
    cases.check("no connection unasked", browser.run("link.socket === null") and not mock.heard, mock.heard)
    cases.check("the button is at hand", browser.run("document.activeElement.id") == "open")
    empty = browser.run("[...document.querySelectorAll('#view-stations .hint')].filter(one => one.textContent === 'Not loaded.').length")
    cases.check("what isn't loaded is told", empty == 2, empty)
    cases.check("nothing to download yet", browser.run("document.querySelector('#stations .csv').disabled"))
    browser.shot("not-connected")
    for name, value, fault in (("port", "65536", "Enter a port from 1 to 65535."), ("host", "a b", "Enter a host name or an IP address.")):
        field = f"document.getElementById('connect').elements.{name}"
        browser.run(f"{{ const field = {field}; field.before = field.value; field.value = {quoted(value)}; }}")
        browser.run("document.getElementById('open').click()")
        seen = browser.run(f"{field}.validationMessage")
        cases.check(f"a wrong {name} is told", seen == fault, seen)
        browser.run(f"{{ const field = {field}; field.value = field.before; field.dispatchEvent(new Event('input', {{ bubbles: true }})); }}")
    browser.run("document.getElementById('open').click()")
    cases.check("connects when asked", cases.is_connected())
    cases.is_idle()
    browser.run("window.usual = setTimeout; window.paused = 0; window.setTimeout = (run, time) => { paused = time; return 0; }; planPoll(7000)")
    cases.check("a poll takes a fifth of the time", browser.run("window.setTimeout = usual; paused") == 28000, browser.run("paused"))
    mock.stop()


def check_loss(cases):
    """A connection that is lost is told, and made again by itself. What is shown stays."""
    browser, mock = cases.browser, Mock(small_records())
    browser.open(f"127.0.0.1:{mock.port}", "ACME")
    cases.is_idle()
    cases.go("station/NORTH-01")
    cases.is_at_rest()
    mock.take = lambda peer, text: None
    browser.run("poll(); setTimeout(() => { link.moved -= 21000; }, 300)")
    cases.check("a connection that owes an answer is ended", browser.wait("link.socket === null", 5))
    mock.stop()
    cases.check("a lost connection is told", browser.wait("document.getElementById('status').textContent === 'Connection lost'"))
    cases.check("the next attempt is told", browser.wait("/^Next attempt in [0-9]+ s$/.test(document.getElementById('next').textContent)"))
    cases.check("nothing can be sent", cases.order("ownReports", "Ask for a report", {}) == "Not connected: nothing was sent.")
    cases.check("the tables stay", len(cases.rows("connectors")) == 4)
    browser.shot("lost")
    cases.check("a failed attempt is told", browser.wait("document.getElementById('status').textContent.startsWith('Could not connect')"))
    browser.wait("link.attempts >= 3 && link.socket === null", 15)
    delay = browser.run("link.retryAt - Date.now()")
    cases.check("attempts are further apart", 1900 < delay < 5100, delay)
    again = Mock(small_records(), mock.port)
    cases.check("connects again by itself", cases.is_connected())
    cases.is_at_rest()
    cases.check("asks for connections first", again.heard[:1] == ["list connections"], again.heard[:1])
    history = [line for line in again.heard if line.startswith("list transactions")]
    cases.check("asks for the history from the last number", set(history) == {"list transactions NORTH-01 2"}, history)
    browser.run("document.getElementById('close').click()")
    cases.check("disconnects", browser.wait("document.getElementById('status').textContent === 'Disconnected'"))
    again.stop()


def check_old(cases):
    """A server that knows no orders with a word is told."""
    browser, mock = cases.browser, Mock(small_records())
    mock.is_old = True
    browser.open(f"127.0.0.1:{mock.port}", "ACME")
    told = "This server does not know orders with a word: it is older than this page."
    cases.check("an older server is told", browser.wait(f"document.getElementById('status').textContent === {quoted(told)}"), cases.text("status"))
    cases.check("and not asked again", not browser.run("link.isWanted"))
    mock.stop()


def check_many(cases):
    """A thousand stations."""
    browser, mock = cases.browser, Mock(many_records())
    browser.size(1280, 900)
    began = time.monotonic()
    browser.open(f"127.0.0.1:{mock.port}", "ACME")
    cases.check("1,000 stations: the first poll ends", cases.is_idle(60))
    took = time.monotonic() - began
    cases.check("1,000 stations: in 20 s", took < 20, took)
    print(f"1,000 stations, 5,000 transactions: first poll in {took:.1f} s")
    heard = [line.split(" ")[1] for line in mock.heard]
    counts = {what: heard.count(what) for what in sorted(set(heard))}
    cases.check("1,000 stations: what is asked", counts == {
        "connections": 1, "connectors": 1000, "open": 1, "readers": 1, "readings": 40, "stations": 1}, counts)
    count = browser.run("TABLES.stations.count.textContent")
    cases.check("1,000 stations: all are counted", count.startswith("1–15 of 1,000."), count)
    elements = browser.run("document.querySelectorAll('main *').length")
    cases.check("1,000 stations: few elements", elements < 2000, elements)
    spent = browser.run("""(() => { const began = performance.now(); const filter = document.querySelector('#stations input');
        filter.value = 'site07-1'; filter.dispatchEvent(new Event('input')); return performance.now() - began; })()""")
    cases.check("1,000 stations: a filter takes less than 200 ms", spent < 200, spent)
    cases.check("1,000 stations: the filter finds", [row[0] for row in cases.rows("stations")] == [f"SITE07-{index}" for index in range(10, 20)])
    spent = browser.run("(() => { const began = performance.now(); renderNow(); return performance.now() - began; })()")
    cases.check("1,000 stations: a view takes less than 200 ms", spent < 200, spent)
    browser.shot("many", whole=False)
    check_one_poll(cases, mock)
    mock.stop()


def check_one_poll(cases, mock):
    browser = cases.browser
    browser.run("poll(true); poll(true); poll(); poll()")
    cases.check("a command isn't kept waiting by a poll", cases.free("tag drop K1") == "Refused, NoSuchTag: this operator has no such id tag."
                and browser.run("polled.isRunning"))
    browser.run("polled.isWholeDue = false")
    browser.wait("!polled.isRunning", 30)
    browser.run("{ const pace = document.getElementById('pace'); pace.value = '0'; pace.dispatchEvent(new Event('change')); }")
    starts = mock.heard.count("list connections")
    cases.check("one poll at a time", 2 <= starts <= 4, starts)
    before = len(mock.heard)
    time.sleep(6)
    cases.check("a poll that is off asks nothing", len(mock.heard) == before)


def check_server(cases, server, operator):
    """A running server: what it is asked, and pictures."""
    browser = cases.browser
    browser.size(1280, 900)
    browser.open(server, operator)
    cases.check("connects", cases.is_connected(), cases.text("status"))
    cases.check("the first poll ends", cases.is_idle(60), cases.text("refreshed"))
    desk_cases.take_pictures(cases, "server")


def script_hash(page):
    script = re.search(r"<script>(.*)</script>", page, re.S).group(1)
    return base64.b64encode(hashlib.sha256(script.encode()).digest()).decode()


def write_hash():
    page = PAGE.read_text()
    PAGE.write_text(re.sub(r"'sha256-[^']*'", f"'sha256-{script_hash(page)}'", page, count=1))


def main():
    reader = argparse.ArgumentParser(description=__doc__, formatter_class=argparse.RawDescriptionHelpFormatter)
    reader.add_argument("--server", metavar="HOST:PORT")
    reader.add_argument("--operator", default="ACME")
    reader.add_argument("--program", metavar="PATH")
    reader.add_argument("--pictures", metavar="FOLDER", type=Path, default=Path("/tmp/console"))
    reader.add_argument("--write-hash", action="store_true")
    options = reader.parse_args()
    if options.write_hash:
        return write_hash()
    cases = Cases()
    if not (options.server or options.program):
        cases.attempt(check_policy)
    if program := path_of(*CHROMIUM):
        look(cases, program, options)
    else:
        cases.skip("the page", "no chromium (tools/check-tools)")
    cases.end()


def look(cases, program, options):
    """All cases that need a browser."""
    options.pictures.mkdir(parents=True, exist_ok=True)
    cases.browser = Browser(program, options.pictures)
    try:
        if options.server:
            cases.attempt(check_server, options.server, options.operator)
        elif options.program:
            cases.attempt(program_cases.check_program, options.program)
        else:
            for case in (check_address, *desk_cases.CASES, *duty_cases.CASES, *form_cases.CASES, *reader_cases.CASES, *tag_cases.CASES,
                         *span_cases.CASES, *link_cases.CASES, check_loss, check_old, check_many, *hostile_cases.CASES):
                cases.attempt(case)
        cases.check("the page has no errors", cases.browser.faults == [], cases.browser.faults)
    finally:
        cases.browser.close()


if __name__ == "__main__":
    main()
