"""A charging session over the built program, which the page and a second console watch."""

import re
import socket
import subprocess
import tempfile
import threading
import time

import desk_cases
import form_cases
from peer import BOOT, Peer

PORT = 9293
WORD = re.compile(r"\[2,\"([^\"]*)\",")


class Station:
    """A station over loopback, which answers each call with Accepted."""

    def __init__(self, name):
        self.peer = Peer(PORT, f"/ocpp/ACME/{name}")
        self.count = 0
        self.calls = []
        threading.Thread(target=self.listen, daemon=True).start()
        self.send(BOOT)

    def listen(self):
        try:
            while True:
                text = self.peer.text()
                if text is None:
                    self.peer.read()
                elif (match := WORD.match(text)):
                    self.calls.append(text)
                    self.peer.send(f'[3,"{match[1]}",{{"status":"Accepted"}}]')
        except (SystemExit, OSError):
            pass

    def send(self, text):
        self.peer.send(text)
        time.sleep(0.3)

    def ask(self, action, payload):
        self.count += 1
        self.send(f'[2,"c{self.count}","{action}",{payload}]')


def time_text(seconds):
    return time.strftime("%Y-%m-%dT%H:%M:%SZ", time.gmtime(time.time() + seconds))


def check_program(cases, program):
    with tempfile.TemporaryDirectory() as folder:
        server = subprocess.Popen([program, "serve", "--port", str(PORT), "--db", f"{folder}/hub.db", "--operators", "ACME,BETA", "--origin", "null", "--log", "none"])
        try:
            cases.check("the program listens", is_listening())
            check_session(cases)
        finally:
            server.terminate()
            server.wait(10)


def is_listening(seconds=10):
    end = time.monotonic() + seconds
    while time.monotonic() < end:
        try:
            Peer(PORT, "/operator/BETA").stream.close()
            return True
        except OSError:
            time.sleep(0.1)
    return False


def check_session(cases):
    """A station is added by the page, charges, and is stopped by the page."""
    browser = cases.browser
    browser.size(1280, 900)
    browser.open(f"127.0.0.1:{PORT}", "ACME")
    cases.check("connects", cases.is_connected(), cases.text("status"))
    cases.check("the first poll ends", cases.is_idle(), cases.text("refreshed"))
    browser.run("{ const pace = document.getElementById('pace'); pace.value = '0'; pace.dispatchEvent(new Event('change')); }")
    other = Peer(PORT, "/operator/ACME")
    said = cases.order("stations", "Add a station", dict(station="CP01"))
    cases.check("a station is added", said == "Taken.", said)
    cases.go("tags")
    cases.check("a tag is put", cases.order("tags", "Put an id tag", dict(tag="K1")) == "Taken.")
    said = cases.order("tags", "Grant", dict(receiver="NOBODY"), "K1")
    cases.check("a refusal is said", said == "Refused, NoSuchOperator: no operator of that name is hosted.", said)
    for _ in range(10):
        other.send("tag drop K9")
        other.send("list tags")
    cases.check("a line of no form", cases.free("lost") == "Refused, bad line: the server does not read this as an order.", cases.text("said"))
    station = Station("CP01")
    station.ask("StatusNotification", '{"connectorId":1,"errorCode":"NoError","status":"Charging"}')
    station.ask("StartTransaction", f'{{"connectorId":1,"idTag":"K1","meterStart":1000,"timestamp":"{time_text(-600)}"}}')
    station.ask("MeterValues", f'{{"connectorId":1,"transactionId":1,"meterValue":[{{"timestamp":"{time_text(0)}","sampledValue":'
                '[{"value":"3500"},{"value":"11","unit":"kW","measurand":"Power.Active.Import"}]},'
                f'{{"timestamp":"{time_text(0)}","sampledValue":[{{"value":"42","unit":"Percent","measurand":"SoC"}}]}}]}}')
    cases.go("stations")
    browser.run("poll(true)")
    cases.is_at_rest()
    rows = cases.rows("stations")
    cases.check("a session is shown", [row[:5] for row in rows] == [["CP01", "Connected", "Charging: #1", "#1, 10 min, 2.5 kWh, 11 kW, 42 %", "0"]], rows)
    check_commands(cases, station)
    desk_cases.take_pictures(cases, "program", ("stations", "station/CP01", "station/CP01/1", "records", "tags", "uses", "calls"))


def check_forget(cases):
    """Of two meter values the one of two readings goes. The last one stays, and so does the session, which is the last one
    too."""
    time.sleep(1)
    for seconds, wanted in ((-86400, "Nothing was so old."), (0, "0 sessions and 2 readings are forgotten."), (0, "Nothing was so old."),
                            (86400, 'Refused, BadField: the field "Before" is out of its limits (until).')):
        said = form_cases.forgotten(cases, dict(until=time_text(seconds)[:19]))
        cases.check(f"forget before {seconds} s from now", said == wanted, said)
    cases.go("station/CP01/1")
    seen = [len(cases.rows(table)) for table in ("history", "readings")]
    cases.check("a session and a reading are left", seen == [1, 1], seen)


def ended(cases):
    """What the open form says of the end of its call, which the station's answer brings. Closes it."""
    cases.send()
    cases.browser.wait("/^Call/.test(document.getElementById('answer').textContent)", 5)
    said = cases.text("answer")
    cases.browser.run("document.getElementById('form').close()")
    cases.is_at_rest()
    return said


def check_commands(cases, station):
    """Commands that the station accepts: a stop, a reservation, a local list."""
    cases.go("station/CP01")
    cases.click("commands", "Stop a session")
    said = ended(cases)
    cases.check("a session is stopped", said == "Call 1: Done: Accepted.", said)
    cases.check("the station was told", any("RemoteStopTransaction" in call for call in station.calls), station.calls)
    station.ask("StopTransaction", f'{{"meterStop":4000,"timestamp":"{time_text(0)}","transactionId":1,"reason":"Remote"}}')
    cases.poll()
    rows = cases.rows("history")
    cases.check("its end is shown", [row[0] for row in rows] == ["1"] and rows[0][6:8] == ["3", "Remote"], rows)
    cases.click("ownReservations", "Reserve")
    cases.fill(dict(idTag="K1"))
    ended(cases)
    cases.check("a reservation", [row[:3] for row in cases.rows("ownReservations")] == [["1", "any", "K1"]], cases.rows("ownReservations"))
    cases.click("ownList", "Send a list")
    cases.click("fields", "Add all id tags of this operator")
    cases.browser.wait("document.querySelectorAll('#fields .entry').length > 0")
    said = ended(cases)
    cases.check("a local list", said == "Call 3: Done: Accepted.", said)
    cases.check("is on record", [row[:2] for row in cases.rows("ownList")] == [["K1", "Accepted"]], cases.rows("ownList"))
    check_forget(cases)
    station.peer.stream.shutdown(socket.SHUT_RDWR)
    time.sleep(1)
    cases.poll()
    cases.go("stations")
    cases.check("a station that leaves", cases.rows("stations")[0][1].startswith("Offline last seen "), cases.rows("stations"))
