"""What the cases of check.py share: counts of what holds, and what a person does on the page."""

import json
import time
import traceback

from harness import Counts

quoted = json.dumps


class Cases(Counts):
    browser = None

    def check(self, name, holds, seen=None):
        if holds:
            self.passed += 1
            return
        self.failed += 1
        print(f"failed: {name}" + ("" if seen is None else f", saw {seen!r}"))

    def attempt(self, case, *arguments):
        """A case that breaks off counts as failed, and the next one follows."""
        try:
            case(self, *arguments)
        except (RuntimeError, LookupError, TypeError, AttributeError, OSError) as fault:
            traceback.print_exc()
            self.check(case.__name__, False, f"{type(fault).__name__}: {str(fault)[:300]}")

    def rows(self, table):
        """The texts of a table's cells. Of a time it is the local one and the UTC, with a space between them."""
        return self.browser.run(f"[...document.querySelectorAll('#{table} tbody tr')].map(row => [...row.cells]"
                                ".map(cell => [...cell.querySelectorAll('li, .utc')].length > 0"
                                " ? [...cell.querySelectorAll('li, time, .utc')].map(one => one.textContent).join(' ') : cell.textContent))")

    def text(self, identifier):
        return self.browser.run(f"document.getElementById('{identifier}').textContent")

    def is_connected(self, seconds=10):
        return self.browser.wait("document.getElementById('status').textContent.startsWith('Connected')", seconds)

    def is_idle(self, seconds=20):
        """Waits until the first poll has ended."""
        return self.browser.wait("document.getElementById('refreshed').textContent.startsWith('Refreshed')", seconds) and self.is_at_rest(seconds)

    def is_at_rest(self, seconds=10):
        """Waits until no order is unanswered and all is shown."""
        return self.browser.wait("!polled.isRunning && link.asked.size === 0 && link.waiting.size === 0 && state.timer === undefined", seconds)

    def poll(self):
        self.browser.wait("!polled.isRunning")
        self.browser.run("poll()")
        return self.is_at_rest()

    def go(self, view):
        self.browser.run(f"location.hash = {quoted('#/' + view)}")
        self.browser.wait(f"state.view === {quoted(view.split('/')[0])}")
        time.sleep(0.1)
        return self.is_at_rest()

    def fits(self, name, width):
        seen = self.browser.run("document.documentElement.scrollWidth")
        self.check(f"{name}: nothing is wider than the window", seen <= width, seen)

    def click(self, section, text, row=None):
        """Presses a button of a section, or of the row whose first cell has that text."""
        return self.browser.run(
            f"(() => {{ const button = [...document.querySelectorAll('#{section} button')].find(one => one.textContent === {quoted(text)}"
            f" && ({quoted(row)} === null || one.closest('tr')?.cells[0].textContent === {quoted(row)}));"
            " button.focus(); button.click(); return true; })()")

    def fill(self, values, place=0):
        """Fills fields of the open form, by their names; where a name comes more than once, the one at a place."""
        for name, value in values.items():
            self.browser.run(
                f"{{ const field = document.querySelectorAll('#fields [name=\"{name}\"]')[{place}];"
                f"{'field.checked' if isinstance(value, bool) else 'field.value'} = {quoted(value)};"
                "field.dispatchEvent(new Event('input', { bubbles: true })); }")

    def send(self, seconds=5):
        """Sends the open form, and waits for what it says, or until it is closed."""
        self.browser.run("document.getElementById('send').click()")
        self.browser.wait("!document.getElementById('form').open || !/^(Sent\\.|.*Looking .*)?$/.test(document.getElementById('answer').textContent)", seconds)
        return self.text("answer") if self.browser.run("document.getElementById('form').open") else "closed"

    def order(self, section, button, values, row=None, stays=False):
        """Opens a form by its button, fills it, sends it, and closes it. Gives what it said."""
        self.click(section, button, row)
        self.fill(values)
        said = self.send()
        if not stays:
            self.browser.run("document.getElementById('form').close()")
        self.is_at_rest()
        return said

    def close(self):
        self.browser.run("document.getElementById('form').close()")

    def free(self, line):
        """Sends a line as it is."""
        self.browser.run("document.getElementById('said').replaceChildren();"
                         f"document.getElementById('free').elements.line.value = {quoted(line)};"
                         "document.querySelector('#free button').click()")
        self.browser.wait("!/^(Sent\\.)?$/.test(document.getElementById('said').textContent)", 5)
        return self.text("said")
