#!/usr/bin/env python3
"""Tries the pages of `amsulfezd view` in a real browser: Debian's Chromium without a window, driven through chromedriver by the
WebDriver protocol, of which the standard library speaks all that is needed. scripts/browser.sh makes the pages and runs this:
browser.py PAGES [FOLDER]. PAGES is a folder with night.html, passive.html, refused.html, timeout.html, each the page of a stored
trace, and large.html, one of 100,000 entries. Each check prints a line; the first that does not hold ends the run. With FOLDER the
pictures to be looked at are put there. browser.py --repeat TRACE OUT
[ENTRIES] makes a trace of 100,000 entries, or so many: the polls of a trace again and again, each time a tenth of a second later."""

import base64
import json
import os
import subprocess
import sys
import time
import urllib.request

PORT = 9515 + os.getpid() % 400


def call(method, path, body=None):
    """One request to chromedriver; its answer's value."""
    data = None if body is None else json.dumps(body).encode()
    request = urllib.request.Request(f"http://127.0.0.1:{PORT}{path}", data, {"Content-Type": "application/json"}, method=method)
    with urllib.request.urlopen(request, timeout=60) as answer:
        return json.load(answer)["value"]


class Browser:
    """A browser with a page in it."""

    def __init__(self):
        words = ["--headless=new", "--no-sandbox", "--disable-gpu", "--disable-dev-shm-usage", "--window-size=1400,1000"]
        options = {"goog:chromeOptions": {"args": words}, "goog:loggingPrefs": {"browser": "ALL"}}
        self.at = "/session/" + call("POST", "/session", {"capabilities": {"alwaysMatch": options}})["sessionId"]

    def open(self, page):
        """Opens a file and waits until it has drawn itself; how long that took, in seconds."""
        begun = time.monotonic()
        call("POST", self.at + "/url", {"url": "file://" + os.path.abspath(page)})
        while self.run("return document.body.dataset.ready") != "yes":
            if time.monotonic() - begun > 30:
                fail(f"{page} is not drawn after 30 s")
            time.sleep(0.05)
        return time.monotonic() - begun

    def run(self, script, *words):
        return call("POST", self.at + "/execute/sync", {"script": script, "args": list(words)})

    def cdp(self, name, **words):
        return call("POST", self.at + "/goog/cdp/execute", {"cmd": name, "params": words})

    def settle(self):
        """Waits for what is drawn with the next picture of the screen."""
        script = "const done = arguments[0]; requestAnimationFrame(() => requestAnimationFrame(() => done(0)))"
        call("POST", self.at + "/execute/async", {"script": script, "args": []})

    def mouse(self, *steps):
        """Moves and presses of the pointer: ("move", x, y), ("down",), ("up",)."""
        kinds = {"move": "pointerMove", "down": "pointerDown", "up": "pointerUp"}
        actions = []
        for name, *place in steps:
            action = {"type": kinds[name], "button": 0}
            if place:
                action.update({"x": int(place[0]), "y": int(place[1]), "duration": 30})
            actions.append(action)
        pointer = {"type": "pointer", "id": "hand", "parameters": {"pointerType": "mouse"}, "actions": actions}
        call("POST", self.at + "/actions", {"actions": [pointer]})
        self.settle()

    def wheel(self, x, y, by):
        action = {"type": "scroll", "x": int(x), "y": int(y), "deltaX": 0, "deltaY": by, "duration": 0, "origin": "viewport"}
        call("POST", self.at + "/actions", {"actions": [{"type": "wheel", "id": "wheel", "actions": [action]}]})
        self.settle()

    def fill(self, field, value):
        """Gives a field of the search a value, as a hand that types or picks it."""
        script = "const e = document.getElementById(arguments[0]); e.value = arguments[1]; e.dispatchEvent(new Event('input'))"
        self.run(script, field, value)
        self.settle()

    def found(self, field, value, of, count=None):
        """Looks for a value in a field: how many entries of so many are found, all of them in the table."""
        self.fill(field, value)
        found = self.run("return document.getElementById('found').textContent")
        rows = self.run("return document.querySelectorAll('#rows .row[data-entry]').length")
        number = int(found.split(" ")[0])
        hold(found.endswith(f" of {of} entries") and count in (None, number) and rows == number, f"{field} {value}: {found}")
        return number

    def clear(self):
        self.run("document.getElementById('clear').click()")
        self.settle()

    def colour(self, name):
        """A colour of the style as red, green and blue."""
        return self.run(
            "const p = document.createElement('canvas').getContext('2d');"
            "p.fillStyle = getComputedStyle(document.documentElement).getPropertyValue(arguments[0]).trim(); p.fillRect(0, 0, 1, 1);"
            "return [...p.getImageData(0, 0, 1, 1).data].slice(0, 3)",
            name,
        )

    def painted(self, x, colour):
        """How many pixels above each other have this colour, at this place from the left of the timeline."""
        return self.run(
            "const c = document.getElementById('timeline'), s = devicePixelRatio, w = arguments[1];"
            "const k = Object.assign(document.createElement('canvas'), {width: 1, height: c.height});"
            "const p = k.getContext('2d', {willReadFrequently: true}); p.drawImage(c, -Math.round(arguments[0] * s), 0);"
            "const d = p.getImageData(0, 0, 1, c.height).data; let n = 0;"
            "for (let y = 0; y < c.height; y++) if ([0, 1, 2].every((i) => d[4 * y + i] === w[i])) n++;"
            "return n / s",
            x, colour,
        )

    def shown(self):
        """The first and the last entry on the timeline."""
        return self.run("const d = document.getElementById('timeline').dataset; return [Number(d.first), Number(d.last)]")

    def chosen(self):
        """The entries that are marked: in the words above the table, and in the table."""
        return self.run(
            "const e = document.getElementById('entry').dataset.entry, r = document.querySelector('#rows .chosen');"
            "return [Number(e || 0), r ? Number(r.dataset.entry) : 0]"
        )

    def box(self, identity):
        return self.run("const b = document.getElementById(arguments[0]).getBoundingClientRect(); return [b.x, b.y, b.width, b.height]", identity)

    def picture(self, folder, name):
        if folder:
            with open(os.path.join(folder, name), "wb") as file:
                file.write(base64.b64decode(call("GET", self.at + "/screenshot")))

    def complaints(self):
        return [line["message"] for line in call("POST", self.at + "/se/log", {"type": "browser"}) if line["level"] != "INFO"]


def fail(words):
    print(f"browser: {words}", file=sys.stderr)
    sys.exit(1)


def hold(condition, words):
    """One check: its words, or the end."""
    if not condition:
        fail(f"this does not hold: {words}")
    print(f"browser: {words}")


def left_of_columns():
    """Where the columns begin, as page.js has it."""
    return 96


def night(browser, page, folder):
    """The letter's night: loaded, zoomed, dragged, searched, chosen here and there, light, dark and on paper."""
    browser.open(page)
    hold(browser.run("return document.getElementById('name').textContent") == "night.trace", "the page of night.trace is drawn")
    hold(browser.shown() == [1, 36], "all 36 entries are on the timeline")
    browser.picture(folder, "night-light.png")
    browser.run("window.scrollTo(0, document.body.scrollHeight)")
    browser.settle()
    browser.picture(folder, "night-light-below.png")
    browser.run("window.scrollTo(0, 0)")
    left, top, width, height = browser.box("timeline")
    column = (width - left_of_columns() - 8) / 36

    # A click on the timeline marks the line of the table; a click on a line marks the column.
    browser.mouse(("move", left + left_of_columns() + 26.5 * column, top + height / 2), ("down",), ("up",))
    hold(browser.chosen() == [27, 27], "a click on column 27 marks line 27 of the table")
    words = browser.run("return document.getElementById('entry').textContent")
    hold("no sign of life from 9 after three tokens, it is out of the ring" in words, "and says that 9 is out of the ring")
    browser.picture(folder, "night-chosen.png")
    row = browser.run(
        "const r = document.querySelector('#rows .row[data-entry=\"29\"]'); r.scrollIntoView({block: 'center'});"
        "const b = r.getBoundingClientRect(); return [b.x + 200, b.y + 10]"
    )
    browser.mouse(("move", *row), ("down",), ("up",))
    hold(browser.chosen() == [29, 29], "a click on line 29 chooses it")
    browser.run("window.scrollTo(0, 0)")
    browser.settle()
    place = browser.run(
        "const c = document.getElementById('timeline'), s = devicePixelRatio, d = c.getContext('2d').getImageData(0, 4 * s, c.width, 1).data;"
        "const e = getComputedStyle(document.documentElement).getPropertyValue('--chosen');"
        "const p = document.createElement('canvas').getContext('2d'); p.fillStyle = e.trim(); p.fillRect(0, 0, 1, 1);"
        "const w = p.getImageData(0, 0, 1, 1).data; const xs = [];"
        "for (let x = 0; x < c.width; x++) if ([0, 1, 2].every((i) => d[4 * x + i] === w[i])) xs.push(x / s);"
        "return [xs[0], xs[xs.length - 1]]"
    )
    middle = (place[0] + place[1]) / 2 if place[0] is not None else 0
    hold(abs(middle - (left_of_columns() + 28.5 * column)) < column / 2, "and its column is marked on the timeline")

    # The wheel zooms at the pointer, a drag moves.
    browser.wheel(left + left_of_columns() + 26.5 * column, top + height / 2, -240)
    first, last = browser.shown()
    hold(first > 1 and last - first < 30 and first <= 27 <= last, f"the wheel zooms in around entry 27: {first} to {last}")
    browser.picture(folder, "night-zoomed.png")
    browser.mouse(("move", left + 500, top + 100), ("down",), ("move", left + 600, top + 100), ("move", left + 700, top + 100), ("up",))
    moved = browser.shown()
    hold(moved[0] < first, f"a drag moves it: {moved[0]} to {moved[1]}")
    hold(browser.chosen()[0] == 29, "and chooses nothing")
    browser.run("document.getElementById('fit').click()")
    browser.settle()
    hold(browser.shown() == [1, 36], "the button shows all again")

    # The search, by each of its fields.
    for field, value, count in [
        ("by-address", "9", None), ("by-state", "7", 6), ("by-notice", "1", 6), ("by-alarm", "1", 1), ("by-words", "plug", 0),
        ("by-words", "three tokens", 1),
    ]:
        number = browser.found(field, value, 36, count)
        if field == "by-state":
            browser.picture(folder, "night-found.png")
        if number:
            browser.run("document.getElementById('next').click()")
            browser.settle()
            hold(browser.chosen()[0] == browser.chosen()[1] != 0, f"the next one found is entry {browser.chosen()[0]}")
        browser.clear()
    hold(browser.run("return document.querySelectorAll('#heard tr[data-address]').length") == 4, "four addresses were heard")

    # Dark, and on paper.
    light = browser.run("return getComputedStyle(document.documentElement).backgroundColor")
    browser.cdp("Emulation.setEmulatedMedia", features=[{"name": "prefers-color-scheme", "value": "dark"}])
    browser.settle()
    dark = browser.run("return getComputedStyle(document.documentElement).backgroundColor")
    hold(light == "rgb(255, 255, 255)" and dark != light, f"a dark system makes it dark: {dark}")
    browser.picture(folder, "night-dark.png")
    paper = browser.cdp("Page.printToPDF", printBackground=True, preferCSSPageSize=True)["data"]
    paper = base64.b64decode(paper)
    hold(paper.startswith(b"%PDF"), f"it is printed: {len(paper)} bytes")
    if folder:
        with open(os.path.join(folder, "night.pdf"), "wb") as file:
            file.write(paper)
    browser.cdp("Emulation.setEmulatedMedia", features=[{"name": "prefers-color-scheme", "value": "light"}])


def passive(browser, page, folder):
    """A spare logger, passive in its entries 2 to 13: state 9 has a colour of its own in the timeline and the table, light and
    dark; the counts and who was heard stand below."""
    browser.open(page)
    left, _, width, _ = browser.box("timeline")
    column = (width - left_of_columns() - 8) / 16
    for dress in ["light", "dark"]:
        browser.cdp("Emulation.setEmulatedMedia", features=[{"name": "prefers-color-scheme", "value": dress}])
        browser.settle()
        colours = [browser.colour(f"--s{state}") for state in range(10)]
        nearest = min(sum(abs(a - b) for a, b in zip(colours[9], colour)) for colour in colours[:9])
        hold(nearest >= 60, f"{dress}: the colour of state 9, {colours[9]}, is like no other state's")
        for entry, wanted in [(1, False), (2, True), (13, True), (14, False)]:
            high = browser.painted(left_of_columns() + (entry - 0.9) * column, colours[9])
            hold((high >= 15) == wanted, f"{dress}: entry {entry} is {'' if wanted else 'not '}painted in it on the timeline")
        chips = browser.run(
            "const of = (n) => [...document.querySelectorAll(`#rows .row[data-entry='${n}'] .chip`)].map((c) => getComputedStyle(c).backgroundColor);"
            "return [of(1), of(2), of(8)]"
        )
        state = ["rgb({}, {}, {})".format(*colours[number]) for number in (0, 9)]
        hold(chips == [[state[0]], state, [state[1]]], f"{dress}: the table has it beside PassiveIdle, and Offline's beside Offline")
        browser.picture(folder, f"passive-{dress}.png")
    hold("PassiveIdle" in browser.run("return document.getElementById('legend').textContent"), "the legend names it")
    browser.found("by-state", "9", 16, 12)
    browser.clear()
    browser.found("by-address", "126", 16, 2)
    browser.clear()
    counts = browser.run("return document.getElementById('counts').innerText")
    hold("claimed the token once, removed a neighbour 0 times" in counts, f"the counts are shown: {counts}")
    heard = browser.run("return [...document.querySelectorAll('#heard tr[data-address]')].map((r) => r.innerText.split('\\t').slice(0, 2).join(' '))")
    hold(heard == ["7 2", "9 4"], "7 was heard twice and 9 four times")
    browser.run("document.querySelector('#heard tr[data-address]').click()")
    browser.settle()
    hold(browser.run("return document.getElementById('by-address').value") == "7", "a click on one who was heard looks for it")
    browser.cdp("Emulation.setEmulatedMedia", features=[{"name": "prefers-color-scheme", "value": "light"}])


def told(browser, refused, timeout, folder):
    """Refusals and notices are found by their numbers."""
    browser.open(refused)
    browser.picture(folder, "refused.png")
    for value, count in [("-", 22), ("12", 8), ("13", 2), ("14", 9), ("15", 3)]:
        browser.found("by-refusal", value, 30, count)
    browser.clear()
    browser.open(timeout)
    for value, count in [("-", 1), ("1", 0), ("2", 1)]:
        browser.found("by-notice", value, 16, count)
    browser.fill("by-notice", "2")
    browser.run("document.getElementById('next').click()")
    browser.settle()
    words = browser.run("return document.getElementById('entry').textContent")
    hold("application 0 timed out waiting for 20" in words, "the timeout that is found is that of entry 10")


def large(browser, page, folder):
    """100,000 entries stay quick."""
    took = browser.open(page)
    hold(took < 5, f"100,000 entries are drawn after {took:.1f} s")
    browser.run("document.getElementById('fit').click()")
    browser.settle()
    hold(browser.shown() == [1, 100000], "all of them are on the timeline")
    browser.picture(folder, "large.png")
    rows = browser.run("return document.querySelectorAll('#rows .row').length")
    hold(rows < 100, f"the table holds {rows} lines at a time")
    script = (
        "const done = arguments[0], c = document.getElementById('timeline'), b = c.getBoundingClientRect(), times = [];"
        "const step = (left) => { const t = performance.now();"
        "c.dispatchEvent(new WheelEvent('wheel', {deltaY: left % 2 ? -60 : 50, clientX: b.x + 700, clientY: b.y + 50, cancelable: true}));"
        "requestAnimationFrame(() => { times.push(performance.now() - t); left ? step(left - 1) : done(times.sort((a, b) => a - b)[Math.floor(times.length / 2)]); }); };"
        "step(30)"
    )
    middle = call("POST", browser.at + "/execute/async", {"script": script, "args": []})
    hold(middle < 200, f"a step of the wheel is drawn within {middle:.0f} ms")
    begun = time.monotonic()
    browser.fill("by-state", "3")
    found = browser.run("return document.getElementById('found').textContent")
    took = time.monotonic() - begun
    hold(took < 2 and not found.startswith("0 "), f"a search takes {took:.2f} s: {found}")
    browser.fill("by-state", "")
    browser.run("const r = document.getElementById('rows'); r.scrollTop = r.scrollHeight")
    time.sleep(0.2)
    browser.settle()
    last = browser.run("const r = [...document.querySelectorAll('#rows .row[data-entry]')]; return Number(r[r.length - 1].dataset.entry)")
    hold(last == 100000, "the table scrolls to entry 100,000")


def repeat(trace, out, entries="100000"):
    """A trace of so many entries, of the polls of another one whose header is of edition 1."""
    with open(trace, "rb") as file:
        given = file.read()
    head, rest, polls = given[:16], given[16:], []
    while rest:
        length = rest[0] if rest[0] > 2 else 0
        entry, rest = rest[: length + 1], rest[length + 1 :]
        if length:
            polls.append(entry)
    made = [head, b"\0"]
    for number in range(int(entries) - 1):
        poll = polls[number % len(polls)]
        clock = int.from_bytes(poll[1:7], "big") + 100_000 * (number // len(polls))
        made.append(poll[:1] + clock.to_bytes(6, "big") + poll[7:])
    with open(out, "wb") as file:
        file.write(b"".join(made))


def main():
    if sys.argv[1] == "--repeat":
        return repeat(*sys.argv[2:])
    pages, folder = sys.argv[1], (sys.argv[2:] or [None])[0]
    page = lambda name: os.path.join(pages, name + ".html")
    driver = subprocess.Popen(["chromedriver", f"--port={PORT}"], stdout=subprocess.DEVNULL, stderr=subprocess.DEVNULL)
    try:
        for _ in range(100):
            try:
                if call("GET", "/status")["ready"]:
                    break
            except OSError:
                time.sleep(0.1)
        browser = Browser()
        try:
            night(browser, page("night"), folder)
            passive(browser, page("passive"), folder)
            told(browser, page("refused"), page("timeout"), folder)
            large(browser, page("large"), folder)
            complaints = browser.complaints()
            hold(not complaints, f"the browser complains of nothing{': ' + complaints[0] if complaints else ''}")
        finally:
            call("DELETE", browser.at)
    finally:
        driver.terminate()
        driver.wait()


if __name__ == "__main__":
    main()
