"""What a page shows in a real browser, scan by scan, held against what is right."""
import os
from itertools import product

import image
import pages
import recordings

LEFT, RIGHT, HOME, END, SPACE, ENTER = ("ArrowLeft", 37), ("ArrowRight", 39), ("Home", 36), ("End", 35), (" ", 32, " "), ("Enter", 13, "\r")
WIDTHS = (1400, 1000, 390)
MEDIA = (("", "light"), ("", "dark"), ("print", "light"))

with open(os.path.join(pages.HERE, "seen.js")) as file:
    SEEN = file.read()

FORWARD = """(() => { const all = [seen()];
  while (document.getElementById("number").textContent !== document.getElementById("slider").max) {
    document.getElementById("on").click(); all.push(seen()); }
  return all; })()"""

# For each row of the timeline whether a bar stands in the middle of each scan's place.
TIMES = """Object.fromEntries([...document.querySelectorAll("#timeline .row[data-place]")].map(row => {
  const strip = row.querySelector(".strip"), bars = strip.querySelector(".high"), count = Number(document.getElementById("slider").max);
  const step = strip.getAttribute("width") / count, middle = strip.getAttribute("height") / 2;
  const isHigh = (_, scan) => bars.isPointInFill(new DOMPoint((scan + 0.5) * step, middle));
  return [row.dataset.place, Array.from({length: count}, isHigh)]; }))"""

# Labels of one rung that lie on one another or outside its drawing, and text that is cut.
FAULTS = """(() => { const faults = [];
  const over = (a, b) => a.left < b.right - 1 && b.left < a.right - 1 && a.top < b.bottom - 1 && b.top < a.bottom - 1;
  for (const svg of document.querySelectorAll(".rung svg")) {
    const edge = svg.getBoundingClientRect();
    const texts = [...svg.querySelectorAll("text")].filter(text => getComputedStyle(text).display !== "none");
    const boxes = texts.map(text => text.getBoundingClientRect());
    boxes.forEach((box, one) => {
      if (box.left < edge.left - 1 || box.right > edge.right + 1 || box.top < edge.top - 1) faults.push("outside: " + texts[one].textContent);
      boxes.slice(one + 1).forEach((other, two) => {
        if (over(box, other)) faults.push(texts[one].textContent + " on " + texts[one + 1 + two].textContent); });
    });
  }
  const root = document.documentElement;
  if (root.scrollWidth > root.clientWidth) faults.push("the page is too wide: " + root.scrollWidth);
  for (const text of document.querySelectorAll(".point, .tag, button.use, #now")) {
    if (text.scrollWidth > text.clientWidth + 1) faults.push("cut: " + text.textContent);
  }
  return faults; })()"""


# ---- one scan

def values_in(line):
    return dict(image.scan_changes(line.partition(" ")[2]))


def rung_fault(rung, value, state):
    """What is wrong in a rung that comes to value, where the places stood as state says."""
    for contact in rung["contacts"]:
        if contact["closed"] != (bool(state.get(contact["place"], 0)) != contact["broken"]):
            return f"contact {contact['place']} in the rung of {rung['coil']}"
    good = (rung["value"], rung["filled"]) == (str(value), value == 1)
    return None if good else f"coil {rung['coil']}"


def rungs_fault(seen, coils, state):
    """Goes through the rungs as the panel does; state is what the runner says it is on the way."""
    for rung, value in zip(seen["rungs"], coils):
        fault = rung_fault(rung, value, state)
        if fault:
            return fault
        state[rung["coil"]] = value
    return None if len(seen["rungs"]) == len(coils) else "a rung is missing"


def front_fault(seen, line, state):
    """The lamps against the runner's line, and all points and bits against how things stand."""
    driven = {f"@{point}": value for point, value in values_in(line).items()}
    if any(seen["points"].get(point) != ("off", "on")[value] for point, value in driven.items()):
        return "a lamp"
    if any((word == "on") != bool(state.get(point, 0)) or seen["marked"][point] != (word == "on") for point, word in seen["points"].items()):
        return "a point"
    return "a bit" if any(int(value) != state[place] for place, value in seen["bits"].items()) else None


def scan_fault(number, seen, right, changes, state):
    state.update({f"@{point}": value for point, value in image.scan_changes(changes)})
    line, coils = right
    told = (str(number), changes or "none", line, str(number))
    if (seen["number"], seen["changes"], seen["line"], seen["slider"]) != told:
        return f"it says {seen['number']}, {seen['changes']}, {seen['line']}"
    return rungs_fault(seen, coils, state) or front_fault(seen, line, state)


def starts_of(shown):
    """The bits at the start, by the proved check's order and the tree's own numbers."""
    return {f"${bit.address}": bit.start for bit in pages.bits.bits_of(shown.names, shown.tree)}


def times_fault(times, number, state):
    """The timeline against how things stand after a scan."""
    wrong = [place for place, high in times.items() if high[number - 1] != bool(state.get(place, 0))]
    return f"the timeline of {wrong[0]}" if wrong else None


def fault_in(seen, times, shown, right):
    """The first fault in what was seen of all scans, and in the timeline, or None."""
    state, scans = starts_of(shown), [scan.strip("-") for scan in recordings.listing_of(shown.recording).splitlines()]
    if len(seen) != len(scans):
        return f"{len(seen)} scans are shown of {len(scans)}"
    for number, (one, *expected, changes) in enumerate(zip(seen, right.lines, right.coils, scans), 1):
        fault = scan_fault(number, one, expected, changes, state) or times_fault(times, number, state)
        if fault:
            return f"scan {number}: {fault}"
    return None


# ---- the browser

class Watch:
    def __init__(self, browser, path):
        self.browser, self.path = browser, path

    def open(self, place=""):
        self.browser.open(self.path, place)
        self.browser.run(SEEN)

    def number(self):
        return int(self.browser.run("document.getElementById('number').textContent"))

    def forward(self):
        """What is seen at each scan, stepping with the page's own button."""
        self.open()
        return self.browser.run(FORWARD)

    def times(self):
        return self.browser.run(TIMES)

    def after(self, *keys):
        """The number of the scan after each key."""
        numbers = []
        for key in keys:
            self.browser.key(*key)
            numbers.append(self.number())
        return numbers

    def keys_fault(self, count):
        """The keys, by hand: on the page, and with the focus on the slider."""
        for focus in ("document.activeElement.blur()", "document.getElementById('slider').focus()"):
            self.open()
            self.browser.run(focus)
            got = self.after(RIGHT, RIGHT, LEFT, END, RIGHT, HOME, LEFT)
            if got != [2, 3, 2, count, count, 1, 1]:
                return f"keys lead to {got}"
        return None

    def play_fault(self):
        """Space plays and pauses."""
        self.open()
        self.browser.run("document.getElementById('speed').value = '250'")
        self.browser.key(*SPACE)
        self.browser.run("new Promise(done => setTimeout(done, 700))")
        self.browser.key(*SPACE)
        stopped = self.number()
        self.browser.run("new Promise(done => setTimeout(done, 400))")
        return None if 2 <= stopped == self.number() else f"playing leads to {stopped} and {self.number()}"

    def places_fault(self, count):
        """The slider, the timeline and the address lead to a scan."""
        self.open("#3")
        got = [self.number()]
        self.browser.run("const s = document.getElementById('slider'); s.value = 2; s.dispatchEvent(new Event('input'))")
        got.append(self.number())
        self.browser.run("""const strip = document.querySelector('.strip'), box = strip.getBoundingClientRect();
            strip.dispatchEvent(new MouseEvent('click', {clientX: box.right - 1}))""")
        got.append(self.number())
        return None if got == [3, 2, count] else f"slider, timeline and address lead to {got}"

    def picked(self, script):
        """The numbers of the rungs and the uses that stand out after a script."""
        self.browser.run(script)
        return self.browser.run("""[[...document.querySelectorAll('.rung')].flatMap((rung, place) =>
            rung.matches('.picked') || rung.querySelector('.contact.picked') ? [place + 1] : []),
            [...document.querySelectorAll('pre .use.picked')].map(use => use.textContent)]""")

    def layout_faults(self):
        """In light, dark and print, wide and narrow."""
        faults = []
        for width, (kind, scheme) in product(WIDTHS, MEDIA):
            self.browser.size(width, 900)
            self.browser.media(kind, scheme)
            faults += [f"{width} {kind or scheme}: {fault}" for fault in self.browser.run(FAULTS)]
        self.browser.media()
        self.browser.size(1400, 900)
        return faults
