"""Checks the page: what it is made of without a browser, and what it shows in one."""
import os
import random
import re
import subprocess
import sys
import tempfile

sys.dont_write_bytecode = True
import pages
import browser
import programs
import watching
from pages import answers, image, making, reading

ATTEMPTS = 400
FORBIDDEN = ("http:", "https:", "src=", "<link", "@import", "url(", "fetch(", "XMLHttpRequest")


def refusal(shown):
    """What page_of says where it makes no page, or None."""
    try:
        making.page_of(shown)
    except ValueError as fault:
        return str(fault)
    return None


def fault_free(label, fault):
    """A check, with its fault behind the label where there is one."""
    return (f"{label}: {fault}" if fault else label), not fault


# ---- without a browser

def images_are_taken_apart(shown):
    kinds = [reading.image_of(given).kind for given in (shown.image, shown.expanded, shown.tree)]
    return kinds == [reading.SYNTAX, reading.SYNTAX, reading.TREE]


def damaged(given, chance):
    """An image with one or two bytes changed, or cut short."""
    out = bytearray(given)
    for _ in range(chance.choice((1, 1, 2))):
        out[chance.randrange(len(out))] = chance.choice((0, 1, 2, 3, 4, 5, 127, 128, 255, chance.randrange(256)))
    return bytes(out[:chance.randrange(len(out))] if chance.random() < 0.2 else out)


def is_taken(given):
    try:
        reading.image_of(given)
    except ValueError:
        return False
    return True


def damage_is_told(shown):
    """An image is taken apart exactly where the jobs find no fault of layout or limit in it: codes 1 and 2."""
    chance = random.Random(24)
    tried = [damaged(chance.choice((shown.image, shown.expanded, shown.tree)), chance) for _ in range(ATTEMPTS)]
    calls = b"".join(image.call("evaluate" if given[:1] == b"\2" else "expand", given, budget=1) for given in tried)
    run = subprocess.run(answers.command(pages.program("replay")), input=calls, stdout=subprocess.PIPE, check=True)
    codes = [int(line.split()[0]) for line in run.stdout.decode().splitlines()]
    return len(codes) == ATTEMPTS and all(is_taken(given) == (code not in (1, 2)) for given, code in zip(tried, codes))


def other_line(line):
    """With its last value turned."""
    return line[:-1] + "10"[int(line[-1])]


def changed_lines_are_refused(shown):
    """A line with another value, one line too few, one too many, and lines in another order: each is told in one sentence."""
    *first, last = shown.lines
    wrong = ([*first, other_line(last)], first, [*shown.lines, last], shown.lines[::-1])
    said = [refusal(shown._replace(lines=lines)) for lines in wrong]
    return all(each and "\n" not in each for each in said)


def is_self_contained(page):
    return not any(word in page for word in FORBIDDEN) and page.count("<script") == 2 and page.startswith("<!DOCTYPE html>")


BIT_ROW = re.compile(r'<td class="address">(\d+)</td><th scope="row">[^<]*</th><td>(\d+)</td>')


def addresses_are_the_check_s(shown, page):
    """Names and addresses in the memory, and in every label, are those that the panel check lists."""
    right = [(str(address), str(name)) for address, name in enumerate(shown.names)]
    return BIT_ROW.findall(page) == right and set(re.findall(r"address (\d+), name (\d+)", page)) == set(right)


def other_names_are_refused(shown):
    """A bit too few or too many, another name, and bits in another order."""
    wrong = [shown.names[1:], [*shown.names, 99], [*shown.names[:-1], 99], shown.names[::-1]]
    return all("the panel check lists" in (refusal(shown._replace(names=names)) or "") for names in wrong)


def tree_has_a_page(shown):
    """Without words and macros, and it says so."""
    page = making.page_of(shown._replace(text=None, image=None, expanded=None))
    return making.NO_WORDS in page and "<pre" not in page and 'data-use="0"' not in page and ">$12<" in page and "address 1, name 13" in page


def expanded_image_has_a_page(shown):
    """An image that came expanded has words, and no macros any more."""
    text = answers.print_text(pages.program("replay"), shown.expanded).written.decode()
    page = making.page_of(shown._replace(text=text, image=shown.expanded))
    return making.NO_MACROS in page and 'data-use="0"' not in page and ">run<" in page


def long_recording_is_cut(shown):
    """The first scans are shown, the file stays small, and a wrong line far behind is still found."""
    count = making.LONGEST + 500
    recording = image.recording([f"@1={scan % 2} @5={scan // 3 % 2}" for scan in range(count)])
    long = shown._replace(recording=recording, lines=pages.lines_of(shown.tree, recording))
    page = making.page_of(long)
    said = f"The recording has {count} scans. All were held against the runner; the page shows the first {making.LONGEST}."
    return said in page and len(page) < 300000 and refusal(long._replace(lines=[*long.lines[:-1], other_line(long.lines[-1])])) is not None


def markup_is_escaped(shown):
    page = making.page_of(shown._replace(title="<b>&", text="; </pre><script>\n" + shown.text))
    return "<h1>&lt;b&gt;&amp;</h1>" in page and "</pre><script>" not in page and page.count("<script") == 2


def origins_in(page):
    """How many labels were written by a macro, handed in and so on."""
    return {kind: page.count(f'class="label {kind}"') for kind in ("own", "handed", "inner", "around")}


WRITTEN = {
    "feeder-and-fan": {"own": 7, "handed": 2, "inner": 0, "around": 0},
    "accident": {"own": 9, "handed": 0, "inner": 0, "around": 0},
    "start-stop": {"own": 3, "handed": 3, "inner": 0, "around": 0},
    "interlock": {"own": 0, "handed": 4, "inner": 0, "around": 0},
    "fan-with-overrun": {"own": 2, "handed": 3, "inner": 0, "around": 0},
    "one-bit": {"own": 0, "handed": 0, "inner": 0, "around": 0},
}
BECAME = {
    "feeder-and-fan": ("(feeder @10)</code><span class=\"became\">rungs 1–2, its own bit run at address 0<",
                       "(fan @13)</code><span class=\"became\">rungs 3–4, its own bit run at address 1<"),
    "flasher": ("(halve)</code><span class=\"became\">rungs 2–3, its own bit half at address 1<",
                "(halve)</code><span class=\"became\">rungs 4–5, its own bit half at address 2<"),
    "mixing-plant": ("(feeder @103 @13 (&#x27;not @23))</code><span class=\"became\">rungs 5–6, its own bit run at address 2<",
                     "(lit @33)</code><span class=\"became\">contacts in rung 31<"),
    "one-bit": (making.NO_USE,),
}


def one_page_checks(name, shown, page):
    yield f"the images of {name}", images_are_taken_apart(shown)
    yield f"{name}: changed lines", changed_lines_are_refused(shown)
    yield f"{name}: one file alone", is_self_contained(page)
    yield f"{name}: {len(page)} bytes", len(page) < 160000
    yield f"{name}: addresses", addresses_are_the_check_s(shown, page)
    if name in WRITTEN:
        yield f"{name}: who wrote what", origins_in(page) == WRITTEN[name]
    if name in BECAME:
        yield f"{name}: what the macros became", all(said in page for said in BECAME[name])


def making_checks(made):
    for name, (shown, page) in made.items():
        yield from one_page_checks(name, shown, page)
    shown = made["feeder-and-fan"][0]
    yield "damaged images", damage_is_told(shown)
    yield "bits that the panel check does not list", other_names_are_refused(shown)
    yield "a program that came as a tree", tree_has_a_page(shown)
    yield "a program that came expanded", expanded_image_has_a_page(shown)
    yield "a long recording", long_recording_is_cut(shown)
    yield "a recording without a scan", refusal(shown._replace(recording=b"\0", lines=[])) is not None
    yield "text that looks like markup", markup_is_escaped(shown)
    yield "programs by chance", programs.all_have_pages()
    yield fault_free("what scopes tell", "; ".join(programs.scopes_tell()))


# ---- in a browser

def written(folder, name, page):
    path = os.path.join(folder, name + ".html")
    with open(path, "w", encoding="utf-8") as file:
        file.write(page)
    return path


def page_checks(opened, folder, name, shown, page):
    watch = watching.Watch(opened, written(folder, name, page))
    yield fault_free(f"{name} shows what the runner says", watching.fault_in(watch.forward(), watch.times(), shown, pages.right_of(shown)))
    yield f"{name}: a row of the timeline for each point and bit", len(watch.times()) == page.count('<div class="row"') > 0
    yield fault_free(f"{name}: keys", watch.keys_fault(len(shown.lines)))
    yield fault_free(f"{name}: layout", "; ".join(watch.layout_faults()[:3]))


def picking_fault(watch):
    """Choosing a use in the text, in the list or at a rung shows its rungs and its text."""
    watch.open()
    ways = ("document.querySelectorAll('pre .use')[1].click()", "document.querySelectorAll('button.use')[0].click()",
            "document.querySelectorAll('.rung .tag')[1].click()", "document.querySelectorAll('.rung .tag')[1].click()",
            "document.querySelectorAll('pre .use')[0].focus()")
    got = [watch.picked(way) for way in ways]
    fan, feeder, none = [[3, 4], ["(fan @13)"]], [[1, 2], ["(feeder @10)"]], [[], []]
    return None if got == [fan, feeder, fan, none, feeder] else f"what stands out is {got}"


def no_script_fault(opened, path):
    """Without script the first scan stands there, and no control that does nothing."""
    opened.ask("Emulation.setScriptExecutionDisabled", value=True)
    opened.open(path)
    got = opened.run("""[getComputedStyle(document.querySelector('.controls')).display, document.querySelectorAll('.coil.on').length,
        document.getElementById('line').textContent]""")
    opened.ask("Emulation.setScriptExecutionDisabled", value=False)
    return None if got == ["none", 0, "1 @10=0 @13=0"] else f"without script: {got}"


def browser_checks(made, folder):
    with browser.Browser() as opened:
        opened.size(1400, 900)
        opened.media()
        for name, (shown, page) in made.items():
            yield from page_checks(opened, folder, name, shown, page)
        watch = watching.Watch(opened, os.path.join(folder, "feeder-and-fan.html"))
        yield fault_free("playing", watch.play_fault())
        yield fault_free("ways to a scan", watch.places_fault(8))
        yield fault_free("macro uses", picking_fault(watch))
        yield fault_free("nothing is fetched", opened.run("performance.getEntriesByType('resource').map(each => each.name).join(' ')"))
        yield fault_free("no script", no_script_fault(opened, watch.path))
        yield fault_free("faults told by the browser", "; ".join(opened.faults))


class Count:
    """How many checks passed and failed. What failed is told."""

    def __init__(self):
        self.passed = self.failed = 0

    def one(self, label, passed):
        self.passed, self.failed = self.passed + bool(passed), self.failed + (not passed)
        if not passed:
            print(f"failed: {label}")

    def all(self, checks):
        """A check that cannot be made to the end has failed, and those behind it are not tried."""
        try:
            for label, passed in checks:
                self.one(label, passed)
        except (ValueError, RuntimeError, OSError, KeyError) as fault:
            self.one(f"{type(fault).__name__}: {fault}", False)


def made_pages():
    made = {}
    for name, recording in pages.EXAMPLES:
        shown = pages.example(name, recording)
        made[name] = shown, making.page_of(shown)
    return made


def all_checks(count):
    """Why the browser was skipped, or None."""
    made = made_pages()
    count.all(making_checks(made))
    why = browser.missing()
    if why is None:
        with tempfile.TemporaryDirectory() as folder:
            count.all(browser_checks(made, folder))
    return why


def main():
    count, why = Count(), None
    print("page: lines by", os.path.relpath(pages.program("scan"), pages.ROOT))
    try:
        why = all_checks(count)
    except ValueError as fault:
        count.one(str(fault), False)
    if why:
        print(f"page: the browser is skipped, {why}")
    print(f"{count.passed} passed, {count.failed} failed" + (", 1 skipped" if why else ""))
    return 1 if count.failed else 0


if __name__ == "__main__":
    raise SystemExit(main())
