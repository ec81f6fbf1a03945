"""Every word with good input, as text, as syntax image and as tree image. What is expected is the second program's answer, or stands here."""
import calls
import image
import reading
from calls import Case, second

PANELS = {
    "accident": "address  name  word  start\n0        12    run   0\n1        13    run   1\n",
    "flasher": "address  name  word   start\n0        8     pulse  0\n1        11    half   1\n2        12    half   1\n",
    "interlock": "address  name  word  start\n",
}
IDENTITY = b"((lambda x x) 9)"


def forms(found):
    """A program in each form that a tree is made of, and what is said on the way."""
    yield "text", found.text, ("read: code 0", found.expand_said, found.parse_said)
    yield "syntax image", found.image, (found.expand_said, found.parse_said)
    yield "expanded image", found.expanded, (found.parse_said,)


def of_jobs(name):
    found = calls.example(name)
    yield Case(f"expand {name}, a text", ["expand", "-"], found.text, out=found.expanded, said=("read: code 0", found.expand_said))
    yield Case(f"expand {name}, a syntax image", ["expand", "-"], found.image, out=found.expanded, said=(found.expand_said,))
    for form, given, said in forms(found):
        yield Case(f"parse {name}, {form}", ["parse", "-"], given, out=found.tree, said=said)


def panel_table(tree):
    """The table of a tree: words are gone. Its start values are those behind the functions."""
    root = calls.answers.root_of(tree)
    bits = calls.answers.bits_of(second("panel", tree))
    rows = [("address", "name", "word", "start"), *((address, bit, "-", start_of(root, bit)) for bit, address in bits)]
    return "".join(f"{a:<9}{n:<6}{w:<6}{s}\n" for a, n, w, s in rows).encode()


def start_of(root, bit):
    """What stands behind the function of a bit, by counting brackets."""
    place = root.index(f"[{bit} ")
    depth = 0
    while True:
        depth += {"[": 1, "]": -1}.get(root[place], 0)
        place += 1
        if depth == 0:
            return root[place:root.index(")", place)].strip()


def of_panels(name):
    found = calls.example(name)
    yield Case(f"panel {name}, a tree", ["panel", "-"], found.tree, out=panel_table(found.tree), said=("panel: code 0",))
    for form, given, said in forms(found) if name in PANELS else ():
        yield Case(f"panel {name}, {form}", ["panel", "-"], given, out=PANELS[name].encode(), said=(*said, "panel: code 0"))


def of_scans(program, recording):
    found = calls.example(program)
    lines = calls.second_scan(found.tree, calls.bytes_in("examples", recording + ".recording"))
    for form, given, said in (*forms(found), ("tree", found.tree, ())):
        for ending in (".recording", ".scans"):
            yield Case(f"scan {program}, {form}, over {recording}{ending}", ["scan", "-", f"examples/{recording}{ending}"], given, out=lines,
                       said=(*said, "scan: code 0"))


def of_recordings():
    """Lines with comments, line ends of all kinds, in any order; and no scans at all."""
    found = calls.example("interlock")
    said = ("read: code 0", found.expand_said, found.parse_said, "scan: code 0")
    for name, given, recording in (
            ("comments and line ends", b"; none\r\n@4=1 @3=0 ; \xc3\xb6ne\r\r\n- ; three\n", b"\3\2\3\0\4\1\0\0"),
            ("a comment alone", b"; nothing\n", b"\0"),
            ("no scans", b"\0", b"\0")):
        lines = calls.second_scan(found.tree, recording)
        yield Case(f"a recording with {name}", ["scan", "examples/interlock.text", "-"], given, out=lines, said=said)


def of_pages():
    """What a page shows is for its own test. Of an image the text is printed first."""
    found = calls.example("accident")
    for form, given, said in (*forms(found), ("tree", found.tree, ())):
        printed = ("print: code 0",) if form.endswith("image") else ()
        yield Case(f"page, {form}", ["page", "-", "examples/feeder-and-fan.scans"], given, out=None,
                   said=(*said, "scan: code 0", "panel: code 0", *printed))


def of_evaluating():
    found = calls.stages(IDENTITY)
    value = second("evaluate", found.tree)
    last = f"evaluate: code 0 units {value.units}"
    for form, given, said in (*forms(found), ("tree", found.tree, ())):
        yield Case(f"evaluate, {form}", ["evaluate", "-"], given, out=value.written, said=(*said, last))


def of_shrinking(name, saved):
    found = calls.example(name)
    made = second("shrink", found.expanded).written
    for form, given, said in forms(found):
        yield Case(f"shrink {name}, {form}", ["shrink", "-"], given, out=made, said=(*said[:-1], "shrink: code 0", f"shrink: saved {saved}"))
    again = reading.image_of(made)
    nothing = f"shrink: saved 0 of {len(made)} bytes, 0 of {len(again.bindings)} bindings, 0 of {again.scopes} scopes"
    yield Case(f"shrink {name} again", ["shrink", "-"], made, out=made, said=("shrink: code 0", nothing))


def of_resolving():
    """Samples 2 and 6 of document 01, and a word."""
    names = {"words": ["x", "y"], "made": 3, "scopes": 2}
    two = image.syntax_image("x{1,2}", bindings=[("x", [], 6), ("x", [1], 7)], **names)
    phases = image.syntax_image("x{|1,2}", bindings=[("x", [1], 6)], **names)
    done = ("resolve: code 0 units 1",)
    yield Case("sample 2", ["resolve", "-"], two, out=b"name 7\n", said=done)
    yield Case("sample 6 at phase 0", ["resolve", "-"], phases, out=b"name 4 x\n", said=done)
    yield Case("sample 6 at phase 1", ["resolve", "--phase", "1", "-"], phases, out=b"name 6\n", said=done)
    yield Case("a core word", ["resolve", "-"], b"quote", out=b"name 2 quote\n", said=("read: code 0", *done))


def of_phases():
    given = image.syntax_image("(lambda{} x{|1} x{|1})", words=["x"], scopes=1)
    for phase in (0, 1, 2):
        answer = second("expand", given, phase)
        yield Case(f"expand at phase {phase}", ["expand", "-", f"--phase={phase}"], given, out=answer.written,
                   said=(f"expand: code 0 units {answer.units}",))


def of_reports():
    yield Case("report, a file", ["report", "crates/term_report/stdin"], out=calls.bytes_in("crates", "term_report", "stdout"))
    yield Case("report, standard input", ["report", "-"], calls.bytes_in("crates", "term_report", "stdin"),
               out=calls.bytes_in("crates", "term_report", "stdout"))


def of_lines():
    """Document 01's line, and what is said where nothing comes in."""
    line = b"code 0 units 367\n"
    yield Case("the line of a file", ["examples/accident.text"], out=line)
    yield Case("the line of standard input", [], calls.bytes_in("examples", "accident.text"), out=line)
    yield Case("the line of nothing in a pipe", [], b"", out=b"code 1 units 0\n")
    for asked in ("-h", "--help", "help"):
        yield Case(f"what it can do, by {asked}", [asked], out=calls.bytes_in("command", "help.txt"))


def cases():
    for name in calls.EXAMPLES:
        yield from of_jobs(name)
        yield from of_panels(name)
    yield from of_shrinking("accident", "17 of 319 bytes, 4 of 6 bindings, 4 of 10 scopes")
    yield from of_shrinking("mixing-plant", "35 of 3095 bytes, 8 of 19 bindings, 10 of 67 scopes")
    yield from of_scans("start-stop", "start-stop")
    yield from of_scans("one-bit", "feeder-and-fan")
    yield from (*of_recordings(), *of_pages(), *of_evaluating(), *of_resolving(), *of_phases(), *of_reports(), *of_lines())
