"""Every word with bad input: clear lines, the right status, nothing on standard output."""
import calls
import image
from calls import BUDGET, Case, second

LAYOUT = "the image breaks the layout"
LIMIT = "a count, value or nesting is over its limit"
KIND = "the kind is 1 or 2 but not the job's (2 for evaluate, 1 for the others)"
TEXT = "bad text, also no object or a second one"
# The job that is first handed a syntax image, and a tree image.
FIRST = {"expand": "expand", "parse": "expand", "evaluate": "expand", "resolve": "resolve", "print": "print", "panel": "expand", "scan": "expand",
         "page": "expand", "shrink": "expand", "uses": "expand"}
FIRST_OF_TREE = {**FIRST, "parse": "parse", "evaluate": "evaluate", "panel": "panel", "scan": "scan", "page": "scan", "shrink": "shrink",
                 "uses": "summary"}
TAKES_SYNTAX = ("expand", "parse", "resolve", "shrink")
CHARGED = ("expand", "parse", "evaluate", "resolve")
FILES = {**dict.fromkeys(FIRST, 1), "scan": 2, "page": 2, "report": 1}
HUGE = 100_000_000


def line(job, code, meaning):
    return f"{job}: code {code}{' units 0' if job in CHARGED else ''}: {meaning}"


def with_recording(word, program):
    return [word, program] + ["recording"] * (FILES[word] - 1)


def of_programs(word):
    """A program that is none. The files are made by `make_files`."""
    first, tree = FIRST[word], FIRST_OF_TREE[word]
    wrong_kind = line(tree, 4, KIND) if word in TAKES_SYNTAX else line(tree, 1, LAYOUT)
    for name, said in (
            ("empty", line(first, 1, LAYOUT)),
            ("rubbish", f"read: code 26: line 1, column 1: {TEXT}"),
            ("fault", f"read: code 26: line 2, column 3: {TEXT}"),
            ("open", "read: code 27: line 2, column 1: unbalanced"),
            ("long-text", f"read: code 2: the text has more than 1048576 bytes: {LIMIT}"),
            ("huge", f"read: code 2: the text has more than 1048576 bytes: {LIMIT}"),
            ("large-point", f"read: code 2: {LIMIT}"),
            ("damaged", line(first, 1, LAYOUT)),
            ("damaged-tree", wrong_kind),
            ("long-image", line(first, 2, LIMIT))):
        yield Case(f"{word}, {name}", with_recording(word, name), status=1, said=(said,))


def of_files(word):
    """What cannot be read at all."""
    for name, fault in (("none", "No such file or directory"), ("folder", "Is a directory"), ("round", "Too many levels of symbolic links")):
        yield Case(f"{word}, {name}", with_recording(word, name), status=2, said=(f"meirhuppa: {name}: {fault}",))
        if FILES[word] == 2:
            yield Case(f"{word}, recording {name}", [word, "good", name], status=2, said=(f"meirhuppa: {name}: {fault}",))
    if word != "report":
        yield Case(f"{word}, a file that fails", with_recording(word, "/proc/self/mem"), status=2,
                   said=("meirhuppa: /proc/self/mem: Input/output error",))


def of_use(word):
    """Called as the help does not say."""
    said = (f"meirhuppa: usage: {calls.bytes_in('command', 'help', word + '.txt').decode().splitlines()[0]}",)
    for count in (0, FILES[word] + 1):
        yield Case(f"{word}, {count} files", [word] + ["good"] * count, status=2, said=said)
    for option in ("--frob", "-x", "--all=1", *([] if word in ("expand", "resolve") else ["--phase"])):
        yield Case(f"{word} {option}", [*with_recording(word, "good"), option], status=2,
                   said=(f"meirhuppa: {word} has no option {option}: ./meirhuppa {word} --help says what it takes",))


def of_phases():
    for word in ("expand", "resolve"):
        usage = calls.bytes_in("command", "help", word + ".txt").decode().splitlines()[0]
        yield Case(f"{word}, no phase", [word, "good", "--phase"], status=2, said=(f"meirhuppa: usage: {usage}",))
        for phase in ("x", "", "4294967296", "\u0661"):
            said = f"meirhuppa: --phase takes a number, not '{phase}'"
            yield Case(f"{word}, phase {phase}", [word, "good", f"--phase={phase}"], status=2, said=(said,))
        yield Case(f"{word}, phase 3", [word, "good", "--phase", "3"], status=1, said=("read: code 0", line(word, 12, "phase over 2")))


def of_recordings(word):
    said = ("read: code 0", "expand: code 0 units 907", "parse: code 0 units 44")
    layout = "scan: code 24: recording breaks its layout or exceeds 65,536 bytes"
    for name, given, lines in (
            ("no change", b"@1=1\n-\n@1=2\n", ("recording: line 3: @1=2 is no change: that is @, a point up to 1023, = and 0 or 1",)),
            ("a point twice", b"@1=1 @1=0", ("recording: line 1: a point changes twice in one scan",)),
            ("rubbish", b"\xff\x07\n", ("recording: line 1: \ufffd? is no change: that is @, a point up to 1023, = and 0 or 1",)),
            ("a text", b"(lambda x x)", ("recording: line 1: (lambda is no change: that is @, a point up to 1023, = and 0 or 1",)),
            ("a long line", b"a" * 5000, (f"recording: line 1: {'a' * 40}... is no change: that is @, a point up to 1023, = and 0 or 1",)),
            ("too many lines", b"; \n" * 400000, ("recording: there are more than 1048576 bytes of lines",)),
            ("nothing", b"", (*said, layout)),
            ("damage", b"\2\0", (*said, layout)),
            ("too many scans", b"-\n" * 65536, (*said, layout)),
            ("too many bytes", b"\0" * 70000, (*said, layout)),
            ("a driven point", b"@10=1", (*said, "scan: code 25: a change names a driven point"))):
        yield Case(f"{word}, a recording with {name}", [word, calls.path("examples", "start-stop.text"), "-"], given, 1, said=lines)
    if word == "page":
        yield Case("page, no scan to show", [word, calls.path("examples", "start-stop.text"), "-"], b"\0", 1,
                   said=(*said, "scan: code 0", "panel: code 0", "page: it cannot be made: the recording has no scan"))
    yield Case(f"{word}, both on standard input", [word, "-", "-"], b"x", 2, said=("meirhuppa: only one of two files can be standard input",))


# ---- refusals of the jobs

def competing(root, scopes=3):
    return image.syntax_image(root, words=["x"], made=2, scopes=scopes, bindings=[("x", [1, 2], 5), ("x", [3], 6)])


def of_ambiguity():
    """The wrong turn of document 01; and one that expanding comes to only after more units than the program expander has, or at another phase."""
    rivals = "ambiguous: x{1,2} (binding 1) and x{3} (binding 2) compete"
    places = "ambiguous: bindings 1 and 2 compete (places from 1 in image order, at that moment)"
    long = competing("(" + "9 " * 400 + "x{1,2,3})")
    for word, units in (("resolve", 1), ("expand", 2), ("parse", 2)):
        yield Case(f"{word}, ambiguous", [word, "-"], competing("x{1,2,3}"), 1, said=(f"{word}: code 6 units {units}: ambiguous", rivals))
    yield Case("expand, ambiguous late", ["expand", "-"], long, 1,
               said=(f"expand: code 6 units {second('expand', long).units}: ambiguous", places))
    yield Case("expand, ambiguous at phase 1", ["expand", "-", "--phase=1"], competing("x{|1,2,3}"), 1,
               said=("expand: code 6 units 2: ambiguous", places))


def refused(word, text, *said):
    return Case(f"{word} of {text[:40]}", [word, "-"], text.encode(), 1, said=("read: code 0", *said))


def of_jobs():
    twice = "('all ('out @1 @2) ('out @1 @3))"
    bits = "('all " + "((lambda x ('set x @1)) 0) " * 257 + ")"
    yield refused("expand", "x", "expand: code 7 units 2: an identifier in expression place whose name has no meaning")
    yield refused("parse", "()", "expand: code 8 units 2: a form with no rule")
    yield refused("resolve", "(x)", "resolve: code 8 units 2: a form with no rule")
    yield refused("evaluate", twice, "expand: code 0 units 20", "parse: code 0 units 20",
                  "evaluate: code 10 units 12: applied value is no function or primitive, or the argument count is wrong")
    absent = "the introduction scope is absent, as in a right-hand side or the evaluate job"
    yield refused("expand", "(let-syntax m (#7 0) 1)", f"expand: code 28 units 17: {absent}")
    yield refused("evaluate", "(#9 0)", "expand: code 0 units 6", "parse: code 0 units 6", f"evaluate: code 28 units 5: {absent}")
    yield refused("panel", "9", "expand: code 0 units 2", "parse: code 0 units 2", "panel: code 21: outside the profile")
    yield refused("panel", twice, "expand: code 0 units 20", "parse: code 0 units 20", "panel: code 22: point driven twice")
    yield Case("panel, 257 bits", ["panel", "-"], tree_of_bits(257), 1, said=("panel: code 23: too many bits",))
    yield refused("uses", "x", "expand: code 7 units 2: an identifier in expression place whose name has no meaning")
    yield Case("uses, a tree that is too long", ["uses", "-"], b"\2" + bytes(65536), 1, said=(line("summary", 2, LIMIT),))
    yield Case("uses, a tree nested too deep", ["uses", "-"], image.tree_image("(" * 64 + "$0" + ")" * 64), 1, said=(line("summary", 2, LIMIT),))
    yield Case("expand, out of units", ["expand", "-"], bits.encode(), 1, said=("read: code 0", second_line("expand", bits)))
    yield Case("panel, 256 bits", ["panel", "-"], tree_of_bits(256), 0, out=None, said=("panel: code 0",))


def tree_of_bits(count):
    return image.tree_image("('all " + " ".join(f"([{4 + n} ('set ${4 + n} @1)] 0)" for n in range(count)) + ")", made=count)


def second_line(job, text):
    answer = second(job, second("read", text.encode()).written)
    assert answer.code == 19 and answer.units <= BUDGET
    return f"{job}: code 19 units {answer.units}: a charge is larger than what remains"


def of_reports():
    cut = ("report: cut: a malformed length, or the file ends inside a length or an image",)
    yield Case("report, a length with nothing behind it", ["report", "-"], b"\x05\1", 1, said=cut)
    yield Case("report, rubbish", ["report", "rubbish"], status=1, said=cut)
    yield Case("report, a file that fails", ["report", "/proc/self/mem"], status=1, said=cut)


def make_files(folder):
    """The files that the cases name."""
    found = calls.example("accident")
    made = {"empty": b"", "rubbish": bytes((i * 97 + 139) % 256 for i in range(3000)), "fault": b"(a\n  07)", "open": b"(a ; )\n",
            "long-text": b" " * 1048577, "large-point": b"(x @1024)", "damaged": found.image[:-1], "damaged-tree": found.tree[:-1],
            "long-image": b"\1" + bytes(65536), "good": found.text, "recording": b"@1=1\n"}
    for name, given in made.items():
        (folder / name).write_bytes(given)
    with open(folder / "huge", "wb") as file:
        file.truncate(HUGE)
    (folder / "folder").mkdir()
    (folder / "round").symlink_to("round")


def cases():
    for word in FILES:
        if word != "report":
            yield from of_programs(word)
        yield from (*of_files(word), *of_use(word))
    yield from (*of_phases(), *of_recordings("scan"), *of_recordings("page"), *of_ambiguity(), *of_jobs(), *of_reports())
