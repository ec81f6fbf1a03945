"""The shapes of images that should take most stack, each with a name that says what it is."""
import os
import subprocess
import sys

SECOND = os.path.join(os.path.dirname(os.path.dirname(os.path.dirname(os.path.abspath(__file__)))), "second")
sys.dont_write_bytecode = True
sys.path.insert(0, SECOND)
import image
from large_panel import large_panel
from large_recording import large_recording
from texts import ENDLESS, PARTS, large_text

BUDGET = 4096
NESTING = 64
# A macro's use in as many functions and lists as make it dear.
DEEP_USE = ("((lambda x (lambda x (lambda x (((lambda x (lambda x (lambda x (1 ((lambda x ((1 (lambda x ((lambda x (lambda x (lambda x (lambda x (m)"
            "))))))))))))))))))))")
WIDE = 4095
HALF = 2047
JUDGED = 13000
LONG_TEXT = 69000
SHORT_TEXT = 690


def wide(parts, what="1"):
    return "(" + f"{what} " * parts + ")"


def nested(levels, before="", after="", inmost="1"):
    return f"({before} " * levels + inmost + f" {after})" * levels


def syntax(text, words=()):
    return image.syntax_image(text, words=words)


def tree(text, words=(), made=1):
    return image.tree_image(text, words=words, made=made)


def giving(*parts):
    """A macro m whose use gives the list of these parts, and that is used."""
    return asking(around_form(*parts))


def asking(code):
    """A macro m with this code, used: expanding and evaluating take turns in each other."""
    return syntax(f"(let-syntax m (lambda z {code}) (m))", words=("m", "z", "x"))


def functions(count):
    """Code for the form of a macro's use in so many functions."""
    return around_form("(syntax lambda)", "(syntax x)", functions(count - 1)) if count else "z"


def around_form(*parts):
    """Code for the list of these parts."""
    chain = "(quote ())"
    for part in reversed(parts):
        chain = f"(#4 {part} {chain})"
    return f"(#1 {chain} z)"


def local_images():
    """For expand: macros that expand their own use while they are used."""
    yield "a macro that expands its own use", asking("(#8 z (quote ()))")
    yield "a macro that expands its own use, with stops", asking("(#8 z (#0 (syntax (lambda let-syntax quote syntax))))")
    yield "a macro that expands its own use in a list", asking(f"(#8 {around_form('(syntax 1)', 'z')} (quote ()))")
    yield "a macro that expands its own use in a function", asking(f"(#8 {around_form('(syntax lambda)', '(syntax x)', 'z')} (quote ()))")
    yield "a macro that expands its own use in a let-syntax", asking(f"(#8 {around_form('(syntax let-syntax)', '(syntax x)', '(syntax 1)', 'z')} (quote ()))")
    yield "a macro that expands its own use, deep in arguments", asking("(#2 (#4 " * 20 + "(#8 z (quote ()))" + " (quote ())))" * 20)
    yield "a macro that expands its own use, in a function applied", asking("((lambda x (#8 x (quote ()))) z)")
    yield "a macro that applies its own value", asking("((#7 (#2 (#0 z))) z)")
    yield "a macro that applies its own value and expands that", asking("(#8 ((#7 (#2 (#0 z))) z) (quote ()))")
    yield "a macro with 1,000 stops", asking(f"(#8 (syntax 1) (#0 (syntax {wide(1000, 'quote')})))")
    yield "a macro that expands a list of 400 numbers", asking(f"(#8 (syntax {wide(400)}) (quote ()))")


def syntax_images():
    """For resolve, expand and parse."""
    yield from local_images()
    yield "one list of 4,095 numbers", syntax(wide(WIDE))
    yield "one list of 2,047 numbers", syntax(wide(HALF))
    yield "one quoted list of 1,300 numbers", syntax(f"(quote {wide(1300)})")
    yield "2,000 empty syntax forms", syntax(wide(1000, "(syntax 1)"))
    yield "13,000 numbers judged", syntax(wide(JUDGED))
    yield "64 lists in each other", syntax(nested(NESTING - 1))
    yield "wide lists at every level", syntax(nested(NESTING - 2, before="1 " * 32, after="1 " * 30))
    yield "62 functions in each other", syntax(nested(NESTING - 2, before="lambda x"), words=("x",))
    yield "62 macros in each other", syntax(nested(NESTING - 2, before="let-syntax x 1"), words=("x",))
    yield "a macro that gives itself back", syntax("(let-syntax m (lambda z z) (m))", words=("m", "z"))
    yield "a macro that gives itself back, in 60 lists", syntax("(let-syntax m (lambda z z) " + nested(58, inmost="(m)") + ")", words=("m", "z"))
    yield "a macro that gives itself back in a list", giving("z")
    yield "a macro that gives itself back in a list, last of four", giving("(syntax 1)", "(syntax 1)", "(syntax 1)", "z")
    yield "a macro that gives itself back in a function", giving("(syntax lambda)", "(syntax x)", "z")
    yield "a macro that gives itself back in a let-syntax", giving("(syntax let-syntax)", "(syntax x)", "(syntax 1)", "z")
    yield "a macro that gives itself back as a right-hand side", giving("(syntax let-syntax)", "(syntax x)", "z", "(syntax 1)")
    yield "a macro that gives itself back in five functions, in functions and lists", syntax(f"(let-syntax m (lambda z {functions(5)}) {DEEP_USE})", words=("m", "z", "x"))
    yield "a macro whose work never ends", syntax("(let-syntax m (lambda z ((lambda y (y y)) (lambda y (y y)))) (m))", words=("m", "z", "y"))
    yield "a wide macro that gives itself back", syntax(f"(let-syntax m (lambda z z) (m {'1 ' * 20}))", words=("m", "z"))


def rival_images():
    """For resolve, expand and parse: a word whose bindings compete."""
    pairs = [[a, b] for a in range(1, 34) for b in range(a + 1, 34)]
    chain = [list(range(1, last + 1)) for last in range(1, 256)]
    for name, sets in (("512 bindings, none in another", pairs[:512]), ("255 bindings, each in the next, and one beside", [*chain, [256]])):
        every = ",".join(map(str, range(1, 257)))
        yield name, image.syntax_image(f"x{{{every}}}", scopes=256, bindings=[("x", scopes, 0) for scopes in sets])


def tree_images():
    """For evaluate, the panel check, the scans and the summaries."""
    yield "one application of 4,000 numbers", tree(wide(4000))
    yield "one list value of 4,000 numbers", tree("<" + "1 " * 4000 + ">")
    yield "13,000 numbers judged", tree("<" + "1 " * JUDGED + ">")
    yield "62 list values in each other", tree("<" * 62 + "1" + ">" * 62)
    yield "62 functions in each other", tree("[4 " * 62 + "1" + "]" * 62)
    yield "62 applications in each other", tree("(#0 " * 62 + "1" + ")" * 62)
    yield "a function applied to itself", tree("([4 ($4 $4)] [4 ($4 $4)])")
    yield "a wide body, substituted into", tree(f"([4 (1 {'$4 ' * 1900})] 1)")
    yield "wide bodies at every level, substituted into", tree("([4 " + ("(1 " + "$4 " * 20) * 59 + ")" * 59 + "] 1)")
    yield "a function applied to itself, with a deep body", tree("([4 ($4 $4 )] [4 (" + "[5 " * 50 + "($4 $4)" + "]" * 50 + " $4)])", made=2)


def panel_programs():
    """For the panel check, the scans and the summaries, all of them accepted."""
    rung = "('out @1 @2)"
    yield "as many rungs as go in", large_panel("rungs")
    yield "as many points as go in", large_panel("points")
    yield "256 bits", tree("('all " + "([4 ('set $4 $4)] 0) " * 256 + ")")
    yield "31 bits in each other", tree(nested(31, before="[4", after="] 0", inmost=rung))
    yield "62 `all` in each other", tree(nested(62, before="'all", inmost=rung))
    yield "62 `not` in each other", tree("('out @1 " + nested(62, before="'not", inmost="@2") + ")")
    yield "wide `and` at every level", tree("('out @1 " + nested(62, before="'and @2", after="@3 " * 60, inmost="@4") + ")")


def recordings():
    """For the programs of a few rungs: as many scans as go in, and as many changes."""
    yield "65,533 scans", large_recording("still")
    yield "all points changed again and again", large_recording("points")


def scan_calls():
    """Every program over two scans, and a small one over the longest recordings."""
    for name, given in (*tree_images(), *panel_programs()):
        yield f"scan: {name}", image.call("scan", given, recording=image.recording(["", ""]))
    small = tree("([4 ('all ('set $4 @10) ('out @1023 $4))] 0)")
    for name, recorded in recordings():
        yield f"scan: {name}", image.call("scan", small, recording=recorded)


def text_calls():
    """The longest texts and what they are read to; and every other syntax image, printed."""
    for name in PARTS:
        text = large_text(name)
        yield f"read: {name}", image.call("read", text.encode())
        yield f"print: {name}", image.call("print", image.syntax_image(text))
    for name, given in (*syntax_images(), *rival_images()):
        yield f"print: {name}", image.call("print", given)


def with_summary(job, given, place=0, **inputs):
    """A call with the summary that the second program makes of the image; where it makes none, with none."""
    asked = subprocess.run([os.path.join(SECOND, "replay")], input=image.call("summary", given), stdout=subprocess.PIPE, check=True)
    written = asked.stdout.split()[-1].decode()
    return image.call(job, given, phase=place, summary=b"" if written == "-" else bytes.fromhex(written), **inputs)


def parts():
    """To be put at place 1 of an application."""
    yield "a number", image.tree_part("1")
    yield "62 list values in each other", image.tree_part("<" * 62 + "1" + ">" * 62)
    yield "62 functions in each other", image.tree_part("[4 " * 62 + "$4" + "]" * 62)
    yield "one application of 10,000 variables", image.tree_part(wide(10000, "$4"))


def uses_calls():
    """Every tree with its summary made, asked and its root replaced; and parts put into the longest tree, whose first name is searched for."""
    subprocess.run(["make", "-s", "-C", SECOND, "replay"], check=True)
    for name, given in (*tree_images(), *panel_programs()):
        yield f"summary: {name}", image.call("summary", given)
        yield f"uses: {name}", with_summary("uses", given)
        yield f"replace: {name}", with_summary("replace", given, part=image.tree_part("1"))
    long = tree(wide(20000, "$4"))
    for name, part in parts():
        yield f"replace: the first of 20,000 variables by {name}", with_summary("replace", long, 1, part=part)
    deepest = tree("[4 " * 63 + "$4" + "]" * 63)
    yield "replace: a variable at level 64", with_summary("replace", deepest, 63, part=image.tree_part("1"))


def shrink_calls():
    """Every syntax image made smaller, and the longest that is."""
    for name, given in (*syntax_images(), *rival_images()):
        yield f"shrink: {name}", image.call("shrink", given)
    words = "(" + "x{256} " * 8191 + ")"
    yield "shrink: 8,191 identifiers", image.call("shrink", image.syntax_image(words, scopes=256))


def endless_texts():
    """Names with two calls that read a text: a short one and a long one."""
    for name, text in ENDLESS.items():
        yield f"read: {name}", *(image.call("read", text(size).encode()) for size in (SHORT_TEXT, LONG_TEXT))


def calls():
    """Names with calls of the stream."""
    for name, given in (*syntax_images(), *rival_images()):
        for job in ("resolve", "expand", "parse"):
            yield f"{job}: {name}", image.call(job, given, budget=BUDGET)
    for name, given in tree_images():
        for job in ("evaluate", "panel"):
            yield f"{job}: {name}", image.call(job, given, budget=BUDGET)
    for name, given in panel_programs():
        yield f"panel: {name}", image.call("panel", given)
    yield from scan_calls()
    yield from text_calls()
    yield from uses_calls()
    yield from shrink_calls()
    for name, _, long in endless_texts():
        yield f"{name}, {LONG_TEXT:,} bytes", long
