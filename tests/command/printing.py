"""What `print` shows: the printer's tokens, a tree's notation, and everything that an image has."""
import os
import pty
import subprocess

import calls
import image
from calls import second

# Every kind of tree and value, and scopes of all phases.
ODD_TREE = image.tree_image("([4 ($4 <x 9 @12 '6> `(a{1} b{|2}){1,2})] #0 'and)", words=["f", "x", "a", "b"], made=0, scopes=2)
ALL = """words 1: x=4
made names 2, from 5
scopes 3
binding 1: x{} to 5
binding 2: x{1,3} to 6
(x{1,2,3}
  %s){1|2}
""" % " ".join(["x"] * 40)
NO_PAGE = b"meirhuppa: a page is for a browser, so write it to a file: put > panel.html behind the command\n"


def in_one_line(text):
    return " ".join(text.decode().split())


def printed(given, *options):
    found = calls.run(["print", "-", *options], given)
    return found.out if found.status == 0 and found.said[-1] == "print: code 0" else b""


def text_is_the_printer_s(found):
    """From the text, the image and the expanded image; only spaces are line ends, and what is printed is read back."""
    return all(in_one_line(printed(given)) == second("print", whole).written.decode() != ""
               and second("read", printed(given)).written == second("read", second("print", whole).written).written
               for given, whole in ((found.text, found.image), (found.image, found.image), (found.expanded, found.expanded)))


def fits(text):
    """Lists are broken up over lines: no line of a panel is long."""
    return text != b"" and max(map(len, text.splitlines())) <= 100


def tree_is_shown(tree):
    wanted = calls.answers.root_of(tree).replace("#stx-e", "#0")
    return in_one_line(printed(tree)) == wanted and fits(printed(tree))


def all_is_shown():
    given = image.syntax_image("(x{1,2,3} " + " ".join(["x"] * 40) + "){1|2}", words=["x"], made=2, scopes=3,
                               bindings=[("x", [], 5), ("x", [1, 3], 6)])
    return in_one_line(printed(given, "--all")) == " ".join(ALL.split())


def at_a_terminal(word, given, *more):
    """What a word writes where standard output is a terminal, and what is said."""
    reader, terminal = pty.openpty()
    with open(reader, "rb", buffering=0) as seen:
        done = subprocess.run([calls.COMMAND, word, "-", *more], input=given, stdout=terminal, stderr=subprocess.PIPE)
        os.close(terminal)
        return all_of(seen).replace(b"\r\n", b"\n"), done.stderr


def all_of(seen):
    """What stands in a terminal that was closed; its end is a fault of reading."""
    found = b""
    try:
        while part := seen.read(4096):
            found += part
    except OSError:
        pass
    return found


def checks():
    for name in calls.EXAMPLES:
        found = calls.example(name)
        yield f"print {name}, a tree", lambda found=found: tree_is_shown(found.tree)
        if name in ("accident", "mixing-plant"):
            yield f"print {name}, texts", lambda found=found: text_is_the_printer_s(found)
    accident = calls.example("accident")
    yield "print, every kind of tree", lambda: in_one_line(printed(ODD_TREE)) == calls.answers.root_of(ODD_TREE).replace("#stx-e", "#0")
    yield "print --all", all_is_shown
    yield "print --all, a tree", lambda: in_one_line(printed(accident.tree, "--all")).endswith(calls.answers.root_of(accident.tree))
    yield "expand at a terminal", lambda: at_a_terminal("expand", accident.image)[0] == printed(accident.expanded)
    yield "parse at a terminal", lambda: at_a_terminal("parse", accident.image)[0] == printed(accident.tree)
    yield "page at a terminal", lambda: at_a_terminal("page", accident.image, calls.path("examples", "feeder-and-fan.scans")) == (b"", NO_PAGE)
