"""The words of the command. Each gives the bytes for standard output."""
import os
import subprocess
from collections import namedtuple

import answers
import bits
import contacts
import given
import jobs
import notation
import panel
import reading
import shrinking
import way
from telling import BadUse, judge, refuse

# What a word takes, a function for each file; its options, with a function for the value that stands behind; the programs that it asks; what it does.
Word = namedtuple("Word", "takes options programs work")
# What a word was called with: what its files hold, how they are named, and its options.
Call = namedtuple("Call", "files names options")
PHASE, ALL = "--phase", "--all"
LARGEST_PHASE = 4294967295
BREAKS_THE_LAYOUT = (1, 2, 4)
CUT = b"cut\n"


# ---- images and texts

def shown(image):
    """An image as text that people can read. No printer is proved for trees, but the panel check judges their bytes before all else."""
    if way.kind_of(image) != reading.TREE:
        return notation.text(jobs.printed(image)).encode()
    code = jobs.ask("panel", image).code
    judge("print", code if code in BREAKS_THE_LAYOUT else 0)
    return notation.layout.text_of(notation.tree(reading.image_of(image).root)).encode()


def out(image):
    """An image's bytes; at a terminal, what people can read."""
    return shown(image) if os.isatty(1) else image


def print_(call):
    image = way.image_of(call.files[0])
    text = shown(image)
    return notation.whole(reading.image_of(image)).encode() if ALL in call.options else text


# ---- document 01's jobs

def phase_of(said):
    """A phase over 2 is for the job to refuse."""
    if not (said.isascii() and said.isdigit() and len(said) <= 10 and int(said) <= LARGEST_PHASE):
        raise BadUse(f"{PHASE} takes a number, not '{said}'")
    return int(said)


def expand(call):
    return out(jobs.expand(way.image_of(call.files[0]), call.options.get(PHASE, 0)))


def parse(call):
    image = way.image_of(call.files[0])
    return out(jobs.parse(image if way.kind_of(image) == reading.TREE else way.expanded(image)))


def evaluate(call):
    return out(jobs.evaluate(way.to_tree(call.files[0]).tree))


def resolve(call):
    image = way.image_of(call.files[0])
    name = jobs.resolve(image, call.options.get(PHASE, 0))
    known = (*reading.CORE_WORDS, *reading.image_of(image).words)
    return f"name {name}{' ' + known[name] if name < len(known) else ''}\n".encode()


# ---- the archive

def shrink(call):
    return out(shrinking.smaller(call.files[0]))


# ---- the panel

def panel_(call):
    found = way.to_tree(call.files[0])
    return panel.table(bits.bits_of(jobs.bits(found.tree), found.tree, found.expanded)).encode()


def uses(call):
    return contacts.table(way.to_tree(call.files[0])).encode()


def scan(call):
    program, recording = call.files
    return jobs.scan(way.to_tree(program).tree, recording)


def text_of(found):
    """The program as written, or as it is printed where it came as an image."""
    if found.text is not None:
        return found.text.decode(errors="replace")
    return None if found.image is None else notation.text(jobs.printed(found.image))


def page(call):
    if os.isatty(1):
        raise BadUse("a page is for a browser, so write it to a file: put > panel.html behind the command")
    program, recording = call.files
    found = way.to_tree(program)
    lines = jobs.scan(found.tree, recording).decode().splitlines()
    names = jobs.bits(found.tree)
    title = given.title_of(call.names[0])
    import making  # large, and no other word needs it
    try:
        made = making.page_of(making.Shown(title, text_of(found), found.image, found.expanded, found.tree, names, recording, lines))
    except ValueError as fault:
        refuse(f"page: it cannot be made: {fault}")
    return made.encode()


# ---- the term

def report(call):
    made = subprocess.run(answers.command(answers.proved("term_report")), stdin=call.files[0], stdout=subprocess.PIPE, check=True).stdout
    if made == CUT:
        refuse("report: cut: a malformed length, or the file ends inside a length or an image")
    return made


JOBS = ("replay", "text_image", "expander")
SCANS = (*JOBS, "scan")
PROGRAM, RECORDING = given.bytes_in, given.recording_in

WORDS = {
    "expand": Word((PROGRAM,), {PHASE: phase_of}, JOBS, expand),
    "parse": Word((PROGRAM,), {}, JOBS, parse),
    "evaluate": Word((PROGRAM,), {}, JOBS, evaluate),
    "resolve": Word((PROGRAM,), {PHASE: phase_of}, JOBS, resolve),
    "print": Word((PROGRAM,), {ALL: None}, JOBS, print_),
    "shrink": Word((PROGRAM,), {}, JOBS, shrink),
    "panel": Word((PROGRAM,), {}, JOBS, panel_),
    "uses": Word((PROGRAM,), {}, JOBS, uses),
    "scan": Word((PROGRAM, RECORDING), {}, SCANS, scan),
    "report": Word((given.opened,), {}, ("term_report",), report),
    "page": Word((PROGRAM, RECORDING), {}, SCANS, page),
}
