"""Holds the recordings of the examples, and what is seen in their lines, against the page."""
import os
import re
import subprocess
import sys
from collections import namedtuple

sys.dont_write_bytecode = True
ROOT = os.path.normpath(os.path.join(os.path.dirname(os.path.abspath(__file__)), "..", ".."))
EXAMPLES = os.path.join(ROOT, "examples")
sys.path.insert(0, EXAMPLES)
import answers
import images
import recordings

BUDGET = 4096

# A table of the page: the program, the recording, and for each scan the changes and the line.
Table = namedtuple("Table", "program recording changes lines")
Programs = namedtuple("Programs", "replay scan")

HEADING = re.compile(r"### .*: `(\S+)\.recording`")
COMMAND = re.compile(r" +\./meirhuppa scan examples/(\S+)\.text examples/(\S+)\.(?:recording|scans)\b.*")
ROW = re.compile(r"\| `([^`]*)` \| `(\d[^`]*)` \| .* \|")


def page(*path):
    with open(os.path.join(ROOT, *path)) as file:
        return file.read().splitlines()


def bytes_in(name):
    with open(os.path.join(EXAMPLES, name), "rb") as file:
        return file.read()


# ---- what the page says ----

def tables():
    """Each has the program and the recording of the heading, or of the command, that stands last before it."""
    found, named = {}, None
    for line in page("examples", "README.md"):
        if heading := HEADING.fullmatch(line):
            named = heading[1], heading[1]
        elif command := COMMAND.fullmatch(line):
            named = command[1], command[2]
        elif row := ROW.fullmatch(line):
            found.setdefault(named, []).append(row.groups())
    return [Table(*names, *map(list, zip(*rows))) for names, rows in found.items()]


def commands(*path):
    return [command.groups() for command in map(COMMAND.fullmatch, page(*path)) if command]


# ---- the programs ----

def is_built():
    return all(map(os.path.exists, map(answers.proved, (*Programs._fields, "text_image", "expander"))))


def programs():
    """Those of the second program, and of the proved library where they are built."""
    yield Programs(*map(answers.second_program, Programs._fields))
    if is_built():
        yield Programs(*map(answers.proved, Programs._fields))


def scanned(asked, image, recording):
    tree = answers.expand_and_parse(asked.replay, image, BUDGET)[-1].written
    return answers.scan(asked.scan, tree, recording)


def example(script, *files):
    """The run of a script of the examples."""
    paths = [os.path.join(EXAMPLES, file) for file in (script, *files)]
    return subprocess.run(paths, stdout=subprocess.PIPE, stderr=subprocess.DEVNULL)


def text_of(lines):
    return "".join(line + "\n" for line in lines).encode()


# ---- the checks ----

def every_recording_has_a_table():
    listings = {file[:-len(".scans")] for file in os.listdir(EXAMPLES) if file.endswith(".scans")}
    return listings != set() and listings == {table.recording for table in tables()}


def commands_have_tables(*path):
    shown = {(table.program, table.recording) for table in tables()}
    return commands(*path) != [] and set(commands(*path)) <= shown


def changes_as_said(table):
    """By the script, both ways."""
    back, there = (example("record", table.recording + ending).stdout for ending in (".recording", ".scans"))
    return back == text_of(table.changes) and there == bytes_in(table.recording + ".recording")


def lines_as_said(table, asked):
    run = scanned(asked, images.example(table.program), bytes_in(table.recording + ".recording"))
    return (run.returncode, run.stdout, run.stderr) == (0, text_of(table.lines), b"")


def shows_as_said(table):
    """By the command, from the recording's bytes and from the lines that people write."""
    program = os.path.join(EXAMPLES, table.program + ".text")
    runs = [subprocess.run([os.path.join(ROOT, "meirhuppa"), "scan", program, os.path.join(EXAMPLES, table.recording + ending)],
                           stdout=subprocess.PIPE, stderr=subprocess.DEVNULL) for ending in (".recording", ".scans")]
    return all(run.returncode == 0 and run.stdout == text_of(table.lines) for run in runs)


def lines_of(program):
    """What the page has for the feeder's and the fan's recording."""
    return next(text_of(table.lines) for table in tables() if table[:2] == (program, "feeder-and-fan"))


def accident_has_the_same_lines(asked):
    run = scanned(asked, images.example("accident"), bytes_in("feeder-and-fan.recording"))
    return run.stdout == lines_of("feeder-and-fan") != lines_of("one-bit")


def order_hides_the_one_bit(asked):
    """With each motor right behind its `set`, one bit and two print the same."""
    hidden = b"((lambda run ('all ('set run ('and @1 ('not @2))) ('out @10 run) ('set run @5) ('out @13 run))) 0)"
    return scanned(asked, images.image_of(hidden), bytes_in("feeder-and-fan.recording")).stdout == lines_of("feeder-and-fan")


def refused_with(code, asked, recording):
    run = scanned(asked, images.example("start-stop"), recording)
    return (run.stdout, run.stderr) == (b"", f"code {code}\n".encode())


def is_refused(take, given):
    try:
        take(given)
    except ValueError:
        return True
    return False


def listings_are_read_strictly():
    """A change that is none is told, and what is damaged has no listing; order, empty lines and comments do not matter."""
    bad = ("@1024=1", "@1=2", "1=1", "@1", "@1=1 @1=0", "- @1=1")
    damaged = (b"", b"\1", b"\1\1\1", b"\0\0", b"\1\2\2\1\1\1", b"\1\1\1\2", b"\x80\0")
    return (all(is_refused(recordings.recording_of, text) for text in bad)
            and all(is_refused(recordings.listing_of, given) for given in damaged)
            and recordings.recording_of("; none\n@2=1 @1=0 ; one\n\n- ; three\n") == b"\3\2\1\0\2\1\0\0")


def program_checks(asked):
    by = f"by {os.path.relpath(asked.scan, ROOT)}"
    for table in tables():
        yield f"{table.program} over {table.recording} {by}", lines_as_said(table, asked)
    yield f"the accident's lines {by}", accident_has_the_same_lines(asked)
    yield f"one bit, hidden by the order of the rungs, {by}", order_hides_the_one_bit(asked)
    yield f"a recording that presses the motor {by}", refused_with(25, asked, recordings.recording_of("@10=1"))
    yield f"a damaged recording {by}", refused_with(24, asked, bytes_in("start-stop.recording")[:-1])


def checks():
    """Each check with what it is about."""
    yield "the page has every recording", every_recording_has_a_table()
    yield "the scans of the page", commands_have_tables("examples", "README.md")
    yield "the scans of the README", commands_have_tables("README.md")
    yield "how listings of scans are read", listings_are_read_strictly()
    for table in tables():
        yield f"the changes of {table.recording}, run by {table.program}", changes_as_said(table)
        if is_built():
            yield f"{table.program} over {table.recording} by the command", shows_as_said(table)
    for asked in programs():
        yield from program_checks(asked)
