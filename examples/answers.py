"""What a replay program answers when it expands an image at phase 0, parses the result, checks the tree against the panel profile and is asked where
names are used in it, prints an image as text or reads a text; and what a scan program prints when it runs the tree over a recording.

A replay program reads calls and prints a line for each: second/replay, and target/bin/replay of the proved library. Of the scan programs
there are likewise two.
"""
import os
import subprocess
import tempfile
from collections import namedtuple

from listing import image

ROOT = os.path.dirname(os.path.dirname(os.path.abspath(__file__)))
SECOND = os.path.join(ROOT, "second")
BUILT = os.path.join(ROOT, "target", "bin")

# The name is 0 but from a resolve, and the two bindings that compete but with code 6.
Answer = namedtuple("Answer", "line code units name rivals written")
Head = namedtuple("Head", "names made scopes")


def second_program(name):
    """The path of one of the second program's programs, built first where that is needed."""
    subprocess.run(["make", "-s", "-C", SECOND, name], check=True)
    return os.path.join(SECOND, name)


def proved(name):
    """The path of one of the proved library's programs."""
    return os.path.join(BUILT, name)


def command(program):
    """How to run a program: the proved ones, which are built for x86-64, by way of run-built."""
    folder, name = os.path.split(os.path.abspath(program))
    return [os.path.join(ROOT, "run-built"), name] if folder == BUILT else [program]


def answer_of(line):
    *numbers, _, written = line.split()
    code, units, name, _, *rivals = map(int, numbers)
    return Answer(line, code, units, name, rivals, b"" if written == "-" else bytes.fromhex(written))


def ask_all(replay, job, calls):
    """The answers to calls of one job, in one run."""
    lines = subprocess.run(command(replay), input=b"".join(calls), stdout=subprocess.PIPE, check=True).stdout.decode().splitlines()
    if [len(line.split()) for line in lines] != [8] * len(calls):
        raise ValueError(f"{replay} prints {' '.join(lines[-1:])!r} for a call of {job}")
    return [answer_of(line) for line in lines]


def ask(replay, job, given, budget, phase=0):
    return ask_all(replay, job, [image.call(job, given, phase=phase, budget=budget)])[0]


def expand_and_parse(replay, given, budget):
    """Both answers; expand's alone where it is refused."""
    expanded = ask(replay, "expand", given, budget)
    if expanded.code != 0:
        return [expanded]
    return [expanded, ask(replay, "parse", expanded.written, budget)]


def panel_check(replay, tree):
    """The answer for a tree image. The check has no budget."""
    return ask(replay, "panel", tree, 0)


def print_text(replay, given):
    """The answer for a syntax image, whose written bytes are its text. Neither this nor reading has a budget."""
    return ask(replay, "print", given, 0)


def read_text(replay, text):
    """The answer for a text, whose written bytes are its image."""
    return ask(replay, "read", text, 0)


def bits_of(checked):
    """The names of the bits that a panel check has written, each with its address."""
    words = range(0, len(checked.written), 4)
    return [(int.from_bytes(checked.written[place:place + 4], "little"), address) for address, place in enumerate(words)]


def names_used(summary):
    """The names that a tree has variables of. A summary is size and count of names, then for each name from 0 its count and first place."""
    counts = image.words_of(summary)[2::2]
    return [name for name, count in enumerate(counts) if count]


def questions(replay, tree, summary, names):
    """The answers to where each of the names is used. In a call the name stands in the place of the phase."""
    return ask_all(replay, "uses", [image.call("uses", tree, phase=name, budget=0, summary=summary) for name in names])


def uses_of(asked):
    """How many variables have the name that was asked for, and the place of the first: 0 where there is none."""
    count, first = image.words_of(asked.written)
    return count, first


def scan(program, tree, recording):
    """The run of a scan program, which takes two files: its status, and what it has printed."""
    with tempfile.TemporaryDirectory() as folder:
        paths = [os.path.join(folder, name) for name in ("tree", "recording")]
        for path, given in zip(paths, (tree, recording)):
            with open(path, "wb") as file:
                file.write(given)
        return subprocess.run([*command(program), *paths], stdout=subprocess.PIPE, stderr=subprocess.PIPE)


def root_of(given):
    """The object or tree of an image, in the notation."""
    return image.show(given)[-1].removeprefix("root ")


def head_of(given):
    """How many names, core names and words counted, made names and scopes an image has."""
    reader = image.Shower(given)
    reader.number()
    words = reader.number()
    for _ in range(words):
        for _ in range(reader.number()):
            reader.byte()
    made = reader.number()
    return Head(len(image.CORE) + words + made, made, reader.number())
