"""How the tests call the command, what they expect of every call, and the second program's answers."""
import functools
import os
import subprocess
import sys
from collections import namedtuple

sys.dont_write_bytecode = True
ROOT = os.path.normpath(os.path.join(os.path.dirname(os.path.abspath(__file__)), "..", ".."))
for folder in ("command", "examples", "second"):
    sys.path.insert(0, os.path.join(ROOT, folder))
import answers

COMMAND = os.path.join(ROOT, "meirhuppa")
BUDGET = 4096
EXAMPLES = sorted(file[:-len(".text")] for file in os.listdir(os.path.join(ROOT, "examples")) if file.endswith(".text"))

# A call: its words, what comes in, and what is expected: status, standard output (None: anything but nothing), the lines of standard error.
Case = namedtuple("Case", "name arguments given status out said", defaults=(b"", 0, b"", ()))
Run = namedtuple("Run", "status out said")


def path(*parts):
    return os.path.join(ROOT, *parts)


def bytes_in(*parts):
    with open(path(*parts), "rb") as file:
        return file.read()


def run(arguments, given=b"", folder=ROOT):
    done = subprocess.run([COMMAND, *arguments], input=given, stdout=subprocess.PIPE, stderr=subprocess.PIPE, cwd=folder)
    return Run(done.returncode, done.stdout, done.stderr.decode(errors="replace").splitlines())


def fault_of(case, folder=ROOT):
    """What is not as expected, or None."""
    found = run(case.arguments, case.given, folder)
    if case.out is None and found.out:
        found = found._replace(out=None)
    wanted = Run(case.status, case.out, list(case.said))
    return None if found == wanted else f"{case.name}: wanted {shown(wanted)}, found {shown(found)}"


def shown(found):
    return f"status {found.status}, {found.out if found.out is None else found.out[:200]}, {found.said}"


# ---- the second program

second_program = functools.cache(answers.second_program)


def second(job, given, phase=0):
    return answers.ask(second_program("replay"), job, given, BUDGET, phase)


def second_uses(tree, names):
    """How many variables have each of the names, and the place of the first."""
    summary = second("summary", tree).written
    return [answers.uses_of(answer) for answer in answers.questions(second_program("replay"), tree, summary, names)]


def second_scan(tree, recording):
    return answers.scan(second_program("scan"), tree, recording).stdout


Stages = namedtuple("Stages", "text image expanded tree expand_said parse_said")


def stages(text):
    """Every stage of a program by the second program, and what the command says of expanding and parsing."""
    image = second("read", text).written
    expanded = second("expand", image)
    parsed = second("parse", expanded.written)
    said = (f"{job}: code 0 units {answer.units}" for job, answer in (("expand", expanded), ("parse", parsed)))
    return Stages(text, image, expanded.written, parsed.written, *said)


@functools.cache
def example(name):
    return stages(bytes_in("examples", name + ".text"))
