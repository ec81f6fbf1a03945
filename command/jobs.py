"""The jobs, each done by a proved program. How it ended is said on standard error, and what is refused ends the work."""
import re
import subprocess

import answers
import reading
from telling import BadUse, judge, line_of, say

BUDGET = 4096
MOST_IMAGE = 65536
AMBIGUOUS = 6
SAID = re.compile(r"(?:code (\d+)(?:: (.*))?)?")


def ask(job, given, phase=0):
    """The library's answer. One byte more than an image may have shows that there are too many."""
    return answers.ask(answers.proved("replay"), job, given[:MOST_IMAGE + 1], BUDGET, phase)


def run(name, given):
    return subprocess.run(answers.command(answers.proved(name)), input=given, stdout=subprocess.PIPE, stderr=subprocess.PIPE)


def said(name, made):
    """The code that a program has said on standard error, 0 where it said nothing, and what stands behind it: `code 26: line 3, column 7`."""
    line = made.stderr.decode(errors="replace").strip()
    parts = SAID.fullmatch(line)
    if not parts:
        raise BadUse(f"the program {name} does not run: {line}")
    return int(parts[1] or 0), parts[2]


# ---- which two bindings compete

def shown_binding(binding, place):
    return f"{binding.symbol}{{{','.join(map(str, binding.scopes))}}} (binding {place})"


def bindings_compete(image, rivals):
    """For resolve and parse, whose bindings are the image's own."""
    bindings = reading.image_of(image).bindings
    first, second = (shown_binding(bindings[place - 1], place) for place in rivals)
    return f"ambiguous: {first} and {second} compete"


def made_bindings_compete(image, rivals, phase):
    """For expand, which makes bindings. The program expander shows them, where it comes so far with its own budget, at its phase."""
    shown = run("expander", image).stderr.decode().strip() if phase == 0 else ""
    return shown or "ambiguous: bindings {} and {} compete (places from 1 in image order, at that moment)".format(*rivals)


def competing(job, image, answer, phase):
    if answer.code != AMBIGUOUS:
        return []
    if job == "expand":
        return [made_bindings_compete(image, answer.rivals, phase)]
    return [bindings_compete(image, answer.rivals)]


# ---- document 01's jobs

def charged(job, given, phase=0):
    """A job that takes a budget."""
    answer = ask(job, given, phase)
    judge(job, answer.code, answer.units, more=competing(job, given, answer, phase))
    return answer


def resolve(image, phase):
    """The name."""
    return charged("resolve", image, phase).name


def expand(image, phase=0):
    return charged("expand", image, phase).written


def parse(image):
    return charged("parse", image).written


def evaluate(tree):
    return charged("evaluate", tree).written


# ---- the jobs that were requested

def read(text):
    """The image of a text."""
    made = run("text_image", text)
    code, place = said("text_image", made)
    judge("read", code, place=place)
    return made.stdout


def printed(image):
    """The text of a syntax image, in one line."""
    answer = ask("print", image)
    judge("print", answer.code)
    return answer.written.decode()


def shrink(image):
    """The smaller image of a syntax image."""
    answer = ask("shrink", image)
    judge("shrink", answer.code)
    return answer.written


def names_in(checked):
    return [name for name, _ in answers.bits_of(checked)]


def bits(tree):
    """The names of a panel program's bits, in order of address."""
    answer = ask("panel", tree)
    judge("panel", answer.code)
    return names_in(answer)


def bits_if_taken(tree):
    """The same; None where the panel check refuses the tree, which here ends nothing."""
    answer = ask("panel", tree)
    say(line_of("panel", answer.code) + (", so no bit has an address" if answer.code else ""))
    return None if answer.code else names_in(answer)


def summary(tree):
    """The summary of a tree, to ask questions with."""
    answer = ask("summary", tree)
    judge("summary", answer.code)
    return answer.written


def uses(tree, summary, names):
    """For each name how many variables have it, and the place of the first."""
    asked = dict(zip(names, answers.questions(answers.proved("replay"), tree, summary, names)))
    judge("uses", max((answer.code for answer in asked.values()), default=0))
    return {name: answers.uses_of(answer) for name, answer in asked.items()}


def scan(tree, recording):
    """The lines of all scans."""
    made = answers.scan(answers.proved("scan"), tree, recording)
    judge("scan", said("scan", made)[0])
    return made.stdout
