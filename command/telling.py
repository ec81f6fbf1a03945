"""What is said on standard error, and how a word of the command ends."""
import os

import refusals

DONE, REFUSED, BAD_USE = range(3)
STANDARD_ERROR = 2


class Refused(Exception):
    """A job, or what was handed in, is refused. Its lines have been said."""


class BadUse(Exception):
    """The command was not called as its help says, or a file cannot be read."""


def say(line):
    """A line on standard error. Where nobody hears it, the work goes on."""
    try:
        os.write(STANDARD_ERROR, f"{line}\n".encode(errors="replace"))
    except OSError:
        pass


def refuse(*lines):
    for line in lines:
        say(line)
    raise Refused


def line_of(job, code, units=None, place=None):
    """`expand: code 0 units 297`, or a refusal with where it is, if that is known, and what it means."""
    parts = [f"{job}: code {code}" + ("" if units is None else f" units {units}")]
    if place:
        parts.append(place)
    if code:
        parts.append(refusals.meaning(code))
    return ": ".join(parts)


def judge(job, code, units=None, place=None, more=()):
    """Says how a job has ended, and ends the work where it is refused."""
    line = line_of(job, code, units, place)
    if code:
        refuse(line, *more)
    say(line)
