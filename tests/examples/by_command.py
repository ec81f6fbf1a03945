"""Holds what the words of ./meirhuppa print of an example against its rows on the page."""
import os
import subprocess

import answers
import images

COMMAND = os.path.join(answers.ROOT, "meirhuppa")


def run(word, file, given=b""):
    return subprocess.run([COMMAND, word, file], input=given, stdout=subprocess.PIPE, stderr=subprocess.PIPE)


def text_of(row):
    return os.path.join(answers.ROOT, "examples", row.name + ".text")


def in_one_line(text):
    return " ".join(text.decode().split())


def panel_as_said(row, bits):
    """Units on standard error, and each bit with its address."""
    found = run("panel", text_of(row))
    said = ["read: code 0", *(f"{job}: code 0 units {units}" for job, units in zip(("expand", "parse"), row.units)), "panel: code 0"]
    listed = [line.split()[:2] for line in found.stdout.decode().splitlines()[1:]]
    return found.stderr.decode().splitlines() == said and listed == [[str(address), str(name)] for name, address in bits]


def tree_as_said(row):
    """By expand, parse and print, one after the other; and by parse alone."""
    parsed = run("parse", "-", run("expand", text_of(row)).stdout).stdout
    printed = in_one_line(run("print", "-", parsed).stdout)
    return parsed == run("parse", text_of(row)).stdout and printed == (row.tree or answers.root_of(parsed))


def text_is_read_again(row):
    """What is printed of a text, over lines and without comments, is the same program."""
    return images.image_of(run("print", text_of(row)).stdout) == images.example(row.name)


def checks(row, bits):
    yield f"the panel of {row.name} by the command", panel_as_said(row, bits)
    yield f"the tree of {row.name} by the command", tree_as_said(row)
    yield f"the text of {row.name} by the command", text_is_read_again(row)
