"""Images of texts: by the proved library's program text_image where it is built (target/bin), else by the second program's `text read`, which is
tested and not proved."""
import os
import subprocess
import sys

sys.dont_write_bytecode = True
import answers

PROVED = answers.proved("text_image")


def reader():
    """How to run the program that reads texts."""
    return answers.command(PROVED) if os.path.exists(PROVED) else [answers.second_program("text"), "read"]


def image_of(text):
    run = subprocess.run(reader(), input=text, stdout=subprocess.PIPE, stderr=subprocess.PIPE)
    if not run.stdout:
        raise ValueError(f"the text is refused: {run.stderr.decode().strip()}")
    return run.stdout


def example(name):
    """The image of an example's text."""
    with open(os.path.join(answers.ROOT, "examples", name + ".text"), "rb") as text:
        return image_of(text.read())
