"""The way from a program to its tree: a text is read, its image expanded, and that parsed. What is missing on it is done.

An image that has scopes was expanded already, for scopes are what expanding adds, and is parsed as it stands. Expanded a second time it would have
the same rungs, but other names.
"""
from collections import namedtuple

import given
import jobs
import reading

# text is that of the program, image and expanded are None where it came as a tree.
Way = namedtuple("Way", "text image expanded tree")


def kind_of(image):
    return image[0] if image else None


def image_of(program):
    """The image of a program: a text is read."""
    return program if given.is_image(program) else jobs.read(program)


def is_expanded(image):
    """What breaks the layout is left to the jobs."""
    try:
        return reading.image_of(image).scopes > 0
    except ValueError:
        return False


def expanded(image):
    return image if is_expanded(image) else jobs.expand(image)


def to_tree(program):
    """Every stage of a program up to its tree."""
    image = image_of(program)
    if kind_of(image) == reading.TREE:
        return Way(None, None, None, image)
    found = expanded(image)
    return Way(None if image is program else program, image, found, jobs.parse(found))
