"""The longest texts: of each shape, an object whose text and image both go into so many bytes; and texts that are no image, to any length."""
import bisect
import os
import sys

SECOND = os.path.join(os.path.dirname(os.path.dirname(os.path.dirname(os.path.abspath(__file__)))), "second")
sys.dont_write_bytecode = True
sys.path.insert(0, SECOND)
import image

MOST_WORDS = 1020
DEEP = 62

# The part of a list at a place.
PARTS = {
    "numbers": lambda place: "1234567",
    "words, 1,020 different": lambda place: f"word-{place % MOST_WORDS}",
    "empty lists": lambda place: "()",
    "lists 62 deep": lambda place: "(" * DEEP + ")" * DEEP,
}


def text_of(shape, parts):
    return "(" + " ".join(map(PARTS[shape], range(parts))) + ")"


def size_of(shape, parts):
    text = text_of(shape, parts)
    return max(len(text), len(image.syntax_image(text)))


def large_text(shape, size=65536):
    """The longest list of this shape, as it is printed."""
    most = size // len(PARTS[shape](0))
    parts = bisect.bisect_right(range(most), size, key=lambda parts: size_of(shape, parts)) - 1
    return text_of(shape, parts)


# What does not grow an image may be typed to any length: of each shape a text of so many bytes.
ENDLESS = {
    "open parentheses": lambda size: "(" * size,
    "lists in each other": lambda size: "(" * (size // 2) + ")" * (size // 2),
    "one word": lambda size: "w" * size,
    "one number": lambda size: "9" * size,
    "one comment": lambda size: "1;" + "(" * (size - 2),
    "comments": lambda size: "; a\n" * (size // 4) + "1",
    "white space": lambda size: " \t\r\n" * (size // 4) + "1",
    "limits broken": lambda size: "(" + "@1024 " * (size // 6) + ")",
    "objects behind the first": lambda size: "x " * (size // 2),
}
