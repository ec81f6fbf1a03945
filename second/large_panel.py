#!/usr/bin/env python3
"""large_panel.py rungs|sets|points [BYTES]: writes a legal panel program, a tree image of 65,536 bytes or as many as are named, on standard output.

    rungs     a bit, and as many short rungs as go in; the first ones drive all the points
    sets      a bit, and as many rungs as go in, all of which set it; no point is driven
    points    one rung, whose expression reads as many points and bits as go in
"""
import sys

sys.dont_write_bytecode = True
from image import Text, Words, tree_image

LARGEST = 65536
POINTS = 1024
AROUND = 30  # more bytes than stand around the parts


def rung(index):
    """As many points are driven as there are; the other rungs set the bit."""
    return f"('out @{index} $4)" if index < POINTS else "('set $4 @1)"


def coil(_):
    return "('set $4 @10)"


def contact(index):
    """Points of one byte and of two, and the bit."""
    return f"@{index % POINTS}" if index % 5 else "$4"


SHAPES = {"rungs": (rung, "([4 ('all %s)] 0)"), "sets": (coil, "([4 ('all %s)] 0)"),
          "points": (contact, "([4 ('out @1023 ('or %s))] 0)")}


def parts_that_fit(part, size):
    parts, room = [], size - AROUND
    while True:
        text = part(len(parts))
        room -= len(Text(text, Words()).tree())
        if room < 0:
            return parts
        parts.append(text)


def large_panel(shape, size=LARGEST):
    """The image, with a word in it that takes the bytes left over."""
    part, around = SHAPES[shape]
    text = around % " ".join(parts_that_fit(part, size))
    left = size - len(tree_image(text, made=1))
    image = tree_image(text, words=["x" * (left - 1)], made=1)
    assert len(image) == size
    return image


def main(arguments):
    if len(arguments) not in (1, 2) or arguments[0] not in SHAPES:
        print(__doc__, file=sys.stderr)
        return 2
    sys.stdout.buffer.write(large_panel(arguments[0], *map(int, arguments[1:])))
    return 0


if __name__ == "__main__":
    sys.exit(main(sys.argv[1:]))
