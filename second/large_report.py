#!/usr/bin/env python3
"""large_report.py SHAPE COUNT: a file of images for term_report, on standard output.

    small       COUNT times the image that document 01 shows whole, 28 bytes each
    mixed       COUNT images of five kinds in turn: accepted, refused, out of budget, of no
                bytes, and nearly the longest
    passed      COUNT images of a million bytes, which are passed over

    large_report.py small 3745000 | term_report     100 MB and more
"""
import sys

from image import number, syntax_image

SHAPES = ("small", "mixed", "passed")


def with_length(image):
    return number(len(image)) + image


def images(shape):
    """The images of a shape, to be taken in turn."""
    if shape == "small":
        return [syntax_image("(lambda x x)")]
    if shape == "passed":
        return [bytes(1000000)]
    wide = syntax_image("(" + "1 " * 13000 + ")")  # 65,010 bytes
    macro = syntax_image("(lambda x (let-syntax m (lambda z (syntax x)) (lambda x (m))))")
    return [macro, syntax_image("x"), syntax_image("(" + "1 " * 200 + ")"), b"", wide]


def main(arguments):
    if len(arguments) != 2 or arguments[0] not in SHAPES:
        print(__doc__)
        return 2
    turn = [with_length(image) for image in images(arguments[0])]
    whole, rest = divmod(int(arguments[1]), len(turn))
    for _ in range(whole):
        sys.stdout.buffer.write(b"".join(turn))
    sys.stdout.buffer.write(b"".join(turn[:rest]))
    return 0


if __name__ == "__main__":
    sys.exit(main(sys.argv[1:]))
