#!/usr/bin/env python3
"""large_recording.py SHAPE [SCANS]: writes a recording of 65,536 bytes on standard output.

    still      65,533 scans in which nothing changes, the most that go in
    button     32,001 scans; in about every second one point 10 is pushed or let go
    points     in each of the first 22 scans all points up to 1,022 change; 788 still ones follow

With SCANS it is as long as its first so many scans take.
"""
import sys

sys.dont_write_bytecode = True
from image import recording

LARGEST = 65536
# The count of scans takes three bytes, or two where it is under 16,384. A scan takes a byte for the count of
# its changes, and two behind 127; a change takes two bytes, and three from point 128 on.
STILL = LARGEST - 3
BUTTON_SCANS = 32001
PUSHES = (STILL - BUTTON_SCANS) // 2  # of point 10: two bytes more each
ALL_POINTS = 2 + 128 * 2 + 895 * 3
ALL_TIMES = (LARGEST - 2) // ALL_POINTS


def still():
    return [""] * STILL


def button():
    """Pushes and still scans by turns, as long as there are still ones."""
    scans = []
    for push in range(PUSHES):
        scans.append(f"@10={(1 + push) % 2}")
        if push < BUTTON_SCANS - PUSHES:
            scans.append("")
    return scans


def points():
    scans = [" ".join(f"@{point}={(1 + i) % 2}" for point in range(1023)) for i in range(ALL_TIMES)]
    return scans + [""] * (LARGEST - 2 - ALL_TIMES * ALL_POINTS)


SHAPES = {"still": still, "button": button, "points": points}


def large_recording(shape, scans=None):
    return recording(SHAPES[shape]()[:scans])


def main(arguments):
    if len(arguments) not in (1, 2) or arguments[0] not in SHAPES:
        print(__doc__, file=sys.stderr)
        return 2
    sys.stdout.buffer.write(large_recording(arguments[0], *map(int, arguments[1:])))
    return 0


if __name__ == "__main__":
    sys.exit(main(sys.argv[1:]))
