"""Recordings of push buttons as listings that a person can write: a line for each scan, with the points that change in it.

    @1=1 @2=0     point 1 is now 1 and point 2 is now 0
    -             nothing changes; an empty line says the same

A ';' and what stands behind it is a comment. A line with nothing but a comment is no scan. The points of a line may stand in any order.
"""
import os
import re
import sys

sys.dont_write_bytecode = True
sys.path.insert(0, os.path.join(os.path.dirname(os.path.abspath(__file__)), "..", "second"))
import image

LAST_POINT = 1023
STILL = "-"
LONGEST_SHOWN = 40


def shown(word):
    """A word as it can be said in a line."""
    seen = "".join(letter if letter.isprintable() else "?" for letter in word)
    return seen if len(seen) <= LONGEST_SHOWN else seen[:LONGEST_SHOWN] + "..."


def change_of(word):
    """Point and value of a change."""
    parts = re.fullmatch(r"@([0-9]{1,4})=([01])", word)
    if not parts or int(parts[1]) > LAST_POINT:
        raise ValueError(f"{shown(word)} is no change: that is @, a point up to {LAST_POINT}, = and 0 or 1")
    return int(parts[1]), int(parts[2])


def scan_of(line):
    """A scan in the order of its points."""
    changes = sorted(map(change_of, line.split()))
    if len(dict(changes)) < len(changes):
        raise ValueError("a point changes twice in one scan")
    return " ".join(f"@{point}={value}" for point, value in changes)


def scans_of(text):
    """The scans of a listing."""
    scans = []
    for number, line in enumerate(text.splitlines(), 1):
        said = line.split(";")[0].strip()
        if ";" in line and not said:
            continue
        try:
            scans.append("" if said == STILL else scan_of(said))
        except ValueError as fault:
            raise ValueError(f"line {number}: {fault}")
    return scans


def recording_of(text):
    return image.recording(scans_of(text))


def scan_in(reader):
    changes = [f"@{reader.number()}={reader.number()}" for _ in range(reader.number())]
    return " ".join(changes) or STILL


def listing_of(recording):
    """The listing of a recording. A damaged one has none: code 24."""
    reader = image.Shower(recording)
    try:
        text = "".join(scan_in(reader) + "\n" for _ in range(reader.number()))
        whole = recording_of(text) == recording
    except (image.Damage, ValueError):
        whole = False
    if not whole:
        raise ValueError("it breaks the layout of recordings")
    return text


def recording_in(file):
    """The recording of a file, which is a listing where it ends in .scans."""
    if file.endswith(".scans"):
        with open(file) as text:
            return recording_of(text.read())
    with open(file, "rb") as given:
        return given.read()
