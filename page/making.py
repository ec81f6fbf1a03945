"""One page for the class: a program, its rungs, and a recording run on them, in one file that needs nothing else.

    page_of(Shown(title, text, image, expanded, tree, names, recording, lines))    the page, as text

text is the program as written, or as the printer gives it, or None. image and expanded are the bytes of the syntax images as read and as expanded,
and None where the program came as a tree; tree is that of the tree image. names are those of its bits in order of address, as the panel check lists
them, and lines are what the runner printed. All of this comes from the proved programs. What the page finds for itself, the functions of the tree and
what each rung does contact by contact, is held against names and lines; where they differ there is no page, but a ValueError.
"""
import json
import os
import sys
from collections import namedtuple
from html import escape

HERE = os.path.dirname(os.path.abspath(__file__))
sys.path[:0] = [HERE, os.path.join(os.path.dirname(HERE), "command")]
import bits
import front
import ladder
import names
import notes
import program
import reading
import rungs
import spots
import tracks
import uses
import working

Shown = namedtuple("Shown", "title text image expanded tree names recording lines")
# What is shown of it: the ladder; the uses and macros, and what is told where there are none; labels, drawings, and the scans that the page has.
Found = namedtuple("Found", "panel uses macros told places labels drawings scans changes")

LONGEST = 4000     # scans that a page shows
ROOM = 1000000     # rungs times scans that a page shows
NO_WORDS = "The program came as a tree. A tree has no words and no macros, so its bits are called by their names."
NO_MACROS = "What each macro became cannot be told here: the program came expanded, and its macros are gone."
NO_USE = "No macro is used in this program."


def uses_in(shown):
    """The uses by their place in what was expanded, and the macros; None where they cannot be told."""
    if None in (shown.text, shown.image, shown.expanded):
        return None
    read, expanded = reading.image_of(shown.image), reading.image_of(shown.expanded)
    return None if read.scopes else uses.uses_of(spots.spot_of(shown.text), read, expanded)


def kept(panel, scans):
    """How many scans the page shows."""
    return min(len(scans), LONGEST, max(100, ROOM // len(panel.rungs)))


def worked_out(shown, panel, drawings, places, changes):
    """The scans that the page shows. All are held against the runner's lines."""
    if len(changes) != len(shown.lines):
        raise ValueError(f"the runner has {len(shown.lines)} lines for {len(changes)} scans")
    if not changes:
        raise ValueError("the recording has no scan")
    most = kept(panel, changes)
    scans = working.held(panel, working.worked(panel, drawings, places, changes), shown.lines)
    return [scan for number, scan in enumerate(scans) if number < most]


def found_in(shown):
    found = uses_in(shown)
    told = NO_WORDS if shown.expanded is None else NO_MACROS if found is None else NO_USE
    found = found or uses.Found({}, [])
    expanded = reading.image_of(shown.expanded).root if shown.expanded else None
    known = bits.bits_of(shown.names, shown.tree, shown.expanded)
    panel = ladder.ladder_of(reading.image_of(shown.tree).root, known, expanded, found.uses)
    changes = working.scans_of(shown.recording)
    places = names.places_of(panel, changes)
    labels = names.labels_of(panel, places, notes.notes_of(shown.text or ""))
    drawings = rungs.drawings_of(panel, labels)
    scans = worked_out(shown, panel, drawings, places, changes)
    return Found(panel, list(found.uses.values()), found.macros, told, places, labels, drawings, scans, changes)


def changes_text(changes):
    return " ".join(f"@{point}={value}" for point, value in changes) or "none"


def data_of(shown, found):
    """What the script shows, scan by scan."""
    count = len(found.scans)
    return {
        "scans": count,
        "changes": tracks.track(map(changes_text, found.changes[:count])),
        "lines": tracks.track(line.partition(" ")[2] for line in shown.lines[:count]),
        "places": {names.key_of(place): tracks.track(scan.values[place] for scan in found.scans) for place in found.places},
        "rungs": [tracks.track(flags) for flags in zip(*(scan.flags for scan in found.scans))],
    }


def program_part(shown, found):
    """The uses, or why there are none, and the text."""
    if found.uses:
        said = program.uses_list(found.panel, found.uses, shown.text)
    else:
        said = f"<p>{found.told}</p>"
    return said + (program.text_part(shown.text, found.uses, found.macros) if shown.text is not None else "")


def left_out(shown, found):
    count, whole = len(found.scans), len(shown.lines)
    return f"The recording has {whole} scans. All were held against the runner; the page shows the first {count}." if count < whole else ""


def file(name):
    with open(os.path.join(HERE, name), encoding="utf-8") as given:
        return given.read()


def in_script(data):
    """JSON that cannot end a script."""
    return json.dumps(data, separators=(",", ":")).replace("<", "\\u003c")


def parts_of(shown, found):
    """What stands in the template's places."""
    first = found.scans[0]

    def written(use):
        return " ".join(shown.text[use.spot.start:use.spot.end].split())

    return {
        "style": file("page.css"),
        "title": escape(shown.title),
        "count": str(len(found.scans)),
        "changes": changes_text(found.changes[0]),
        "line": escape(shown.lines[0]),
        "left_out": left_out(shown, found),
        "points": front.points(found.panel, found.places, first.values, found.labels),
        "bits": front.bits(found.panel, first.values, written),
        "program": program_part(shown, found),
        "most": str(rungs.most_of(found.drawings)),
        "rungs": rungs.list_of(found.panel, found.drawings, first.flags, found.labels, written),
        "timeline": front.timeline(found.places, found.labels),
        "data": in_script(data_of(shown, found)),
        "script": file("page.js"),
    }


def filled(template, parts):
    """The template's parts stand between double braces, each name in a place of its own."""
    pieces = template.split("{{")
    return pieces[0] + "".join(parts[name] + rest for name, _, rest in (piece.partition("}}") for piece in pieces[1:]))


def page_of(shown):
    return filled(file("page.html"), parts_of(shown, found_in(shown)))
