"""What the comments of a program call its points: `; @1 feeder's button, @11 to @14 silos' buttons`. A note helps a reader and decides nothing."""
import re

import spots

NOTE = re.compile(r"@(\d{1,4})(?: to @(\d{1,4}))? ([^,;.@:()]+)")
LONGEST = 24
LAST_POINT = 1023


def notes_in(comment):
    """Point and note, for each point that a comment speaks of."""
    for first, last, note in NOTE.findall(comment):
        points = range(int(first), min(int(last or first), LAST_POINT) + 1)
        if 0 < len(note.strip()) <= LONGEST:
            yield from ((point, note.strip()) for point in points)


def notes_of(text):
    """The note of each point; the first that is found counts."""
    found = [note for start, end in spots.comments_of(text) for note in notes_in(text[start:end])]
    return dict(reversed(found))
