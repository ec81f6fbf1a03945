"""What each scan does to each rung, as crates/requests/specs/Scanning.antt says, held against the proved runner's lines.

The runner says what each driven point is after each scan. What stands between, the contacts of a rung as they were when that rung was worked, is
worked out here, and must come to the same lines.
"""
import sys
from collections import namedtuple

import drawing
import ladder
import reading

# After a scan: the value of each place; and each rung's flags, as drawing.flags_of has them, at the moment it was worked.
Scan = namedtuple("Scan", "values flags")


def scans_of(recording):
    """The changes of each scan, as point and value."""
    reader = reading.Reader(recording)
    scans = reader.several(lambda: reader.several(lambda: (reader.number(1023), reader.number(1))))
    reader.demand(reader.place == len(recording), "bytes are left over")
    return scans


class Rung:
    """A rung at work. What it comes to is worked out once for each case of the places that it reads."""

    def __init__(self, drawn, coil):
        self.drawn, self.coil, self.reads, self.cases = drawn, coil, drawn.circuit.reads(), {}

    def work(self, values):
        """Drives its coil, and gives its flags."""
        case = tuple(values[place] for place in self.reads)
        if case not in self.cases:
            worked = self.drawn.circuit.worked(values)
            self.cases[case] = sys.intern(drawing.flags_of(self.drawn, worked)), int(worked[self.drawn.power])
        flags, values[self.coil] = self.cases[case]
        return flags


def start_of(panel, places):
    values = {place: 0 for place in places}
    values.update({ladder.Place(ladder.BIT, bit.address): bit.start for bit in panel.bits})
    return values


def worked(panel, drawings, places, scans):
    """Each scan of a recording."""
    rungs = [Rung(drawn, rung.coil) for drawn, rung in zip(drawings, panel.rungs)]
    values = start_of(panel, places)
    for changes in scans:
        values.update((ladder.Place(ladder.POINT, point), value) for point, value in changes)
        flags = [rung.work(values) for rung in rungs]
        yield Scan(dict(values), flags)


def driven(panel):
    return sorted(rung.coil for rung in panel.rungs if rung.coil.kind == ladder.POINT)


def line_of(number, places, values):
    return " ".join([str(number), *(f"@{place.number}={values[place]}" for place in places)])


def held(panel, scans, lines):
    """The scans as they are worked. Raises ValueError at the first that differs from the runner's line."""
    places = driven(panel)
    for number, (scan, line) in enumerate(zip(scans, lines), 1):
        own = line_of(number, places, scan.values)
        if own != line:
            raise ValueError(f"the page's calculation of scan {number} gives '{own}', the runner's line is '{line}'")
        yield scan
