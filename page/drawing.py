"""One rung as SVG: from the left rail through the contacts to the coil at the right rail.

A drawing is pieces of markup, and between them numbers: a signal of the circuit, which stands for the class `on` where that signal is on. In the
page each of these is an element of class `s`; the script finds them in the same order.
"""
from collections import namedtuple
from html import escape

import circuit
import ladder

ROW = 78            # from one row of contacts to the next
TOP = 52            # from the upper edge to the first row: room for labels
BELOW = 30          # from the last row to the lower edge
JOINT = 18          # before and after a parallel: the wire that joins its branches
LEAD = 20           # from the left rail
SPARE = 12          # room for the coil, beyond that of a contact
PLATES = 7          # from the middle of a contact to its plates
HALF = 14           # half the height of a contact's plates
ROUND = 15          # a coil
NARROWEST, WIDEST = 84, 140
LETTER, SMALL = 8.6, 5.8  # a letter's width in a label, and below it

# A label has a word, what stands small below it, and what is told on pointing at it.
Label = namedtuple("Label", "word below told")
Drawing = namedtuple("Drawing", "pieces circuit width height power")
ORIGINS = {"own": "written by the macro", "handed": "handed in by the use", "around": "a bit from around the macro"}


def cell_for(labels):
    """The width of a contact that all labels fit into."""
    longest = max((max(len(label.word) * LETTER, len(label.below) * SMALL) for label in labels), default=0)
    return max(NARROWEST, min(WIDEST, round(longest) + 14))


def shortened(word, room, letter):
    most = int((room - 6) / letter)
    return word if len(word) <= most else word[:most - 1] + "…"


def told_origin(origin):
    if origin is None:
        return ""
    return f"written by {origin.macro or 'a macro'} on the way" if origin.kind == "inner" else ORIGINS[origin.kind]


class Pen:
    """Draws a condition into pieces, and its power into a circuit."""

    def __init__(self, labels, cell):
        self.labels, self.cell = labels, cell
        self.circuit, self.wires, self.marks = circuit.Circuit(), [], []

    # ---- sizes

    def width(self, part):
        if isinstance(part, ladder.Contact):
            return self.cell
        widths = [self.width(inner) for inner in part.parts]
        return sum(widths) if isinstance(part, ladder.Series) else max(widths) + 2 * JOINT

    def rows(self, part):
        if isinstance(part, ladder.Contact):
            return 1
        rows = [self.rows(inner) for inner in part.parts]
        return max(rows) if isinstance(part, ladder.Series) else sum(rows)

    # ---- parts

    def across(self, x, y, to, power):
        if to > x:
            # a little over, so that no seam is seen
            self.wires += ['<path class="wire s', power, f'" d="M{x - 0.4:g} {y}H{to + 0.4:g}"/>']

    def down(self, x, y, to, power):
        self.wires += ['<path class="wire down s', power, f'" d="M{x:g} {y}V{to}"/>']

    def dot(self, x, y, power):
        self.wires += ['<circle class="dot s', power, f'" cx="{x}" cy="{y}" r="3.5"/>']

    def label(self, x, y, place, origin):
        label = self.labels[place]
        kind = f" {origin.kind}" if origin else ""
        below = escape(shortened(label.below, self.cell, SMALL))
        low = f'<text class="below" x="{x}" y="{y - 20}">{below}</text>' if below else ""
        high = y - 35 if below else y - 21
        word = escape(shortened(label.word, self.cell, LETTER))
        told = ", ".join(filter(None, (label.told, told_origin(origin))))
        return f'<title>{escape(told)}</title><text class="label{kind}" x="{x}" y="{high}">{word}</text>{low}'

    def contact(self, part, x, y, power):
        closed = self.circuit.closed(part)
        out = self.circuit.through(power, closed)
        middle = x + self.cell / 2
        left, right = middle - PLATES, middle + PLATES
        self.across(x, y, left, power)
        self.across(right, y, x + self.cell, out)
        about = f' data-contact="{part.place.kind}{part.place.number}"' + (f' data-use="{part.use.number}"' if part.use else "")
        slash = f'<path class="slash" d="M{left - 3} {y + HALF}L{right + 3} {y - HALF}"/>' if part.broken else ""
        self.marks += [
            '<g class="contact s', closed, f'"{about}>', self.label(middle, y, part.place, part.origin),
            '<g class="s', out, f'"><rect class="fill" x="{left}" y="{y - HALF + 2}" width="{2 * PLATES}" height="{2 * HALF - 4}"/>'
            f'<path class="plate" d="M{left} {y - HALF}v{2 * HALF}M{right} {y - HALF}v{2 * HALF}"/>{slash}</g></g>']
        return out

    def series(self, part, x, y, power):
        for inner in part.parts:
            power = self.draw(inner, x, y, power)
            x += self.width(inner)
        return power

    def parallel(self, part, x, y, power):
        left, right = x + JOINT, x + self.width(part) - JOINT
        self.across(x, y, left, power)
        outs, rows = [], []
        for inner in part.parts:
            outs.append(self.draw(inner, left, y, power))
            self.across(left + self.width(inner), y, right, outs[-1])
            rows.append(y)
            y += ROW * self.rows(inner)
        ups = self.circuit.gathered(outs)
        self.joints(left, right, rows, power, ups)
        self.across(right, rows[0], right + JOINT, ups[0])
        return ups[0]

    def joints(self, left, right, rows, power, ups):
        """The wires down to the branches, and up from them."""
        for place in range(1, len(rows)):
            above, here = rows[place - 1], rows[place]
            self.down(left, above, here, power)
            self.down(right, above, here, ups[place])
            self.dot(left, above, power)
            self.dot(right, above, ups[place - 1])

    def draw(self, part, x, y, power):
        """Draws a part from x on, and gives the signal of its power at the right."""
        ways = {ladder.Contact: self.contact, ladder.Series: self.series, ladder.Parallel: self.parallel}
        return ways[type(part)](part, x, y, power)

    def coil(self, rung, x, y, power):
        place = rung.coil
        use = f' data-use="{rung.use.number}"' if rung.use else ""
        arcs = f"M{x - 8} {y - ROUND}a{ROUND + 3} {ROUND + 3} 0 0 0 0 {2 * ROUND}M{x + 8} {y - ROUND}a{ROUND + 3} {ROUND + 3} 0 0 1 0 {2 * ROUND}"
        self.marks += [
            '<g class="coil s', power, f'" data-coil="{place.kind}{place.number}"{use}>', self.label(x, y, place, rung.origin),
            f'<circle class="fill" cx="{x}" cy="{y}" r="{ROUND - 4}"/><path class="arc" d="{arcs}"/>'
            f'<text class="value one" x="{x}" y="{y + 5}">1</text><text class="value none" x="{x}" y="{y + 5}">0</text></g>']


def least_width(condition, cell):
    """The width of a rung that is no wider than it must be."""
    return LEAD + Pen({}, cell).width(condition) + cell + SPARE


def drawing_of(rung, labels, cell, width):
    """labels has a Label for each place."""
    pen = Pen(labels, cell)
    width = max(width, least_width(rung.condition, cell))
    pen.across(0, TOP, LEAD, circuit.RAIL)
    power = pen.draw(rung.condition, LEAD, TOP, circuit.RAIL)
    middle = width - (cell + SPARE) / 2
    pen.across(LEAD + pen.width(rung.condition), TOP, middle - ROUND + 1, power)
    pen.across(middle + ROUND - 1, TOP, width, power)
    pen.coil(rung, middle, TOP, power)
    height = TOP + ROW * (pen.rows(rung.condition) - 1) + BELOW
    return Drawing(pen.wires + pen.marks, pen.circuit, width, height, power)


def flags_of(drawing, worked):
    """The state of each element of class `s`, in order, as 0 and 1."""
    return "".join("01"[worked[piece]] for piece in drawing.pieces if isinstance(piece, int))


def markup_of(drawing, flags, told):
    """The SVG in the state that the flags say."""
    states = iter(flags)
    inside = "".join(piece if isinstance(piece, str) else " on" * int(next(states)) for piece in drawing.pieces)
    return (f'<svg role="img" aria-label="{escape(told)}" width="{drawing.width:g}" height="{drawing.height}" '
            f'viewBox="0 0 {drawing.width:g} {drawing.height}">{inside}</svg>')
