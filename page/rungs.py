"""The ladder as a list of rungs, each with its drawing in the state of one scan."""
from html import escape

import drawing
import ladder
import names

COMMON = 900  # up to this width all rungs are as wide as the widest, so that the right rail is one line
LARGEST, SMALLEST = 1.6, 0.66  # how far a drawing is made larger for a projector, or smaller for a narrow screen


def drawings_of(panel, labels):
    cell = drawing.cell_for(labels.values())
    widths = [drawing.least_width(rung.condition, cell) for rung in panel.rungs]
    width = max((each for each in widths if each <= COMMON), default=0)
    return [drawing.drawing_of(rung, labels, cell, width) for rung in panel.rungs]


def most_of(drawings):
    """How wide the ladder may be drawn."""
    return round(min(drawn.width for drawn in drawings) * LARGEST)


def uses_inside(rung):
    """The uses that made contacts of a rung, but not the whole of it, each once."""
    met = {contact.use.number: contact.use for contact in ladder.contacts_of(rung.condition) if contact.use}
    return [] if rung.use else list(met.values())


def tag(use, before, written):
    return (f'<button type="button" class="tag" data-use="{use.number}" aria-pressed="false">'
            f'<span class="from">{before}</span> <code>{escape(written(use))}</code></button>')


def together(rung, other):
    """Whether one use made both."""
    return None not in (rung, other) and rung.use is other.use


def tags_of(rung, before, written):
    """Where a rung comes from, said once for rungs of the same use in a row."""
    whole = [rung.use] if rung.use and not together(before, rung) else []
    return "".join([tag(use, "from", written) for use in whole] + [tag(use, "with", written) for use in uses_inside(rung)])


def told(number, rung, labels):
    label = labels[rung.coil]
    verb = "drives" if rung.coil.kind == ladder.POINT else "sets"
    return f"Rung {number} {verb} {label.word} {label.below} to: {names.said(rung.condition, labels)}"


def attributes(before, rung, after):
    """The use that a rung comes from, and whether it is the first or the last of it."""
    ends = " begins" * (not together(before, rung)) + " ends" * (not together(rung, after))
    return f'class="rung{ends}" data-use="{rung.use.number}"' if rung.use else 'class="rung"'


def item(number, neighbours, drawn, flags, labels, written):
    before, rung, _ = neighbours
    head = f'<div class="head"><span class="number">{number}</span>{tags_of(rung, before, written)}</div>'
    # What is wider than the others is seen by moving sideways, and need not be made smaller as well.
    least = f"--least:{round(drawn.width * (SMALLEST if drawn.width <= COMMON else 1))}px"
    svg = drawing.markup_of(drawn, flags, told(number, rung, labels))
    return f'<li {attributes(*neighbours)} style="{least}">{head}{svg}</li>'


def list_of(panel, drawings, flags, labels, written):
    """written gives the text of a use."""
    neighbours = zip([None, *panel.rungs], panel.rungs, [*panel.rungs[1:], None])
    rows = zip(neighbours, drawings, flags)
    return "\n".join(item(number, *row, labels, written) for number, row in enumerate(rows, 1))
