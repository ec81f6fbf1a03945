"""The front of the panel: push buttons and contacts that are recorded, lamps and motors that are driven, and the memory with its bits."""
from html import escape

import ladder
import names
import working


def inputs_of(panel, places):
    """The points that are recorded or read, and not driven."""
    outputs = set(working.driven(panel))
    return [place for place in places if place.kind == ladder.POINT and place not in outputs]


def point_item(kind, place, values, labels):
    on = " on" if values[place] else ""
    label = labels[place]
    note = f'<span class="note">{escape(label.below)}</span>' if label.below else ""
    return (f'<li class="point {kind}{on}" data-place="{names.key_of(place)}"><span class="mark" aria-hidden="true"></span>'
            f'<b>{label.word}</b>{note}<span class="state">{"on" if values[place] else "off"}</span></li>')


def points_list(kind, title, places, values, labels):
    if not places:
        return ""
    items = "\n".join(point_item(kind, place, values, labels) for place in places)
    return f'<div class="points"><h3>{title}</h3><ul>{items}</ul></div>'


def points(panel, places, values, labels):
    return (points_list("button", "Buttons and contacts, recorded", inputs_of(panel, places), values, labels)
            + points_list("lamp", "Lamps and motors, driven", working.driven(panel), values, labels))


def bit_row(bit, values, written):
    value = values[ladder.Place(ladder.BIT, bit.address)]
    made = (f'<button type="button" class="tag" data-use="{bit.use.number}" aria-pressed="false"><code>{escape(written(bit.use))}</code></button>'
            if bit.use else "the program")
    return (f'<tr class="bit{" on" if value else ""}" data-place="${bit.address}"><td class="address">{bit.address}</td>'
            f'<th scope="row">{escape(names.bit_word(bit))}</th><td>{bit.name}</td><td>{bit.start}</td>'
            f'<td class="now"><span class="state">{value}</span></td><td>{made}</td></tr>')


def bits(panel, values, written):
    """The table of the bits; made by says which use's lambda a bit is."""
    if not panel.bits:
        return "<p>This program has no bit: all its contacts read points.</p>"
    rows = "\n".join(bit_row(bit, values, written) for bit in panel.bits)
    return ('<div class="wide"><table class="bits"><thead><tr><th scope="col">address</th><th scope="col">bit</th><th scope="col">name</th>'
            f'<th scope="col">start</th><th scope="col">now</th><th scope="col">made by</th></tr></thead><tbody>{rows}</tbody></table></div>')


def timeline(places, labels):
    """A row for each place; the script draws the strips."""
    rows = (f'<div class="row" data-place="{names.key_of(place)}"><span class="name"><b>{escape(labels[place].word)}</b> '
            f'<span class="note">{escape(labels[place].below)}</span></span></div>' for place in places)
    return "\n".join(rows)
