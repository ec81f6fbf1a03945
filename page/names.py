"""What the page calls points and bits."""
import drawing
import ladder


def key_of(place):
    """As `@10` for a point and `$0` for the bit at address 0."""
    return f"{place.kind}{place.number}"


def bit_word(bit):
    return bit.word or f"${bit.name}"


def bit_label(bit):
    return drawing.Label(bit_word(bit), f"address {bit.address}, name {bit.name}", f"bit {bit_word(bit)}, address {bit.address}, name {bit.name}")


def point_label(number, notes):
    note = notes.get(number, "")
    return drawing.Label(f"@{number}", note, f"point @{number} {note}".strip())


def labels_of(panel, places, notes):
    """A label for each place."""
    bits = {ladder.Place(ladder.BIT, bit.address): bit_label(bit) for bit in panel.bits}
    return {place: bits[place] if place in bits else point_label(place.number, notes) for place in places}


def places_of(panel, scans):
    """Every point that is recorded, read or driven, ascending, then every bit by its address."""
    met = {contact.place for rung in panel.rungs for contact in ladder.contacts_of(rung.condition)} | {rung.coil for rung in panel.rungs}
    recorded = {ladder.Place(ladder.POINT, point) for changes in scans for point, _ in changes}
    points = sorted(place for place in met | recorded if place.kind == ladder.POINT)
    return points + [ladder.Place(ladder.BIT, bit.address) for bit in panel.bits]


def said(condition, labels, inside=False):
    """A condition in words, for those who hear the page."""
    if isinstance(condition, ladder.Contact):
        label = labels[condition.place]
        return ("not " if condition.broken else "") + f"{label.word} {label.below}".strip()
    joint = " and " if isinstance(condition, ladder.Series) else " or "
    words = joint.join(said(part, labels, True) for part in condition.parts)
    return f"({words})" if inside else words
