"""The program as written, with its macro uses, and what each became."""
from html import escape

import ladder
import names
import spots


def rungs_of(panel, use):
    """The numbers of the rungs that a use made, whole or in part."""
    def touched(rung):
        return rung.use is use or any(contact.use is use for contact in ladder.contacts_of(rung.condition))
    return [number for number, rung in enumerate(panel.rungs, 1) if touched(rung)]


def in_words(numbers):
    """Numbers with their neighbours drawn together, as `rungs 1–3, 7`."""
    runs = []
    for number in numbers:
        if runs and runs[-1][-1] == number - 1:
            runs[-1][-1] = number
        else:
            runs.append([number, number])
    return ", ".join(str(a) if a == b else f"{a}–{b}" for a, b in runs)


def became(panel, use):
    numbers = rungs_of(panel, use)
    whole = any(rung.use is use for rung in panel.rungs)
    where = f"{'rung' if len(numbers) == 1 else 'rungs'} {in_words(numbers)}" if numbers else "no rung"
    bits = [f"its own bit {names.bit_word(bit)} at address {bit.address}" for bit in panel.bits if bit.use is use]
    return ", ".join([where if whole else f"contacts in {where}", *bits])


def use_item(panel, use, written):
    return (f'<li><button type="button" class="use" data-use="{use.number}" aria-pressed="false"><code>{escape(written)}</code>'
            f'<span class="became">{escape(became(panel, use))}</span></button></li>')


def uses_list(panel, found, text):
    items = (use_item(panel, use, text[use.spot.start:use.spot.end]) for use in found)
    return '<ul class="uses">' + "\n".join(items) + "</ul>"


def use_marks(found):
    for use in found:
        yield use.spot.start, use.spot.end, f'<span class="use" role="button" tabindex="0" aria-pressed="false" data-use="{use.number}">', "</span>"


def macro_marks(macros):
    """A macro's word, and its right-hand side, which can be folded away."""
    for word, right in macros:
        yield word.start, word.end, '<span class="macro">', "</span>"
        yield word.end, right.end, '<span class="folded"> …</span><span class="right">', "</span>"


def comment_marks(text):
    for start, end in spots.comments_of(text):
        yield start, end, '<span class="comment">', "</span>"


def inserts_of(marks):
    """Markup with its places, in order: at one place the ends first, inner ones before outer ones; then the starts, outer ones first."""
    return sorted(insert for start, end, before, after in marks for insert in ((start, 1, -end, before), (end, 0, -start, after)))


def marked(text, marks):
    """The text with markup around its marked parts, which lie inside or outside one another."""
    place, pieces = 0, []
    for at, _, _, markup in inserts_of(marks):
        pieces += [escape(text[place:at]), markup]
        place = at
    return "".join([*pieces, escape(text[place:])])


FOLD = '<label class="fold"><input type="checkbox" id="rights"> show how the macros are defined</label>'


def text_part(text, found, macros):
    inside = marked(text, [*use_marks(found), *macro_marks(macros), *comment_marks(text)])
    pre = f'<pre tabindex="0" aria-label="The program as written">{inside}</pre>'
    return f'<div class="text">{FOLD if macros else ""}{pre}</div>'
