"""Listings: rung programs in the text notation (request T-05) with two shorthands. Primitives may have their names, as #link; and there are macros:

    (macro (NAME HOLE ..) TEMPLATE BODY)

It stands for (let-syntax NAME (lambda form MAKER) BODY), where MAKER makes the template with what the use has at each hole. A part of
the template that has no hole is taken as it stands, by `syntax`; a list with a hole is linked part by part, by primitives. So each hole
costs units, and those of every list around it; a macro without holes is the cheapest.

The last hole may be followed by `...`. Then it stands for all that is left of the use. In the template it ends a list, `...` behind it:

    (macro (enabled conditions ...) ('and @1 conditions ...) BODY)
"""
import os
import re
import sys

sys.dont_write_bytecode = True
sys.path.insert(0, os.path.join(os.path.dirname(os.path.abspath(__file__)), "..", "second"))
import image
import layout

ALL_LEFT = "..."
NUMBERS = {"#" + name: f"#{number}" for number, name in enumerate(image.PRIMITIVES)}
TOKEN = re.compile(r";.*|[()]|[^\s();]+")


def read(text):
    """The object of a listing, as words and lists of them. A list keeps the comments that stand before it, other comments go."""
    tokens = TOKEN.findall(text)
    place = 0

    def comments():
        nonlocal place
        start = place
        while place < len(tokens) and tokens[place].startswith(";"):
            place += 1
        return tokens[start:place]

    def one(said):
        nonlocal place
        if place == len(tokens):
            raise ValueError("it ends before its last parenthesis is closed")
        place += 1
        if tokens[place - 1] != "(":
            return tokens[place - 1]
        parts = layout.Parts(comments=said)
        while (part := one(comments())) != ")":
            parts.append(part)
        return parts

    whole = one(comments())
    comments()
    if place != len(tokens):
        raise ValueError("it goes on behind its last parenthesis")
    return whole


def has_hole(template, holes):
    return template in holes if isinstance(template, str) else any(has_hole(part, holes) for part in template)


def use_from(place):
    """The parts of the use from a place on, the macro's name at place 0."""
    parts = ["#stx-e", "form"]
    for _ in range(place):
        parts = ["#rest", parts]
    return parts


def place_of(hole, holes):
    if hole == ALL_LEFT:
        raise ValueError("... stands behind the last hole only, at the end of a list")
    return holes.index(hole) + 1


def linked(parts, holes):
    """The list value of the parts."""
    if not parts:
        return ["quote", []]
    if not has_hole(parts, holes):
        return ["#stx-e", ["syntax", parts]]
    if parts == holes[-2:] and parts[1:] == [ALL_LEFT]:
        return use_from(place_of(parts[0], holes))
    return ["#link", maker(parts[0], holes), linked(parts[1:], holes)]


def maker(template, holes):
    if not has_hole(template, holes):
        return ["syntax", template]
    if isinstance(template, str):
        return ["#first", use_from(place_of(template, holes))]
    return ["#mk-stx", linked(template, holes), "form"]


def plain_macro(thing):
    if len(thing) != 4 or isinstance(thing[1], str) or not thing[1]:
        raise ValueError("a macro has its name and holes in parentheses, a template and a body")
    (name, *holes), template, body = thing[1:]
    return ["let-syntax", name, ["lambda", "form", maker(plain(template), holes)], plain(body)]


def plain(thing):
    """The object without macros."""
    if isinstance(thing, str):
        return thing
    parts = plain_macro(thing) if thing[:1] == ["macro"] else map(plain, thing)
    return layout.Parts(parts, comments=thing.comments)


def typed(thing):
    """The object with the numbers of the primitives in place of their names."""
    if isinstance(thing, str):
        return NUMBERS.get(thing, thing)
    return layout.Parts(map(typed, thing), comments=layout.comments_of(thing))


def text_of(listing):
    """The text of a listing, over several lines, with its comments."""
    return layout.text_of(typed(plain(read(listing))))


def primitives_of(text):
    """Names for the primitives that a text has."""
    tokens = TOKEN.findall(text)
    return ", ".join(f"{number} {name[1:]}" for name, number in NUMBERS.items() if number in tokens)
