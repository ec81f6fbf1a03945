"""The rungs of a panel program: its tree, as the panel profile has it (crates/requests/specs/Panel.antt), as contacts and coils.

`and` is contacts in series, `or` in parallel. A `not` is pushed inward until it stands at a single contact, which is then a break contact.
The expanded object, where it is had, is walked beside the tree, and tells which macro made what.
"""
from collections import namedtuple

import bits
import reading
import uses

POINT, BIT = "@", "$"

# What a contact reads or a coil drives: a point by its number, a bit by its address.
Place = namedtuple("Place", "kind number")
Contact = namedtuple("Contact", "place broken origin use")
Series = namedtuple("Series", "parts")
Parallel = namedtuple("Parallel", "parts")
# use is that which the whole rung comes from, or None.
Rung = namedtuple("Rung", "coil origin condition use")
Bit = namedtuple("Bit", (*bits.Bit._fields, "use"))
Ladder = namedtuple("Ladder", "bits rungs")


class Beside:
    """The expanded object that stands beside a part of the tree, and the macro use that it comes from."""

    def __init__(self, thing, found, path=(), use=None):
        self.thing, self.found, self.path = thing, found, path
        self.use = found.get(path, use)

    def part(self, place):
        return Beside(self.thing.content.parts[place], self.found, (*self.path, place), self.use)

    def leaf(self):
        """What is quoted stands in the tree without its quote."""
        quoted = isinstance(self.thing.content, reading.List)
        return self.thing.content.parts[-1] if quoted else self.thing

    def origin(self):
        return uses.origin_of(self.use, self.leaf()) if self.use else None


class NothingBeside:
    """Where the program came as a tree."""
    use = None

    def part(self, place):
        return self

    def origin(self):
        return None


def joined(kind, parts):
    """Series in series, and parallel in parallel, are one."""
    flat = [inner for part in parts for inner in (part.parts if isinstance(part, kind) else [part])]
    return kind(flat)


class Walk:
    def __init__(self, known):
        self.known, self.bits, self.rungs = iter(known), [], []

    def program(self, tree, beside, around):
        """around has the bits in scope by their names."""
        head, *rest = tree.parts
        word = reading.rung_word(head)
        if isinstance(head, reading.Function):
            self.bit(head, beside.part(0), around)
        elif word == "all":
            for place, part in enumerate(rest, 1):
                self.program(part, beside.part(place), around)
        else:
            self.rung(rest, beside, around)

    def bit(self, function, beside, around):
        """The next one, for functions are met in order of address."""
        bit = Bit(*next(self.known), beside.use)
        self.bits.append(bit)
        self.program(function.body, beside.part(2), {**around, function.name: bit})

    def rung(self, parts, beside, around):
        coil, condition = parts
        place = self.place(coil, around)
        drawn = self.expression(condition, beside.part(2), around, False)
        self.rungs.append(Rung(place, beside.part(1).origin(), drawn, beside.use))

    def place(self, tree, around):
        if isinstance(tree, reading.Variable):
            return Place(BIT, around[tree.name].address)
        return Place(POINT, tree.number)

    def expression(self, tree, beside, around, inverse):
        if not isinstance(tree, reading.Application):
            return Contact(self.place(tree, around), inverse, beside.origin(), beside.use)
        word = reading.rung_word(tree.parts[0])
        turned = inverse != (word == "not")
        parts = [self.expression(part, beside.part(place), around, turned) for place, part in enumerate(tree.parts) if place]
        if word == "not":
            return parts[0]
        return joined(Series if (word == "and") != inverse else Parallel, parts)


def ladder_of(tree, known, expanded=None, found=None):
    """The ladder of a tree whose bits are known, and of the expanded object beside it with the uses that were found in it."""
    walk = Walk(known)
    walk.program(tree, Beside(expanded, found or {}) if expanded else NothingBeside(), {})
    return Ladder(walk.bits, walk.rungs)


def contacts_of(condition):
    """The contacts, in order."""
    if isinstance(condition, Contact):
        return [condition]
    return [contact for part in condition.parts for contact in contacts_of(part)]
