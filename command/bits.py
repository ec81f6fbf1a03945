"""The bits of a program, for the tables of `panel` and `uses` and for the page. Names and addresses are the panel check's. The word that a bit was
written with and its start value are found here, by walking the tree and the expanded object beside it."""
from collections import namedtuple

import reading
from reading import Application, Function, ListValue, Number

# word is None where the program came as a tree, address where the panel check refuses it.
Bit = namedtuple("Bit", "address name word start")
# A function of the tree. start is None where it is not applied to a number, and so is no bit of a panel.
Found = namedtuple("Found", "name word start")


def part(thing, place):
    """Where there is no object, there is no part of it."""
    return None if thing is None else thing.content.parts[place]


def word_of(binder):
    return None if binder is None else binder.content.word


def start_of(application):
    """A bit is a function applied to a number."""
    behind = application.parts[1:2]
    return behind[0].value if behind and isinstance(behind[0], Number) else None


def inside(tree, thing):
    """The parts of a tree, each with the object beside it, the first with the number behind it. A list value was quoted: nothing stands beside its
    parts."""
    if isinstance(tree, ListValue):
        return [(inner, None) for inner in tree.parts]
    if not isinstance(tree, Application):
        return []
    head, *rest = ((inner, part(thing, place)) for place, inner in enumerate(tree.parts))
    return [(*head, start_of(tree)), *rest]


def functions(tree, thing, start=None):
    """Outermost and leftmost first. (lambda word body) stands beside a function."""
    if isinstance(tree, Function):
        return [Found(tree.name, word_of(part(thing, 1)), start), *functions(tree.body, part(thing, 2))]
    return [found for inner in inside(tree, thing) for found in functions(*inner)]


def functions_of(tree, expanded):
    return functions(reading.image_of(tree).root, None if expanded is None else reading.image_of(expanded).root)


def bits_of(names, tree, expanded=None):
    """names are those that the panel check lists, in order of address. Raises ValueError where the tree has others."""
    found = functions_of(tree, expanded)
    if [each.name for each in found] != list(names):
        raise ValueError("the bits that the tree has are not those that the panel check lists")
    return [Bit(address, *each) for address, each in enumerate(found)]


def without_addresses(tree, expanded=None):
    """Every function, for a tree that the panel check refuses."""
    return [Bit(None, *each) for each in functions_of(tree, expanded)]
