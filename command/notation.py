"""Images as text that people can read, over lines: trees in the notation of examples/README.md, objects as they are typed, or with their scopes.

    $4                    variable 4
    (f a b)               application
    [4 body]              function 4
    <a b>                 list value
    `(a b){1}             syntax value, with its scopes
    x{1,2}  x{1,2|3|4}    an object and its scopes, of phase 0 or of all phases
"""
import layout
import listing
import reading
from reading import Application, Function, ListValue, Number, Point, Primitive, RungWord, SyntaxValue, Variable


def constant(content):
    if isinstance(content, (Number, Point, Primitive)):
        return {Number: "", Point: "@", Primitive: "#"}[type(content)] + str(content[0])
    if isinstance(content, RungWord):
        return "'" + (reading.rung_word(content) or str(content.number))
    return content.word


def sets(of_phases):
    """Nothing where there is no scope at all."""
    shown = [",".join(map(str, scopes)) for scopes in of_phases]
    while shown and not shown[-1]:
        shown.pop()
    return "{" + "|".join(shown) + "}" if shown else ""


def scoped(thing, first=""):
    """An object with its scopes."""
    if isinstance(thing.content, reading.List):
        return layout.Parts(map(scoped, thing.content.parts), ends=(first + "(", ")" + sets(thing.sets)))
    return first + constant(thing.content) + sets(thing.sets)


def tree(thing):
    if isinstance(thing, Variable):
        return f"${thing.name}"
    if isinstance(thing, Application):
        return layout.Parts(map(tree, thing.parts))
    if isinstance(thing, Function):
        return layout.Parts([str(thing.name), tree(thing.body)], ends=("[", "]"))
    if isinstance(thing, ListValue):
        return layout.Parts(map(tree, thing.parts), ends=("<", ">"))
    if isinstance(thing, SyntaxValue):
        return scoped(thing.object, first="`")
    return constant(thing)


def text(printed):
    """What the printer wrote in one line. Only spaces become line ends."""
    return layout.text_of(listing.read(printed))


def head(image):
    """Words with the names that they are, and how many names and scopes there are."""
    first = len(reading.CORE_WORDS)
    words = "".join(f" {word}={first + place}" for place, word in enumerate(image.words))
    return [f"words {len(image.words)}{words and ':' + words}", f"made names {image.made}, from {first + len(image.words)}", f"scopes {image.scopes}"]


def bindings(image):
    return [f"binding {place}: {found.symbol}{sets([found.scopes]) or '{}'} to {found.target}" for place, found in enumerate(image.bindings, 1)]


def whole(image):
    """All that an image has."""
    root = tree(image.root) if image.kind == reading.TREE else scoped(image.root)
    return "".join(line + "\n" for line in (*head(image), *bindings(image))) + layout.text_of(root)
