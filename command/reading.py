"""The bytes of an image, taken apart: document 01's syntax images (kind 1) and tree images (kind 2).

    image_of(bytes)     Image(kind, words, made, scopes, bindings, root)

The root of a syntax image is an Object: its content, and its scope sets of phases 0, 1 and 2. The content is a constant or a List of objects.
The root of a tree image is a tree: Variable, Application, Function, a constant, ListValue or SyntaxValue. A constant of a tree is that of an
object, without sets. Bytes that break the layout raise ValueError; nothing else is judged here, that is for the proved programs.
"""
from collections import namedtuple

SYNTAX, TREE = 1, 2
CORE_WORDS = ("lambda", "let-syntax", "quote", "syntax")
RUNG_WORDS = ("and", "or", "not", "out", "set", "all")
DEEPEST = 64
LARGEST_NUMBER = 4294967295

# bindings is empty for a tree image. A binding's symbol is a word.
Image = namedtuple("Image", "kind words made scopes bindings root")
Binding = namedtuple("Binding", "symbol target scopes")

# ---- constants
Symbol = namedtuple("Symbol", "word")
Number = namedtuple("Number", "value")
Point = namedtuple("Point", "number")
Primitive = namedtuple("Primitive", "number")
RungWord = namedtuple("RungWord", "number")

# ---- objects
Object = namedtuple("Object", "content sets")
List = namedtuple("List", "parts")

# ---- trees
Variable = namedtuple("Variable", "name")
Application = namedtuple("Application", "parts")
Function = namedtuple("Function", "name body")
ListValue = namedtuple("ListValue", "parts")
SyntaxValue = namedtuple("SyntaxValue", "object")

CONSTANTS = (Symbol, Number, Point, Primitive, RungWord)
VALUES = (Function, ListValue, SyntaxValue, *CONSTANTS)
LAST = {Number: LARGEST_NUMBER, Point: 1023, Primitive: 6, RungWord: 15}


def rung_word(content):
    """The word of a named rung word, as 'and'; None for anything else."""
    named = isinstance(content, RungWord) and content.number < len(RUNG_WORDS)
    return RUNG_WORDS[content.number] if named else None


class Reader:
    """Reads an image from the front."""

    def __init__(self, given):
        self.given, self.place = given, 0
        self.words, self.names, self.scopes = [], 0, 0

    def demand(self, holds, fault):
        if not holds:
            raise ValueError(f"the image breaks the layout at byte {self.place}: {fault}")

    def byte(self):
        self.demand(self.place < len(self.given), "it ends here")
        self.place += 1
        return self.given[self.place - 1]

    def number(self, last=LARGEST_NUMBER):
        """In groups of seven bits, low group first, in the shortest form."""
        value = shift = 0
        byte = 128
        while byte > 127:
            byte = self.byte()
            value |= (byte & 127) << shift
            shift += 7
            self.demand(shift <= 35, "a number is too long")
        self.demand(byte or shift == 7, "a number is not in its shortest form")
        self.demand(value <= last, f"the number {value} is over {last}")
        return value

    def several(self, one):
        """A count, then so many. Each takes a byte at least."""
        count = self.number()
        self.demand(count <= len(self.given) - self.place, "a count is larger than what follows")
        return [one() for _ in range(count)]

    # ---- the head

    def word(self):
        letters = bytes(self.byte() for _ in range(self.number(32)))
        good = letters and all(33 <= letter <= 126 and letter not in b"();'#" for letter in letters)
        self.demand(good and letters[0] not in b"0123456789@", "that is no word")
        word = letters.decode()
        self.demand(word not in self.words and word not in CORE_WORDS, f"the word {word} is there already")
        self.words.append(word)

    def symbol(self):
        known = (*CORE_WORDS, *self.words)
        return known[self.number(len(known) - 1)]

    def name(self):
        return self.number(self.names - 1)

    def set(self):
        scopes = self.several(lambda: self.number(self.scopes))
        self.demand(all(a < b for a, b in zip([0, *scopes], scopes)), "a scope set is not in order")
        return tuple(scopes)

    def binding(self):
        symbol, target = self.symbol(), self.name()
        return Binding(symbol, target, self.set())

    def bindings(self):
        found = self.several(self.binding)
        known = {word: number for number, word in enumerate((*CORE_WORDS, *self.words))}
        order = [(known[binding.symbol], binding.scopes) for binding in found]
        self.demand(all(a < b for a, b in zip(order, order[1:])), "the bindings are not in order")
        return found

    # ---- objects and trees

    def constant(self, tag):
        self.demand(tag < len(CONSTANTS), f"there is no tag {tag}")
        kind = CONSTANTS[tag]
        return Symbol(self.symbol()) if kind is Symbol else kind(self.number(LAST[kind]))

    def object(self, level=1):
        self.demand(level <= DEEPEST, "it is nested too deep")
        tag = self.number()
        sets = (self.set(), self.set(), self.set())
        if tag == len(CONSTANTS):
            return Object(List(self.several(lambda: self.object(level + 1))), sets)
        return Object(self.constant(tag), sets)

    def value(self, level):
        found = self.tree(level)
        self.demand(isinstance(found, VALUES), "a part of a list value is no value")
        return found

    def application(self, level):
        parts = self.several(lambda: self.tree(level + 1))
        self.demand(parts, "an application has no part")
        return Application(parts)

    def tree(self, level=1):
        self.demand(level <= DEEPEST, "it is nested too deep")
        ways = (lambda: Variable(self.name()), lambda: self.application(level), lambda: Function(self.name(), self.tree(level + 1)),
                lambda: self.constant(self.number()), lambda: ListValue(self.several(lambda: self.value(level + 1))),
                lambda: SyntaxValue(self.object(level)))
        return ways[self.number(len(ways) - 1)]()

    def image(self):
        kind = self.number()
        self.demand(kind in (SYNTAX, TREE), f"there is no kind {kind}")
        self.several(self.word)
        made = self.number()
        self.names = len(CORE_WORDS) + len(self.words) + made
        self.scopes = self.number()
        bindings = self.bindings() if kind == SYNTAX else []
        root = self.object() if kind == SYNTAX else self.tree()
        self.demand(self.place == len(self.given), "bytes are left over")
        return Image(kind, self.words, made, self.scopes, bindings, root)


def image_of(given):
    return Reader(given).image()
