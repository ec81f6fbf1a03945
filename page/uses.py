"""Which macro made what: the program as read and as expanded, walked side by side.

A `let-syntax` or `lambda` adds one scope to its body: the one that its binding has beyond the scopes around it. What a macro use hands in stood
inside all these, and carries them all. What a macro wrote stood before its own `let-syntax` did anything, and lacks that one's scope; it carries
the introduction scope of the use instead, the smallest that is new. So scopes tell what the use handed in, what its macro wrote, and what was
written by another macro, or by another use of the same one, on the way. A bit is known by its binder's scopes: of one that is bound further out
nobody can say by scopes who wrote it.
"""
from collections import namedtuple

import reading

OWN, HANDED, INNER, AROUND = "own", "handed", "inner", "around"
LAMBDA, LET_SYNTAX, QUOTE, SYNTAX = range(4)

# A binder around a place, with the scope that it adds. macro is its word where it is a let-syntax.
Binder = namedtuple("Binder", "scope macro")
# A use: its place in the text, its macro's binder, all binders around it, outermost first, and its introduction scope.
Use = namedtuple("Use", "number spot macro binders introducing")
# What is known of a part: where it comes from, and from which inner macro.
Origin = namedtuple("Origin", "kind macro")
# The uses by their places in what was expanded, as part numbers from the root; and each macro's spots, of its word and its right-hand side.
Found = namedtuple("Found", "uses macros")


def scopes_of(thing):
    return set(thing.sets[0])


def parts_of(thing):
    return thing.content.parts if isinstance(thing.content, reading.List) else []


def pieces(thing):
    yield thing
    for part in parts_of(thing):
        yield from pieces(part)


def lambdas_in(right):
    """How many lambdas of a right-hand side take a scope: those outside `quote` and `syntax`."""
    head = next((part.content for part in parts_of(right)), None)
    if head in (reading.Symbol("quote"), reading.Symbol("syntax")):
        return 0
    return (head == reading.Symbol("lambda")) + sum(map(lambdas_in, parts_of(right)))


def first_missing(binders, scopes):
    """The outermost binder whose scope is not among these."""
    return next((binder for binder in binders if binder.scope not in scopes), None)


def introducing_in(made, macro, binders):
    """The introduction scope of a use: the smallest new one on what its macro wrote."""
    around = {binder.scope for binder in binders}
    wrote = (scopes_of(piece) for piece in pieces(made) if first_missing(binders, scopes_of(piece)) == macro)
    return min(set().union(*wrote) - around, default=None)


def origin_of(use, leaf):
    """Of an object in what a use became."""
    scopes = scopes_of(leaf)
    missing = first_missing(use.binders, scopes)
    if scopes <= {binder.scope for binder in use.binders}:
        return Origin(AROUND, None)
    if missing is None:
        return Origin(HANDED, None)
    return Origin(OWN, None) if use.introducing in scopes else Origin(INNER, missing.macro)


class Walk:
    def __init__(self, bindings):
        self.bindings, self.last = bindings, 0
        # the macros' binders by their names
        self.binders, self.uses, self.macros = {}, {}, []

    def resolved(self, head, around):
        """The name of an identifier, by document 01's rule. Expanding was not refused, so it is not ambiguous."""
        scopes = scopes_of(head) | around
        fit = [binding for binding in self.bindings if binding.symbol == head.content.word and scopes.issuperset(binding.scopes)]
        if fit:
            return max(fit, key=lambda binding: len(binding.scopes)).target
        core = reading.CORE_WORDS
        return core.index(head.content.word) if head.content.word in core else None

    def binding_of(self, binder, around):
        """The binding that a binder got, and its scope: the next one with one scope more than those around."""
        scopes = scopes_of(binder) | around
        named = (binding for binding in self.bindings if binding.symbol == binder.content.word and scopes < set(binding.scopes))
        fresh = [(*set(binding.scopes) - scopes, binding) for binding in named if len(binding.scopes) == len(scopes) + 1]
        found = min((pair for pair in fresh if pair[0] > self.last), key=lambda pair: pair[0], default=None)
        if found is None:
            raise LookupError(f"no binding for {binder.content.word}")
        self.last = found[0]
        return found

    def walk(self, spot, read, made, path, binders):
        """read stood at spot, and became made."""
        if not parts_of(read):
            return
        around = {binder.scope for binder in binders}
        head = read.content.parts[0]
        name = self.resolved(head, around) if isinstance(head.content, reading.Symbol) else None
        if name in self.binders:
            self.use(spot, self.binders[name], made, path, binders)
        elif name == LET_SYNTAX:
            self.let_syntax(spot, read, made, path, binders)
        elif name == LAMBDA:
            scope, _ = self.binding_of(read.content.parts[1], around)
            self.walk(spot.parts[2], read.content.parts[2], made.content.parts[2], (*path, 2), (*binders, Binder(scope, None)))
        elif name not in (QUOTE, SYNTAX):
            self.parts(spot, read, made, path, binders)

    def parts(self, spot, read, made, path, binders):
        for place, parts in enumerate(zip(spot.parts, read.content.parts, made.content.parts)):
            self.walk(*parts, (*path, place), binders)

    def let_syntax(self, spot, read, made, path, binders):
        _, word, right, body = read.content.parts
        scope, binding = self.binding_of(word, {binder.scope for binder in binders})
        self.last += lambdas_in(right)
        binder = self.binders[binding.target] = Binder(scope, word.content.word)
        self.macros.append((spot.parts[1], spot.parts[2]))
        self.walk(spot.parts[3], body, made, path, (*binders, binder))

    def use(self, spot, macro, made, path, binders):
        self.uses[path] = Use(len(self.uses), spot, macro, binders, introducing_in(made, macro, binders))
        self.last = max(self.last, *(scope for piece in pieces(made) for scope in scopes_of(piece)), 0)


def uses_of(spot, read, expanded):
    """The uses in a program: its spot in the text, its image as read and its image as expanded. None where they cannot be told."""
    walk = Walk(expanded.bindings)
    try:
        walk.walk(spot, read.root, expanded.root, (), ())
    except LookupError:
        return None
    return Found(walk.uses, walk.macros)
