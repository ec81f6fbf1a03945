"""Programs by chance, and small programs whose macros try what scopes can tell."""
import random

import image
import pages
from pages import making, reading

PROGRAMS = 60


# ---- by chance

class Maker:
    """A tree of the panel profile, in the notation of second/image.py."""

    def __init__(self, chance):
        self.chance, self.name, self.point = chance, 3, 19

    def place(self, bits):
        return self.chance.choice(["@1", "@2", "@3", "@20", "@21", *bits, *bits])

    def expression(self, bits, depth):
        word = self.chance.choice(("and", "or", "not", "", ""))
        if depth == 0 or not word:
            return self.place(bits)
        count = 1 if word == "not" else self.chance.choice((2, 2, 3))
        return f"('{word} {' '.join(self.expression(bits, depth - 1) for _ in range(count))})"

    def rung(self, bits):
        condition = self.expression(bits, 4)
        if bits and self.chance.random() < 0.6:
            return f"('set {self.chance.choice(bits)} {condition})"
        self.point += 1
        return f"('out @{self.point} {condition})"

    def program(self, bits, depth):
        way = self.chance.choice(("bit", "bit", "all", "rung")) if depth else "rung"
        if way == "bit":
            self.name += 1
            bit = f"${self.name}"
            return f"([{self.name} {self.program([*bits, bit], depth - 1)}] {self.chance.choice('01')})"
        if way == "all":
            return f"('all {' '.join(self.program(bits, depth - 1) for _ in range(self.chance.choice((1, 2, 3))))})"
        return self.rung(bits)


def by_chance(seed):
    chance = random.Random(seed)
    maker = Maker(chance)
    text = f"('all {maker.program([], 5)} {maker.program([], 5)} {maker.program([], 5)})"
    tree = image.tree_image(text, made=maker.name - 3)
    recording = image.recording([" ".join(f"@{point}={chance.choice('01')}" for point in (1, 2, 3)) for _ in range(12)])
    return pages.shown_tree(f"program {seed}", tree, recording)


def agrees(seed):
    """A page is made, and every coil of it, not the driven points alone, is what the runner says. A drawing's last flag is its coil's."""
    shown = by_chance(seed)
    coils = [[int(flags[-1]) for flags in scan.flags] for scan in making.found_in(shown).scans]
    return coils == pages.right_of(shown).coils and making.page_of(shown).count('<li class="rung') == len(coils[0])


def all_have_pages():
    return all(map(agrees, range(PROGRAMS)))


# ---- what scopes tell: each text with its coils and contacts in order, and where each comes from

ON = "(lambda f (#1 (#4 (syntax 'and) (#4 (syntax @1) (#3 (#0 f)))) f))"
TOLD = (
    # a macro that uses another: the inner one's contacts are not its own
    ("(let-syntax two (lambda f (syntax ('and @1 @2))) (let-syntax both (lambda f (syntax (two))) ('out @10 (both))))",
     "@10 @1:inner-two @2:inner-two"),
    # what is handed on to the inner one stays the outer one's, or the use's
    (f"(let-syntax on {ON} (let-syntax m (lambda f (#1 (#4 (syntax on) (#4 (syntax @3) (#3 (#0 f)))) f)) ('out @10 (m @4))))",
     "@10 @1:inner-on @3:own @4:handed"),
    # a bit from around the use
    (f"((lambda b (let-syntax on {ON} ('all ('set b (on b @2)) ('out @10 b)))) 0)", "b @1:own b:around @2:handed @10 b"),
    # a word that is handed in, and bound by the macro
    ("(let-syntax bit (lambda f (#1 (#4 (#1 (#4 (syntax lambda) (#3 (#0 f))) f) (#0 (syntax (0)))) f)) (bit w ('all ('set w @1) ('out @10 w))))",
     "w:handed @1:handed @10:handed w:handed"),
    # a lambda's word hides the macro's
    ("(let-syntax m (lambda f (syntax @1)) ((lambda m ('all ('set m @2) ('out @10 m))) 0))", "m @2 @10 m"),
    # two macros of one word, side by side, and one called as another's form
    ("('all (let-syntax m (lambda f (syntax @1)) ('out @10 (m))) (let-syntax m (lambda f (syntax @2)) ('out @11 (m))))", "@10 @1:own @11 @2:own"),
    ("('all (let-syntax m (lambda f (syntax @1)) ('out @10 (m))) (let-syntax f (lambda m (syntax @2)) ('out @11 (f))))", "@10 @1:own @11 @2:own"),
    # a macro that defines a macro
    ("(let-syntax m (lambda f (syntax (let-syntax n (lambda g (syntax @1)) ('out @10 (n))))) (m))", "@10:own @1:own"),
    # a use that stands in what another use hands in
    (f"(let-syntax on {ON} ('out @10 (on (on @2))))", "@10 @1:own @1:inner-on @2:handed"),
    # what is quoted
    ("('all ('out (quote @10) (quote @1)) ((lambda b ('out @11 b)) (quote 1)))", "@10 @1 @11 b"),
)


def called(panel, place):
    return panel.bits[place.number].word if place.kind == "$" else f"@{place.number}"


def said(panel, place, origin):
    kind = "" if origin is None else f":{origin.kind}" + (f"-{origin.macro}" if origin.macro else "")
    return called(panel, place) + kind


def told(text):
    found = making.found_in(pages.shown_of("told", text, b"\1\0"))
    parts = []
    for rung in found.panel.rungs:
        contacts = making.ladder.contacts_of(rung.condition)
        parts += [said(found.panel, rung.coil, rung.origin), *(said(found.panel, each.place, each.origin) for each in contacts)]
    return " ".join(parts)


def scopes_tell():
    """Each text whose parts are told otherwise."""
    return [f"{text}: {told(text)}" for text, right in TOLD if told(text) != right]
